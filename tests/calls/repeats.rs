//! Blocks that come again in their epoch (document 02, Job 9): what came of every sort, and what every call must do to
//! the counts and the slots. It is read from the words and the bytes that the library was lent and that it left, and
//! not from the model's state.
use crate::checker::{demand, Check};
use crate::items::{code, Item};
use crate::kinds::unit_number;
use crate::lent::Lent;
use crate::model::{is_commit, MOST_RECORDS};
use crate::repeat_words::*;
use crate::sorts::{self, Sorts};

/// Disk writes at a protected primary, by the blocks written in its open epoch before.
const WRITES: [&str; 8] = [
    "14, B different blocks are written, and this is another",
    "14, 65,535 records, and the block is written before",
    "14, 65,535 records, and the block is another within the allowance",
    "0, the block is written before, and allowance is left",
    "0, the block is written before, and B different blocks are written",
    "0, the 65,535th record",
    "0, the block's number stood only behind those that count",
    "15, the block is written before",
];

/// BLOCKs that are in order, by the slots of the standby.
const BLOCKS: [&str; 12] = [
    "14, B different blocks have come, and this is another",
    "14, 65,535 records, and the block is staged in the epoch",
    "14, 65,535 records, and the block is another with allowance and a slot left",
    "17, and a due slot has the block",
    "0, a slot is reused, and allowance and a slot are left",
    "0, a slot is reused, and B different blocks have come",
    "0, a slot is reused, and S blocks are staged",
    "0, a slot is reused that is the first of several",
    "0, a slot is reused, and a due one has the block too",
    "0, the next slot is used, and a due one has the block",
    "0, the next slot is used, and the block's number stood behind the staged ones",
    "0, the 65,535th record",
];

/// COMMITs whose count of pages is right, checkpoints and takeovers, by the records of the epoch.
const OTHERS: [&str; 6] = [
    "COMMIT: 0, more records than different blocks",
    "COMMIT: 0, 65,535 records",
    "COMMIT: 10, the count is that of different blocks and not of records",
    "checkpoint: 0, more records than different blocks",
    "checkpoint: 0, 65,535 records",
    "takeover: more records than different blocks",
];

/// How often each sort came.
#[derive(Default)]
pub struct Repeats {
    writes: [u64; WRITES.len()],
    blocks: [u64; BLOCKS.len()],
    others: [u64; OTHERS.len()],
    /// BLOCKs for which a slot was reused.
    pub reused: u64,
}

fn count<const N: usize>(counts: &mut [u64; N], came: [bool; N]) {
    counts.iter_mut().zip(came).for_each(|(count, came)| *count += came as u64);
}

impl Repeats {
    /// Counts and checks a call that did not give 1: so the words are a state in range.
    pub fn check(&mut self, which: usize, number: u64, before: &Lent, after: &Lent) -> Check {
        match which {
            code::DISK_WRITE => self.disk_write(number, before, after),
            code::CHECKPOINT if number == 0 => self.checkpoint(before, after),
            code::READ => self.read(number, before, after),
            code::STANDBY_TICK => self.tick(before, after),
            _ => Ok(()),
        }
    }

    fn disk_write(&mut self, number: u64, before: &Lent, after: &Lent) -> Check {
        let (open, block) = (Open::of(before), before.number(Item::Place));
        let (again, behind) = (open.counted().contains(&block), open.behind().contains(&block));
        let (full, most) = (open.blocks == open.b, open.records == MOST_RECORDS);
        if !open.alone {
            count(&mut self.writes, [
                number == 14 && !again && full && !most,
                number == 14 && again && most,
                number == 14 && !again && most && !full,
                number == 0 && again && !full,
                number == 0 && again && full,
                number == 0 && open.records == MOST_RECORDS - 1,
                number == 0 && !again && behind,
                number == 15 && again,
            ]);
        }
        if matches!(number, 0 | 14 | 15) {
            let wanted = !open.alone && (most || full && !again);
            demand((number == 14) == wanted, "14 is not given by the different blocks and the records")?;
        }
        if number == 0 { accepted_write(&open, block, again, before, after) } else { Ok(()) }
    }

    fn checkpoint(&mut self, before: &Lent, after: &Lent) -> Check {
        let open = Open::of(before);
        self.others[3] += (open.records > open.blocks) as u64;
        self.others[4] += (open.records == MOST_RECORDS) as u64;
        accepted_checkpoint(&open, after)
    }

    fn read(&mut self, number: u64, before: &Lent, after: &Lent) -> Check {
        let (data, slots) = (before.bytes(Item::Data).items(), Slots::of(before));
        match (number, data.get(2..4)) {
            (0 | 14 | 17, Some([2, 0])) => self.block(number, unit_number(data).unwrap_or(0), &slots, after),
            (0 | 10, Some(&[kind, 0])) if is_commit(kind as u64) => self.commit(number, data, &slots, after),
            _ => Ok(()),
        }
    }

    fn block(&mut self, number: u64, block: u64, slots: &Slots, after: &Lent) -> Check {
        let (due, fresh) = (slots.due().contains(&block), slots.fresh().iter().filter(|&&one| one == block).count());
        let (full, staged, most) = (slots.blocks == slots.b, slots.staged == slots.s, slots.records == MOST_RECORDS);
        let (reused, next) = (number == 0 && fresh > 0, number == 0 && fresh == 0);
        count(&mut self.blocks, [
            number == 14 && fresh == 0 && full && !most,
            number == 14 && fresh > 0 && most,
            number == 14 && fresh == 0 && most && !full && !staged,
            number == 17 && due,
            reused && !full && !staged,
            reused && full,
            reused && staged,
            reused && fresh > 1,
            reused && due,
            next && due,
            next && slots.numbers[slots.staged as usize..].contains(&block),
            number == 0 && slots.records == MOST_RECORDS - 1,
        ]);
        self.reused += reused as u64;
        let wanted = if most || full && fresh == 0 { 14 } else if staged && fresh == 0 { 17 } else { 0 };
        demand(number == wanted, "14 and 17 are not given by the slots and the records")?;
        if number == 0 { accepted_block(slots, block, after) } else { Ok(()) }
    }

    fn commit(&mut self, number: u64, data: &[u8], slots: &Slots, after: &Lent) -> Check {
        let [pages, records] = counts_of(data);
        self.others[0] += (number == 0 && slots.records > slots.blocks) as u64;
        self.others[1] += (number == 0 && slots.records == MOST_RECORDS) as u64;
        self.others[2] += (number == 10 && pages == slots.pages && records == slots.blocks) as u64;
        let wanted = pages == slots.pages && records == slots.records;
        demand((number == 0) == wanted, "a COMMIT is not judged by the pages and the records")?;
        if number == 0 { accepted_commit(slots, after) } else { Ok(()) }
    }

    fn tick(&mut self, before: &Lent, after: &Lent) -> Check {
        let slots = Slots::of(before);
        if !slots.receiving || Slots::of(after).receiving {
            return Ok(());
        }
        self.others[5] += (slots.records > slots.blocks) as u64;
        taken_over(after)
    }

    fn sorts(&self) -> [Sorts<'_>; 3] {
        [
            ("disk writes at a protected primary, with blocks that come again in their epoch", &WRITES, &self.writes),
            ("BLOCKs, with blocks that come again in their epoch", &BLOCKS, &self.blocks),
            ("other calls, with blocks that come again in their epoch", &OTHERS, &self.others),
        ]
    }

    pub fn print(&self) {
        sorts::print(&self.sorts());
    }

    /// Whether every sort came.
    pub fn all_came(&self) -> bool {
        sorts::all_came(&self.sorts())
    }
}

/// The counts of pages and of records that a whole COMMIT of either width says.
fn counts_of(data: &[u8]) -> [u64; 2] {
    let width = if data[2] == 9 { 4 } else { 2 };
    [8, 8 + width].map(|at| data[at..at + width].iter().rev().fold(0, |number, &byte| number << 8 | byte as u64))
}
