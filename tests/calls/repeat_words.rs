//! The words of a state that tell the blocks of its epoch, and what an accepted call makes of them and of the bytes of
//! the stream and of the slots.
use crate::checker::{demand, Check};
use crate::items::{Item, SLOTS_AT, STANDBY_LAST_AT, WRITTEN_AT};
use crate::lent::Lent;
use crate::made_up::record;

/// A primary with its open epoch.
pub struct Open<'a> {
    u: usize,
    m: u64,
    pub b: u64,
    epoch: u32,
    pub alone: bool,
    pub blocks: u64,
    pub records: u64,
    waiting: usize,
    written: &'a [u64],
}

impl Open<'_> {
    pub fn of(l: &Lent) -> Open<'_> {
        let words = l.words(Item::Primary).items();
        Open {
            u: words[0] as usize,
            m: words[1],
            b: words[3],
            epoch: words[8] as u32,
            alone: words[10] == 1,
            blocks: words[11],
            records: words[12],
            waiting: words[13] as usize,
            written: &words[WRITTEN_AT..],
        }
    }

    /// The blocks written in the open epoch.
    pub fn counted(&self) -> &[u64] {
        &self.written[..self.blocks as usize]
    }

    /// The numbers behind them.
    pub fn behind(&self) -> &[u64] {
        &self.written[self.blocks as usize..]
    }
}

/// A standby with its slots and the epoch that it receives.
pub struct Slots<'a> {
    u: usize,
    pub b: u64,
    pub s: u64,
    pub receiving: bool,
    pub staged: u64,
    due: usize,
    pub numbers: &'a [u64],
    pub blocks: u64,
    pub records: u64,
    pub pages: u64,
    data: &'a [u8],
    bytes: &'a [u8],
}

impl Slots<'_> {
    /// A read is lent the staged blocks and a record; what a tick is not lent is not looked at.
    pub fn of(l: &Lent) -> Slots<'_> {
        let (words, data, bytes) = (l.words(Item::Standby).items(), l.bytes(Item::Data), l.bytes(Item::Blocks));
        let [blocks, records, pages] = [0, 1, 2].map(|at| words[STANDBY_LAST_AT + at]);
        Slots {
            u: words[0] as usize,
            b: words[3],
            s: words[4],
            receiving: words[7] == 0,
            staged: words[9],
            due: words[10] as usize,
            numbers: &words[SLOTS_AT..STANDBY_LAST_AT],
            blocks,
            records,
            pages,
            data: data.items(),
            bytes: bytes.items(),
        }
    }

    /// The blocks that are due.
    pub fn due(&self) -> &[u64] {
        &self.numbers[..self.due]
    }

    /// The blocks of the epoch under way.
    pub fn fresh(&self) -> &[u64] {
        &self.numbers[self.due..self.staged as usize]
    }
}

/// "A BLOCK appended to the stream", for a block that comes again too; it is counted, and its block where that is
/// another. At a primary that is alone nothing of this changes.
pub fn accepted_write(had: &Open, block: u64, again: bool, before: &Lent, after: &Lent) -> Check {
    let has = Open::of(after);
    if had.alone {
        let same = (has.blocks, has.records, has.waiting) == (had.blocks, had.records, had.waiting);
        return demand(same && has.written == had.written, "a disk write when alone changes what is counted");
    }
    let mut written = had.written.to_vec();
    if !again {
        written[had.blocks as usize] = block;
    }
    demand(has.records == had.records + 1, "a disk write is not one more record")?;
    demand(has.blocks == had.blocks + !again as u64, "the primary's blocks are not the different ones")?;
    demand(has.written == written, "the blocks remembered are others")?;
    let body = [&block.to_le_bytes()[..2], before.bytes(Item::Data).items()].concat();
    let wanted = record(had.u as u64 + 6, 2, had.epoch, &body);
    let appended = &after.bytes(Item::Stream).items()[had.waiting..has.waiting];
    demand(appended == wanted, "the disk write's BLOCK is not appended to the stream")
}

/// "COMMIT's count is still of records"; both counts begin anew, and the numbers stay.
pub fn accepted_checkpoint(had: &Open, after: &Lent) -> Check {
    let (has, width) = (Open::of(after), if had.m > 4_096 { 4 } else { 2 });
    let end = &after.bytes(Item::Stream).items()[has.waiting - width..has.waiting];
    demand(*end == had.records.to_le_bytes()[..width], "the COMMIT's count is not of records")?;
    demand(has.blocks == 0 && has.records == 0, "a checkpoint leaves a count of the epoch closed")?;
    demand(has.written == had.written, "a checkpoint changes the blocks remembered")
}

/// The slot is the first of this epoch that has the block, else the next one: it gets the bytes. Every other slot, and
/// so every due one, stays as it is.
pub fn accepted_block(had: &Slots, block: u64, after: &Lent) -> Check {
    let (has, u) = (Slots::of(after), had.u);
    let due = had.due * u;
    demand(has.due() == had.due() && has.bytes[..due] == had.bytes[..due], "a BLOCK changes a due slot")?;
    let slot = had.due + had.fresh().iter().take_while(|&&one| one != block).count();
    let next = slot == had.staged as usize;
    demand(has.records == had.records + 1, "a BLOCK is not one more record")?;
    demand(has.blocks == had.blocks + next as u64, "the standby's blocks are not the different ones")?;
    demand(has.staged == had.staged + next as u64, "the staged slots are not one for each block")?;
    let mut numbers = had.numbers.to_vec();
    numbers[slot] = block;
    demand(has.numbers == numbers, "the slots' block numbers are others")?;
    let bytes = [&had.bytes[..slot * u], &had.data[10..10 + u], &had.bytes[(slot + 1) * u..]].concat();
    demand(has.bytes == bytes, "the slots' bytes are not the later ones in the earlier place")
}

/// Both counts begin anew, and the epoch's slots are due as they are.
pub fn accepted_commit(had: &Slots, after: &Lent) -> Check {
    let has = Slots::of(after);
    demand(has.blocks == 0 && has.records == 0, "a COMMIT leaves a count of its epoch")?;
    let same = has.staged == had.staged && has.numbers == had.numbers && has.bytes == had.bytes;
    demand(same && has.due as u64 == had.staged, "a COMMIT does not make the epoch's slots due as they are")
}

/// Both counts and the epoch's slots are dropped.
pub fn taken_over(after: &Lent) -> Check {
    let has = Slots::of(after);
    demand(has.blocks == 0 && has.records == 0, "a takeover leaves a count of the epoch dropped")?;
    demand(has.due as u64 == has.staged, "a takeover leaves a slot that is not due")
}
