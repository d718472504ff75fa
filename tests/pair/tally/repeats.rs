//! The situations of document 02, Job 9: a block written or read again in its epoch, or another.

use super::Tally;
use crate::model::{self, Pair, Primary, B, RECORDS, S};
use std::collections::BTreeSet;

/// What a line finds at the end that it is for.
#[derive(Default)]
struct Found {
    /// The block that a `d` writes, or that of the BLOCK that an `m` reads.
    block: u64,
    /// That block is one of the epoch's already.
    again: bool,
    /// The epoch's different blocks, and its BLOCK records.
    blocks: usize,
    records: usize,
    /// At the standby: S blocks are staged, and the block has a due slot.
    full: bool,
    due: bool,
}

#[derive(Default)]
pub struct Repeats {
    found: Found,
    /// The primary's blocks in the epoch before the open one, and in the one that a `c` closes.
    earlier: BTreeSet<u64>,
    closing: BTreeSet<u64>,
    /// Blocks whose write was refused with 15 in the open epoch.
    lacked_bytes: BTreeSet<u64>,
    /// A flush stored a block while one of the standby's epoch was staged.
    flushed: bool,
}

impl Repeats {
    /// Before a line.
    pub fn before(&mut self, pair: &Pair, line: &[u8]) {
        match model::parse(line) {
            Some(('d', numbers)) => self.found = at_primary(&pair.primary, numbers[0]),
            Some(('c', _)) => self.closing = pair.primary.epoch_blocks.clone(),
            Some(('m' | 'f' | 'k', _)) => self.found = at_standby(pair),
            _ => {}
        }
    }

    /// After it, with what it printed.
    pub fn after(&mut self, printed: (char, u64, u64), tally: &mut Tally) {
        let Found { blocks, records, .. } = self.found;
        match printed {
            ('d', number, _) => self.disk_write(number, tally),
            ('c', 0, _) => {
                self.earlier = std::mem::take(&mut self.closing);
                self.lacked_bytes.clear();
            }
            ('m', number, value) => self.reading(number, value, tally),
            ('f', _, stored) => self.flushed |= stored == 1 && blocks > 0,
            ('k', ..) => tally.reach("k after repeats in the epoch", records > blocks),
            _ => {}
        }
    }

    fn disk_write(&mut self, number: u64, tally: &mut Tally) {
        let Found { block, again, blocks, records, .. } = self.found;
        match number {
            0 => {
                tally.reach("d again beyond B writes", again && records >= B);
                tally.reach("d again with B blocks written", again && blocks == B);
            }
            14 if records == RECORDS => {
                tally.reach("14 at 65535 records for a block again", again);
                tally.reach("14 at 65535 records for another block below B", !again && blocks < B);
            }
            14 => {
                tally.reach("14 for another block after repeats", records > blocks);
                tally.reach("14 for a block of the epoch before", self.earlier.contains(&block));
                tally.reach("14 for a block refused with 15 before", self.lacked_bytes.contains(&block));
            }
            15 => {
                tally.reach("15 for a block again with B blocks written", again && blocks == B);
                self.lacked_bytes.insert(block);
            }
            _ => {}
        }
    }

    fn reading(&mut self, number: u64, value: u64, tally: &mut Tally) {
        let Found { again, blocks, records, full, due, .. } = self.found;
        match (number, value) {
            (0, 2) => {
                tally.reach("m read a block again", again);
                tally.reach("m read a block again with S staged", again && full);
                tally.reach("m read a block again after a flush in its epoch", again && self.flushed);
                tally.reach("m read a block first that is due too", !again && due);
            }
            (0, 4) => {
                tally.reach("COMMIT of more records than blocks", records > blocks);
                self.flushed = false;
            }
            (17, _) => {
                tally.reach("17 after repeats in the epoch", records > blocks);
                tally.reach("17 for a block that is due", due);
            }
            _ => {}
        }
    }
}

fn at_primary(primary: &Primary, block: u64) -> Found {
    let again = primary.epoch_blocks.contains(&block);
    Found { block, again, blocks: primary.epoch_blocks.len(), records: primary.records, ..Found::default() }
}

/// Only a BLOCK has a block: for another record, or none, `again` and `due` are false.
fn at_standby(pair: &Pair) -> Found {
    let standby = &pair.standby;
    let mut found = Found {
        blocks: standby.epoch_blocks(),
        records: standby.records,
        full: standby.blocks.len() == S,
        ..Found::default()
    };
    // a record's kind is at 2, a BLOCK's number behind the epoch at 8
    let head: Vec<u8> = pair.link.iter().chain(&pair.primary.stream).take(10).copied().collect();
    if head.len() == 10 && head[2] == 2 {
        let block = u16::from_le_bytes([head[8], head[9]]);
        found.block = block as u64;
        found.again = standby.slot_of(block).is_some();
        found.due = standby.blocks.range(..standby.due).any(|(number, _)| *number == block);
    }
    found
}
