//! The cases of a block, through the C interface alone: disk write at the primary, read of BLOCK at the standby.
//!
//! libbench.a has neither: with one more caller of the primary's range test the compiler would no longer inline it in
//! the checkpoint, nor, with slots that are not constant, leave the slots out of a read of PAGE.

use super::primary::{primary, ROUNDS};
use super::standby::{lent, standby};
use super::{filled, told};
use crate::interface::{self, PrimaryWords};
use crate::library::Lent;
use crate::model;
use crate::{Call, Interface};
use std::hint::black_box;

/// How many blocks the disk has; an epoch may have all of them.
const MOST: usize = 64;

/// The block that comes to an epoch which has some: a new one, or the last of them again, so that a search through them
/// in order passes all in either case.
#[derive(Clone, Copy)]
pub struct Blocks {
    pub u: usize,
    /// The epoch has this many, 0 and up.
    pub had: usize,
    pub again: bool,
}

impl Blocks {
    fn comes(self) -> usize {
        if self.again {
            self.had - 1
        } else {
            self.had
        }
    }
    fn name(self, call: &str) -> String {
        let which = if self.again { "the last again" } else { "a new one" };
        format!("{call}, U {}, {} in the epoch, {which}", self.u, self.had)
    }
}

/// A primary whose open epoch has these blocks.
fn writer(blocks: Blocks, l: usize) -> model::Primary {
    let mut p = primary(blocks.u, 1, 64, l, 0);
    (p.d, p.b) = (MOST as u64, MOST as u64);
    (p.blocks, p.records) = (blocks.had as u64, blocks.had as u64);
    p.written = std::array::from_fn(|i| i as u64);
    p
}

/// Disk writes of one block. After each the counts are set back, so that every one finds the same epoch.
pub struct DiskWrites {
    blocks: Blocks,
    words: PrimaryWords,
    one: Vec<u8>,
    disk: Vec<u8>,
    stream: Vec<u8>,
}

impl DiskWrites {
    pub fn new(blocks: Blocks) -> DiskWrites {
        let u = blocks.u;
        let stream = filled(model::least_stream(u as u64, 1, MOST as u64) as usize, 16);
        let words = interface::primary_words(&writer(blocks, stream.len()));
        DiskWrites { blocks, words, one: filled(u, 15), disk: filled(MOST * u, 17), stream }
    }
}

impl Call for DiskWrites {
    fn name(&self) -> String {
        self.blocks.name("disk write")
    }
    fn operations(&self) -> usize {
        ROUNDS
    }
    fn wanted(&self) -> u64 {
        2
    }
    fn ours(&mut self) -> u64 {
        self.model()
    }
    #[inline(never)]
    fn model(&mut self) -> u64 {
        let mut p = writer(self.blocks, self.stream.len());
        let (had, block, mut last) = (self.blocks.had as u64, self.blocks.comes() as u64, 0);
        for _ in 0..ROUNDS {
            last = told(model::disk_write(&mut p, &mut self.disk, &mut self.stream, block, &self.one));
            (p.blocks, p.records, p.waiting) = (had, had, 0);
            black_box(&mut p);
        }
        last
    }
}

impl Interface for DiskWrites {
    fn is_inlined(&self) -> bool {
        false
    }
    fn in_c(&mut self) -> u64 {
        let mut state = self.words;
        let (had, block, mut last) = (self.blocks.had as u64, self.blocks.comes(), 0);
        for _ in 0..ROUNDS {
            last = told(interface::disk_write(&mut state, &mut self.disk, &mut self.stream, block, &self.one));
            state[interface::PRIMARY_BLOCKS..][..3].copy_from_slice(&[had, had, 0]);
        }
        last
    }
}

/// Reads of the BLOCK of such a disk write, in the same way.
pub struct BlockReads {
    blocks: Blocks,
    state: interface::Standby,
    record: Vec<u8>,
    lent: Lent,
}

/// A standby that has these blocks of the epoch, none of them due.
fn receiving(blocks: Blocks) -> model::Standby {
    let mut s = standby(blocks.u, 1, blocks.had, 0, false);
    s.b = MOST as u64;
    s.due = 0;
    (s.blocks, s.records) = (blocks.had as u64, blocks.had as u64);
    s
}

impl BlockReads {
    pub fn new(blocks: Blocks) -> BlockReads {
        let mut write = DiskWrites::new(blocks);
        assert_eq!(write.in_c(), write.wanted());
        let mut record = write.stream;
        record.truncate(blocks.u + 10);
        BlockReads { blocks, state: interface::standby_words(&receiving(blocks)), record, lent: lent(blocks.u, 1) }
    }
}

impl Call for BlockReads {
    fn name(&self) -> String {
        self.blocks.name("read of BLOCK")
    }
    fn operations(&self) -> usize {
        ROUNDS
    }
    fn wanted(&self) -> u64 {
        (ROUNDS * self.record.len()) as u64
    }
    fn ours(&mut self) -> u64 {
        self.model()
    }
    #[inline(never)]
    fn model(&mut self) -> u64 {
        let mut s = receiving(self.blocks);
        let had = self.blocks.had as u64;
        let Lent { memory, pages, marks, blocks, reply } = &mut self.lent;
        let mut staging = model::Staging { memory, pages, marks, blocks };
        let mut used = 0;
        for _ in 0..ROUNDS {
            used += model::read(&mut s, &mut staging, &self.record, reply).used;
            (s.staged, s.blocks, s.records) = (had, had, had);
            black_box(&mut s);
        }
        used
    }
}

impl Interface for BlockReads {
    fn is_inlined(&self) -> bool {
        false
    }
    fn in_c(&mut self) -> u64 {
        let mut state = self.state;
        let had = self.blocks.had as u64;
        let mut used = 0;
        for _ in 0..ROUNDS {
            used += interface::read(&mut state, &mut self.lent, &self.record).used;
            state.words[interface::STANDBY_STAGED] = had;
            state.words[interface::STANDBY_BLOCKS..][..2].fill(had);
        }
        used
    }
}
