//! The standby's cases: read of PAGE and of COMMIT, flush.

use super::{filled, how_many, marks, told};
use crate::interface;
use crate::library::{self, Lent};
use crate::model;
use crate::{Call, Case, Interface};
use std::hint::black_box;

/// The state that libbench.a makes of the same numbers.
pub fn standby(u: usize, m: usize, staged: usize, had: usize, seen: bool) -> model::Standby {
    model::Standby {
        u: u as u64,
        m: m as u64,
        d: 64,
        b: 0,
        s: 64,
        t: 1000,
        count: 0,
        mode: model::Mode::Receiving,
        received: 1,
        staged: staged as u64,
        due: staged as u64,
        slots: std::array::from_fn(|i| i as u64),
        blocks: 0,
        records: 0,
        pages: had as u64,
        next_page: had as u64,
        state_seen: seen,
        staged_cpu: [5; 64],
        kept_cpu: [3; 64],
    }
}

#[inline(never)]
fn model_read(u: usize, m: usize, had: usize, seen: bool, rounds: usize, bytes: &[u8], lent: &mut Lent) -> u64 {
    let mut s = standby(u, m, 0, had, seen);
    let mut staging = model::Staging {
        memory: &mut lent.memory,
        pages: &mut lent.pages,
        marks: &mut lent.marks,
        blocks: &mut lent.blocks,
    };
    let mut at = 0;
    for _ in 0..rounds {
        at += model::read(&mut s, &mut staging, &bytes[at..], &mut lent.reply).used as usize;
    }
    black_box(&s);
    at as u64
}

pub fn lent(u: usize, m: usize) -> Lent {
    Lent {
        memory: filled(m * u, 3),
        pages: filled(m * u, 4),
        marks: vec![0; m.div_ceil(64)],
        blocks: filled(64 * u, 5),
        reply: [0; 8],
    }
}

/// A COMMIT of epoch 2 with this many pages and no block, as M calls for.
fn commit(m: usize, pages: usize) -> Vec<u8> {
    let count = (pages as u32).to_le_bytes();
    if model::is_wide(m as u64) {
        [&[12, 0, 9, 0, 2, 0, 0, 0], &count[..], &[0; 4]].concat()
    } else {
        [&[8, 0, 4, 0, 2, 0, 0, 0], &count[..2], &[0; 2]].concat()
    }
}

/// A COMMIT with every step-th page staged.
pub struct Commit {
    u: usize,
    m: usize,
    step: usize,
    set: Vec<u64>,
    record: Vec<u8>,
    lent: Lent,
}

impl Commit {
    pub fn new(u: usize, m: usize, step: usize) -> Commit {
        Commit { u, m, step, set: marks(m, step), record: commit(m, m.div_ceil(step)), lent: lent(u, m) }
    }
    fn count(&self) -> usize {
        self.m.div_ceil(self.step)
    }
}

impl Call for Commit {
    fn name(&self) -> String {
        format!("COMMIT, U {}, M {}, staged {}", self.u, self.m, how_many(self.m, self.step))
    }
    fn wanted(&self) -> u64 {
        self.record.len() as u64
    }
    fn ours(&mut self) -> u64 {
        library::read(self.u, self.m, self.count(), true, 1, &self.record, &mut self.lent)
    }
    fn model(&mut self) -> u64 {
        model_read(self.u, self.m, self.count(), true, 1, &self.record, &mut self.lent)
    }
}

impl Case for Commit {
    fn bytes(&self) -> usize {
        self.count() * self.u
    }
    fn reset(&mut self) {
        self.lent.marks.copy_from_slice(black_box(&self.set));
    }
    fn copy(&mut self) {
        if self.step == 1 {
            library::base_copy(&mut self.lent.memory, &self.lent.pages);
        } else {
            library::base_place(&mut self.lent.memory, &self.lent.pages, self.u, self.step);
        }
    }
}

const PAGES: usize = 64;

/// The PAGE records of a checkpoint of which the first 64 pages are dirty, read one by one.
pub struct PageReads {
    u: usize,
    m: usize,
    state: interface::Standby,
    bytes: Vec<u8>,
    lent: Lent,
}

impl PageReads {
    pub fn new(u: usize, m: usize) -> PageReads {
        let mut bytes = filled(model::least_stream(u as u64, m as u64, 0) as usize, 6);
        let mut dirty = marks(m, m);
        dirty[0] = u64::MAX;
        assert_eq!(library::checkpoint(u, m, 0, &filled(m * u, 7), &mut dirty, &mut bytes), 2);
        bytes.truncate(PAGES * model::page_record(u as u64, m as u64) as usize);
        let state = interface::standby_words(&standby(u, m, 0, 0, false));
        PageReads { u, m, state, bytes, lent: lent(u, m) }
    }
}

impl Call for PageReads {
    fn name(&self) -> String {
        if model::is_wide(self.m as u64) {
            format!("read of PAGE, U {}, M {}", self.u, self.m)
        } else {
            format!("read of PAGE, U {}", self.u)
        }
    }
    fn operations(&self) -> usize {
        PAGES
    }
    fn wanted(&self) -> u64 {
        self.bytes.len() as u64
    }
    fn ours(&mut self) -> u64 {
        library::read(self.u, self.m, 0, false, PAGES, &self.bytes, &mut self.lent)
    }
    fn model(&mut self) -> u64 {
        model_read(self.u, self.m, 0, false, PAGES, &self.bytes, &mut self.lent)
    }
}

impl Case for PageReads {
    fn bytes(&self) -> usize {
        self.u
    }
    fn copy(&mut self) {
        let gap = model::page_record(0, self.m as u64) as usize;
        library::base_scatter(&mut self.lent.pages, &self.bytes, self.u, PAGES, gap);
    }
}

impl Interface for PageReads {
    fn in_c(&mut self) -> u64 {
        let mut state = self.state;
        let mut at = 0;
        for _ in 0..PAGES {
            at += interface::read(&mut state, &mut self.lent, &self.bytes[at..]).used as usize;
        }
        at as u64
    }
}

/// A flush of n of the staged blocks, which are all due.
pub struct Flush {
    u: usize,
    staged: usize,
    n: usize,
    slots: Vec<u8>,
    disk: Vec<u8>,
}

impl Flush {
    pub fn new(u: usize, staged: usize, n: usize) -> Flush {
        Flush { u, staged, n, slots: filled(64 * u, 13), disk: filled(64 * u, 14) }
    }
}

impl Call for Flush {
    fn name(&self) -> String {
        format!("flush of {}, U {}, {} due", self.n, self.u, self.staged)
    }
    fn wanted(&self) -> u64 {
        self.n as u64
    }
    fn ours(&mut self) -> u64 {
        library::flush(self.u, self.staged, self.n, &mut self.slots, &mut self.disk)
    }
    #[inline(never)]
    fn model(&mut self) -> u64 {
        let mut s = standby(self.u, 1, self.staged, 0, false);
        let r = model::flush(&mut s, &mut self.slots, &mut self.disk, self.n as u64);
        black_box(&s);
        told(r)
    }
}

impl Case for Flush {
    fn bytes(&self) -> usize {
        self.staged * self.u
    }
    fn copy(&mut self) {
        library::base_move_out(&mut self.disk, &mut self.slots, self.n * self.u, self.staged * self.u);
    }
}
