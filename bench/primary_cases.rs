//! The primary's cases: checkpoint, drain, packet and take.

use super::{filled, how_many, marks, told};
use crate::interface::{self, PrimaryWords};
use crate::library;
use crate::model;
use crate::{Call, Case, Interface};
use std::hint::black_box;

/// The state that libbench.a makes of the same numbers.
pub fn primary(u: usize, m: usize, q: usize, l: usize, waiting: usize) -> model::Primary {
    let none = model::Packet { epoch: 0, port: 0, length: 0 };
    model::Primary {
        u: u as u64,
        m: m as u64,
        d: 0,
        b: 0,
        q: q as u64,
        l: l as u64,
        t: 1000,
        count: 0,
        open: 2,
        acknowledged: 0,
        alone: false,
        blocks: 0,
        records: 0,
        waiting: waiting as u64,
        packets: 0,
        held: 0,
        queue: [none; 64],
        written: [0; 64],
    }
}

/// A checkpoint with every step-th page dirty.
pub struct Checkpoint {
    u: usize,
    m: usize,
    step: usize,
    set: Vec<u64>,
    dirty: Vec<u64>,
    memory: Vec<u8>,
    stream: Vec<u8>,
}

impl Checkpoint {
    pub fn new(u: usize, m: usize, step: usize) -> Checkpoint {
        let set = marks(m, step);
        Checkpoint {
            u,
            m,
            step,
            dirty: set.clone(),
            set,
            memory: filled(m * u, 1),
            stream: filled(model::least_stream(u as u64, m as u64, 0) as usize, 2),
        }
    }
}

impl Call for Checkpoint {
    fn name(&self) -> String {
        format!("checkpoint, U {}, M {}, dirty {}", self.u, self.m, how_many(self.m, self.step))
    }
    fn wanted(&self) -> u64 {
        2
    }
    fn ours(&mut self) -> u64 {
        library::checkpoint(self.u, self.m, 0, &self.memory, &mut self.dirty, &mut self.stream)
    }
    #[inline(never)]
    fn model(&mut self) -> u64 {
        let mut p = primary(self.u, self.m, 64, self.stream.len(), 0);
        let r = model::checkpoint(&mut p, &self.memory, &mut self.dirty, &mut self.stream, &[7; 64]);
        black_box(&p);
        told(r)
    }
}

impl Case for Checkpoint {
    fn bytes(&self) -> usize {
        self.m.div_ceil(self.step) * self.u
    }
    fn reset(&mut self) {
        self.dirty.copy_from_slice(black_box(&self.set));
    }
    fn copy(&mut self) {
        if self.step == 1 {
            library::base_copy(&mut self.stream, &self.memory);
        } else {
            let gap = model::page_record(0, self.m as u64) as usize;
            library::base_gather(&mut self.stream, &self.memory, self.u, self.step, gap);
        }
    }
}

/// Drains of n bytes, the first of which finds `waiting` bytes.
pub struct Drain {
    n: usize,
    waiting: usize,
    rounds: usize,
    stream: Vec<u8>,
    destination: Vec<u8>,
}

impl Drain {
    pub fn new(n: usize, waiting: usize, rounds: usize) -> Drain {
        Drain { n, waiting, rounds, stream: filled(waiting.max(4096), 8), destination: filled(n, 9) }
    }
}

impl Call for Drain {
    fn name(&self) -> String {
        format!("drain of {}, {} waiting", self.n, self.waiting)
    }
    fn operations(&self) -> usize {
        self.rounds
    }
    fn wanted(&self) -> u64 {
        self.n as u64
    }
    fn ours(&mut self) -> u64 {
        library::drain(self.waiting, self.n, self.rounds, &mut self.stream, &mut self.destination)
    }
    #[inline(never)]
    fn model(&mut self) -> u64 {
        let mut p = primary(64, 1, 64, self.stream.len(), self.waiting);
        let mut last = 0;
        for _ in 0..self.rounds {
            last = told(model::drain(&mut p, &mut self.stream, self.n as u64, &mut self.destination));
        }
        black_box(&p);
        last
    }
}

impl Case for Drain {
    fn bytes(&self) -> usize {
        self.waiting - self.n * (self.rounds - 1) / 2
    }
    fn copy(&mut self) {
        for i in 0..self.rounds {
            let total = self.waiting - self.n * i;
            library::base_move_out(&mut self.destination, &mut self.stream, self.n, total);
        }
    }
}

/// The others are of this many bytes at first, so that 63 of them leave room for packets of 1,514.
const OTHER: usize = 64;
/// How often a call that is made in turns is made.
pub const ROUNDS: usize = 16;

/// A packet in and a packet out, on a primary that is alone and holds others of port 0. Of port 0 the oldest of these
/// goes out; of another port the one that came in, from behind them.
pub struct Packets {
    kept: usize,
    port: usize,
    words: PrimaryWords,
    one: Vec<u8>,
    held: Vec<u8>,
    destination: Vec<u8>,
}

/// A primary that is alone and holds others.
fn holding(kept: usize, q: usize) -> model::Primary {
    let mut p = primary(64, 1, q, 158, 0);
    p.alone = true;
    p.packets = kept as u64;
    p.held = (kept * OTHER) as u64;
    p.queue[..kept].fill(model::Packet { epoch: 1, port: 0, length: OTHER as u64 });
    p
}

impl Packets {
    pub fn new(n: usize, kept: usize, port: usize) -> Packets {
        let (one, held, destination) = (filled(n, 11), filled(32_768, 10), filled(1514, 12));
        let words = interface::primary_words(&holding(kept, held.len()));
        Packets { kept, port, words, one, held, destination }
    }
    /// Whether the oldest of all goes out, and not the packet that came in.
    fn oldest_goes(&self) -> bool {
        self.kept > 0 && self.port == 0
    }
    /// The length of each packet handed out.
    fn out(&self) -> usize {
        if self.oldest_goes() {
            OTHER
        } else {
            self.one.len()
        }
    }
    /// The bytes held before a round.
    fn others(&self, round: usize) -> usize {
        self.kept * OTHER + round * (self.one.len() - self.out())
    }
    /// The bytes in front of the packet handed out in a round.
    fn before(&self, round: usize) -> usize {
        if self.oldest_goes() {
            0
        } else {
            self.others(round)
        }
    }
}

impl Call for Packets {
    fn name(&self) -> String {
        let (n, kept) = (self.one.len(), self.kept);
        match self.port {
            0 => format!("packet of {n} and take, {kept} others held"),
            port => format!("packet of {n} and take by port {port}, {kept} of port 0 held"),
        }
    }
    fn operations(&self) -> usize {
        ROUNDS
    }
    fn wanted(&self) -> u64 {
        self.out() as u64
    }
    fn ours(&mut self) -> u64 {
        library::packets(self.kept, OTHER, ROUNDS, &mut self.held, self.port, &self.one, &mut self.destination)
    }
    #[inline(never)]
    fn model(&mut self) -> u64 {
        let mut p = holding(self.kept, self.held.len());
        let (port, mut last) = (self.port as u64, 0);
        for _ in 0..ROUNDS {
            let r = model::packet(&mut p, &mut self.held, port, &self.one);
            last = if r.number == 0 {
                told(model::take(&mut p, &mut self.held, port, &mut self.destination))
            } else {
                u64::MAX
            };
        }
        black_box(&p);
        last
    }
}

impl Case for Packets {
    fn bytes(&self) -> usize {
        let moved: usize = (0..ROUNDS).map(|i| self.others(i) - self.before(i)).sum();
        2 * self.one.len() + moved / ROUNDS
    }
    fn copy(&mut self) {
        let out = self.out();
        for i in 0..ROUNDS {
            let (others, before) = (self.others(i), self.before(i));
            library::base_in_and_out(&mut self.destination, &mut self.held, &self.one, others, before, out);
        }
    }
}

impl Interface for Packets {
    fn calls(&self) -> usize {
        2
    }
    fn in_c(&mut self) -> u64 {
        let mut state = self.words;
        let mut last = 0;
        for _ in 0..ROUNDS {
            let r = interface::packet(&mut state, &mut self.held, self.port, &self.one);
            last = if r.number == 0 {
                told(interface::take(&mut state, &mut self.held, self.port, &mut self.destination))
            } else {
                u64::MAX
            };
        }
        last
    }
}
