//! A second writing of the two ends, start and the disk choice, made from document 01 and the jobs of
//! document 02 that have landed alone.
//!
//! Every call works in place on the state and on the lent buffers and answers with a number, a value, the
//! bytes used and the bytes missing. A refused call changes nothing, nor does one that is cut short. Nothing
//! here is shared with the verified program.
#![allow(dead_code, unused_imports)] // a program may use only some of the calls

/// The number that stands for a record cut short.
pub const CUT_SHORT: u64 = 256;
pub const LAST_EPOCH: u32 = u32::MAX;
/// The upper ends of M and of L (document 02, Job 7).
pub const MOST_PAGES: u64 = 65_536;
pub const MOST_STREAM: u64 = 536_870_912;
/// A packet's ports are 0 to this one (document 02, Job 6).
pub const MOST_PORT: u64 = 3;
pub const PORTS: usize = MOST_PORT as usize + 1;
/// "14 is also given at 65,535 BLOCK records in an epoch; more in a state gives 1" (document 02, Job 9).
pub const MOST_RECORDS: u64 = 65_535;

#[derive(Clone, Copy, PartialEq, Eq, Debug, Default)]
pub struct Settings {
    pub u: u64,
    pub m: u64,
    pub d: u64,
    pub b: u64,
    pub s: u64,
    pub q: u64,
    pub l: u64,
    pub t: u64,
}

#[derive(Clone, Copy, PartialEq, Eq, Debug, Default)]
pub struct Packet {
    pub epoch: u32,
    pub port: u16,
    pub length: u64,
}

#[derive(Clone, PartialEq, Eq, Debug)]
pub struct Primary {
    pub u: u64,
    pub m: u64,
    pub d: u64,
    pub b: u64,
    pub q: u64,
    pub l: u64,
    pub t: u64,
    pub count: u64,
    pub open: u32,
    pub acknowledged: u32,
    pub alone: bool,
    /// The different blocks of the open epoch, and its BLOCK records.
    pub blocks: u64,
    pub records: u64,
    pub waiting: u64,
    pub packets: u64,
    pub held: u64,
    pub queue: [Packet; 64],
    /// The numbers of the open epoch's different blocks: the first `blocks` of these.
    pub written: [u64; 64],
}

#[derive(Clone, Copy, PartialEq, Eq, Debug)]
pub enum Mode {
    Receiving,
    TakingOver,
    Active,
}

#[derive(Clone, PartialEq, Eq, Debug)]
pub struct Standby {
    pub u: u64,
    pub m: u64,
    pub d: u64,
    pub b: u64,
    pub s: u64,
    pub t: u64,
    pub count: u64,
    pub mode: Mode,
    pub received: u32,
    pub staged: u64,
    pub due: u64,
    pub slots: [u64; 64],
    /// The different blocks of the epoch under way, and its BLOCK records.
    pub blocks: u64,
    pub records: u64,
    pub pages: u64,
    pub next_page: u64,
    pub state_seen: bool,
    pub staged_cpu: [u8; 64],
    pub kept_cpu: [u8; 64],
}

#[derive(Clone, Copy, PartialEq, Eq, Debug)]
pub struct Reply {
    pub number: u64,
    pub value: u64,
    pub used: u64,
    /// How many more bytes would complete the header or the record that is cut short; 0 in every other answer.
    pub missing: u64,
}

fn accepted(value: u64) -> Reply {
    Reply { number: 0, value, used: 0, missing: 0 }
}

fn refused(number: u64) -> Reply {
    Reply { number, value: 0, used: 0, missing: 0 }
}

fn cut_short(missing: u64) -> Reply {
    Reply { missing, ..refused(CUT_SHORT) }
}

impl Primary {
    /// The state that a refused start gives.
    pub fn zero() -> Primary {
        Primary {
            u: 0, m: 0, d: 0, b: 0, q: 0, l: 0, t: 0, count: 0, open: 0, acknowledged: 0, alone: false,
            blocks: 0, records: 0, waiting: 0, packets: 0, held: 0, queue: [Packet::default(); 64], written: [0; 64],
        }
    }

    pub fn in_range(&self) -> bool {
        sizes_in_range(self.u, self.m, self.d, self.b, self.t)
            && self.q <= 32_768
            && self.l >= least_stream(self.u, self.m, self.b)
            && self.l <= MOST_STREAM
            && self.queue_in_range()
            && self.acknowledged < self.open
            && self.waiting <= self.l
            && self.blocks <= self.b
            && self.records <= MOST_RECORDS
            && count_in_range(self.count, self.t, !self.alone)
    }

    fn queue_in_range(&self) -> bool {
        if self.packets > 64 {
            return false;
        }
        let (mut sum, mut before) = (0, 0);
        for packet in self.held_packets() {
            if packet.length < 1 || packet.length > 1_514 || packet.epoch < before || packet.epoch > self.open {
                return false;
            }
            if packet.port as u64 > MOST_PORT {
                return false;
            }
            sum += packet.length;
            before = packet.epoch;
        }
        sum == self.held && sum <= self.q
    }

    /// The packets held, of all ports, oldest first.
    fn held_packets(&self) -> &[Packet] {
        &self.queue[..self.packets.min(64) as usize]
    }

    /// The place of a port's oldest packet.
    pub fn oldest_of(&self, port: u64) -> Option<usize> {
        self.held_packets().iter().position(|packet| packet.port as u64 == port)
    }

    /// Whether a packet may be handed out, as far as its epoch goes.
    fn is_free(&self, packet: &Packet) -> bool {
        self.alone || packet.epoch <= self.acknowledged
    }

    /// The place of a port's oldest packet, where that one may be handed out.
    pub fn free_of(&self, port: u64) -> Option<usize> {
        self.oldest_of(port).filter(|&at| self.is_free(&self.queue[at]))
    }

    /// Whether a closed epoch is not acknowledged yet.
    fn outstanding(&self) -> bool {
        self.open - self.acknowledged > 1
    }
}

impl Standby {
    /// The state that a refused start gives.
    pub fn zero() -> Standby {
        Standby {
            u: 0, m: 0, d: 0, b: 0, s: 0, t: 0, count: 0, mode: Mode::Receiving, received: 0, staged: 0, due: 0,
            slots: [0; 64], blocks: 0, records: 0, pages: 0, next_page: 0, state_seen: false,
            staged_cpu: [0; 64], kept_cpu: [0; 64],
        }
    }

    pub fn in_range(&self) -> bool {
        sizes_in_range(self.u, self.m, self.d, self.b, self.t)
            && self.s >= self.b
            && self.s <= 64
            && self.staged <= self.s
            && self.due <= self.staged
            && self.slots[..self.staged as usize].iter().all(|&number| number < self.d)
            && self.blocks <= self.b
            && self.records <= MOST_RECORDS
            && self.pages <= self.m
            && count_in_range(self.count, self.t, self.mode == Mode::Receiving)
    }

    /// What is known of the epoch under way is forgotten.
    fn forget_epoch(&mut self) {
        self.blocks = 0;
        self.records = 0;
        self.pages = 0;
        self.next_page = 0;
        self.state_seen = false;
    }
}

fn sizes_in_range(u: u64, m: u64, d: u64, b: u64, t: u64) -> bool {
    (64..=4_096).contains(&u)
        && u % 64 == 0
        && (1..=MOST_PAGES).contains(&m)
        && d <= 4_096
        && b <= 64
        && (1..=60_000).contains(&t)
}

fn count_in_range(count: u64, patience: u64, counting: bool) -> bool {
    count <= patience && !(counting && count == patience)
}

/// Whether a lent length is the exact one.
fn exact(length: usize, wanted: u64) -> bool {
    length as u64 == wanted
}

pub fn mark_words(m: u64) -> u64 {
    m.div_ceil(64)
}

/// The bits of a word of marks that stand for pages below M.
fn page_bits(m: u64, word: usize) -> u64 {
    let left = m - word as u64 * 64;
    if left >= 64 { u64::MAX } else { (1 << left) - 1 }
}

fn clear_marks(marks: &mut [u64], m: u64) {
    for (at, word) in marks.iter_mut().enumerate() {
        *word &= !page_bits(m, at);
    }
}

pub fn count_marked(marks: &[u64], m: u64) -> u64 {
    marks.iter().enumerate().map(|(at, word)| (word & page_bits(m, at)).count_ones() as u64).sum()
}

/// Calls `each` with every marked page below M, in rising order.
pub fn for_marked(marks: &[u64], m: u64, mut each: impl FnMut(usize)) {
    for (at, word) in marks.iter().enumerate() {
        let mut left = word & page_bits(m, at);
        while left != 0 {
            each(at * 64 + left.trailing_zeros() as usize);
            left &= left - 1;
        }
    }
}

fn part(number: u64, u: u64) -> std::ops::Range<usize> {
    let (number, u) = (number as usize, u as usize);
    number * u..number * u + u
}

#[path = "model_files.rs"]
mod files;
#[path = "model_primary.rs"]
mod primary;
#[path = "model_records.rs"]
mod records;
#[path = "model_sizes.rs"]
mod sizes;
#[path = "model_standby.rs"]
mod standby;
#[path = "model_start.rs"]
mod start;
#[path = "model_sums.rs"]
mod sums;
pub use files::*;
pub use primary::*;
pub use sizes::*;
pub use standby::*;
pub use start::*;
pub use sums::*;
