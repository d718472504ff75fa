//! The inputs of the record test: sweeps over whole ranges, and a generator.

use crate::rules::{KINDS, body};
use crate::{OUTSIDE, SIZES, Tally};

/// Numbers that look random and are the same for the same seed (splitmix64).
pub struct Numbers {
    pub state: u64,
}

impl Numbers {
    pub fn next(&mut self) -> u64 {
        self.state = self.state.wrapping_add(0x9e37_79b9_7f4a_7c15);
        let mut z = self.state;
        z = (z ^ (z >> 30)).wrapping_mul(0xbf58_476d_1ce4_e5b9);
        z = (z ^ (z >> 27)).wrapping_mul(0x94d0_49bb_1331_11eb);
        z ^ (z >> 31)
    }

    /// A number below n.
    pub fn below(&mut self, n: usize) -> usize {
        (self.next() % n as u64) as usize
    }

    pub fn from<T: Copy>(&mut self, list: &[T]) -> T {
        list[self.below(list.len())]
    }

    pub fn one_in(&mut self, n: usize) -> bool {
        self.below(n) == 0
    }
}

/// Room for the longest record, with as much behind it.
pub const ROOM: usize = 10_000;

/// The most bytes that are missing, and some more.
const BEHIND: usize = 4_200;

/// An input under construction. It is a window of a room that is used again and again, so behind
/// a window that ends early lies the rest of the record, or what earlier inputs left there.
pub struct Input {
    pub room: Vec<u8>,
    pub pool: Vec<u8>,
    pub start: usize,
    pub len: usize,
    pub u: u64,
}

impl Input {
    pub fn new(numbers: &mut Numbers) -> Input {
        let mut random = |n: usize| (0..n).map(|_| numbers.next() as u8).collect();
        Input {
            room: random(ROOM),
            pool: random(ROOM),
            start: 0,
            len: 0,
            u: 64,
        }
    }

    pub fn bytes(&self) -> &[u8] {
        &self.room[self.start..self.start + self.len]
    }

    pub fn set(&mut self, at: usize, b: u8) {
        self.room[self.start + at] = b;
    }

    pub fn get(&self, at: usize) -> u8 {
        self.room[self.start + at]
    }

    pub fn length(&self) -> u16 {
        u16::from_le_bytes([self.get(0), self.get(1)])
    }

    pub fn set_length(&mut self, length: u16) {
        self.set(0, length as u8);
        self.set(1, (length >> 8) as u8);
    }

    pub fn set_kind(&mut self, kind: u16) {
        self.set(2, kind as u8);
        self.set(3, (kind >> 8) as u8);
    }

    /// Other bytes behind the window, taken from anywhere in the pool.
    pub fn replace_behind(&mut self, from: usize) {
        let end = self.start + self.len;
        let count = BEHIND.min(ROOM - end);
        let from = from % (self.pool.len() - count);
        self.room[end..end + count].copy_from_slice(&self.pool[from..from + count]);
    }

    /// A valid record of this U and kind, its body taken from anywhere in the pool.
    pub fn record(&mut self, u: u64, kind: u16, from: usize) {
        let body = body(u, kind).expect("a kind of the link") as usize;
        let from = from % (self.pool.len() - body);
        let at = self.start + 4;
        self.room[at..at + body].copy_from_slice(&self.pool[from..from + body]);
        self.set_length(body as u16);
        self.set_kind(kind);
        self.u = u;
        self.len = 4 + body;
    }
}

/// Every place to cut a record, and every short tail.
pub fn sweep_cuts(tally: &mut Tally, n: &mut Numbers, input: &mut Input) {
    for u in SIZES {
        for kind in KINDS {
            input.record(u, kind, 0);
            let whole = input.len;
            for len in 0..=whole + 80 {
                input.record(u, kind, 0);
                input.len = len;
                tally.compare(u, input.bytes());
                tally.compare_more(n, input);
            }
        }
    }
}

/// Every number in the kind's field, and every number in the length's.
pub fn sweep_headers(tally: &mut Tally, input: &mut Input) {
    for field in 0..=u16::MAX {
        for length in [4, 8, 12, 68, 70, 72] {
            input.set_length(length);
            input.set_kind(field);
            input.len = 76;
            tally.compare(64, input.bytes());
        }
        for kind in 0..=10 {
            input.set_length(field);
            input.set_kind(kind);
            input.len = 76;
            tally.compare(64, input.bytes());
            input.len = 4108;
            tally.compare(4096, input.bytes());
        }
    }
}

/// Every small U, and those of the list, each on records as if its low 16 bits were in range.
pub fn sweep_sizes(tally: &mut Tally, input: &mut Input) {
    for u in (0..=8300).chain(OUTSIDE) {
        for kind in 0..=10 {
            let body = body((u % 65_536).min(8300), kind).unwrap_or(4);
            input.set_length(body as u16);
            input.set_kind(kind);
            for len in [0, 3, 4, 4 + body - 1, 4 + body, 4 + body + 1] {
                input.len = len as usize;
                tally.compare(u, input.bytes());
            }
        }
    }
}

/// A U in range, mostly 64, so that most bodies are short.
pub fn some_u(n: &mut Numbers) -> u64 {
    match n.below(40) {
        0..=27 => 64,
        28..=30 => 128,
        31..=33 => 192,
        34 | 35 => 512,
        36 => 1024,
        37 => 4096,
        _ => 64 * (1 + n.below(64) as u64),
    }
}

/// A U out of range.
pub fn some_outside(n: &mut Numbers) -> u64 {
    let inside = some_u(n);
    match n.below(7) {
        0..=2 => n.from(&OUTSIDE),
        3 => inside + 1 + n.below(63) as u64,
        4 => 64 * (65 + n.below(5000) as u64),
        5 => inside | 1 << (13 + n.below(51)),
        _ => n.next() | 1,
    }
}

/// A kind that is mostly not one of the link's, though its bytes may look so.
pub fn some_kind(n: &mut Numbers) -> u16 {
    match n.below(4) {
        0 => n.below(11) as u16,
        1 => 256 * (1 + n.below(255) as u16),
        2 => 256 * (1 + n.below(255) as u16) + n.below(11) as u16,
        _ => n.next() as u16,
    }
}

/// A length that is near the right one, or right for another kind or another U.
pub fn some_length(n: &mut Numbers, right: u16) -> u16 {
    match n.below(8) {
        0 => right.wrapping_sub(1),
        1 => right.wrapping_add(1),
        2 => {
            let more = n.from(&[2, 4, 6]);
            n.from(&[right.wrapping_add(more), right.wrapping_sub(more)])
        }
        3 => right ^ 1 << n.below(16),
        4 => n.from(&[0, 4, 8, 12, 16, 64, 68, 70, 72, 74, 76, u16::MAX]),
        5 => some_u(n) as u16 + n.from(&[6, 8]),
        6 => n.below(256) as u16,
        _ => n.next() as u16,
    }
}

/// One generated input: a record, a way in which it is damaged, and then sometimes another end.
pub fn generate(n: &mut Numbers, input: &mut Input) {
    input.start = n.below(8);
    let (u, kind, from) = (some_u(n), n.from(&KINDS), n.below(ROOM));
    input.record(u, kind, from);
    let whole = input.len;
    match n.below(14) {
        // As it is.
        0 => {}
        // Bytes behind it.
        1 => input.len += 1 + n.below(100),
        // Another record behind it, whole or not.
        2 => {
            let start = input.start;
            let (kind, from) = (n.from(&KINDS), n.below(ROOM));
            input.start += whole;
            input.record(u, kind, from);
            let second = input.len;
            input.start = start;
            input.len = whole + if n.one_in(2) { second } else { n.below(second) };
        }
        // Cut anywhere.
        3 => input.len = n.below(whole),
        // Cut in its header, or by a few bytes.
        4 => {
            input.len = if n.one_in(2) {
                n.below(6)
            } else {
                whole - 1 - n.below(3)
            }
        }
        // Some bytes changed, most of them in the header.
        5 | 6 => {
            for _ in 0..1 + n.below(4) {
                let at = if n.one_in(4) {
                    n.below(whole)
                } else {
                    n.below(4)
                };
                let b = input.get(at);
                let b = match n.below(3) {
                    0 => b ^ 1 << n.below(8),
                    1 => b.wrapping_add(1 + n.below(255) as u8),
                    _ => n.below(11) as u8,
                };
                input.set(at, b);
            }
        }
        // Another kind.
        7 => {
            let kind = some_kind(n);
            input.set_kind(kind);
        }
        // Another length.
        8 => {
            let length = some_length(n, input.length());
            input.set_length(length);
        }
        // Another kind and another length.
        9 => {
            let (length, kind) = (some_length(n, input.length()), some_kind(n));
            input.set_length(length);
            input.set_kind(kind);
        }
        // A header with fields that are big-endian, or in the wrong order.
        10 => {
            let length = input.length();
            match n.below(4) {
                0 => input.set_length(length.swap_bytes()),
                1 => input.set_kind(kind.swap_bytes()),
                2 => {
                    input.set_length(length.swap_bytes());
                    input.set_kind(kind.swap_bytes());
                }
                _ => {
                    input.set_length(kind);
                    input.set_kind(length);
                }
            }
        }
        // Bytes of no record.
        11 => {
            input.len = if n.one_in(4) {
                n.below(12)
            } else {
                n.below(200)
            };
            for at in 0..input.len {
                let b = n.next() as u8;
                input.set(at, b);
            }
            if n.one_in(2) {
                let (length, kind) = (n.below(80) as u16, n.below(11) as u16);
                input.set_length(length);
                input.set_kind(kind);
            }
        }
        // A record of another U.
        12 => {
            input.u = if n.one_in(2) {
                some_u(n)
            } else {
                64 * (1 + n.below(64) as u64)
            }
        }
        // A U out of range.
        _ => input.u = some_outside(n),
    }
    match n.below(12) {
        0 => input.len = n.below(input.len + 1),
        1 => input.len = input.len.saturating_sub(1),
        2 => input.len += 1 + n.below(20),
        3 if n.one_in(4) => input.u = some_outside(n),
        _ => {}
    }
}
