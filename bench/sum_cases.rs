//! The cases of a sum, through the C interface alone: of the whole memory at either end, and of one page.
//!
//! A sum changes nothing, so that no state is made or copied in its time, neither in C nor in the model.

use super::primary::{primary, ROUNDS};
use super::standby::standby;
use super::{filled, told};
use crate::interface::{self, PrimaryWords};
use crate::model;
use crate::{Call, Interface};

/// What a sum of these bytes from address 0 on gives.
fn wanted(memory: &[u8]) -> u64 {
    let add = |sum: u32, (&byte, factor): (&u8, u32)| sum.wrapping_add(factor.wrapping_mul(byte.into()));
    memory.iter().zip(1..).fold(0, add).into()
}

/// The primary's sum.
pub struct PrimarySum {
    state: model::Primary,
    words: PrimaryWords,
    memory: Vec<u8>,
    wanted: u64,
}

impl PrimarySum {
    pub fn new(u: usize, m: usize) -> PrimarySum {
        let state = primary(u, m, 64, model::least_stream(u as u64, m as u64, 0) as usize, 0);
        let memory = filled(m * u, 18);
        PrimarySum { words: interface::primary_words(&state), state, wanted: wanted(&memory), memory }
    }
}

impl Call for PrimarySum {
    fn name(&self) -> String {
        format!("sum at the primary, U {}, M {}", self.state.u, self.state.m)
    }
    fn wanted(&self) -> u64 {
        self.wanted
    }
    fn ours(&mut self) -> u64 {
        self.model()
    }
    #[inline(never)]
    fn model(&mut self) -> u64 {
        told(model::primary_sum(&self.state, &self.memory))
    }
}

impl Interface for PrimarySum {
    fn is_inlined(&self) -> bool {
        false
    }
    fn in_c(&mut self) -> u64 {
        told(interface::primary_sum(&self.words, &self.memory))
    }
}

/// From one page of the order to the next, modulo M. It is odd, so that with M a power of 2 each page comes once.
const STEP: usize = 40_503;

/// The standby's sum, of pages that lie scattered.
pub struct StandbySum {
    state: model::Standby,
    lent: interface::Standby,
    memory: Vec<u8>,
    order: Vec<u64>,
    wanted: u64,
}

impl StandbySum {
    pub fn new(u: usize, m: usize) -> StandbySum {
        let state = standby(u, m, 0, 0, false);
        let memory = filled(m * u, 19);
        let order = (0..m).map(|i| (i * STEP % m) as u64).collect();
        StandbySum { lent: interface::standby_words(&state), state, wanted: wanted(&memory), memory, order }
    }
}

impl Call for StandbySum {
    fn name(&self) -> String {
        format!("sum at the standby, U {}, M {}, scattered", self.state.u, self.state.m)
    }
    fn wanted(&self) -> u64 {
        self.wanted
    }
    fn ours(&mut self) -> u64 {
        self.model()
    }
    #[inline(never)]
    fn model(&mut self) -> u64 {
        told(model::standby_sum(&self.state, &self.memory, &self.order))
    }
}

impl Interface for StandbySum {
    fn is_inlined(&self) -> bool {
        false
    }
    fn in_c(&mut self) -> u64 {
        told(interface::standby_sum(&self.lent, &self.memory, &self.order))
    }
}

/// The parts of all pages of a small memory, one by one.
pub struct PageSums {
    u: usize,
    memory: Vec<u8>,
    wanted: u64,
}

impl PageSums {
    pub fn new(u: usize) -> PageSums {
        let memory = filled(ROUNDS * u, 20);
        PageSums { u, wanted: wanted(&memory), memory }
    }
}

/// A page's part. The model has no such call; this is the loop of its sums.
#[inline(never)]
fn page_sum(memory: &[u8], u: usize, page: usize) -> model::Reply {
    let refused = |number| model::Reply { number, value: 0, used: 0, missing: 0 };
    if !(64..=4096).contains(&u) || u % 64 != 0 || memory.len() % u != 0 {
        return refused(1);
    }
    let m = memory.len() / u;
    if !(1..=65536).contains(&m) {
        return refused(1);
    }
    if page >= m {
        return refused(2);
    }
    let mut sum = 0;
    for (offset, &byte) in memory[page * u..][..u].iter().enumerate() {
        let address = (page * u + offset) as u64;
        sum += byte as u64 * (address + 1);
    }
    model::Reply { number: 0, value: sum % (1 << 32), used: 0, missing: 0 }
}

impl PageSums {
    /// The sum of all pages by their parts.
    fn by_parts(&self, part: fn(&[u8], usize, usize) -> model::Reply) -> u64 {
        let parts = (0..ROUNDS).map(|page| told(part(&self.memory, self.u, page)));
        parts.fold(0, u64::wrapping_add) % (1 << 32)
    }
}

impl Call for PageSums {
    fn name(&self) -> String {
        format!("sum of one page, U {}", self.u)
    }
    fn operations(&self) -> usize {
        ROUNDS
    }
    fn wanted(&self) -> u64 {
        self.wanted
    }
    fn ours(&mut self) -> u64 {
        self.model()
    }
    fn model(&mut self) -> u64 {
        self.by_parts(page_sum)
    }
}

impl Interface for PageSums {
    fn is_inlined(&self) -> bool {
        false
    }
    fn in_c(&mut self) -> u64 {
        self.by_parts(interface::page_sum)
    }
}
