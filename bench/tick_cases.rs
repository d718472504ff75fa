//! The ticks of both ends, each on the state that the one before gave. What they give is the count of ticks, so that
//! the compiler cannot drop them.

use super::primary::{primary, ROUNDS};
use super::standby::standby;
use crate::interface::{self, PrimaryWords};
use crate::library;
use crate::model;
use crate::{Call, Interface};
use std::hint::black_box;

/// The count of ticks after an accepted one.
fn counted(r: model::Reply, count: u64) -> u64 {
    if r.number == 0 {
        count
    } else {
        u64::MAX
    }
}

const U: usize = 64;
const M: usize = 64;

/// The least stream that holds a checkpoint.
const L: usize = M * (U + 10) + 84;

/// Ticks of a primary that waits for an ACK and holds no packet.
pub struct PrimaryTicks {
    words: PrimaryWords,
}

impl PrimaryTicks {
    pub fn new() -> PrimaryTicks {
        PrimaryTicks { words: interface::primary_words(&primary(U, M, 64, L, 0)) }
    }
}

impl Call for PrimaryTicks {
    fn name(&self) -> String {
        "tick of the primary".to_string()
    }
    fn operations(&self) -> usize {
        ROUNDS
    }
    fn wanted(&self) -> u64 {
        ROUNDS as u64
    }
    fn ours(&mut self) -> u64 {
        self.model()
    }
    #[inline(never)]
    fn model(&mut self) -> u64 {
        let mut p = primary(U, M, 64, L, 0);
        let mut last = 0;
        for _ in 0..ROUNDS {
            last = counted(model::primary_tick(&mut p), p.count);
        }
        black_box(&p);
        last
    }
}

impl Interface for PrimaryTicks {
    fn is_inlined(&self) -> bool {
        false
    }
    fn in_c(&mut self) -> u64 {
        let mut state = self.words;
        let mut last = 0;
        for _ in 0..ROUNDS {
            last = counted(interface::primary_tick(&mut state), state[interface::PRIMARY_TICKS]);
        }
        last
    }
}

/// Ticks of a standby that is receiving and has staged nothing.
pub struct StandbyTicks {
    state: interface::Standby,
    marks: [u64; M.div_ceil(64)],
}

impl StandbyTicks {
    pub fn new() -> StandbyTicks {
        StandbyTicks { state: interface::standby_words(&standby(U, M, 0, 0, false)), marks: [0; M.div_ceil(64)] }
    }
}

impl Call for StandbyTicks {
    fn name(&self) -> String {
        "tick of the standby".to_string()
    }
    fn operations(&self) -> usize {
        ROUNDS
    }
    fn wanted(&self) -> u64 {
        ROUNDS as u64
    }
    fn ours(&mut self) -> u64 {
        library::standby_ticks(U, M, ROUNDS, &mut self.marks)
    }
    #[inline(never)]
    fn model(&mut self) -> u64 {
        let mut s = standby(U, M, 0, 0, false);
        let mut last = 0;
        for _ in 0..ROUNDS {
            last = counted(model::standby_tick(&mut s, &mut self.marks), s.count);
        }
        black_box(&s);
        last
    }
}

impl Interface for StandbyTicks {
    fn in_c(&mut self) -> u64 {
        let mut state = self.state;
        let mut last = 0;
        for _ in 0..ROUNDS {
            let r = interface::standby_tick(&mut state, &mut self.marks);
            last = counted(r, state.words[interface::STANDBY_TICKS]);
        }
        last
    }
}
