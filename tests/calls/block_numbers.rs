//! Block numbers that come again in an epoch (document 02, Job 9), and counts of BLOCK records, for states and calls.
use crate::model::*;
use crate::random::Random;

/// The block of a disk write. Often it is one written in the open epoch before, sometimes one of those that only stand
/// behind the epoch's count of blocks; else, and where that is not below D, the one given.
pub fn block_to_write(r: &Random, p: &Primary, given: u64) -> u64 {
    let (written, behind) = p.written.split_at(p.blocks.min(64) as usize);
    let some = match r.below(10) {
        0..5 => written,
        5 => behind,
        _ => &[],
    };
    one_of(r, some, p.d, given)
}

/// The block of a BLOCK. Often it is one staged in the same epoch, sometimes one that is due, or one of those that only
/// stand behind the staged ones.
pub fn block_to_read(r: &Random, s: &Standby, given: u64) -> u64 {
    let (staged, behind) = s.slots.split_at(s.staged.min(64) as usize);
    let (due, fresh) = staged.split_at(s.due.min(staged.len() as u64) as usize);
    let some = match r.below(10) {
        0..4 => fresh,
        4 | 5 => due,
        6 => behind,
        _ => &[],
    };
    one_of(r, some, s.d, given)
}

/// One of these numbers, where there is one and it is below the limit as the one given is.
fn one_of(r: &Random, some: &[u64], limit: u64, given: u64) -> u64 {
    if some.is_empty() || given >= limit {
        return given;
    }
    Some(r.pick(some)).filter(|&number| number < limit).unwrap_or(given)
}

/// How many BLOCK records an epoch with so many different blocks has: as many or more, sometimes the most; in a state
/// that a caller made also fewer.
pub fn some_records(r: &Random, blocks: u64) -> u64 {
    let any = r.range(blocks, MOST_RECORDS);
    r.pick(&[
        blocks, blocks, blocks, blocks + 1, blocks + r.below(300), any, any, 0, 255, 256, MOST_RECORDS - 2,
        MOST_RECORDS - 1, MOST_RECORDS - 1, MOST_RECORDS,
    ])
}

/// The block numbers that a primary remembers: as many as count are mostly below D, often some of them equal, and what
/// stands behind them may be any number that fits its field.
pub fn some_written(r: &Random, d: u64, blocks: u64) -> [u64; 64] {
    let (few, behind) = (r.percent(30), r.percent(50));
    let one = |at: u64| {
        let any = r.pick(&[r.below(1 << 16), r.below(d), d.min(65_535), 65_535]);
        if at >= blocks && !behind {
            0
        } else if at >= blocks || d == 0 || r.percent(3) {
            any
        } else if few {
            r.below(d.min(2))
        } else {
            r.pick(&[r.below(d), r.below(d), at % d, d - 1])
        }
    };
    std::array::from_fn(|at| one(at as u64))
}
