//! Orders of pages for the sum at the standby (document 02, Job 11): those that name each page once, and others.
use crate::random::Random;

/// The most pages of an order that is made for an M out of its range; for a larger M it is short.
const MOST: u64 = 70_000;
/// The faults of `with_fault`.
pub const FAULTS: usize = FIRST_ENTRY + ENTRIES;
const FIRST_ENTRY: usize = 11;
const ENTRIES: usize = 11;

/// An order for M pages, one that does not name each of them once in `odd` of a hundred.
pub fn some_order(r: &Random, m: u64, odd: u64) -> Vec<u64> {
    let order = whole_order(r, if m <= MOST { m } else { r.range(1, 4) });
    if r.percent(odd) {
        let (at, fault) = (r.below(order.len() as u64) as usize, r.below(FAULTS as u64) as usize);
        return with_fault(order, at, fault);
    }
    order
}

/// Each page once: rising, falling, from another page on, with two changed places, or in any order.
pub fn whole_order(r: &Random, m: u64) -> Vec<u64> {
    let mut order: Vec<u64> = (0..m).collect();
    let (one, other) = (r.below(m) as usize, r.below(m) as usize);
    match r.below(6) {
        0 => {}
        1 => order.reverse(),
        2 => order.rotate_left(one),
        3 if m > 0 => order.swap(one, other),
        _ => shuffle(r, &mut order),
    }
    order
}

pub fn shuffle<T>(r: &Random, order: &mut [T]) {
    for at in (1..order.len()).rev() {
        order.swap(at, r.below(at as u64 + 1) as usize);
    }
}

/// An order of all pages with one fault at this place: it does not name each page once any more.
pub fn with_fault(mut order: Vec<u64>, at: usize, fault: usize) -> Vec<u64> {
    let m = order.len() as u64;
    let Some(&page) = order.get(at) else { return vec![0] };
    match fault {
        0 => order.clear(),
        1 => drop(order.remove(at)),
        2 => order.truncate(at),
        3 => order.push(page),
        4 => order.insert(at, page),
        5 => order.push(m),
        6 => order.extend_from_within(..),
        // of few pages these would leave the order as it is
        7 if m > 1 => order.fill(page),
        8 if m > 1 => order[at] = order[(at + 1) % order.len()],
        9 if m > 1 => order[at] = order[(at + order.len() / 2) % order.len()],
        10 if (page | 3) < m => repeat_middle(&mut order, page & !3),
        7..=10 => order.clear(),
        _ => order[at] = no_pages(m, page)[(fault - FIRST_ENTRY) % ENTRIES],
    }
    order
}

/// Of four pages the two in the middle twice, instead of the outer ones: the entries' sum stays, and what remains of
/// them by exclusive or.
fn repeat_middle(order: &mut [u64], first: u64) {
    for entry in order {
        *entry = match entry.wrapping_sub(first) {
            0 => first + 1,
            3 => first + 2,
            _ => *entry,
        };
    }
}

/// Numbers that are no page of M: the next ones, the last one of a later word of marks, those about the largest M, and
/// some that are this page when cut to 16 or 32 bits.
fn no_pages(m: u64, page: u64) -> [u64; ENTRIES] {
    let wide = 1 << 32;
    [
        m, m + 1, m | 63 | 64, m.max(65_535), m.max(65_536), m.max(65_536 + page), wide, wide + page, (1 << 63) + page,
        u64::MAX, u64::MAX - page,
    ]
}
