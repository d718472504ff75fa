//! Sums (document 02, Job 11): what every sum must be beside the last one of either end, and what came of every sort.
//! It is read from the words and the bytes that the library was lent and that it left, and from its own answers. Of the
//! model only whether the state is in range is asked.
use crate::call::Answer;
use crate::checker::{compare_lent, demand, Check};
use crate::items::{code, Item};
use crate::lent::Lent;
use crate::sorts::{self, Sorts};
use crate::sum_orders::{names_each_once, order_sorts, ORDERS};
use crate::world::World;
use std::cmp::Ordering;

/// Sums at either end.
const BOTH: [&str; 9] = [
    "0, M 1",
    "0, a memory of zeros",
    "0, value 0 of a memory that is not all zero",
    "0, the other end's last sum was of the same memory",
    "0, the memory is that of this end's last sum, and a standby's order is another",
    "0, one page is another than at this end's last sum",
    "1, the state is out of its range, and all that is lent is right",
    "1, the memory is shorter than M × U bytes, and all else is right",
    "1, the memory is longer than M × U bytes, and all else is right",
];

/// Sums accepted in each mode of either end.
const MODES: [&str; 5] = ["under protection", "alone", "receiving", "taking over", "active"];

/// How often each sort came, and the last accepted sum of either end.
#[derive(Default)]
pub struct Sums {
    both: [[u64; BOTH.len()]; 2],
    modes: [u64; MODES.len()],
    orders: [u64; ORDERS.len()],
    last: [Option<Last>; 2],
}

/// An accepted sum.
struct Last {
    memory: Vec<u8>,
    order: Vec<u64>,
    value: u32,
}

/// What a sum was lent. The primary has no order: it "adds pages in rising order".
struct Sum<'a> {
    at_standby: bool,
    u: u64,
    m: u64,
    state: &'a [u64],
    memory: &'a [u8],
    order: &'a [u64],
}

impl Sum<'_> {
    fn of(which: usize, l: &Lent) -> Sum<'_> {
        let at_standby = which == code::STANDBY_SUM;
        let primary = (Item::Primary, Item::Memory);
        let (state, memory) = if at_standby { (Item::Standby, Item::StandbyMemory) } else { primary };
        let (state, memory) = (l.words(state).items(), l.bytes(memory).items());
        let order = if at_standby { l.words(Item::Order).items() } else { &[] };
        Sum { at_standby, u: state[0], m: state[1], state, memory, order }
    }

    /// The memory's length beside M × U.
    fn length(&self) -> Ordering {
        (self.memory.len() as u128).cmp(&(self.m as u128 * self.u as u128))
    }

    fn order_is_right(&self) -> bool {
        !self.at_standby || names_each_once(self.order, self.m)
    }

    /// The place of the state's mode in `MODES`.
    fn mode(&self) -> usize {
        if self.at_standby { 2 + self.state[7] as usize } else { self.state[10] as usize }
    }
}

impl Sums {
    /// Counts and checks a sum: what it was lent stays, and its number and value are the documents'.
    pub fn check(&mut self, which: usize, answer: Answer, before: &Lent, after: &Lent, w: &World) -> Check {
        let in_range = match which {
            code::PRIMARY_SUM => w.primary.in_range(),
            code::STANDBY_SUM => w.standby.in_range(),
            _ => return Ok(()),
        };
        compare_lent(which, after, before)?;
        let sum = Sum::of(which, before);
        let (length, order) = (sum.length(), sum.order_is_right());
        let right = in_range && length == Ordering::Equal && order;
        demand(answer.number == !right as u64, "a sum's number is not given by state, memory and order")?;
        demand(answer.used == 0 && answer.missing == 0, "a sum says that bytes are used or missing")?;
        let counts = &mut self.both[sum.at_standby as usize];
        counts[6] += (!in_range && length == Ordering::Equal && order) as u64;
        counts[7] += (in_range && length == Ordering::Less && order) as u64;
        counts[8] += (in_range && length == Ordering::Greater && order) as u64;
        if sum.at_standby && in_range && length == Ordering::Equal {
            let sorts = order_sorts(sum.order, sum.m);
            self.orders.iter_mut().zip(sorts).for_each(|(count, came)| *count += came as u64);
        }
        if right { self.accepted(sum, answer.value as u32) } else { demand(answer.value == 0, "a refused sum's value") }
    }

    /// "On equal images both give the same sum, and replacing one page changes it by that page's own difference": that
    /// is judged beside the last sum of either end, where its image is as long; also where several pages are replaced.
    fn accepted(&mut self, sum: Sum, value: u32) -> Check {
        let end = sum.at_standby as usize;
        for last in self.last.iter().flatten().filter(|last| last.memory.len() == sum.memory.len()) {
            let wanted = last.value.wrapping_add(change(&last.memory, sum.memory));
            demand(value == wanted, "the sum is not changed by what is changed in the memory")?;
        }
        self.modes[sum.mode()] += 1;
        let pages = self.last[end].as_ref().and_then(|last| other_pages(&last.memory, sum.memory, sum.u as usize));
        let zeros = sum.memory.iter().all(|&byte| byte == 0);
        let equal_at_other = self.last[1 - end].as_ref().is_some_and(|last| last.memory == sum.memory);
        let other_order = self.last[end].as_ref().is_some_and(|last| !sum.at_standby || last.order != sum.order);
        let came = [
            sum.m == 1, zeros, value == 0 && !zeros, equal_at_other, pages == Some(0) && other_order, pages == Some(1),
        ];
        self.both[end].iter_mut().zip(came).for_each(|(count, came)| *count += came as u64);
        self.last[end] = Some(Last { memory: sum.memory.to_vec(), order: sum.order.to_vec(), value });
        Ok(())
    }

    fn sorts(&self) -> [Sorts<'_>; 4] {
        [
            ("sums at the primary", &BOTH, &self.both[0]),
            ("sums at the standby", &BOTH, &self.both[1]),
            ("sums accepted by mode", &MODES, &self.modes),
            ("orders, where all else is right", &ORDERS, &self.orders),
        ]
    }

    pub fn print(&self) {
        sorts::print(&self.sorts());
    }

    /// Whether every sort came.
    pub fn all_came(&self) -> bool {
        sorts::all_came(&self.sorts())
    }
}

/// What a sum changes by where one image becomes another that is as long: the differences of its bytes, each × (its
/// address + 1), modulo 2^32.
fn change(from: &[u8], to: &[u8]) -> u32 {
    let mut change = 0i64;
    for (place, (&from, &to)) in (1..).zip(from.iter().zip(to)).filter(|(_, (from, to))| from != to) {
        change = change.wrapping_add((to as i64 - from as i64) * place);
    }
    change as u32
}

/// How many pages of two images differ, where these are equally long.
fn other_pages(one: &[u8], other: &[u8], u: usize) -> Option<usize> {
    let differ = one.chunks(u).zip(other.chunks(u)).filter(|(one, other)| one != other).count();
    Some(differ).filter(|_| one.len() == other.len())
}
