//! Sums of both memories (document 02, Job 11): sums whose values are written beside them, a byte at every address,
//! every page replaced, orders with every fault at every place, every mode, and lists of calls with sums; the largest
//! memories are in largest_sums.rs. A page's own difference is worked out here, beside the model.
use crate::arguments::{fresh_world, small_settings};
use crate::both::Both;
use crate::checker::{demand, Check};
use crate::generate::{drill_mood, ending_mood, next_step};
use crate::items::code;
use crate::largest_sums;
use crate::model::*;
use crate::orders::{shuffle, whole_order, with_fault, FAULTS};
use crate::random::Random;
use crate::sink::Sink;
use crate::states::{any_primary, any_standby};
use crate::world::{Args, World};

/// A memory of M pages of 64 bytes: the byte that stands everywhere, and others by their addresses; then its sum.
type Known = (u64, u8, &'static [(usize, u8)], u64);

const KNOWN: [Known; 20] = [
    (1, 0, &[], 0),
    (1, 0, &[(0, 1)], 1),
    (1, 0, &[(1, 1)], 2),
    (1, 0, &[(0, 1), (1, 2), (63, 3)], 197),
    (1, 0, &[(63, 255)], 16_320),
    // the first byte of a page is at the address U × its number
    (2, 0, &[(64, 1)], 65),
    (2, 0, &[(64, 1), (127, 255)], 32_705),
    (3, 0, &[(0, 5), (64, 7), (191, 11)], 2_572),
    // a byte × n × (n + 1) / 2, of n bytes
    (1, 1, &[], 2_080),
    (2, 1, &[], 8_256),
    (1, 255, &[], 530_400),
    // 255 × 5,760 × 5,761 / 2, the last below 2^32; 255 × 5,824 × 5,825 / 2 = 4,325,412,000 = 2^32 + 30,444,704
    (90, 255, &[], 4_230_878_400),
    (91, 255, &[], 30_444_704),
    // 30,444,704 less: 255 × (5,805 + .. + 5,824) = 255 × 116,290 = 29,653,950, 136 × 5,804 = 789,344 and 1 × 1,410
    (91, 255, &ZERO_SUM, 0),
    // 2 × 65,536 × 65,537 / 2 = 2^32 + 65,536; 65,536 less are 2^32; another 1 less, and 1 more
    (1_024, 2, &[], 65_536),
    (1_024, 2, &[(65_535, 1)], 0),
    (1_024, 2, &[(65_535, 1), (0, 1)], 4_294_967_295),
    (1_024, 2, &[(65_535, 1), (0, 3)], 1),
    // 2^31: half of the modulus
    (1_024, 1, &[(32_767, 0)], 2_147_483_648),
    (1_024, 1, &[(32_767, 0), (65_535, 2)], 2_147_549_184),
];

/// The bytes at 5,804 to 5,823 are 0, the one before them is 255 - 136, the one at 1,409 is 255 - 1.
const ZERO_SUM: [(usize, u8); 22] = {
    let (mut bytes, mut at) = ([(5_803, 119); 22], 0);
    while at < 20 {
        bytes[at] = (5_804 + at, 0);
        at += 1;
    }
    bytes[21] = (1_409, 254);
    bytes
};

/// U and M of the memories in which every page is replaced, and the M at which every fault comes at every place.
const REPLACED: [(u64, u64); 6] = [(64, 1), (64, 2), (64, 65), (192, 7), (1_024, 5), (4_096, 3)];
const FAULTY: [u64; 8] = [1, 2, 3, 4, 63, 64, 65, 129];
/// Lists of calls in which most are memory writes and sums, and how long each is.
const LISTS: u64 = 300;
const LENGTH: u64 = 60;

pub fn run(r: &Random, sink: &mut Sink) -> Check {
    for (m, byte, others, value) in KNOWN {
        known(r, sink, m, byte, others, value).map_err(|what| format!("M {m}, {byte} everywhere, {others:?}: {what}"))?;
    }
    [(64, 1), (64, 3), (128, 2), (64, 33)].into_iter().try_for_each(|(u, m)| every_address(r, sink, u, m))?;
    REPLACED.into_iter().try_for_each(|(u, m)| replaced_pages(r, sink, u, m))?;
    (1..=5).try_for_each(|m| every_order(r, sink, m))?;
    FAULTY.into_iter().try_for_each(|m| every_fault(r, sink, m))?;
    every_mode(r, sink)?;
    let equal = (0..LISTS).try_fold(0, |equal, _| Ok::<u64, String>(equal + list(r, sink)?))?;
    println!("  {LISTS} lists, {equal} times both sums of equal memories");
    demand(equal > LISTS, "too few sums of equal memories")?;
    largest_sums::run(r, sink)
}

/// Both ends in any state in range with this memory.
fn ends(r: &Random, u: u64, m: u64, memory: Vec<u8>) -> World {
    let settings = Settings { u, m, d: 3, b: 2, s: 3, q: 100, l: least_stream(u, m, 2), t: 3 };
    let (primary, standby) = (any_primary(r, &settings), any_standby(r, &settings, code::STANDBY_SUM));
    World { primary, standby, memory: memory.clone(), standby_memory: memory, ..fresh_world(r, &Settings::default()) }
}

/// One sum, which must give this number; nothing is changed.
fn numbered(sink: &mut Sink, w: &mut World, which: usize, order: Vec<u64>, number: u64) -> Result<u64, String> {
    let (before, mut a) = (w.clone(), Args { order: order.clone(), ..Args::none() });
    let reply = sink.call(which, w, &mut a);
    demand(*w == before && a.order == order, "a sum changes something")?;
    let told = || format!("code {which}: {} and not {number}", reply.number);
    if reply.number == number { Ok(reply.value) } else { Err(told()) }
}

/// The sum at the primary, and the one at the standby in an order at random.
fn both_sums(r: &Random, sink: &mut Sink, w: &mut World) -> Result<[u64; 2], String> {
    let order = whole_order(r, w.standby.m);
    Ok([numbered(sink, w, code::PRIMARY_SUM, vec![], 0)?, numbered(sink, w, code::STANDBY_SUM, order, 0)?])
}

fn known(r: &Random, sink: &mut Sink, m: u64, byte: u8, others: &[(usize, u8)], value: u64) -> Check {
    let mut memory = vec![byte; m as usize * 64];
    others.iter().for_each(|&(address, byte)| memory[address] = byte);
    let sums = both_sums(r, sink, &mut ends(r, 64, m, memory))?;
    if sums == [value; 2] { Ok(()) } else { Err(format!("the sums are {sums:?} and not {value}")) }
}

/// One byte at each address of a memory of zeros: the sum is that byte × (its address + 1).
fn every_address(r: &Random, sink: &mut Sink, u: u64, m: u64) -> Check {
    let mut w = ends(r, u, m, vec![0; (m * u) as usize]);
    for address in 0..(m * u) as usize {
        for byte in [1, r.range(2, 254) as u8, 255] {
            (w.memory[address], w.standby_memory[address]) = (byte, byte);
            let wanted = byte as u64 * (address as u64 + 1);
            demand(both_sums(r, sink, &mut w)? == [wanted; 2], "a byte's sum is not it × (its address + 1)")?;
        }
        (w.memory[address], w.standby_memory[address]) = (0, 0);
    }
    Ok(())
}

/// A page's own part of the sum: its bytes from its address on.
pub fn own_part(u: u64, page: u64, bytes: &[u8]) -> u64 {
    bytes.iter().zip(page * u + 1..).map(|(&byte, place)| byte as u64 * place).sum()
}

/// Each page replaced at the primary and then at the standby: each sum changes by that page's own difference, and with
/// the page at both ends they are the same again.
fn replaced_pages(r: &Random, sink: &mut Sink, u: u64, m: u64) -> Check {
    let mut w = ends(r, u, m, r.bytes(m * u));
    for page in 0..m {
        let [sum, at_standby] = both_sums(r, sink, &mut w)?;
        demand(sum == at_standby, "the sums of equal memories differ")?;
        let range = (page * u) as usize..((page + 1) * u) as usize;
        let bytes = r.bytes(u);
        let own = [&w.memory[range.clone()], &bytes].map(|bytes| own_part(u, page, bytes));
        w.memory[range.clone()].copy_from_slice(&bytes);
        let [replaced, at_standby] = both_sums(r, sink, &mut w)?;
        demand(at_standby == sum, "the standby's sum changes with the primary's memory")?;
        let modulus = 1 << 32;
        demand((replaced + own[0]) % modulus == (sum + own[1]) % modulus, "not the page's own difference")?;
        w.standby_memory[range].copy_from_slice(&bytes);
        demand(both_sums(r, sink, &mut w)? == [replaced; 2], "the sums of equal memories differ")?;
    }
    Ok(())
}

/// Every order of so many pages gives the same sum.
fn every_order(r: &Random, sink: &mut Sink, m: u64) -> Check {
    let mut w = ends(r, 64, m, r.bytes(m * 64));
    let sum = numbered(sink, &mut w, code::PRIMARY_SUM, vec![], 0)?;
    for order in orders_of((0..m).collect()) {
        demand(numbered(sink, &mut w, code::STANDBY_SUM, order, 0)? == sum, "the order changes the sum")?;
    }
    Ok(())
}

/// These in every order.
fn orders_of(pages: Vec<u64>) -> Vec<Vec<u64>> {
    let Some((&first, others)) = pages.split_first() else { return vec![pages] };
    let inserted = |order: &[u64], at: usize| [&order[..at], &[first], &order[at..]].concat();
    let shorter = orders_of(others.to_vec());
    shorter.iter().flat_map(|order| (0..=order.len()).map(move |at| inserted(order, at))).collect()
}

/// Every fault at every place of a rising, a falling and another order gives 1; without it each is accepted.
fn every_fault(r: &Random, sink: &mut Sink, m: u64) -> Check {
    let mut w = ends(r, 64, m, r.bytes(m * 64));
    let (rising, mut other): (Vec<u64>, Vec<u64>) = ((0..m).collect(), (0..m).collect());
    shuffle(r, &mut other);
    let falling = rising.iter().rev().copied().collect();
    let sum = numbered(sink, &mut w, code::PRIMARY_SUM, vec![], 0)?;
    for order in [rising, falling, other] {
        let given = numbered(sink, &mut w, code::STANDBY_SUM, order.clone(), 0)?;
        demand(given == sum, "the order changes the sum")?;
        for (at, fault) in (0..order.len()).flat_map(|at| (0..FAULTS).map(move |fault| (at, fault))) {
            let faulty = with_fault(order.clone(), at, fault);
            let told = |what| format!("M {m}, place {at}, fault {fault}: {what}");
            numbered(sink, &mut w, code::STANDBY_SUM, faulty, 1).map_err(told)?;
        }
    }
    Ok(())
}

/// Protected and alone, receiving, taking over and active: no sum gives 13. In all of them 1 is given for a memory of
/// another length and for an order not naming each page once, also where an entry is no page: never 2.
fn every_mode(r: &Random, sink: &mut Sink) -> Check {
    let (u, m) = (64, 3);
    let modes = [(false, Mode::Receiving), (true, Mode::TakingOver), (false, Mode::Active), (true, Mode::Active)];
    for (alone, mode) in modes {
        let mut w = ends(r, u, m, r.bytes(m * u));
        (w.primary.alone, w.primary.count) = (alone, if alone { w.primary.t } else { 0 });
        (w.standby.mode, w.standby.count) = (mode, if mode == Mode::Receiving { 0 } else { w.standby.t });
        let [sum, at_standby] = both_sums(r, sink, &mut w)?;
        demand(sum == at_standby, "the sums of equal memories differ")?;
        for order in [vec![], vec![0, 1], vec![0, 1, 3], vec![0, 1, 1], vec![0, 1, 2, 2], vec![0, 1, (1 << 32) + 2]] {
            numbered(sink, &mut w, code::STANDBY_SUM, order, 1)?;
        }
        for length in [0, m * u - 64, m * u - 1, m * u + 1, m * u + 64] {
            (w.memory, w.standby_memory) = (r.bytes(length), r.bytes(length));
            numbered(sink, &mut w, code::PRIMARY_SUM, vec![], 1)?;
            numbered(sink, &mut w, code::STANDBY_SUM, vec![2, 0, 1], 1)?;
        }
    }
    Ok(())
}

/// One list with memory writes, checkpoints and sums at both ends, some with an ending; wherever the memories are
/// equal, both sums. How often that was.
fn list(r: &Random, sink: &mut Sink) -> Result<u64, String> {
    let mut both = Both::start(r, sink, small_settings(r));
    let ending_from = if r.percent(40) { r.range(LENGTH / 2, LENGTH) } else { LENGTH };
    let mut equal = 0;
    for at in 0..LENGTH {
        let mood = if at >= ending_from { ending_mood(r, 5) } else { drill_mood(r.pick(&[0, 10]), 60) };
        let mut step = next_step(r, &both.world, &mood);
        both.advance(sink, &mut step)?;
        if both.world.memory == both.world.standby_memory {
            let sum = both.call(sink, code::PRIMARY_SUM, Args::none())?.value;
            let order = whole_order(r, both.world.standby.m);
            let given = both.call(sink, code::STANDBY_SUM, Args { order, ..Args::none() })?;
            demand(given.number == 0 && given.value == sum, "the sums of equal memories differ")?;
            equal += 1;
        }
    }
    Ok(equal)
}
