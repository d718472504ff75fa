//! Sums of large memories (document 02, Job 11): at the largest M, at addresses of 2^24 and above, and of the largest
//! memory that there is.
use crate::arguments::fresh_world;
use crate::call::call;
use crate::checker::{compare_answer, compare_item, demand, Check};
use crate::image_sums::own_part;
use crate::items::{code, given, Item};
use crate::large::Pair;
use crate::lent::Lent;
use crate::model::*;
use crate::orders::{shuffle, with_fault, FAULTS};
use crate::random::Random;
use crate::sink::Sink;
use crate::view::View;
use crate::world::{Args, World};

/// U and M: the most pages, and 4,099 × 4,096 = 2^24 + 12,288 bytes.
const SIZES: [(u64, u64); 2] = [(64, 65_536), (4_096, 4_099)];
const LARGEST_PAGE: usize = 4_096;
const LARGEST: usize = 1 << 28;
/// The bytes of the largest memory that are not 0, by their addresses.
const SET: [(usize, u8); 9] = [
    (0, 1), (4_095, 2), (4_096, 3), ((1 << 24) - 1, 255), (1 << 24, 254), ((1 << 25) - 1, 129), (200_000_000, 77),
    (LARGEST - LARGEST_PAGE, 128), (LARGEST - 1, 251),
];
const MODULUS: u64 = 1 << 32;

pub fn run(r: &Random, sink: &mut Sink) -> Check {
    for (u, m) in SIZES {
        large(r, sink, u, m).map_err(|what| format!("U {u}, M {m}: {what}"))?;
    }
    let sums = [(code::PRIMARY_SUM, Item::Memory), (code::STANDBY_SUM, Item::StandbyMemory)];
    sums.into_iter().try_for_each(|(which, memory)| largest(sink, which, memory))
}

/// A memory of 255 everywhere, in which the sum passes 2^32 many times, at both ends; then three of the primary's pages
/// are replaced. Both sides keep their buffers from call to call, as in large.rs.
fn large(r: &Random, sink: &mut Sink, u: u64, m: u64) -> Check {
    let settings = Settings { u, m, d: 1, b: 1, s: 1, q: 0, l: least_stream(u, m, 1), t: 1 };
    let w = World { memory: vec![255; (m * u) as usize], ..fresh_world(r, &settings) };
    let mut pair = Pair::started(r, sink, settings, w)?;
    // 255 × (1 + .. + n), of n bytes
    let n = (m * u) as u128;
    let all = (255 * (n * (n + 1) / 2) % MODULUS as u128) as u64;
    demand(pair.sum()? == all, "the sum of a memory of 255")?;
    let mut order: Vec<u64> = (0..m).rev().collect();
    demand(pair.sum_in(order.clone(), 0)? == all, "the sum in falling order")?;
    shuffle(r, &mut order);
    for at in [0, m as usize / 2, m as usize - 1] {
        for fault in 0..FAULTS {
            let faulty = with_fault(order.clone(), at, fault);
            pair.sum_in(faulty, 1).map_err(|what| format!("place {at}, fault {fault}: {what}"))?;
        }
    }
    [0, m / 2, m - 1].into_iter().try_for_each(|page| replace(&mut pair, page))?;
    demand(pair.sum_in(order, 0)? == all, "the sum in another order")?;
    pair.whole()
}

/// One page of 255 everywhere is written: the sum changes by that page's own difference.
fn replace(pair: &mut Pair, page: u64) -> Check {
    let (sum, u) = (pair.sum()?, pair.w.primary.u);
    let mut a = Args { place: page, data: pair.r.bytes(u), ..Args::none() };
    pair.step(code::MEMORY_WRITE, &mut a)?;
    let [old, new] = [&vec![255; u as usize], &a.data].map(|bytes| own_part(u, page, bytes));
    demand((pair.sum()? + old) % MODULUS == (sum + new) % MODULUS, "not the page's own difference")
}

/// The largest U and M. Nearly all bytes are zeros, for which the system takes no memory; the sum is of the others.
fn largest(sink: &mut Sink, which: usize, memory: Item) -> Check {
    sink.calls += 1;
    let (u, m, t) = (LARGEST_PAGE as u64, MOST_PAGES, 2);
    let primary = Primary { u, m, l: least_stream(u, m, 0), t, open: 1, ..Primary::zero() };
    let standby = Standby { u, m, t, ..Standby::zero() };
    let w = World { primary, standby, ..fresh_world(&Random::new(0), &Settings::default()) };
    let (a, mut lent) = (Args { order: (0..m).rev().collect(), ..Args::none() }, Lent::new());
    let view = View::new(&w, &a);
    view.lend_all(&mut lent, which);
    lent.bytes_mut(memory).zeros(LARGEST);
    SET.into_iter().for_each(|(address, byte)| lent.bytes_mut(memory).items_mut()[address] = byte);
    let answer = call(which, &mut lent);
    let value = SET.into_iter().map(|(address, byte)| byte as u64 * (address as u64 + 1)).sum::<u64>() % MODULUS;
    let reply = Reply { number: 0, value, used: 0, missing: 0 };
    let others = |item: &Item| *item != memory;
    let check = compare_answer(answer, &reply)
        .and_then(|()| given(which).filter(others).try_for_each(|item| compare_item(&lent, item, &view)))
        .and_then(|()| stays(&mut lent, memory));
    check.map_err(|what| sink.told(which, &what))?;
    sink.note(which, &reply, &w, &a);
    Ok(())
}

/// The largest memory is as it was lent.
fn stays(lent: &mut Lent, memory: Item) -> Check {
    let bytes = lent.bytes_mut(memory).items_mut();
    demand(SET.into_iter().all(|(address, byte)| bytes[address] == byte), "a byte of the memory is another")?;
    SET.into_iter().for_each(|(address, _)| bytes[address] = 0);
    let zeros = bytes.chunks(LARGEST_PAGE).all(|page| page == [0; LARGEST_PAGE]);
    demand(zeros && lent.bytes(memory).guards_stand(), "a byte of the memory, or beside it, is another")
}
