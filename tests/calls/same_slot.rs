//! The same block again at the standby (document 02, Job 9): BLOCKs and COMMITs whose numbers are written beside them,
//! and takeovers. What they make of the counts and of the slots is worked out here, beside the model.
use crate::arguments::fresh_world;
use crate::checker::{demand, Check};
use crate::items::code;
use crate::made_up::record;
use crate::model::*;
use crate::random::Random;
use crate::same_block::{numbered, COUNTS, D, EPOCH, PAGES, U};
use crate::sink::Sink;
use crate::world::{Args, World};

/// The slots of a standby: their block numbers, how many are staged and how many of these due.
type Held = (&'static [u64], u64, u64);
/// A BLOCK: B and S, the slots, the blocks and the records of the epoch, the block; then the number, and where it is
/// accepted the slot that gets the bytes.
type Block = ((u64, u64), Held, (u64, u64), u64, u64, usize);

const BLOCKS: [Block; 37] = [
    // the first of an epoch, the next one, and one whose number stands behind those staged
    ((2, 2), (&[], 0, 0), (0, 0), 5, 0, 0),
    ((2, 2), (&[4], 1, 0), (1, 1), 5, 0, 1),
    ((2, 2), (&[4, 5], 1, 0), (1, 1), 5, 0, 1),
    ((2, 2), (&[0, 0], 0, 0), (0, 0), 0, 0, 0),
    // the same again: with a slot and allowance left, with S staged, with B blocks, with both
    ((2, 3), (&[5], 1, 0), (1, 1), 5, 0, 0),
    ((2, 3), (&[4, 5], 2, 0), (2, 2), 5, 0, 1),
    ((2, 3), (&[4, 5], 2, 0), (2, 9), 4, 0, 0),
    ((2, 2), (&[9, 5], 2, 1), (1, 1), 5, 0, 1),
    ((1, 3), (&[9, 5], 2, 1), (1, 1), 5, 0, 1),
    ((1, 1), (&[5], 1, 0), (1, 1), 5, 0, 0),
    ((2, 2), (&[4, 5], 2, 0), (2, 2), 4, 0, 0),
    // another with B blocks, also where S are staged; another with S staged
    ((0, 0), (&[], 0, 0), (0, 0), 5, 14, 0),
    ((0, 2), (&[], 0, 0), (0, 0), 5, 14, 0),
    ((1, 2), (&[4], 1, 0), (1, 1), 5, 14, 0),
    ((1, 1), (&[4], 1, 0), (1, 7), 5, 14, 0),
    ((1, 2), (&[5, 4], 2, 1), (1, 7), 5, 14, 0),
    ((2, 2), (&[4, 9], 2, 2), (0, 0), 5, 17, 0),
    ((2, 3), (&[9, 9, 4], 3, 2), (1, 3), 5, 17, 0),
    // a due slot has the block: it is never the one, whether a slot of this epoch has it too or not
    ((2, 2), (&[5, 4], 2, 2), (0, 0), 5, 17, 0),
    ((2, 3), (&[5, 4], 2, 2), (0, 0), 5, 0, 2),
    ((2, 3), (&[5, 4, 5], 3, 2), (1, 1), 5, 0, 2),
    ((2, 4), (&[5, 5, 4, 5], 4, 2), (2, 2), 5, 0, 3),
    ((2, 4), (&[5, 5, 4, 5], 4, 3), (1, 1), 5, 0, 3),
    // several slots of this epoch have it: the first of them
    ((3, 4), (&[4, 5, 5, 4], 4, 0), (2, 2), 5, 0, 1),
    ((3, 4), (&[4, 5, 5, 4], 4, 2), (2, 2), 5, 0, 2),
    ((3, 4), (&[4, 5, 5, 4], 4, 0), (3, 3), 4, 0, 0),
    ((3, 4), (&[4, 5, 5, 4], 4, 1), (3, 3), 4, 0, 3),
    // the last record, and one more: again or not, with S staged or not
    ((2, 2), (&[5], 1, 0), (1, 65_534), 5, 0, 0),
    ((2, 2), (&[5], 1, 0), (1, 65_534), 4, 0, 1),
    ((2, 2), (&[5], 1, 0), (1, 65_535), 5, 14, 0),
    ((2, 2), (&[5], 1, 0), (1, 65_535), 4, 14, 0),
    ((2, 2), (&[9, 9], 2, 2), (0, 65_535), 4, 14, 0),
    // counts that no run has: no block counted, or no allowance, and slots of this epoch all the same
    ((2, 2), (&[5, 4], 2, 0), (0, 0), 4, 0, 1),
    ((0, 2), (&[5], 1, 0), (0, 0), 5, 0, 0),
    // out of their ranges
    ((2, 2), (&[5], 1, 0), (1, 65_536), 5, 1, 0),
    ((2, 2), (&[5], 1, 0), (1, (1 << 32) + 1), 5, 1, 0),
    ((1, 2), (&[5], 1, 0), (2, 2), 5, 1, 0),
];

pub fn run(r: &Random, sink: &mut Sink) -> Check {
    for (m, case) in PAGES.into_iter().flat_map(|m| BLOCKS.map(|case| (m, case))) {
        block(r, sink, m, case).map_err(|what| format!("M {m}, {case:?}: {what}"))?;
    }
    (0..64).try_for_each(|at| each_slot(r, sink, at))?;
    for (m, counts) in PAGES.into_iter().flat_map(|m| COUNTS.map(|counts| (m, counts))) {
        commits(r, sink, m, counts).map_err(|what| format!("M {m}, {counts:?}: {what}"))?;
        takeover(r, sink, m, counts).map_err(|what| format!("M {m}, {counts:?}: {what}"))?;
    }
    Ok(())
}

/// A receiving standby with these slots and counts, and its buffers.
fn standby(
    r: &Random, m: u64, (b, s): (u64, u64), (numbers, staged, due): (&[u64], u64, u64), counts: (u64, u64),
) -> World {
    let (t, (blocks, records)) = (3, counts);
    let mut w = fresh_world(r, &Settings { u: U, m, d: D, b, s, q: 0, l: 0, t });
    w.standby = Standby {
        u: U, m, d: D, b, s, t, count: 1, received: EPOCH - 1, staged, due, blocks, records, ..Standby::zero()
    };
    w.standby.slots[..numbers.len()].copy_from_slice(numbers);
    w.standby_marks.fill(0);
    w
}

fn reading(data: Vec<u8>) -> Args {
    Args { data, out: vec![0xc3; 8], ..Args::none() }
}

fn block_record(r: &Random, epoch: u32, block: u64) -> Vec<u8> {
    record(U + 6, 2, epoch, &[&block.to_le_bytes()[..2], &r.bytes(U)].concat())
}

fn refused(sink: &mut Sink, mut w: World, data: Vec<u8>, number: u64) -> Check {
    let (before, mut a) = (w.clone(), reading(data));
    numbered(sink, &mut w, code::READ, &mut a, number)?;
    demand(w == before && a.out == [0xc3; 8], "a refused record changes something")
}

/// The slot gets the bytes; every other one is as it was, number and bytes.
fn accepted(sink: &mut Sink, mut w: World, data: Vec<u8>, slot: usize) -> Check {
    let before = w.clone();
    let reply = numbered(sink, &mut w, code::READ, &mut reading(data.clone()), 0)?;
    demand(reply.value == 2 && reply.used == U + 10, "another record is read")?;
    let (u, next) = (U as usize, slot as u64 == before.standby.staged);
    let blocks = [&before.blocks[..slot * u], &data[10..], &before.blocks[(slot + 1) * u..]].concat();
    demand(w.blocks == blocks, "the slots' bytes are others")?;
    let mut wanted = before.standby;
    wanted.slots[slot] = data[8] as u64;
    wanted.records += 1;
    (wanted.staged, wanted.blocks) = (wanted.staged + next as u64, wanted.blocks + next as u64);
    demand(w.standby == Standby { count: 0, ..wanted }, "the slots or the counts are others")
}

/// One BLOCK of the table; 2, 8 and 9 come before 14 and 17, whether a slot has the block or not.
fn block(r: &Random, sink: &mut Sink, m: u64, (sizes, held, counts, block, number, slot): Block) -> Check {
    let (w, data) = (standby(r, m, sizes, held, counts), block_record(r, EPOCH, block));
    if number == 0 {
        accepted(sink, w.clone(), data.clone(), slot)?;
    } else {
        refused(sink, w.clone(), data.clone(), number)?;
    }
    let instead = |wanted: u64| if number == 1 { 1 } else { wanted };
    refused(sink, w.clone(), block_record(r, EPOCH, D), instead(2))?;
    for epoch in [EPOCH - 1, EPOCH + 1] {
        refused(sink, w.clone(), block_record(r, epoch, block), instead(8))?;
    }
    for (pages, next_page, state_seen) in [(1, 1, false), (1, 0, false), (0, 0, true)] {
        let mut after = w.clone();
        after.standby = Standby { pages, next_page, state_seen, ..after.standby };
        refused(sink, after, data.clone(), instead(9))?;
    }
    Ok(())
}

/// Each of the 64 slots by itself, with S staged: it is reused unless it is due.
fn each_slot(r: &Random, sink: &mut Sink, at: usize) -> Check {
    let mut numbers = [0; 64];
    numbers[at] = D - 1;
    let data = block_record(r, EPOCH, D - 1);
    for due in [0, at as u64 / 2, at as u64] {
        accepted(sink, standby(r, PAGES[0], (64, 64), (&numbers, 64, due), (64, 64)), data.clone(), at)?;
        accepted(sink, standby(r, PAGES[0], (0, 64), (&numbers, 64, due), (0, 65_534)), data.clone(), at)?;
        refused(sink, standby(r, PAGES[0], (64, 64), (&numbers, 64, due), (1, 65_535)), data.clone(), 14)?;
    }
    for (blocks, number) in [(63, 17), (64, 14)] {
        let w = standby(r, PAGES[0], (64, 64), (&numbers, 64, at as u64 + 1), (blocks, 64));
        refused(sink, w, data.clone(), number)?;
    }
    // staged only up to it: it is the next slot
    accepted(sink, standby(r, PAGES[0], (64, 64), (&numbers, at as u64, 0), (0, 0)), data, at)
}

fn commit(m: u64, records: u64) -> Vec<u8> {
    if m > 4_096 {
        record(12, 9, EPOCH, &[&[0; 4], &records.to_le_bytes()[..4]].concat())
    } else {
        record(8, 4, EPOCH, &[&[0; 2], &records.to_le_bytes()[..2]].concat())
    }
}

/// A COMMIT is accepted with the count of records, and with no other; then both counts are 0 and the slots are due.
fn commits(r: &Random, sink: &mut Sink, m: u64, (blocks, records): (u64, u64)) -> Check {
    let mut w = standby(r, m, (2, 3), (&[5, 4, 6], 3, 1), (blocks, records));
    w.standby.state_seen = true;
    let most = if m > 4_096 { 1 << 32 } else { 1 << 16 };
    let near = [blocks, 0, 2, 3, records + 1, records.wrapping_sub(1), records ^ 256, records + 65_536];
    for count in near.into_iter().filter(|&count| count != records && count < most) {
        refused(sink, w.clone(), commit(m, count), 10)?;
    }
    let before = w.clone();
    numbered(sink, &mut w, code::READ, &mut reading(commit(m, records)), 0)?;
    let Standby { staged, staged_cpu: kept_cpu, .. } = before.standby;
    let wanted = Standby { received: EPOCH, due: staged, kept_cpu, ..before.standby };
    let wanted = Standby { count: 0, blocks: 0, records: 0, state_seen: false, ..wanted };
    demand(w.standby == wanted && w.blocks == before.blocks, "the standby is another after the COMMIT")
}

/// The T-th tick drops the epoch's slots and its counts.
fn takeover(r: &Random, sink: &mut Sink, m: u64, counts: (u64, u64)) -> Check {
    let mut w = standby(r, m, (2, 3), (&[5, 4, 6], 3, 1), counts);
    w.standby.count = w.standby.t - 1;
    let before = w.clone();
    numbered(sink, &mut w, code::STANDBY_TICK, &mut Args::none(), 0)?;
    let wanted = Standby { mode: Mode::TakingOver, count: before.standby.t, staged: 1, ..before.standby };
    demand(w.standby == Standby { blocks: 0, records: 0, ..wanted }, "the standby is another after the takeover")?;
    demand(w.blocks == before.blocks, "a takeover changes the slots' bytes")
}
