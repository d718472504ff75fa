//! The same block again (document 02, Job 9): disk writes and checkpoints at the primary whose numbers are written
//! beside them; BLOCKs and COMMITs at the standby are in same_slot.rs, whole runs in same_block_runs.rs. What a call
//! makes of the counts and of the bytes is worked out here, beside the model.
use crate::arguments::{arguments, fresh_world};
use crate::checker::{demand, Check};
use crate::items::{calls_of_ends, code};
use crate::made_up::record;
use crate::model::*;
use crate::random::Random;
use crate::sink::Sink;
use crate::world::{Args, World};
use crate::{same_block_runs, same_slot};

pub const U: u64 = 64;
pub const D: u64 = 100;
/// An M of the kinds 1 and 4, and the least M of the kinds 8 and 9.
pub const PAGES: [u64; 2] = [3, 4_097];
/// The epoch that is open, or the one that is received.
pub const EPOCH: u32 = 7;
/// The blocks 0 to 63.
const ALL: [u64; 64] = {
    let (mut all, mut at) = ([0; 64], 0);
    while at < 64 {
        all[at] = at as u64;
        at += 1;
    }
    all
};

/// A disk write: B, the block numbers and how many of them count, the records, the block; then the number at a
/// protected primary, and where it is accepted how many block numbers count after it.
type Write = (u64, (&'static [u64], u64), u64, u64, u64, u64);

const WRITES: [Write; 33] = [
    // the first of an epoch, also where its number stands in front already and does not count
    (1, (&[], 0), 0, 5, 0, 1),
    (1, (&[], 0), 0, 0, 0, 1),
    (1, (&[5], 0), 0, 5, 0, 1),
    (2, (&[4, 5], 1), 1, 5, 0, 2),
    (64, (&ALL, 63), 63, 63, 0, 64),
    // the same again, within the allowance and with all of it used
    (2, (&[5], 1), 1, 5, 0, 1),
    (1, (&[5], 1), 1, 5, 0, 1),
    (2, (&[4, 5], 2), 9, 4, 0, 2),
    (2, (&[4, 5], 2), 9, 5, 0, 2),
    (64, (&ALL, 64), 64, 0, 0, 64),
    (64, (&ALL, 64), 64, 63, 0, 64),
    // another with all of it used
    (0, (&[], 0), 0, 0, 14, 0),
    (0, (&[5], 0), 0, 5, 14, 0),
    (1, (&[5], 1), 1, 4, 14, 0),
    (2, (&[4, 5, 6], 2), 9, 6, 14, 0),
    (64, (&ALL, 64), 64, 64, 14, 0),
    // the last record, and one more: again or not, with allowance left or not
    (2, (&[5], 1), 65_534, 5, 0, 1),
    (2, (&[5], 1), 65_534, 4, 0, 2),
    (2, (&[5], 1), 65_535, 5, 14, 0),
    (2, (&[5], 1), 65_535, 4, 14, 0),
    (1, (&[5], 1), 65_535, 5, 14, 0),
    (1, (&[5], 0), 65_535, 5, 14, 0),
    (0, (&[], 0), 65_535, 5, 14, 0),
    (64, (&ALL, 64), 65_535, 9, 14, 0),
    // block numbers that no run has: equal ones, fewer records than blocks, one that is no block
    (3, (&[5, 5], 2), 2, 5, 0, 2),
    (3, (&[5, 5], 2), 2, 6, 0, 3),
    (2, (&[5, 6], 2), 0, 6, 0, 2),
    (2, (&[100, 65_535], 2), 2, 6, 14, 0),
    (3, (&[100, 65_535], 2), 2, 6, 0, 3),
    // out of their ranges
    (2, (&[5], 1), 65_536, 5, 1, 0),
    (2, (&[5], 1), 65_537, 4, 1, 0),
    (2, (&[5], 1), (1 << 32) + 1, 5, 1, 0),
    (2, (&[4, 5, 6], 3), 3, 5, 1, 0),
];

/// The blocks and the records of an epoch that a checkpoint closes; the COMMIT's count is the records.
pub const COUNTS: [(u64, u64); 9] =
    [(0, 0), (1, 1), (1, 2), (2, 2), (2, 1), (2, 256), (1, 65_534), (1, 65_535), (2, 65_535)];

pub fn run(r: &Random, sink: &mut Sink) -> Check {
    for case in WRITES {
        write(r, sink, case).map_err(|what| format!("{case:?}: {what}"))?;
    }
    (0..64).try_for_each(|at| each_number(r, sink, at))?;
    for (m, counts) in PAGES.into_iter().flat_map(|m| COUNTS.map(|counts| (m, counts))) {
        checkpoint(r, sink, m, counts).map_err(|what| format!("M {m}, {counts:?}: {what}"))?;
    }
    ranges(r, sink)?;
    same_slot::run(r, sink)?;
    same_block_runs::run(r, sink)
}

/// A protected primary with this epoch, and its buffers; a stream that lacks so many bytes of a BLOCK.
fn primary(r: &Random, b: u64, (numbers, blocks): (&[u64], u64), records: u64, lacks: u64) -> World {
    let (m, t) = (1, 3);
    let l = least_stream(U, m, b.max(1));
    let mut w = fresh_world(r, &Settings { u: U, m, d: D, b, s: b, q: 0, l, t });
    let (open, acknowledged, waiting) = (EPOCH, EPOCH - 1, l - (U + 10) + lacks);
    w.primary =
        Primary { u: U, m, d: D, b, l, t, open, acknowledged, waiting, blocks, records, ..Primary::zero() };
    w.primary.written[..numbers.len()].copy_from_slice(numbers);
    w
}

/// One call, which must give this number.
pub fn numbered(sink: &mut Sink, w: &mut World, which: usize, a: &mut Args, number: u64) -> Result<Reply, String> {
    let reply = sink.call(which, w, a);
    if reply.number == number { Ok(reply) } else { Err(format!("code {which}: {} and not {number}", reply.number)) }
}

/// One write of the table: 15 where a byte is missing and it would be accepted; 2 and 3 before 14; alone it is accepted
/// and nothing is counted.
fn write(r: &Random, sink: &mut Sink, (b, numbers, records, block, number, after): Write) -> Check {
    let good = Args { place: block, data: r.bytes(U), ..Args::none() };
    let instead = |wanted: u64| if number == 1 { 1 } else { wanted };
    let w = primary(r, b, numbers, records, 0);
    if number == 0 {
        accepted_write(sink, w.clone(), &good, after)?;
    } else {
        refused_write(sink, w.clone(), good.clone(), number)?;
    }
    refused_write(sink, primary(r, b, numbers, records, 1), good.clone(), if number == 0 { 15 } else { number })?;
    refused_write(sink, w.clone(), Args { place: D, ..good.clone() }, instead(2))?;
    refused_write(sink, w.clone(), Args { data: r.bytes(U - 1), ..good.clone() }, instead(3))?;
    let mut alone = w;
    (alone.primary.alone, alone.primary.count, alone.primary.waiting) = (true, alone.primary.t, 0);
    let before = alone.clone();
    numbered(sink, &mut alone, code::DISK_WRITE, &mut good.clone(), instead(0))?;
    demand(alone.primary == before.primary && alone.stream == before.stream, "a write when alone is counted")
}

fn refused_write(sink: &mut Sink, mut w: World, mut a: Args, number: u64) -> Check {
    let before = w.clone();
    numbered(sink, &mut w, code::DISK_WRITE, &mut a, number)?;
    demand(w == before, "a refused write changes something")
}

/// The block is on the disk and its BLOCK at the stream's end. Then it is a block written before: where another record
/// may come it is accepted again.
fn accepted_write(sink: &mut Sink, mut w: World, a: &Args, after: u64) -> Check {
    let before = w.clone();
    let reply = numbered(sink, &mut w, code::DISK_WRITE, &mut a.clone(), 0)?;
    demand(reply.value == EPOCH as u64, "the value is not the epoch")?;
    let (at, from) = ((a.place * U) as usize, before.primary.waiting as usize);
    demand(w.disk[at..at + U as usize] == a.data, "the block is not on the disk")?;
    let block = record(U + 6, 2, EPOCH, &[&a.place.to_le_bytes()[..2], &a.data].concat());
    demand(w.stream == [&before.stream[..from], &block].concat(), "the BLOCK is not at the stream's end")?;
    let mut wanted = Primary { blocks: after, records: before.primary.records + 1, ..before.primary.clone() };
    wanted.waiting = wanted.l;
    if after > before.primary.blocks {
        wanted.written[before.primary.blocks as usize] = a.place;
    }
    demand(w.primary == wanted, "the counts or the block numbers are others")?;
    w.primary.waiting = 0;
    let number = if w.primary.records == 65_535 { 14 } else { 0 };
    numbered(sink, &mut w, code::DISK_WRITE, &mut a.clone(), number)?;
    demand(w.primary.blocks == after, "a block that comes again is counted")
}

/// Each of the 64 block numbers by itself: it counts, or it is the first that does not.
fn each_number(r: &Random, sink: &mut Sink, at: usize) -> Check {
    let mut numbers = ALL;
    numbers[at] = D - 1;
    let block = Args { place: D - 1, data: r.bytes(U), ..Args::none() };
    accepted_write(sink, primary(r, 64, (&numbers, 64), 64, 0), &block, 64)?;
    accepted_write(sink, primary(r, 64, (&numbers, at as u64 + 1), 64, 0), &block, at as u64 + 1)?;
    accepted_write(sink, primary(r, 64, (&numbers, at as u64), 64, 0), &block, at as u64 + 1)?;
    refused_write(sink, primary(r, at as u64, (&numbers, at as u64), 64, 0), block.clone(), 14)?;
    // the largest number of its field is no block, and out of no range
    numbers[at] = 65_535;
    accepted_write(sink, primary(r, 64, (&numbers, 63), 63, 0), &block, 64)
}

/// The COMMIT's count is the records; both counts are 0 then, and the block numbers stay.
fn checkpoint(r: &Random, sink: &mut Sink, m: u64, (blocks, records): (u64, u64)) -> Check {
    let mut w = primary(r, 2, (&[5, 6, 7], blocks), records, 0);
    let l = least_stream(U, m, 2);
    (w.primary.m, w.primary.l, w.primary.waiting) = (m, l, 0);
    (w.memory, w.marks, w.stream) = (r.bytes(m * U), vec![0; mark_words(m) as usize], r.bytes(l));
    let before = w.clone();
    numbered(sink, &mut w, code::CHECKPOINT, &mut Args::none(), 0)?;
    let (width, end) = if m > 4_096 { (4, 88) } else { (2, 84) };
    let count = &w.stream[end - width..end];
    demand(*count == records.to_le_bytes()[..width], "the COMMIT's count is not the records")?;
    let opened = Primary { open: EPOCH + 1, waiting: end as u64, blocks: 0, records: 0, ..before.primary };
    demand(w.primary == opened, "the counts are not 0, or the block numbers do not stay")
}

/// Every call at either end with records at the end of their range: above it they give 1, and below it they do not.
fn ranges(r: &Random, sink: &mut Sink) -> Check {
    let settings = Settings { u: U, m: 1, d: 2, b: 2, s: 2, q: 9, l: least_stream(U, 1, 2), t: 3 };
    for which in calls_of_ends() {
        for records in [0, 65_534, 65_535, 65_536, 65_537, 131_071, 1 << 32, (1 << 32) + 65_535, 1 << 63, u64::MAX] {
            let mut w = fresh_world(r, &settings);
            let Settings { u, m, d, b, s, q, l, t } = settings;
            w.primary = Primary { u, m, d, b, q, l, t, open: EPOCH, records, ..Primary::zero() };
            w.standby = Standby { u, m, d, b, s, t, received: EPOCH - 1, records, ..Standby::zero() };
            let mut a = arguments(r, which, &w, 0);
            let number = sink.call(which, &mut w, &mut a).number;
            if (number == 1) != (records > 65_535) {
                return Err(format!("code {which} at {records} records: {number}"));
            }
        }
    }
    Ok(())
}
