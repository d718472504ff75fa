//! Records that come slower than T ticks. Document 02, Job 1: the standby's count "returns to 0 at each accepted record
//! of kinds 1 to 4". What this makes of both ends is worked out from the calls and their numbers alone, beside the
//! model: ticks.rs and plain.rs are asked after every call.
use crate::both::Both;
use crate::checker::{demand, Check};
use crate::generate::head_record;
use crate::items::code;
use crate::model::*;
use crate::random::Random;
use crate::refused_records::{self, Refusals};
use crate::sink::Sink;
use crate::world::Args;

const BLOCK: u64 = 2;
/// The T of every size; the largest T comes at one size only.
const PATIENCE: [u64; 4] = [1, 2, 3, 7];
const WIDE_PATIENCE: u64 = 2;
const MOST_PATIENCE: u64 = 60_000;

#[derive(Default)]
struct Tally {
    checkpoints: u64,
    long_checkpoints: u64,
    takeovers: u64,
    refusals: Refusals,
}

/// Settings with no block, with no allowance, with slots for one checkpoint's blocks or more, with marks of two words,
/// and with the largest pages; at one T also with pages that ask for the wide kinds, which take long to copy.
fn settings(t: u64) -> Vec<Settings> {
    let mut sizes = vec![
        (64, 1, 0, 0, 0), (64, 3, 1, 0, 0), (64, 4, 3, 2, 2), (64, 5, 4, 2, 5), (64, 65, 2, 1, 1), (4_096, 2, 2, 2, 3),
    ];
    if t == WIDE_PATIENCE {
        sizes.push((64, 4_097, 2, 1, 1));
    }
    let of = |(u, m, d, b, s)| Settings { u, m, d, b, s, q: 0, l: least_stream(u, m, b), t };
    sizes.into_iter().map(of).collect()
}

pub fn run(r: &Random, sink: &mut Sink) -> Check {
    let mut tally = Tally::default();
    for settings in PATIENCE.into_iter().flat_map(settings) {
        let told = |what| format!("{settings:?}: {what}");
        slow_checkpoints(r, sink, settings, &mut tally).map_err(told)?;
        primary_alone(r, sink, settings, true).map_err(told)?;
        primary_alone(r, sink, settings, false).map_err(told)?;
    }
    most_patience(r, sink).map_err(|what| format!("T {MOST_PATIENCE}: {what}"))?;
    println!("  {} checkpoints, {} of them longer than T ticks", tally.checkpoints, tally.long_checkpoints);
    println!("  {} takeovers, {} records refused or cut short", tally.takeovers, tally.refusals.count());
    demand(tally.long_checkpoints > 0, "no checkpoint was longer than T ticks")?;
    tally.refusals.every_one_came()
}

/// Checkpoints with T - 1 ticks before each of their records. Each record is accepted, and in a copy the T-th tick
/// after it takes over to the last checkpoint wholly received. Before each record, in copies, every refusal is tried.
fn slow_checkpoints(r: &Random, sink: &mut Sink, settings: Settings, tally: &mut Tally) -> Check {
    let mut both = Both::start(r, sink, settings);
    for epoch in 1..=3 {
        checkpoint(r, sink, &mut both)?;
        drain(sink, &mut both, u64::MAX)?;
        while !both.world.link.is_empty() {
            quiet_ticks(sink, &mut both, settings.t - 1)?;
            refused_records::try_all(sink, &both, &mut tally.refusals)?;
            make_room(sink, &mut both)?;
            read(sink, &mut both)?;
            take_over(sink, both.clone(), &mut tally.refusals)?;
            tally.takeovers += 1;
        }
        demand(both.plain.r == epoch, "the checkpoint is not wholly received")?;
        tally.checkpoints += 1;
    }
    tally.long_checkpoints += both.ticks.long_checkpoints;
    Ok(())
}

/// One such checkpoint at the largest T; copies at each record would take too long.
fn most_patience(r: &Random, sink: &mut Sink) -> Check {
    let settings = Settings { u: 64, m: 1, d: 1, b: 1, s: 1, q: 0, l: least_stream(64, 1, 1), t: MOST_PATIENCE };
    let mut both = Both::start(r, sink, settings);
    checkpoint(r, sink, &mut both)?;
    drain(sink, &mut both, u64::MAX)?;
    while !both.world.link.is_empty() {
        quiet_ticks(sink, &mut both, settings.t - 1)?;
        read(sink, &mut both)?;
    }
    demand(both.plain.r == 1, "the checkpoint is not wholly received")?;
    take_over(sink, both, &mut Refusals::default())
}

/// Guest writes of B blocks and of some pages, among them the first and the last, and a checkpoint.
pub fn checkpoint(r: &Random, sink: &mut Sink, both: &mut Both) -> Check {
    let Primary { u, m, d, b, .. } = both.world.primary;
    for _ in 0..if d > 0 { b } else { 0 } {
        accepted(sink, both, code::DISK_WRITE, Args { place: r.below(d), data: r.bytes(u), ..Args::none() })?;
    }
    for place in [m - 1, r.below(m), r.below(m), 0] {
        let args = Args { place, offset: r.below(u), data: r.bytes(1), ..Args::none() };
        accepted(sink, both, code::MEMORY_WRITE, args)?;
    }
    accepted(sink, both, code::CHECKPOINT, Args { cpu: r.cpu(), ..Args::none() }).map(|_| ())
}

pub fn drain(sink: &mut Sink, both: &mut Both, n: u64) -> Check {
    let out = vec![0; both.world.primary.waiting as usize];
    accepted(sink, both, code::DRAIN, Args { n, out, ..Args::none() }).map(|_| ())
}

pub fn accepted(sink: &mut Sink, both: &mut Both, which: usize, args: Args) -> Result<Reply, String> {
    let reply = both.call(sink, which, args)?;
    if reply.number == 0 { Ok(reply) } else { Err(format!("code {which} is refused with {}", reply.number)) }
}

/// Ticks that leave the standby receiving.
fn quiet_ticks(sink: &mut Sink, both: &mut Both, ticks: u64) -> Check {
    for _ in 0..ticks {
        accepted(sink, both, code::STANDBY_TICK, Args::none())?;
        demand(both.world.standby.mode == Mode::Receiving, "a tick before the T-th takes over")?;
    }
    demand(both.world.standby.count == ticks, "the count is not the ticks since the last accepted record")
}

/// Where the next record is a BLOCK and S blocks are staged, one that is due is stored. A flush is no record.
fn make_room(sink: &mut Sink, both: &mut Both) -> Check {
    let s = &both.world.standby;
    if both.world.link[2] as u64 != BLOCK || s.staged < s.s {
        return Ok(());
    }
    let reply = accepted(sink, both, code::FLUSH, Args { n: 1, ..Args::none() })?;
    demand(reply.value == 1, "no block is due")
}

/// The next record of the link is accepted, and the count is 0.
pub fn read(sink: &mut Sink, both: &mut Both) -> Check {
    let data = both.world.link[..head_record(&both.world.link)].to_vec();
    let kind = data[2] as u64;
    let reply = accepted(sink, both, code::READ, Args { data, out: vec![0; 8], ..Args::none() })?;
    demand(reply.value == kind, "another kind was read")?;
    let s = &both.world.standby;
    demand(s.mode == Mode::Receiving && s.count == 0, "the count is not 0 after an accepted record")
}

/// T ticks after an accepted record: the last of them takes over, and no earlier one; then checkpoint r is active.
fn take_over(sink: &mut Sink, mut both: Both, refusals: &mut Refusals) -> Check {
    let patience = both.world.standby.t;
    quiet_ticks(sink, &mut both, patience - 1)?;
    accepted(sink, &mut both, code::STANDBY_TICK, Args::none())?;
    demand(both.world.standby.mode == Mode::TakingOver, "the T-th tick does not take over")?;
    refused_records::not_receiving(sink, &mut both, refusals)?;
    both.take_over(sink, 0)?;
    refused_records::not_receiving(sink, &mut both, refusals)
}

/// The primary's detector is reset by ACKs only: with a record read at every tick and no ACK it is alone at its T-th
/// tick, while the standby is still receiving. The records are drained all at once, or one at every tick.
fn primary_alone(r: &Random, sink: &mut Sink, settings: Settings, at_once: bool) -> Check {
    let (mut both, t) = (Both::start(r, sink, settings), settings.t);
    checkpoint(r, sink, &mut both)?;
    if at_once {
        drain(sink, &mut both, u64::MAX)?;
    }
    for tick in 1..=t {
        if both.world.link.is_empty() && both.world.primary.waiting > 0 {
            let record = head_record(&both.world.stream);
            drain(sink, &mut both, record as u64)?;
        }
        if !both.world.link.is_empty() {
            read(sink, &mut both)?;
        }
        accepted(sink, &mut both, code::PRIMARY_TICK, Args::none())?;
        demand(both.world.primary.alone == (tick == t), "alone at another tick than the T-th")?;
        if t > 1 {
            accepted(sink, &mut both, code::STANDBY_TICK, Args::none())?;
        }
        demand(both.world.standby.mode == Mode::Receiving, "the standby is not receiving any more")?;
    }
    after_alone(sink, both)
}

/// What was drained before is still read. A whole checkpoint is received, but the primary reads no ACK any more.
fn after_alone(sink: &mut Sink, mut both: Both) -> Check {
    demand(both.world.primary.waiting == 0, "the waiting stream is not dropped")?;
    while !both.world.link.is_empty() {
        read(sink, &mut both)?;
    }
    if both.plain.r == 1 {
        let data = both.world.acks.clone();
        demand(both.call(sink, code::ACK, Args { data, ..Args::none() })?.number == 13, "an ACK when alone")?;
    }
    let ticks = both.world.standby.t - both.world.standby.count;
    both.take_over(sink, ticks)
}
