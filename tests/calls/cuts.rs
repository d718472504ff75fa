//! The cut, by running: lists of calls with the plain pair and the ticks beside them, cut at every place.
use crate::both::Both;
use crate::checker::{demand, Check};
use crate::generate::{blocks_mood, ending_mood, lively_mood, next_step, Step, PUT_OFF};
use crate::items::{code, is_of, Item};
use crate::model::*;
use crate::random::Random;
use crate::sink::Sink;
use crate::world::Args;

#[derive(Default)]
pub struct Tally {
    pub runs: u64,
    pub cuts: u64,
    pub takeovers: u64,
    pub choices: u64,
    /// All takes, and by port those under protection.
    pub takes: u64,
    pub protected_takes: [u64; PORTS],
    /// Takeovers at a checkpoint above 0, at one above 1, and the highest.
    pub after_checkpoint: [u64; 2],
    pub highest: u64,
    /// Runs with a checkpoint wholly received although more than T ticks came between its records.
    pub long_checkpoints: u64,
    /// Runs in which a slot was reused.
    pub reusing: u64,
}

fn is_primary_call(which: usize) -> bool {
    is_of(which, Item::Primary)
}

fn is_standby_call(which: usize) -> bool {
    is_of(which, Item::Standby)
}

/// One list of calls at small settings, and every cut of it.
pub fn run(r: &Random, sink: &mut Sink, tally: &mut Tally) -> Check {
    let settings = some_settings(r);
    run_at(r, sink, tally, settings, r.percent(25))
}

/// One list of calls at these settings, in which most calls may be disk writes, and every cut of it.
pub fn run_at(r: &Random, sink: &mut Sink, tally: &mut Tally, settings: Settings, disk_writes: bool) -> Check {
    tally.runs += 1;
    let reused = sink.repeats.reused;
    let mut both = Both::start(r, sink, settings);
    let (length, haste, put_off) = (r.range(16, 40), r.pick(&[40, 85, 85]), r.pick(&PUT_OFF));
    let ending_from = if r.percent(40) { r.range(length / 2, length) } else { length };
    let mut places = vec![both.clone()];
    let mut steps: Vec<Step> = Vec::new();
    for at in 0..length {
        let mood = if at >= ending_from {
            ending_mood(r, 3)
        } else if disk_writes {
            blocks_mood(3, haste, 12)
        } else {
            lively_mood(3, haste, put_off)
        };
        let mut step = next_step(r, &both.world, &mood);
        advance(sink, tally, &mut both, &mut step)?;
        steps.push(step);
        places.push(both.clone());
    }
    tally.long_checkpoints += (both.ticks.long_checkpoints > 0) as u64;
    tally.reusing += (sink.repeats.reused > reused) as u64;
    for at in 0..places.len() {
        cut_at(r, sink, tally, &places, &steps, at).map_err(|what| format!("{what}, cut at place {at}"))?;
    }
    Ok(())
}

fn some_settings(r: &Random) -> Settings {
    let b = r.range(0, 2);
    let mut settings = Settings {
        u: 64,
        m: r.range(1, 4),
        d: r.range(0, 3),
        b,
        s: b + r.range(0, 2),
        q: r.pick(&[0, 30, 60, 100, 100]),
        l: 0,
        t: r.range(1, 3),
    };
    settings.l = least_stream(64, settings.m, b) + r.pick(&[0, 74, 160]);
    settings
}

/// Makes one call, with its checks.
fn advance(sink: &mut Sink, tally: &mut Tally, both: &mut Both, step: &mut Step) -> Check {
    let reply = both.advance(sink, step)?;
    if step.which == code::TAKE && reply.number == 0 {
        tally.takes += 1;
        tally.protected_takes[step.args.port as usize] += !both.plain.alone() as u64;
    }
    Ok(())
}

/// Every cut at one place: the next call not made (made is the next place), or a flush of a smaller budget.
fn cut_at(r: &Random, sink: &mut Sink, tally: &mut Tally, places: &[Both], steps: &[Step], at: usize) -> Check {
    let rest = &steps[at..];
    let standby_stood_still = at > 0 && !is_standby_call(steps[at - 1].which);
    cut_from(r, sink, tally, &places[at], rest, standby_stood_still)?;
    let Some(next) = rest.first().filter(|step| step.which == code::FLUSH) else { return Ok(()) };
    for budget in 0..next.args.n.min(places[at].world.standby.due) {
        let mut both = places[at].clone();
        let mut smaller = next.clone();
        smaller.args.n = budget;
        advance(sink, tally, &mut both, &mut smaller)?;
        cut_from(r, sink, tally, &both, &rest[1..], false)?;
    }
    Ok(())
}

/// The cuts of both ends at once, of the primary alone, and of the standby alone, from one place.
fn cut_from(r: &Random, sink: &mut Sink, tally: &mut Tally, from: &Both, rest: &[Step], quiet: bool) -> Check {
    tally.cuts += 1;
    choose(sink, tally, &mut from.clone())?;
    // Where the standby is as at the place before, its takeover is the same calls again: most are left out.
    if !quiet || r.percent(20) {
        take_over(sink, tally, &mut from.clone())?;
    }
    if r.percent(25) {
        let mut primary_cut = from.clone();
        go_on(r, sink, tally, &mut primary_cut, rest, is_standby_call)?;
        choose(sink, tally, &mut primary_cut)?;
        take_over(sink, tally, &mut primary_cut)?;
    }
    if r.percent(15) {
        let mut standby_cut = from.clone();
        go_on(r, sink, tally, &mut standby_cut, rest, is_primary_call)?;
        choose(sink, tally, &mut standby_cut)?;
    }
    Ok(())
}

/// The other end goes on with its own calls, up to a place of its own.
fn go_on(
    r: &Random, sink: &mut Sink, tally: &mut Tally, both: &mut Both, rest: &[Step], its: fn(usize) -> bool,
) -> Check {
    tally.cuts += 1;
    let until = r.range(0, rest.len() as u64) as usize;
    for step in rest[..until].iter().filter(|step| its(step.which)) {
        advance(sink, tally, both, &mut step.clone())?;
    }
    Ok(())
}

/// T ticks, a flush of all due and the activation; then the standby is active and the disk is its own.
fn take_over(sink: &mut Sink, tally: &mut Tally, both: &mut Both) -> Check {
    tally.takeovers += 1;
    tally.after_checkpoint[0] += (both.plain.r > 0) as u64;
    tally.after_checkpoint[1] += (both.plain.r > 1) as u64;
    tally.highest = tally.highest.max(both.plain.r as u64);
    if !both.plain.activated {
        both.take_over(sink, both.world.standby.t)?;
    }
    demand(both.plain.activated && both.world.standby.mode == Mode::Active, "not active after the takeover")?;
    choose(sink, tally, both)
}

/// The disk choice on what both boxes stored.
fn choose(sink: &mut Sink, tally: &mut Tally, both: &mut Both) -> Check {
    tally.choices += 1;
    let mut args = Args::none();
    let reply = sink.call(code::CHOICE, &mut both.world, &mut args);
    demand(reply.number == 0, "the disk choice is refused")?;
    demand(args.out == both.plain.valid_disk(), "the disk choice is not the valid disk")
}
