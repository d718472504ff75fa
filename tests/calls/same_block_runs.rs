//! Whole runs in which blocks are written again and again in an epoch (document 02, Job 9): one with an epoch of 65,535
//! BLOCK records, lists with epochs of thousands, lists of every sort, and runs cut at every place. epoch_blocks.rs and
//! the plain pair are asked after every call.
use crate::both::Both;
use crate::checker::{demand, Check};
use crate::cuts;
use crate::epoch_blocks::EpochBlocks;
use crate::generate::{blocks_mood, head_record, next_step, Step};
use crate::items::code;
use crate::made_up::record;
use crate::model::*;
use crate::random::Random;
use crate::sink::Sink;
use crate::world::Args;

/// Lists at random, lists with long epochs, and runs cut at every place.
const LISTS: u64 = 600;
const LONG_LISTS: u64 = 20;
const CUT_RUNS: u64 = 300;
/// The records of the long epochs.
const LONG: (u64, u64) = (1_000, 4_000);
const MOST: u64 = 65_535;
const U: u64 = 64;

#[derive(Clone)]
struct Run {
    both: Both,
    kept: EpochBlocks,
}

#[derive(Default)]
struct Tally {
    cuts: u64,
    /// The BLOCKs for which no slot more was needed, and the most records of an epoch wholly received.
    again: u64,
    most_records: u64,
}

impl Tally {
    fn note(&mut self, run: &Run) {
        self.again += run.kept.again;
        self.most_records = self.most_records.max(run.kept.most_records);
    }
}

pub fn run(r: &Random, sink: &mut Sink) -> Check {
    let (began, mut tally) = (sink.calls, Tally::default());
    most_records(r, sink).map_err(|what| format!("an epoch of {MOST} records: {what}"))?;
    println!("  one epoch of {MOST} records: {} calls", sink.calls - began);
    for _ in 0..LISTS {
        list(r, sink, &mut tally)?;
    }
    for _ in 0..LONG_LISTS {
        long_epochs(r, sink, &mut tally)?;
    }
    println!("  {LISTS} lists and {LONG_LISTS} with long epochs, {} cuts", tally.cuts);
    println!("  {} slots reused, at most {} records in an epoch", tally.again, tally.most_records);
    demand(tally.cuts > 0 && tally.again > 0 && tally.most_records >= LONG.0, "too little came")?;
    cut_runs(r, sink)
}

impl Run {
    fn start(r: &Random, sink: &mut Sink, settings: Settings) -> Run {
        let both = Both::start(r, sink, settings);
        let kept = EpochBlocks::start(settings, &both.world);
        Run { both, kept }
    }

    fn step(&mut self, sink: &mut Sink, step: &mut Step) -> Result<Reply, String> {
        let alone = self.both.plain.alone();
        let reply = self.both.advance(sink, step)?;
        self.kept.step(step.which, &step.args, &reply, alone, &self.both.world)?;
        self.kept.check(&self.both)?;
        Ok(reply)
    }

    /// One call with these arguments, which must give this number.
    fn numbered(&mut self, sink: &mut Sink, which: usize, args: Args, number: u64) -> Result<Reply, String> {
        let reply = self.step(sink, &mut Step { which, args, part: None })?;
        if reply.number == number { Ok(reply) } else { Err(format!("code {which}: {} and not {number}", reply.number)) }
    }

    fn write(&mut self, r: &Random, sink: &mut Sink, place: u64, number: u64) -> Check {
        let args = Args { place, data: r.bytes(U), ..Args::none() };
        self.numbered(sink, code::DISK_WRITE, args, number).map(|_| ())
    }

    fn drain(&mut self, sink: &mut Sink) -> Check {
        let out = vec![0; self.both.world.primary.waiting as usize];
        self.numbered(sink, code::DRAIN, Args { n: u64::MAX, out, ..Args::none() }, 0).map(|_| ())
    }

    /// Reads the next record of the link, which is accepted.
    fn read(&mut self, sink: &mut Sink) -> Check {
        let part = Some(head_record(&self.both.world.link));
        let mut step = Step { which: code::READ, args: Args { out: vec![0; 8], ..Args::none() }, part };
        demand(self.step(sink, &mut step)?.number == 0, "a record of the primary is refused")
    }

    /// Drains and reads all that waits; so many bytes may be left on the link.
    fn carry(&mut self, sink: &mut Sink, left: usize) -> Check {
        self.drain(sink)?;
        while self.both.world.link.len() > left {
            self.read(sink)?;
        }
        Ok(())
    }

    /// Flushes slots, which are so many.
    fn flush(&mut self, sink: &mut Sink, n: u64, slots: u64) -> Check {
        let reply = self.numbered(sink, code::FLUSH, Args { n, ..Args::none() }, 0)?;
        demand(reply.value == slots, "another count of slots is flushed")
    }

    /// Flushes all due, in two flushes.
    fn flush_all(&mut self, sink: &mut Sink) -> Check {
        let due = self.both.world.standby.due;
        self.flush(sink, due / 2, due / 2)?;
        self.flush(sink, u64::MAX, due - due / 2)
    }

    fn acknowledge(&mut self, sink: &mut Sink) -> Check {
        let reply = self.step(sink, &mut Step { which: code::ACK, args: Args::none(), part: Some(8) })?;
        demand(reply.number == 0, "the ACK is refused")
    }

    /// A checkpoint, read to its COMMIT and acknowledged.
    fn save(&mut self, r: &Random, sink: &mut Sink) -> Check {
        self.numbered(sink, code::CHECKPOINT, Args { cpu: r.cpu(), ..Args::none() }, 0)?;
        self.carry(sink, 0)?;
        self.acknowledge(sink)
    }

    /// A record that the primary did not send, given to a copy of the standby.
    fn other_record(&self, sink: &mut Sink, data: Vec<u8>, number: u64) -> Check {
        let (mut w, mut a) = (self.both.world.clone(), Args { data, out: vec![0; 8], ..Args::none() });
        let reply = sink.call(code::READ, &mut w, &mut a);
        if reply.number == number { Ok(()) } else { Err(format!("a read gives {} and not {number}", reply.number)) }
    }

    /// In a copy: T ticks, a flush of all due and activation give checkpoint r, and the disk choice the valid disk.
    fn cut(&self, sink: &mut Sink) -> Check {
        let mut both = self.both.clone();
        if !both.plain.activated {
            both.take_over(sink, both.world.standby.t)?;
        }
        let mut args = Args::none();
        let reply = sink.call(code::CHOICE, &mut both.world, &mut args);
        demand(reply.number == 0 && args.out == both.plain.valid_disk(), "the disk choice is not the valid disk")
    }
}

/// An epoch of exactly 65,535 records of two blocks, though three are allowed. One of them is due from the epoch
/// before, and is flushed in the middle of it.
fn most_records(r: &Random, sink: &mut Sink) -> Check {
    let (m, b) = (1, 3);
    let l = least_stream(U, m, b) + 20 * (U + 10);
    let mut run = Run::start(r, sink, Settings { u: U, m, d: 4, b, s: 4, q: 0, l, t: 5 });
    for place in [0, 1, 0, 0] {
        run.write(r, sink, place, 0)?;
    }
    run.save(r, sink)?;
    run.flush(sink, 1, 1)?;
    let mut turn = 0;
    while run.kept.written() < MOST {
        for _ in 0..r.range(1, 20).min(MOST - run.kept.written()) {
            run.write(r, sink, r.pick(&[1, 2]), 0)?;
        }
        run.carry(sink, 0)?;
        turn += 1;
        if turn == 3_000 {
            run.flush(sink, u64::MAX, 1)?;
        }
        if turn % 100 == 0 {
            run.flush(sink, 0, 0)?;
            run.numbered(sink, code::STANDBY_TICK, Args::none(), 0)?;
            run.numbered(sink, code::PRIMARY_TICK, Args::none(), 0)?;
            run.cut(sink)?;
        }
    }
    one_record_more(r, sink, &run)?;
    after_most_records(r, sink, run)
}

/// The 65,536th record gives 14 at either end, of every block: one that comes again, and one within the allowance.
fn one_record_more(r: &Random, sink: &mut Sink, run: &Run) -> Check {
    demand(run.both.world.primary.blocks == 2 && run.both.world.standby.blocks == 2, "the blocks are not two")?;
    for block in 0..4 {
        run.clone().write(r, sink, block, 14)?;
        run.other_record(sink, record(U + 6, 2, 2, &[&block.to_le_bytes()[..2], &r.bytes(U)].concat()), 14)?;
    }
    Ok(())
}

/// Then its checkpoint: the COMMIT with 65,535 is accepted, and with no other count. The next epoch counts anew.
fn after_most_records(r: &Random, sink: &mut Sink, mut run: Run) -> Check {
    run.numbered(sink, code::MEMORY_WRITE, Args { data: vec![7], ..Args::none() }, 0)?;
    run.numbered(sink, code::CHECKPOINT, Args { cpu: r.cpu(), ..Args::none() }, 0)?;
    run.carry(sink, 12)?;
    demand(run.both.world.link == [8, 0, 4, 0, 2, 0, 0, 0, 1, 0, 255, 255], "the COMMIT has other counts")?;
    for count in [0, 2, 3, MOST - 1] {
        run.other_record(sink, record(8, 4, 2, &[&[1, 0], &count.to_le_bytes()[..2]].concat()), 10)?;
    }
    for (place, number) in [(3, 0), (2, 0), (3, 0), (0, 0), (1, 14), (0, 0)] {
        run.write(r, sink, place, number)?;
    }
    run.read(sink)?;
    run.acknowledge(sink)?;
    run.cut(sink)?;
    run.flush(sink, u64::MAX, 2)?;
    run.save(r, sink)?;
    run.flush(sink, 2, 2)?;
    run.flush(sink, 2, 1)?;
    run.cut(sink)
}

/// A list with many disk writes, with cuts at some of its places.
fn list(r: &Random, sink: &mut Sink, tally: &mut Tally) -> Check {
    let mut run = Run::start(r, sink, some_settings(r, r.range(2, 5)));
    let mood = blocks_mood(r.pick(&[0, 3]), r.pick(&[30, 70]), r.pick(&[2, 4, 8]));
    for _ in 0..r.range(100, 300) {
        let mut step = next_step(r, &run.both.world, &mood);
        run.step(sink, &mut step)?;
        if r.percent(4) {
            run.cut(sink)?;
            tally.cuts += 1;
        }
    }
    run.cut(sink)?;
    tally.note(&run);
    Ok(())
}

fn some_settings(r: &Random, t: u64) -> Settings {
    let b = r.pick(&[1, 1, 2, 3, 8, 64]);
    let (m, d, s) = (r.range(1, 3), r.pick(&[1, 2, 3, 5, 70]), (b + r.range(0, 2)).min(64));
    let l = least_stream(U, m, b) + r.pick(&[0, 3, 30]) * (U + 10);
    Settings { u: U, m, d, b, s, q: 40, l, t }
}

/// Epochs of thousands of records, with everything else between them; T is more than the ticks between two records.
fn long_epochs(r: &Random, sink: &mut Sink, tally: &mut Tally) -> Check {
    let mut run = Run::start(r, sink, some_settings(r, 300));
    let mood = blocks_mood(3, 70, 0);
    for _ in 0..2 {
        let wanted = r.range(LONG.0, LONG.1);
        while run.kept.written() < wanted {
            let mut step = next_step(r, &run.both.world, &mood);
            run.step(sink, &mut step)?;
        }
        // what is left on the link may need slots that are due
        run.flush_all(sink)?;
        run.carry(sink, 0)?;
        run.save(r, sink)?;
        run.cut(sink)?;
        tally.cuts += 1;
    }
    tally.note(&run);
    Ok(())
}

/// Runs cut at every place, at settings where most blocks come again.
fn cut_runs(r: &Random, sink: &mut Sink) -> Check {
    let mut tally = cuts::Tally::default();
    for _ in 0..CUT_RUNS {
        let (m, d, b) = (r.range(1, 2), r.range(1, 3), r.range(1, 2));
        let l = least_stream(U, m, b) + r.range(0, 4) * (U + 10);
        let settings = Settings { u: U, m, d, b, s: b + r.range(0, 1), q: 20, l, t: r.range(1, 3) };
        cuts::run_at(r, sink, &mut tally, settings, true)?;
    }
    println!("  {} runs, {} cuts, {} takeovers", tally.runs, tally.cuts, tally.takeovers);
    println!("  runs in which a slot was reused {}", tally.reusing);
    demand(tally.after_checkpoint[1] > 0 && tally.reusing > 0, "no takeover after a checkpoint, or no slot reused")
}
