//! What the inputs reached: every ending, and the situations that must come.

use crate::model::{rows, Ending, Site, Trial};
use lines::{first_line, input_of_a_run, spoilt_line};
use std::collections::BTreeMap;

mod lines;

/// Every (letter, number) that can end a run. Why no other one can, at these settings:
/// - 1 and 27 at the lines only: start is judged at the first line, lent lengths are right, no call leaves its ranges.
/// - `w`: 2 at page 4. `d`: 14 or 15 where the primary is protected; block 4 comes behind the third different one, so 2
///   where it is alone. `s`: 1 byte and port 0, so 16 only.
/// - `c`: 13 and 15; 19 would take 4,294,967,294 checkpoints.
/// - `m`: the link holds the records of one primary in order, none lost or repeated, so 17 only. The takeover ends the
///   run, so 13 does not come.
/// - `a` never: each ACK is read once, in order and in the tick of its COMMIT, before the detectors, so not 11. Once
///   the primary is alone the link holds no more than a part of a record, and nothing is put there: no COMMIT is read
///   any more, so not 13.
/// - `k`: all due is flushed and the standby is taking over, so it is accepted.
pub const ENDINGS: [(char, u64); 11] = [
    ('w', 2), ('d', 2), ('d', 14), ('d', 15), ('s', 16), ('c', 13), ('c', 15), ('m', 17), ('k', 0), ('?', 1), ('?', 27),
];

/// Situations that the inputs must reach, counted here and in tally/lines.rs.
pub const REACHED: [&str; 81] = [
    "no input", "first line only", "no last newline", "bad last line without newline", "run to the end of the lines",
    "lines behind the end", "input over 512 bytes", "input over 65536 bytes", "line over 512 bytes",
    "line over 65536 bytes", "number with zeros in front",
    "first: T 0", "first: T above 60000", "first: T 60000", "first: interval 0", "first: rate 0",
    "first: interval and rate 0", "first: 1 before 27",
    "first: empty", "first: space first or last", "first: double space", "first: carriage return", "first: tab",
    "first: sign", "first: letter", "first: NUL", "first: byte above 127", "first: fewer numbers",
    "first: more numbers", "first: number too large",
    "later: empty", "later: space first or last", "later: double space", "later: carriage return", "later: tab",
    "later: sign", "later: letter", "later: NUL", "later: byte above 127", "later: fewer numbers",
    "later: more numbers", "later: number too large",
    "wait of 0", "wait of 1", "wait above 1", "wait above 10", "several packets taken in a tick",
    "packets of several ticks taken in a tick", "packets of two epochs taken in a tick", "longest wait is of one taken",
    "longest wait is of one held", "packets held at the end", "nothing held at the end, longest wait 0",
    "tick with all carried", "ten ticks on end with bytes waiting", "record in parts over a tick's end",
    "two checkpoints received in a tick", "ACK while a later epoch waits for its own", "64 packets held",
    "stream above 1000 bytes after a tick", "a block again with all slots staged", "interval 1", "interval above T",
    "rate 1", "epoch above 100", "run of 1000 ticks",
    "primary becomes alone", "bytes dropped when alone", "packet leaves as the primary becomes alone",
    "packet leaves at once when alone", "over B blocks when alone", "c 13 in the first tick when alone",
    "c 13 after several ticks alone", "d 2 in a tick with a checkpoint", "end of the lines when alone",
    "k at checkpoint 0", "k above checkpoint 0", "k in the tick in which the primary becomes alone",
    "k when the primary is alone", "k with packets held", "k with a part of a checkpoint received",
];

type Counts = BTreeMap<(char, u64), u64>;

#[derive(Default)]
pub struct Tally {
    pub inputs: u64,
    pub ticks: u64,
    pub endings: Counts,
    pub reached: BTreeMap<&'static str, u64>,
}

impl Tally {
    pub fn reach(&mut self, what: &'static str, happened: bool) {
        assert!(REACHED.contains(&what), "not in the table: {what}");
        *self.reached.entry(what).or_default() += happened as u64;
    }

    pub fn merge(&mut self, other: Tally) {
        self.inputs += other.inputs;
        self.ticks += other.ticks;
        for (key, count) in other.endings {
            *self.endings.entry(key).or_default() += count;
        }
        for (key, count) in other.reached {
            *self.reached.entry(key).or_default() += count;
        }
    }

    fn end(&mut self, (letter, number, _): Ending) {
        *self.endings.entry((letter, number)).or_default() += 1;
    }
}

/// What the tally keeps of the site before a tick.
struct Before {
    alone: bool,
    acked: u64,
    commits: u64,
    reused: u64,
    waiting: u64,
    sent: Vec<u64>,
    epochs: Vec<u32>,
}

fn before(trial: &Trial) -> Before {
    let Site { primary, acked, commits, reused_when_full, .. } = &trial.site;
    Before {
        alone: primary.alone,
        acked: *acked,
        commits: *commits,
        reused: *reused_when_full,
        waiting: primary.waiting,
        sent: trial.sent.iter().copied().collect(),
        epochs: primary.queue[..primary.packets as usize].iter().map(|packet| packet.epoch).collect(),
    }
}

/// Counts over the ticks of one run.
#[derive(Default)]
struct Run {
    ticks_alone: u64,
    ticks_waiting: u64,
}

/// Walks through an input with the model and counts what it reaches.
pub fn observe(input: &[u8], tally: &mut Tally) {
    let lines = rows::lines(input);
    tally.inputs += 1;
    input_of_a_run(input, &lines, tally);
    let Some(first) = lines.first() else { return };
    first_line(first, tally);
    let mut trial = match Trial::begin(first) {
        Ok(trial) => trial,
        Err(ending) => {
            tally.reach("lines behind the end", lines.len() > 1);
            return tally.end(ending);
        }
    };
    settings(&trial, tally);
    let mut run = Run::default();
    for (at, line) in lines.iter().enumerate().skip(1) {
        let before = before(&trial);
        let result = trial.line(line);
        reading(&before, &trial, tally);
        match result {
            Ok(_) => went_on(&before, &trial, line, &mut run, tally),
            Err(ending) => {
                tally.reach("lines behind the end", at + 1 < lines.len());
                ended(&before, &trial, line, ending, &run, tally);
                return over(&trial, tally);
            }
        }
    }
    tally.reach("run to the end of the lines", lines.len() > 1);
    tally.reach("end of the lines when alone", trial.site.primary.alone);
    over(&trial, tally);
}

fn settings(trial: &Trial, tally: &mut Tally) {
    tally.reach("first: T 60000", trial.site.primary.t == 60_000);
    tally.reach("interval 1", trial.interval == 1);
    tally.reach("interval above T", trial.interval > trial.site.primary.t);
    tally.reach("rate 1", trial.rate == 1);
}

/// What was read and acknowledged in a tick, whether it ended the run or not.
fn reading(before: &Before, trial: &Trial, tally: &mut Tally) {
    let Site { primary, acked, commits, reused_when_full, .. } = &trial.site;
    tally.reach("two checkpoints received in a tick", *commits > before.commits + 1);
    tally.reach("a block again with all slots staged", *reused_when_full > before.reused);
    let outstanding = primary.acknowledged + 1 < primary.open;
    tally.reach("ACK while a later epoch waits for its own", *acked > before.acked && outstanding);
}

/// A tick that printed its line.
fn went_on(before: &Before, trial: &Trial, line: &[u8], run: &mut Run, tally: &mut Tally) {
    let (primary, link) = (&trial.site.primary, &trial.site.link);
    tally.ticks += 1;
    taken(before, trial, tally);
    run.ticks_waiting = if primary.waiting > 0 { run.ticks_waiting + 1 } else { 0 };
    tally.reach("tick with all carried", primary.waiting == 0);
    tally.reach("ten ticks on end with bytes waiting", run.ticks_waiting == 10);
    tally.reach("record in parts over a tick's end", !link.is_empty());
    tally.reach("64 packets held", primary.packets == 64);
    tally.reach("stream above 1000 bytes after a tick", primary.waiting > 1_000);
    tally.reach("epoch above 100", primary.open == 101);
    tally.reach("run of 1000 ticks", trial.tick == 1_000);
    if primary.alone {
        run.ticks_alone += 1;
        alone(before, trial, line, tally);
    }
}

fn alone(before: &Before, trial: &Trial, line: &[u8], tally: &mut Tally) {
    let left = !trial.waits.is_empty();
    tally.reach("primary becomes alone", !before.alone);
    tally.reach("bytes dropped when alone", !before.alone && before.waiting > trial.rate);
    tally.reach("packet leaves as the primary becomes alone", !before.alone && left);
    tally.reach("packet leaves at once when alone", before.alone && left);
    let blocks = rows::row(line).map_or(0, |row| row[1]);
    tally.reach("over B blocks when alone", before.alone && blocks > 2);
}

/// The packets taken in a tick.
fn taken(before: &Before, trial: &Trial, tally: &mut Tally) {
    let waits = &trial.waits;
    for wait in waits {
        tally.reach("wait of 0", *wait == 0);
        tally.reach("wait of 1", *wait == 1);
        tally.reach("wait above 1", *wait > 1);
        tally.reach("wait above 10", *wait > 10);
    }
    let old = waits.len().min(before.sent.len());
    tally.reach("several packets taken in a tick", waits.len() > 1);
    tally.reach("packets of several ticks taken in a tick", waits.first() != waits.last());
    tally.reach("packets of two epochs taken in a tick", before.epochs[..old].first() != before.epochs[..old].last());
}

fn ended(before: &Before, trial: &Trial, line: &[u8], ending: Ending, run: &Run, tally: &mut Tally) {
    tally.end(ending);
    match ending {
        ('?', ..) => spoilt_line("later", line, tally),
        ('c', 13, _) => {
            tally.reach("c 13 in the first tick when alone", run.ticks_alone == 1);
            tally.reach("c 13 after several ticks alone", run.ticks_alone > 1);
        }
        ('d', 2, _) => tally.reach("d 2 in a tick with a checkpoint", trial.tick % trial.interval == 0),
        ('k', _, checkpoint) => {
            let Site { primary, standby, .. } = &trial.site;
            tally.reach("k at checkpoint 0", checkpoint == 0);
            tally.reach("k above checkpoint 0", checkpoint > 0);
            tally.reach("k in the tick in which the primary becomes alone", primary.alone && !before.alone);
            tally.reach("k when the primary is alone", before.alone);
            tally.reach("k with packets held", primary.packets > 0);
            let closed = primary.open - 1 > standby.received;
            tally.reach("k with a part of a checkpoint received", closed && !trial.site.link.is_empty());
        }
        _ => {}
    }
}

/// The last line of a run with accepted settings.
fn over(trial: &Trial, tally: &mut Tally) {
    let longest = trial.longest();
    tally.reach("packets held at the end", !trial.sent.is_empty());
    tally.reach("nothing held at the end, longest wait 0", longest == 0 && trial.sent.is_empty());
    tally.reach("longest wait is of one taken", longest > 0 && longest == trial.longest_taken);
    tally.reach("longest wait is of one held", longest > trial.longest_taken);
}
