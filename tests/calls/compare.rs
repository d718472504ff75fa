//! Compares the calls of libcapi.a with the model, call by call.
//!
//! `compare program [calls [seed [kind]]]`: at least so many calls (200,000) with this seed (1), or those of one kind
//! of run alone. Every number, word and byte that a call gives or is lent must be the model's. The program is the one
//! that FORM.md describes. The last line is `N passed, 0 failed`.
mod arguments;
mod beyond;
mod block_numbers;
mod both;
mod call;
mod capi;
mod changed_lines;
mod checker;
mod cuts;
mod epoch_blocks;
mod file_cases;
mod file_damage;
mod file_limits;
mod file_records;
mod file_runs;
mod file_sorts;
mod file_walk;
mod files;
mod four_ports;
mod generate;
mod guarded;
mod image_sums;
mod items;
mod kept_files;
mod kinds;
mod large;
mod largest_sums;
mod lent;
mod lines;
mod made_up;
mod marks;
mod missing;
mod missing_cases;
mod model;
mod names;
mod no_state;
mod numbers;
mod orders;
mod outside;
mod plain;
mod port_lists;
mod ports;
mod print_form;
mod random;
mod recognise;
mod refused_records;
mod repeat_words;
mod repeats;
mod report;
mod same_block;
mod same_block_runs;
mod same_slot;
mod silence;
mod singles;
mod sink;
mod sorts;
mod states;
mod sum_orders;
mod sums;
mod ticks;
mod view;
mod wide;
mod wide_ends;
mod wide_records;
mod world;

use arguments::{large_settings, limit_settings, small_settings};
use checker::demand;
use random::Random;
use sink::Sink;
use std::process::exit;
use std::time::Instant;

/// One test: its name, and its share of a thousand calls.
type Test = (&'static str, u64, fn(&Random, &mut Sink, u64));

const TESTS: [Test; 14] = [
    ("lists at small settings", 285, |r, sink, end| lists(r, sink, end, small_settings, 400, false)),
    ("lists at the settings' limits", 90, |r, sink, end| lists(r, sink, end, limit_settings, 150, false)),
    ("lists at large settings", 20, |r, sink, end| lists(r, sink, end, large_settings, 120, false)),
    ("lists up to the last epoch", 70, |r, sink, end| lists(r, sink, end, small_settings, 250, true)),
    ("single calls on any state", 250, |r, sink, end| until(sink, end, |sink| singles::any_single(r, sink))),
    ("each thing out of its range by itself", 90, pushed_out),
    ("calls on a refused start", 25, |r, sink, end| until(sink, end, |sink| singles::on_zero(r, sink))),
    ("one lent length wrong", 60, |r, sink, end| until(sink, end, |sink| singles::wrong_length(r, sink))),
    ("starts that are accepted", 20, accepted_starts),
    ("starts with one setting out of its range", 20, refused_starts),
    ("starts with one lent length wrong", 20, spoiled_starts),
    ("starts with T of 2^32 and above", 5, patient_starts),
    ("disk choices", 20, |r, sink, end| until(sink, end, |sink| singles::choice(r, sink))),
    // the last: every field comes once, also where that is more than its share
    ("words that are no state", 25, no_states),
];

/// The kinds that come on top.
const LARGE: &str = "memory of every size";
const WIDE: &str = "memory of both widths";
const CUTS: &str = "runs cut at every place";
const LINES: &str = "lines through the program";
const MARKS: &str = "marks about the ends of words";
const SILENCE: &str = "records that come slower than T ticks";
const PARTS: &str = "records that come in parts";
const FOUR_PORTS: &str = "packets of four ports";
const SAME_BLOCK: &str = "the same block again";
const SUMS: &str = "sums of both memories";
const FILES: &str = "checkpoints kept on file";
const ON_TOP: [&str; 11] = [LARGE, WIDE, CUTS, LINES, MARKS, SILENCE, PARTS, FOUR_PORTS, SAME_BLOCK, SUMS, FILES];

fn until(sink: &mut Sink, end: u64, mut one: impl FnMut(&mut Sink)) {
    while sink.calls < end {
        one(sink);
    }
}

fn lists(
    r: &Random, sink: &mut Sink, end: u64, settings: fn(&Random) -> model::Settings, longest: u64, last: bool,
) {
    until(sink, end, |sink| {
        let (settings, length) = (settings(r), r.range(longest / 4, longest));
        generate::list(r, sink, settings, length, last);
    });
}

fn pushed_out(r: &Random, sink: &mut Sink, end: u64) {
    let mut clause = 0;
    until(sink, end, |sink| {
        singles::pushed_out(r, sink, clause);
        clause += 1;
    });
}

fn any_settings(r: &Random) -> model::Settings {
    match r.below(60) {
        0 if r.percent(30) => large_settings(r),
        0..=3 => limit_settings(r),
        _ => small_settings(r),
    }
}

fn accepted_starts(r: &Random, sink: &mut Sink, end: u64) {
    until(sink, end, |sink| {
        let settings = any_settings(r);
        singles::start(r, sink, settings, false);
    });
}

fn refused_starts(r: &Random, sink: &mut Sink, end: u64) {
    let mut clause = 0;
    until(sink, end, |sink| {
        let mut settings = any_settings(r);
        outside::push_setting(r, &mut settings, clause);
        singles::start(r, sink, settings, false);
        clause += 1;
    });
}

fn spoiled_starts(r: &Random, sink: &mut Sink, end: u64) {
    until(sink, end, |sink| {
        let settings = any_settings(r);
        singles::start(r, sink, settings, true);
    });
}

/// T is a field of 32 bits in both states; a start that is refused gives states wholly zero all the same.
fn patient_starts(r: &Random, sink: &mut Sink, end: u64) {
    until(sink, end, |sink| {
        let mut settings = any_settings(r);
        let above = (1 << 32) + settings.t;
        settings.t = r.pick(&[1 << 32, (1 << 32) + 1, above, above, 1 << 33, 1 << 48, 1 << 63, u64::MAX]);
        singles::start(r, sink, settings, false);
    });
}

fn no_states(r: &Random, sink: &mut Sink, end: u64) {
    demanded(no_state::run(r, sink, end));
}

/// Ends everything where something is wrong.
fn demanded(outcome: Result<(), String>) {
    if let Err(what) = outcome {
        println!("{what}");
        exit(1);
    }
}

/// Runs cut at every place: one for each hundred calls asked for.
fn cut_runs(r: &Random, sink: &mut Sink, calls: u64, seed: u64) {
    let mut tally = cuts::Tally::default();
    for _ in 0..(calls / 100).max(20) {
        if let Err(what) = cuts::run(r, sink, &mut tally) {
            println!("seed {seed}, run {}: {what}", tally.runs);
            exit(1);
        }
    }
    println!("  {} runs, {} cuts", tally.runs, tally.cuts);
    println!("  {} takeovers, {} disk choices", tally.takeovers, tally.choices);
    println!("  {} takes, {:?} of them by port under protection", tally.takes, tally.protected_takes);
    let [first, second] = tally.after_checkpoint;
    println!("  takeovers after checkpoint 1 or later {first}, 2 or later {second}, at most {}", tally.highest);
    println!("  runs with a checkpoint longer than T ticks {}", tally.long_checkpoints);
    println!("  runs in which a slot was reused {}", tally.reusing);
    demanded(demand(tally.long_checkpoints > 0, "no checkpoint was longer than T ticks"));
    demanded(demand(tally.reusing > 0, "no slot was reused"));
    demanded(demand(tally.protected_takes.iter().all(|&takes| takes > 0), "a port had no take under protection"));
}

/// Makes one test's calls and prints how many they were. One that makes none tests nothing.
fn noted(name: &'static str, sink: &mut Sink, test: impl FnOnce(&mut Sink)) {
    let (calls, begun) = (sink.calls, Instant::now());
    sink.kind = name;
    test(sink);
    println!("{name}: {} calls, {:.1} s", sink.calls - calls, begun.elapsed().as_secs_f64());
    demanded(if sink.calls > calls { Ok(()) } else { Err("no call was made".to_string()) });
}

fn argument(at: usize, default: u64) -> u64 {
    match std::env::args().nth(at) {
        None => default,
        Some(text) => text.parse().unwrap_or_else(|_| {
            eprintln!("not a number: {text}");
            exit(2)
        }),
    }
}

/// The kinds of run, all of them or the one of this name.
fn kinds(only: &Option<String>) -> Vec<&'static str> {
    let all: Vec<&str> = TESTS.iter().map(|test| test.0).chain(ON_TOP).collect();
    let Some(only) = only else { return all };
    if !all.contains(&only.as_str()) {
        println!("there is no kind of run '{only}', but these: {}", all.join(", "));
        exit(1)
    }
    all.into_iter().filter(|name| name == only).collect()
}

fn main() {
    let Some(program) = std::env::args().nth(1) else {
        eprintln!("usage: compare program [calls [seed [kind]]]");
        exit(2)
    };
    let (calls, seed, begun) = (argument(2, 200_000), argument(3, 1), Instant::now());
    let only = std::env::args().nth(4);
    let kinds = kinds(&only);
    let (mut sink, r) = (Sink::new(seed), Random::new(seed));
    let mut share = 0;
    for (name, part, test) in TESTS.into_iter().filter(|test| kinds.contains(&test.0)) {
        share += part;
        noted(name, &mut sink, |sink| test(&r, sink, calls * share / 1_000));
    }
    for name in ON_TOP.into_iter().filter(|name| kinds.contains(name)) {
        noted(name, &mut sink, |sink| match name {
            LARGE => demanded(large::run(&r, sink)),
            WIDE => demanded(wide::run(&r, sink)),
            CUTS => cut_runs(&r, sink, calls, seed),
            LINES => demanded(lines::run(&r, sink, &program)),
            MARKS => demanded(marks::run(&r, sink)),
            SILENCE => demanded(silence::run(&r, sink)),
            PARTS => demanded(missing::run(&r, sink)),
            FOUR_PORTS => demanded(four_ports::run(&r, sink)),
            SAME_BLOCK => demanded(same_block::run(&r, sink)),
            SUMS => demanded(image_sums::run(&r, sink)),
            _ => demanded(kept_files::run(&r, sink)),
        });
    }
    // that every number comes is a test of all kinds together
    let seen_all = only.is_some() || report::all_came(&sink);
    report::print(&sink);
    println!("{} calls compared, {:.1} s", sink.calls, begun.elapsed().as_secs_f64());
    let passed = kinds.len() as u64 + (only.is_none() && seen_all) as u64;
    println!("{passed} passed, {} failed", !seen_all as u64);
    exit(!seen_all as i32);
}
