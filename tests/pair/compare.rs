//! Compares the program `pair` with the model in model.rs on fixed and on random scripts.
//!
//!     compare PAIR [SCRIPTS [SEED]]   the fixed scripts, then SCRIPTS random ones (4000) from
//!                                     the seeds SEED, SEED + 1 and so on (1)
//!     compare PAIR one SEED           that seed's script alone: its lines beside both outputs
//!
//! It fails where an output differs from the model's, where the program does not end by itself
//! with status 0, where a (letter, number) that `pair` can print never came or another one did,
//! and where one of the situations in REACHED never came.

mod model;
mod program;
mod scripts;
mod tally;

use program::output_of;
use scripts::{fixed_scripts, script_of, Random};
use std::process::ExitCode;
use std::sync::atomic::{AtomicBool, AtomicU64, Ordering};
use std::sync::Mutex;
use std::thread;
use std::time::Instant;
use tally::{observe, Tally, CAN_COME, REACHED};

fn escaped(bytes: &[u8]) -> String {
    bytes.iter().flat_map(|byte| std::ascii::escape_default(*byte)).map(char::from).collect()
}

/// A script for a report: whole, or its end where it is very long.
fn shown(script: &[u8]) -> String {
    let text = escaped(script);
    match text.len().checked_sub(20_000) {
        Some(over) if over > 0 => format!("(its last 20000 characters) {}", &text[over..]),
        _ => text,
    }
}

/// The first differing line of two outputs, counted from 0, and how each has it.
fn first_difference(one: &[u8], other: &[u8]) -> (usize, String, String) {
    let lines = |bytes: &[u8]| bytes.split_inclusive(|byte| *byte == b'\n').map(escaped).collect::<Vec<_>>();
    let (one, other) = (lines(one), lines(other));
    let at = (0..).find(|at| one.get(*at) != other.get(*at)).unwrap();
    let line = |lines: &[String]| lines.get(at).map_or("(no line)".to_string(), |line| line.clone());
    (at, line(&one), line(&other))
}

/// Nothing where the outputs agree, else the report.
fn compare(program: &str, name: &str, script: &[u8], piece: usize, told: &Option<String>) -> Option<String> {
    let wanted = model::run(script);
    if told.as_ref().is_some_and(|told| told.as_bytes() != wanted) {
        return Some(format!("{name}: the model itself differs from the output written by hand"));
    }
    let output = match output_of(program, script, piece, wanted.len() as u64 + 4096) {
        Ok(output) if output == wanted => return None,
        Ok(output) => output,
        Err(error) => return Some(format!("{name}: {error}\nscript: {}", shown(script))),
    };
    let (at, ours, theirs) = first_difference(&wanted, &output);
    // Each line of input prints one line, so what comes after the differing line is not needed.
    let lines = model::lines(script);
    let needed: Vec<u8> = lines[..lines.len().min(at + 1)].join(&b'\n');
    let (script, line) = (shown(&needed), at + 1);
    let differing = format!("line {line}: model {ours}, program {theirs}");
    Some(format!("{name}: outputs differ\nscript up to the difference: {script}\n{differing}"))
}

/// Sizes of the pieces that a script is written in: mostly the whole at once.
fn piece_of(seed: u64, length: usize) -> usize {
    let mut random = Random(!seed);
    match random.below(8) {
        0 if length < 2000 => 1 + random.below(7) as usize,
        1 => 1 + random.below(4096) as usize,
        2 => 65536,
        _ => length.max(1),
    }
}

/// One seed alone, its lines side by side.
fn one(program: &str, seed: u64) -> bool {
    let script = script_of(seed);
    let wanted = model::run(&script);
    let output = output_of(program, &script, piece_of(seed, script.len()), wanted.len() as u64 + 4096);
    let printed = output.clone().unwrap_or_default();
    let split = |bytes: &[u8]| bytes.split_inclusive(|byte| *byte == b'\n').map(escaped).collect::<Vec<_>>();
    let (ours, theirs) = (split(&wanted), split(&printed));
    let lines = model::lines(&script);
    println!("seed {seed}: {} bytes, {} lines; line, model, program", script.len(), lines.len());
    for at in 0..lines.len().max(ours.len()).max(theirs.len()) {
        let cell = |list: &[String]| list.get(at).cloned().unwrap_or_default();
        let line = lines.get(at).map_or(String::new(), |line| escaped(line));
        let mark = if cell(&ours) == cell(&theirs) { ' ' } else { '!' };
        println!("{mark} {line:<24} {:<12} {}", cell(&ours), cell(&theirs));
    }
    if let Err(error) = &output {
        println!("{error}");
    }
    output == Ok(wanted)
}

fn all(program: &str, count: u64, first: u64) -> bool {
    let started = Instant::now();
    let fixed = fixed_scripts();
    let total = fixed.len() as u64 + count;
    let (next, stop) = (AtomicU64::new(0), AtomicBool::new(false));
    let (tally, reports) = (Mutex::new(Tally::default()), Mutex::new(Vec::new()));
    let workers = thread::available_parallelism().map_or(2, |cores| cores.get());
    thread::scope(|scope| {
        for _ in 0..workers {
            scope.spawn(|| {
                let mut mine = Tally::default();
                while !stop.load(Ordering::Relaxed) {
                    let at = next.fetch_add(1, Ordering::Relaxed);
                    if at >= total {
                        break;
                    }
                    let seed = first.wrapping_add(at.wrapping_sub(fixed.len() as u64));
                    let (name, script, told) = match fixed.get(at as usize) {
                        Some((name, script, told)) => (format!("fixed script, {name}"), script.clone(), told),
                        None => (format!("seed {seed}"), script_of(seed), &None),
                    };
                    let piece = piece_of(seed, script.len());
                    if let Some(report) = compare(program, &name, &script, piece, told) {
                        reports.lock().unwrap().push(report);
                        stop.store(true, Ordering::Relaxed);
                    }
                    observe(&script, &mut mine);
                }
                tally.lock().unwrap().merge(mine);
            });
        }
    });
    let tally = tally.into_inner().unwrap();
    let mut good = true;
    for report in reports.into_inner().unwrap() {
        println!("{report}");
        good = false;
    }
    if !good {
        return false;
    }
    println!("{} scripts, {} lines compared in {:.1} s", tally.scripts, tally.lines, started.elapsed().as_secs_f64());
    for ((letter, number), times) in &tally.printed {
        println!("{letter} {number}: {times}");
        if !CAN_COME.contains(&(*letter, *number)) {
            println!("{letter} {number} should not come");
            good = false;
        }
    }
    for (letter, number) in CAN_COME {
        if !tally.printed.contains_key(&(letter, number)) {
            println!("{letter} {number} never came");
            good = false;
        }
    }
    for what in REACHED {
        let times = tally.reached.get(what).copied().unwrap_or(0);
        println!("{what}: {times}");
        if times == 0 {
            println!("{what}: never reached");
            good = false;
        }
    }
    good
}

fn main() -> ExitCode {
    let arguments: Vec<String> = std::env::args().skip(1).collect();
    let number = |at: usize, usual: u64| arguments.get(at).map_or(Ok(usual), |text| text.parse());
    let good = match (arguments.first(), number(2, 1)) {
        (Some(program), Ok(seed)) if arguments.get(1).is_some_and(|word| word == "one") => one(program, seed),
        (Some(program), Ok(seed)) if number(1, 4000).is_ok() => all(program, number(1, 4000).unwrap(), seed),
        _ => {
            println!("compare PAIR [SCRIPTS [SEED]], or compare PAIR one SEED");
            false
        }
    };
    println!("{}", if good { "1 passed, 0 failed" } else { "0 passed, 1 failed" });
    if good { ExitCode::SUCCESS } else { ExitCode::FAILURE }
}
