//! Compares the program `trace` with the model in model.rs on random scripts.
//!
//!     compare TRACE [SCRIPTS [SEED]]   SCRIPTS random scripts (8000) from the seeds SEED, SEED + 1 and so on (1)
//!     compare TRACE one SEED           that seed's script alone, with both outputs
//!     compare --model-only PATH ..     the model alone: on the cases of the paths, NAME.in with NAME.out, and what the
//!                                      scripts reach
//!
//! It fails where an output differs from the model's, where the program does not end by itself with status 0, where a
//! (letter, number) that a row can have never came or another one did, and where a situation in REACHED never came. A
//! script without `x` and `p` is one of `pair`: its letters, numbers and values are those of the model of `pair` too.

mod cases;
mod model;
#[path = "../pair"]
mod pair {
    #[allow(dead_code)] // its output for a script is used, and nothing else
    pub mod model;
}
#[path = "../pair/program.rs"]
mod program;
#[path = "../trial/report.rs"]
mod report;
mod scripts;
mod tally;

use report::{difference, shown};
use scripts::{script_of, Random};
use std::process::ExitCode;
use std::sync::atomic::{AtomicBool, AtomicU64, Ordering};
use std::sync::Mutex;
use std::thread;
use std::time::Instant;
use tally::{Tally, CAN_COME, REACHED};

const SCRIPTS: u64 = 8_000;

/// The letters, numbers and values of a script, as `pair` prints them; nothing where the script has an `x` or a `p`.
fn as_pair(script: &[u8]) -> Option<Vec<u8>> {
    let mut trace = model::Trace::start();
    let mut output = String::new();
    for line in model::lines::lines(script) {
        let answer = trace.line(line);
        let letter = answer.asked.map_or('?', |command| command.letter);
        if letter == 'x' || letter == 'p' {
            return None;
        }
        output.push_str(&format!("{letter} {} {}\n", answer.number, answer.value));
        if trace.ended {
            break;
        }
    }
    Some(output.into_bytes())
}

/// Where the outputs agree nothing, else the report. Without a program only the two models are compared.
fn compare(program: Option<&str>, seed: u64, script: &[u8]) -> Option<String> {
    if as_pair(script).is_some_and(|output| output != pair::model::run(script)) {
        return Some(format!("seed {seed}: the model differs from that of pair\nscript: {}", shown(script)));
    }
    let wanted = model::trace(script);
    let output = program::output_of(program?, script, piece_of(seed, script.len()), wanted.len() as u64 + 4096);
    let differing = match output {
        Ok(output) => difference(&wanted, &output),
        Err(error) => return Some(format!("seed {seed}: {error}\nscript: {}", shown(script))),
    };
    let (line, model, program) = differing?;
    Some(format!("seed {seed}: output line {line}:\nmodel   {model}\nprogram {program}\nscript: {}", shown(script)))
}

/// Sizes of the pieces that a script is written in: mostly the whole at once.
fn piece_of(seed: u64, length: usize) -> usize {
    let random = Random::new(!seed);
    match random.below(8) {
        0 if length < 2000 => random.range(1, 7) as usize,
        1 => random.range(1, 4096) as usize,
        2 => 65536,
        _ => length.max(1),
    }
}

/// One seed alone.
fn one(program: &str, seed: u64) -> bool {
    let script = script_of(seed);
    println!("script: {}", shown(&script));
    println!("{}", String::from_utf8_lossy(&model::trace(&script)));
    let report = compare(Some(program), seed, &script);
    println!("{}", report.as_deref().unwrap_or("the program agrees"));
    report.is_none()
}

/// All scripts, shared out between the processors; what they reached, or the reports of those that differ.
fn compare_all(program: Option<&str>, count: u64, first: u64) -> Result<Tally, Vec<String>> {
    let (next, stop) = (AtomicU64::new(0), AtomicBool::new(false));
    let (tally, reports) = (Mutex::new(Tally::default()), Mutex::new(Vec::new()));
    let work = || {
        let mut mine = Tally::default();
        while !stop.load(Ordering::Relaxed) {
            let at = next.fetch_add(1, Ordering::Relaxed);
            if at >= count {
                break;
            }
            let seed = first.wrapping_add(at);
            let script = script_of(seed);
            if let Some(report) = compare(program, seed, &script) {
                reports.lock().unwrap().push(report);
                stop.store(true, Ordering::Relaxed);
            }
            mine.observe(&script);
        }
        tally.lock().unwrap().merge(mine);
    };
    thread::scope(|scope| {
        for _ in 0..thread::available_parallelism().map_or(2, |cores| cores.get()) {
            scope.spawn(work);
        }
    });
    let reports = reports.into_inner().unwrap();
    if reports.is_empty() { Ok(tally.into_inner().unwrap()) } else { Err(reports) }
}

/// Prints the tally; whether all came that should, and nothing else.
fn complete(tally: &Tally) -> bool {
    let mut good = true;
    let mut fault = |text: String| {
        println!("{text}");
        good = false;
    };
    for ((letter, number), times) in &tally.numbers {
        println!("{letter} {number}: {times}");
        if !CAN_COME.contains(&(*letter, *number)) {
            fault(format!("{letter} {number} should not come"));
        }
    }
    for (letter, number) in CAN_COME {
        if !tally.numbers.contains_key(&(letter, number)) {
            fault(format!("{letter} {number} never came"));
        }
    }
    for what in REACHED {
        let times = tally.reached.get(what).copied().unwrap_or(0);
        println!("{what}: {times}");
        if times == 0 {
            fault(format!("{what}: never reached"));
        }
    }
    good
}

fn all(program: Option<&str>, count: u64, first: u64) -> bool {
    let started = Instant::now();
    match compare_all(program, count, first) {
        Ok(tally) => {
            let done = if program.is_some() { "compared" } else { "given to the model" };
            let seconds = started.elapsed().as_secs_f64();
            println!("{} scripts, {} rows {done} in {seconds:.1} s", tally.scripts, tally.lines);
            complete(&tally)
        }
        Err(reports) => {
            reports.iter().for_each(|report| println!("{report}"));
            false
        }
    }
}

/// What the command line asks for; nothing where it cannot be read.
fn asked(arguments: &[String]) -> Option<bool> {
    let number = |at: usize, usual: u64| arguments.get(at).map_or(Some(usual), |text| text.parse().ok());
    let program = arguments.first()?;
    match arguments.get(1).map(String::as_str) {
        _ if program == "--model-only" => Some(cases::all(&arguments[1..]) & all(None, SCRIPTS, 1)),
        Some("one") => Some(one(program, number(2, 1)?)),
        _ => Some(all(Some(program), number(1, SCRIPTS)?, number(2, 1)?)),
    }
}

fn main() -> ExitCode {
    let arguments: Vec<String> = std::env::args().skip(1).collect();
    let good = asked(&arguments).unwrap_or_else(|| {
        println!("compare TRACE [SCRIPTS [SEED]], compare TRACE one SEED, or compare --model-only PATH ..");
        false
    });
    println!("{}", if good { "1 passed, 0 failed" } else { "0 passed, 1 failed" });
    if good { ExitCode::SUCCESS } else { ExitCode::FAILURE }
}
