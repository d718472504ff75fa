//! Compares the program `trial` with the model in model.rs on fixed and on random inputs.
//!
//!     compare TRIAL [INPUTS [SEED]]      the fixed inputs, then INPUTS random ones (20000) from the seeds SEED,
//!                                        SEED + 1 and so on (1)
//!     compare TRIAL one SEED             that seed's input alone, with both outputs
//!     compare --model-only DIRECTORY ..  the model alone: on the cases of the directories, NAME.in with NAME.out,
//!                                        and what the inputs reach
//!
//! It fails where an output differs from the model's, where the program does not end by itself with status 0, where an
//! ending that `trial` can have never came or another one did, and where a situation in REACHED never came.

mod cases;
mod inputs;
mod model;
#[path = "../pair/program.rs"]
mod program;
mod report;
mod tally;

use inputs::{fixed_inputs, input_of, Random};
use report::{difference, shown};
use std::process::ExitCode;
use std::sync::atomic::{AtomicBool, AtomicU64, Ordering};
use std::sync::Mutex;
use std::thread;
use std::time::Instant;
use tally::{observe, Tally, ENDINGS, REACHED};

const INPUTS: u64 = 20_000;

/// Where the outputs agree nothing, else the report. Without a program only the model is held to what is told.
fn compare(program: Option<&str>, name: &str, input: &[u8], piece: usize, told: &Option<String>) -> Option<String> {
    let wanted = model::trial(input);
    if let Some((line, told, model)) = told.as_ref().and_then(|told| difference(told.as_bytes(), &wanted)) {
        return Some(format!("{name}: the model itself differs at line {line}: told {told}, model {model}"));
    }
    let output = program::output_of(program?, input, piece, wanted.len() as u64 + 4096);
    let differing = match output {
        Ok(output) => difference(&wanted, &output),
        Err(error) => return Some(format!("{name}: {error}\ninput: {}", shown(input))),
    };
    let (line, model, program) = differing?;
    Some(format!("{name}: output line {line}: model {model}, program {program}\ninput: {}", shown(input)))
}

/// Sizes of the pieces that an input is written in: mostly the whole at once.
fn piece_of(seed: u64, length: usize) -> usize {
    let random = Random::new(!seed);
    match random.below(8) {
        0 if length < 2000 => random.range(1, 7) as usize,
        1 => random.range(1, 4096) as usize,
        2 => 65536,
        _ => length.max(1),
    }
}

/// One seed alone.
fn one(program: &str, seed: u64) -> bool {
    let input = input_of(seed);
    println!("input: {}", shown(&input));
    println!("model: {}", shown(&model::trial(&input)));
    let report = compare(Some(program), &format!("seed {seed}"), &input, piece_of(seed, input.len()), &None);
    println!("{}", report.as_deref().unwrap_or("the program agrees"));
    report.is_none()
}

/// All inputs, shared out between the processors; what they reached, or the reports of those that differ.
fn compare_all(program: Option<&str>, count: u64, first: u64) -> Result<Tally, Vec<String>> {
    let fixed = fixed_inputs();
    let total = fixed.len() as u64 + count;
    let (next, stop) = (AtomicU64::new(0), AtomicBool::new(false));
    let (tally, reports) = (Mutex::new(Tally::default()), Mutex::new(Vec::new()));
    let work = || {
        let mut mine = Tally::default();
        while !stop.load(Ordering::Relaxed) {
            let at = next.fetch_add(1, Ordering::Relaxed);
            if at >= total {
                break;
            }
            let seed = first.wrapping_add(at.wrapping_sub(fixed.len() as u64));
            let (name, input, told) = match fixed.get(at as usize) {
                Some((name, input, told)) => (format!("fixed input, {name}"), input.clone(), told),
                None => (format!("seed {seed}"), input_of(seed), &None),
            };
            if let Some(report) = compare(program, &name, &input, piece_of(seed, input.len()), told) {
                reports.lock().unwrap().push(report);
                stop.store(true, Ordering::Relaxed);
            }
            observe(&input, &mut mine);
        }
        tally.lock().unwrap().merge(mine);
    };
    thread::scope(|scope| {
        for _ in 0..thread::available_parallelism().map_or(2, |cores| cores.get()) {
            scope.spawn(work);
        }
    });
    let reports = reports.into_inner().unwrap();
    if reports.is_empty() { Ok(tally.into_inner().unwrap()) } else { Err(reports) }
}

/// Prints the tally; whether all came that should, and nothing else.
fn complete(tally: &Tally) -> bool {
    let mut good = true;
    let mut fault = |text: String| {
        println!("{text}");
        good = false;
    };
    for ((letter, number), times) in &tally.endings {
        println!("{letter} {number}: {times}");
        if !ENDINGS.contains(&(*letter, *number)) {
            fault(format!("{letter} {number} should not come"));
        }
    }
    for (letter, number) in ENDINGS {
        if !tally.endings.contains_key(&(letter, number)) {
            fault(format!("{letter} {number} never came"));
        }
    }
    for what in REACHED {
        let times = tally.reached.get(what).copied().unwrap_or(0);
        println!("{what}: {times}");
        if times == 0 {
            fault(format!("{what}: never reached"));
        }
    }
    good
}

fn all(program: Option<&str>, count: u64, first: u64) -> bool {
    let started = Instant::now();
    match compare_all(program, count, first) {
        Ok(tally) => {
            let done = if program.is_some() { "compared" } else { "given to the model" };
            let seconds = started.elapsed().as_secs_f64();
            println!("{} inputs, {} ticks {done} in {seconds:.1} s", tally.inputs, tally.ticks);
            complete(&tally)
        }
        Err(reports) => {
            reports.iter().for_each(|report| println!("{report}"));
            false
        }
    }
}

/// What the command line asks for; nothing where it cannot be read.
fn asked(arguments: &[String]) -> Option<bool> {
    let number = |at: usize, usual: u64| arguments.get(at).map_or(Some(usual), |text| text.parse().ok());
    let program = arguments.first()?;
    match arguments.get(1).map(String::as_str) {
        _ if program == "--model-only" => Some(cases::all(&arguments[1..]) & all(None, INPUTS, 1)),
        Some("one") => Some(one(program, number(2, 1)?)),
        _ => Some(all(Some(program), number(1, INPUTS)?, number(2, 1)?)),
    }
}

fn main() -> ExitCode {
    let arguments: Vec<String> = std::env::args().skip(1).collect();
    let good = asked(&arguments).unwrap_or_else(|| {
        println!("compare TRIAL [INPUTS [SEED]], compare TRIAL one SEED, or compare --model-only DIRECTORY ..");
        false
    });
    println!("{}", if good { "1 passed, 0 failed" } else { "0 passed, 1 failed" });
    if good { ExitCode::SUCCESS } else { ExitCode::FAILURE }
}
