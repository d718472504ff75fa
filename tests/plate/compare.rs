//! Compares the program `plate` with the model in model.rs on random lines.
//!
//!     compare PLATE [INPUTS [SEED]]   INPUTS inputs (40) of LINES lines each, from the seeds SEED, SEED + 1 and so on
//!                                     (1)
//!     compare --model-only PATH ..    the model alone: on the cases of the paths, NAME.in with NAME.out, and what the
//!                                     lines reach
//!
//! It fails where an output differs from the model's, where the program does not end by itself with status 0, and where
//! a sort of output line or a situation in REACHED never came.

mod cases;
mod inputs;
mod model;
#[path = "../pair/program.rs"]
mod program;
#[path = "../trial/report.rs"]
mod report;
mod tally;

use report::{difference, shown};
use std::process::ExitCode;
use std::time::Instant;
use tally::{Tally, REACHED, SORTS};

const INPUTS: u64 = 40;
const LINES: u64 = 500;

/// The line of the input that prints this line of the output (both counted from 1).
fn asked_by(input: &[u8], printed: usize) -> Vec<u8> {
    let mut said = 0;
    for line in model::lines(input) {
        said += model::answer(line).len();
        if said >= printed {
            return line.to_vec();
        }
    }
    Vec::new()
}

/// Where the outputs agree nothing, else the report.
fn compare(program: &str, seed: u64, input: &[u8]) -> Option<String> {
    let wanted = model::plate(input);
    let piece = [input.len().max(1), 4096, 65_536, 1000][seed as usize % 4];
    let output = match program::output_of(program, input, piece, wanted.len() as u64 + 4096) {
        Ok(output) => output,
        Err(error) => return Some(format!("seed {seed}: {error}")),
    };
    let (line, model, program) = difference(&wanted, &output)?;
    let asked = shown(&asked_by(input, line));
    Some(format!("seed {seed}: output line {line}: model {model}, program {program}\ninput line: {asked}"))
}

/// Prints the tally; whether all came that should.
fn complete(tally: &Tally) -> bool {
    let mut good = true;
    let tables = SORTS.iter().map(|what| (what, &tally.sorts)).chain(REACHED.iter().map(|what| (what, &tally.reached)));
    for (what, counts) in tables {
        let times = counts.get(what).copied().unwrap_or(0);
        println!("{what}: {times}");
        if times == 0 {
            println!("{what}: never came");
            good = false;
        }
    }
    good
}

fn all(program: Option<&str>, count: u64, first: u64) -> bool {
    let started = Instant::now();
    let mut tally = Tally::default();
    for seed in first..first + count {
        let input = inputs::input_of(seed, LINES);
        if let Some(report) = program.and_then(|program| compare(program, seed, &input)) {
            println!("{report}");
            return false;
        }
        tally.observe(&input);
    }
    let done = if program.is_some() { "compared" } else { "given to the model" };
    println!("{count} inputs, {} lines {done} in {:.1} s", tally.lines, started.elapsed().as_secs_f64());
    complete(&tally)
}

/// What the command line asks for; nothing where it cannot be read.
fn asked(arguments: &[String]) -> Option<bool> {
    let number = |at: usize, usual: u64| arguments.get(at).map_or(Some(usual), |text| text.parse().ok());
    let program = arguments.first()?;
    if program == "--model-only" {
        return Some(cases::all(&arguments[1..]) & all(None, INPUTS, 1));
    }
    Some(all(Some(program), number(1, INPUTS)?, number(2, 1)?))
}

fn main() -> ExitCode {
    let arguments: Vec<String> = std::env::args().skip(1).collect();
    let good = asked(&arguments).unwrap_or_else(|| {
        println!("compare PLATE [INPUTS [SEED]], or compare --model-only PATH ..");
        false
    });
    println!("{}", if good { "1 passed, 0 failed" } else { "0 passed, 1 failed" });
    if good { ExitCode::SUCCESS } else { ExitCode::FAILURE }
}
