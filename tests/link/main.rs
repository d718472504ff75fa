//! Compares `record_test` and `disk_choice` of liblink.a with implementations of its own, on many
//! inputs, and `record_test` with itself where more bytes come behind an input.
//!
//! The inputs are sweeps over whole ranges, then `ROUNDS` and `CHOICES` made by a generator. Its
//! seed is printed, and may be given as the first argument. Every difference fails the run, and so does a class of
//! answer that never came. The last line is '1 passed, 0 failed' or '0 passed, 1 failed'.

mod choices;
mod inputs;
mod library;
mod missing;
mod rules;

use choices::compare_choices;
use inputs::{Input, Numbers, generate, sweep_cuts, sweep_headers, sweep_sizes};
use missing::STAGES;
use rules::{CLASSES, answer};
use std::env;
use std::process;

/// How many inputs the generator makes, after the sweeps.
const ROUNDS: u64 = 3_000_000;

/// How many inputs the generator makes for the disk choice.
const CHOICES: u64 = 200_000;

/// How many differences are printed. The others are counted.
const PRINTED: u64 = 10;

/// The values of U at which the sweeps make records.
const SIZES: [u64; 6] = [64, 128, 192, 512, 1024, 4096];

/// Values of U that are out of range.
const OUTSIDE: [u64; 28] = [
    0,
    1,
    6,
    32,
    63,
    65,
    66,
    96,
    127,
    129,
    4095,
    4097,
    4102,
    4160,
    4224,
    8192,
    65_536,
    65_536 + 64,
    u32::MAX as u64,
    u32::MAX as u64 + 1,
    u32::MAX as u64 + 64,
    u32::MAX as u64 + 65,
    (1 << 32) + 4096,
    1 << 63,
    (1 << 63) + 64,
    u64::MAX - 63,
    u64::MAX - 5,
    u64::MAX,
];

// The comparison.

struct Tally {
    inputs: u64,
    differences: u64,
    classes: [u64; 12],
    stages: [u64; 3],
}

impl Tally {
    fn compare(&mut self, u: u64, bytes: &[u8]) {
        let ours = answer(u, bytes);
        let theirs = library::word(u, bytes);
        self.inputs += 1;
        self.classes[ours.class()] += 1;
        if ours.word() != theirs && self.prints(u, bytes) {
            println!("  wanted {}", decoded(ours.word()));
            println!("  got {}", decoded(theirs));
        }
    }

    /// Checks the input with more bytes behind it.
    fn compare_more(&mut self, n: &mut Numbers, input: &mut Input) {
        match missing::check(n, input) {
            Ok(stage) => self.stages[stage] += 1,
            Err(what) => {
                if self.prints(input.u, input.bytes()) {
                    println!("  with more bytes behind these: {what}");
                }
            }
        }
    }

    /// Counts a difference, and prints its input if it is one of the first.
    fn prints(&mut self, u: u64, bytes: &[u8]) -> bool {
        self.differences += 1;
        if self.differences > PRINTED {
            return false;
        }
        let hex: Vec<String> = bytes.iter().map(|b| format!("{b:02x}")).collect();
        println!(
            "DIFFERENCE: U {u}, {} bytes: {}",
            bytes.len(),
            hex.join(" ")
        );
        true
    }
}

/// Prints how often each of these came. Whether each did.
fn all_came(names: &[&str], counts: &[u64]) -> bool {
    for (name, count) in names.iter().zip(counts) {
        println!("{count:>10}  {name}");
        if *count == 0 {
            println!("FAILED: this never came");
        }
    }
    !counts.contains(&0)
}

/// The upper part counts the bytes missing where the lower 16 bits are 0, else those used.
fn decoded(word: u64) -> String {
    format!(
        "word {word}: number {}, kind {}, {} {}",
        word % 256,
        word / 256 % 256,
        if word % 65_536 == 0 { "missing" } else { "used" },
        word / 65_536
    )
}

/// The seed: the first argument, if there is one.
fn seed() -> Result<u64, String> {
    let Some(word) = env::args().nth(1) else {
        return Ok(20_080_416);
    };
    let parsed = match word.strip_prefix("0x") {
        Some(hex) => u64::from_str_radix(hex, 16),
        None => word.parse(),
    };
    parsed.map_err(|e| format!("the seed {word}: {e}"))
}

fn main() {
    let seed = seed().unwrap_or_else(|e| {
        eprintln!("{e}");
        process::exit(2);
    });
    println!("seed {seed}");
    let mut numbers = Numbers { state: seed };
    let mut input = Input::new(&mut numbers);
    let mut tally = Tally {
        inputs: 0,
        differences: 0,
        classes: [0; 12],
        stages: [0; 3],
    };

    sweep_cuts(&mut tally, &mut numbers, &mut input);
    sweep_headers(&mut tally, &mut input);
    sweep_sizes(&mut tally, &mut input);
    let swept = tally.inputs;
    for _ in 0..ROUNDS {
        generate(&mut numbers, &mut input);
        tally.compare(input.u, input.bytes());
        tally.compare_more(&mut numbers, &mut input);
    }

    println!("{} inputs: {swept} swept, {ROUNDS} generated", tally.inputs);
    let mut good = tally.differences == 0;
    good &= all_came(&CLASSES, &tally.classes);
    println!("inputs with more bytes behind them:");
    good &= all_came(&STAGES, &tally.stages);
    if tally.differences != 0 {
        println!(
            "FAILED: {} differences, of which {PRINTED} at most are printed",
            tally.differences
        );
    }
    good &= compare_choices(&mut numbers);
    if good {
        println!("1 passed, 0 failed");
    } else {
        println!("0 passed, 1 failed");
        process::exit(1);
    }
}
