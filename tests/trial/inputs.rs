//! The inputs: random ones, each from its seed, and fixed ones.

mod fixed;
mod plans;
#[allow(dead_code)] // not every way of asking is used here
#[path = "../calls/random.rs"]
mod random;
mod spoilt;

pub use fixed::fixed_inputs;
pub use random::Random;

/// The input of a seed: mostly a well-formed trial, as it is or with a line spoilt, with bytes changed, or cut.
pub fn input_of(seed: u64) -> Vec<u8> {
    let random = Random::new(seed);
    match random.weighted(&[70, 10, 6, 6, 4, 4]) {
        0 => plans::trial(&random),
        1 => spoilt_trial(&random),
        2 => damaged(&random, plans::trial(&random)),
        3 => cut(&random, plans::trial(&random)),
        4 => without_newline(plans::trial(&random)),
        _ => noise(&random),
    }
}

/// A trial with one line replaced by a spoilt one: the first one, or another.
fn spoilt_trial(random: &Random) -> Vec<u8> {
    let input = plans::trial(random);
    let mut lines: Vec<Vec<u8>> = input.split(|byte| *byte == b'\n').map(<[u8]>::to_vec).collect();
    let last = lines.len() as u64 - 1;
    let at = if random.percent(25) { 0 } else { random.below(last.max(1)).min(random.below(last.max(1))) };
    lines[at as usize] = spoilt::line(random);
    let joined = lines.join(&b'\n');
    if random.percent(15) { without_newline(joined) } else { joined }
}

/// Bytes changed, put in or left out, one to four of them.
fn damaged(random: &Random, mut input: Vec<u8>) -> Vec<u8> {
    for _ in 0..random.range(1, 4) {
        let at = random.below(input.len() as u64) as usize;
        match random.below(3) {
            0 => input[at] = spoilt::byte(random),
            1 => input.insert(at, spoilt::byte(random)),
            _ if input.len() > 1 => {
                input.remove(at);
            }
            _ => {}
        }
    }
    input
}

fn cut(random: &Random, mut input: Vec<u8>) -> Vec<u8> {
    input.truncate(random.below(input.len() as u64 + 1) as usize);
    input
}

fn without_newline(mut input: Vec<u8>) -> Vec<u8> {
    if input.last() == Some(&b'\n') {
        input.pop();
    }
    input
}

/// Random bytes: of all values, or of those that trials are made of.
fn noise(random: &Random) -> Vec<u8> {
    let length = random.below(300);
    if random.percent(30) {
        return random.bytes(length);
    }
    (0..length).map(|_| random.pick(b"0123456789  \n")).collect()
}
