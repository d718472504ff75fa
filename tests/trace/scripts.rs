//! The random scripts. A writer walks beside the model, so that it knows what is on its way and can change a byte of it
//! and put it back.
use crate::model::{Site, Trace};
#[allow(dead_code)] // not every way of asking is used here
#[path = "../calls/random.rs"]
mod random;
mod spoilt;
pub use random::Random;

/// How a script is weighted: w, d, s, c, m, a, t, f, p, x and a spoilt line.
const PROFILES: [[u64; 11]; 7] = [
    // calm
    [14, 8, 8, 10, 34, 10, 8, 8, 0, 0, 1],
    // damage on the link
    [12, 10, 3, 8, 36, 4, 2, 5, 1, 24, 0],
    // damage and everything else
    [10, 12, 5, 9, 28, 6, 5, 5, 5, 14, 3],
    // ticks of the primary
    [10, 10, 8, 10, 18, 8, 10, 3, 20, 4, 1],
    // little is moved
    [20, 22, 12, 20, 8, 3, 6, 2, 2, 2, 0],
    // blocks and no flush
    [4, 26, 2, 12, 46, 3, 2, 2, 1, 6, 0],
    // lines that are no command
    [8, 8, 8, 8, 16, 8, 8, 8, 4, 8, 40],
];

struct Writer {
    random: Random,
    trace: Trace,
    script: Vec<u8>,
    /// Bytes of the link that were changed, to be put back: their place and what was there.
    changed: Vec<(u64, u64)>,
}

impl Writer {
    fn put(&mut self, line: &[u8]) {
        self.script.extend_from_slice(line);
        self.script.push(b'\n');
        if !self.trace.ended {
            self.trace.line(line);
        }
    }

    /// A number, seldom with zeros before it.
    fn decimal(&self, number: u64) -> String {
        let zeros = if self.random.percent(3) { self.random.range(1, 40) } else { 0 };
        "0".repeat(zeros as usize) + &number.to_string()
    }

    /// A number below `usual`, seldom a larger one.
    fn number(&self, usual: u64) -> u64 {
        match self.random.below(30) {
            0 => self.random.pick(&[0, 4, 5, 255, 1514, 1515, 65_536, 4_294_967_295]),
            _ => self.random.below(usual),
        }
    }

    fn command(&self, letter: char, numbers: &[u64]) -> Vec<u8> {
        let mut line = letter.to_string();
        for number in numbers {
            line.push(' ');
            line.push_str(&self.decimal(*number));
        }
        line.into_bytes()
    }

    fn give(&mut self, letter: char, numbers: &[u64]) {
        let line = self.command(letter, numbers);
        self.put(&line);
    }

    fn byte(&self) -> u64 {
        if self.random.percent(50) { self.random.below(4) } else { self.random.below(256) }
    }

    /// The byte that is at a place of what the next `m` reads.
    fn byte_at(&self, at: u64) -> Option<u64> {
        let site: &Site = &self.trace.site;
        let on_its_way = site.next_bytes();
        on_its_way.get(at as usize).map(|byte| *byte as u64)
    }

    fn change(&mut self, at: u64, byte: u64) {
        if let Some(before) = self.byte_at(at) {
            self.changed.push((at, before));
        }
        self.give('x', &[at, byte]);
    }

    /// One or two bytes of what is on its way, put back at times.
    fn damage(&mut self) {
        let next = self.byte_at(0).is_some();
        match self.random.below(12) {
            // put back, the last one first
            0..=3 if !self.changed.is_empty() => {
                while let Some((at, byte)) = self.changed.pop() {
                    self.give('x', &[at, byte]);
                }
                self.give('m', &[]);
            }
            // another kind with its length
            4 | 5 => {
                let known = [(70, 1), (70, 2), (68, 3), (8, 4), (4, 5), (72, 8), (12, 9), (4, 6)];
                let (length, kind) = self.random.pick(&known);
                self.change(0, length);
                self.change(2, kind);
                self.give('m', &[]);
            }
            6 => self.change(8, self.random.below(5)),
            7 => self.change(self.random.pick(&[8, 9, 10, 11]), self.random.below(4)),
            8 => {
                let at = self.random.below(76);
                let same = self.byte_at(at).unwrap_or(0);
                self.give('x', &[at, same]);
            }
            9 if !next || self.random.percent(30) => {
                let at = self.random.pick(&[0, 2, 11, 12, 71, 72, 73, 74, 75, 255, 256, 1024, 4_294_967_295]);
                self.give('x', &[at, self.random.below(256)]);
            }
            10 => self.change(self.random.below(10), self.byte()),
            _ => self.change(self.random.below(74), self.byte()),
        }
    }

    fn step(&mut self, profile: &[u64; 11]) {
        match self.random.weighted(profile) {
            0 => self.give('w', &[self.number(4), self.byte()]),
            1 => self.give('d', &[self.number(4), self.byte()]),
            2 => {
                let usual = self.random.pick(&[2, 8, 60, 300]);
                self.give('s', &[self.number(usual)]);
            }
            3 => self.give('c', &[self.random.below(256)]),
            4 => self.give('m', &[]),
            5 => self.give('a', &[]),
            6 => self.give('t', &[]),
            7 => self.give('f', &[]),
            8 => self.give('p', &[]),
            9 => self.damage(),
            _ => {
                let line = spoilt::line(&self.random);
                self.put(&line);
            }
        }
    }

    /// The end of a script: `k` or not, lines behind it or not, a last newline or not.
    fn end(mut self) -> Vec<u8> {
        if self.random.percent(70) {
            self.put(b"k");
            if self.random.percent(20) {
                self.step(&PROFILES[2]);
                self.step(&PROFILES[6]);
            }
        }
        if self.random.percent(25) {
            self.script.pop();
        }
        self.script
    }
}

/// Random bytes: of all values, or of those that scripts are made of.
fn noise(random: &Random) -> Vec<u8> {
    let length = random.below(300);
    if random.percent(30) {
        return random.bytes(length);
    }
    (0..length).map(|_| random.pick(b"wdscmatfkxp 0123456789\n\n\n  ")).collect()
}

/// The script of a seed.
pub fn script_of(seed: u64) -> Vec<u8> {
    let random = Random::new(seed);
    if random.percent(3) {
        return noise(&random);
    }
    let steps = match random.below(200) {
        0 => 1000,
        1..=20 => random.below(4),
        21..=60 => random.range(60, 200),
        _ => random.range(5, 60),
    };
    let first = random.below(PROFILES.len() as u64) as usize;
    let mut writer = Writer { random, trace: Trace::start(), script: Vec::new(), changed: Vec::new() };
    for step in 0..steps {
        // half of the scripts change their weights in the middle
        let second = if seed % 2 == 0 && step > steps / 2 { 1 } else { 0 };
        writer.step(&PROFILES[(first + second) % PROFILES.len()]);
    }
    writer.end()
}
