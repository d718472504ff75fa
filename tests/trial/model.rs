//! A second, plain model of the program `trial` (document 02, Job 12), written from the documents alone: the line of
//! settings, then tick after tick on the two ends of tests/calls/model.rs. It is made for reading, not for speed, and
//! shares nothing with the program that it is compared with.

#[path = "../calls/model.rs"]
pub mod ends;
pub mod rows;
mod site;

pub use site::Site;
use std::collections::VecDeque;

/// What ends a run, as it is printed: letter, number, value.
pub type Ending = (char, u64, u64);

/// What a step gave, or its letter and number where it was refused.
fn must<A>(letter: char, answer: Result<A, u64>) -> Result<A, Ending> {
    answer.map_err(|number| (letter, number, 0))
}

/// A trial whose settings are accepted.
pub struct Trial {
    pub site: Site,
    pub interval: u64,
    pub rate: u64,
    /// The last tick begun; 0 before the first.
    pub tick: u64,
    /// The ticks in which the packets held were sent, the oldest first.
    pub sent: VecDeque<u64>,
    /// The waits of the packets taken: the longest of all, and those of the last tick.
    pub longest_taken: u64,
    pub waits: Vec<u64>,
}

impl Trial {
    /// The first line: 1 before 27.
    pub fn begin(line: &[u8]) -> Result<Trial, Ending> {
        let [interval, rate, patience] = rows::row(line).ok_or(('?', 1, 0))?;
        let site = must('?', Site::start(patience))?;
        if interval == 0 || rate == 0 {
            return Err(('?', 27, 0));
        }
        Ok(Trial { site, interval, rate, tick: 0, sent: VecDeque::new(), longest_taken: 0, waits: Vec::new() })
    }

    /// A later line: the open epoch, the packets held and the bytes waiting, or what ends the run.
    pub fn line(&mut self, line: &[u8]) -> Result<[u64; 3], Ending> {
        let [pages, blocks, packets] = rows::row(line).ok_or(('?', 1, 0))?;
        self.tick += 1;
        self.waits.clear();
        self.guest(pages, blocks, packets)?;
        if self.tick % self.interval == 0 {
            must('c', self.site.checkpoint())?;
        }
        self.link()?;
        self.site.tick_both();
        if self.site.taken_over() {
            let checkpoint = must('k', self.site.activate())?;
            return Err(('k', 0, checkpoint));
        }
        self.takes();
        let primary = &self.site.primary;
        Ok([primary.open as u64, primary.packets, primary.waiting])
    }

    /// Pages, blocks and packets, each "0 to n less 1".
    fn guest(&mut self, pages: u64, blocks: u64, packets: u64) -> Result<(), Ending> {
        for page in 0..pages {
            must('w', self.site.write_page(page))?;
        }
        for block in 0..blocks {
            must('d', self.site.write_block(block))?;
        }
        for _ in 0..packets {
            must('s', self.site.send())?;
            self.sent.push_back(self.tick);
        }
        Ok(())
    }

    /// "The link's bytes, reading, flush of all due, ACKs".
    fn link(&mut self) -> Result<(), Ending> {
        self.site.drain(self.rate);
        must('m', self.site.read_all())?;
        self.site.flush_all();
        must('a', self.site.ack_all())?;
        Ok(())
    }

    fn takes(&mut self) {
        while self.site.take() {
            let sent = self.sent.pop_front().expect("a packet was taken that was not sent");
            self.waits.push(self.tick - sent);
            self.longest_taken = self.longest_taken.max(self.tick - sent);
        }
    }

    /// "The most ticks from a packet's sending to its take or the last tick begun, else 0".
    pub fn longest(&self) -> u64 {
        let held = self.sent.iter().map(|sent| self.tick - sent).max().unwrap_or(0);
        held.max(self.longest_taken)
    }
}

fn ending_line((letter, number, value): Ending) -> String {
    format!("{letter} {number} {value}\n")
}

/// The lines of a run, up to its end; the longest wait.
fn run(output: &mut String, trial: &mut Trial, lines: &[&[u8]]) {
    for line in lines {
        match trial.line(line) {
            Ok([open, held, waiting]) => output.push_str(&format!("{open} {held} {waiting}\n")),
            Err(ending) => {
                output.push_str(&ending_line(ending));
                break;
            }
        }
    }
}

/// The whole output for a whole input.
pub fn trial(input: &[u8]) -> Vec<u8> {
    let lines = rows::lines(input);
    let mut output = String::new();
    let mut longest = 0;
    match lines.first().map(|line| Trial::begin(line)) {
        None => {}
        Some(Err(ending)) => output.push_str(&ending_line(ending)),
        Some(Ok(mut trial)) => {
            run(&mut output, &mut trial, &lines[1..]);
            longest = trial.longest();
        }
    }
    output.push_str(&format!("{longest}\n"));
    output.into_bytes()
}
