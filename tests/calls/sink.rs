//! Where every call goes: it is made by the library and by the model, and everything is compared.
use crate::call::{call, Answer};
use crate::checker::{compare, compare_answer, compare_lent, Check};
use crate::files::Files;
use crate::items::code;
use crate::kinds::{unit_number, Kinds};
use crate::lent::Lent;
use crate::model::{Reply, Standby};
use crate::numbers::Numbers;
use crate::ports::Ports;
use crate::print_form::{input_line, Output};
use crate::repeats::Repeats;
use crate::sums::Sums;
use crate::view::View;
use crate::world::{run, Args, World};
use std::fs;
use std::process::exit;

const DIFFERENCE_FILE: &str = "target/tests/calls-difference.txt";

/// Lines of FORM.md and the answers expected.
#[derive(Default)]
pub struct Text {
    pub lines: Vec<Vec<u8>>,
    pub answers: Vec<Vec<u8>>,
}

pub struct Sink {
    /// What the library's calls are given, as it was before the call and as the call works on it.
    before: Lent,
    lent: Lent,
    seed: u64,
    /// The kind of run that is under way.
    pub kind: &'static str,
    /// The calls made, the one under way among them.
    pub calls: u64,
    /// Which numbers came, by call code.
    pub numbers: Numbers,
    /// What packets and takes did to the packets of each port.
    pub ports: Ports,
    /// What came of blocks that come again in their epoch.
    pub repeats: Repeats,
    /// What came of sums.
    pub sums: Sums,
    /// What came of checkpoints kept on file.
    pub files: Files,
    /// How many records of each kind were accepted by a read.
    pub records: [u64; 10],
    /// What reads gave by the record's kind.
    pub kinds: Kinds,
    /// How many PAGEs, BLOCKs and wide PAGEs were out of order by the count of pages alone.
    pub by_count: [u64; 3],
    /// Lists with a checkpoint wholly received although more than T ticks came between its records.
    pub long_checkpoints: u64,
    /// Where the calls are wanted as lines too.
    pub text: Option<Text>,
}

impl Sink {
    pub fn new(seed: u64) -> Sink {
        Sink {
            before: Lent::new(),
            lent: Lent::new(),
            seed,
            kind: "",
            calls: 0,
            numbers: Numbers::default(),
            ports: Ports::default(),
            repeats: Repeats::default(),
            sums: Sums::default(),
            files: Files::default(),
            records: [0; 10],
            kinds: Kinds::default(),
            by_count: [0; 3],
            long_checkpoints: 0,
            text: None,
        }
    }

    /// Makes one call by the library and on the model's world, and compares everything.
    pub fn call(&mut self, which: usize, w: &mut World, a: &mut Args) -> Reply {
        self.calls += 1;
        View::new(w, a).lend_all(&mut self.before, which);
        self.lent.copy(which, &self.before);
        let answer = call(which, &mut self.lent);
        let reply = run(which, w, a);
        let check = compare(which, &self.lent, answer, &reply, &View::new(w, a));
        self.end_at_difference(which, check);
        if reply.number != 1 {
            let check = self.ports.check(which, reply.number, &self.before, &self.lent);
            let check = check.and_then(|()| self.repeats.check(which, reply.number, &self.before, &self.lent));
            self.end_at_difference(which, check);
        }
        let check = self.sums.check(which, answer, &self.before, &self.lent, w);
        let check = check.and_then(|()| self.files.check(which, answer, &self.before, &self.lent));
        self.end_at_difference(which, check);
        self.note_text(which, answer);
        self.note(which, &reply, w, a);
        reply
    }

    /// Makes one call on what `change` makes of the words lent: it must give 1 and change nothing.
    pub fn refused(&mut self, which: usize, w: &World, a: &Args, change: impl FnOnce(&mut Lent)) {
        self.calls += 1;
        View::new(w, a).lend_all(&mut self.before, which);
        change(&mut self.before);
        self.lent.copy(which, &self.before);
        let answer = call(which, &mut self.lent);
        let reply = Reply { number: 1, value: 0, used: 0, missing: 0 };
        let check = compare_answer(answer, &reply).and_then(|()| compare_lent(which, &self.lent, &self.before));
        self.end_at_difference(which, check);
        self.note_text(which, answer);
        self.note(which, &reply, w, a);
    }

    /// Counts what a call that was compared gave.
    pub fn note(&mut self, which: usize, reply: &Reply, w: &World, a: &Args) {
        self.numbers.note(which, reply.number);
        if which != code::READ {
            return;
        }
        self.kinds.note(&w.standby, &a.data, reply.number);
        match reply.number {
            0 => self.records[reply.value as usize] += 1,
            9 => self.note_order(&w.standby, &a.data),
            _ => {}
        }
    }

    /// Counts a PAGE or a BLOCK refused with 9 that is in order by STATE and by the next page.
    fn note_order(&mut self, s: &Standby, data: &[u8]) {
        let in_order = !s.state_seen && unit_number(data).is_some_and(|page| s.next_page <= page);
        match data[2] {
            1 if in_order => self.by_count[0] += 1,
            2 if !s.state_seen && s.next_page == 0 => self.by_count[1] += 1,
            8 if in_order => self.by_count[2] += 1,
            _ => {}
        }
    }

    fn note_text(&mut self, which: usize, answer: Answer) {
        if let Some(text) = &mut self.text {
            text.lines.push(input_line(which, &self.before));
            text.answers.push(answer_line(which, &self.lent, answer));
        }
    }

    /// Tells a difference in the last call and ends everything. The call's line goes to a file.
    pub fn end_at_difference(&self, which: usize, check: Check) {
        let Err(what) = check else { return };
        println!("{}", self.told(which, &what));
        let line = input_line(which, &self.before);
        match fs::create_dir_all("target/tests").and_then(|()| fs::write(DIFFERENCE_FILE, line)) {
            Ok(()) => println!("the call's line is in {DIFFERENCE_FILE}"),
            Err(error) => println!("{DIFFERENCE_FILE}: {error}"),
        }
        exit(1)
    }

    /// A difference in the last call, in words.
    pub fn told(&self, which: usize, what: &str) -> String {
        format!("difference in {}: seed {}, call {}, code {which}: {what}", self.kind, self.seed, self.calls)
    }
}

/// The answer's line of a call made on these.
pub fn answer_line(which: usize, l: &Lent, answer: Answer) -> Vec<u8> {
    let mut line = Vec::new();
    let mut output = Output::new(&mut line);
    output.answer(which, l, answer).and_then(|()| output.flush()).expect("a vector takes every byte");
    line
}
