//! What the scripts reached: every (letter, number) that a row had, every reason why a line is no command, every set of
//! remarks, and the situations that must come.
use crate::model::{lines, Answer, Site, Trace};
use std::collections::BTreeMap;

/// Every (letter, number) that a row can have. Why no other one can come, at these settings:
/// - 3, 5, 12, 20 and 23 never: one byte at the head of a page and blocks of U bytes; reply and destination are long
///   enough; the disk choice is no command; `k` flushes all that is due; the port is 0.
/// - 11 never: `x` changes what goes to the standby, and no ACK. The standby accepts the epochs in turn, each with a
///   STATE of its own, and each closed epoch of the primary has one record of 72 bytes: a PAGE or BLOCK made a STATE
///   leaves two bytes on the link, behind which nothing is read. So no ACK is of an open epoch, and none comes twice.
/// - 13 at `c` and `a` only: the standby receives until `k`, which is the end. 19 would take 4,294,967,294 checkpoints.
/// - 1 only at `x` and at a line that is no command: no call leaves its ranges.
pub const CAN_COME: [(char, u64); 35] = [
    ('w', 0), ('w', 2), ('d', 0), ('d', 2), ('d', 14), ('d', 15), ('s', 0), ('s', 4), ('s', 16), ('c', 0), ('c', 13),
    ('c', 15), ('m', 0), ('m', 2), ('m', 6), ('m', 7), ('m', 8), ('m', 9), ('m', 10), ('m', 14), ('m', 17), ('m', 18),
    ('m', 256), ('a', 0), ('a', 13), ('a', 18), ('t', 0), ('t', 18), ('f', 0), ('k', 0), ('x', 0), ('x', 1), ('x', 18),
    ('p', 0), ('?', 1),
];

/// Every reason why a line is no command, every set of remarks (`k` activates at once, so that no row has `standby
/// taking over`), and the situations that must come.
pub const REACHED: [&str; 75] = [
    "the line is empty", "ends with a carriage return", "unknown letter", "numbers wanted: 0", "numbers wanted: 1",
    "numbers wanted: 2", "number 1 is not in digits", "number 1 is above 255", "number 1 is above 4294967295",
    "number 2 is not in digits", "number 2 is above 255",
    "no remark", "alone", "active", "damaged", "alone, active", "alone, damaged", "active, damaged",
    "all three remarks",
    "m moved a PAGE", "m moved a BLOCK", "m moved a STATE", "m moved a COMMIT", "m left bytes on the link",
    "a PAGE read as a BLOCK", "a BLOCK read as a PAGE", "a PAGE or BLOCK read as a STATE", "m refused again",
    "a damaged record accepted from the link", "17 again", "9 at a COMMIT", "9 at a PAGE", "9 at a BLOCK", "2 before 8",
    "8 at a COMMIT", "10 at a count of pages", "10 at a count of blocks", "256 without a header", "256 without a body",
    "a block stored and the disks differ", "a COMMIT and the memories differ",
    "x drained a PAGE", "x drained a BLOCK", "x drained a STATE", "x drained a COMMIT", "x on the length",
    "x on the kind", "x on the epoch", "x on a number", "x on a body", "x with the link not empty",
    "x with the same byte, no damage yet", "x put a byte back", "1 at x with the link empty",
    "1 at x just behind the link", "18 at x when alone",
    "p with nothing outstanding", "p counted 1", "p counted 2", "p dropped a stream", "p when alone",
    "p left bytes on the link", "a returned the count to 0", "a refused with 13 again",
    "t of the open epoch when alone", "d when alone beyond B", "m when alone accepted",
    "k with a link not empty", "k with blocks due", "k with blocks not due", "k when alone with a stream dropped",
    "lines behind k", "no k", "no input", "no last newline",
];

#[derive(Default)]
pub struct Tally {
    pub scripts: u64,
    pub lines: u64,
    pub numbers: BTreeMap<(char, u64), u64>,
    pub reached: BTreeMap<&'static str, u64>,
}

/// What is looked at before a line.
struct Before {
    next: Vec<u8>,
    link: usize,
    waiting: u64,
    count: u64,
    alone: bool,
    damaged: bool,
    staged: u64,
    due: u64,
    epoch_blocks: u64,
    oldest: u32,
    last: Option<(char, u64)>,
}

fn kind(record: &[u8]) -> u8 {
    if record.len() < 4 { 0 } else { record[2] }
}

impl Tally {
    fn reach(&mut self, what: &str, happened: bool) {
        let known = REACHED.into_iter().find(|known| *known == what);
        *self.reached.entry(known.expect("it is in the table")).or_default() += happened as u64;
    }

    pub fn merge(&mut self, other: Tally) {
        self.scripts += other.scripts;
        self.lines += other.lines;
        for (key, count) in other.numbers {
            *self.numbers.entry(key).or_default() += count;
        }
        for (key, count) in other.reached {
            *self.reached.entry(key).or_default() += count;
        }
    }

    /// Walks through a script with the model and counts what its rows have and reach.
    pub fn observe(&mut self, script: &[u8]) {
        let mut trace = Trace::start();
        // what a byte of the link was before `x` changed it
        let mut changed: BTreeMap<u64, u64> = BTreeMap::new();
        let mut last = None;
        let lines = lines::lines(script);
        self.scripts += 1;
        self.reach("no input", script.is_empty());
        self.reach("no last newline", script.last().is_some_and(|byte| *byte != b'\n'));
        for (at, line) in lines.iter().enumerate() {
            let before = look(&trace, last);
            let answer = trace.line(line);
            let letter = answer.asked.as_ref().map_or('?', |command| command.letter);
            last = Some((letter, answer.number));
            self.lines += 1;
            *self.numbers.entry((letter, answer.number)).or_default() += 1;
            self.row(&trace, &answer);
            match letter {
                'm' => self.moved(&before, &trace.site, &answer),
                'x' => self.exchanged(&before, &trace, &answer, &mut changed),
                'k' => self.took_over(&before, &trace.site, at + 1 < lines.len()),
                _ => self.others(&before, &trace.site, letter, &answer),
            }
            if letter == 'm' && answer.number == 0 {
                changed.clear();
            }
            if trace.ended {
                return;
            }
        }
        self.reach("no k", true);
    }

    fn row(&mut self, trace: &Trace, answer: &Answer) {
        if let Err(why) = &answer.asked {
            self.reach(why, true);
        }
        let remarks = match (trace.site.primary.alone, trace.ended, trace.damaged) {
            (false, false, false) => "no remark",
            (true, false, false) => "alone",
            (false, true, false) => "active",
            (false, false, true) => "damaged",
            (true, true, false) => "alone, active",
            (true, false, true) => "alone, damaged",
            (false, true, true) => "active, damaged",
            (true, true, true) => "all three remarks",
        };
        self.reach(remarks, true);
    }

    fn moved(&mut self, before: &Before, site: &Site, answer: &Answer) {
        if answer.number == 0 {
            self.accepted(before, site, answer.value);
        } else {
            self.refused(before, site, answer.number);
        }
    }

    /// `m` accepted a record of this kind.
    fn accepted(&mut self, before: &Before, site: &Site, kind: u64) {
        let names = ["m moved a PAGE", "m moved a BLOCK", "m moved a STATE", "m moved a COMMIT"];
        self.reach(names[kind as usize - 1], true);
        self.reach("m left bytes on the link", !site.link.is_empty());
        self.reach("a PAGE read as a BLOCK", (site.drained, kind) == (1, 2));
        self.reach("a BLOCK read as a PAGE", (site.drained, kind) == (2, 1));
        self.reach("a PAGE or BLOCK read as a STATE", site.drained < 3 && kind == 3);
        self.reach("a damaged record accepted from the link", before.link > 0 && before.damaged);
        self.reach("m when alone accepted", before.alone);
        let last = site.primary.open == site.standby.received + 1;
        self.reach("a COMMIT and the memories differ", kind == 4 && last && site.standby_memory != site.memory);
    }

    fn refused(&mut self, before: &Before, site: &Site, number: u64) {
        let again = before.link > 0 && before.last == Some(('m', number));
        self.reach("m refused again", again);
        self.reach("17 again", again && number == 17);
        let (next, kind) = (&before.next, kind(&before.next));
        self.reach("9 at a COMMIT", (number, kind) == (9, 4));
        self.reach("9 at a PAGE", (number, kind) == (9, 1));
        self.reach("9 at a BLOCK", (number, kind) == (9, 2));
        let next_epoch = (site.standby.received + 1).to_le_bytes();
        self.reach("2 before 8", number == 2 && next[4..8] != next_epoch);
        self.reach("8 at a COMMIT", (number, kind) == (8, 4));
        if number == 10 {
            let pages = u16::from_le_bytes([next[8], next[9]]) as u64;
            self.reach("10 at a count of pages", pages != site.standby.pages);
            self.reach("10 at a count of blocks", pages == site.standby.pages);
        }
        self.reach("256 without a header", number == 256 && next.len() < 4);
        self.reach("256 without a body", number == 256 && next.len() >= 4);
    }

    fn exchanged(&mut self, before: &Before, trace: &Trace, answer: &Answer, changed: &mut BTreeMap<u64, u64>) {
        let Ok(command) = &answer.asked else { return };
        let (at, byte) = (command.numbers[0], command.numbers[1]);
        if answer.number == 0 {
            let drained = before.link == 0;
            if drained {
                let names = ["x drained a PAGE", "x drained a BLOCK", "x drained a STATE", "x drained a COMMIT"];
                self.reach(names[trace.site.drained as usize - 1], true);
            }
            self.reach("x with the link not empty", !drained);
            self.reach("x with the same byte, no damage yet", answer.value == byte && !trace.damaged);
            let field = match at {
                0 | 1 => "x on the length",
                2 | 3 => "x on the kind",
                4..=7 => "x on the epoch",
                8 | 9 => "x on a number",
                _ => "x on a body",
            };
            self.reach(field, answer.value != byte);
            let original = *changed.entry(at).or_insert(answer.value);
            self.reach("x put a byte back", answer.value != byte && original == byte);
        }
        self.reach("1 at x with the link empty", answer.number == 1 && before.link == 0);
        self.reach("1 at x just behind the link", answer.number == 1 && at == before.link as u64);
        self.reach("18 at x when alone", answer.number == 18 && before.alone);
    }

    fn took_over(&mut self, before: &Before, site: &Site, behind: bool) {
        self.reach("k with a link not empty", before.link > 0);
        self.reach("k with blocks due", before.due > 0);
        self.reach("k with blocks not due", before.staged > before.due);
        self.reach("k when alone with a stream dropped", before.alone && site.primary.open > site.standby.received + 1);
        self.reach("lines behind k", behind);
    }

    fn others(&mut self, before: &Before, site: &Site, letter: char, answer: &Answer) {
        let accepted = answer.number == 0;
        let primary = &site.primary;
        match letter {
            'p' => {
                self.reach("p with nothing outstanding", !before.alone && primary.count == 0);
                self.reach("p counted 1", primary.count == 1);
                self.reach("p counted 2", primary.count == 2);
                let now_alone = primary.alone && !before.alone;
                self.reach("p dropped a stream", now_alone && before.waiting > 0);
                self.reach("p left bytes on the link", now_alone && before.link > 0);
                self.reach("p when alone", before.alone);
            }
            'a' => {
                self.reach("a returned the count to 0", accepted && before.count > 0);
                self.reach("a refused with 13 again", answer.number == 13 && before.last == Some(('a', 13)));
            }
            't' => {
                let of_the_open_epoch = before.oldest == primary.open;
                self.reach("t of the open epoch when alone", accepted && before.alone && of_the_open_epoch);
            }
            'd' => self.reach("d when alone beyond B", accepted && before.alone && before.epoch_blocks == 2),
            'f' => {
                let differ = before.damaged && site.standby_disk != site.disk;
                self.reach("a block stored and the disks differ", answer.value == 1 && differ);
            }
            _ => {}
        }
    }
}

fn look(trace: &Trace, last: Option<(char, u64)>) -> Before {
    let site = &trace.site;
    Before {
        next: site.next_bytes().to_vec(),
        link: site.link.len(),
        waiting: site.primary.waiting,
        count: site.primary.count,
        alone: site.primary.alone,
        damaged: trace.damaged,
        staged: site.standby.staged,
        due: site.standby.due,
        epoch_blocks: site.primary.blocks,
        oldest: site.primary.queue[0].epoch,
        last,
    }
}
