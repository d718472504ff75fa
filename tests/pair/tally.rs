//! What the scripts reached: every (letter, number) that was printed, and the situations that must come.

use crate::model::{self, Pair};
use repeats::Repeats;
use std::collections::BTreeMap;

mod repeats;

/// Every (letter, number) that `pair` can print. Why no other one can come, at these settings:
/// - 1 only for a line that is no command: start is accepted, every lent length is right and no
///   call leaves its ranges.
/// - 2 only at `w` and `d`: what is sent was tested there, so the standby never sees a bad one.
/// - 3 never: one byte at the head of a page, and blocks of U bytes. 5 never: reply buffer and
///   take's destination are large enough.
/// - 6, 7, 8, 9, 10 never: the stream holds whole records of one primary in order, none lost or
///   repeated. 11 never: each COMMIT is acknowledged once, in order, after its epoch was closed.
/// - 12 never: the disk choice is not a command.
/// - 13 never: no command ticks the primary, so it is not alone; the standby stops receiving at
///   `k` only, which is the end, and activation comes after the three ticks that take over.
/// - 14 only at `d`: the standby's counts of an epoch's different blocks and of its records never
///   pass the primary's. 15 at `d` and `c`, 16 at `s`, 17 at `m` (S is 4, B is 2: a BLOCK of the
///   third epoch unflushed).
/// - 18 at `m`, `a` and `t`: nothing there. 19 would take 4,294,967,294 checkpoints. 20 never:
///   `k` flushes all that is due.
/// - `f` and `k` are always accepted.
pub const CAN_COME: [(char, u64); 21] = [
    ('w', 0), ('w', 2), ('d', 0), ('d', 2), ('d', 14), ('d', 15), ('s', 0), ('s', 4), ('s', 16),
    ('c', 0), ('c', 15), ('m', 0), ('m', 17), ('m', 18), ('a', 0), ('a', 18), ('t', 0), ('t', 18),
    ('f', 0), ('k', 0), ('?', 1),
];

/// Situations that the scripts must reach, counted in `observe`.
pub const REACHED: [&str; 63] = [
    "m moved a PAGE", "m moved a BLOCK", "m moved a STATE", "m moved a COMMIT",
    "17 again by the next m", "the refused BLOCK accepted after a flush", "a freed slot used again",
    "f with nothing due", "f stored a block", "f with staged blocks, none due",
    "stream filled to its last byte", "15 at d with an empty epoch", "c accepted after 15 at c",
    "2 before 14", "2 before 15", "14 before 15",
    "64 packets held in under 256 bytes", "256 bytes held in under 64 packets", "4 before 16",
    "16 for a legal packet longer than Q", "18 at t with a packet held", "18 at t with none held",
    "100 unread ACKs", "1000 unread ACKs", "the last of 1000 unread ACKs read", "epoch 1000",
    "k at checkpoint 0", "k with blocks due", "k with blocks not yet due", "k with a refused record in the link",
    "k with a stream waiting", "k with unread ACKs", "lines after k", "no k", "no input", "no last newline",
    "last line k without newline", "input over 65536 bytes", "line over 65536 bytes",
    "? empty line", "? space first, last or doubled", "? carriage return", "? plus or minus", "? capital letter",
    "? byte above 127", "? NUL", "? number too large",
    "d again beyond B writes", "d again with B blocks written", "15 for a block again with B blocks written",
    "14 for another block after repeats", "14 for a block of the epoch before", "14 for a block refused with 15 before",
    "14 at 65535 records for a block again", "14 at 65535 records for another block below B",
    "m read a block again", "m read a block again with S staged", "m read a block again after a flush in its epoch",
    "m read a block first that is due too", "17 after repeats in the epoch", "17 for a block that is due",
    "COMMIT of more records than blocks", "k after repeats in the epoch",
];

type Counts = BTreeMap<(char, u64), u64>;

#[derive(Default)]
pub struct Tally {
    pub scripts: u64,
    pub lines: u64,
    pub printed: Counts,
    pub reached: BTreeMap<&'static str, u64>,
}

impl Tally {
    fn reach(&mut self, what: &'static str, happened: bool) {
        assert!(REACHED.contains(&what), "not in the table: {what}");
        *self.reached.entry(what).or_default() += happened as u64;
    }

    pub fn merge(&mut self, other: Tally) {
        self.scripts += other.scripts;
        self.lines += other.lines;
        for (key, count) in other.printed {
            *self.printed.entry(key).or_default() += count;
        }
        for (key, count) in other.reached {
            *self.reached.entry(key).or_default() += count;
        }
    }
}

/// Walks through a script with the model and counts what it prints and what it reaches.
pub fn observe(script: &[u8], tally: &mut Tally) {
    let mut pair = Pair::start();
    let mut last = BTreeMap::new(); // each letter's last number
    let (mut slots_taken, mut most_acks) = (0, 0);
    let mut repeats = Repeats::default();
    let lines = model::lines(script);
    tally.scripts += 1;
    tally.reach("no input", script.is_empty());
    tally.reach("no last newline", script.last().is_some_and(|byte| *byte != b'\n'));
    tally.reach("input over 65536 bytes", script.len() > 65536);
    for (at, line) in lines.iter().enumerate() {
        let (stream, link) = (pair.primary.stream.len(), pair.link.len());
        let (staged, due) = (pair.standby.blocks.len(), pair.standby.due);
        let (packets, bytes) = (pair.primary.held.len(), pair.primary.held_bytes());
        let (epoch_blocks, acks) = (pair.primary.epoch_blocks.len(), pair.acks.len());
        repeats.before(&pair, line);
        let (letter, number, value) = pair.line(line);
        repeats.after((letter, number, value), tally);
        let before = last.insert(letter, number);
        tally.lines += 1;
        *tally.printed.entry((letter, number)).or_default() += 1;
        tally.reach("line over 65536 bytes", line.len() > 65536);
        match (letter, number) {
            ('m', 0) => {
                let names = ["m moved a PAGE", "m moved a BLOCK", "m moved a STATE", "m moved a COMMIT"];
                tally.reach(names[value as usize - 1], true);
                let new_slot = pair.standby.blocks.len() > staged;
                slots_taken += new_slot as usize;
                tally.reach("a freed slot used again", new_slot && slots_taken > model::S);
                tally.reach("the refused BLOCK accepted after a flush", before == Some(17));
                most_acks = most_acks.max(pair.acks.len());
                tally.reach("100 unread ACKs", pair.acks.len() == 100 && value == 4);
                tally.reach("1000 unread ACKs", pair.acks.len() == 1000 && value == 4);
            }
            ('a', 0) => tally.reach("the last of 1000 unread ACKs read", most_acks >= 1000 && pair.acks.is_empty()),
            ('m', 17) => tally.reach("17 again by the next m", link > 0),
            ('f', _) => {
                tally.reach("f with nothing due", value == 0);
                tally.reach("f stored a block", value == 1);
                tally.reach("f with staged blocks, none due", due == 0 && staged > 0);
            }
            ('d', 2) => {
                tally.reach("2 before 14", epoch_blocks == model::B && stream + 74 <= model::L);
                tally.reach("2 before 15", epoch_blocks < model::B && stream + 74 > model::L);
            }
            ('d', 14) => tally.reach("14 before 15", stream + 74 > model::L),
            ('d', 15) => tally.reach("15 at d with an empty epoch", epoch_blocks == 0),
            ('s', 0) => {
                let (packets, bytes) = (pair.primary.held.len(), pair.primary.held_bytes());
                tally.reach("64 packets held in under 256 bytes", packets == model::PACKETS && bytes < model::Q);
                tally.reach("256 bytes held in under 64 packets", packets < model::PACKETS && bytes == model::Q);
            }
            ('s', 4) => tally.reach("4 before 16", packets == model::PACKETS || bytes == model::Q),
            ('s', 16) => tally.reach("16 for a legal packet longer than Q", packets == 0),
            ('c', 0) => {
                tally.reach("c accepted after 15 at c", before == Some(15));
                tally.reach("epoch 1000", value == 1000);
            }
            ('t', 18) => {
                tally.reach("18 at t with a packet held", packets > 0);
                tally.reach("18 at t with none held", packets == 0);
            }
            ('k', _) => {
                tally.reach("k at checkpoint 0", value == 0);
                tally.reach("k with blocks due", due > 0);
                tally.reach("k with blocks not yet due", staged > due);
                tally.reach("k with a refused record in the link", link > 0);
                tally.reach("k with a stream waiting", stream > 0);
                tally.reach("k with unread ACKs", acks > 0);
                tally.reach("lines after k", at + 1 < lines.len());
                tally.reach("last line k without newline", script.last() == Some(&b'k'));
            }
            ('?', _) => {
                let has = |wanted: fn(&u8) -> bool| line.iter().any(wanted);
                let doubled = line.windows(2).any(|two| two == b"  ");
                tally.reach("? empty line", line.is_empty());
                let at_an_end = line.first() == Some(&b' ') || line.last() == Some(&b' ');
                tally.reach("? space first, last or doubled", doubled || at_an_end);
                tally.reach("? carriage return", line.last() == Some(&b'\r'));
                tally.reach("? plus or minus", has(|byte| *byte == b'+' || *byte == b'-'));
                tally.reach("? capital letter", line.first().is_some_and(u8::is_ascii_uppercase));
                tally.reach("? byte above 127", has(|byte| *byte > 127));
                tally.reach("? NUL", has(|byte| *byte == 0));
                tally.reach("? number too large", numbers_of_right_count(line));
            }
            _ => {}
        }
        tally.reach("stream filled to its last byte", pair.primary.stream.len() == model::L && stream < model::L);
        if pair.ended {
            return;
        }
    }
    tally.reach("no k", true);
}

/// A letter and as many numbers as it takes, each of digits: such a line is refused for a number
/// too large only.
fn numbers_of_right_count(line: &[u8]) -> bool {
    let words: Vec<&[u8]> = line.split(|byte| *byte == b' ').collect();
    let wanted = match words[0] {
        b"w" | b"d" => 2,
        b"s" | b"c" => 1,
        _ => return false,
    };
    words.len() == 1 + wanted && words[1..].iter().all(|word| !word.is_empty() && word.iter().all(u8::is_ascii_digit))
}
