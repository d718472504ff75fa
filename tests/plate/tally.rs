//! What the lines reached: every sort of output line, and the situations that must come.
use crate::model::{self, Wanted};
use std::collections::BTreeMap;

/// Every sort of output line: an output line with its numbers taken out, but for the kinds and refusals that stay.
pub const SORTS: [&str; 22] = [
    "PAGE (kind 1)", "BLOCK (kind 2)", "STATE (kind 3)", "COMMIT (kind 4)", "ACK (kind 5)", "PAGE (kind 8)",
    "COMMIT (kind 9)", "end", "cut short, header", "cut short, body", "refused with 6", "refused with 7",
    "area, zeros", "area, activation", "area, 12", "area, 1", "bad, empty", "bad, too long", "bad, carriage return",
    "bad, first word", "bad, U", "bad, digits",
];

/// Situations that the lines must reach.
pub const REACHED: [&str; 47] = [
    "U 64", "U 128", "U 4096", "another U", "U with leading zeros", "U alone", "no record and a stop",
    "five records or more",
    "header: 1 byte", "header: 2 bytes", "header: 3 bytes", "header without any body",
    "one byte of the body is missing", "one byte of a whole stream is missing", "a stop behind a record",
    "7 for kind 1", "7 for kind 2", "7 for kind 3", "7 for kind 4", "7 for kind 5", "7 for kind 8", "7 for kind 9",
    "6 for kind 0", "6 for kind 6", "6 for kind 7", "6 for a kind above 9", "6 for a kind above 255",
    "upper case", "lower case", "no space between bytes", "several spaces between bytes", "space at the end",
    "area of 0 bytes", "area of 7 bytes", "area of 9 bytes or more", "area: activation but for one byte",
    "line of 65536 bytes", "line of 65537 bytes", "too long and a carriage return", "not a digit: first of a byte",
    "not a digit: second of a byte", "second digit missing before a space", "second digit missing at the end",
    "NUL in a bad line", "byte above 127 in a bad line", "line begins with a space", "no newline at the end",
];

#[derive(Default)]
pub struct Tally {
    pub lines: u64,
    pub sorts: BTreeMap<&'static str, u64>,
    pub reached: BTreeMap<&'static str, u64>,
}

fn sort_of(said: &str) -> &'static str {
    let bad = [
        ("the line is empty", "bad, empty"),
        ("the line is longer than 65536 bytes", "bad, too long"),
        ("the line ends with a carriage return", "bad, carriage return"),
        ("neither U nor the word area", "bad, first word"),
        ("U is not 64 to 4096 in steps of 64", "bad, U"),
        ("not a hexadecimal digit", "bad, digits"),
        ("the second digit of a byte is missing", "bad, digits"),
        ("all zeros", "area, zeros"),
        ("ACTIVATION", "area, activation"),
        ("neither zeros", "area, 12"),
        ("not 8 bytes but", "area, 1"),
        ("header missing", "cut short, header"),
        ("body missing", "cut short, body"),
        ("refused with 6", "refused with 6"),
        ("refused with 7", "refused with 7"),
        (": end", "end"),
    ];
    let named = bad.iter().find(|(words, _)| said.contains(words)).map(|(_, sort)| *sort);
    named.or_else(|| SORTS.into_iter().find(|sort| said.contains(sort))).expect("a sort of output line")
}

impl Tally {
    fn reach(&mut self, what: &'static str, happened: bool) {
        assert!(REACHED.contains(&what), "not in the table: {what}");
        *self.reached.entry(what).or_default() += happened as u64;
    }

    /// Counts what an input prints and reaches.
    pub fn observe(&mut self, input: &[u8]) {
        self.reach("no newline at the end", input.last().is_some_and(|byte| *byte != b'\n'));
        for line in model::lines(input) {
            self.lines += 1;
            let said = model::answer(line);
            for one in &said {
                *self.sorts.entry(sort_of(one)).or_default() += 1;
            }
            self.line(line);
            match model::parse(line) {
                Ok(Wanted::Records { u, bytes }) => self.records(line, u, &bytes, &said),
                Ok(Wanted::Area(bytes)) => self.area(&bytes),
                Err((place, words)) => self.fault(line, place, &words),
            }
        }
    }

    fn line(&mut self, line: &[u8]) {
        self.reach("line of 65536 bytes", line.len() == 65_536);
        self.reach("line of 65537 bytes", line.len() == 65_537);
        self.reach("too long and a carriage return", line.len() > 65_536 && line.last() == Some(&13));
        self.reach("line begins with a space", line.first() == Some(&b' '));
    }

    fn records(&mut self, line: &[u8], u: u64, bytes: &[u8], said: &[String]) {
        self.reach(match u { 64 => "U 64", 128 => "U 128", 4096 => "U 4096", _ => "another U" }, true);
        self.reach("U with leading zeros", line[0] == b'0');
        self.reach("U alone", line.iter().all(u8::is_ascii_digit));
        self.reach("no record and a stop", said.len() == 1 && !bytes.is_empty());
        self.reach("five records or more", said.len() > 5);
        let word = line.iter().position(|byte| *byte == b' ').unwrap_or(line.len());
        let rest = &line[word..];
        self.reach("upper case", rest.iter().any(u8::is_ascii_uppercase));
        self.reach("lower case", rest.iter().any(u8::is_ascii_lowercase));
        self.reach("no space between bytes", bytes.len() > 1 && rest.len() == 1 + 2 * bytes.len());
        let doubled = rest.windows(3).any(|three| three[..2] == *b"  " && three[2] != b' ');
        self.reach("several spaces between bytes", doubled);
        self.reach("space at the end", !bytes.is_empty() && line.last() == Some(&b' '));
        let last = said.last().expect("a line prints something");
        let (place, stop) = last.split_once(": ").expect("a place");
        self.reach("a stop behind a record", said.len() > 1 && stop != "end");
        let at: usize = place["at ".len()..].parse().expect("a number");
        self.stop(&bytes[at..], stop, said.len() > 1);
    }

    fn stop(&mut self, left: &[u8], stop: &str, behind: bool) {
        for (length, what) in [(1, "header: 1 byte"), (2, "header: 2 bytes"), (3, "header: 3 bytes")] {
            self.reach(what, left.len() == length);
        }
        let body = stop.contains("body");
        self.reach("header without any body", body && left.len() == 4);
        let one = body && stop.ends_with("missing: 1");
        self.reach("one byte of the body is missing", one);
        self.reach("one byte of a whole stream is missing", one && behind);
        let kind = if left.len() < 4 { 0 } else { left[2] as u64 + 256 * left[3] as u64 };
        if stop.starts_with("refused with 7") {
            let names = [
                (1, "7 for kind 1"), (2, "7 for kind 2"), (3, "7 for kind 3"), (4, "7 for kind 4"), (5, "7 for kind 5"),
                (8, "7 for kind 8"), (9, "7 for kind 9"),
            ];
            self.reach(names.iter().find(|(of, _)| *of == kind).expect("a known kind").1, true);
        } else if stop.starts_with("refused with 6") {
            self.reach("6 for kind 0", kind == 0);
            self.reach("6 for kind 6", kind == 6);
            self.reach("6 for kind 7", kind == 7);
            self.reach("6 for a kind above 9", kind > 9);
            self.reach("6 for a kind above 255", kind > 255);
        }
    }

    fn area(&mut self, bytes: &[u8]) {
        self.reach("area of 0 bytes", bytes.is_empty());
        self.reach("area of 7 bytes", bytes.len() == 7);
        self.reach("area of 9 bytes or more", bytes.len() > 8);
        if bytes.len() == 8 {
            let unlike = bytes[..4].iter().zip([4, 0, 6, 0]).filter(|(byte, wanted)| **byte != *wanted).count();
            self.reach("area: activation but for one byte", unlike == 1);
        }
    }

    fn fault(&mut self, line: &[u8], place: usize, words: &str) {
        if words == "not a hexadecimal digit" {
            let second = (line[..place - 1].iter().rev().take_while(|byte| byte.is_ascii_hexdigit()).count()) % 2 == 1;
            self.reach("not a digit: second of a byte", second);
            self.reach("not a digit: first of a byte", !second);
        }
        if words.starts_with("the second digit") {
            self.reach("second digit missing before a space", place <= line.len());
            self.reach("second digit missing at the end", place == line.len() + 1);
        }
        self.reach("NUL in a bad line", line.contains(&0));
        self.reach("byte above 127 in a bad line", line.iter().any(|byte| *byte > 127));
    }
}
