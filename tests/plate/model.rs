//! A second, plain model of the program `plate`, written from its page in README.md and documents 01 and 02 alone. It
//! is made for reading, not for speed, and shares nothing with the program that it is compared with.

const LONGEST_LINE: usize = 65_536;

/// What a good line is about.
pub enum Wanted {
    Records { u: u64, bytes: Vec<u8> },
    Area(Vec<u8>),
}

/// The first fault of a line: its place, counted from 1, and its words.
pub type Fault = (usize, String);

/// The lines of an input: a newline ends a line, and a last line may lack it.
pub fn lines(input: &[u8]) -> Vec<&[u8]> {
    let mut lines: Vec<&[u8]> = input.split(|byte| *byte == b'\n').collect();
    if lines.last().is_some_and(|line| line.is_empty()) {
        lines.pop();
    }
    lines
}

/// The tests of a line, in the page's order.
pub fn parse(line: &[u8]) -> Result<Wanted, Fault> {
    let fault = |place: usize, words: &str| Err((place, words.to_string()));
    if line.is_empty() {
        return fault(1, "the line is empty");
    }
    if line.len() > LONGEST_LINE {
        return fault(LONGEST_LINE + 1, "the line is longer than 65536 bytes");
    }
    if line[line.len() - 1] == 13 {
        return fault(line.len(), "the line ends with a carriage return");
    }
    let end = line.iter().position(|byte| *byte == b' ').unwrap_or(line.len());
    let word = &line[..end];
    if word == b"area" {
        return Ok(Wanted::Area(bytes_from(line, end)?));
    }
    if word.is_empty() || !word.iter().all(|byte| byte.is_ascii_digit()) {
        return fault(1, "neither U nor the word area");
    }
    match unit(word) {
        Some(u) => Ok(Wanted::Records { u, bytes: bytes_from(line, end)? }),
        None => fault(1, "U is not 64 to 4096 in steps of 64"),
    }
}

/// U, where the digits say one; leading zeros count for nothing.
fn unit(digits: &[u8]) -> Option<u64> {
    let mut number = 0u64;
    for digit in digits {
        number = (number * 10 + (digit - b'0') as u64).min(1_000_000);
    }
    (64..=4096).step_by(64).find(|u| *u == number)
}

/// The bytes that stand in a line from this place on (counted from 0).
fn bytes_from(line: &[u8], from: usize) -> Result<Vec<u8>, Fault> {
    let digit = |at: usize| char::from(line[at]).to_digit(16).map(|value| value as u8);
    let no_digit = |at: usize| (at + 1, "not a hexadecimal digit".to_string());
    let mut bytes = Vec::new();
    let mut at = from;
    while at < line.len() {
        if line[at] == b' ' {
            at += 1;
            continue;
        }
        let high = digit(at).ok_or(no_digit(at))?;
        if at + 1 == line.len() || line[at + 1] == b' ' {
            return Err((at + 2, "the second digit of a byte is missing".to_string()));
        }
        let low = digit(at + 1).ok_or(no_digit(at + 1))?;
        bytes.push(high * 16 + low);
        at += 2;
    }
    Ok(bytes)
}

/// A little-endian number of so many bytes.
fn number(bytes: &[u8], at: usize, width: usize) -> u64 {
    bytes[at..at + width].iter().rev().fold(0, |sum, byte| sum * 256 + *byte as u64)
}

/// The length of a body of this kind: the tables of document 01 and of document 02, Job 7. "The record test .. passes
/// them all"; 6 is no record of the link.
pub fn body_length(kind: u64, u: u64) -> Option<u64> {
    match kind {
        1 | 2 => Some(u + 6),
        3 => Some(68),
        4 => Some(8),
        5 => Some(4),
        8 => Some(u + 8),
        9 => Some(12),
        _ => None,
    }
}

/// A record's name and kind, epoch and numbers.
fn described(kind: u64, record: &[u8]) -> String {
    let epoch = number(record, 4, 4);
    let (name, numbers) = match kind {
        1 => ("PAGE", format!(", page {}", number(record, 8, 2))),
        2 => ("BLOCK", format!(", block {}", number(record, 8, 2))),
        3 => ("STATE", String::new()),
        4 => ("COMMIT", format!(", pages {}, blocks {}", number(record, 8, 2), number(record, 10, 2))),
        5 => ("ACK", String::new()),
        8 => ("PAGE", format!(", page {}", number(record, 8, 4))),
        _ => ("COMMIT", format!(", pages {}, blocks {}", number(record, 8, 4), number(record, 12, 4))),
    };
    format!("{name} (kind {kind}), epoch {epoch}{numbers}, {} bytes", record.len())
}

/// Either the record at the head of some bytes and how many it has, or what stops the reading there.
fn head(u: u64, bytes: &[u8]) -> Result<(String, usize), String> {
    if bytes.is_empty() {
        return Err("end".to_string());
    }
    if bytes.len() < 4 {
        return Err(format!("cut short (256), bytes of its header missing: {}", 4 - bytes.len()));
    }
    let (length, kind) = (number(bytes, 0, 2), number(bytes, 2, 2));
    let wanted = body_length(kind, u).ok_or(format!("refused with 6, kind {kind} is not known on the link"))?;
    if length != wanted {
        return Err(format!("refused with 7, length {length} is not that of kind {kind}"));
    }
    let end = 4 + length as usize;
    if bytes.len() < end {
        return Err(format!("cut short (256), bytes of its body missing: {}", end - bytes.len()));
    }
    Ok((described(kind, &bytes[..end]), end))
}

/// A line for each record in turn, and what stopped the reading.
fn records(u: u64, bytes: &[u8]) -> Vec<String> {
    let (mut said, mut at) = (Vec::new(), 0);
    loop {
        match head(u, &bytes[at..]) {
            Ok((record, used)) => {
                said.push(format!("at {at}: {record}"));
                at += used;
            }
            Err(stop) => {
                said.push(format!("at {at}: {stop}"));
                return said;
            }
        }
    }
}

/// "An all-zero record area means the primary's disk ..; a record of length 4, kind 6 means the standby's."
fn area(bytes: &[u8]) -> String {
    if bytes.len() != 8 {
        format!("record area: not 8 bytes but {}; refused with 1", bytes.len())
    } else if bytes.iter().all(|byte| *byte == 0) {
        "record area: all zeros; the primary's disk is valid".to_string()
    } else if (number(bytes, 0, 2), number(bytes, 2, 2)) == (4, 6) {
        format!("record area: ACTIVATION (kind 6), epoch {}; the standby's disk is valid", number(bytes, 4, 4))
    } else {
        "record area: neither zeros nor an activation; refused with 12, no disk is chosen".to_string()
    }
}

/// What is printed for a line, without newlines.
pub fn answer(line: &[u8]) -> Vec<String> {
    match parse(line) {
        Err((place, words)) => vec![format!("bad line, place {place}: {words}")],
        Ok(Wanted::Area(bytes)) => vec![area(&bytes)],
        Ok(Wanted::Records { u, bytes }) => records(u, &bytes),
    }
}

/// The whole output for a whole input.
pub fn plate(input: &[u8]) -> Vec<u8> {
    let mut output = String::new();
    for line in lines(input) {
        for said in answer(line) {
            output.push_str(&said);
            output.push('\n');
        }
    }
    output.into_bytes()
}
