//! The lines of a script, and why one is no command.

pub struct Command {
    pub letter: char,
    pub numbers: Vec<u64>,
}

/// The lines of an input: a newline ends a line, and a last line may lack it.
pub fn lines(input: &[u8]) -> Vec<&[u8]> {
    let mut lines: Vec<&[u8]> = input.split(|byte| *byte == b'\n').collect();
    if lines.last().is_some_and(|line| line.is_empty()) {
        lines.pop();
    }
    lines
}

const BYTE: u64 = 255;
const WORD: u64 = 4_294_967_295;

/// The limits of the numbers that a letter wants.
fn limits(word: &[u8]) -> Option<&'static [u64]> {
    match word {
        b"w" | b"d" | b"x" => Some(&[WORD, BYTE]),
        b"s" => Some(&[WORD]),
        b"c" => Some(&[BYTE]),
        b"m" | b"a" | b"t" | b"f" | b"k" | b"p" => Some(&[]),
        _ => None,
    }
}

/// A command, or the first reason why the line is none.
pub fn parse(line: &[u8]) -> Result<Command, String> {
    if line.is_empty() {
        return Err("the line is empty".to_string());
    }
    if line[line.len() - 1] == 13 {
        return Err("ends with a carriage return".to_string());
    }
    let words: Vec<&[u8]> = line.split(|byte| *byte == b' ').collect();
    let limits = limits(words[0]).ok_or("unknown letter")?;
    if words.len() - 1 != limits.len() {
        return Err(format!("numbers wanted: {}", limits.len()));
    }
    let mut numbers = Vec::new();
    for (at, (word, limit)) in words[1..].iter().zip(limits).enumerate() {
        let place = at + 1;
        if word.is_empty() || !word.iter().all(u8::is_ascii_digit) {
            return Err(format!("number {place} is not in digits"));
        }
        numbers.push(decimal(word, *limit).ok_or(format!("number {place} is above {limit}"))?);
    }
    Ok(Command { letter: char::from(words[0][0]), numbers })
}

/// The number that the digits say, where it is not above the limit; leading zeros count for nothing.
fn decimal(digits: &[u8], limit: u64) -> Option<u64> {
    let mut number = 0;
    for digit in digits {
        number = number * 10 + (digit - b'0') as u64;
        if number > limit {
            return None;
        }
    }
    Some(number)
}
