//! The lines of an input, and the three numbers of a line.

/// The largest number of `pair`.
const MOST: u64 = 4_294_967_295;

/// A newline ends a line; a last line may lack it.
pub fn lines(input: &[u8]) -> Vec<&[u8]> {
    let mut lines: Vec<&[u8]> = input.split(|byte| *byte == b'\n').collect();
    if lines.last().is_some_and(|line| line.is_empty()) {
        lines.pop();
    }
    lines
}

/// "Numbers are `pair`'s, parted by single spaces": exactly three, and nothing else.
pub fn row(line: &[u8]) -> Option<[u64; 3]> {
    let words: Vec<&[u8]> = line.split(|byte| *byte == b' ').collect();
    let [first, second, third] = words[..] else { return None };
    Some([number(first)?, number(second)?, number(third)?])
}

/// At least one digit and nothing but digits, of any count; at most MOST.
fn number(word: &[u8]) -> Option<u64> {
    if word.is_empty() {
        return None;
    }
    let mut value = 0;
    for byte in word {
        if !byte.is_ascii_digit() {
            return None;
        }
        // A value above MOST stays above it, whatever digits follow.
        value = (value * 10 + (byte - b'0') as u64).min(MOST + 1);
    }
    (value <= MOST).then_some(value)
}
