//! Inputs and outputs made readable.

pub fn escaped(bytes: &[u8]) -> String {
    bytes.iter().flat_map(|byte| std::ascii::escape_default(*byte)).map(char::from).collect()
}

/// An input for a report: whole, or its end where it is very long.
pub fn shown(input: &[u8]) -> String {
    let text = escaped(input);
    match text.len().checked_sub(20_000) {
        Some(over) if over > 0 => format!("(its last 20000 characters) {}", &text[over..]),
        _ => text,
    }
}

fn lines(bytes: &[u8]) -> Vec<String> {
    bytes.split_inclusive(|byte| *byte == b'\n').map(escaped).collect()
}

/// The first differing line of two outputs, counted from 1, and how each has it.
pub fn difference(one: &[u8], other: &[u8]) -> Option<(usize, String, String)> {
    let (one, other) = (lines(one), lines(other));
    let at = (0..one.len().max(other.len())).find(|at| one.get(*at) != other.get(*at))?;
    let line = |lines: &[String]| lines.get(at).map_or("(no line)".to_string(), |line| line.clone());
    Some((at + 1, line(&one), line(&other)))
}
