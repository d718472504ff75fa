//! What the tally sees in the lines alone.
use super::Tally;
use crate::model::rows;

/// The input as a whole.
pub fn input_of_a_run(input: &[u8], lines: &[&[u8]], tally: &mut Tally) {
    let no_newline = input.last().is_some_and(|byte| *byte != b'\n');
    let last = lines.last().copied().unwrap_or(b"");
    tally.reach("no input", input.is_empty());
    tally.reach("no last newline", no_newline && rows::row(last).is_some());
    tally.reach("bad last line without newline", no_newline && rows::row(last).is_none());
    tally.reach("first line only", lines.len() == 1 && rows::row(lines[0]).is_some());
    tally.reach("input over 512 bytes", input.len() > 512);
    tally.reach("input over 65536 bytes", input.len() > 65_536);
    tally.reach("line over 512 bytes", lines.iter().any(|line| line.len() > 512));
    tally.reach("line over 65536 bytes", lines.iter().any(|line| line.len() > 65_536));
    let zeros = |line: &&[u8]| line.starts_with(b"00") && rows::row(line).is_some();
    tally.reach("number with zeros in front", lines.iter().any(zeros));
}

pub fn first_line(line: &[u8], tally: &mut Tally) {
    let Some([interval, rate, patience]) = rows::row(line) else { return spoilt_line("first", line, tally) };
    let outside = !(1..=60_000).contains(&patience);
    tally.reach("first: T 0", patience == 0);
    tally.reach("first: T above 60000", patience > 60_000);
    tally.reach("first: interval 0", interval == 0 && rate > 0 && !outside);
    tally.reach("first: rate 0", rate == 0 && interval > 0 && !outside);
    tally.reach("first: interval and rate 0", interval == 0 && rate == 0 && !outside);
    tally.reach("first: 1 before 27", (interval == 0 || rate == 0) && outside);
}

/// The sorts of a bad line, by the place where it stands: `first` or `later`.
pub fn spoilt_line(place: &str, line: &[u8], tally: &mut Tally) {
    for (sort, is) in sorts(line) {
        let name = format!("{place}: {sort}");
        let known = super::REACHED.iter().find(|what| **what == name).expect("a sort in the table");
        tally.reach(known, is);
    }
}

fn sorts(line: &[u8]) -> [(&'static str, bool); 12] {
    let has = |wanted: fn(&u8) -> bool| line.iter().any(wanted);
    let words: Vec<&[u8]> = line.split(|byte| *byte == b' ').collect();
    let digits = words.iter().all(|word| !word.is_empty() && word.iter().all(u8::is_ascii_digit));
    [
        ("empty", line.is_empty()),
        ("space first or last", line.first() == Some(&b' ') || line.last() == Some(&b' ')),
        ("double space", line.windows(2).any(|two| two == b"  ")),
        ("carriage return", line.last() == Some(&b'\r')),
        ("tab", has(|byte| *byte == b'\t')),
        ("sign", has(|byte| *byte == b'+' || *byte == b'-')),
        ("letter", has(u8::is_ascii_alphabetic)),
        ("NUL", has(|byte| *byte == 0)),
        ("byte above 127", has(|byte| *byte > 127)),
        ("fewer numbers", digits && words.len() < 3),
        ("more numbers", digits && words.len() > 3),
        ("number too large", digits && words.len() == 3),
    ]
}
