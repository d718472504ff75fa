//! The fixed inputs, with their outputs where these are told by hand.
use super::spoilt;

/// Name, input, and the output where it is told.
pub type Fixed = (String, Vec<u8>, Option<String>);

pub fn fixed_inputs() -> Vec<Fixed> {
    let mut list = vec![most_records(), most_patience(), many_epochs(), long_lines(), never_a_newline()];
    list.extend(first_lines());
    for line in spoilt::LINES {
        list.extend(spoilt_line(line));
    }
    list.extend(parts());
    list
}

/// First lines that end it, 1 before 27; T is judged as a number, not as a part of one.
fn first_lines() -> Vec<Fixed> {
    let lines = [
        ("0 1 1", 27), ("1 0 1", 27), ("0 0 1", 27), ("0 1 60000", 27), ("1 0 60000", 27), ("00 000 0003", 27),
        ("0 0 0", 1), ("0 1 0", 1), ("1 0 0", 1), ("1 1 0", 1), ("1 1 60001", 1), ("0 0 60001", 1), ("1 1 65537", 1),
        ("1 1 4294967295", 1), ("0 0 4294967295", 1),
    ];
    let mut list = Vec::new();
    for (line, number) in lines {
        list.push((format!("first {line}"), format!("{line}\n0 0 1\n").into(), Some(format!("? {number} 0\n0\n"))));
    }
    list
}

/// A spoilt line as the first one and as the third tick, each with and without a newline; of an empty last line without
/// one nothing is left.
fn spoilt_line(line: &[u8]) -> Vec<Fixed> {
    let name = line.escape_ascii();
    let told = |text: &str| Some(text.to_string());
    let front = b"3 100 9\n0 0 1\n0 0 0\n".to_vec();
    let mut list = vec![
        (format!("first {name}"), [line, b"\n0 0 1\n"].concat(), told("? 1 0\n0\n")),
        (format!("later {name}"), [&front, line, b"\n0 0 0\n"].concat(), told("1 1 0\n1 1 0\n? 1 0\n1\n")),
    ];
    if !line.is_empty() {
        list.push((format!("first and last {name}"), line.to_vec(), told("? 1 0\n0\n")));
        list.push((format!("later and last {name}"), [&front, line].concat(), told("1 1 0\n1 1 0\n? 1 0\n1\n")));
    }
    list
}

/// Document 02, Job 9: "14 is also given at 65,535 BLOCK records in an epoch". One block, written in each tick.
fn most_records() -> Fixed {
    let input = "100000 74 2\n0 1 1\n".to_string() + &"0 1 0\n".repeat(65_540);
    let output = "1 1 0\n".repeat(65_535) + "d 14 0\n65535\n";
    ("65535 records".into(), input.into(), Some(output))
}

/// The largest T: silence for 60,000 ticks.
fn most_patience() -> Fixed {
    let input = "4294967295 1 60000\n0 0 2\n".to_string() + &"0 0 0\n".repeat(60_010);
    let output = "1 2 0\n".repeat(59_999) + "k 0 0\n59999\n";
    ("60000 ticks of patience".into(), input.into(), Some(output))
}

/// Epochs past 16 bits.
fn many_epochs() -> Fixed {
    let input = "1 232 2\n".to_string() + &"0 2 1\n".repeat(70_000);
    let output: String = (2..=70_001).map(|epoch| format!("{epoch} 0 0\n")).collect();
    ("70000 epochs".into(), input.into(), Some(output + "0\n"))
}

/// Lines far longer than any buffer.
fn long_lines() -> Fixed {
    let zeros = "0".repeat(200_000);
    let input = format!("{zeros}2 {zeros}200 3\n1 {zeros} {zeros}1\n{zeros} 0 {zeros}\n0 0 1{zeros}\n0 0 0\n");
    ("long lines".into(), input.into(), Some("1 1 0\n2 0 0\n? 1 0\n1\n".into()))
}

fn never_a_newline() -> Fixed {
    ("no newline in 200000 digits".into(), vec![b'1'; 200_000], Some("? 1 0\n0\n".into()))
}

/// A line that lies across, or ends at, a likely size of a part read at once; and inputs that end there, with and
/// without a last newline, by a refused step and with a line after it.
fn parts() -> Vec<Fixed> {
    let rests = [
        ("run", "1 0 1\n0 2 0\n0 0 1\n"), ("end", "1 0 1"), ("w", "5 0 0"), ("w and more", "5 0 0\nx\n"), ("?", "1 0"),
    ];
    let mut list = Vec::new();
    for size in [512, 1_024, 4_096, 8_192, 16_384, 32_768, 65_536, 131_072] {
        for shift in 0..7 {
            let front = padded(size - shift);
            for (name, rest) in rests {
                list.push((format!("{name} at {}", front.len()), [&front[..], rest.as_bytes()].concat(), None));
            }
        }
    }
    list
}

/// A trial of this length that goes on, its ticks mostly of 64 bytes: zeros in front make them so long.
fn padded(length: usize) -> Vec<u8> {
    let mut input = b"2 300 9\n".to_vec();
    while input.len() + 80 <= length {
        input.extend(format!("{:059} 1 1\n", input.len() % 3).bytes());
    }
    let zeros = length - input.len() - 6;
    input.extend(vec![b'0'; zeros]);
    input.extend_from_slice(b"0 0 0\n");
    input
}
