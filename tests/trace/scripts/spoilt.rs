//! Lines that are no command, and some that nearly are none.
use super::Random;

const EDGES: [&str; 12] = [
    "255", "256", "257", "1000", "4294967295", "4294967296", "4294967297", "18446744073709551615",
    "18446744073709551616", "18446744073709551617", "340282366920938463463374607431768211457",
    "99999999999999999999999999999999999999999999",
];

/// A byte that is put into a line or in place of one of its bytes.
fn byte(random: &Random) -> u8 {
    random.pick(&[b' ', b'\r', b'\t', 0, 128, 255, b'-', b'+', b'q', b'0', b'9', b':', b'/', b'x', b'm'])
}

fn good(random: &Random) -> Vec<String> {
    let letter = random.pick(&["w", "d", "x", "s", "c", "m", "a", "t", "f", "p"]);
    let count = match letter {
        "w" | "d" | "x" => 2,
        "s" | "c" => 1,
        _ => 0,
    };
    let numbers = (0..count).map(|_| random.below(256).to_string());
    [letter.to_string()].into_iter().chain(numbers).collect()
}

/// A line spoilt in one way (a few of the ways leave it a command); never a `k`.
pub fn line(random: &Random) -> Vec<u8> {
    let mut words = good(random);
    let last = words.len() - 1;
    let any = random.below(words.len() as u64) as usize;
    match random.below(16) {
        0 => return Vec::new(),
        1 => return format!("{}\r", words.join(" ")).into_bytes(),
        2 => words[0] = random.pick(&["q", "W", "K", "mm", "", "?", "é", "xp", "1", "k1", "\0"]).to_string(),
        3 | 4 => words.insert(any + 1, random.pick(&["", "1", "q"]).to_string()),
        5 if last > 0 => drop(words.pop()),
        6 | 7 if last > 0 => {
            let no_number = random.pick(&["", "q", "-1", "+1", "1.", "0x1", "1e1", ":", "/"]);
            words[1.max(any)] = no_number.to_string();
        }
        8..=10 if last > 0 => words[1.max(any)] = random.pick(&EDGES).to_string(),
        11 if last > 0 => words[last] = "9".repeat(random.range(1, 400) as usize),
        12 if last > 0 => words[last] = "0".repeat(random.range(1, 400) as usize) + "1",
        13 => return vec![random.pick(&[b'm', b' ', b'0', 0, 255]); random.below(3000) as usize],
        _ => {
            let mut line = words.join(" ").into_bytes();
            let at = random.below(line.len() as u64 + 1) as usize;
            if random.percent(50) || at == line.len() { line.insert(at, byte(random)) } else { line[at] = byte(random) }
            return line;
        }
    }
    words.join(" ").into_bytes()
}
