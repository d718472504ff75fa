//! The random lines, of many sorts: each is made from a seed's numbers.
use crate::model::body_length;
#[allow(dead_code)] // not every way of asking is used here
#[path = "../calls/random.rs"]
mod random;
pub use random::Random;

const KINDS: [u64; 7] = [1, 2, 3, 4, 5, 8, 9];

fn unit(random: &Random) -> u64 {
    64 * match random.below(10) {
        0..=3 => 1,
        4 | 5 => 2,
        6 => 64,
        7 => 63,
        _ => random.range(1, 64),
    }
}

/// A record of this kind with random fields; numbers are small, or of all sizes.
fn record(random: &Random, kind: u64, u: u64) -> Vec<u8> {
    let length = body_length(kind, u).expect("a kind of the record test");
    let mut body = random.bytes(length);
    if random.percent(60) {
        body[1..4].fill(0);
        if kind != 3 && kind != 5 {
            let end = body.len().min(if kind > 5 { 12 } else { 8 });
            body[5..end].fill(0);
        }
    }
    if random.percent(3) {
        let end = body.len().min(12);
        body[..end].fill(255);
    }
    let header = [(length as u16).to_le_bytes(), (kind as u16).to_le_bytes()].concat();
    [header, body].concat()
}

/// Several records, so that their line is not too long for its limit.
fn stream(random: &Random, u: u64, most: u64) -> Vec<u8> {
    let mut bytes = Vec::new();
    for _ in 0..random.below(most + 1) {
        let next = record(random, random.pick(&KINDS), u);
        if bytes.len() + next.len() > 16_000 {
            break;
        }
        bytes.extend(next);
    }
    bytes
}

/// A byte of a header or of any place, changed a little or wholly.
fn damage(random: &Random, bytes: &mut [u8]) {
    if bytes.is_empty() {
        return;
    }
    let reach = if random.percent(60) { 4.min(bytes.len()) } else { bytes.len() };
    let at = random.below(reach as u64) as usize;
    bytes[at] = match random.below(4) {
        0 => bytes[at].wrapping_add(1),
        1 => bytes[at].wrapping_sub(1),
        2 => bytes[at] ^ (1 << random.below(8)),
        _ => random.next() as u8,
    };
}

/// Hexadecimal in one case or in both, with no, single or many spaces between bytes, before and behind them.
fn hexadecimal(random: &Random, bytes: &[u8]) -> Vec<u8> {
    let (case, spaces) = (random.below(3), random.below(4));
    let mut text = Vec::new();
    for byte in bytes {
        match spaces {
            0 => {}
            1 => text.push(b' '),
            2 if random.percent(20) => text.resize(text.len() + random.below(4) as usize, b' '),
            _ if random.percent(5) => text.push(b' '),
            _ => {}
        }
        for half in [byte >> 4, byte & 15] {
            let lower = case == 0 || case == 2 && random.percent(50);
            let digits = if lower { b"0123456789abcdef" } else { b"0123456789ABCDEF" };
            text.push(digits[half as usize]);
        }
    }
    if random.percent(10) {
        text.resize(text.len() + random.range(1, 3) as usize, b' ');
    }
    text
}

fn line_of(random: &Random, word: &str, bytes: &[u8]) -> Vec<u8> {
    let zeros = if word != "area" && random.percent(5) { random.range(1, 30) } else { 0 };
    let mut line = ("0".repeat(zeros as usize) + word).into_bytes();
    let text = hexadecimal(random, bytes);
    if !text.is_empty() || random.percent(20) {
        line.push(b' ');
    }
    line.extend(text);
    line
}

/// Areas: valid, one byte beside valid, of other lengths, of any bytes.
fn area(random: &Random) -> Vec<u8> {
    let mut bytes = match random.below(4) {
        0 => vec![0; 8],
        1 | 2 => [&[4, 0, 6, 0], &random.bytes(4)[..]].concat(),
        _ => random.bytes(8),
    };
    match random.below(4) {
        0 => damage(random, &mut bytes),
        1 => bytes.truncate(random.below(9) as usize),
        2 if random.percent(30) => bytes.extend(random.bytes(random.range(1, 9))),
        _ => {}
    }
    line_of(random, "area", &bytes)
}

/// A first word that is no U, or no U in its range; at times one that is.
fn first_word(random: &Random) -> Vec<u8> {
    let words = [
        "", "0", "63", "65", "96", "4032", "4095", "4096", "4097", "4160", "64", "064", "00", "128", "1e2", "+64",
        "-64", "64.", "0x40", "Area", "AREA", "are", "areas", "area,", "a", "u", "64:", "/64", "18446744073709551680",
        "4294967360", "65600", "340282366920938463463374607431768211520", "\t64", "64\t", "\u{661}64", "64\0", "\0",
    ];
    let mut line = random.pick(&words).as_bytes().to_vec();
    if random.percent(70) {
        line.push(b' ');
        line.extend(hexadecimal(random, &random.bytes(random.below(12))));
    }
    line
}

fn odd_byte(random: &Random) -> u8 {
    random.pick(b" gG/:@`x\t\r\0\x7f\x80\xff-0fF")
}

/// A good line with a byte put in, changed or left out, once or twice.
fn spoilt(random: &Random) -> Vec<u8> {
    let mut line = sort(random, random.below(4));
    for _ in 0..random.range(1, 2) {
        let at = random.below(line.len() as u64 + 1) as usize;
        match random.below(3) {
            0 => line.insert(at, odd_byte(random)),
            1 if at < line.len() => line[at] = odd_byte(random),
            _ if at < line.len() => drop(line.remove(at)),
            _ => {}
        }
    }
    line
}

/// Random bytes, of all values or of those that lines are made of.
fn rubbish(random: &Random) -> Vec<u8> {
    let length = random.below(120);
    match random.below(3) {
        0 => random.bytes(length),
        1 => (0..length).map(|_| random.pick(b"0123456789abcdefABCDEF   ")).collect(),
        _ => {
            let bytes: Vec<u8> = (0..length).map(|_| random.pick(b"0123456789abcdefABCDEF  ")).collect();
            [&b"64 "[..], &bytes].concat()
        }
    }
}

/// Lines about the longest length: records, spaces, digits or anything.
fn long(random: &Random) -> Vec<u8> {
    let length = random.range(65_530, 65_540) as usize;
    let mut line = match random.below(4) {
        0 => line_of(random, "64", &record(random, 3, 64)),
        1 => b"64 ".iter().copied().chain(b"0400050007000000".iter().copied().cycle().take(length)).collect(),
        2 => b"area".to_vec(),
        _ => b"0".to_vec(),
    };
    let with = if line == b"0" { b'0' } else { b' ' };
    line.resize(length, with);
    if random.percent(20) {
        line[length - 1] = random.pick(b"\r0g ");
    }
    line
}

/// A line of one sort.
fn sort(random: &Random, which: u64) -> Vec<u8> {
    let u = unit(random);
    let name = u.to_string();
    match which {
        0 => line_of(random, &name, &record(random, random.pick(&KINDS), u)),
        1 => line_of(random, &name, &stream(random, u, 6)),
        2 => area(random),
        3 => {
            let bytes = stream(random, 64, 3);
            line_of(random, "64", &bytes[..random.below(bytes.len() as u64 + 1) as usize])
        }
        // cut anywhere, mostly in the last record's header or at its end
        4 => {
            let mut bytes = stream(random, u, 3);
            let last = record(random, random.pick(&KINDS), u);
            let end = match random.below(3) {
                0 => random.below(5),
                1 => last.len() as u64 - random.below(5),
                _ => random.below(last.len() as u64 + 1),
            };
            bytes.extend(&last[..end as usize]);
            line_of(random, &name, &bytes)
        }
        5 | 6 => {
            let mut bytes = stream(random, u, 2);
            let mut last = record(random, random.pick(&KINDS), u);
            damage(random, &mut last);
            bytes.extend(last);
            bytes.extend(stream(random, u, 1));
            line_of(random, &name, &bytes)
        }
        // the records of another U
        7 => line_of(random, &unit(random).to_string(), &stream(random, u, 2)),
        8 => first_word(random),
        9 | 10 => spoilt(random),
        11 => rubbish(random),
        _ => {
            let mut line = sort(random, random.below(3));
            line.push(b'\r');
            line
        }
    }
}

/// A random line, without its newline.
pub fn line(random: &Random) -> Vec<u8> {
    let mut line = match random.below(400) {
        0 => long(random),
        1 | 2 => Vec::new(),
        _ => sort(random, random.below(13)),
    };
    line.retain(|byte| *byte != b'\n');
    line
}

/// The input of a seed: so many lines, the last with its newline or without.
pub fn input_of(seed: u64, lines: u64) -> Vec<u8> {
    let random = Random::new(seed);
    let mut input = Vec::new();
    for _ in 0..lines {
        input.extend(line(&random));
        input.push(b'\n');
    }
    if random.percent(30) {
        input.pop();
    }
    input
}
