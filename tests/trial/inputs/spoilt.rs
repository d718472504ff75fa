//! Lines that are not three numbers.
use super::random::Random;

/// Spoilt lines: each is bad as a first line and as a tick.
pub const LINES: [&[u8]; 58] = [
    b"", b" ", b"  ", b"   ", b"1", b"1 1", b"1 1 1 1", b"1 1 1 1 1 1", b" 1 1 1", b"1 1 1 ", b"1  1 1", b"1 1  1",
    b"1 1 ", b" 1 1", b"1  1", b"1 1 1\r", b"\r", b"1 1\r1", b"1\t1\t1", b"1 1 1\t", b"\t1 1 1", b"x", b"1 1 x",
    b"x 1 1", b"1 1x 1", b"a b c", b"w 1 1", b"k", b"? 1 0", b"+1 1 1", b"1 -1 1", b"1 1 -0", b"1 1 +1", b"1,1,1",
    b"1 1 1.", b"1 1 1.0", b"1_0 1 1", b"0x1 1 1", b"1 1e0 1", b"1/1/1", b"1 : 1", b"1 1 /", b"\"1\" 1 1", b"#1 1 1",
    b"4294967296 1 1", b"1 4294967296 1", b"1 1 4294967296", b"1 1 04294967297", b"1 18446744073709551617 1",
    b"340282366920938463463374607431768211457 1 1", b"1 1 99999999999", b"1 1 1\0", b"\0", b"1\0 1 1", b"1 1 \xb1",
    b"\xef\xbb\xbf1 1 1", b"1\xa01 1", b"1 1 \xd9\xa1",
];

pub fn byte(random: &Random) -> u8 {
    match random.below(4) {
        0 => random.pick(b"0123456789"),
        1 => random.pick(b" \n\r\t\0+-.,/:x"),
        2 => b' ',
        _ => random.below(256) as u8,
    }
}

/// One of LINES, a good line with a byte put in that spoils it, or a very long line.
pub fn line(random: &Random) -> Vec<u8> {
    match random.below(8) {
        0 => {
            let mut line = b"2 1 3".to_vec();
            line.insert(random.below(6) as usize, random.pick(b" \r\t\0+-.,/:x\xff"));
            line
        }
        1 => {
            let zeros = vec![b'0'; random.range(400, 3_000) as usize];
            let ends: [&[u8]; 4] = [b"1 1", b"1 1 1 1", b"x 1 1", b"1 1 4294967296"];
            [&zeros[..], random.pick(&ends)].concat()
        }
        _ => random.pick(&LINES).to_vec(),
    }
}
