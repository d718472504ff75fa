//! The scripts: random ones, each from its seed, and fixed ones.

mod fixed;

pub use fixed::fixed_scripts;

/// Splitmix64.
pub struct Random(pub u64);

impl Random {
    fn next(&mut self) -> u64 {
        self.0 = self.0.wrapping_add(0x9e37_79b9_7f4a_7c15);
        let mut z = self.0;
        z = (z ^ (z >> 30)).wrapping_mul(0xbf58_476d_1ce4_e5b9);
        z = (z ^ (z >> 27)).wrapping_mul(0x94d0_49bb_1331_11eb);
        z ^ (z >> 31)
    }

    /// 0 to n - 1.
    pub fn below(&mut self, n: u64) -> u64 {
        self.next() % n
    }

    fn one_in(&mut self, n: u64) -> bool {
        self.below(n) == 0
    }

    fn pick<'a, A: ?Sized>(&mut self, list: &[&'a A]) -> &'a A {
        list[self.below(list.len() as u64) as usize]
    }
}

/// Numbers at and past the edges, some of which wrap to small ones at 8, 32, 64 or 128 bits.
const EDGES: [&str; 22] = [
    "0", "4", "5", "63", "64", "255", "256", "257", "259", "1513", "1514", "1515", "65536",
    "4294967295", "4294967296", "4294967297", "10000000000", "18446744073709551615",
    "18446744073709551616", "18446744073709551617", "340282366920938463463374607431768211457",
    "99999999999999999999999999999999999999999999",
];

struct Writer {
    random: Random,
    script: Vec<u8>,
    /// One line in so many is malformed; 0 is none.
    malformed: u64,
    /// The block of the last `d`.
    block: String,
}

impl Writer {
    fn put(&mut self, line: &str) {
        if self.malformed > 0 && self.random.one_in(self.malformed) {
            let broken = self.broken_line();
            self.script.extend(broken);
            self.script.push(b'\n');
        }
        self.script.extend_from_slice(line.as_bytes());
        self.script.push(b'\n');
    }

    /// A number below `usual`, seldom one from EDGES, seldom with zeros in front.
    fn number(&mut self, usual: u64) -> String {
        let plain = match self.random.below(24) {
            0 => self.random.pick(&EDGES).to_string(),
            _ => self.random.below(usual).to_string(),
        };
        match self.random.below(400) {
            0..=12 => "0".repeat(1 + self.random.below(30) as usize) + &plain,
            13 => "0".repeat(self.random.below(3000) as usize) + &plain,
            _ => plain,
        }
    }

    /// A command of a letter; `r` stands for a `d` to the block of the last one.
    fn command(&mut self, letter: char) -> String {
        if letter == 'd' {
            self.block = self.number(4);
        }
        match letter {
            'w' => format!("w {} {}", self.number(4), self.number(256)),
            'd' | 'r' => format!("d {} {}", self.block.clone(), self.number(256)),
            's' => {
                let usual = *self.random.pick(&[&2, &5, &12, &60, &300]);
                format!("s {}", self.number(usual))
            }
            'c' => format!("c {}", self.number(256)),
            _ => letter.to_string(),
        }
    }

    fn any_of(&mut self, letters: &str, times: u64) {
        for _ in 0..times {
            let letter = letters.as_bytes()[self.random.below(letters.len() as u64) as usize] as char;
            let line = self.command(letter);
            self.put(&line);
        }
    }

    fn some(&mut self, letter: &str, fewer_than: u64) {
        let times = self.random.below(fewer_than);
        self.any_of(letter, times);
    }

    /// A command spoilt in one way (a few of the ways leave it a command).
    fn broken_line(&mut self) -> Vec<u8> {
        let letter = self.random.pick(&["w", "d", "s", "c", "m", "a", "t", "f", "k"]);
        let numbers = match letter {
            "w" | "d" => vec![self.random.below(4).to_string(), self.random.below(256).to_string()],
            "s" | "c" => vec![self.random.below(20).to_string()],
            _ => vec![],
        };
        let good = [&[letter.to_string()], &numbers[..]].concat().join(" ");
        let random = &mut self.random;
        let inside = |text: &str, random: &mut Random, bytes: &[u8]| {
            let at = random.below(text.len() as u64 + 1) as usize;
            [&text.as_bytes()[..at], bytes, &text.as_bytes()[at..]].concat()
        };
        let last = |text: &str| match numbers.last() {
            Some(number) => format!("{}{text}", &good[..good.len() - number.len()]),
            None => format!("{good} {text}"),
        };
        match random.below(24) {
            0 => vec![],
            1 if numbers.is_empty() => format!("{good}  ").into_bytes(),
            1 => good.replacen(' ', random.pick(&["  ", "   "]), 1).into_bytes(),
            2 => last(&format!(" {}", random.below(9))).into_bytes(),
            3 => format!(" {good}").into_bytes(),
            4 => format!("{good} ").into_bytes(),
            5 => format!("{good}\r").into_bytes(),
            6 => last(&format!("{}{}", random.pick(&["+", "-", "+-", "--"]), random.below(9))).into_bytes(),
            7 => good.to_uppercase().into_bytes(),
            8 => last(random.pick(&EDGES)).into_bytes(),
            9 if numbers.len() == 2 => format!("{letter} {} {}", random.pick(&EDGES), numbers[1]).into_bytes(),
            9 => last(random.pick(&["256", "4294967296", "4294967298", "18446744073709551619"])).into_bytes(),
            10 => format!("{good} {}", random.below(9)).into_bytes(),
            11 => good.rsplit_once(' ').map_or("", |(front, _)| front).as_bytes().to_vec(),
            12 => good.replace(' ', random.pick(&["\t", "", ",", "\u{a0}", "\x0b"])).into_bytes(),
            13 => inside(&good, random, b"\0"),
            14 | 15 => {
                let byte = random.pick(&[&128, &0]) + random.below(128) as u8;
                inside(&good, random, &[byte])
            }
            16 => {
                let other = random.pick(&["?", "x", "b", "0", "7", "#", "ww", "mk", "kk", "é"]);
                format!("{other}{}", &good[1..]).into_bytes()
            }
            17 => {
                let other = ["0x1", "1.0", "1e1", "1_0", "1/", ":", "1:", "/", "a", "", "1,000", "١"];
                last(random.pick(&other)).into_bytes()
            }
            18 => format!("{letter}{letter}").into_bytes(),
            19 => letter.as_bytes().to_vec(),
            20 => vec![*random.pick(&[&b'm', &b' ', &b'1', &b'k', &0, &255]); random.below(5000) as usize],
            21 => last(&("0".repeat(random.below(5000) as usize) + "3")).into_bytes(),
            22 => last(&"9".repeat(1 + random.below(500) as usize)).into_bytes(),
            _ => last(&("1".to_string() + &"0".repeat(random.below(60) as usize))).into_bytes(),
        }
    }

    /// Everything sent is moved, so that link and stream are empty and no block is staged.
    fn move_all(&mut self) {
        for _ in 0..24 {
            self.put("m");
            self.put("f");
        }
    }

    /// Document 02, Job 9: blocks written again and again, with others between them, so that an
    /// epoch has far more writes than blocks.
    fn repeats(&mut self) {
        for _ in 0..1 + self.random.below(5) {
            self.some("rrrd", 20);
            self.some("rrdmmf", 16);
            self.any_of("c", 1);
            self.some("mmf", 20);
        }
    }

    /// Four slots due and up to two of them flushed, then blocks of the next epoch, new or again.
    fn repeats_at_full_slots(&mut self) {
        self.move_all();
        self.put("c 1");
        self.move_all();
        for line in ["d 0 1", "d 1 1", "c 1", "d 2 2", "d 3 2", "c 2"] {
            self.put(line);
        }
        self.any_of("m", 8);
        self.some("f", 3);
        self.any_of("dm", 4);
        self.some("rm", 12);
        self.some("drmmf", 20);
    }

    /// A stretch of one character.
    fn stretch(&mut self) {
        match self.random.below(16) {
            // all commands alike
            0 => self.some("wdrscmatf", 80),
            // epochs of random size, more or less moved
            1 | 2 => {
                for _ in 0..1 + self.random.below(12) {
                    self.some("wwwd", 6);
                    self.some("dr", 5);
                    self.some("s", 3);
                    self.any_of("c", 1);
                    self.some("m", 12);
                    self.some("a", 3);
                    self.some("t", 4);
                    self.some("f", 4);
                }
            }
            // many epochs, wholly moved
            3 => {
                for _ in 0..1 + self.random.below(40) {
                    self.any_of("wddrs", 4);
                    self.any_of("c", 1);
                    self.any_of("m", 6);
                    self.any_of("atff", 5);
                }
            }
            // blocks staged until 17, then flushes now and then
            4 | 5 => {
                for _ in 0..1 + self.random.below(5) {
                    self.any_of("dd", 2);
                    self.any_of("c", 1);
                    self.any_of("m", 4);
                }
                self.some("m", 5);
                self.some("mmmf", 12);
                self.some("mf", 30);
            }
            // the stream filled, little or nothing moved
            6 => {
                self.some("wwwwddrcc", 40);
                self.some("wwwwddrccm", 20);
            }
            // the stream filled to its last byte: a COMMIT of 12 left at the head, then 5
            // checkpoints of 84 and 8 pages or blocks of 74, together 1,024
            7 => {
                let usual = std::mem::take(&mut self.malformed);
                self.move_all();
                self.put("c 1");
                self.move_all();
                self.put("c 2");
                self.put("m");
                for pages in 0..5 {
                    for page in 0..[2, 1, 3, 0, 2][pages] {
                        self.put(["w 3 9", "w 0 9", "d 2 9"][page]);
                    }
                    if pages < 4 || self.random.one_in(2) {
                        self.put("c 3");
                    }
                }
                self.malformed = usual;
                self.some("wdcd", 8);
                self.some("m", 4);
                self.some("wdc", 8);
            }
            // 64 packets
            8 => {
                let count = 55 + self.random.below(20);
                for _ in 0..count {
                    let length = 1 + self.random.below([3, 4, 1][count as usize % 3]);
                    self.put(&format!("s {length}"));
                }
                self.some("s", 10);
            }
            // 256 bytes
            9 => {
                let mut left = 256;
                while left > 0 {
                    let length = (1 + self.random.below(110)).min(left);
                    self.put(&format!("s {length}"));
                    left -= length;
                }
                self.some("st", 10);
            }
            // unread ACKs, of which a few are then read
            10 => {
                for _ in 0..self.random.below(150) {
                    self.put("c 4");
                    self.put("m");
                    self.put("m");
                }
                self.some("at", 60);
            }
            // what is under way comes through
            11 => self.some("mmfat", 70),
            12 | 13 => self.repeats(),
            14 => self.repeats_at_full_slots(),
            // malformed lines
            _ => {
                for _ in 0..self.random.below(20) {
                    let line = self.broken_line();
                    self.script.extend(line);
                    self.script.push(b'\n');
                }
            }
        }
    }

    fn stretches(&mut self, fewer_than: u64) {
        for _ in 0..1 + self.random.below(fewer_than) {
            self.stretch();
        }
    }

    /// The end of a script: `k` or not, lines after it or not, a last newline or not.
    fn end(&mut self) {
        if !self.random.one_in(3) {
            self.put("k");
            if self.random.one_in(3) {
                self.some("wdscmatfk", 20);
            }
        }
        if self.random.one_in(4) {
            self.script.pop();
        }
    }
}

/// The script of a seed.
pub fn script_of(seed: u64) -> Vec<u8> {
    let mut random = Random(seed.wrapping_mul(0xd134_2543_de82_ef95));
    let malformed = *random.pick(&[&0, &0, &60, &8]);
    let mut writer = Writer { random, script: Vec::new(), malformed, block: "0".into() };
    match writer.random.below(300) {
        // longer than 65,536 bytes: thousands of epochs
        0 => {
            let length = 66_000 + writer.random.below(120_000) as usize;
            let unread = writer.random.one_in(2);
            while writer.script.len() < length {
                writer.any_of("wdrs", 2);
                writer.any_of("c", 1);
                writer.any_of("mmmmff", 8);
                if !unread {
                    writer.any_of("at", 2);
                }
                if writer.random.one_in(300) {
                    writer.stretch();
                }
            }
            if unread {
                writer.some("a", 5000);
                writer.some("at", 60);
            }
        }
        // longer than 65,536 bytes: all stretches
        1 => {
            while writer.script.len() < 70_000 {
                writer.stretch();
            }
        }
        // one very long line, a command or not
        2 => {
            writer.stretches(3);
            let zeros = "0".repeat(60_000 + writer.random.below(90_000) as usize);
            let line = match writer.random.below(6) {
                0 => format!("w {zeros}2 {zeros}77"),
                1 => format!("s {zeros}12"),
                2 => format!("c {zeros}256"),
                3 => format!("d 1{zeros} 5"),
                4 => format!("m{}", zeros.replace('0', " ")),
                _ => zeros.replace('0', "k"),
            };
            writer.put(&line);
            writer.stretches(3);
        }
        // bytes from a small alphabet
        3..=22 => {
            let alphabets = ["wdscmatfk 0123456789\n\n\n  ", "wdscmatf  0011234\n\n\n\n\n\n\n"];
            let alphabet = writer.random.pick(&alphabets).as_bytes();
            for _ in 0..writer.random.below(600) {
                let at = writer.random.below(alphabet.len() as u64) as usize;
                writer.script.push(alphabet[at]);
            }
            return writer.script;
        }
        // very few lines
        23..=42 => writer.some("wdscmatfk", 6),
        // a good script with bytes changed, put in or left out
        43..=72 => {
            writer.stretches(4);
            for _ in 0..1 + writer.random.below(12) {
                let at = writer.random.below(writer.script.len() as u64 + 1) as usize;
                let byte = *writer.random.pick(&[&b'\n', &b' ', &b'0', &b'1', &b'9', &b'm', &b'\r', &b'w', &0, &200]);
                match writer.random.below(3) {
                    0 => writer.script.insert(at, byte),
                    1 if at < writer.script.len() => writer.script[at] = byte,
                    2 if at < writer.script.len() => drop(writer.script.remove(at)),
                    _ => {}
                }
            }
        }
        _ => writer.stretches(9),
    }
    writer.end();
    writer.script
}
