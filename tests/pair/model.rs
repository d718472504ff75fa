//! A second, plain model of the program `pair`, written from document 01 and the jobs of document
//! 02 that have landed alone: both ends at `pair`'s settings, the link between them, and the
//! commands. It is made for reading, not for speed, and shares nothing with the program that it is
//! compared with.
//!
//! What the documents have and `pair` has no command for is left out: the primary's tick (so the
//! primary is never alone), guest writes at an active standby, the disk choice, and ports: "`pair`
//! uses port 0", so its packets are one queue. Lent lengths are always right here, so number 1 is
//! printed for a malformed line only.

use std::collections::VecDeque;

pub const U: usize = 64; // bytes in a page and in a block
pub const M: usize = 4; // memory pages
pub const D: usize = 4; // disk blocks
pub const B: usize = 2; // different blocks that may be written in an epoch
pub const S: usize = 4; // block slots staged at the standby
pub const Q: usize = 256; // bytes of held packets
pub const L: usize = 1024; // bytes of outgoing stream
pub const T: u32 = 3; // ticks of patience
pub const PACKETS: usize = 64; // packets held at most
pub const RECORDS: usize = 65_535; // BLOCK records in an epoch at most
const LONGEST_PACKET: u64 = 1514;

const PAGE: u16 = 1;
const BLOCK: u16 = 2;
const STATE: u16 = 3;
const COMMIT: u16 = 4;
const ACK: u16 = 5;
const ACTIVATION: u16 = 6;

/// A call's value when accepted, its number when refused.
type Answer = Result<u64, u64>;

/// "A record is a 2-byte length of the body, a 2-byte kind, then the body", whose first field is
/// the epoch for every kind.
fn record(kind: u16, epoch: u32, rest: &[&[u8]]) -> Vec<u8> {
    let mut body = epoch.to_le_bytes().to_vec();
    for part in rest {
        body.extend_from_slice(part);
    }
    let mut bytes = (body.len() as u16).to_le_bytes().to_vec();
    bytes.extend_from_slice(&kind.to_le_bytes());
    bytes.extend_from_slice(&body);
    bytes
}

fn body_length(kind: u16) -> usize {
    match kind {
        PAGE | BLOCK => U + 6,
        STATE => 68,
        COMMIT => 8,
        _ => 4,
    }
}

fn two(bytes: &[u8], at: usize) -> u16 {
    u16::from_le_bytes([bytes[at], bytes[at + 1]])
}

fn four(bytes: &[u8], at: usize) -> u32 {
    u32::from_le_bytes([bytes[at], bytes[at + 1], bytes[at + 2], bytes[at + 3]])
}

mod primary;
mod standby;

pub use primary::Primary;
use standby::Reading;
pub use standby::Standby;

/// A checkpoint of the plain pair: the primary's memory and disk, and the processor state.
type Checkpoint = (Vec<u8>, Vec<u8>, [u8; 64]);

/// Both ends and their link.
pub struct Pair {
    pub primary: Primary,
    pub standby: Standby,
    /// Bytes drained and not yet used: nothing, or one whole record that was refused.
    pub link: Vec<u8>,
    /// ACKs written by accepted COMMITs and not yet read.
    pub acks: VecDeque<[u8; 8]>,
    /// After `k` no line is looked at.
    pub ended: bool,
    /// The model checks itself: the checkpoints from the one received on.
    checkpoints: VecDeque<Checkpoint>,
}

impl Pair {
    pub fn start() -> Pair {
        Pair {
            primary: Primary::start(),
            standby: Standby::start(),
            link: Vec::new(),
            acks: VecDeque::new(),
            ended: false,
            checkpoints: VecDeque::from([(vec![0; M * U], vec![0; D * U], [0; 64])]),
        }
    }

    /// One line without its newline: the letter, the number and the value to print.
    pub fn line(&mut self, line: &[u8]) -> (char, u64, u64) {
        let Some((letter, numbers)) = parse(line) else {
            return ('?', 1, 0);
        };
        let answer = match letter {
            'w' => self.primary.write_head(numbers[0], numbers[1] as u8),
            'd' => self.primary.write_block(numbers[0], &[numbers[1] as u8; U]),
            's' => self.primary.packet(numbers[0]),
            'c' => self.checkpoint(&[numbers[0] as u8; 64]),
            'm' => self.move_record(),
            'a' => self.next_ack(),
            't' => self.take(),
            'f' => Ok(self.standby.flush(1)),
            _ => self.takeover(),
        };
        match answer {
            Ok(value) => (letter, 0, value),
            Err(number) => (letter, number, 0),
        }
    }

    fn checkpoint(&mut self, processor: &[u8; 64]) -> Answer {
        let answer = self.primary.checkpoint(processor);
        if answer.is_ok() {
            let images = (self.primary.memory.clone(), self.primary.disk.clone(), *processor);
            self.checkpoints.push_back(images);
        }
        answer
    }

    /// `m`: "drain one whole record and read it; a refused one is read again by the next `m`".
    fn move_record(&mut self) -> Answer {
        if self.link.is_empty() {
            if self.primary.stream.is_empty() {
                return Err(18);
            }
            let length = u16::from_le_bytes([self.primary.stream[0], self.primary.stream[1]]);
            self.link = self.primary.drain(4 + length as usize);
        }
        match self.standby.read(&self.link) {
            Reading::Accepted(kind, used, ack) => {
                self.link.drain(..used);
                if let Some(bytes) = ack {
                    self.acks.push_back(bytes);
                    self.checkpoints.pop_front();
                    self.check_disk();
                }
                Ok(kind as u64)
            }
            Reading::CutShort => panic!("the link holds a whole record"),
            Reading::Refused(number) => Err(number),
        }
    }

    /// Document 02, Job 9: "the disk at each checkpoint, all due flushed, is what it was", that is
    /// the primary's at that checkpoint.
    fn check_disk(&self) {
        assert!(self.standby.flushed_disk() == self.checkpoints[0].1, "the disk is not the checkpoint's");
    }

    fn next_ack(&mut self) -> Answer {
        let bytes = *self.acks.front().ok_or(18u64)?;
        let answer = self.primary.ack(&bytes);
        if answer.is_ok() {
            self.acks.pop_front();
        }
        answer
    }

    fn take(&mut self) -> Answer {
        let (epoch, bytes) = self.primary.take()?;
        assert!(epoch <= self.standby.received, "a packet left before its checkpoint was received");
        Ok(bytes.len() as u64)
    }

    /// `k`: three standby ticks, flush of all due, activation; the end.
    fn takeover(&mut self) -> Answer {
        for _ in 0..3 {
            self.standby.tick();
        }
        self.standby.flush(self.standby.due);
        let answer = self.standby.activate();
        self.ended = true;
        let standby = &self.standby;
        assert_eq!(standby.area[..4], [4, 0, 6, 0]);
        let (memory, disk, processor) = &self.checkpoints[0];
        assert!(standby.memory == *memory && standby.disk == *disk && standby.processor == *processor);
        answer
    }
}

/// "`w p v`, `d b v`, `s n`, `c v`, `m`, `a`, `t`, `f`, `k`": the letter, single spaces, decimal
/// numbers, nothing else; v is 0 to 255, other numbers at most 4,294,967,295.
pub fn parse(line: &[u8]) -> Option<(char, Vec<u64>)> {
    const BYTE: u64 = 255;
    const WORD: u64 = 4_294_967_295;
    let words: Vec<&[u8]> = line.split(|byte| *byte == b' ').collect();
    let limits: &[u64] = match words[0] {
        b"w" | b"d" => &[WORD, BYTE],
        b"s" => &[WORD],
        b"c" => &[BYTE],
        b"m" | b"a" | b"t" | b"f" | b"k" => &[],
        _ => return None,
    };
    if words.len() != 1 + limits.len() {
        return None;
    }
    let mut numbers = Vec::new();
    for (word, limit) in words[1..].iter().zip(limits) {
        numbers.push(decimal(word).filter(|number| number <= limit)?);
    }
    Some((words[0][0] as char, numbers))
}

/// At least one digit and nothing but digits; leading zeros count for nothing.
fn decimal(word: &[u8]) -> Option<u64> {
    if word.is_empty() || !word.iter().all(u8::is_ascii_digit) {
        return None;
    }
    let zeros = word.iter().take_while(|byte| **byte == b'0').count();
    let digits = &word[zeros..];
    if digits.len() > 10 {
        return None;
    }
    Some(digits.iter().fold(0, |sum, byte| sum * 10 + (byte - b'0') as u64))
}

/// The lines of an input: a newline ends a line, and a last line may lack it.
pub fn lines(input: &[u8]) -> Vec<&[u8]> {
    let mut lines: Vec<&[u8]> = input.split(|byte| *byte == b'\n').collect();
    if lines.last().is_some_and(|line| line.is_empty()) {
        lines.pop();
    }
    lines
}

/// The whole output for a whole input.
pub fn run(input: &[u8]) -> Vec<u8> {
    let mut pair = Pair::start();
    let mut output = Vec::new();
    for line in lines(input) {
        let (letter, number, value) = pair.line(line);
        output.extend(format!("{letter} {number} {value}\n").into_bytes());
        if pair.ended {
            break;
        }
    }
    output
}
