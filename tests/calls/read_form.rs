//! Reading lines of FORM.md, as they come: memory is only taken for what really stands on a line.
use crate::guarded::{Element, Guarded};
use crate::items::{code, Item, Sort, INPUT};
use crate::lent::Lent;
use std::io::{ErrorKind, Read};

/// The most bytes and words of a buffer.
pub const MOST_BYTES: u64 = 67_108_864;
pub const MOST_WORDS: u64 = 1_048_576;

/// What comes next.
pub enum Line {
    Call(usize),
    End,
    NotOfTheForm,
}

pub struct Input<R: Read> {
    from: R,
    buffer: Vec<u8>,
    at: usize,
    end: usize,
    /// The byte that ended the last token: a space where another follows, a newline where the line ends.
    last: u8,
}

impl<R: Read> Input<R> {
    pub fn new(from: R) -> Input<R> {
        Input { from, buffer: vec![0; 65_536], at: 0, end: 0, last: b' ' }
    }

    /// Reads one line to its end.
    pub fn line(&mut self, l: &mut Lent) -> Line {
        if self.at == self.end && !self.fill() {
            return Line::End;
        }
        self.last = b' ';
        match self.call(l) {
            Some(which) if self.last == b'\n' => Line::Call(which),
            _ => Line::NotOfTheForm,
        }
    }

    fn call(&mut self, l: &mut Lent) -> Option<usize> {
        let code = self.number()?;
        if code >= code::ALL as u64 {
            return None;
        }
        for &item in INPUT[code as usize] {
            self.item(item, l)?;
        }
        Some(code as usize)
    }

    fn item(&mut self, item: Item, l: &mut Lent) -> Option<()> {
        match item.sort() {
            Sort::Numbers(count) => self.elements(l.words_mut(item), count as u64, Input::number),
            Sort::Words => {
                let count = self.count(MOST_WORDS)?;
                self.elements(l.words_mut(item), count, Input::number)
            }
            Sort::Processor => self.hexadecimal(l.bytes_mut(item), 64),
            Sort::Bytes => {
                let count = self.count(MOST_BYTES)?;
                self.hexadecimal(l.bytes_mut(item), count)
            }
            Sort::Given => {
                l.set_number(item, self.number()?);
                Some(())
            }
            Sort::Answered => None,
        }
    }

    fn elements<T: Element>(
        &mut self, to: &mut Guarded<T>, count: u64, one: fn(&mut Input<R>) -> Option<T>,
    ) -> Option<()> {
        to.begin();
        for _ in 0..count {
            to.push(one(self)?);
        }
        to.finish();
        Some(())
    }

    fn hexadecimal(&mut self, to: &mut Guarded<u8>, count: u64) -> Option<()> {
        if count > 0 && self.last != b' ' {
            return None;
        }
        self.elements(to, count, Input::hexadecimal_byte)?;
        if count > 0 {
            self.last = self.next()?;
        }
        Some(())
    }

    fn hexadecimal_byte(&mut self) -> Option<u8> {
        let high = hexadecimal_value(self.next()?)?;
        let low = hexadecimal_value(self.next()?)?;
        Some(high << 4 | low)
    }

    fn count(&mut self, most: u64) -> Option<u64> {
        self.number().filter(|&count| count <= most)
    }

    fn number(&mut self) -> Option<u64> {
        if self.last != b' ' {
            return None;
        }
        let mut value = decimal_value(self.next()?)?;
        loop {
            let byte = self.next()?;
            let Some(digit) = decimal_value(byte) else {
                self.last = byte;
                return Some(value);
            };
            value = value.checked_mul(10)?.checked_add(digit)?;
        }
    }

    fn next(&mut self) -> Option<u8> {
        if self.at == self.end && !self.fill() {
            return None;
        }
        self.at += 1;
        Some(self.buffer[self.at - 1])
    }

    /// Whether more was read. Input that cannot be read on is at its end.
    fn fill(&mut self) -> bool {
        self.at = 0;
        self.end = loop {
            match self.from.read(&mut self.buffer) {
                Err(error) if error.kind() == ErrorKind::Interrupted => {}
                got => break got.unwrap_or(0),
            }
        };
        self.end > 0
    }
}

fn decimal_value(byte: u8) -> Option<u64> {
    byte.is_ascii_digit().then(|| (byte - b'0') as u64)
}

fn hexadecimal_value(byte: u8) -> Option<u8> {
    match byte {
        b'0'..=b'9' => Some(byte - b'0'),
        b'a'..=b'f' => Some(byte - b'a' + 10),
        _ => None,
    }
}
