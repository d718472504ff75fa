//! Printing lines of FORM.md.
#![allow(dead_code)] // two programs share this file, and each uses a part of it
use crate::call::Answer;
use crate::items::{Item, Sort, OUTPUT};
use crate::lent::Lent;
use std::io::{self, Write};

/// What is printed is written on when so many bytes have come together.
const TOGETHER: usize = 65_536;
/// Bytes are printed in parts of so many, so that a long buffer is never held as text.
const PART: usize = 4_096;

pub struct Output<W: Write> {
    to: W,
    text: Vec<u8>,
}

impl<W: Write> Output<W> {
    pub fn new(to: W) -> Output<W> {
        Output { to, text: Vec::with_capacity(TOGETHER + 4 * PART) }
    }

    /// The answer's line of a call made on these.
    pub fn answer(&mut self, which: usize, l: &Lent, answer: Answer) -> io::Result<()> {
        for &item in OUTPUT[which] {
            self.item(item, l, answer)?;
        }
        self.end_line()
    }

    /// Every token is printed with a space behind it; the last one's becomes the newline.
    pub fn end_line(&mut self) -> io::Result<()> {
        if let Some(last) = self.text.last_mut() {
            *last = b'\n';
        }
        self.passed_on(TOGETHER)
    }

    /// The line that says that a line of the input is not of the form.
    pub fn refused(&mut self) {
        self.text.extend_from_slice(b"!\n");
    }

    /// Writes what has come together; at least the last byte stays, which may still become a newline.
    fn passed_on(&mut self, most: usize) -> io::Result<()> {
        if self.text.len() > most {
            let last = self.text.len() - 1;
            self.to.write_all(&self.text[..last])?;
            self.text.drain(..last);
        }
        Ok(())
    }

    /// Writes all that is left.
    pub fn flush(&mut self) -> io::Result<()> {
        self.to.write_all(&self.text)?;
        self.text.clear();
        self.to.flush()
    }

    pub fn item(&mut self, item: Item, l: &Lent, answer: Answer) -> io::Result<()> {
        match item.sort() {
            Sort::Numbers(_) => self.numbers(l.words(item).items()),
            Sort::Words => {
                self.number(l.words(item).items().len() as u64);
                self.numbers(l.words(item).items())
            }
            Sort::Processor => self.hexadecimal(l.bytes(item).items()),
            Sort::Bytes => self.bytes(l.bytes(item).items()),
            Sort::Given => {
                self.number(l.number(item));
                Ok(())
            }
            Sort::Answered => self.answered(item, l, answer),
        }
    }

    fn answered(&mut self, item: Item, l: &Lent, answer: Answer) -> io::Result<()> {
        match item {
            Item::Number => self.number(answer.number),
            Item::Value => self.number(answer.value),
            Item::Used => self.number(answer.used),
            Item::Missing => self.number(answer.missing),
            _ => return self.bytes(chosen(l, answer)),
        }
        Ok(())
    }

    pub fn number(&mut self, number: u64) {
        let (mut digits, mut at, mut left) = ([0; 20], 20, number);
        loop {
            at -= 1;
            digits[at] = b'0' + (left % 10) as u8;
            left /= 10;
            if left == 0 {
                break;
            }
        }
        self.text.extend_from_slice(&digits[at..]);
        self.text.push(b' ');
    }

    fn numbers(&mut self, words: &[u64]) -> io::Result<()> {
        for &word in words {
            self.number(word);
            self.passed_on(TOGETHER)?;
        }
        Ok(())
    }

    fn bytes(&mut self, bytes: &[u8]) -> io::Result<()> {
        self.number(bytes.len() as u64);
        if bytes.is_empty() { Ok(()) } else { self.hexadecimal(bytes) }
    }

    fn hexadecimal(&mut self, bytes: &[u8]) -> io::Result<()> {
        const DIGITS: &[u8; 16] = b"0123456789abcdef";
        for part in bytes.chunks(PART) {
            self.text.extend(part.iter().flat_map(|&byte| [DIGITS[byte as usize >> 4], DIGITS[byte as usize & 15]]));
            self.passed_on(TOGETHER)?;
        }
        self.text.push(b' ');
        Ok(())
    }
}

/// The disk that the choice hands back: none where it is refused.
fn chosen(l: &Lent, answer: Answer) -> &[u8] {
    match answer.value {
        1 => l.bytes(Item::Disk).items(),
        2 => l.bytes(Item::StandbyDisk).items(),
        _ => &[],
    }
}

/// The input's line of a call on these.
pub fn input_line(which: usize, l: &Lent) -> Vec<u8> {
    let mut line = Vec::new();
    let mut output = Output::new(&mut line);
    output.number(which as u64);
    let none = Answer { number: 0, used: 0, missing: 0, value: 0 };
    // A vector takes every byte, so that printing into it cannot fail.
    let printed = crate::items::INPUT[which].iter().try_for_each(|&item| output.item(item, l, none));
    printed.and_then(|()| output.end_line()).and_then(|()| output.flush()).expect("a vector takes every byte");
    line
}
