//! What calls of the library are lent and given: one place for each item.
#![allow(dead_code)] // two programs share this file, and each uses a part of it
use crate::guarded::{Guarded, Slice};
use crate::items::{code, given, Item, PRIMARY_WORDS, STANDBY_WORDS};

const WORDS: usize = Item::Cpu as usize;
const BYTES: usize = Item::Place as usize - WORDS;
const NUMBERS: usize = Item::Number as usize - Item::Place as usize;

pub struct Lent {
    words: [Guarded<u64>; WORDS],
    bytes: [Guarded<u8>; BYTES],
    numbers: [u64; NUMBERS],
}

impl Lent {
    pub fn new() -> Lent {
        Lent {
            words: std::array::from_fn(|_| Guarded::new()),
            bytes: std::array::from_fn(|_| Guarded::new()),
            numbers: [0; NUMBERS],
        }
    }

    pub fn words(&self, item: Item) -> &Guarded<u64> {
        &self.words[item as usize]
    }

    pub fn words_mut(&mut self, item: Item) -> &mut Guarded<u64> {
        &mut self.words[item as usize]
    }

    pub fn bytes(&self, item: Item) -> &Guarded<u8> {
        &self.bytes[item as usize - WORDS]
    }

    pub fn bytes_mut(&mut self, item: Item) -> &mut Guarded<u8> {
        &mut self.bytes[item as usize - WORDS]
    }

    pub fn number(&self, item: Item) -> u64 {
        self.numbers[item as usize - Item::Place as usize]
    }

    pub fn set_number(&mut self, item: Item, number: u64) {
        self.numbers[item as usize - Item::Place as usize] = number;
    }

    /// The slices and the numbers as the library takes them.
    pub fn word_slice(&mut self, item: Item) -> Slice<u64> {
        self.words_mut(item).slice()
    }

    pub fn byte_slice(&mut self, item: Item) -> Slice<u8> {
        self.bytes_mut(item).slice()
    }

    pub fn size(&self, item: Item) -> usize {
        self.number(item) as usize
    }

    /// Lends start the states that it makes, with this word and this byte everywhere; nothing for any other call.
    pub fn lend_states(&mut self, which: usize, word: u64, byte: u8) {
        if which == code::START {
            self.words_mut(Item::Primary).load(&[word; PRIMARY_WORDS]);
            self.words_mut(Item::Standby).load(&[word; STANDBY_WORDS]);
            self.bytes_mut(Item::Pending).load(&[byte; 64]);
            self.bytes_mut(Item::Kept).load(&[byte; 64]);
        }
    }

    /// The same as another one holds for this call.
    pub fn copy(&mut self, which: usize, from: &Lent) {
        for item in given(which) {
            if item.is_words() {
                self.words_mut(item).load(from.words(item).items());
            } else if item.is_bytes() {
                self.bytes_mut(item).load(from.bytes(item).items());
            } else {
                self.set_number(item, from.number(item));
            }
        }
    }
}
