//! A buffer that is lent to a call, with guards in front of it and behind it: a call must leave them as they are.
#![allow(dead_code)] // two programs share this file, and each uses a part of it

/// The least elements of a guard.
const MARGIN: usize = 32;
/// The front guard is longer by up to one less than this, so that byte buffers begin at every address modulo 8.
const SHIFTS: usize = 8;

pub trait Element: Copy + PartialEq + 'static {
    /// A guard; its elements differ, so that a shifted copy of it is seen too.
    const GUARD: [Self; MARGIN + SHIFTS];
}

const fn guard_bytes() -> [u8; MARGIN + SHIFTS] {
    let (mut bytes, mut at) = ([0; MARGIN + SHIFTS], 0);
    while at < bytes.len() {
        bytes[at] = 0xa5 ^ at as u8;
        at += 1;
    }
    bytes
}

const fn guard_words() -> [u64; MARGIN + SHIFTS] {
    let (mut words, mut at) = ([0; MARGIN + SHIFTS], 0);
    while at < words.len() {
        words[at] = 0xa5a5_5a5a_c3c3_3c3c ^ at as u64;
        at += 1;
    }
    words
}

impl Element for u8 {
    const GUARD: [u8; MARGIN + SHIFTS] = guard_bytes();
}

impl Element for u64 {
    const GUARD: [u64; MARGIN + SHIFTS] = guard_words();
}

/// What a call of the library takes: where a slice begins, and its length.
#[derive(Clone, Copy)]
pub struct Slice<T> {
    pub at: *mut T,
    pub len: usize,
}

pub struct Guarded<T> {
    store: Vec<T>,
    front: usize,
    end: usize,
}

impl<T: Element> Guarded<T> {
    pub fn new() -> Guarded<T> {
        let mut buffer = Guarded { store: Vec::new(), front: MARGIN, end: MARGIN };
        buffer.load(&[]);
        buffer
    }

    /// Empties the buffer; elements are then pushed, and `finish` puts the guard behind them.
    pub fn begin(&mut self) {
        self.front = MARGIN + (self.front - MARGIN + 1) % SHIFTS;
        self.store.clear();
        self.store.extend_from_slice(&T::GUARD[..self.front]);
    }

    pub fn push(&mut self, element: T) {
        self.store.push(element);
    }

    pub fn finish(&mut self) {
        self.end = self.store.len();
        self.store.extend_from_slice(&T::GUARD[..MARGIN]);
    }

    pub fn load(&mut self, from: &[T]) {
        self.begin();
        self.store.extend_from_slice(from);
        self.finish();
    }

    pub fn items(&self) -> &[T] {
        &self.store[self.front..self.end]
    }

    pub fn items_mut(&mut self) -> &mut [T] {
        &mut self.store[self.front..self.end]
    }

    /// Never null, also where the buffer is empty: it lies between the guards.
    pub fn slice(&mut self) -> Slice<T> {
        Slice { at: self.store[self.front..].as_mut_ptr(), len: self.end - self.front }
    }

    pub fn guards_stand(&self) -> bool {
        self.store[..self.front] == T::GUARD[..self.front] && self.store[self.end..] == T::GUARD[..MARGIN]
    }
}

impl Guarded<u8> {
    /// So many zeros. Of very many, memory is only taken for those that a call touches.
    pub fn zeros(&mut self, count: usize) {
        (self.front, self.end) = (MARGIN, MARGIN + count);
        self.store = vec![0; count + 2 * MARGIN];
        self.store[..MARGIN].copy_from_slice(&u8::GUARD[..MARGIN]);
        self.store[MARGIN + count..].copy_from_slice(&u8::GUARD[..MARGIN]);
    }
}
