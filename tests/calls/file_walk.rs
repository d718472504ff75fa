//! A plain walk over the records of a file (document 02, Job 14), which goes by their headers alone and judges nothing:
//! for telling from the bytes what a file names, and why it is refused.
use std::collections::{BTreeMap, BTreeSet};

/// The settings U M D B that a file was given with.
#[derive(Clone, Copy)]
pub struct Sizes {
    pub u: u64,
    pub m: u64,
    pub d: u64,
    pub b: u64,
}

impl Sizes {
    pub fn of(words: &[u64]) -> Sizes {
        Sizes { u: words[0], m: words[1], d: words[2], b: words[3] }
    }

    pub fn is_wide(&self) -> bool {
        self.m > 4_096
    }

    /// PAGE, BLOCK, STATE and COMMIT: their kinds, and the bytes of a whole record.
    fn kinds(&self) -> [(u64, u64); 4] {
        let u = self.u;
        if self.is_wide() {
            [(8, u + 12), (2, u + 10), (3, 72), (9, 16)]
        } else {
            [(1, u + 10), (2, u + 10), (3, 72), (4, 12)]
        }
    }
}

#[derive(Clone, Copy, PartialEq, Debug)]
pub enum Name {
    Page,
    Block,
    State,
    Commit,
}
const NAMES: [Name; 4] = [Name::Page, Name::Block, Name::State, Name::Commit];

/// A whole record: its name and epoch, its page or block number or its two counts, and its bytes behind them.
pub struct Found<'a> {
    pub name: Name,
    pub epoch: u64,
    pub numbers: [u64; 2],
    pub bytes: &'a [u8],
}

/// What came before a record.
#[derive(Default)]
pub struct Before {
    pub epoch: Option<u64>,
    pub blocks: BTreeSet<u64>,
    pub records: u64,
    pub pages: u64,
    pub last_page: Option<u64>,
    pub has_state: bool,
}

/// Why the walk ends: at a COMMIT, at bytes that are no whole record, or at a header that is none of these settings'.
#[derive(Clone, Copy, PartialEq, Debug)]
pub enum End {
    Commit,
    Short,
    Kind(u64),
    Length(Name),
}

pub fn field(bytes: &[u8]) -> u64 {
    bytes.iter().rev().fold(0, |value, &byte| value << 8 | byte as u64)
}

/// Calls `each` with every whole record and what came before it, up to the first COMMIT. Where the walk ends, and why.
pub fn walk<'a>(s: Sizes, file: &'a [u8], mut each: impl FnMut(&Found<'a>, &Before)) -> (usize, End) {
    let (mut before, mut at) = (Before::default(), 0);
    loop {
        let rest = &file[at..];
        if rest.len() < 4 {
            return (at, End::Short);
        }
        let (length, kind) = (field(&rest[..2]), field(&rest[2..4]));
        let Some(which) = s.kinds().iter().position(|one| one.0 == kind) else { return (at, End::Kind(kind)) };
        let (whole, name) = (s.kinds()[which].1, NAMES[which]);
        if length + 4 != whole {
            return (at, End::Length(name));
        }
        if (rest.len() as u64) < whole {
            return (at, End::Short);
        }
        let found = found(name, s.is_wide(), &rest[..whole as usize]);
        each(&found, &before);
        before.note(&found);
        at += whole as usize;
        if name == Name::Commit {
            return (at, End::Commit);
        }
    }
}

fn found(name: Name, wide: bool, record: &[u8]) -> Found<'_> {
    let width = if wide && name != Name::Block { 4 } else { 2 };
    let counts = match name {
        Name::Page | Name::Block => 1,
        Name::State => 0,
        Name::Commit => 2,
    };
    let number = |at: usize| if at < counts { field(&record[8 + at * width..][..width]) } else { 0 };
    Found { name, epoch: field(&record[4..8]), numbers: [number(0), number(1)], bytes: &record[8 + counts * width..] }
}

impl Before {
    fn note(&mut self, found: &Found) {
        self.epoch.get_or_insert(found.epoch);
        match found.name {
            Name::Page => (self.pages, self.last_page) = (self.pages + 1, Some(found.numbers[0])),
            Name::Block => {
                self.records += 1;
                self.blocks.insert(found.numbers[0]);
            }
            Name::State => self.has_state = true,
            Name::Commit => {}
        }
    }
}

/// What a file names: its pages and blocks with their last bytes, and its last processor state.
#[derive(Default, PartialEq)]
pub struct Content<'a> {
    pub epoch: Option<u64>,
    pub blocks: BTreeMap<u64, &'a [u8]>,
    pub pages: BTreeMap<u64, &'a [u8]>,
    pub cpu: Option<&'a [u8]>,
}

pub fn content(s: Sizes, file: &[u8]) -> Content<'_> {
    let mut content = Content::default();
    walk(s, file, |found, _| {
        content.epoch.get_or_insert(found.epoch);
        match found.name {
            Name::Page => drop(content.pages.insert(found.numbers[0], found.bytes)),
            Name::Block => drop(content.blocks.insert(found.numbers[0], found.bytes)),
            Name::State => content.cpu = Some(found.bytes),
            Name::Commit => {}
        }
    });
    content
}
