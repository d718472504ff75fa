//! The calls by their codes, and what each of them is given and gives, in the order of FORM.md.
#![allow(dead_code)] // two programs share this file, and each uses a part of it

/// The codes of the calls.
pub mod code {
    pub const START: usize = 0;
    pub const MEMORY_WRITE: usize = 1;
    pub const DISK_WRITE: usize = 2;
    pub const PACKET: usize = 3;
    pub const CHECKPOINT: usize = 4;
    pub const DRAIN: usize = 5;
    pub const ACK: usize = 6;
    pub const TAKE: usize = 7;
    pub const PRIMARY_TICK: usize = 8;
    pub const READ: usize = 9;
    pub const FLUSH: usize = 10;
    pub const STANDBY_TICK: usize = 11;
    pub const ACTIVATION: usize = 12;
    pub const STANDBY_MEMORY_WRITE: usize = 13;
    pub const STANDBY_DISK_WRITE: usize = 14;
    pub const CHOICE: usize = 15;
    pub const PRIMARY_SUM: usize = 16;
    pub const STANDBY_SUM: usize = 17;
    pub const NORMAL_FORM: usize = 18;
    pub const ALL: usize = 19;
}

/// The words of the settings, of the four that a file has, of a primary and of a standby. A primary's first words are
/// followed by its 64 packets, of three words each: epoch, length and port; these by the 64 block numbers of its open
/// epoch.
pub const SETTINGS_WORDS: usize = 8;
pub const SIZES_WORDS: usize = 4;
pub const PRIMARY_FIRST_WORDS: usize = 16;
pub const PACKET_WORDS: usize = 3;
pub const WRITTEN_AT: usize = 208;
pub const PRIMARY_WORDS: usize = 272;
/// A standby's first words are followed by its 64 slots' block numbers, these by its last words.
pub const SLOTS_AT: usize = 11;
pub const STANDBY_LAST_AT: usize = 75;
pub const STANDBY_WORDS: usize = 80;

/// A part of a call. First the words, then the bytes, then the numbers given, then what is answered. `Cpu` is the
/// processor state given, `Pending` and `Kept` are the standby's; `Data` is also a file, `Out` is the destination or
/// the reply buffer; `Order` are the pages as the standby visited them; `Sizes` are the settings U M D B.
#[derive(Clone, Copy, PartialEq, Debug)]
pub enum Item {
    Settings,
    Primary,
    Standby,
    Marks,
    StandbyMarks,
    Order,
    Sizes,
    Cpu,
    Pending,
    Kept,
    Memory,
    Disk,
    Held,
    Stream,
    StandbyMemory,
    StandbyDisk,
    Pages,
    Blocks,
    Area,
    Data,
    Out,
    Place,
    Offset,
    N,
    Port,
    Number,
    Value,
    Used,
    Missing,
    /// The disk that the choice hands back.
    Chosen,
}
use Item::*;

/// How an item stands on a line.
pub enum Sort {
    /// So many numbers.
    Numbers(usize),
    /// A count, then as many numbers.
    Words,
    /// A processor state.
    Processor,
    /// A count, then as many bytes.
    Bytes,
    /// One number that is given.
    Given,
    /// A part of the answer.
    Answered,
}

impl Item {
    pub fn sort(self) -> Sort {
        match self {
            Settings => Sort::Numbers(SETTINGS_WORDS),
            Primary => Sort::Numbers(PRIMARY_WORDS),
            Standby => Sort::Numbers(STANDBY_WORDS),
            Sizes => Sort::Numbers(SIZES_WORDS),
            Marks | StandbyMarks | Order => Sort::Words,
            Cpu | Pending | Kept => Sort::Processor,
            Place | Offset | N | Port => Sort::Given,
            Number | Value | Used | Missing | Chosen => Sort::Answered,
            _ => Sort::Bytes,
        }
    }

    pub fn is_words(self) -> bool {
        matches!(self.sort(), Sort::Numbers(_) | Sort::Words)
    }

    pub fn is_bytes(self) -> bool {
        matches!(self.sort(), Sort::Processor | Sort::Bytes)
    }
}

/// What follows the code on a line of input, by code.
pub const INPUT: [&[Item]; code::ALL] = [
    &[Settings, Cpu, Memory, Disk, Marks, Held, Stream, StandbyMemory, StandbyDisk, Pages, StandbyMarks, Blocks, Area],
    &[Primary, Memory, Marks, Place, Offset, Data],
    &[Primary, Disk, Stream, Place, Data],
    &[Primary, Held, Port, Data],
    &[Primary, Memory, Marks, Stream, Cpu],
    &[Primary, Stream, N, Out],
    &[Primary, Data],
    &[Primary, Held, Port, Out],
    &[Primary],
    &[Standby, Pending, Kept, StandbyMemory, Pages, StandbyMarks, Blocks, Data, Out],
    &[Standby, Pending, Kept, Blocks, StandbyDisk, N],
    &[Standby, Pending, Kept, StandbyMarks],
    &[Standby, Pending, Kept, Area],
    &[Standby, Pending, Kept, StandbyMemory, Place, Offset, Data],
    &[Standby, Pending, Kept, StandbyDisk, Place, Data],
    &[Disk, StandbyDisk, Area],
    &[Primary, Memory],
    &[Standby, Pending, Kept, StandbyMemory, Order],
    &[Sizes, Data, Out],
];

/// A line of output, by code.
pub const OUTPUT: [&[Item]; code::ALL] = [
    &[
        Number, Primary, Standby, Pending, Kept, Memory, Disk, Marks, Held, Stream, StandbyMemory, StandbyDisk, Pages,
        StandbyMarks, Blocks, Area,
    ],
    &[Number, Value, Primary, Memory, Marks],
    &[Number, Value, Primary, Disk, Stream],
    &[Number, Value, Primary, Held],
    &[Number, Value, Primary, Memory, Marks, Stream],
    &[Number, Value, Primary, Stream, Out],
    &[Number, Value, Used, Missing, Primary],
    &[Number, Value, Primary, Held, Out],
    &[Number, Value, Primary],
    &[Number, Value, Used, Missing, Standby, Pending, Kept, StandbyMemory, Pages, StandbyMarks, Blocks, Out],
    &[Number, Value, Standby, Pending, Kept, Blocks, StandbyDisk],
    &[Number, Value, Standby, Pending, Kept, StandbyMarks],
    &[Number, Value, Standby, Pending, Kept, Area],
    &[Number, Value, Standby, Pending, Kept, StandbyMemory],
    &[Number, Value, Standby, Pending, Kept, StandbyDisk],
    &[Number, Chosen],
    &[Number, Value, Primary],
    &[Number, Value, Standby, Pending, Kept],
    &[Number, Value, Missing, Out],
];

/// Everything that a call of the library is given: what stands on the line, and the states that start makes.
pub fn given(which: usize) -> impl Iterator<Item = Item> {
    let made: &[Item] = if which == code::START { &[Primary, Standby, Pending, Kept] } else { &[] };
    INPUT[which].iter().chain(made).copied()
}

/// The calls of one end, by their codes: what they are given begins with its state.
pub fn calls_of(end: Item) -> impl Iterator<Item = usize> {
    (0..code::ALL).filter(move |&which| is_of(which, end))
}

/// Whether a call is one of this end.
pub fn is_of(which: usize, end: Item) -> bool {
    INPUT[which].first() == Some(&end)
}

/// The calls of both ends, the primary's first.
pub fn calls_of_ends() -> impl Iterator<Item = usize> {
    calls_of(Primary).chain(calls_of(Standby))
}
