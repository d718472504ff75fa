//! Files whose numbers are written beside them (document 02, Job 14), each at both widths: every fault by itself, two
//! faults in one record, and one fault in a record before another.
use crate::checker::{demand, Check};
use crate::file_records::*;
use crate::kept_files::Writer;
use crate::made_up::record;

/// D and B of all of these; U is 64.
const D: u64 = 4;
const B: u64 = 2;
/// An M of the kinds 1 and 4, and the least M of the kinds 8 and 9.
const WIDTHS: [u64; 2] = [3, 4_097];
/// The epoch of a record that says no other.
const EPOCH: u32 = 7;

/// A record of a file.
#[derive(Clone, Copy, Debug)]
enum Part {
    /// BLOCK, PAGE, STATE, and COMMIT with the counts of pages and of blocks.
    Block(u64),
    Page(u64),
    State,
    Commit(u64, u64),
    /// PAGE of page M, and so many more.
    PastM(u64),
    /// The same with another epoch, kind or length in it, or of the width that M does not call for.
    Of(u32, &'static Part),
    Kind(u16, &'static Part),
    Length(u16, &'static Part),
    Other(&'static Part),
    /// So many of its first bytes.
    Cut(usize, &'static Part),
    /// An ACK; and any bytes.
    Ack,
    Bytes(&'static [u8]),
}
use Part::*;

const FIRST: Part = Block(0);
const COMMIT: Part = Commit(0, 0);
const PAGE: Part = Page(0);
const LAST: u32 = u32::MAX;

const CASES: [(u64, &[Part]); 118] = [
    // accepted: epochs, repeated blocks, no more than B different ones
    (0, &[State, COMMIT]),
    (0, &[FIRST, State, Commit(0, 1)]),
    (0, &[Block(3), FIRST, Block(3), PAGE, Page(2), State, Commit(2, 3)]),
    (0, &[FIRST, Block(1), FIRST, Block(1), FIRST, State, Commit(0, 5)]),
    (0, &[PAGE, Page(1), Page(2), State, Commit(3, 0)]),
    (0, &[Of(0, &FIRST), Of(0, &State), Of(0, &Commit(0, 1))]),
    (0, &[Of(1, &State), Of(1, &COMMIT)]),
    (0, &[Of(LAST, &PAGE), Of(LAST, &State), Of(LAST, &Commit(1, 0))]),
    // cut short: before, in and behind each record
    (256, &[]),
    (256, &[Bytes(&[9])]),
    (256, &[Bytes(&[9, 9, 9])]),
    (256, &[Cut(4, &FIRST)]),
    (256, &[Cut(73, &FIRST)]),
    (256, &[FIRST]),
    (256, &[Cut(4, &PAGE)]),
    (256, &[PAGE, Cut(3, &State)]),
    (256, &[PAGE, Cut(71, &State)]),
    (256, &[PAGE, State]),
    (256, &[State, Cut(4, &COMMIT)]),
    (256, &[State, Cut(11, &COMMIT)]),
    // 6: kinds that no file has, and those of the other width
    (6, &[Ack]),
    (6, &[State, Ack]),
    (6, &[Kind(6, &Ack)]),
    (6, &[Kind(7, &FIRST)]),
    (6, &[FIRST, Kind(7, &Block(1))]),
    (6, &[Kind(0, &FIRST)]),
    (6, &[Kind(10, &State)]),
    (6, &[Kind(258, &FIRST)]),
    (6, &[Kind(259, &State)]),
    (6, &[Kind(65_535, &State)]),
    (6, &[Other(&PAGE)]),
    (6, &[FIRST, Other(&PAGE)]),
    (6, &[State, Other(&COMMIT)]),
    // 7: the length of another kind, one byte more or less, and right in one byte only
    (7, &[Length(69, &FIRST)]),
    (7, &[Length(71, &FIRST)]),
    (7, &[Length(68, &FIRST)]),
    (7, &[Length(326, &FIRST)]),
    (7, &[Length(0, &State)]),
    (7, &[Length(70, &State)]),
    (7, &[Length(67, &State)]),
    (7, &[Length(324, &State)]),
    (7, &[Length(71, &PAGE)]),
    (7, &[Length(69, &PAGE)]),
    (7, &[State, Length(4, &COMMIT)]),
    (7, &[State, Length(11, &COMMIT)]),
    (7, &[State, Length(264, &COMMIT)]),
    // 2
    (2, &[PastM(0)]),
    (2, &[PastM(1)]),
    (2, &[PAGE, PastM(0)]),
    (2, &[Block(4)]),
    (2, &[Block(5)]),
    (2, &[FIRST, Block(256)]),
    (2, &[FIRST, Block(65_535)]),
    // 8: unlike the first record's, whatever that is; also in one byte only
    (8, &[FIRST, Of(8, &Block(1))]),
    (8, &[FIRST, Of(6, &PAGE)]),
    (8, &[FIRST, Of(8, &State)]),
    (8, &[Of(8, &FIRST), State]),
    (8, &[State, Of(8, &COMMIT)]),
    (8, &[State, Of(7 + (1 << 8), &COMMIT)]),
    (8, &[State, Of(7 + (1 << 16), &COMMIT)]),
    (8, &[State, Of(7 + (1 << 24), &COMMIT)]),
    (8, &[Of(0, &State), Of(1, &COMMIT)]),
    (8, &[Of(LAST, &State), Of(0, &COMMIT)]),
    (8, &[Of(LAST, &State), Of(LAST - 1, &COMMIT)]),
    // 9
    (9, &[PAGE, FIRST]),
    (9, &[FIRST, PAGE, FIRST]),
    (9, &[State, FIRST]),
    (9, &[Page(1), Page(1)]),
    (9, &[PAGE, PAGE]),
    (9, &[PAGE, Page(2), Page(1)]),
    (9, &[State, PAGE]),
    (9, &[PAGE, State, Page(1)]),
    (9, &[State, State]),
    (9, &[COMMIT]),
    (9, &[FIRST, Commit(0, 1)]),
    (9, &[PAGE, Commit(1, 0)]),
    // 10: the count of BLOCK records, not of different blocks
    (10, &[State, Commit(1, 0)]),
    (10, &[State, Commit(0, 1)]),
    (10, &[FIRST, State, Commit(1, 0)]),
    (10, &[FIRST, FIRST, State, Commit(0, 1)]),
    (10, &[FIRST, FIRST, State, Commit(0, 3)]),
    (10, &[PAGE, State, Commit(0, 0)]),
    (10, &[PAGE, State, Commit(257, 0)]),
    (10, &[PAGE, State, Commit(1, 256)]),
    // 14 at its BLOCK
    (14, &[FIRST, Block(1), Block(2)]),
    (14, &[FIRST, Block(1), FIRST, Block(2)]),
    (14, &[Block(3), Block(2), Block(3), Block(1), State, Commit(0, 4)]),
    // 29
    (29, &[State, COMMIT, Bytes(&[0])]),
    (29, &[State, COMMIT, Bytes(&[0, 0, 0, 0, 0])]),
    (29, &[State, COMMIT, Ack]),
    (29, &[State, COMMIT, COMMIT]),
    (29, &[State, COMMIT, Of(8, &State), Of(8, &COMMIT)]),
    // two faults in one record: header, 6, 7, body, 2, 8, 9, 10, 14
    (256, &[Cut(3, &Ack)]),
    (6, &[Cut(4, &Ack)]),
    (6, &[Length(9, &Kind(7, &FIRST))]),
    (6, &[State, Kind(7, &Block(4))]),
    (7, &[Cut(4, &Length(7, &State))]),
    (7, &[Length(71, &Block(4))]),
    (256, &[Cut(40, &Block(4))]),
    (256, &[State, Cut(71, &Of(8, &State))]),
    (2, &[FIRST, Of(8, &Block(4))]),
    (2, &[PAGE, Of(8, &PastM(0))]),
    (2, &[State, Block(4)]),
    (2, &[State, PastM(0)]),
    (2, &[FIRST, Block(1), Block(4)]),
    (8, &[PAGE, Of(8, &FIRST)]),
    (8, &[State, Of(8, &State)]),
    (8, &[PAGE, Of(8, &Commit(9, 9))]),
    (8, &[FIRST, Block(1), Of(8, &Block(2))]),
    (8, &[State, Of(8, &Commit(1, 1))]),
    (9, &[PAGE, COMMIT]),
    (9, &[FIRST, Block(1), PAGE, Block(2)]),
    (10, &[State, Commit(1, 0), Bytes(&[1])]),
    // a record's fault before that of a later one, whatever their numbers
    (14, &[FIRST, Block(1), Block(2), Ack]),
    (10, &[State, Commit(1, 0), Ack]),
    (9, &[State, State, Block(4)]),
    (8, &[FIRST, Of(8, &State), Ack]),
    (2, &[Block(4), Cut(3, &State)]),
];

/// Cases of the wide records alone: numbers and counts are of 4 bytes, and are compared whole.
const WIDE: [(u64, &[Part]); 6] = [
    (2, &[Page(65_536)]),
    (2, &[PAGE, Page(65_537)]),
    (2, &[PAGE, Page(1 << 24)]),
    (10, &[PAGE, State, Commit(65_537, 0)]),
    (10, &[FIRST, State, Commit(0, 65_537)]),
    (10, &[FIRST, State, Commit(1 << 24, 1)]),
];

pub fn run(writer: &mut Writer) -> Check {
    let widths = WIDTHS.into_iter().flat_map(|m| CASES.map(|case| (m, case)));
    for (m, (number, parts)) in widths.chain(WIDE.map(|case| (WIDTHS[1], case))) {
        case(writer, m, number, parts).map_err(|what| format!("M {m}, {parts:?}: {what}"))?;
    }
    Ok(())
}

/// With room, and with none: 30 comes last.
fn case(writer: &mut Writer, m: u64, number: u64, parts: &[Part]) -> Check {
    let (s, file) = (sizes(64, m, D, B), parts.iter().flat_map(|part| bytes_of(m, part)).collect::<Vec<u8>>());
    let given = writer.number(&s, &file);
    demand(given == number, &format!("{given} and not {number}"))?;
    let given = writer.call(&s, &file, vec![]).0.number;
    let number = if number == 0 { 30 } else { number };
    demand(given == number, &format!("{given} and not {number}, with an empty destination"))
}

fn bytes_of(m: u64, part: &Part) -> Vec<u8> {
    let put = |at: usize, bytes: &[u8], part: &Part| {
        let mut record = bytes_of(m, part);
        record[at..at + bytes.len()].copy_from_slice(bytes);
        record
    };
    match *part {
        Block(number) => block(EPOCH, number, &[number as u8; 64]),
        Page(number) => page(m, EPOCH, number, &[number as u8; 64]),
        State => state(EPOCH, &[5; 64]),
        Commit(pages, blocks) => commit(m, EPOCH, pages, blocks),
        PastM(more) => page(m, EPOCH, m + more, &[1; 64]),
        Of(epoch, part) => put(4, &epoch.to_le_bytes(), part),
        Kind(kind, part) => put(2, &kind.to_le_bytes(), part),
        Length(length, part) => put(0, &length.to_le_bytes(), part),
        Other(part) => bytes_of(WIDTHS[(m == WIDTHS[0]) as usize], part),
        Cut(count, part) => bytes_of(m, part)[..count].to_vec(),
        Ack => record(4, 5, EPOCH, &[]),
        Bytes(bytes) => bytes.to_vec(),
    }
}
