//! Marks about the ends of 64-bit words: a checkpoint, a COMMIT and a takeover with every mark by itself, with all but
//! one, with two and with bits set past M, where M fills its words, passes them by one page or falls short by one; at
//! large M of both widths with some of these. What they make of the marks is worked out here page by page, beside the
//! model.
use crate::arguments::fresh_world;
use crate::checker::{demand, Check};
use crate::items::code;
use crate::made_up::record;
use crate::model::*;
use crate::random::Random;
use crate::sink::Sink;
use crate::world::{Args, World};

const PAGES: [u64; 7] = [1, 63, 64, 65, 127, 128, 129];
const MANY_PAGES: [u64; 3] = [4_096, 4_097, 65_535];
const U: usize = 64;

/// The bytes of the records at an M: a PAGE, STATE and COMMIT together, a page number or a count.
struct Lengths {
    page: usize,
    end: usize,
    number: usize,
}

fn lengths(m: u64) -> Lengths {
    if m <= 4_096 {
        Lengths { page: U + 10, end: 84, number: 2 }
    } else {
        Lengths { page: U + 12, end: 88, number: 4 }
    }
}

pub fn run(r: &Random, sink: &mut Sink) -> Check {
    PAGES.into_iter().try_for_each(|m| at(r, sink, m, patterns(mark_words(m) as usize)))?;
    MANY_PAGES.into_iter().try_for_each(|m| at(r, sink, m, some_patterns(m)))
}

fn at(r: &Random, sink: &mut Sink, m: u64, patterns: Vec<Vec<u64>>) -> Check {
    let settings = Settings { u: U as u64, m, d: 0, b: 0, s: 0, q: 0, l: least_stream(U as u64, m, 0), t: 1 };
    let w = fresh_world(r, &settings);
    for marks in patterns {
        checkpoints(sink, &settings, &w, &marks).map_err(|what| told(m, &marks, &what))?;
        commit(sink, &settings, &w, &marks).map_err(|what| told(m, &marks, &what))?;
        takeover(sink, &settings, &w, &marks).map_err(|what| told(m, &marks, &what))?;
    }
    Ok(())
}

fn told(m: u64, marks: &[u64], what: &str) -> String {
    format!("M {m}, {} words of marks, first {:x?}: {what}", marks.len(), &marks[..marks.len().min(3)])
}

/// The marks of these bits alone.
fn only(words: usize, bits: &[usize]) -> Vec<u64> {
    let mut marks = vec![0; words];
    bits.iter().for_each(|bit| marks[bit / 64] |= 1 << (bit % 64));
    marks
}

/// None, all, every second one, each by itself, all but each, and two that are close, far apart or have a clear word
/// between them: of the pages and of the bits past M alike.
fn patterns(words: usize) -> Vec<Vec<u64>> {
    let every_second = 0x5555_5555_5555_5555;
    let mut patterns: Vec<Vec<u64>> = [0, u64::MAX, every_second, !every_second].map(|word| vec![word; words]).into();
    for bit in 0..64 * words {
        let one = only(words, &[bit]);
        patterns.push(one.iter().map(|word| !word).collect());
        patterns.push(one);
    }
    let some = [0, 1, 31, 62, 63, 64, 65, 126, 127, 128, 191];
    for second in some.into_iter().filter(|&bit| bit < 64 * words) {
        let firsts = some.into_iter().filter(|&bit| bit < second);
        patterns.extend(firsts.map(|first| only(words, &[first, second])));
    }
    patterns
}

/// None, all, all but the last page, and some about the first word, page 4,095 and the last page, with the bits past M
/// set.
fn some_patterns(m: u64) -> Vec<Vec<u64>> {
    let (words, last) = (mark_words(m) as usize, m as usize - 1);
    let all: Vec<usize> = (0..=last).collect();
    let sets = [
        vec![], all.clone(), all[..last].to_vec(), vec![0], vec![last], vec![0, last], vec![63, 64, last - 1],
        vec![4_094, 4_095, last],
    ];
    let past: Vec<usize> = (m as usize..64 * words).collect();
    sets.map(|set| only(words, &[set, past.clone()].concat())).into()
}

fn is_marked(marks: &[u64], page: u64) -> bool {
    marks[(page / 64) as usize] >> (page % 64) & 1 == 1
}

/// The pages below M are clear, and the bits past M as they were.
fn cleared(now: &[u64], before: &[u64], m: u64) -> Check {
    let kept = (0..64 * before.len() as u64).all(|bit| is_marked(now, bit) == (bit >= m && is_marked(before, bit)));
    demand(kept, "the marks left are not the bits past M")
}

/// A checkpoint where the stream has exactly the room, and one where a byte is missing.
fn checkpoints(sink: &mut Sink, s: &Settings, w: &World, marks: &[u64]) -> Check {
    let pages: Vec<u64> = (0..s.m).filter(|&page| is_marked(marks, page)).collect();
    let lengths = lengths(s.m);
    let from = s.l as usize - pages.len() * lengths.page - lengths.end;
    let mut w = World { marks: marks.to_vec(), ..w.clone() };
    w.primary = Primary { u: s.u, m: s.m, l: s.l, t: s.t, open: 1, waiting: from as u64 + 1, ..Primary::zero() };
    let reply = sink.call(code::CHECKPOINT, &mut w, &mut Args::none());
    demand(reply.number == 15, "the checkpoint is not refused with 15")?;
    w.primary.waiting -= 1;
    let reply = sink.call(code::CHECKPOINT, &mut w, &mut Args::none());
    demand(reply.number == 0 && w.primary.waiting == s.l, "the checkpoint does not fill the stream")?;
    let number_at = |at: usize| {
        let bytes = &w.stream[at..at + lengths.number];
        bytes.iter().rev().fold(0, |number, &byte| number << 8 | byte as u64)
    };
    let written = (0..pages.len()).map(|i| number_at(from + i * lengths.page + 8));
    demand(written.eq(pages.iter().copied()), "the pages written are not those marked")?;
    let count = number_at(w.stream.len() - 2 * lengths.number);
    demand(count == pages.len() as u64, "the COMMIT's count is not theirs")?;
    cleared(&w.marks, marks, s.m)
}

/// A COMMIT installs the marked pages and no other.
fn commit(sink: &mut Sink, s: &Settings, w: &World, marks: &[u64]) -> Check {
    let mut w = World { standby_marks: marks.to_vec(), ..w.clone() };
    w.standby = Standby { u: s.u, m: s.m, t: s.t, mode: Mode::Receiving, state_seen: true, ..Standby::zero() };
    let before = w.standby_memory.clone();
    let data = if s.m <= 4_096 { record(8, 4, 1, &[0; 4]) } else { record(12, 9, 1, &[0; 8]) };
    let mut a = Args { data, out: vec![0; 8], ..Args::none() };
    let reply = sink.call(code::READ, &mut w, &mut a);
    demand(reply.number == 0, "the COMMIT is refused")?;
    let installed = (0..s.m).all(|page| {
        let range = page as usize * U..(page as usize + 1) * U;
        let from = if is_marked(marks, page) { &w.pages } else { &before };
        w.standby_memory[range.clone()] == from[range]
    });
    demand(installed, "the memory is not that before with the marked pages")?;
    cleared(&w.standby_marks, marks, s.m)
}

/// A takeover clears the marks.
fn takeover(sink: &mut Sink, s: &Settings, w: &World, marks: &[u64]) -> Check {
    let mut w = World { standby_marks: marks.to_vec(), ..w.clone() };
    w.standby = Standby { u: s.u, m: s.m, t: s.t, mode: Mode::Receiving, ..Standby::zero() };
    sink.call(code::STANDBY_TICK, &mut w, &mut Args::none());
    demand(w.standby.mode == Mode::TakingOver, "the tick is not the last")?;
    cleared(&w.standby_marks, marks, s.m)
}
