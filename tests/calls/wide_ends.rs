//! Both ends of M's and of L's range at both widths (document 02, Job 7), with every lent length exact. The least L are
//! worked out here, beside the model.
//!
//! A stream of the largest L has 512 MiB. It is zeros at first, for which the system takes memory only where a call
//! works; so it is lent whole, compared about its ends and about the place where the call works, and whole at the end.
use crate::arguments::{arguments, fresh_world, start_args};
use crate::call::call;
use crate::checker::{compare_answer, compare_item, demand, same_bytes, Check};
use crate::items::{calls_of, code, given, Item};
use crate::lent::Lent;
use crate::model::*;
use crate::random::Random;
use crate::sink::Sink;
use crate::view::View;
use crate::world::{run as run_model, Args, World};

const LARGEST: u64 = 536_870_912;
/// M, L and what a start gives, at U 64, B 2.
const STARTS: [(u64, u64, u64); 11] = [
    (0, 232, 1),
    (4_096, 303_335, 1),
    (4_096, 303_336, 0),
    // the kinds 1 and 4 would need no more
    (4_097, 303_410, 1),
    (4_097, 311_607, 1),
    (4_097, 311_608, 0),
    (65_535, 4_980_895, 1),
    (65_535, 4_980_896, 0),
    (65_536, 4_980_971, 1),
    (65_536, 4_980_972, 0),
    (65_537, 4_981_048, 1),
];
/// So many bytes are compared about each place of the longest stream.
const ABOUT: usize = 65_536;

pub fn run(r: &Random, sink: &mut Sink) -> Check {
    let began = sink.calls;
    for (m, l, number) in STARTS {
        start(r, sink, settings(m, l), number).map_err(|what| format!("M {m}, L {l}: {what}"))?;
    }
    primaries(sink)?;
    standbys(sink)?;
    for m in [1, 4_096, 4_097, 65_536] {
        longest(r, sink, m).map_err(|what| format!("M {m}, L {LARGEST}: {what}"))?;
        too_long(r, sink, m).map_err(|what| format!("M {m}, L {}: {what}", LARGEST + 1))?;
    }
    println!("  {} calls at the ends of M and L", sink.calls - began);
    Ok(())
}

fn settings(m: u64, l: u64) -> Settings {
    Settings { u: 64, m, d: 2, b: 2, s: 2, q: 64, l, t: 3 }
}

fn start(r: &Random, sink: &mut Sink, settings: Settings, number: u64) -> Check {
    let mut w = fresh_world(r, &settings);
    let reply = sink.call(code::START, &mut w, &mut start_args(r, settings));
    demand(reply.number == number, "the start gives another number")
}

/// Document 01's least L up to M 4,096, document 02's above it.
fn least(u: u64, m: u64, b: u64) -> u64 {
    if m <= 4_096 { m * (u + 10) + b * (u + 10) + 84 } else { m * (u + 12) + b * (u + 10) + 88 }
}

/// A tick at primaries of which M or L is at an end of its range or just beyond: it is lent no buffer.
fn primaries(sink: &mut Sink) -> Check {
    demand(least(4_096, 65_536, 64) == 269_484_760, "the largest least L")?;
    for m in [0, 1, 4_095, 4_096, 4_097, 65_535, 65_536, 65_537, 69_632] {
        for (u, b) in [(64, 0), (64, 64), (128, 1), (4_096, 0), (4_096, 64)] {
            let least = least(u, m, b);
            for (l, inside) in [(least - 1, false), (least, true), (LARGEST, true), (LARGEST + 1, false)] {
                let wanted = !(inside && (1..=65_536).contains(&m)) as u64;
                let p = Primary { u, m, b, l, t: 2, open: 2, ..Primary::zero() };
                let reply = sink.call(code::PRIMARY_TICK, &mut without_buffers(p, Standby::zero()), &mut Args::none());
                if reply.number != wanted {
                    return Err(format!("a tick at U {u}, M {m}, B {b}, L {l}: {} and not {wanted}", reply.number));
                }
            }
        }
    }
    Ok(())
}

/// A tick at standbys, which have no L; it is lent the marks.
fn standbys(sink: &mut Sink) -> Check {
    for m in [0, 1, 4_096, 4_097, 65_535, 65_536, 65_537, 69_632] {
        let s = Standby { u: 4_096, m, t: 2, ..Standby::zero() };
        let mut w = without_buffers(Primary::zero(), s);
        w.standby_marks = vec![u64::MAX; mark_words(m) as usize];
        let reply = sink.call(code::STANDBY_TICK, &mut w, &mut Args::none());
        demand((reply.number == 0) == (1..=65_536).contains(&m), "a tick of a standby gives another number")?;
    }
    Ok(())
}

fn without_buffers(primary: Primary, standby: Standby) -> World {
    World { primary, standby, ..fresh_world(&Random::new(0), &Settings::default()) }
}

/// Both sides with a stream of this length, which they keep.
struct Far<'a> {
    sink: &'a mut Sink,
    w: World,
    lent: Lent,
}

impl<'a> Far<'a> {
    fn new(r: &Random, sink: &'a mut Sink, m: u64, l: u64) -> Far<'a> {
        let w = World { stream: vec![0; l as usize], ..fresh_world(r, &settings(m, 0)) };
        let mut lent = Lent::new();
        lent.bytes_mut(Item::Stream).zeros(l as usize);
        Far { sink, w, lent }
    }

    /// Makes one call on both sides; everything but the stream is lent anew.
    fn make(&mut self, which: usize, a: &mut Args) -> Result<Reply, String> {
        self.sink.calls += 1;
        let view = View::new(&self.w, a);
        let places = [0, self.w.primary.waiting as usize, self.w.stream.len()];
        given(which).filter(|&item| item != Item::Stream).for_each(|item| view.lend(&mut self.lent, item));
        self.lent.lend_states(which, 0x0123_4567_89ab_cdef, 0x5c);
        let answer = call(which, &mut self.lent);
        let reply = run_model(which, &mut self.w, a);
        let check = compare_answer(answer, &reply).and_then(|()| self.compare(which, a, &places));
        check.map_err(|what| self.sink.told(which, &what))?;
        self.sink.note(which, &reply, &self.w, a);
        Ok(reply)
    }

    fn compare(&self, which: usize, a: &Args, places: &[usize]) -> Check {
        let view = View::new(&self.w, a);
        given(which).filter(|&item| item != Item::Stream).try_for_each(|item| compare_item(&self.lent, item, &view))?;
        places.iter().try_for_each(|&place| {
            same_bytes(&self.lent, Item::Stream, &self.w.stream, place.saturating_sub(ABOUT)..place + ABOUT)
        })
    }

    fn numbered(&mut self, which: usize, a: &mut Args, number: u64) -> Result<Reply, String> {
        let reply = self.make(which, a)?;
        if reply.number == number { Ok(reply) } else { Err(format!("code {which} gives {}", reply.number)) }
    }
}

/// The largest L: start, writes, a checkpoint at the stream's head, drained, and one that ends at its last byte; then a
/// block that does.
fn longest(r: &Random, sink: &mut Sink, m: u64) -> Check {
    let mut far = Far::new(r, sink, m, LARGEST);
    far.numbered(code::START, &mut start_args(r, settings(m, LARGEST)), 0)?;
    let mut page = Args { place: m - 1, data: vec![7; 64], ..Args::none() };
    let mut block = Args { place: 1, data: vec![8; 64], ..Args::none() };
    far.numbered(code::MEMORY_WRITE, &mut page, 0)?;
    far.numbered(code::DISK_WRITE, &mut block, 0)?;
    far.numbered(code::CHECKPOINT, &mut Args::none(), 0)?;
    let (of_page, of_end) = if m > 4_096 { (76, 88) } else { (74, 84) };
    demand(far.w.primary.waiting == 74 + of_page + of_end, "another count of bytes waits")?;
    far.numbered(code::DRAIN, &mut Args { n: u64::MAX, out: vec![0; 300], ..Args::none() }, 0)?;
    // a page is dirty, and one byte too many waits; then as many as may
    far.numbered(code::MEMORY_WRITE, &mut page, 0)?;
    far.w.primary.waiting = LARGEST - of_page - of_end + 1;
    far.numbered(code::CHECKPOINT, &mut Args::none(), 15)?;
    far.w.primary.waiting -= 1;
    far.numbered(code::CHECKPOINT, &mut Args::none(), 0)?;
    demand(far.w.primary.waiting == LARGEST, "the checkpoint does not end at the stream's end")?;
    // a BLOCK has a 2-byte number at every M
    far.w.primary.waiting = LARGEST - 74 + 1;
    far.numbered(code::DISK_WRITE, &mut block, 15)?;
    far.w.primary.waiting -= 1;
    far.numbered(code::DISK_WRITE, &mut block, 0)?;
    demand(far.w.primary.waiting == LARGEST, "the block does not end at the stream's end")?;
    same_bytes(&far.lent, Item::Stream, &far.w.stream, 0..usize::MAX)
}

/// One byte more: a start is refused, and so is every call at a primary.
fn too_long(r: &Random, sink: &mut Sink, m: u64) -> Check {
    let mut far = Far::new(r, sink, m, LARGEST + 1);
    far.numbered(code::START, &mut start_args(r, settings(m, LARGEST + 1)), 1)?;
    let Settings { u, d, b, q, t, .. } = settings(m, 0);
    for which in calls_of(Item::Primary) {
        far.w.primary = Primary { u, m, d, b, q, l: LARGEST + 1, t, open: 3, acknowledged: 1, ..Primary::zero() };
        let mut a = arguments(r, which, &far.w, 0);
        far.numbered(which, &mut a, 1)?;
    }
    Ok(())
}
