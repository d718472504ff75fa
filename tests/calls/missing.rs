//! Records that come in parts (document 02, Job 2). The numbers of missing bytes wanted here are worked out from the
//! records' lengths and from what the call itself said before, beside the model.
use crate::both::Both;
use crate::checker::{demand, Check};
use crate::generate::Step;
use crate::items::code;
use crate::missing_cases::*;
use crate::model::*;
use crate::random::Random;
use crate::silence::{checkpoint, drain};
use crate::sink::Sink;
use crate::world::Args;
use std::collections::{BTreeMap, BTreeSet};

const HEADER: usize = 4;
const SIZES: [u64; 5] = [64, 128, 192, 1_024, 4_096];
/// An M for the kinds 1 and 4, and the least M for the kinds 8 and 9.
const PAGES: u64 = 3;
const WIDE_PAGES: u64 = 4_097;
/// What stands behind a record: the next one.
const FOLLOWING: [u8; 12] = [8, 0, 4, 0, 8, 0, 0, 0, 0, 0, 0, 0];

#[derive(Default)]
struct Tally {
    /// How often so many bytes were missing, by the call and by the record's kind, which is 0 in the header.
    missing: BTreeMap<(usize, u64, u64), u64>,
    /// How often a call gave a number that is not cut short.
    numbers: BTreeMap<(usize, u64), u64>,
    /// Records of which no byte more than was missing was received.
    received: u64,
}

pub fn run(r: &Random, sink: &mut Sink) -> Check {
    let mut tally = Tally::default();
    for u in SIZES {
        sized(r, sink, u, &mut tally).map_err(|what| format!("U {u}: {what}"))?;
    }
    wide(r, sink, SIZES[0], &mut tally).map_err(|what| format!("M {WIDE_PAGES}: {what}"))?;
    let (parts, numbers) = (tally.missing.values().sum::<u64>(), tally.numbers.values().sum::<u64>());
    println!("  {parts} parts cut short, {} of them different by call, kind or bytes missing", tally.missing.len());
    println!("  {numbers} parts or records judged, {} records received in three parts", tally.received);
    tally.everything_came()
}

/// Everything at one U: every part of the records that are accepted, and of those that are not the parts in `lengths`.
fn sized(r: &Random, sink: &mut Sink, u: u64, tally: &mut Tally) -> Check {
    for case in accepted(r, u, PAGES) {
        (0..case.record.len()).try_for_each(|length| part(r, sink, &case, length, tally))?;
        any_header(r, sink, &case, tally)?;
    }
    for case in refused_when_whole(r, u, PAGES) {
        lengths(u, &case).into_iter().try_for_each(|length| part(r, sink, &case, length, tally))?;
    }
    for case in refused_by_header(r, u, PAGES) {
        lengths(u, &case).into_iter().try_for_each(|length| refused_header(sink, &case, length, tally))?;
        judged(sink, &case, &[&case.record[..], &FOLLOWING].concat(), tally)?;
    }
    for case in not_looked_at(r, u, PAGES) {
        // that none is missing is said of no byte too
        lengths(u, &case).into_iter().try_for_each(|length| judged(sink, &case, &case.record[..length], tally))?;
    }
    received_by_missing(r, sink, u, PAGES, tally)
}

/// The same where M calls for the kinds 8 and 9, at fewer lengths: such a memory is long to lend.
fn wide(r: &Random, sink: &mut Sink, u: u64, tally: &mut Tally) -> Check {
    for case in accepted(r, u, WIDE_PAGES) {
        (0..case.record.len()).try_for_each(|length| part(r, sink, &case, length, tally))?;
    }
    for case in refused_when_whole(r, u, WIDE_PAGES).into_iter().filter(|case| case.record[2] >= 8) {
        [4, case.record.len() - 1].into_iter().try_for_each(|length| part(r, sink, &case, length, tally))?;
    }
    for case in refused_by_header(r, u, WIDE_PAGES) {
        [3, 4, 7].into_iter().try_for_each(|length| refused_header(sink, &case, length, tally))?;
        judged(sink, &case, &[&case.record[..], &FOLLOWING].concat(), tally)?;
    }
    for case in not_looked_at(r, u, WIDE_PAGES) {
        [0, 4].into_iter().try_for_each(|length| judged(sink, &case, &case.record[..length], tally))?;
    }
    received_by_missing(r, sink, u, WIDE_PAGES, tally)
}

/// What was given, of many bytes their head.
fn told(case: &Case, data: &[u8]) -> String {
    format!("code {}, {} bytes {:02x?}", case.which, data.len(), &data[..data.len().min(12)])
}

/// The lengths of first parts: all of them at U 64, else those about the fields in front and the record's end.
fn lengths(u: u64, case: &Case) -> Vec<usize> {
    let whole = case.record.len();
    let is_tried = |length: &usize| u == 64 || *length <= 12 || *length == whole / 2 || *length + 3 > whole;
    (0..whole).filter(is_tried).collect()
}

/// So many first bytes of a record with a right header are cut short: in the header 4 less these are missing, then the
/// rest of the record.
fn part(r: &Random, sink: &mut Sink, case: &Case, length: usize, tally: &mut Tally) -> Check {
    let present = &case.record[..length];
    let missing = cut_short(sink, case, present, tally)?;
    let wanted = if length < HEADER { HEADER - length } else { case.record.len() - length };
    if missing != wanted {
        return Err(format!("{}: {missing} missing, and not {wanted}", told(case, present)));
    }
    with_fewer(r, sink, case, present, missing, tally)?;
    with_enough(sink, case, length + missing, tally)?;
    with_other_bytes(r, sink, case, present, missing, tally)
}

/// These bytes are cut short, and nothing is changed: how many are missing.
fn cut_short(sink: &mut Sink, case: &Case, data: &[u8], tally: &mut Tally) -> Result<usize, String> {
    let (reply, changed) = case.give(sink, data);
    if reply.number != CUT_SHORT || reply.value != 0 || reply.used != 0 || changed {
        return Err(format!("{}: {reply:?}, changed: {changed}", told(case, data)));
    }
    let kind = if data.len() < HEADER { 0 } else { data[2] as u64 };
    *tally.missing.entry((case.which, kind, reply.missing)).or_default() += 1;
    Ok(reply.missing as usize)
}

/// With fewer bytes more than are missing, whatever they are, the rest of these is missing.
fn with_fewer(
    r: &Random, sink: &mut Sink, case: &Case, present: &[u8], missing: usize, tally: &mut Tally,
) -> Check {
    for more in BTreeSet::from([0, 1, missing / 2, missing - 1]).into_iter().filter(|&more| more < missing) {
        let data = [present, &r.bytes(more as u64)].concat();
        let left = cut_short(sink, case, &data, tally)?;
        if left != missing - more {
            return Err(format!("{}: {left} missing, though {more} of {missing} came", told(case, present)));
        }
    }
    Ok(())
}

/// With what was missing the bytes end at `end`, and with more behind that they are judged no otherwise: cut short only
/// where the header is whole and the body is not.
fn with_enough(sink: &mut Sink, case: &Case, end: usize, tally: &mut Tally) -> Check {
    let (whole, stream) = (case.record.len(), [&case.record[..], &FOLLOWING].concat());
    for end in BTreeSet::from([end, end + 1, end + 1 + end % FOLLOWING.len(), whole + FOLLOWING.len()]) {
        let data = &stream[..end.min(stream.len())];
        if data.len() < whole {
            demand(data.len() >= HEADER, "what was missing does not complete the header")?;
            demand(cut_short(sink, case, data, tally)? == whole - data.len(), "another rest of the body is missing")?;
        } else {
            judged(sink, case, data, tally)?;
        }
    }
    Ok(())
}

/// These bytes are judged, whole or not, and none is missing.
fn judged(sink: &mut Sink, case: &Case, data: &[u8], tally: &mut Tally) -> Check {
    let (reply, changed) = case.give(sink, data);
    let accepted = reply.number == 0;
    let used = if accepted { case.record.len() as u64 } else { 0 };
    if reply.number != case.number || reply.used != used || reply.missing != 0 || changed != accepted {
        return Err(format!("{}: {reply:?}, changed: {changed}, and not {}", told(case, data), case.number));
    }
    *tally.numbers.entry((case.which, reply.number)).or_default() += 1;
    Ok(())
}

/// With other bytes than the record's, as many as are missing, the header may be passed; nothing is cut short twice at
/// the same stage.
fn with_other_bytes(
    r: &Random, sink: &mut Sink, case: &Case, present: &[u8], missing: usize, tally: &mut Tally,
) -> Check {
    let mut data = [present, &r.bytes(missing as u64)].concat();
    if case.give(sink, &data).0.number == CUT_SHORT {
        demand(present.len() < HEADER, "cut short twice in the body")?;
        let rest = cut_short(sink, case, &data, tally)?;
        data.extend(r.bytes(rest as u64));
        demand(case.give(sink, &data).0.number != CUT_SHORT, "cut short three times")?;
    }
    Ok(())
}

/// A record whose header is refused is cut short in the header and never behind it.
fn refused_header(sink: &mut Sink, case: &Case, length: usize, tally: &mut Tally) -> Check {
    let present = &case.record[..length];
    if length >= HEADER {
        return judged(sink, case, present, tally);
    }
    demand(cut_short(sink, case, present, tally)? == HEADER - length, "another part of the header is missing")
}

/// Any three bytes are cut short. The fourth decides between 6, 7 and the body of the length that the header says.
fn any_header(r: &Random, sink: &mut Sink, case: &Case, tally: &mut Tally) -> Check {
    for turn in 0..60 {
        let mut header = if turn % 2 == 0 { r.bytes(4) } else { case.record[..HEADER].to_vec() };
        header[turn % 3] = r.pick(&[header[turn % 3], r.next() as u8]);
        for length in 0..HEADER {
            let missing = cut_short(sink, case, &header[..length], tally)?;
            demand(missing == HEADER - length, "another part of the header is missing")?;
        }
        for last in [0, 1, r.next() as u8] {
            header[3] = last;
            let (reply, _) = case.give(sink, &header);
            let body = u16::from_le_bytes([header[0], header[1]]) as u64;
            if ![(6, 0), (7, 0), (CUT_SHORT, body)].contains(&(reply.number, reply.missing)) {
                return Err(format!("{}: {reply:?}", told(case, &header)));
            }
        }
    }
    Ok(())
}

/// Two checkpoints over a link from which no byte more than is missing is ever received, and their ACKs back.
fn received_by_missing(r: &Random, sink: &mut Sink, u: u64, m: u64, tally: &mut Tally) -> Check {
    let settings = Settings { u, m, d: 2, b: 1, s: 2, q: 0, l: least_stream(u, m, 1), t: 3 };
    let mut both = Both::start(r, sink, settings);
    for epoch in 1..=2 {
        checkpoint(r, sink, &mut both)?;
        drain(sink, &mut both, u64::MAX)?;
        while !both.world.link.is_empty() {
            receive(sink, &mut both, code::READ)?;
            tally.received += 1;
        }
        receive(sink, &mut both, code::ACK)?;
        tally.received += 1;
        demand(both.plain.r == epoch && both.plain.a == epoch, "the checkpoint is not received and acknowledged")?;
    }
    Ok(())
}

/// Three calls for one record: with no byte, with its header, and with the whole of it, which is accepted.
fn receive(sink: &mut Sink, both: &mut Both, which: usize) -> Check {
    let mut part = 0;
    for _ in 0..2 {
        let reply = both.advance(sink, &mut first_part(which, part))?;
        demand(reply.number == CUT_SHORT, "a record is whole after fewer than three calls")?;
        part += reply.missing as usize;
    }
    let reply = both.advance(sink, &mut first_part(which, part))?;
    demand(reply.number == 0 && reply.used == part as u64, "a record is not whole after three calls")
}

fn first_part(which: usize, part: usize) -> Step {
    Step { which, args: Args { out: vec![0; 8], ..Args::none() }, part: Some(part) }
}

impl Tally {
    /// Of every kind the last byte and the whole body must have been missing, of the header every number of bytes; and
    /// every number that a record can get must have come.
    fn everything_came(&self) -> Check {
        let headers = [code::READ, code::ACK].into_iter().flat_map(|which| (1..=4).map(move |n| (which, 0, n)));
        let bodies = [(PAGE, 70), (BLOCK, 70), (STATE, 68), (COMMIT, 8), (ACK, 4), (PAGE, 4_102), (BLOCK, 4_102)];
        let bodies = bodies.into_iter().chain([(WIDE_PAGE, 72), (WIDE_COMMIT, 12)]);
        let bodies = bodies.flat_map(|(kind, body)| [1, body].map(|n| (reader(kind), kind, n)));
        if let Some(one) = headers.chain(bodies).find(|one| !self.missing.contains_key(one)) {
            return Err(format!("never came (code, kind or 0 for the header, missing): {one:?}"));
        }
        let reads = [0, 1, 2, 5, 6, 7, 8, 9, 10, 13, 14, 17].map(|number| (code::READ, number));
        let acks = [0, 1, 6, 7, 11, 13].map(|number| (code::ACK, number));
        match reads.into_iter().chain(acks).find(|one| !self.numbers.contains_key(one)) {
            None => Ok(()),
            Some(one) => Err(format!("never came (code, number): {one:?}")),
        }
    }
}

fn reader(kind: u64) -> usize {
    if kind == ACK { code::ACK } else { code::READ }
}
