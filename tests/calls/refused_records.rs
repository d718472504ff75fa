//! Records that are not accepted: every refusal that a read gives to a receiving standby, records cut short, and
//! records given to a standby that is not receiving. None of them changes its count of ticks.
use crate::both::Both;
use crate::checker::{demand, Check};
use crate::items::code;
use crate::made_up::record;
use crate::model::*;
use crate::sink::Sink;
use crate::world::{Args, World};
use std::collections::BTreeMap;

const PAGE: u64 = 1;
const BLOCK: u64 = 2;
const STATE: u64 = 3;
const COMMIT: u64 = 4;
const WIDE_PAGE: u64 = 8;
const WIDE_COMMIT: u64 = 9;

/// How often each number came; cut short is told apart by whether its header is incomplete.
#[derive(Default)]
pub struct Refusals(BTreeMap<(u64, bool), u64>);

impl Refusals {
    fn note(&mut self, number: u64, data: &[u8]) {
        *self.0.entry((number, number == CUT_SHORT && data.len() < 4)).or_default() += 1;
    }

    pub fn count(&self) -> u64 {
        self.0.values().sum()
    }

    /// The numbers of document 01's "Reading a record"; 11 is of an ACK, which a standby refuses with 6.
    pub fn every_one_came(&self) -> Check {
        let numbers = [1, 13, 6, 7, CUT_SHORT, 2, 5, 8, 9, 10, 14, 17].map(|number| (number, false));
        let mut wanted = numbers.into_iter().chain([(CUT_SHORT, true)]);
        match wanted.find(|one| !self.0.contains_key(one)) {
            None => Ok(()),
            Some((number, by_header)) => Err(format!("no read gave {number} (header incomplete: {by_header})")),
        }
    }
}

/// A read that is not accepted: its number, the bytes missing, the bytes given and the reply buffer's length.
pub struct Bad {
    pub number: u64,
    missing: u64,
    pub data: Vec<u8>,
    pub reply: usize,
}

fn bad(number: u64, data: Vec<u8>) -> Bad {
    Bad { number, missing: 0, data, reply: 8 }
}

/// The first bytes of a record, and how many it then lacks of its header or of its body.
fn cut(record: &[u8], length: usize, missing: usize) -> Bad {
    Bad { missing: missing as u64, ..bad(CUT_SHORT, record[..length].to_vec()) }
}

/// Every refusal at this place, each in a copy: the count stays, so that the next tick, the T-th, takes over.
pub fn try_all(sink: &mut Sink, both: &Both, refusals: &mut Refusals) -> Check {
    let s = &both.world.standby;
    for bad in by_header(s).into_iter().chain(cut_short(s)).chain(whole(s)) {
        let mut both = both.clone();
        refused(sink, &mut both, bad, refusals)?;
        last_tick(sink, both)?;
    }
    for lengthen in LENGTHEN {
        let mut both = both.clone();
        let right = both.world.clone();
        lengthen(&mut both.world);
        refused(sink, &mut both, bad(1, next(s, STATE)), refusals)?;
        both.world = World { standby: both.world.standby, ..right };
        last_tick(sink, both)?;
    }
    Ok(())
}

/// One thing too many in a buffer that a read is lent.
const LENGTHEN: [fn(&mut World); 4] =
    [|w| w.standby_memory.push(0), |w| w.pages.push(0), |w| w.standby_marks.push(0), |w| w.blocks.push(0)];

/// Whatever is given to a standby that is not receiving: 13.
pub fn not_receiving(sink: &mut Sink, both: &mut Both, refusals: &mut Refusals) -> Check {
    let kinds = [PAGE, BLOCK, STATE, COMMIT, WIDE_PAGE, WIDE_COMMIT];
    let records = kinds.map(|kind| next(&both.world.standby, kind));
    for data in records.into_iter().chain([Vec::new()]) {
        refused(sink, both, bad(13, data), refusals)?;
    }
    Ok(())
}

/// A read that is not accepted changes nothing of the standby, and so not its count.
fn refused(sink: &mut Sink, both: &mut Both, bad: Bad, refusals: &mut Refusals) -> Check {
    let Bad { number, missing, data, reply } = bad;
    refusals.note(number, &data);
    let before = both.world.standby.clone();
    let reply = both.call(sink, code::READ, Args { data, out: vec![0; reply], ..Args::none() })?;
    if reply.number != number {
        return Err(format!("a read gave {}, not {number}", reply.number));
    }
    if reply.missing != missing {
        return Err(format!("a read that gave {number} is missing {}, not {missing}", reply.missing));
    }
    demand(both.world.standby.count == before.count, "a record that is not accepted changes the count")?;
    demand(both.world.standby == before && reply.used == 0, "a record that is not accepted changes the standby")
}

fn last_tick(sink: &mut Sink, mut both: Both) -> Check {
    both.call(sink, code::STANDBY_TICK, Args::none())?;
    demand(both.world.standby.mode == Mode::TakingOver, "the T-th tick does not take over after a refusal")
}

/// A record of this kind, of either width, and of the next epoch. Its page or block is 0, its counts are those of the
/// pages and of the BLOCK records received.
pub fn next(s: &Standby, kind: u64) -> Vec<u8> {
    let (epoch, bytes) = (s.received + 1, vec![7; s.u as usize]);
    match kind {
        PAGE | BLOCK => record(s.u + 6, kind, epoch, &[vec![0; 2], bytes].concat()),
        WIDE_PAGE => record(s.u + 8, kind, epoch, &[vec![0; 4], bytes].concat()),
        STATE => record(68, kind, epoch, &[7; 64]),
        WIDE_COMMIT => {
            record(12, kind, epoch, &[(s.pages as u32).to_le_bytes(), (s.records as u32).to_le_bytes()].concat())
        }
        _ => record(8, kind, epoch, &[(s.pages as u16).to_le_bytes(), (s.records as u16).to_le_bytes()].concat()),
    }
}

/// The record with another number in these two bytes.
pub fn with(mut data: Vec<u8>, at: usize, number: u64) -> Vec<u8> {
    data[at..at + 2].copy_from_slice(&(number as u16).to_le_bytes());
    data
}

/// The same in four bytes.
pub fn with_wide(mut data: Vec<u8>, at: usize, number: u64) -> Vec<u8> {
    data[at..at + 4].copy_from_slice(&(number as u32).to_le_bytes());
    data
}

/// PAGE and COMMIT of the width that this M does not call for.
pub fn other_width(m: u64) -> [u64; 2] {
    if is_wide(m) { [PAGE, COMMIT] } else { [WIDE_PAGE, WIDE_COMMIT] }
}

/// 6 and 7, of every kind. A kind of the other width gives 6 with its own length, and with that of this width.
pub fn by_header(s: &Standby) -> Vec<Bad> {
    let [other_page, other_commit] = other_width(s.m);
    let mut all = vec![bad(6, next(s, other_page)), bad(6, next(s, other_commit))];
    for kind in kinds_of(s.m) {
        let good = next(s, kind);
        let body = good.len() as u64 - 4;
        let kinds = [0, 5, 6, 7, 10, kind + 256, other_page, other_commit];
        all.extend(kinds.map(|other| bad(6, with(good.clone(), 2, other))));
        all.extend([body - 1, body + 1].map(|other| bad(7, with(good.clone(), 0, other))));
    }
    // a length of the other width's
    all.push(bad(7, with(next(s, page_kind(s.m)), 0, next(s, other_page).len() as u64 - 4)));
    all.push(bad(7, with(next(s, commit_kind(s.m)), 0, next(s, other_commit).len() as u64 - 4)));
    all
}

/// Cut short in the header and in the body, of every kind.
fn cut_short(s: &Standby) -> Vec<Bad> {
    let cuts = |record: Vec<u8>| {
        let length = record.len();
        [cut(&record, 0, 4), cut(&record, 3, 1), cut(&record, 4, length - 4), cut(&record, length - 1, 1)]
    };
    kinds_of(s.m).into_iter().flat_map(|kind| cuts(next(s, kind))).collect()
}

/// Whole records with a right header.
pub fn whole(s: &Standby) -> impl Iterator<Item = Bad> {
    by_field(s).into_iter().chain(by_order(s))
}

/// 2 of a PAGE and a BLOCK, 5 of a COMMIT, 8 of every kind.
fn by_field(s: &Standby) -> Vec<Bad> {
    let mut all = vec![bad(2, with(next(s, BLOCK), 8, s.d))];
    all.extend(bad_pages(s.m).into_iter().map(|page| bad(2, page_of(s, page))));
    all.extend([0, 7].map(|reply| Bad { reply, ..bad(5, next(s, commit_kind(s.m))) }));
    // at D 0 every BLOCK gives 2, which comes before 8
    for kind in kinds_of(s.m).into_iter().filter(|&kind| kind != BLOCK || s.d > 0) {
        let received = s.received as u64;
        all.extend([received, received + 2].map(|epoch| bad(8, with(next(s, kind), 4, epoch))));
    }
    all
}

/// Page numbers not below M, in 2 bytes and in 4: wide ones also whose low bytes are a page.
pub fn bad_pages(m: u64) -> Vec<u64> {
    if is_wide(m) {
        vec![m, 65_536, 65_537, 65_536 + m / 2, 1 << 24, 1 << 31, u32::MAX as u64]
    } else {
        vec![m, m + 256, 65_535]
    }
}

/// A PAGE with this number.
pub fn page_of(s: &Standby, page: u64) -> Vec<u8> {
    let record = next(s, page_kind(s.m));
    if is_wide(s.m) { with_wide(record, 8, page) } else { with(record, 8, page) }
}

/// COMMITs with one count wrong: by 1, wide ones by more than 2 bytes hold, and the count of different blocks in place
/// of the records where these are more.
fn bad_counts(s: &Standby) -> Vec<Vec<u8>> {
    let good = next(s, commit_kind(s.m));
    let different = Some(s.blocks).filter(|&blocks| blocks != s.records);
    if !is_wide(s.m) {
        let records = [s.records + 1].into_iter().chain(different).map(|records| with(good.clone(), 10, records));
        return [with(good.clone(), 8, s.pages + 1)].into_iter().chain(records).collect();
    }
    let pages = [s.pages + 1, s.pages + 65_536].map(|pages| with_wide(good.clone(), 8, pages));
    let records = [s.records + 1, s.records + 65_536].into_iter().chain(different);
    pages.into_iter().chain(records.map(|records| with_wide(good.clone(), 12, records))).collect()
}

/// A block that no slot staged in this epoch has, where there is one: no slot is reused for it.
fn other_block(s: &Standby) -> Option<u64> {
    (0..s.d).find(|block| !s.slots[s.due as usize..s.staged as usize].contains(block))
}

/// 9, 10, 14 and 17, where the records read before ask for them.
fn by_order(s: &Standby) -> Vec<Bad> {
    let mut all = Vec::new();
    let after_page_or_state = s.pages > 0 || s.state_seen;
    if after_page_or_state {
        // page 0 is not above the last
        all.push(bad(9, next(s, page_kind(s.m))));
    }
    let of_block = if after_page_or_state { 9 } else if s.blocks == s.b { 14 } else { 17 };
    if let Some(block) = other_block(s).filter(|_| of_block != 17 || s.staged == s.s) {
        all.push(bad(of_block, with(next(s, BLOCK), 8, block)));
    }
    if s.state_seen {
        all.push(bad(9, next(s, STATE)));
        all.extend(bad_counts(s).into_iter().map(|record| bad(10, record)));
    } else {
        all.push(bad(9, next(s, commit_kind(s.m))));
    }
    all
}
