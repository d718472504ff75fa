//! Records and ACKs made up for a state, with fields that are wrong in some of them.
use crate::arguments::{number_below, sane};
use crate::block_numbers::block_to_read;
use crate::model::*;
use crate::random::Random;

pub fn record(length: u64, kind: u64, epoch: u32, body: &[u8]) -> Vec<u8> {
    let mut bytes = (length as u16).to_le_bytes().to_vec();
    bytes.extend_from_slice(&(kind as u16).to_le_bytes());
    bytes.extend_from_slice(&epoch.to_le_bytes());
    bytes.extend_from_slice(body);
    bytes
}

/// A page or block number or a count, of 4 bytes in a wide record, else of 2; larger ones are cut.
fn number(wide: bool, number: u64) -> Vec<u8> {
    number.to_le_bytes()[..if wide { 4 } else { 2 }].to_vec()
}

/// Kinds to put in place of the right one: those of both widths, and some that no standby reads.
const SOME_KINDS: [u64; 14] = [0, 1, 2, 3, 4, 5, 5, 6, 7, 8, 9, 10, 11, 65_535];

/// A record for this standby, with field after field made wrong in `odd` of a hundred. In fewer of them PAGE and COMMIT
/// are of the other width than M calls for, and right otherwise.
pub fn made_up_record(r: &Random, s: &Standby, odd: u64) -> Vec<u8> {
    if r.percent(odd / 4) {
        let length = r.pick(&[0, 1, 3, 4, 8, 12, 16, 80]);
        return r.bytes(length);
    }
    let wide = is_wide(s.m) != r.percent(odd / 2);
    let (page, commit) = if wide { (8, 9) } else { (1, 4) };
    let mut kind = r.pick(&likely_kinds(s, page, commit));
    let body = match kind {
        1 | 8 => [number(wide, page_number(r, s, odd)), r.bytes(sane(s.u))].concat(),
        2 => {
            let block = block_to_read(r, s, number_below(r, s.d.min(65_535), odd));
            [number(false, block), r.bytes(sane(s.u))].concat()
        }
        3 => r.bytes(64),
        _ => counts(r, s, wide, odd),
    };
    let mut epoch = s.received.wrapping_add(1);
    if r.percent(odd) {
        epoch = r.pick(&[s.received, s.received.wrapping_add(2), 0, 1, u32::MAX, epoch ^ (1 << 16), epoch ^ (1 << 24)]);
    }
    let mut length = body.len() as u64 + 4;
    if r.percent(odd) {
        let u = sane(s.u);
        length = r.pick(&[0, 4, length - 1, length + 1, length ^ 256, 68, 8, 12, u + 6, u + 8, 65_535]);
    }
    if r.percent(odd) {
        kind = if r.percent(10) { kind + 256 } else { r.pick(&SOME_KINDS) };
    }
    cut_or_extended(r, record(length, kind, epoch, &body), odd)
}

/// COMMIT where STATE has come, BLOCK where no PAGE has, else every kind.
fn likely_kinds(s: &Standby, page: u64, commit: u64) -> [u64; 7] {
    if s.state_seen {
        [commit, commit, commit, commit, 3, page, 2]
    } else if s.pages == 0 && s.next_page == 0 {
        [page, 2, 2, 2, 2, 3, commit]
    } else {
        [page, page, 2, 2, 3, 3, commit]
    }
}

/// A page for this standby, or an odd one: at M, past it, not above the last, or small when cut to 16 or 24 bits.
fn page_number(r: &Random, s: &Standby, odd: u64) -> u64 {
    let right = if s.next_page < s.m { r.range(s.next_page, s.m - 1) } else { r.below(s.m) };
    if !r.percent(odd) {
        return right;
    }
    r.pick(&[
        s.m, s.m.wrapping_add(1), 65_535, 65_536, 65_537, u32::MAX as u64, right.wrapping_add(65_536),
        right.wrapping_add(1 << 24), s.next_page.saturating_sub(1), s.m.saturating_sub(1), 256,
    ])
}

/// The counts of pages and of BLOCK records, or odd ones, among them the count of different blocks.
fn counts(r: &Random, s: &Standby, wide: bool, odd: u64) -> Vec<u8> {
    let (mut pages, mut records) = (s.pages, s.records);
    if r.percent(odd) {
        let above = pages.wrapping_add(65_536);
        pages = r.pick(&[pages.wrapping_add(1), pages.wrapping_sub(1), 0, pages ^ 256, s.records, above]);
    }
    if r.percent(odd) {
        let (more, less, above) = (records.wrapping_add(1), records.wrapping_sub(1), records.wrapping_add(65_536));
        records = r.pick(&[more, less, 0, records ^ 256, s.pages, above, s.blocks, s.blocks]);
    }
    [number(wide, pages), number(wide, records)].concat()
}

/// An ACK for this primary, with field after field made wrong in `odd` of a hundred.
pub fn made_up_ack(r: &Random, p: &Primary, odd: u64) -> Vec<u8> {
    let outstanding = (p.open as u64).saturating_sub(p.acknowledged as u64 + 1);
    let mut epoch = p.acknowledged.wrapping_add(1 + r.below(outstanding) as u32);
    if r.percent(odd) {
        let before = p.open.wrapping_sub(1);
        epoch = r.pick(&[p.acknowledged, p.open, before, p.open.wrapping_add(1), 0, u32::MAX, r.next() as u32]);
    }
    let length = if r.percent(odd) { r.pick(&[0, 3, 5, 8, 260, 65_535]) } else { 4 };
    let kind = if r.percent(odd) { r.pick(&[0, 1, 3, 4, 6, 7, 8, 9, 10, 261, 65_535]) } else { 5 };
    cut_or_extended(r, record(length, kind, epoch, &[]), odd)
}

fn cut_or_extended(r: &Random, mut bytes: Vec<u8>, odd: u64) -> Vec<u8> {
    if r.percent(odd) {
        let length = bytes.len() as u64;
        let keep = r.pick(&[0, 1, 3, 4, 5, 7, 8, 9, 10, 11, 12, length - 1, r.below(length)]);
        bytes.truncate(keep as usize);
    } else if r.percent(25) {
        let more = r.range(1, 20);
        bytes.extend(r.bytes(more));
    }
    bytes
}
