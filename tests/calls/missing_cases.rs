//! The ends and the records of missing.rs. What an end gives to the whole of a record is written beside it.
use crate::arguments::fresh_world;
use crate::items::code;
use crate::made_up::record;
use crate::model::*;
use crate::random::Random;
use crate::refused_records::{by_header, next, whole, with, Bad};
use crate::sink::Sink;
use crate::world::{Args, World};

pub const PAGE: u64 = 1;
pub const BLOCK: u64 = 2;
pub const STATE: u64 = 3;
pub const COMMIT: u64 = 4;
pub const ACK: u64 = 5;
pub const WIDE_PAGE: u64 = 8;
pub const WIDE_COMMIT: u64 = 9;
const FILLER: u8 = 0xc3;

/// A record and the end that reads it.
pub struct Case {
    pub which: usize,
    world: World,
    /// The reply buffer's length.
    reply: usize,
    pub record: Vec<u8>,
    /// What the end gives to the whole record.
    pub number: u64,
}

impl Case {
    fn read(r: &Random, s: &Standby, number: u64, record: Vec<u8>) -> Case {
        Case { which: code::READ, world: world(r, s.clone(), primary(s.u, s.m)), reply: 8, record, number }
    }

    fn bad_read(r: &Random, s: &Standby, bad: Bad) -> Case {
        Case { reply: bad.reply, ..Case::read(r, s, bad.number, bad.data) }
    }

    fn ack(r: &Random, p: &Primary, number: u64, record: Vec<u8>) -> Case {
        Case { which: code::ACK, world: world(r, standby(p.u, p.m), p.clone()), reply: 0, record, number }
    }

    /// Gives the end these bytes: its answer, and whether anything was changed.
    pub fn give(&self, sink: &mut Sink, data: &[u8]) -> (Reply, bool) {
        let mut world = self.world.clone();
        let mut args = Args { data: data.to_vec(), out: vec![FILLER; self.reply], ..Args::none() };
        let reply = sink.call(self.which, &mut world, &mut args);
        (reply, world != self.world || args.out.iter().any(|&byte| byte != FILLER))
    }
}

/// A receiving standby before the first record of epoch 7.
fn standby(u: u64, m: u64) -> Standby {
    Standby { u, m, d: 2, b: 1, s: 2, t: 3, received: 6, ..Standby::zero() }
}

/// It as it is, after three BLOCKs of the only block allowed, with every slot taken, after a PAGE, and after a PAGE and
/// STATE.
fn standbys(u: u64, m: u64) -> [Standby; 5] {
    let first = standby(u, m);
    [
        first.clone(),
        Standby { blocks: 1, records: 3, staged: 1, ..first.clone() },
        Standby { staged: 2, due: 2, ..first.clone() },
        Standby { pages: 1, next_page: 1, ..first.clone() },
        Standby { pages: 1, next_page: 1, state_seen: true, ..first },
    ]
}

/// A protected primary; the ACKs 6, 7 and 8 are outstanding.
fn primary(u: u64, m: u64) -> Primary {
    Primary { u, m, d: 2, b: 1, l: least_stream(u, m, 1), t: 3, open: 9, acknowledged: 5, ..Primary::zero() }
}

fn ack(epoch: u32) -> Vec<u8> {
    record(4, ACK, epoch, &[])
}

/// A read and an ACK are lent no buffer of the primary; nor is an ACK one of the standby.
fn world(r: &Random, standby: Standby, primary: Primary) -> World {
    let Standby { u, m, d, b, s, t, .. } = standby;
    let settings = Settings { u, m, d, b, s, q: 0, l: 0, t };
    World { primary, standby, memory: Vec::new(), ..fresh_world(r, &settings) }
}

/// A record of each kind that its end accepts, and a BLOCK for which a slot is reused.
pub fn accepted(r: &Random, u: u64, m: u64) -> Vec<Case> {
    let [first, again, .., last] = standbys(u, m);
    let kinds = [(&first, BLOCK), (&again, BLOCK), (&first, STATE), (&last, commit_kind(m))];
    let ends = [(&first, page_kind(m))].into_iter().chain(kinds);
    let reads = ends.map(|(s, kind)| Case::read(r, s, 0, next(s, kind)));
    reads.chain([Case::ack(r, &primary(u, m), 0, ack(7))]).collect()
}

/// Records with a right header that their end refuses once they are whole.
pub fn refused_when_whole(r: &Random, u: u64, m: u64) -> Vec<Case> {
    let of = |s: Standby| whole(&s).map(|bad| Case::bad_read(r, &s, bad)).collect::<Vec<_>>();
    let acks = [0, 5, 9, u32::MAX].map(|epoch| Case::ack(r, &primary(u, m), 11, ack(epoch)));
    standbys(u, m).into_iter().flat_map(of).chain(acks).collect()
}

/// Records that their end refuses by their headers, with 6 or 7; among them right ones of the other end.
pub fn refused_by_header(r: &Random, u: u64, m: u64) -> Vec<Case> {
    let (s, p) = (standby(u, m), primary(u, m));
    let mut all: Vec<Case> = by_header(&s).into_iter().map(|bad| Case::bad_read(r, &s, bad)).collect();
    all.push(Case::read(r, &s, 6, ack(7)));
    let kinds = [PAGE, BLOCK, STATE, COMMIT, WIDE_PAGE, WIDE_COMMIT];
    all.extend(kinds.map(|kind| Case::ack(r, &p, 6, next(&s, kind))));
    all.extend([0, 1, 2, 3, 4, 6, 7, 8, 9, 10, 261].map(|kind| Case::ack(r, &p, 6, with(ack(7), 2, kind))));
    all.extend([0, 3, 5, 8, 260].map(|length| Case::ack(r, &p, 7, with(ack(7), 0, length))));
    all
}

/// Records for ends that look at no byte: 13 in another mode, 1 out of range, both at once 1.
pub fn not_looked_at(r: &Random, u: u64, m: u64) -> Vec<Case> {
    let (s, p) = (standby(u, m), primary(u, m));
    let modes = [Mode::TakingOver, Mode::Active].map(|mode| (13, Standby { mode, count: 3, ..s.clone() }));
    let pages = m + 1;
    let outside = [(1, Standby { pages, ..s.clone() }), (1, Standby { pages, ..modes[0].1.clone() })];
    let alone = Primary { alone: true, count: 3, ..p.clone() };
    let bad = Primary { acknowledged: 9, ..alone.clone() };
    let reads = modes.into_iter().chain(outside).flat_map(|(number, s)| {
        kinds_of(m).map(|kind| Case::read(r, &s, number, next(&s, kind)))
    });
    reads.chain([Case::ack(r, &alone, 13, ack(7)), Case::ack(r, &bad, 1, ack(7))]).collect()
}
