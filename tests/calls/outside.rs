//! Pushing exactly one thing of a state or of the settings out of its range.
use crate::arguments::MOST;
use crate::model::*;
use crate::random::Random;

pub const CLAUSES: u64 = 24;

/// "14 is also given at 65,535 BLOCK records in an epoch; more in a state gives 1."
const TOO_MANY_RECORDS: [u64; 5] = [65_536, 65_536, 65_537, 131_071, 1 << 17];

/// Numbers of 64 bits that are small, or as the number given, when cut to 32. T, counts of ticks and epochs are fields
/// of 32 bits, the lengths and ports of packets and a primary's block numbers of 16, so they get none of these here:
/// words with one that does not fit are no state (no_state.rs).
fn wide(r: &Random, number: u64) -> u64 {
    let above = (1 << 32) + (number & 0xffff_ffff);
    r.pick(&[above, above, 1 << 63, u64::MAX, u64::MAX - 1])
}

/// One of the numbers given, or a wide one.
fn outside(r: &Random, number: u64, near: &[u64]) -> u64 {
    if r.percent(20) { wide(r, number) } else { r.pick(near) }
}

fn bad_u(r: &Random, u: u64) -> u64 {
    outside(r, u, &[0, 1, 32, 63, 65, 96, 100, 127, 4_095, 4_097, 4_160])
}

/// Raises L to what the other settings ask, where one in range can.
fn enough_stream(p: &mut Primary) {
    if p.u <= 5_000 && p.m <= 140_000 && p.b <= 300 {
        p.l = p.l.max(least_stream(p.u, p.m, p.b)).min(MOST_STREAM);
    }
}

/// Whether the clause could be applied to this state.
pub fn push_primary(r: &Random, p: &mut Primary, clause: u64) -> bool {
    let packets = p.packets as usize;
    match clause % CLAUSES {
        0 => p.u = bad_u(r, p.u),
        1 => p.m = outside(r, p.m, &[0, 65_537, 65_538, 69_632, 131_072]),
        2 => p.d = outside(r, p.d, &[4_097, 65_536]),
        3 => p.b = outside(r, p.b, &[65, 66, 256]),
        4 => p.q = outside(r, p.q, &[32_769, 40_000]),
        5 => return push_stream_down(p),
        6 => p.l = outside(r, p.l, &[MOST_STREAM + 1, u32::MAX as u64]),
        7 => (p.t, p.count, p.alone) = (0, 0, true),
        8 => p.t = r.pick(&[60_001, 65_536]),
        9 => return push_packets(r, p),
        10 => return push_packet_length(r, p, 0),
        11 => return push_packet_length(r, p, r.pick(&[1_515, 1_515, 1_516, 65_535])),
        12 => p.held = outside(r, p.held, &[p.held + 1, p.held + 1, p.held + 256]),
        13 if p.held > 0 => p.held -= 1,
        14 if p.held > 0 => p.q = p.held - 1,
        15 if packets > 1 && p.queue[packets - 1].epoch > 0 => {
            let at = r.range(1, packets as u64 - 1) as usize;
            p.queue[at - 1].epoch = p.queue[at - 1].epoch.max(1);
            p.queue[at].epoch = p.queue[at - 1].epoch - 1;
            p.queue[at + 1..packets].iter_mut().for_each(|packet| packet.epoch = p.open);
        }
        16 if packets > 0 && p.open < u32::MAX => p.queue[packets - 1].epoch = p.open + 1,
        17 => p.acknowledged = r.pick(&[p.open, p.open.saturating_add(1), u32::MAX]),
        18 => p.waiting = outside(r, p.waiting, &[p.l + 1, p.l + 2, p.l + 100]),
        19 => p.blocks = outside(r, p.blocks, &[p.b + 1, p.b + 2, p.b + 64]),
        20 => (p.alone, p.count) = (true, p.t + r.pick(&[1, 2, 100])),
        21 => (p.alone, p.count) = (false, p.t),
        22 if packets > 0 => p.queue[r.below(p.packets) as usize].port = r.pick(&[4, 4, 5, 255, 256, 257, 65_535]),
        23 => p.records = outside(r, p.records, &TOO_MANY_RECORDS),
        _ => return false,
    }
    if matches!(clause % CLAUSES, 0 | 1 | 3) {
        enough_stream(p);
    }
    true
}

/// L one below its least, with the waiting bytes still inside.
fn push_stream_down(p: &mut Primary) -> bool {
    p.l = least_stream(p.u, p.m, p.b) - 1;
    p.waiting = p.waiting.min(p.l);
    true
}

/// Over 64 packets: all 64 entries are in use and one more is said to be.
fn push_packets(r: &Random, p: &mut Primary) -> bool {
    if p.q < 64 {
        return false;
    }
    p.packets = outside(r, 64, &[65, 65, 66, 128, u32::MAX as u64]);
    p.queue = [Packet { epoch: p.acknowledged, port: r.range(0, MOST_PORT) as u16, length: 1 }; 64];
    p.held = 64;
    true
}

/// One packet's length outside its range, with the sum of the lengths still the held bytes, mostly within Q.
fn push_packet_length(r: &Random, p: &mut Primary, length: u64) -> bool {
    if p.packets == 0 {
        return false;
    }
    let at = r.below(p.packets) as usize;
    p.held = p.held - p.queue[at].length + length;
    p.queue[at].length = length;
    p.q = p.q.max(p.held.min(32_768));
    true
}

/// Whether the clause could be applied to this state.
pub fn push_standby(r: &Random, s: &mut Standby, clause: u64) -> bool {
    let staged = s.staged as usize;
    match clause % CLAUSES {
        0 => s.u = bad_u(r, s.u),
        1 => s.m = outside(r, s.m, &[65_537, 65_538, 69_632, 131_072]),
        2 => (s.m, s.pages) = (0, 0),
        3 => s.d = outside(r, s.d, &[4_097, 65_536]),
        4 => (s.b, s.s) = (65, 65),
        5 => s.s = outside(r, s.s, &[65, 66, 256]),
        6 if s.staged < s.b => s.s = s.b - 1,
        7 => (s.t, s.count, s.mode) = (0, 0, r.pick(&[Mode::TakingOver, Mode::Active])),
        8 => s.t = r.pick(&[60_001, 65_536]),
        9 if s.d > 0 => {
            s.slots = [s.d - 1; 64];
            s.staged = outside(r, s.s, &[s.s + 1, s.s + 1, s.s + 64, s.s + 100]);
        }
        10 => s.due = outside(r, s.due, &[s.staged + 1, s.staged + 1, s.staged + 2, s.staged + 64]),
        11 if staged > 0 => s.slots[staged - 1] = s.d,
        12 if staged > 0 => s.slots[r.below(s.staged) as usize] = outside(r, s.d / 2, &[s.d, s.d + 1, s.d + 65_536]),
        13 => s.blocks = outside(r, s.blocks, &[s.b + 1, s.b + 2, s.b + 64]),
        14 => s.pages = outside(r, s.pages, &[s.m + 1, s.m + 2, s.m + 65_536]),
        15 => {
            s.count = s.t + r.pick(&[1, 2, 100]);
            s.mode = r.pick(&[Mode::TakingOver, Mode::Active, Mode::Receiving]);
        }
        16 => (s.count, s.mode) = (s.t, Mode::Receiving),
        17 if s.d > 0 && s.staged > 0 => s.d = s.slots[..staged].iter().copied().max().unwrap_or(0),
        18 => s.records = outside(r, s.records, &TOO_MANY_RECORDS),
        _ => return false,
    }
    true
}

/// The settings of an accepted start with one of them outside its range.
pub fn push_setting(r: &Random, s: &mut Settings, clause: u64) {
    match clause % 11 {
        0 => s.u = r.pick(&[0, 1, 63, 65, 96, 4_097, 4_160, 1 << 16, 1 << 32, 1 << 63, u64::MAX]),
        1 => s.m = r.pick(&[0, 0, 65_537, 69_632, 1 << 17, 1 << 32, 1 << 58, 1 << 63, u64::MAX]),
        2 => s.d = r.pick(&[4_097, 1 << 16, 1 << 32, 1 << 58, u64::MAX]),
        3 => (s.b, s.s) = r.pick(&[(65, 65), (65, 64), (256, 64), (1 << 32, 64), (u64::MAX, 64), (u64::MAX, u64::MAX)]),
        4 => s.s = r.pick(&[65, 66, 256, 1 << 32, 1 << 58, u64::MAX]),
        5 => (s.b, s.s) = (s.b + 1, s.b),
        6 => s.q = r.pick(&[32_769, 33_000, 1 << 32, u64::MAX]),
        7 => s.l = least_stream(s.u, s.m, s.b) - r.pick(&[1, 1, 2, 84]),
        8 => s.l = r.pick(&[MOST_STREAM + 1, 1 << 32, u64::MAX, 0]),
        9 => s.t = 0,
        _ => s.t = r.pick(&[60_001, 60_001, 65_536, 65_537, 1 << 31, u32::MAX as u64]),
    }
    if matches!(clause % 11, 0..=5) && s.u <= 5_000 && s.m <= 140_000 && s.b <= 300 {
        s.l = s.l.max(least_stream(s.u, s.m, s.b));
    }
}

/// The settings by which buffers are lent: the same where a buffer is given so many bytes, else short ones.
pub fn lendable(s: &Settings) -> Settings {
    let u = if s.u <= 4_160 { s.u } else { 64 };
    let pages = |count: u64| if count <= MOST && count * u <= MOST { count } else { 1 };
    let bytes = |count: u64| if count <= MOST { count } else { 100 };
    Settings { u, m: pages(s.m), d: pages(s.d), b: s.b, s: pages(s.s), q: bytes(s.q), l: bytes(s.l), t: s.t }
}
