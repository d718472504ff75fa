//! Settings, worlds with buffers, and the arguments of calls: mostly sensible, sometimes odd.
use crate::block_numbers::block_to_write;
use crate::items::code;
use crate::made_up::{made_up_ack, made_up_record};
use crate::model::*;
use crate::orders::some_order;
use crate::random::Random;
use crate::world::{Args, World};

/// The most bytes that a buffer is given where the calls are many; large.rs and the files of wide.rs have longer ones.
pub const MOST: u64 = 1 << 20;

const MANY_PAGES: [u64; 9] = [255, 256, 257, 884, 1_024, 4_095, 4_096, 4_097, 4_098];

/// Ports above the last; some of them are 0 or 1 when cut to 8, 16 or 32 bits.
pub const NO_PORTS: [u64; 12] =
    [4, 5, 255, 256, 257, 65_535, 65_536, 65_537, 1 << 32, (1 << 32) + 1, 1 << 63, u64::MAX];

fn with_stream(r: &Random, mut s: Settings) -> Settings {
    let (record, least) = (page_record(s.u, s.m), least_stream(s.u, s.m, s.b));
    let checkpoint = 2 * record + state_and_commit(s.m);
    let more = [0, 0, 1, r.below(100), record, record * r.range(1, 4), checkpoint, 3 * least];
    s.l = (least + r.pick(&more)).min(MOST_STREAM);
    s
}

pub fn small_settings(r: &Random) -> Settings {
    let b = r.range(0, 3);
    let u = if r.percent(7) { 128 } else { 64 };
    let settings = Settings {
        u,
        m: r.range(1, 4),
        d: r.range(0, 4),
        b,
        s: b + r.range(0, 3),
        q: r.pick(&[40, 100, 150, 256, 256]),
        l: 0,
        t: r.range(1, 6),
    };
    with_stream(r, settings)
}

/// Small ones with one or more settings at an end of their range, or M about a word of marks.
pub fn limit_settings(r: &Random) -> Settings {
    let mut s = small_settings(r);
    for _ in 0..r.range(1, 2) {
        match r.below(9) {
            0 => s.d = 0,
            1 => (s.b, s.s) = (0, 0),
            2 => s.q = 0,
            3 => s.t = 1,
            4 => s.m = 1,
            5 => (s.u, s.m) = (64, r.pick(&[63, 64, 65, 127, 128, 129])),
            6 => (s.b, s.s) = (64, 64),
            7 => (s.b, s.s) = (r.range(0, 2), 64),
            _ => s.t = r.pick(&[1, 59_999, 60_000]),
        }
    }
    s = with_stream(r, s);
    if r.percent(40) {
        s.l = least_stream(s.u, s.m, s.b);
    }
    s
}

/// The same with the most slots, or nearly so many, and any allowance.
pub fn with_many_slots(r: &Random, s: Settings) -> Settings {
    let slots = r.pick(&[64, 64, 64, 63]);
    let b = r.pick(&[0, 1, 2, slots, slots, r.range(0, slots)]);
    with_stream(r, Settings { b, s: slots, ..s })
}

/// Large pages, many pages or blocks, or much held. Some M are about the end of the narrow kinds; wide.rs has the
/// largest.
pub fn large_settings(r: &Random) -> Settings {
    let mut s = small_settings(r);
    match r.below(6) {
        0 => (s.u, s.b, s.s) = (4_096, r.range(0, 3), r.range(3, 6)),
        1 => (s.u, s.m, s.b, s.s) = (64, r.pick(&MANY_PAGES), r.range(0, 2), 2),
        2 => s.q = r.pick(&[1_514, 1_515, 3_000, 32_768]),
        3 => (s.u, s.d) = (r.pick(&[1_024, 4_032, 4_096]), r.pick(&[1, 15, 16, 65])),
        4 => (s.u, s.m) = (r.pick(&[1_024, 4_032, 4_096]), r.pick(&[15, 16, 64, 65])),
        _ => (s.u, s.d) = (64, r.pick(&[255, 256, 257, 1_024, 4_095, 4_096])),
    }
    with_stream(r, s)
}

/// Buffers of the lengths that the settings ask, with bytes of every sort; the states are still zero.
pub fn fresh_world(r: &Random, s: &Settings) -> World {
    World {
        primary: Primary::zero(),
        standby: Standby::zero(),
        memory: r.bytes(s.m * s.u),
        disk: r.bytes(s.d * s.u),
        marks: r.words(mark_words(s.m)),
        held: r.bytes(s.q),
        stream: r.bytes(s.l),
        standby_memory: r.bytes(s.m * s.u),
        standby_disk: r.bytes(s.d * s.u),
        pages: r.bytes(s.m * s.u),
        standby_marks: r.words(mark_words(s.m)),
        blocks: r.bytes(s.s * s.u),
        area: r.bytes(8),
        link: Vec::new(),
        acks: Vec::new(),
    }
}

pub fn start_args(r: &Random, settings: Settings) -> Args {
    Args { settings, cpu: r.cpu(), ..Args::none() }
}

/// The arguments of a call on this world. Each is odd in `odd` of a hundred calls. Read and ACK get bytes made
/// up to fit the state; a run replaces them by bytes of the link.
pub fn arguments(r: &Random, which: usize, w: &World, odd: u64) -> Args {
    let mut a = Args::none();
    let (p, s) = (&w.primary, &w.standby);
    match which {
        code::MEMORY_WRITE => memory_arguments(r, &mut a, p.u, p.m, odd),
        code::STANDBY_MEMORY_WRITE => memory_arguments(r, &mut a, s.u, s.m, odd),
        code::DISK_WRITE => {
            disk_arguments(r, &mut a, p.u, p.d, odd);
            a.place = block_to_write(r, p, a.place);
        }
        code::STANDBY_DISK_WRITE => disk_arguments(r, &mut a, s.u, s.d, odd),
        code::PACKET => {
            a.port = some_port(r, odd);
            a.data = packet_bytes(r, p, odd);
        }
        code::CHECKPOINT => a.cpu = r.cpu(),
        code::DRAIN => drain_arguments(r, &mut a, p),
        code::ACK => a.data = made_up_ack(r, p, odd),
        code::TAKE => {
            a.port = port_to_take(r, p, odd);
            a.out = take_destination(r, p, a.port, odd);
        }
        code::READ => {
            a.data = made_up_record(r, s, odd);
            a.out = reply_buffer(r, odd);
        }
        code::STANDBY_SUM => a.order = some_order(r, s.m, odd),
        code::FLUSH => a.n = r.pick(&[0, 1, 1, 2, s.due, s.due.wrapping_add(1), s.due / 2, 1 << 32, u64::MAX]),
        _ => {}
    }
    if r.percent(12) {
        same_bytes(which, w, &mut a);
    }
    a
}

/// A write of the bytes that are there already, where it is inside its buffer.
fn same_bytes(which: usize, w: &World, a: &mut Args) {
    let (image, u) = match which {
        code::MEMORY_WRITE => (&w.memory, w.primary.u),
        code::STANDBY_MEMORY_WRITE => (&w.standby_memory, w.standby.u),
        code::DISK_WRITE => (&w.disk, w.primary.u),
        code::STANDBY_DISK_WRITE => (&w.standby_disk, w.standby.u),
        _ => return,
    };
    let Some(at) = a.place.checked_mul(u).and_then(|at| at.checked_add(a.offset)) else { return };
    let there = (at as usize).checked_add(a.data.len()).and_then(|end| image.get(at as usize..end));
    a.data = there.map_or(std::mem::take(&mut a.data), |bytes| bytes.to_vec());
}

/// A number below the limit, or an odd one: at the limit, past it, or one that is small when cut to 16 or 32 bits.
pub fn number_below(r: &Random, limit: u64, odd: u64) -> u64 {
    if limit > 0 && !r.percent(odd) {
        return r.below(limit);
    }
    let wide = (1 << 32) + (limit / 2) % 65_536;
    r.pick(&[limit, limit, limit.wrapping_add(1), 65_535, 65_536, 65_537, 1 << 32, wide, 1 << 63, u64::MAX])
}

pub fn sane(u: u64) -> u64 {
    u.clamp(1, 4_160)
}

fn memory_arguments(r: &Random, a: &mut Args, u: u64, m: u64, odd: u64) {
    let u = sane(u);
    a.place = number_below(r, m, odd);
    let most = u.min(16);
    let mut length = if r.percent(10) { u } else { r.range(1, most) };
    a.offset = r.pick(&[0, u - length, r.below(u - length + 1), r.below(u - length + 1)]);
    if r.percent(odd) {
        (a.offset, length) = r.pick(&[
            (0, 0), (u, 0), (u, 1), (u - length + 1, length), (0, u + 1), (1, u), (u - 1, 2), (u + 1, 1),
            (u64::MAX, 1), (u64::MAX - 1, 2), (1 << 32, 1), (1 << 63, 0), (u64::MAX, 0), (65_536, 4),
        ]);
    }
    a.data = r.bytes(length);
}

fn disk_arguments(r: &Random, a: &mut Args, u: u64, d: u64, odd: u64) {
    let u = sane(u);
    a.place = number_below(r, d, odd);
    let length = if r.percent(odd) { r.pick(&[0, 1, u - 1, u + 1, 2 * u]) } else { u };
    a.data = r.bytes(length);
}

fn some_port(r: &Random, odd: u64) -> u64 {
    if r.percent(odd) { r.pick(&NO_PORTS) } else { r.range(0, MOST_PORT) }
}

/// Mostly a port of which a packet may leave, where there is one.
fn port_to_take(r: &Random, p: &Primary, odd: u64) -> u64 {
    let free: Vec<u64> = (0..=MOST_PORT).filter(|&port| p.free_of(port).is_some()).collect();
    let port = some_port(r, odd);
    if port > MOST_PORT || free.is_empty() || r.percent(10) { port } else { r.pick(&free) }
}

fn packet_bytes(r: &Random, p: &Primary, odd: u64) -> Vec<u8> {
    let room = p.q.saturating_sub(p.held).min(1_514);
    let length = if r.percent(odd) {
        r.pick(&[0, 0, 1_515, 1_516, 2_000, 65_536])
    } else if p.q > 1_000 {
        r.pick(&[1, 1_513, 1_514, 1_514, room, room + 1, r.range(1, 1_514), r.range(1, 60)]).min(1_514)
    } else {
        r.pick(&[1, 1, 2, r.range(1, 40), r.range(1, 12), r.range(1, 12), room, room + 1]).min(1_514)
    };
    let whole = if length == 65_536 && !r.percent(1) { 1_517 } else { length };
    r.bytes(whole)
}

fn drain_arguments(r: &Random, a: &mut Args, p: &Primary) {
    let (waiting, record) = (p.waiting.min(MOST), page_record(sane(p.u), p.m));
    let some = r.below(waiting + 1);
    let commit = commit_record(p.m);
    a.n = r.pick(&[waiting, waiting, waiting, some, some, record, 72, commit, 1, 0, waiting + 1, 1 << 32, u64::MAX]);
    let fits = a.n.min(waiting);
    let room = r.pick(&[fits, fits, fits, fits, fits + 3, waiting, some, record, 0, 1]);
    a.out = r.bytes(room.min(MOST));
}

/// Room for the port's oldest packet, or too little; both are sometimes just enough for the oldest of all.
fn take_destination(r: &Random, p: &Primary, port: u64, odd: u64) -> Vec<u8> {
    let length = p.queue[p.oldest_of(port).unwrap_or(0)].length.min(1_600);
    let oldest = p.queue[0].length.min(1_600);
    let room = if r.percent(odd) {
        r.pick(&[0, 1, length.saturating_sub(1), length / 2, oldest])
    } else {
        r.pick(&[length, length, length + 1, length + 5, length + 64, length.max(oldest)])
    };
    r.bytes(room)
}

pub fn reply_buffer(r: &Random, odd: u64) -> Vec<u8> {
    let length = if r.percent(odd) { r.pick(&[0, 4, 7, 7]) } else { r.pick(&[8, 8, 9, 16]) };
    r.bytes(length)
}
