//! Random states in range.
use crate::block_numbers::{some_records, some_written};
use crate::items::code;
use crate::model::*;
use crate::random::Random;

pub fn epoch(r: &Random) -> u32 {
    let any = r.next() as u32;
    r.pick(&[0, 1, 2, 3, 255, 256, 65_535, 65_536, 1 << 31, u32::MAX - 2, u32::MAX - 1, u32::MAX, any, any])
}

/// Any primary in range.
pub fn any_primary(r: &Random, s: &Settings) -> Primary {
    let open = epoch(r).max(1);
    let acknowledged = r.pick(&[open - 1, open - 1, 0, open / 2, open.saturating_sub(2), r.below(open as u64) as u32]);
    let alone = r.percent(20);
    let mut p = Primary {
        u: s.u, m: s.m, d: s.d, b: s.b, q: s.q, l: s.l, t: s.t, open, acknowledged, alone, ..Primary::zero()
    };
    p.count = some_count(r, s.t, !alone);
    p.blocks = r.pick(&[0, s.b, s.b / 2, r.range(0, s.b)]);
    (p.records, p.written) = (some_records(r, p.blocks), some_written(r, s.d, p.blocks));
    let (record, any) = (s.u + 10, r.range(0, s.l));
    let need = r.range(0, s.m.min(5)) * page_record(s.u, s.m) + state_and_commit(s.m);
    p.waiting = r.pick(&[0, 0, 0, s.l, any, s.l - record, s.l - record + 1, s.l - need, (s.l - need + 1).min(s.l)]);
    fill_queue(r, &mut p);
    p
}

fn some_count(r: &Random, t: u64, counting: bool) -> u64 {
    let most = if counting { t - 1 } else { t };
    r.pick(&[0, most, most, r.range(0, most)])
}

/// Packets that fit into Q, with epochs that do not fall and are not above the open one, of all ports, of two or of
/// one. What stands behind them may be anything that fits its field.
fn fill_queue(r: &Random, p: &mut Primary) {
    if r.percent(50) {
        for packet in p.queue.iter_mut() {
            let port = r.pick(&[r.below(4), 4, 65_535, r.below(1 << 16)]) as u16;
            *packet = Packet { epoch: epoch(r), port, length: r.pick(&[r.below(2_000), 65_535, r.below(1 << 16)]) };
        }
    }
    let (one, other) = (r.range(0, MOST_PORT) as u16, r.range(0, MOST_PORT) as u16);
    let ports = r.pick(&[[0, 1, 2, 3], [0, 1, 2, 3], [one, one, one, other], [one; 4]]);
    let wanted = r.pick(&[0, 1, 1, 2, 3, r.range(0, 64), 63, 64]);
    let tiny = r.percent(50);
    let mut epochs = r.pick(&[0, p.acknowledged, p.acknowledged, p.acknowledged + 1, p.open]);
    for at in 0..wanted as usize {
        let room = p.q - p.held;
        if room == 0 {
            break;
        }
        let length = if tiny { 1 } else { r.pick(&[1, 2, r.range(1, 30), r.range(1, 1_514), 1_514, room]) };
        let length = length.min(room).min(1_514);
        epochs = if r.percent(20) { r.range(epochs as u64, p.open as u64) as u32 } else { epochs };
        p.queue[at] = Packet { epoch: epochs, port: r.pick(&ports), length };
        p.packets += 1;
        p.held += length;
    }
}

/// Any standby in range, its mode mostly the one that the call wants.
pub fn any_standby(r: &Random, s: &Settings, which: usize) -> Standby {
    let wanted = match which {
        code::ACTIVATION => Mode::TakingOver,
        code::STANDBY_MEMORY_WRITE | code::STANDBY_DISK_WRITE => Mode::Active,
        _ => Mode::Receiving,
    };
    let mode = r.pick(&[wanted, wanted, wanted, wanted, wanted, Mode::Receiving, Mode::TakingOver, Mode::Active]);
    let mut t = Standby { u: s.u, m: s.m, d: s.d, b: s.b, s: s.s, t: s.t, mode, ..Standby::zero() };
    t.count = some_count(r, s.t, mode == Mode::Receiving);
    t.received = epoch(r);
    t.staged = if s.d == 0 { 0 } else { r.pick(&[0, s.s, s.s / 2, s.s.saturating_sub(1), r.range(0, s.s)]) };
    t.due = r.pick(&[0, t.staged, t.staged / 2, r.range(0, t.staged)]);
    if which == code::ACTIVATION && r.percent(60) {
        t.due = 0;
    }
    let garbage = r.percent(50);
    for (at, slot) in t.slots.iter_mut().enumerate() {
        if (at as u64) < t.staged {
            *slot = r.pick(&[r.below(s.d), r.below(s.d), s.d - 1, 0]);
        } else if garbage {
            *slot = r.pick(&[r.below(5_000), r.below(s.d), r.next()]);
        }
    }
    t.blocks = r.pick(&[0, s.b, s.b / 2, r.range(0, s.b)]);
    t.records = some_records(r, t.blocks);
    t.pages = r.pick(&[0, s.m, r.range(0, s.m), r.range(0, s.m)]);
    let some = r.range(0, s.m);
    t.next_page = r.pick(&[0, 0, 0, 0, some, some, s.m - 1, s.m, s.m + 1, 70_000, 1 << 32, u64::MAX]);
    t.state_seen = r.percent(40);
    if which == code::READ && r.percent(35) {
        // neither PAGE nor STATE has come, so that a BLOCK is in order
        (t.pages, t.next_page, t.state_seen) = (0, 0, false);
    }
    (t.staged_cpu, t.kept_cpu) = (r.cpu(), r.cpu());
    t
}
