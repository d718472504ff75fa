//! Lists of calls from an accepted start. The model carries the world from call to call.
use crate::arguments::*;
use crate::items::code;
use crate::made_up::{made_up_ack, made_up_record};
use crate::model::*;
use crate::random::Random;
use crate::sink::Sink;
use crate::ticks::Ticks;
use crate::world::{carry, Args, World};

/// A call of a list. `part`: a read or an ACK gets so many of the first unread bytes, instead of `args.data`.
#[derive(Clone)]
pub struct Step {
    pub which: usize,
    pub args: Args,
    pub part: Option<usize>,
}

/// How a list goes on at the moment.
pub struct Mood {
    weights: [u64; code::ALL],
    /// Of a hundred arguments so many are odd, of a hundred reads and ACKs so many are damaged.
    odd: u64,
    damage: u64,
    /// Whether a tick that ends protection or receiving is wanted.
    last_ticks: bool,
    /// Of a hundred calls so many see first to what waits on the link, in the slots or as an ACK.
    haste: u64,
    /// Of a hundred reads so many come only after a tick more, so that a checkpoint may take longer than T ticks.
    put_off: u64,
}

// Weights by code: start, memory write, disk write, packet, checkpoint, drain, ACK, take, tick of the primary,
// read, flush, tick of the standby, activation, memory and disk write at the standby, disk choice, sum at the primary,
// sum at the standby, normal form.
const PROTECTED: [u64; code::ALL] = [0, 16, 16, 7, 6, 12, 4, 8, 4, 8, 5, 4, 1, 1, 1, 1, 2, 2, 0];
const LIVELY: [u64; code::ALL] = [0, 8, 6, 6, 9, 6, 2, 4, 2, 4, 4, 1, 0, 0, 0, 0, 1, 1, 0];
const PACKETS: [u64; code::ALL] = [0, 3, 1, 24, 9, 6, 4, 14, 1, 4, 4, 1, 0, 0, 0, 0, 0, 0, 0];
const BLOCKS: [u64; code::ALL] = [0, 4, 40, 3, 0, 9, 3, 4, 2, 8, 6, 2, 0, 0, 0, 0, 0, 0, 0];
const ALONE: [u64; code::ALL] = [0, 10, 10, 9, 6, 3, 2, 14, 14, 6, 4, 1, 1, 1, 1, 2, 3, 1, 0];
const TAKEOVER: [u64; code::ALL] = [0, 2, 2, 2, 2, 3, 2, 2, 1, 3, 10, 14, 8, 2, 2, 2, 1, 3, 0];
const ACTIVE: [u64; code::ALL] = [0, 3, 3, 3, 2, 2, 2, 5, 3, 2, 4, 3, 3, 14, 14, 5, 1, 4, 0];
const DRILL: [u64; code::ALL] = [0, 14, 2, 1, 9, 6, 2, 1, 1, 4, 4, 1, 0, 0, 0, 0, 10, 14, 0];

/// What `put_off` is in a list.
pub const PUT_OFF: [u64; 4] = [0, 0, 0, 60];

/// The moods of one list: a long protected part, then in some lists the end of it on one side or both.
struct Course {
    length: u64,
    put_off: u64,
    alone_from: u64,
    takeover_from: u64,
    active_from: u64,
}

impl Course {
    fn new(r: &Random, length: u64) -> Course {
        let late = |r: &Random| r.range(length / 4, length);
        let alone_from = if r.percent(35) { late(r) } else { length };
        let takeover_from = if r.percent(60) { late(r) } else { length };
        let active_from = takeover_from + r.range(10, 40);
        Course { length, put_off: r.pick(&PUT_OFF), alone_from, takeover_from, active_from }
    }

    fn mood(&self, r: &Random, at: u64, odd: u64, damage: u64) -> Mood {
        let put_off = self.put_off;
        let mood = |weights, last_ticks, haste| Mood { weights, odd, damage, last_ticks, haste, put_off };
        let both = at >= self.alone_from && at >= self.takeover_from && r.percent(40);
        if at >= self.alone_from && (at < self.takeover_from || both) {
            mood(ALONE, true, 0)
        } else if at >= self.active_from {
            mood(ACTIVE, true, 0)
        } else if at >= self.takeover_from {
            mood(TAKEOVER, true, 0)
        } else {
            mood(PROTECTED, false, 55)
        }
    }
}

/// One list of calls at these settings; some near the last epoch and near the most BLOCK records of an epoch.
pub fn list(r: &Random, sink: &mut Sink, settings: Settings, length: u64, near_the_end: bool) {
    let mut w = started(r, sink, settings);
    if near_the_end {
        let epoch = u32::MAX - r.range(1, 6) as u32;
        (w.primary.open, w.primary.acknowledged, w.standby.received) = (epoch + 1, epoch, epoch);
        let records = r.pick(&[0, MOST_RECORDS - r.range(0, 4)]);
        (w.primary.records, w.standby.records) = (records, records);
    }
    let course = Course::new(r, length);
    let damage = if r.percent(50) { 0 } else { 5 };
    let odd = r.pick(&[0, 3, 6]);
    let mut ticks = Ticks::start(settings.t);
    for at in 0..course.length {
        let mood = course.mood(r, at, odd, damage);
        let mut step = next_step(r, &w, &mood);
        let reply = perform(sink, &mut w, &mut step);
        ticks.step(step.which, &reply);
        sink.end_at_difference(step.which, ticks.check(&w.standby));
        drop_what_blocks(r, &mut w, step.which, &reply);
    }
    sink.long_checkpoints += (ticks.long_checkpoints > 0) as u64;
}

/// A world after an accepted start that was compared too.
pub fn started(r: &Random, sink: &mut Sink, settings: Settings) -> World {
    let mut w = fresh_world(r, &settings);
    let mut args = start_args(r, settings);
    sink.call(code::START, &mut w, &mut args);
    w
}

/// After damage the link can hold bytes that are refused for good; some lists throw them away.
fn drop_what_blocks(r: &Random, w: &mut World, which: usize, reply: &Reply) {
    let refused = reply.number != 0 && reply.number != CUT_SHORT && reply.number != 1;
    if refused && which == code::ACK && reply.number == 11 && w.acks.len() >= 8 && r.percent(50) {
        w.acks.drain(..8);
    }
    if refused && which == code::READ && reply.number != 17 && r.percent(20) {
        let first = head_record(&w.link).min(w.link.len());
        w.link.drain(..first);
    }
}

/// The length of the record at the head of the bytes, as its header says it; 4 where there is none.
pub fn head_record(bytes: &[u8]) -> usize {
    if bytes.len() < 4 { 4 } else { 4 + u16::from_le_bytes([bytes[0], bytes[1]]) as usize }
}

/// Makes the step's call, by the model and by the library, and carries its bytes over the link.
pub fn perform(sink: &mut Sink, w: &mut World, step: &mut Step) -> Reply {
    fill(w, step);
    let reply = sink.call(step.which, w, &mut step.args);
    carry(step.which, w, &step.args, &reply);
    reply
}

/// Puts the first unread bytes where the step asks for them.
pub fn fill(w: &World, step: &mut Step) {
    if let Some(part) = step.part {
        let from = if step.which == code::READ { &w.link } else { &w.acks };
        step.args.data = from[..part.min(from.len())].to_vec();
    }
}

/// A mood in which checkpoints come soon one after the other.
pub fn lively_mood(odd: u64, haste: u64, put_off: u64) -> Mood {
    Mood { weights: LIVELY, odd, damage: 0, last_ticks: false, haste, put_off }
}

/// A mood in which most calls are packets and takes.
pub fn packets_mood(odd: u64, haste: u64) -> Mood {
    Mood { weights: PACKETS, odd, damage: 0, last_ticks: false, haste, put_off: 0 }
}

/// A mood in which most calls are disk writes; `checkpoints` is the weight of a checkpoint.
pub fn blocks_mood(odd: u64, haste: u64, checkpoints: u64) -> Mood {
    let mut weights = BLOCKS;
    weights[code::CHECKPOINT] = checkpoints;
    Mood { weights, odd, damage: 0, last_ticks: false, haste, put_off: 0 }
}

/// A mood in which most calls are memory writes and sums.
pub fn drill_mood(odd: u64, haste: u64) -> Mood {
    Mood { weights: DRILL, odd, damage: 0, last_ticks: false, haste, put_off: 0 }
}

/// A mood in which every sort of ending may come.
pub fn ending_mood(r: &Random, odd: u64) -> Mood {
    let weights = r.pick(&[ALONE, TAKEOVER, TAKEOVER, ACTIVE]);
    Mood { weights, odd, damage: 0, last_ticks: true, haste: 0, put_off: 0 }
}

/// The next call of a list.
pub fn next_step(r: &Random, w: &World, mood: &Mood) -> Step {
    let mut which = urgent(r, w, mood.haste).unwrap_or_else(|| r.weighted(&mood.weights));
    let ends = |which| !mood.last_ticks && ends_something(w, which);
    while is_idle(w, which) && r.percent(90) || ends(which) && r.percent(99) {
        which = r.weighted(&mood.weights);
    }
    if which == code::READ && !ends_something(w, code::STANDBY_TICK) && r.percent(mood.put_off) {
        which = code::STANDBY_TICK;
    }
    let mut args = arguments(r, which, w, mood.odd);
    let part = match which {
        code::READ if r.percent(mood.damage) => {
            args.data = damaged_record(r, w);
            None
        }
        code::READ => Some(first_part(r, &w.link)),
        code::ACK if r.percent(mood.damage) => {
            args.data = made_up_ack(r, &w.primary, 25);
            None
        }
        code::ACK => Some(first_part(r, &w.acks)),
        _ => None,
    };
    Step { which, args, part }
}

/// What waits and is seen to first, so that long successful histories happen.
fn urgent(r: &Random, w: &World, haste: u64) -> Option<usize> {
    let receiving = w.standby.mode == Mode::Receiving;
    if w.link.len() >= head_record(&w.link) && receiving && r.percent(haste) {
        Some(code::READ)
    } else if !w.acks.is_empty() && r.percent(haste / 2) {
        Some(code::ACK)
    } else if w.standby.due > 0 && r.percent(haste / 4) {
        Some(code::FLUSH)
    } else if w.primary.waiting > 0 && r.percent(haste / 2) {
        Some(code::DRAIN)
    } else if !is_idle(w, code::TAKE) && r.percent(haste / 2) {
        Some(code::TAKE)
    } else {
        None
    }
}

/// Whether the call would find nothing to do; most of these are left out.
fn is_idle(w: &World, which: usize) -> bool {
    let (p, s) = (&w.primary, &w.standby);
    match which {
        code::READ => s.mode == Mode::Receiving && w.link.len() < head_record(&w.link),
        code::ACK => w.acks.is_empty(),
        code::TAKE => (0..=MOST_PORT).all(|port| p.free_of(port).is_none()),
        code::DRAIN => p.waiting == 0,
        code::FLUSH => s.due == 0,
        // where B different blocks are written, one of them may come again
        code::DISK_WRITE => p.d == 0 || !p.alone && (p.b == 0 || p.records == MOST_RECORDS),
        _ => false,
    }
}

/// Whether a tick would make the primary alone or the standby take over.
fn ends_something(w: &World, which: usize) -> bool {
    let (p, s) = (&w.primary, &w.standby);
    match which {
        code::PRIMARY_TICK => !p.alone && p.count + 1 == p.t && p.acknowledged as u64 + 1 < p.open as u64,
        code::STANDBY_TICK => s.mode == Mode::Receiving && s.count + 1 == s.t,
        _ => false,
    }
}

/// Mostly the whole record at the head, sometimes less, sometimes more.
fn first_part(r: &Random, from: &[u8]) -> usize {
    let whole = head_record(from);
    match r.below(10) {
        0 => r.below(whole as u64) as usize,
        1 => r.pick(&[0, 3, 4, whole - 1]),
        2 | 3 => whole + r.below(100) as usize,
        _ => whole,
    }
}

/// The next record with some of its bytes changed, or one made up for the standby.
fn damaged_record(r: &Random, w: &World) -> Vec<u8> {
    let whole = head_record(&w.link);
    if w.link.len() < whole || r.percent(30) {
        return made_up_record(r, &w.standby, 10);
    }
    let mut data = w.link[..whole].to_vec();
    for _ in 0..r.range(1, 2) {
        let last = data.len() as u64 - 1;
        let at = r.pick(&[0, 2, 4, 8, 8, 10, r.below(16), r.below(last + 1)]).min(last) as usize;
        data[at] = r.pick(&[data[at] ^ 1, data[at].wrapping_add(1), data[at].wrapping_sub(1), r.next() as u8]);
    }
    data
}
