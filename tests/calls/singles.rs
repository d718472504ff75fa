//! Single calls on random states, starts and disk choices.
use crate::arguments::*;
use crate::items::{calls_of, calls_of_ends, code, is_of, Item, INPUT};
use crate::made_up::record;
use crate::model::*;
use crate::random::Random;
use crate::sink::Sink;
use crate::states::{any_primary, any_standby, epoch};
use crate::world::{Args, World};

/// Settings for a single call. What the call's buffers do not depend on may be anything in range.
fn settings_for(r: &Random, which: usize) -> Settings {
    let mut s = match r.below(40) {
        0 => limit_settings(r),
        1 if r.percent(15) => large_settings(r),
        _ => small_settings(r),
    };
    if matches!(which, code::DISK_WRITE | code::READ) && r.percent(8) {
        s = with_many_slots(r, s);
    }
    let lent = |items: &[Item]| INPUT[which].iter().any(|item| items.contains(item));
    let has_pages = lent(&[Item::Memory, Item::StandbyMemory, Item::Pages]);
    let has_blocks = lent(&[Item::Disk, Item::StandbyDisk, Item::Blocks]);
    let has_stream = lent(&[Item::Stream]);
    if lent(&[Item::Held]) && r.percent(5) {
        s.q = r.pick(&[1_513, 1_514, 1_515, 3_000, 3_028]);
    }
    if r.percent(50) {
        return s;
    }
    if !has_pages && !has_blocks && !has_stream {
        s.u = r.pick(&[64, 128, 4_032, 4_096, 64 * r.range(1, 64)]);
        s.m = r.pick(&[1, 63, 64, 65, 4_095, 4_096, 4_097, 65_535, 65_536, r.range(1, 4_096), r.range(1, MOST_PAGES)]);
    }
    if !lent(&[Item::Disk, Item::StandbyDisk]) {
        s.d = r.pick(&[0, 1, 4_095, 4_096, r.range(0, 4_096)]);
    }
    if !lent(&[Item::Held]) {
        s.q = r.pick(&[0, 1, 32_767, 32_768]);
    }
    if !has_stream {
        let least = least_stream(s.u, s.m, s.b);
        s.l = r.pick(&[least, least + 1, MOST_STREAM, MOST_STREAM - 1, r.range(least, MOST_STREAM)]);
        s.t = r.pick(&[1, 2, 3, 60_000, 59_999]);
    }
    s
}

/// The product as a length, where a buffer is given so many bytes, else a short one.
fn length(a: u64, b: u64) -> u64 {
    a.checked_mul(b).filter(|&product| product <= MOST).unwrap_or(64)
}

/// A world for one call: the states as given, the call's buffers as long as the states ask.
fn lend(r: &Random, which: usize, primary: Primary, standby: Standby) -> World {
    let mut w = fresh_world(r, &Settings::default());
    for item in INPUT[which] {
        let (p, s) = (&primary, &standby);
        match item {
            Item::Memory => w.memory = r.bytes(length(p.m, p.u)),
            Item::Disk => w.disk = r.bytes(length(p.d, p.u)),
            Item::Marks => w.marks = marks(r, p.m),
            Item::Held => w.held = r.bytes(length(p.q, 1)),
            Item::Stream => w.stream = r.bytes(length(p.l, 1)),
            Item::StandbyMemory => w.standby_memory = r.bytes(length(s.m, s.u)),
            Item::StandbyDisk => w.standby_disk = r.bytes(length(s.d, s.u)),
            Item::Pages => w.pages = r.bytes(length(s.m, s.u)),
            Item::StandbyMarks => w.standby_marks = marks(r, s.m),
            Item::Blocks => w.blocks = r.bytes(length(s.s, s.u)),
            _ => {}
        }
    }
    (w.primary, w.standby) = (primary, standby);
    w
}

/// Marks of every sort: none, all, many, few.
fn marks(r: &Random, m: u64) -> Vec<u64> {
    let sort = r.below(4);
    let mut words = r.words(mark_words(m).min(4_096));
    for word in words.iter_mut() {
        *word = match sort {
            0 => 0,
            1 => u64::MAX,
            2 => *word,
            _ => *word & r.next() & r.next(),
        };
    }
    words
}

pub fn any_world(r: &Random, which: usize) -> World {
    let settings = settings_for(r, which);
    world_at(r, which, &settings)
}

/// Any states in range at these settings.
fn world_at(r: &Random, which: usize, s: &Settings) -> World {
    let (primary, standby) = (any_primary(r, s), any_standby(r, s, which));
    lend(r, which, primary, standby)
}

fn any_call(r: &Random) -> usize {
    r.weighted(&[0, 8, 10, 8, 12, 6, 14, 10, 4, 30, 8, 5, 6, 7, 7, 0, 3, 6])
}

/// Any state in range, arguments odd in some of a hundred: two reasons of a refusal often meet.
pub fn any_single(r: &Random, sink: &mut Sink) {
    let which = any_call(r);
    let w = any_world(r, which);
    single(r, sink, which, w);
}

/// The same at these settings.
pub fn single_at(r: &Random, sink: &mut Sink, settings: &Settings) {
    let which = any_call(r);
    let w = world_at(r, which, settings);
    single(r, sink, which, w);
}

fn single(r: &Random, sink: &mut Sink, which: usize, mut w: World) {
    let odd = r.pick(&[0, 5, 15, 30]);
    let mut a = arguments(r, which, &w, odd);
    if r.percent(3) {
        a.data = r.bytes(70);
    }
    sink.call(which, &mut w, &mut a);
}

/// One thing of the state pushed out of its range, everything else in range and lent exactly.
pub fn pushed_out(r: &Random, sink: &mut Sink, clause: u64) {
    let end = r.pick(&[Item::Primary, Item::Standby]);
    let which = one_of(r, calls_of(end));
    let s = settings_for(r, which);
    let (mut primary, mut standby) = (any_primary(r, &s), any_standby(r, &s, which));
    let pushed = if is_of(which, Item::Primary) {
        crate::outside::push_primary(r, &mut primary, clause)
    } else {
        crate::outside::push_standby(r, &mut standby, clause)
    };
    if pushed {
        let odd = r.pick(&[0, 0, 0, 30]);
        let mut w = lend(r, which, primary, standby);
        let mut a = arguments(r, which, &w, odd);
        sink.call(which, &mut w, &mut a);
    }
}

/// A refused start's states: every call gives 1, whatever is lent.
pub fn on_zero(r: &Random, sink: &mut Sink) {
    let which = one_of(r, calls_of_ends());
    let mut w = any_world(r, which);
    let mut a = arguments(r, which, &w, 10);
    if r.percent(40) {
        w = lend(r, which, Primary::zero(), Standby::zero());
    }
    (w.primary, w.standby) = (Primary::zero(), Standby::zero());
    sink.call(which, &mut w, &mut a);
}

/// One lent buffer too short or too long, everything else right.
pub fn wrong_length(r: &Random, sink: &mut Sink) {
    let which = r.pick(&[1, 2, 3, 4, 5, 7, 9, 9, 10, 11, 12, 13, 14, 16, 17]);
    let mut w = any_world(r, which);
    let odd = r.pick(&[0, 0, 4]);
    let mut a = arguments(r, which, &w, odd);
    let lent: Vec<Item> = INPUT[which].iter().copied().filter(|item| is_lent(*item)).collect();
    let one = r.pick(&lent);
    spoil(r, &mut w, one);
    sink.call(which, &mut w, &mut a);
}

fn one_of(r: &Random, calls: impl Iterator<Item = usize>) -> usize {
    r.pick(&calls.collect::<Vec<usize>>())
}

fn is_lent(item: Item) -> bool {
    use Item::*;
    let lent = [Memory, Disk, Marks, Held, Stream, StandbyMemory, StandbyDisk, Pages, StandbyMarks, Blocks, Area];
    lent.contains(&item)
}

/// Changes the length of one lent buffer.
fn spoil(r: &Random, w: &mut World, item: Item) {
    match item {
        Item::Marks => spoil_length(r, &mut w.marks, 0),
        Item::StandbyMarks => spoil_length(r, &mut w.standby_marks, 0),
        Item::Memory => spoil_length(r, &mut w.memory, 7),
        Item::Disk => spoil_length(r, &mut w.disk, 7),
        Item::Held => spoil_length(r, &mut w.held, 7),
        Item::Stream => spoil_length(r, &mut w.stream, 7),
        Item::StandbyMemory => spoil_length(r, &mut w.standby_memory, 7),
        Item::StandbyDisk => spoil_length(r, &mut w.standby_disk, 7),
        Item::Pages => spoil_length(r, &mut w.pages, 7),
        Item::Blocks => spoil_length(r, &mut w.blocks, 7),
        _ => spoil_length(r, &mut w.area, 7),
    }
}

fn spoil_length<T: Copy>(r: &Random, buffer: &mut Vec<T>, filler: T) {
    let length = buffer.len();
    let changed = r.pick(&[length + 1, length.saturating_sub(1), length + 1, length.saturating_sub(1), length + 64, 0]);
    buffer.resize(changed.min(MOST as usize), filler);
}

/// A start at these settings with one lent buffer of the wrong length, or none.
pub fn start(r: &Random, sink: &mut Sink, settings: Settings, spoiled: bool) {
    let bounded = crate::outside::lendable(&settings);
    let mut w = fresh_world(r, &bounded);
    if spoiled {
        let lent: Vec<Item> = INPUT[code::START].iter().copied().filter(|item| is_lent(*item)).collect();
        let one = r.pick(&lent);
        spoil(r, &mut w, one);
    }
    let mut a = start_args(r, settings);
    sink.call(code::START, &mut w, &mut a);
}

/// A disk choice with an area of every sort, and disks of equal or unequal lengths.
pub fn choice(r: &Random, sink: &mut Sink) {
    let mut w = fresh_world(r, &Settings::default());
    let size = r.pick(&[0, 1, 64, 64, 128, 192, 200]);
    w.disk = r.bytes(size);
    w.standby_disk = if r.percent(15) { w.disk.clone() } else { r.bytes(size) };
    w.area = match r.below(6) {
        0 | 1 => vec![0; 8],
        2 | 3 => record(4, 6, epoch(r), &[]),
        4 => r.bytes(8),
        _ => [vec![0; 4], r.bytes(4)].concat(),
    };
    if r.percent(35) {
        let at = r.below(8) as usize;
        w.area[at] ^= r.pick(&[1, 2, 4, 128, r.next() as u8]);
    }
    if r.percent(12) {
        let long = r.pick(&[0, 1, 4, 7, 9, 16]);
        w.area.resize(long, r.pick(&[0, 1]));
    }
    if r.percent(12) {
        spoil_length(r, &mut w.standby_disk, 9);
    }
    sink.call(code::CHOICE, &mut w, &mut Args::none());
}
