//! Memory of every size: runs at the largest settings, with every page dirty, from the start to the takeover.
//!
//! Both sides keep their buffers from call to call, since copying them for each call would take too long. Every call's
//! answer, states, marks and arguments are compared, and of the long buffers the part about the place where the call
//! works and one other part in turn; the whole of them after the calls that change much, and at the end.
use crate::arguments::{arguments, fresh_world, start_args};
use crate::beyond;
use crate::call::call;
use crate::checker::{compare_answer, compare_item, demand, same_bytes, Check};
use crate::items::{code, given, Item};
use crate::kinds::unit_number;
use crate::lent::Lent;
use crate::model::*;
use crate::orders::whole_order;
use crate::random::Random;
use crate::sink::Sink;
use crate::view::View;
use crate::world::{run as run_model, Args, World};
use std::ops::Range;

/// Buffers of more bytes than this are compared in parts.
const PART: usize = 65_536;
/// So many bytes are the part in turn.
const TURN: usize = 16_384;
/// The longest stream here; wide_ends.rs has the longest of all.
const LONGEST: u64 = 33_554_432;

/// Both sides of one run; wide.rs makes its runs with it too.
pub struct Pair<'a> {
    pub r: &'a Random,
    pub sink: &'a mut Sink,
    pub w: World,
    lent: Lent,
    turn: usize,
}

/// The settings of the runs.
fn settings() -> Vec<Settings> {
    let of = |u, m, d, b, s, q, more: u64, t| {
        let l = (least_stream(u, m, b) + more).min(LONGEST);
        Settings { u, m, d, b, s, q, l, t }
    };
    vec![
        of(4_096, 4_096, 4_096, 64, 64, 32_768, u32::MAX as u64, 3),
        of(4_096, 4_095, 4_095, 63, 64, 32_767, 0, 1),
        of(4_032, 4_095, 4_096, 64, 64, 1_514, 84, 2),
        of(4_032, 4_097, 1, 0, 0, 0, 4_044, 4),
        of(64, 4_096, 4_096, 64, 64, 32_768, u32::MAX as u64, 2),
    ]
}

pub fn run(r: &Random, sink: &mut Sink) -> Check {
    settings().into_iter().try_for_each(|settings| one(r, sink, settings))?;
    beyond::run(r, sink);
    Ok(())
}

fn one(r: &Random, sink: &mut Sink, settings: Settings) -> Check {
    let mut pair = Pair::started(r, sink, settings, fresh_world(r, &settings))?;
    pair.write_all_pages()?;
    pair.write_blocks(settings.b + 1)?;
    pair.write_blocks_again()?;
    pair.send_packets()?;
    pair.checkpoint_to_ack()?;
    demand(pair.w.standby_memory == pair.w.memory, "the standby has not received the primary's memory")?;
    pair.same_sums()?;
    pair.write_blocks(settings.b / 2)?;
    pair.write_blocks_again()?;
    pair.write_some_pages()?;
    let mut link = pair.checkpoint_and_drain(&[usize::MAX])?;
    link.truncate(link.len() - commit_record(settings.m) as usize);
    pair.read_all(&link)?;
    pair.take_over()?;
    pair.end_alone()?;
    pair.whole()
}

impl<'a> Pair<'a> {
    /// Both sides after a start at these settings, which is accepted, with these buffers.
    pub fn started(r: &'a Random, sink: &'a mut Sink, settings: Settings, w: World) -> Result<Pair<'a>, String> {
        let mut pair = Pair { r, sink, w, lent: Lent::new(), turn: 0 };
        let mut a = start_args(r, settings);
        View::new(&pair.w, &a).lend_all(&mut pair.lent, code::START);
        let reply = pair.make(code::START, &mut a)?;
        demand(reply.number == 0, "the start is refused")?;
        Ok(pair)
    }

    /// Puts both sides' standby into this state.
    pub fn set_standby(&mut self, standby: Standby) {
        self.w.standby = standby;
        let none = Args::none();
        let view = View::new(&self.w, &none);
        [Item::Standby, Item::Pending, Item::Kept].iter().for_each(|&item| view.lend(&mut self.lent, item));
    }

    /// Makes one call on both sides and compares.
    fn make(&mut self, which: usize, a: &mut Args) -> Result<Reply, String> {
        self.sink.calls += 1;
        let answer = call(which, &mut self.lent);
        let reply = run_model(which, &mut self.w, a);
        let check = compare_answer(answer, &reply).and_then(|()| self.compare(which, a));
        check.map_err(|what| self.sink.told(which, &what))?;
        self.sink.note(which, &reply, &self.w, a);
        self.turn += 1;
        Ok(reply)
    }

    /// Lends the call's arguments; everything else is there from the calls before.
    pub fn step(&mut self, which: usize, a: &mut Args) -> Result<Reply, String> {
        let view = View::new(&self.w, a);
        for item in given(which).filter(|&item| is_argument(item)) {
            view.lend(&mut self.lent, item);
        }
        self.make(which, a)
    }

    /// A call with arguments made up for the state, none of them odd.
    pub fn plain(&mut self, which: usize) -> Result<Reply, String> {
        let mut a = arguments(self.r, which, &self.w, 0);
        self.step(which, &mut a)
    }

    /// Compares what the call was given: the long buffers whole only after the calls that change much of them.
    fn compare(&self, which: usize, a: &Args) -> Check {
        let view = View::new(&self.w, a);
        let whole = matches!(which, code::START | code::CHECKPOINT | code::DRAIN | code::FLUSH | code::CHOICE);
        given(which).try_for_each(|item| {
            if whole || !item.is_bytes() || view.bytes(item).len() <= PART {
                compare_item(&self.lent, item, &view)
            } else {
                let wanted = view.bytes(item);
                let mut parts = self.parts(which, item, a, wanted.len()).into_iter();
                parts.try_for_each(|part| same_bytes(&self.lent, item, wanted, part))
            }
        })
    }

    /// The part of a long buffer about the place where the call works, and another one in turn.
    fn parts(&self, which: usize, item: Item, a: &Args, length: usize) -> [Range<usize>; 2] {
        let u = self.w.primary.u as usize;
        let place = match item {
            Item::Stream => self.w.primary.waiting as usize,
            _ if which == code::READ => (unit_number(&a.data).unwrap_or(0) as usize).saturating_mul(u),
            _ => (a.place as usize).saturating_mul(u),
        };
        let other = self.turn % length.div_ceil(TURN) * TURN;
        [place.saturating_sub(2 * u)..place.saturating_add(3 * u), other..other + TURN]
    }

    /// Compares all that both sides hold, to the last byte.
    pub fn whole(&self) -> Check {
        let none = Args::none();
        let view = View::new(&self.w, &none);
        let mut all = given(code::START).filter(|&item| !is_argument(item));
        let check = all.try_for_each(|item| compare_item(&self.lent, item, &view));
        check.map_err(|what| format!("difference in all buffers before call {}: {what}", self.sink.calls + 1))
    }

    /// Every page is written once, not in their order.
    pub fn write_all_pages(&mut self) -> Check {
        let (u, m) = (self.w.primary.u, self.w.primary.m);
        for turn in 0..m {
            let mut a = Args::none();
            // 1,009 is prime and divides no M of these runs, so that every page comes.
            a.place = turn * 1_009 % m;
            let length = if turn % 8 == 0 { u } else { self.r.range(1, 16) };
            a.offset = self.r.pick(&[0, u - length, self.r.below(u - length + 1)]);
            a.data = self.r.bytes(length);
            self.step(code::MEMORY_WRITE, &mut a)?;
        }
        let clean = (0..m).filter(|page| self.w.marks[(page / 64) as usize] >> (page % 64) & 1 == 0).count();
        demand(clean == 0, "a page is not dirty")?;
        self.whole()
    }

    /// The sum at the primary.
    pub fn sum(&mut self) -> Result<u64, String> {
        let reply = self.plain(code::PRIMARY_SUM)?;
        if reply.number == 0 { Ok(reply.value) } else { Err(format!("a sum is refused with {}", reply.number)) }
    }

    /// The sum at the standby in this order, which must give this number.
    pub fn sum_in(&mut self, order: Vec<u64>, number: u64) -> Result<u64, String> {
        let reply = self.step(code::STANDBY_SUM, &mut Args { order, ..Args::none() })?;
        if reply.number == number { Ok(reply.value) } else { Err(format!("a sum gives {}", reply.number)) }
    }

    /// On equal memories both ends give the same sum.
    pub fn same_sums(&mut self) -> Check {
        let order = whole_order(self.r, self.w.standby.m);
        demand(self.sum()? == self.sum_in(order, 0)?, "the sums of equal memories differ")
    }

    /// Some pages, among them the first and the last.
    fn write_some_pages(&mut self) -> Check {
        let last = self.w.primary.m - 1;
        for turn in 0..500 {
            let mut a = arguments(self.r, code::MEMORY_WRITE, &self.w, 3);
            a.place = if turn < 2 { turn * last } else { a.place };
            self.step(code::MEMORY_WRITE, &mut a)?;
        }
        Ok(())
    }

    /// So many different blocks, where there are as many: the first, then the others from the last down.
    fn write_blocks(&mut self, count: u64) -> Check {
        for turn in 0..count {
            let mut a = arguments(self.r, code::DISK_WRITE, &self.w, 0);
            a.place = turn * (self.w.primary.d - 1) % self.w.primary.d;
            self.step(code::DISK_WRITE, &mut a)?;
        }
        Ok(())
    }

    /// The open epoch's blocks again, as often as the stream has more bytes than its least, but not without end.
    fn write_blocks_again(&mut self) -> Check {
        let Primary { u, m, b, l, blocks, written, .. } = self.w.primary;
        let room = if blocks == 0 { 0 } else { (l - least_stream(u, m, b)) / (u + 10) };
        for turn in 0..room.min(200) {
            let mut a = arguments(self.r, code::DISK_WRITE, &self.w, 0);
            a.place = written[(turn * 7 % blocks) as usize];
            demand(self.step(code::DISK_WRITE, &mut a)?.number == 0, "a block is refused that comes again")?;
        }
        demand(self.w.primary.blocks == blocks, "a block that comes again is counted")
    }

    fn send_packets(&mut self) -> Check {
        (0..70).try_for_each(|_| self.plain(code::PACKET).map(|_| ()))
    }

    /// A checkpoint of all pages, drained in three parts that cut records, read to its COMMIT and acknowledged.
    fn checkpoint_to_ack(&mut self) -> Check {
        let link = self.checkpoint_and_drain(&[5_000_003, 7, usize::MAX])?;
        let kind = page_kind(self.w.primary.m) as usize;
        let pages = self.sink.records[kind];
        let ack = self.read_all(&link)?;
        demand(self.sink.records[kind] - pages == self.w.primary.m, "not every page was sent")?;
        self.step(code::ACK, &mut Args { data: ack, ..Args::none() })?;
        let due = self.w.standby.due;
        self.step(code::FLUSH, &mut Args { n: due / 3, ..Args::none() })?;
        self.plain(code::TAKE)?;
        self.whole()
    }

    /// A checkpoint, and all that waits drained by these budgets.
    fn checkpoint_and_drain(&mut self, budgets: &[usize]) -> Result<Vec<u8>, String> {
        let reply = self.plain(code::CHECKPOINT)?;
        demand(reply.number == 0, "the checkpoint is refused")?;
        // One more finds no page dirty; where L is the least it may lack the bytes.
        self.plain(code::CHECKPOINT)?;
        self.drain(budgets)
    }

    /// All that waits, drained by these budgets.
    pub fn drain(&mut self, budgets: &[usize]) -> Result<Vec<u8>, String> {
        let mut link = Vec::new();
        for &budget in budgets {
            let waiting = self.w.primary.waiting as usize;
            let mut a = Args { n: budget as u64, out: vec![9; budget.min(waiting + 5)], ..Args::none() };
            let reply = self.step(code::DRAIN, &mut a)?;
            link.extend_from_slice(&a.out[..reply.value as usize]);
        }
        demand(self.w.primary.waiting == 0, "the stream is not drained")?;
        Ok(link)
    }

    /// Reads the records one after the other, some of them cut short first; the last ACK.
    pub fn read_all(&mut self, link: &[u8]) -> Result<Vec<u8>, String> {
        let (mut at, mut ack) = (0, Vec::new());
        while at + 4 <= link.len() {
            let whole = 4 + u16::from_le_bytes([link[at], link[at + 1]]) as usize;
            let end = (at + whole).min(link.len());
            if self.r.percent(2) {
                self.read_first_part(&link[at..end])?;
            }
            let (reply, out) = self.read(&link[at..end])?;
            if reply.number == 17 {
                let due = self.w.standby.due;
                self.step(code::FLUSH, &mut Args { n: due, ..Args::none() })?;
                continue;
            }
            demand(reply.number == 0, "a record is refused")?;
            demand(reply.value == link[at + 2] as u64, "another kind was read")?;
            at += reply.used as usize;
            ack = if is_commit(reply.value) { out[..8].to_vec() } else { ack };
        }
        Ok(ack)
    }

    /// A first part of a record is cut short; what is missing ends where its header or the record itself does.
    fn read_first_part(&mut self, record: &[u8]) -> Check {
        let length = self.r.below(record.len() as u64);
        let (reply, _) = self.read(&record[..length as usize])?;
        demand(reply.number == CUT_SHORT && reply.used == 0, "a first part of a record is not cut short")?;
        let end = if length < 4 { 4 } else { record.len() as u64 };
        demand(length + reply.missing == end, "what is missing is not the rest")
    }

    pub fn read(&mut self, data: &[u8]) -> Result<(Reply, Vec<u8>), String> {
        let mut a = Args { data: data.to_vec(), out: self.r.bytes(9), ..Args::none() };
        let reply = self.step(code::READ, &mut a)?;
        if reply.number == 0 && is_commit(reply.value) {
            self.whole()?;
        }
        Ok((reply, a.out))
    }

    /// Ticks, a flush of all due, activation, writes of the guest, and the disk choice.
    pub fn take_over(&mut self) -> Check {
        while self.w.standby.mode == Mode::Receiving {
            self.plain(code::STANDBY_TICK)?;
        }
        self.plain(code::ACTIVATION)?;
        self.step(code::FLUSH, &mut Args { n: u64::MAX, ..Args::none() })?;
        self.plain(code::ACTIVATION)?;
        demand(self.w.standby.mode == Mode::Active, "not active after the takeover")?;
        for _ in 0..100 {
            self.plain(code::STANDBY_MEMORY_WRITE)?;
            self.plain(code::STANDBY_DISK_WRITE)?;
        }
        self.plain(code::CHOICE).map(|_| ())
    }

    /// The primary goes on alone: ticks, packets that leave, and blocks that append nothing.
    fn end_alone(&mut self) -> Check {
        self.write_some_pages()?;
        while !self.w.primary.alone {
            self.plain(code::PRIMARY_TICK)?;
        }
        self.write_blocks(self.w.primary.b + 2)?;
        while self.w.primary.packets > 0 {
            self.plain(code::TAKE)?;
        }
        self.plain(code::CHECKPOINT).map(|_| ())
    }
}

/// Whether an item is given anew by each call.
fn is_argument(item: Item) -> bool {
    use Item::*;
    matches!(item, Settings | Order | Cpu | Data | Out | Place | Offset | N | Port)
}
