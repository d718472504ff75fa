//! The model's world and a call's arguments as the words and bytes of the C interface.
use crate::items::{
    given, Item, PACKET_WORDS, PRIMARY_FIRST_WORDS, PRIMARY_WORDS, SETTINGS_WORDS, SIZES_WORDS, SLOTS_AT,
    STANDBY_LAST_AT, STANDBY_WORDS, WRITTEN_AT,
};
use crate::lent::Lent;
use crate::model::{Mode, Primary, Settings, Standby};
use crate::world::{Args, World};

pub struct View<'a> {
    w: &'a World,
    a: &'a Args,
    settings: [u64; SETTINGS_WORDS],
    primary: [u64; PRIMARY_WORDS],
    standby: [u64; STANDBY_WORDS],
}

impl<'a> View<'a> {
    pub fn new(w: &'a World, a: &'a Args) -> View<'a> {
        let settings = settings_words(&a.settings);
        View { w, a, settings, primary: primary_words(&w.primary), standby: standby_words(&w.standby) }
    }

    pub fn words(&self, item: Item) -> &[u64] {
        match item {
            Item::Settings => &self.settings,
            Item::Primary => &self.primary,
            Item::Standby => &self.standby,
            Item::Marks => &self.w.marks,
            Item::StandbyMarks => &self.w.standby_marks,
            Item::Sizes => &self.settings[..SIZES_WORDS],
            _ => &self.a.order,
        }
    }

    pub fn bytes(&self, item: Item) -> &[u8] {
        match item {
            Item::Cpu => &self.a.cpu,
            Item::Pending => &self.w.standby.staged_cpu,
            Item::Kept => &self.w.standby.kept_cpu,
            Item::Memory => &self.w.memory,
            Item::Disk => &self.w.disk,
            Item::Held => &self.w.held,
            Item::Stream => &self.w.stream,
            Item::StandbyMemory => &self.w.standby_memory,
            Item::StandbyDisk => &self.w.standby_disk,
            Item::Pages => &self.w.pages,
            Item::Blocks => &self.w.blocks,
            Item::Area => &self.w.area,
            Item::Data => &self.a.data,
            _ => &self.a.out,
        }
    }

    pub fn number(&self, item: Item) -> u64 {
        match item {
            Item::Place => self.a.place,
            Item::Offset => self.a.offset,
            Item::N => self.a.n,
            _ => self.a.port,
        }
    }

    /// Lends one item.
    pub fn lend(&self, l: &mut Lent, item: Item) {
        if item.is_words() {
            l.words_mut(item).load(self.words(item));
        } else if item.is_bytes() {
            l.bytes_mut(item).load(self.bytes(item));
        } else {
            l.set_number(item, self.number(item));
        }
    }

    /// Lends everything that the call is given. The states that start makes hold other words before, so that a word
    /// which it leaves is seen.
    pub fn lend_all(&self, l: &mut Lent, which: usize) {
        given(which).for_each(|item| self.lend(l, item));
        l.lend_states(which, 0x0123_4567_89ab_cdef, 0x5c);
    }
}

fn settings_words(s: &Settings) -> [u64; SETTINGS_WORDS] {
    [s.u, s.m, s.d, s.b, s.s, s.q, s.l, s.t]
}

fn primary_words(p: &Primary) -> [u64; PRIMARY_WORDS] {
    let mut words = [0; PRIMARY_WORDS];
    words[..PRIMARY_FIRST_WORDS].copy_from_slice(&[
        p.u, p.m, p.d, p.b, p.q, p.l, p.t, p.count, p.open as u64, p.acknowledged as u64, p.alone as u64, p.blocks,
        p.records, p.waiting, p.packets, p.held,
    ]);
    for (entry, packet) in words[PRIMARY_FIRST_WORDS..WRITTEN_AT].chunks_exact_mut(PACKET_WORDS).zip(&p.queue) {
        entry.copy_from_slice(&[packet.epoch as u64, packet.length, packet.port as u64]);
    }
    words[WRITTEN_AT..].copy_from_slice(&p.written);
    words
}

fn standby_words(s: &Standby) -> [u64; STANDBY_WORDS] {
    let mode = match s.mode {
        Mode::Receiving => 0,
        Mode::TakingOver => 1,
        Mode::Active => 2,
    };
    let mut words = [0; STANDBY_WORDS];
    let head = [s.u, s.m, s.d, s.b, s.s, s.t, s.count, mode, s.received as u64, s.staged, s.due];
    words[..SLOTS_AT].copy_from_slice(&head);
    words[SLOTS_AT..STANDBY_LAST_AT].copy_from_slice(&s.slots);
    words[STANDBY_LAST_AT..].copy_from_slice(&[s.blocks, s.records, s.pages, s.next_page, s.state_seen as u64]);
    words
}
