//! One call of the library by its code, on what is lent.
use crate::capi::*;
use crate::items::{code, Item::*};
use crate::lent::Lent;

const CUT_SHORT: u64 = 256;

/// The fields of an answer's word.
#[derive(Clone, Copy, PartialEq, Debug)]
pub struct Answer {
    pub number: u64,
    pub used: u64,
    pub missing: u64,
    pub value: u64,
}

impl Answer {
    /// The 16 bits between number and value are the bytes missing where the record is cut short, else the bytes used.
    pub fn of(word: u64) -> Answer {
        let (number, count, value) = (word & 0xffff, word >> 16 & 0xffff, word >> 32);
        let (used, missing) = if number == CUT_SHORT { (0, count) } else { (count, 0) };
        Answer { number, used, missing, value }
    }
}

/// Makes the call. Every slice that it is lent is a buffer of its own, and every processor state has 64 bytes.
pub fn call(which: usize, l: &mut Lent) -> Answer {
    let word = match which {
        code::START => start(l),
        code::MEMORY_WRITE => memory_write(l),
        code::DISK_WRITE => disk_write(l),
        code::PACKET => packet(l),
        code::CHECKPOINT => checkpoint(l),
        code::DRAIN => drain(l),
        code::ACK => acknowledge(l),
        code::TAKE => take(l),
        code::PRIMARY_TICK => tick(l),
        code::READ => read(l),
        code::FLUSH => flush(l),
        code::STANDBY_TICK => tick_at_standby(l),
        code::ACTIVATION => activate(l),
        code::STANDBY_MEMORY_WRITE => memory_write_at_standby(l),
        code::STANDBY_DISK_WRITE => disk_write_at_standby(l),
        code::CHOICE => choice(l),
        code::PRIMARY_SUM => sum(l),
        code::STANDBY_SUM => sum_at_standby(l),
        _ => normal_form(l),
    };
    Answer::of(word)
}

fn start(l: &mut Lent) -> u64 {
    let (settings, first) = (l.word_slice(Settings), l.byte_slice(Cpu));
    let (memory, disk, marks) = (l.byte_slice(Memory), l.byte_slice(Disk), l.word_slice(Marks));
    let (held, stream) = (l.byte_slice(Held), l.byte_slice(Stream));
    let (standby_memory, standby_disk) = (l.byte_slice(StandbyMemory), l.byte_slice(StandbyDisk));
    let (pages, staged, blocks) = (l.byte_slice(Pages), l.word_slice(StandbyMarks), l.byte_slice(Blocks));
    let (area, primary, standby) = (l.byte_slice(Area), l.word_slice(Primary), l.word_slice(Standby));
    let (pending, kept) = (l.byte_slice(Pending), l.byte_slice(Kept));
    unsafe {
        pair_start(
            settings.at, settings.len, first.at, memory.at, memory.len, disk.at, disk.len, marks.at, marks.len,
            held.at, held.len, stream.at, stream.len, standby_memory.at, standby_memory.len, standby_disk.at,
            standby_disk.len, pages.at, pages.len, staged.at, staged.len, blocks.at, blocks.len, area.at, area.len,
            primary.at, primary.len, standby.at, standby.len, pending.at, kept.at,
        )
    }
}

fn memory_write(l: &mut Lent) -> u64 {
    let (state, memory, marks) = (l.word_slice(Primary), l.byte_slice(Memory), l.word_slice(Marks));
    let (page, offset, data) = (l.size(Place), l.size(Offset), l.byte_slice(Data));
    unsafe {
        primary_memory_write(
            state.at, state.len, memory.at, memory.len, marks.at, marks.len, page, offset, data.at, data.len,
        )
    }
}

fn disk_write(l: &mut Lent) -> u64 {
    let (state, disk, stream) = (l.word_slice(Primary), l.byte_slice(Disk), l.byte_slice(Stream));
    let (block, data) = (l.size(Place), l.byte_slice(Data));
    unsafe {
        primary_disk_write(
            state.at, state.len, disk.at, disk.len, stream.at, stream.len, block, data.at, data.len,
        )
    }
}

fn packet(l: &mut Lent) -> u64 {
    let (state, held, port, data) = (l.word_slice(Primary), l.byte_slice(Held), l.size(Port), l.byte_slice(Data));
    unsafe { primary_packet(state.at, state.len, held.at, held.len, port, data.at, data.len) }
}

fn checkpoint(l: &mut Lent) -> u64 {
    let (state, memory, marks) = (l.word_slice(Primary), l.byte_slice(Memory), l.word_slice(Marks));
    let (stream, processor) = (l.byte_slice(Stream), l.byte_slice(Cpu));
    unsafe {
        primary_checkpoint(
            state.at, state.len, memory.at, memory.len, marks.at, marks.len, stream.at, stream.len, processor.at,
        )
    }
}

fn drain(l: &mut Lent) -> u64 {
    let (state, stream, n, out) = (l.word_slice(Primary), l.byte_slice(Stream), l.size(N), l.byte_slice(Out));
    unsafe { primary_drain(state.at, state.len, stream.at, stream.len, n, out.at, out.len) }
}

fn acknowledge(l: &mut Lent) -> u64 {
    let (state, data) = (l.word_slice(Primary), l.byte_slice(Data));
    unsafe { primary_acknowledge(state.at, state.len, data.at, data.len) }
}

fn take(l: &mut Lent) -> u64 {
    let (state, held, port, out) = (l.word_slice(Primary), l.byte_slice(Held), l.size(Port), l.byte_slice(Out));
    unsafe { primary_take(state.at, state.len, held.at, held.len, port, out.at, out.len) }
}

fn tick(l: &mut Lent) -> u64 {
    let state = l.word_slice(Primary);
    unsafe { primary_tick(state.at, state.len) }
}

fn read(l: &mut Lent) -> u64 {
    let (state, pending, kept) = (l.word_slice(Standby), l.byte_slice(Pending), l.byte_slice(Kept));
    let (memory, pages, marks) = (l.byte_slice(StandbyMemory), l.byte_slice(Pages), l.word_slice(StandbyMarks));
    let (blocks, data, reply) = (l.byte_slice(Blocks), l.byte_slice(Data), l.byte_slice(Out));
    unsafe {
        standby_read(
            state.at, state.len, pending.at, kept.at, memory.at, memory.len, pages.at, pages.len, marks.at,
            marks.len, blocks.at, blocks.len, data.at, data.len, reply.at, reply.len,
        )
    }
}

fn flush(l: &mut Lent) -> u64 {
    let (state, pending, kept) = (l.word_slice(Standby), l.byte_slice(Pending), l.byte_slice(Kept));
    let (blocks, disk, n) = (l.byte_slice(Blocks), l.byte_slice(StandbyDisk), l.size(N));
    unsafe {
        standby_flush(state.at, state.len, pending.at, kept.at, blocks.at, blocks.len, disk.at, disk.len, n)
    }
}

fn tick_at_standby(l: &mut Lent) -> u64 {
    let (state, pending, kept) = (l.word_slice(Standby), l.byte_slice(Pending), l.byte_slice(Kept));
    let marks = l.word_slice(StandbyMarks);
    unsafe { standby_tick(state.at, state.len, pending.at, kept.at, marks.at, marks.len) }
}

fn activate(l: &mut Lent) -> u64 {
    let (state, pending, kept) = (l.word_slice(Standby), l.byte_slice(Pending), l.byte_slice(Kept));
    let area = l.byte_slice(Area);
    unsafe { standby_activate(state.at, state.len, pending.at, kept.at, area.at, area.len) }
}

fn memory_write_at_standby(l: &mut Lent) -> u64 {
    let (state, pending, kept) = (l.word_slice(Standby), l.byte_slice(Pending), l.byte_slice(Kept));
    let (memory, page, offset, data) =
        (l.byte_slice(StandbyMemory), l.size(Place), l.size(Offset), l.byte_slice(Data));
    unsafe {
        standby_memory_write(
            state.at, state.len, pending.at, kept.at, memory.at, memory.len, page, offset, data.at, data.len,
        )
    }
}

fn disk_write_at_standby(l: &mut Lent) -> u64 {
    let (state, pending, kept) = (l.word_slice(Standby), l.byte_slice(Pending), l.byte_slice(Kept));
    let (disk, block, data) = (l.byte_slice(StandbyDisk), l.size(Place), l.byte_slice(Data));
    unsafe {
        standby_disk_write(
            state.at, state.len, pending.at, kept.at, disk.at, disk.len, block, data.at, data.len,
        )
    }
}

fn choice(l: &mut Lent) -> u64 {
    let (primary, standby, area) = (l.byte_slice(Disk), l.byte_slice(StandbyDisk), l.byte_slice(Area));
    unsafe { pair_disk_choice(primary.at, primary.len, standby.at, standby.len, area.at, area.len) }
}

fn sum(l: &mut Lent) -> u64 {
    let (state, memory) = (l.word_slice(Primary), l.byte_slice(Memory));
    unsafe { primary_sum(state.at, state.len, memory.at, memory.len) }
}

fn sum_at_standby(l: &mut Lent) -> u64 {
    let (state, pending, kept) = (l.word_slice(Standby), l.byte_slice(Pending), l.byte_slice(Kept));
    let (memory, order) = (l.byte_slice(StandbyMemory), l.word_slice(Order));
    unsafe {
        standby_sum(state.at, state.len, pending.at, kept.at, memory.at, memory.len, order.at, order.len)
    }
}

fn normal_form(l: &mut Lent) -> u64 {
    let sizes: Vec<usize> = l.words(Sizes).items().iter().map(|&size| size as usize).collect();
    let (file, out) = (l.byte_slice(Data), l.byte_slice(Out));
    unsafe { pair_normal_form(sizes[0], sizes[1], sizes[2], sizes[3], file.at, file.len, out.at, out.len) }
}
