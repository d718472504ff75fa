//! The calls of the standby.
use super::primary::{store_in_page, write_fits};
use super::records::*;
use super::*;

/// The standby's buffers that a read is lent, besides the reply.
pub struct Staging<'a> {
    pub memory: &'a mut [u8],
    pub pages: &'a mut [u8],
    pub marks: &'a mut [u64],
    pub blocks: &'a mut [u8],
}

pub fn read(s: &mut Standby, lent: &mut Staging, data: &[u8], reply: &mut [u8]) -> Reply {
    if !s.in_range()
        || !exact(lent.memory.len(), s.m * s.u)
        || !exact(lent.pages.len(), s.m * s.u)
        || !exact(lent.marks.len(), mark_words(s.m))
        || !exact(lent.blocks.len(), s.s * s.u)
    {
        return refused(1);
    }
    if s.mode != Mode::Receiving {
        return refused(13);
    }
    let answer = match read_record(data, s.u, |kind| is_read(kind, s.m)) {
        Record::CutShort { missing } => return cut_short(missing),
        Record::Refused(number) => Err(number),
        Record::Page { epoch, page, bytes } => read_page(s, lent, epoch, page, bytes),
        Record::Block { epoch, block, bytes } => read_block(s, lent, epoch, block, bytes),
        Record::State { epoch, cpu } => read_state(s, epoch, cpu),
        Record::Commit { epoch, pages, records } => read_commit(s, lent, epoch, (pages, records), reply),
        Record::Ack { .. } => Err(6),
    };
    match answer {
        Ok((kind, used)) => {
            // document 02, Job 1: "at each accepted record of kinds 1 to 4"; Job 7 treats 8 as 1 and 9 as 4
            s.count = 0;
            Reply { used, ..accepted(kind) }
        }
        Err(number) => refused(number),
    }
}

/// Whether the record's epoch is the last received plus 1; after the last epoch there is none.
fn is_next(s: &Standby, epoch: u32) -> bool {
    s.received.checked_add(1) == Some(epoch)
}

/// The lowest page that is above the last one of this epoch. Pages come in rising order, so that the last is never
/// below their count less 1, whatever the next page says.
fn lowest_page(s: &Standby) -> u64 {
    s.next_page.max(s.pages)
}

/// A record's own kind, 8 and 9 too, and the bytes used; or the number of the refusal.
type Read = Result<(u64, u64), u64>;

fn read_page(s: &mut Standby, lent: &mut Staging, epoch: u32, page: u64, bytes: &[u8]) -> Read {
    if page >= s.m {
        return Err(2);
    }
    if !is_next(s, epoch) {
        return Err(8);
    }
    if s.state_seen || page < lowest_page(s) {
        return Err(9);
    }
    lent.pages[part(page, s.u)].copy_from_slice(bytes);
    lent.marks[(page / 64) as usize] |= 1 << (page % 64);
    s.pages += 1;
    s.next_page = page + 1;
    Ok((page_kind(s.m), page_record(s.u, s.m)))
}

impl Standby {
    /// The first slot of a state in range that has this block of the epoch under way: staged and not due.
    fn slot_of(&self, block: u64) -> Option<u64> {
        (self.due..self.staged).find(|&slot| self.slots[slot as usize] == block)
    }

    /// Counts a BLOCK record of the epoch under way, and its block where that takes the next slot.
    fn note_block(&mut self, block: u64, reused: bool) {
        self.records += 1;
        if !reused {
            self.slots[self.staged as usize] = block;
            self.staged += 1;
            self.blocks += 1;
        }
    }
}

fn read_block(s: &mut Standby, lent: &mut Staging, epoch: u32, block: u64, bytes: &[u8]) -> Read {
    if block >= s.d {
        return Err(2);
    }
    if !is_next(s, epoch) {
        return Err(8);
    }
    if s.state_seen || lowest_page(s) > 0 {
        return Err(9);
    }
    // document 02, Job 9: "reuses the first such slot, with the later bytes and the earlier place"
    let reused = s.slot_of(block);
    if s.records == MOST_RECORDS || s.blocks >= s.b && reused.is_none() {
        return Err(14);
    }
    // "17 isn't given where a slot is reused"
    if s.staged >= s.s && reused.is_none() {
        return Err(17);
    }
    lent.blocks[part(reused.unwrap_or(s.staged), s.u)].copy_from_slice(bytes);
    s.note_block(block, reused.is_some());
    Ok((BLOCK, s.u + 10))
}

fn read_state(s: &mut Standby, epoch: u32, cpu: &[u8]) -> Read {
    if !is_next(s, epoch) {
        return Err(8);
    }
    if s.state_seen {
        return Err(9);
    }
    s.staged_cpu.copy_from_slice(cpu);
    s.state_seen = true;
    Ok((STATE, 72))
}

fn read_commit(s: &mut Standby, lent: &mut Staging, epoch: u32, counts: (u64, u64), reply: &mut [u8]) -> Read {
    if reply.len() < 8 {
        return Err(5);
    }
    if !is_next(s, epoch) {
        return Err(8);
    }
    if !s.state_seen {
        return Err(9);
    }
    // "COMMIT's count is still of records"
    if counts != (s.pages, s.records) {
        return Err(10);
    }
    for_marked(lent.marks, s.m, |page| {
        let range = part(page as u64, s.u);
        lent.memory[range.clone()].copy_from_slice(&lent.pages[range]);
    });
    clear_marks(lent.marks, s.m);
    s.kept_cpu = s.staged_cpu;
    s.due = s.staged;
    s.forget_epoch();
    s.received = epoch;
    put_epoch(reply, ACK, epoch);
    Ok((commit_kind(s.m), commit_record(s.m)))
}

pub fn flush(s: &mut Standby, blocks: &mut [u8], disk: &mut [u8], n: u64) -> Reply {
    if !s.in_range() || !exact(blocks.len(), s.s * s.u) || !exact(disk.len(), s.d * s.u) {
        return refused(1);
    }
    let stored = n.min(s.due);
    for slot in 0..stored {
        disk[part(s.slots[slot as usize], s.u)].copy_from_slice(&blocks[part(slot, s.u)]);
    }
    let (first, staged, u) = (stored as usize, s.staged as usize, s.u as usize);
    blocks.copy_within(first * u..staged * u, 0);
    s.slots.copy_within(first..staged, 0);
    s.slots[staged - first..staged].fill(0);
    s.staged -= stored;
    s.due -= stored;
    accepted(stored)
}

pub fn standby_tick(s: &mut Standby, marks: &mut [u64]) -> Reply {
    if !s.in_range() || !exact(marks.len(), mark_words(s.m)) {
        return refused(1);
    }
    if s.mode != Mode::Receiving {
        return accepted(0);
    }
    s.count += 1;
    if s.count == s.t {
        s.mode = Mode::TakingOver;
        s.staged = s.due;
        s.forget_epoch();
        clear_marks(marks, s.m);
    }
    accepted(0)
}

pub fn activate(s: &mut Standby, area: &mut [u8]) -> Reply {
    if !s.in_range() || !exact(area.len(), 8) {
        return refused(1);
    }
    if s.mode != Mode::TakingOver {
        return refused(13);
    }
    if s.due > 0 {
        return refused(20);
    }
    put_epoch(area, ACTIVATION, s.received);
    s.mode = Mode::Active;
    accepted(s.received as u64)
}

pub fn standby_memory_write(s: &mut Standby, memory: &mut [u8], page: u64, offset: u64, data: &[u8]) -> Reply {
    if !s.in_range() || !exact(memory.len(), s.m * s.u) {
        return refused(1);
    }
    if s.mode != Mode::Active {
        return refused(13);
    }
    if page >= s.m {
        return refused(2);
    }
    if !write_fits(offset, data.len(), s.u) {
        return refused(3);
    }
    store_in_page(memory, s.u, page, offset, data);
    accepted(s.received as u64)
}

pub fn standby_disk_write(s: &mut Standby, disk: &mut [u8], block: u64, data: &[u8]) -> Reply {
    if !s.in_range() || !exact(disk.len(), s.d * s.u) {
        return refused(1);
    }
    if s.mode != Mode::Active {
        return refused(13);
    }
    if block >= s.d {
        return refused(2);
    }
    if !exact(data.len(), s.u) {
        return refused(3);
    }
    disk[part(block, s.u)].copy_from_slice(data);
    accepted(s.received as u64)
}
