//! The calls of the primary.
use super::records::*;
use super::*;

/// Whether a memory write of this length at this offset is inside one page and not empty.
pub(super) fn write_fits(offset: u64, length: usize, u: u64) -> bool {
    length >= 1 && offset < u && length as u64 <= u - offset
}

pub(super) fn store_in_page(memory: &mut [u8], u: u64, page: u64, offset: u64, data: &[u8]) {
    let at = (page * u + offset) as usize;
    memory[at..at + data.len()].copy_from_slice(data);
}

pub fn memory_write(
    p: &mut Primary, memory: &mut [u8], marks: &mut [u64], page: u64, offset: u64, data: &[u8],
) -> Reply {
    if !p.in_range() || !exact(memory.len(), p.m * p.u) || !exact(marks.len(), mark_words(p.m)) {
        return refused(1);
    }
    if page >= p.m {
        return refused(2);
    }
    if !write_fits(offset, data.len(), p.u) {
        return refused(3);
    }
    store_in_page(memory, p.u, page, offset, data);
    marks[(page / 64) as usize] |= 1 << (page % 64);
    accepted(p.open as u64)
}

impl Primary {
    /// Whether a state in range has this block written in the open epoch; what stands behind the count does not say so.
    fn has_written(&self, block: u64) -> bool {
        self.written[..self.blocks as usize].contains(&block)
    }

    /// Counts a BLOCK record of the open epoch, and its block where that is not written in it before.
    fn note_written(&mut self, block: u64, again: bool) {
        self.records += 1;
        if !again {
            self.written[self.blocks as usize] = block;
            self.blocks += 1;
        }
    }
}

pub fn disk_write(p: &mut Primary, disk: &mut [u8], stream: &mut [u8], block: u64, data: &[u8]) -> Reply {
    if !p.in_range() || !exact(disk.len(), p.d * p.u) || !exact(stream.len(), p.l) {
        return refused(1);
    }
    if block >= p.d {
        return refused(2);
    }
    if !exact(data.len(), p.u) {
        return refused(3);
    }
    if !p.alone {
        let again = p.has_written(block);
        // document 02, Job 9: the allowance counts different blocks, "and 14 is also given at 65,535 BLOCK records"
        if p.records == MOST_RECORDS || p.blocks >= p.b && !again {
            return refused(14);
        }
        if p.u + 10 > p.l - p.waiting {
            return refused(15);
        }
        p.waiting += put_data(&mut stream[p.waiting as usize..], BLOCK, p.open, block, data) as u64;
        p.note_written(block, again);
    }
    disk[part(block, p.u)].copy_from_slice(data);
    accepted(p.open as u64)
}

pub fn packet(p: &mut Primary, held: &mut [u8], port: u64, data: &[u8]) -> Reply {
    if !p.in_range() || !exact(held.len(), p.q) {
        return refused(1);
    }
    let length = data.len() as u64;
    if !(1..=1_514).contains(&length) {
        return refused(4);
    }
    if port > MOST_PORT {
        return refused(23);
    }
    if p.packets == 64 || length > p.q - p.held {
        return refused(16);
    }
    let at = p.held as usize;
    held[at..at + data.len()].copy_from_slice(data);
    p.queue[p.packets as usize] = Packet { epoch: p.open, port: port as u16, length };
    p.packets += 1;
    p.held += length;
    accepted(p.packets)
}

pub fn checkpoint(p: &mut Primary, memory: &[u8], marks: &mut [u64], stream: &mut [u8], cpu: &[u8; 64]) -> Reply {
    if !p.in_range()
        || !exact(memory.len(), p.m * p.u)
        || !exact(marks.len(), mark_words(p.m))
        || !exact(stream.len(), p.l)
    {
        return refused(1);
    }
    if p.alone {
        return refused(13);
    }
    let dirty = count_marked(marks, p.m);
    if dirty * page_record(p.u, p.m) + state_and_commit(p.m) > p.l - p.waiting {
        return refused(15);
    }
    if p.open == LAST_EPOCH {
        return refused(19);
    }
    let mut at = p.waiting as usize;
    for_marked(marks, p.m, |page| {
        at += put_data(&mut stream[at..], page_kind(p.m), p.open, page as u64, &memory[part(page as u64, p.u)]);
    });
    at += put_state(&mut stream[at..], p.open, cpu);
    // "COMMIT's count is still of records"
    at += put_commit(&mut stream[at..], commit_kind(p.m), p.open, dirty, p.records);
    clear_marks(marks, p.m);
    p.waiting = at as u64;
    (p.blocks, p.records) = (0, 0);
    p.open += 1;
    accepted(p.open as u64 - 1)
}

pub fn drain(p: &mut Primary, stream: &mut [u8], n: u64, destination: &mut [u8]) -> Reply {
    if !p.in_range() || !exact(stream.len(), p.l) {
        return refused(1);
    }
    let moved = n.min(p.waiting).min(destination.len() as u64);
    let (count, waiting) = (moved as usize, p.waiting as usize);
    destination[..count].copy_from_slice(&stream[..count]);
    stream.copy_within(count..waiting, 0);
    p.waiting -= moved;
    accepted(moved)
}

pub fn ack(p: &mut Primary, data: &[u8]) -> Reply {
    if !p.in_range() {
        return refused(1);
    }
    if p.alone {
        return refused(13);
    }
    match read_record(data, p.u, |kind| kind == ACK) {
        Record::Ack { epoch } if epoch <= p.acknowledged || epoch >= p.open => refused(11),
        Record::Ack { epoch } => {
            p.acknowledged = epoch;
            p.count = 0;
            Reply { used: 8, ..accepted(epoch as u64) }
        }
        Record::CutShort { missing } => cut_short(missing),
        Record::Refused(number) => refused(number),
        _ => refused(6),
    }
}

/// "That port's oldest packet goes out"; what is held behind it closes up.
pub fn take(p: &mut Primary, held: &mut [u8], port: u64, destination: &mut [u8]) -> Reply {
    if !p.in_range() || !exact(held.len(), p.q) {
        return refused(1);
    }
    if port > MOST_PORT {
        return refused(23);
    }
    let Some(place) = p.free_of(port) else { return refused(18) };
    let length = p.queue[place].length;
    let (count, packets) = (length as usize, p.packets as usize);
    if destination.len() < count {
        return refused(5);
    }
    let at = p.queue[..place].iter().map(|packet| packet.length as usize).sum();
    destination[..count].copy_from_slice(&held[at..at + count]);
    held.copy_within(at + count..p.held as usize, at);
    p.queue.copy_within(place + 1..packets, place);
    p.queue[packets - 1] = Packet::default();
    p.packets -= 1;
    p.held -= length;
    accepted(length)
}

pub fn primary_tick(p: &mut Primary) -> Reply {
    if !p.in_range() {
        return refused(1);
    }
    if p.alone {
        return accepted(0);
    }
    if !p.outstanding() {
        p.count = 0;
        return accepted(0);
    }
    p.count += 1;
    if p.count == p.t {
        p.alone = true;
        p.waiting = 0;
    }
    accepted(0)
}
