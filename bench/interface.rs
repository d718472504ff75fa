//! The functions of libcapi.a on slices, and the words of a state.

#[path = "../tests/calls/capi.rs"]
#[allow(dead_code)] // only some of the calls are timed
mod capi;

use crate::library::Lent;
use crate::model;

// It has no code in tests/calls/FORM.md, and so is not in tests/calls/capi.rs.
extern "C" {
    fn pair_page_sum(memory: *const u8, memory_len: usize, u: usize, page: usize) -> u64;
}

pub const PRIMARY_WORDS: usize = 272;
pub const STANDBY_WORDS: usize = 80;

/// Where a primary's packets begin, and the numbers of its epoch's blocks.
const PACKETS: usize = 16;
const WRITTEN: usize = 208;

/// Where the count of ticks stands, and the counts of blocks: behind a primary's, its records and its waiting bytes,
/// behind a standby's, its records.
pub const PRIMARY_TICKS: usize = 7;
pub const STANDBY_TICKS: usize = 6;
pub const PRIMARY_BLOCKS: usize = 11;
pub const STANDBY_STAGED: usize = 9;
pub const STANDBY_BLOCKS: usize = 75;

pub type PrimaryWords = [u64; PRIMARY_WORDS];

pub fn primary_words(p: &model::Primary) -> PrimaryWords {
    let mut words = [0; PRIMARY_WORDS];
    words[..6].copy_from_slice(&[p.u, p.m, p.d, p.b, p.q, p.l]);
    words[6..11].copy_from_slice(&[p.t, p.count, p.open.into(), p.acknowledged.into(), p.alone.into()]);
    words[11..PACKETS].copy_from_slice(&[p.blocks, p.records, p.waiting, p.packets, p.held]);
    for (entry, packet) in words[PACKETS..WRITTEN].chunks_exact_mut(3).zip(&p.queue) {
        entry.copy_from_slice(&[packet.epoch.into(), packet.length, packet.port.into()]);
    }
    words[WRITTEN..].copy_from_slice(&p.written);
    words
}

/// A standby's state as it is lent.
#[derive(Clone, Copy)]
pub struct Standby {
    pub words: [u64; STANDBY_WORDS],
    pending: [u8; 64],
    processor: [u8; 64],
}

/// The words of a standby that is receiving.
pub fn standby_words(s: &model::Standby) -> Standby {
    assert!(s.mode == model::Mode::Receiving);
    let mut words = [0; STANDBY_WORDS];
    words[..6].copy_from_slice(&[s.u, s.m, s.d, s.b, s.s, s.t]);
    words[6..11].copy_from_slice(&[s.count, 0, s.received.into(), s.staged, s.due]);
    words[11..75].copy_from_slice(&s.slots);
    words[75..].copy_from_slice(&[s.blocks, s.records, s.pages, s.next_page, s.state_seen.into()]);
    Standby { words, pending: s.staged_cpu, processor: s.kept_cpu }
}

/// The parts of an answer.
pub fn answered(word: u64) -> model::Reply {
    let (number, count) = (word & 65535, word >> 16 & 65535);
    let (used, missing) = if number == model::CUT_SHORT { (0, count) } else { (count, 0) };
    model::Reply { number, value: word >> 32, used, missing }
}

pub fn disk_write(
    state: &mut PrimaryWords,
    disk: &mut [u8],
    stream: &mut [u8],
    block: usize,
    bytes: &[u8],
) -> model::Reply {
    let (d, s) = (disk.len(), stream.len());
    answered(unsafe {
        capi::primary_disk_write(
            state.as_mut_ptr(),
            state.len(),
            disk.as_mut_ptr(),
            d,
            stream.as_mut_ptr(),
            s,
            block,
            bytes.as_ptr(),
            bytes.len(),
        )
    })
}

pub fn packet(state: &mut PrimaryWords, held: &mut [u8], port: usize, bytes: &[u8]) -> model::Reply {
    let h = held.len();
    answered(unsafe {
        capi::primary_packet(state.as_mut_ptr(), state.len(), held.as_mut_ptr(), h, port, bytes.as_ptr(), bytes.len())
    })
}

pub fn take(state: &mut PrimaryWords, held: &mut [u8], port: usize, destination: &mut [u8]) -> model::Reply {
    let (h, d) = (held.len(), destination.len());
    answered(unsafe {
        capi::primary_take(state.as_mut_ptr(), state.len(), held.as_mut_ptr(), h, port, destination.as_mut_ptr(), d)
    })
}

pub fn primary_tick(state: &mut PrimaryWords) -> model::Reply {
    answered(unsafe { capi::primary_tick(state.as_mut_ptr(), state.len()) })
}

pub fn primary_sum(state: &PrimaryWords, memory: &[u8]) -> model::Reply {
    answered(unsafe { capi::primary_sum(state.as_ptr(), state.len(), memory.as_ptr(), memory.len()) })
}

pub fn read(s: &mut Standby, lent: &mut Lent, bytes: &[u8]) -> model::Reply {
    answered(unsafe {
        capi::standby_read(
            s.words.as_mut_ptr(),
            s.words.len(),
            s.pending.as_mut_ptr(),
            s.processor.as_mut_ptr(),
            lent.memory.as_mut_ptr(),
            lent.memory.len(),
            lent.pages.as_mut_ptr(),
            lent.pages.len(),
            lent.marks.as_mut_ptr(),
            lent.marks.len(),
            lent.blocks.as_mut_ptr(),
            lent.blocks.len(),
            bytes.as_ptr(),
            bytes.len(),
            lent.reply.as_mut_ptr(),
            lent.reply.len(),
        )
    })
}

pub fn standby_tick(s: &mut Standby, marks: &mut [u64]) -> model::Reply {
    let (state, n) = (s.words.as_mut_ptr(), marks.len());
    answered(unsafe {
        capi::standby_tick(
            state,
            STANDBY_WORDS,
            s.pending.as_mut_ptr(),
            s.processor.as_mut_ptr(),
            marks.as_mut_ptr(),
            n,
        )
    })
}

pub fn standby_sum(s: &Standby, memory: &[u8], order: &[u64]) -> model::Reply {
    answered(unsafe {
        capi::standby_sum(
            s.words.as_ptr(),
            s.words.len(),
            s.pending.as_ptr(),
            s.processor.as_ptr(),
            memory.as_ptr(),
            memory.len(),
            order.as_ptr(),
            order.len(),
        )
    })
}

/// Of a checkpoint kept on file, with the U M D B of these settings.
pub fn normal_form(s: &model::Settings, file: &[u8], destination: &mut [u8]) -> model::Reply {
    let [u, m, d, b] = [s.u, s.m, s.d, s.b].map(|size| size as usize);
    let (f, n) = (file.len(), destination.len());
    answered(unsafe { capi::pair_normal_form(u, m, d, b, file.as_ptr(), f, destination.as_mut_ptr(), n) })
}

/// Of one page, at either end.
pub fn page_sum(memory: &[u8], u: usize, page: usize) -> model::Reply {
    answered(unsafe { pair_page_sum(memory.as_ptr(), memory.len(), u, page) })
}
