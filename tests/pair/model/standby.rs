//! The standby.

use super::*;
use std::collections::BTreeMap;

#[derive(PartialEq)]
pub enum Mode {
    Receiving,
    TakingOver,
    Active,
}

pub struct Standby {
    pub mode: Mode,
    pub memory: Vec<u8>,
    pub disk: Vec<u8>,
    pub processor: [u8; 64],
    pub received: u32,
    /// Staged pages of the epoch under way, by page number.
    pub pages: BTreeMap<u16, Vec<u8>>,
    pub staged_processor: Option<[u8; 64]>,
    /// Staged blocks in order of arrival; the first `due` of them are due.
    pub blocks: VecDeque<(u16, Vec<u8>)>,
    pub due: usize,
    /// BLOCK records of the epoch under way, those that reused a slot too.
    pub records: usize,
    pub count: u32,
    pub area: [u8; 8],
}

pub enum Reading {
    /// The record's kind and the bytes used, and the ACK that a COMMIT wrote.
    Accepted(u16, usize, Option<[u8; 8]>),
    CutShort,
    Refused(u64),
}

impl Standby {
    pub fn start() -> Standby {
        Standby {
            mode: Mode::Receiving,
            memory: vec![0; M * U],
            disk: vec![0; D * U],
            processor: [0; 64],
            received: 0,
            pages: BTreeMap::new(),
            staged_processor: None,
            blocks: VecDeque::new(),
            due: 0,
            records: 0,
            count: 0,
            area: [0; 8],
        }
    }

    /// Reads at most one record: 13, header incomplete, 6, 7, body incomplete, 2, 8, 9, 10, 14,
    /// 17. (The reply buffer has its 8 bytes, so 5 is not asked.)
    pub fn read(&mut self, bytes: &[u8]) -> Reading {
        if self.mode != Mode::Receiving {
            return Reading::Refused(13);
        }
        if bytes.len() < 4 {
            return Reading::CutShort;
        }
        let (length, kind) = (two(bytes, 0) as usize, two(bytes, 2));
        if !(PAGE..=COMMIT).contains(&kind) {
            return Reading::Refused(6);
        }
        if length != body_length(kind) {
            return Reading::Refused(7);
        }
        if bytes.len() < 4 + length {
            return Reading::CutShort;
        }
        let body = &bytes[4..4 + length];
        if let Some(number) = self.refusal(kind, body) {
            return Reading::Refused(number);
        }
        // document 02, Job 1: "at each accepted record of kinds 1 to 4"
        self.count = 0;
        let mut ack = None;
        match kind {
            PAGE => {
                self.pages.insert(two(body, 4), body[6..].to_vec());
            }
            BLOCK => self.stage(two(body, 4), body[6..].to_vec()),
            STATE => self.staged_processor = Some(body[4..].try_into().unwrap()),
            _ => ack = Some(self.commit(four(body, 0))),
        }
        Reading::Accepted(kind, 4 + length, ack)
    }

    /// The different blocks of the epoch under way: each has one slot, which is not yet due.
    pub fn epoch_blocks(&self) -> usize {
        self.blocks.len() - self.due
    }

    /// The first slot of a block staged in the epoch under way. Due slots are of earlier epochs.
    pub fn slot_of(&self, block: u16) -> Option<usize> {
        (self.due..self.blocks.len()).find(|slot| self.blocks[*slot].0 == block)
    }

    /// Document 02, Job 9: "reuses the first such slot, with the later bytes and the earlier place";
    /// else the next slot.
    fn stage(&mut self, block: u16, bytes: Vec<u8>) {
        match self.slot_of(block) {
            Some(slot) => self.blocks[slot].1 = bytes,
            None => self.blocks.push_back((block, bytes)),
        }
        self.records += 1;
    }

    pub fn refusal(&self, kind: u16, body: &[u8]) -> Option<u64> {
        let state_seen = self.staged_processor.is_some();
        let out_of_order = match kind {
            BLOCK => !self.pages.is_empty() || state_seen,
            PAGE => state_seen || self.pages.keys().any(|page| two(body, 4) <= *page),
            STATE => state_seen,
            _ => !state_seen,
        };
        let counts = (self.pages.len(), self.records);
        let again = kind == BLOCK && self.slot_of(two(body, 4)).is_some();
        if kind == PAGE && two(body, 4) as usize >= M || kind == BLOCK && two(body, 4) as usize >= D {
            Some(2)
        } else if four(body, 0) as u64 != self.received as u64 + 1 {
            Some(8)
        } else if out_of_order {
            Some(9)
        } else if kind == COMMIT && (two(body, 4) as usize, two(body, 6) as usize) != counts {
            Some(10)
        } else if kind == BLOCK && (self.records == RECORDS || !again && self.epoch_blocks() == B) {
            Some(14)
        } else if kind == BLOCK && !again && self.blocks.len() == S {
            Some(17)
        } else {
            None
        }
    }

    /// Staged pages into memory, the processor state kept, the epoch's blocks due, the ACK.
    pub fn commit(&mut self, epoch: u32) -> [u8; 8] {
        for (page, bytes) in std::mem::take(&mut self.pages) {
            self.memory[page as usize * U..][..U].copy_from_slice(&bytes);
        }
        self.processor = self.staged_processor.take().unwrap();
        self.due = self.blocks.len();
        self.records = 0;
        self.received = epoch;
        record(ACK, epoch, &[]).try_into().unwrap()
    }

    /// Flush: min(n, due) due blocks to the disk, in order of arrival.
    pub fn flush(&mut self, n: usize) -> u64 {
        let stored = n.min(self.due);
        for (block, bytes) in self.blocks.drain(..stored) {
            self.disk[block as usize * U..][..U].copy_from_slice(&bytes);
        }
        self.due -= stored;
        stored as u64
    }

    /// The disk that a flush of all due would give.
    pub fn flushed_disk(&self) -> Vec<u8> {
        let mut disk = self.disk.clone();
        for (block, bytes) in self.blocks.range(..self.due) {
            disk[*block as usize * U..][..U].copy_from_slice(bytes);
        }
        disk
    }

    /// At T it takes over: staged pages and blocks not yet due are dropped.
    pub fn tick(&mut self) {
        if self.mode != Mode::Receiving {
            return;
        }
        self.count += 1;
        if self.count == T {
            self.mode = Mode::TakingOver;
            self.pages.clear();
            self.staged_processor = None;
            self.blocks.truncate(self.due);
            self.records = 0;
        }
    }

    pub fn activate(&mut self) -> Answer {
        if self.mode != Mode::TakingOver {
            return Err(13);
        }
        if self.due > 0 {
            return Err(20);
        }
        self.area = record(ACTIVATION, self.received, &[]).try_into().unwrap();
        self.mode = Mode::Active;
        Ok(self.received as u64)
    }
}
