//! The primary.

use super::*;
use std::collections::BTreeSet;

pub struct Primary {
    pub memory: Vec<u8>,
    pub disk: Vec<u8>,
    pub dirty: [bool; M],
    pub open: u32,
    pub acknowledged: u32,
    /// The different blocks written in the open epoch.
    pub epoch_blocks: BTreeSet<u64>,
    /// BLOCK records of the open epoch, one for each disk write.
    pub records: usize,
    pub stream: VecDeque<u8>,
    pub held: VecDeque<(u32, Vec<u8>)>,
}

impl Primary {
    pub fn start() -> Primary {
        Primary {
            memory: vec![0; M * U],
            disk: vec![0; D * U],
            dirty: [false; M],
            open: 1,
            acknowledged: 0,
            epoch_blocks: BTreeSet::new(),
            records: 0,
            stream: VecDeque::new(),
            held: VecDeque::new(),
        }
    }

    /// Memory write of one byte at the head of a page: dirty even if the byte is equal.
    pub fn write_head(&mut self, page: u64, byte: u8) -> Answer {
        if page >= M as u64 {
            return Err(2);
        }
        self.memory[page as usize * U] = byte;
        self.dirty[page as usize] = true;
        Ok(self.open as u64)
    }

    /// Disk write: 2, then 14, then 15. Document 02, Job 9: the allowance counts different blocks,
    /// while each write appends a BLOCK.
    pub fn write_block(&mut self, block: u64, bytes: &[u8; U]) -> Answer {
        if block >= D as u64 {
            return Err(2);
        }
        let again = self.epoch_blocks.contains(&block);
        if self.records == RECORDS || !again && self.epoch_blocks.len() == B {
            return Err(14);
        }
        let sent = record(BLOCK, self.open, &[&(block as u16).to_le_bytes(), bytes]);
        if self.stream.len() + sent.len() > L {
            return Err(15);
        }
        self.disk[block as usize * U..][..U].copy_from_slice(bytes);
        self.epoch_blocks.insert(block);
        self.records += 1;
        self.stream.extend(sent);
        Ok(self.open as u64)
    }

    /// Packet of zeros: 4, then 16.
    pub fn packet(&mut self, length: u64) -> Answer {
        if length == 0 || length > LONGEST_PACKET {
            return Err(4);
        }
        if self.held.len() == PACKETS || self.held_bytes() + length as usize > Q {
            return Err(16);
        }
        self.held.push_back((self.open, vec![0; length as usize]));
        Ok(self.held.len() as u64)
    }

    pub fn held_bytes(&self) -> usize {
        self.held.iter().map(|(_, bytes)| bytes.len()).sum()
    }

    /// Checkpoint: every dirty page in rising order, STATE, COMMIT with the counts; 15, then 19.
    pub fn checkpoint(&mut self, processor: &[u8; 64]) -> Answer {
        let mut sent = Vec::new();
        let mut pages: u16 = 0;
        for page in 0..M {
            if self.dirty[page] {
                let bytes = &self.memory[page * U..][..U];
                sent.extend(record(PAGE, self.open, &[&(page as u16).to_le_bytes(), bytes]));
                pages += 1;
            }
        }
        sent.extend(record(STATE, self.open, &[processor]));
        // document 02, Job 9: "COMMIT's count is still of records"
        let blocks = self.records as u16;
        sent.extend(record(COMMIT, self.open, &[&pages.to_le_bytes(), &blocks.to_le_bytes()]));
        if self.stream.len() + sent.len() > L {
            return Err(15);
        }
        if self.open == u32::MAX {
            return Err(19);
        }
        self.stream.extend(sent);
        self.dirty = [false; M];
        self.epoch_blocks.clear();
        self.records = 0;
        self.open += 1;
        Ok(self.open as u64 - 1)
    }

    /// Drain: the first min(n, waiting) bytes of the stream.
    pub fn drain(&mut self, n: usize) -> Vec<u8> {
        let n = n.min(self.stream.len());
        self.stream.drain(..n).collect()
    }

    /// ACK e acknowledges all epochs up to e.
    pub fn ack(&mut self, bytes: &[u8; 8]) -> Answer {
        if two(bytes, 2) != ACK {
            return Err(6);
        }
        if two(bytes, 0) as usize != body_length(ACK) {
            return Err(7);
        }
        let epoch = four(bytes, 4);
        if epoch <= self.acknowledged || epoch >= self.open {
            return Err(11);
        }
        self.acknowledged = epoch;
        Ok(epoch as u64)
    }

    /// Take: the oldest packet, if its epoch is acknowledged.
    pub fn take(&mut self) -> Result<(u32, Vec<u8>), u64> {
        match self.held.front() {
            Some((epoch, _)) if *epoch <= self.acknowledged => Ok(self.held.pop_front().unwrap()),
            _ => Err(18),
        }
    }
}
