//! Both ends at `pair`'s settings, all zeros at start, with their buffers, the link and the ACKs; and the steps of a
//! trial, each made of the ends' calls.
use super::ends::{self, Mode, Primary, Reply, Settings, Standby, CUT_SHORT};

pub const U: usize = 64;
pub const M: usize = 4;
pub const D: usize = 4;
pub const B: usize = 2;
pub const S: usize = 4;
pub const Q: usize = 256;
pub const L: usize = 1024;
const PORT: u64 = 0;

pub struct Site {
    pub primary: Primary,
    pub standby: Standby,
    memory: Vec<u8>,
    disk: Vec<u8>,
    marks: Vec<u64>,
    held: Vec<u8>,
    stream: Vec<u8>,
    standby_memory: Vec<u8>,
    standby_disk: Vec<u8>,
    pages: Vec<u8>,
    standby_marks: Vec<u64>,
    blocks: Vec<u8>,
    area: Vec<u8>,
    /// Bytes drained and not yet used.
    pub link: Vec<u8>,
    /// ACK bytes written and not yet used.
    acks: Vec<u8>,
    /// Counts over the whole run, for the tally: records read, COMMITs read, ACKs accepted.
    pub read: u64,
    pub commits: u64,
    pub acked: u64,
    /// BLOCKs that took a slot that their block had in the epoch while all S slots were staged.
    pub reused_when_full: u64,
}

fn answer(reply: Reply) -> Result<u64, u64> {
    if reply.number == 0 { Ok(reply.value) } else { Err(reply.number) }
}

impl Site {
    /// Start; 1 where T is out of its range.
    pub fn start(patience: u64) -> Result<Site, u64> {
        let mut site = Site {
            primary: Primary::zero(),
            standby: Standby::zero(),
            memory: vec![0; M * U],
            disk: vec![0; D * U],
            marks: vec![0; 1],
            held: vec![0; Q],
            stream: vec![0; L],
            standby_memory: vec![0; M * U],
            standby_disk: vec![0; D * U],
            pages: vec![0; M * U],
            standby_marks: vec![0; 1],
            blocks: vec![0; S * U],
            area: vec![0; 8],
            link: Vec::new(),
            acks: Vec::new(),
            read: 0,
            commits: 0,
            acked: 0,
            reused_when_full: 0,
        };
        match site.start_ends(patience) {
            0 => Ok(site),
            number => Err(number),
        }
    }

    fn start_ends(&mut self, t: u64) -> u64 {
        let (u, m, d, b, s, q, l) = (U as u64, M as u64, D as u64, B as u64, S as u64, Q as u64, L as u64);
        let mut lent = ends::Lent {
            memory: &mut self.memory,
            disk: &mut self.disk,
            marks: &mut self.marks,
            held: &mut self.held,
            stream: &mut self.stream,
            standby_memory: &mut self.standby_memory,
            standby_disk: &mut self.standby_disk,
            pages: &mut self.pages,
            standby_marks: &mut self.standby_marks,
            blocks: &mut self.blocks,
            area: &mut self.area,
        };
        let (number, primary, standby) = ends::start(&Settings { u, m, d, b, s, q, l, t }, &[0; 64], &mut lent);
        (self.primary, self.standby) = (primary, standby);
        number
    }

    /// "Filled as `w` does with 1": one byte at the head of the page.
    pub fn write_page(&mut self, page: u64) -> Result<u64, u64> {
        answer(ends::memory_write(&mut self.primary, &mut self.memory, &mut self.marks, page, 0, &[1]))
    }

    /// "Filled as `d` does with 1".
    pub fn write_block(&mut self, block: u64) -> Result<u64, u64> {
        answer(ends::disk_write(&mut self.primary, &mut self.disk, &mut self.stream, block, &[1; U]))
    }

    pub fn send(&mut self) -> Result<u64, u64> {
        answer(ends::packet(&mut self.primary, &mut self.held, PORT, &[0]))
    }

    pub fn checkpoint(&mut self) -> Result<u64, u64> {
        answer(ends::checkpoint(&mut self.primary, &self.memory, &mut self.marks, &mut self.stream, &[1; 64]))
    }

    /// The link carries so many bytes; they go behind what is unread.
    pub fn drain(&mut self, rate: u64) {
        let mut carried = [0; L];
        let reply = ends::drain(&mut self.primary, &mut self.stream, rate, &mut carried);
        self.link.extend_from_slice(&carried[..reply.value as usize]);
    }

    /// Reads record after record, until what is left is cut short: no byte is.
    pub fn read_all(&mut self) -> Result<u64, u64> {
        loop {
            let full = self.standby.staged == S as u64;
            let mut ack = [0; 8];
            let reply = self.read_one(&mut ack);
            if reply.number == CUT_SHORT {
                return Ok(0);
            }
            let kind = answer(reply)?;
            self.link.drain(..reply.used as usize);
            self.read += 1;
            if ends::is_commit(kind) {
                self.commits += 1;
                self.acks.extend_from_slice(&ack);
            }
            self.reused_when_full += (full && kind == 2) as u64;
        }
    }

    fn read_one(&mut self, ack: &mut [u8; 8]) -> Reply {
        let mut lent = ends::Staging {
            memory: &mut self.standby_memory,
            pages: &mut self.pages,
            marks: &mut self.standby_marks,
            blocks: &mut self.blocks,
        };
        ends::read(&mut self.standby, &mut lent, &self.link, ack)
    }

    pub fn flush_all(&mut self) {
        let due = self.standby.due;
        let reply = ends::flush(&mut self.standby, &mut self.blocks, &mut self.standby_disk, due);
        assert_eq!(answer(reply), Ok(due));
    }

    pub fn ack_all(&mut self) -> Result<u64, u64> {
        while !self.acks.is_empty() {
            let reply = ends::ack(&mut self.primary, &self.acks);
            answer(reply)?;
            self.acks.drain(..reply.used as usize);
            self.acked += 1;
        }
        Ok(0)
    }

    pub fn tick_both(&mut self) {
        ends::primary_tick(&mut self.primary);
        ends::standby_tick(&mut self.standby, &mut self.standby_marks);
    }

    pub fn taken_over(&self) -> bool {
        self.standby.mode != Mode::Receiving
    }

    /// What `k` does after its ticks: flush of all due, activation; the checkpoint.
    pub fn activate(&mut self) -> Result<u64, u64> {
        self.flush_all();
        answer(ends::activate(&mut self.standby, &mut self.area))
    }

    /// One take; whether a packet left.
    pub fn take(&mut self) -> bool {
        let oldest = self.primary.queue[0];
        let taken = answer(ends::take(&mut self.primary, &mut self.held, PORT, &mut [0; 1]));
        if let Err(number) = taken {
            assert_eq!(number, 18, "a take is refused with 18 only");
            return false;
        }
        // Demand 3: under protection a packet is one of the received checkpoint's.
        assert!(self.primary.alone || oldest.epoch <= self.standby.received);
        true
    }
}
