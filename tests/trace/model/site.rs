//! Both ends at `pair`'s settings, all zeros at start, with their buffers, the link and the ACKs; and the commands,
//! each made of the ends' calls.
use super::ends::{self, Primary, Reply, Settings, Standby};

pub const U: usize = 64;
pub const M: usize = 4;
pub const D: usize = 4;
pub const B: usize = 2;
pub const S: usize = 4;
pub const Q: usize = 256;
pub const L: usize = 1024;
pub const T: u64 = 3;
const PORT: u64 = 0;
const LONGEST_PACKET: usize = 1514;

pub struct Site {
    pub primary: Primary,
    pub standby: Standby,
    pub memory: Vec<u8>,
    pub disk: Vec<u8>,
    marks: Vec<u64>,
    held: Vec<u8>,
    stream: Vec<u8>,
    pub standby_memory: Vec<u8>,
    pub standby_disk: Vec<u8>,
    pages: Vec<u8>,
    standby_marks: Vec<u64>,
    blocks: Vec<u8>,
    area: Vec<u8>,
    /// Bytes drained and not yet read.
    pub link: Vec<u8>,
    /// The kind that the last record drained had in the stream, for the tally.
    pub drained: u8,
    /// ACK bytes written and not yet read.
    pub acks: Vec<u8>,
}

fn answer(reply: Reply) -> Result<u64, u64> {
    if reply.number == 0 { Ok(reply.value) } else { Err(reply.number) }
}

impl Site {
    pub fn start() -> Site {
        let mut site = Site {
            primary: Primary::zero(),
            standby: Standby::zero(),
            memory: vec![0; M * U],
            disk: vec![0; D * U],
            marks: vec![0; 1],
            held: vec![0; Q],
            stream: vec![0; L],
            standby_memory: vec![0; M * U],
            standby_disk: vec![0; D * U],
            pages: vec![0; M * U],
            standby_marks: vec![0; 1],
            blocks: vec![0; S * U],
            area: vec![0; 8],
            link: Vec::new(),
            drained: 0,
            acks: Vec::new(),
        };
        site.start_ends();
        site
    }

    fn start_ends(&mut self) {
        let (u, m, d, b, s, q, l) = (U as u64, M as u64, D as u64, B as u64, S as u64, Q as u64, L as u64);
        let mut lent = ends::Lent {
            memory: &mut self.memory,
            disk: &mut self.disk,
            marks: &mut self.marks,
            held: &mut self.held,
            stream: &mut self.stream,
            standby_memory: &mut self.standby_memory,
            standby_disk: &mut self.standby_disk,
            pages: &mut self.pages,
            standby_marks: &mut self.standby_marks,
            blocks: &mut self.blocks,
            area: &mut self.area,
        };
        let (number, primary, standby) = ends::start(&Settings { u, m, d, b, s, q, l, t: T }, &[0; 64], &mut lent);
        assert_eq!(number, 0, "pair's settings are accepted");
        (self.primary, self.standby) = (primary, standby);
    }

    pub fn write_head(&mut self, page: u64, byte: u8) -> Result<u64, u64> {
        answer(ends::memory_write(&mut self.primary, &mut self.memory, &mut self.marks, page, 0, &[byte]))
    }

    pub fn write_block(&mut self, block: u64, byte: u8) -> Result<u64, u64> {
        answer(ends::disk_write(&mut self.primary, &mut self.disk, &mut self.stream, block, &[byte; U]))
    }

    pub fn send(&mut self, length: u64) -> Result<u64, u64> {
        // a longer packet is refused for its length alone, whatever the length is
        let zeros = vec![0; (length as usize).min(LONGEST_PACKET + 1)];
        answer(ends::packet(&mut self.primary, &mut self.held, PORT, &zeros))
    }

    pub fn checkpoint(&mut self, byte: u8) -> Result<u64, u64> {
        let (memory, marks, stream) = (&self.memory, &mut self.marks, &mut self.stream);
        answer(ends::checkpoint(&mut self.primary, memory, marks, stream, &[byte; 64]))
    }

    /// What the next `m` reads: the bytes on the link, else the first record that waits; none where nothing waits.
    pub fn next_bytes(&self) -> &[u8] {
        if !self.link.is_empty() || self.primary.waiting == 0 {
            return &self.link;
        }
        let length = u16::from_le_bytes([self.stream[0], self.stream[1]]) as usize;
        &self.stream[..4 + length]
    }

    /// "Where the link is empty, the next record is drained into it first."; 18 where there is none.
    fn fill_link(&mut self) -> Result<(), u64> {
        let length = self.next_bytes().len();
        if length == 0 {
            return Err(18);
        }
        if self.link.is_empty() {
            let mut record = vec![0; length];
            let reply = ends::drain(&mut self.primary, &mut self.stream, length as u64, &mut record);
            assert_eq!(reply.value, length as u64, "the stream holds whole records");
            self.drained = record[2];
            self.link = record;
        }
        Ok(())
    }

    /// `m`: "drain one whole record and read it; a refused one is read again by the next `m`".
    pub fn move_record(&mut self) -> Result<u64, u64> {
        self.fill_link()?;
        let mut lent = ends::Staging {
            memory: &mut self.standby_memory,
            pages: &mut self.pages,
            marks: &mut self.standby_marks,
            blocks: &mut self.blocks,
        };
        let mut ack = [0; 8];
        let reply = ends::read(&mut self.standby, &mut lent, &self.link, &mut ack);
        let kind = answer(reply)?;
        self.link.drain(..reply.used as usize);
        if ends::is_commit(kind) {
            self.acks.extend_from_slice(&ack);
        }
        Ok(kind)
    }

    /// `x`: the byte that was there; 18, then 1, and then nothing has changed.
    pub fn exchange(&mut self, at: u64, byte: u8) -> Result<u64, u64> {
        let length = self.next_bytes().len() as u64;
        if length > 0 && at >= length {
            return Err(1);
        }
        self.fill_link()?;
        Ok(std::mem::replace(&mut self.link[at as usize], byte) as u64)
    }

    /// `a`: the next ACK; one that is refused stays.
    pub fn next_ack(&mut self) -> Result<u64, u64> {
        if self.acks.is_empty() {
            return Err(18);
        }
        let reply = ends::ack(&mut self.primary, &self.acks);
        let epoch = answer(reply)?;
        self.acks.drain(..reply.used as usize);
        Ok(epoch)
    }

    pub fn take(&mut self) -> Result<u64, u64> {
        answer(ends::take(&mut self.primary, &mut self.held, PORT, &mut [0; LONGEST_PACKET]))
    }

    pub fn flush(&mut self, budget: u64) -> Result<u64, u64> {
        answer(ends::flush(&mut self.standby, &mut self.blocks, &mut self.standby_disk, budget))
    }

    pub fn tick(&mut self) -> Result<u64, u64> {
        answer(ends::primary_tick(&mut self.primary))
    }

    /// `k`: "three standby ticks, flush of all due, activation; the end".
    pub fn take_over(&mut self) -> Result<u64, u64> {
        for _ in 0..3 {
            ends::standby_tick(&mut self.standby, &mut self.standby_marks);
        }
        self.flush(self.standby.due)?;
        answer(ends::activate(&mut self.standby, &mut self.area))
    }
}
