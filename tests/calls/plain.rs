//! The plain pair of document 01's "Whole runs". It is fed each call's arguments, number and value, and never
//! sees an end's state or buffers.
use crate::items::code;
use crate::model::{is_commit, Reply, PORTS};
use crate::world::Args;
use std::rc::Rc;

pub struct Checkpoint {
    pub memory: Vec<u8>,
    pub disk: Vec<u8>,
    pub cpu: [u8; 64],
    /// How many of the packets accepted of each port belong to it.
    pub packets: [usize; PORTS],
}

#[derive(Clone)]
pub struct Plain {
    u: usize,
    t: u64,
    pub memory: Vec<u8>,
    pub disk: Vec<u8>,
    pub standby_memory: Vec<u8>,
    pub standby_disk: Vec<u8>,
    /// Each port's queue, whole: every packet accepted, the first `left` of which have left, and the first `protected`
    /// of these under protection.
    pub packets: [Vec<Rc<Vec<u8>>>; PORTS],
    pub left: [usize; PORTS],
    pub protected: [usize; PORTS],
    pub checkpoints: Vec<Rc<Checkpoint>>,
    pub r: usize,
    pub a: usize,
    pub count: u64,
    pub activated: bool,
}

impl Plain {
    /// After an accepted start with these images.
    pub fn start(args: &Args, memory: &[u8], disk: &[u8]) -> Plain {
        let first = Checkpoint { memory: memory.to_vec(), disk: disk.to_vec(), cpu: args.cpu, packets: [0; PORTS] };
        Plain {
            u: args.settings.u as usize,
            t: args.settings.t,
            memory: memory.to_vec(),
            disk: disk.to_vec(),
            standby_memory: Vec::new(),
            standby_disk: Vec::new(),
            packets: Default::default(),
            left: [0; PORTS],
            protected: [0; PORTS],
            checkpoints: vec![Rc::new(first)],
            r: 0,
            a: 0,
            count: 0,
            activated: false,
        }
    }

    pub fn alone(&self) -> bool {
        self.count >= self.t
    }

    pub fn received(&self) -> &Checkpoint {
        &self.checkpoints[self.r]
    }

    /// The disk that is valid after both boxes fail.
    pub fn valid_disk(&self) -> &[u8] {
        if self.activated { &self.standby_disk } else { &self.disk }
    }

    pub fn step(&mut self, which: usize, a: &Args, reply: &Reply) {
        if reply.number != 0 {
            return;
        }
        let block = a.place as usize * self.u;
        let byte = block + a.offset as usize;
        match which {
            code::MEMORY_WRITE => replace(&mut self.memory, byte, &a.data),
            code::DISK_WRITE => replace(&mut self.disk, block, &a.data),
            code::PACKET => self.packets[a.port as usize].push(Rc::new(a.data.clone())),
            code::CHECKPOINT => self.checkpoint(a.cpu),
            code::READ if is_commit(reply.value) => self.r += 1,
            code::ACK => {
                self.a = reply.value as usize;
                self.count = 0;
            }
            code::PRIMARY_TICK if self.a + 1 != self.checkpoints.len() => self.count += 1,
            code::TAKE => self.take(a.port as usize),
            code::ACTIVATION => self.activate(),
            code::STANDBY_MEMORY_WRITE => replace(&mut self.standby_memory, byte, &a.data),
            code::STANDBY_DISK_WRITE => replace(&mut self.standby_disk, block, &a.data),
            _ => {}
        }
    }

    fn checkpoint(&mut self, cpu: [u8; 64]) {
        let (memory, disk, packets) = (self.memory.clone(), self.disk.clone(), self.packets.each_ref().map(Vec::len));
        self.checkpoints.push(Rc::new(Checkpoint { memory, disk, cpu, packets }));
    }

    /// "The oldest packet leaves, under protection unless alone": that port's.
    fn take(&mut self, port: usize) {
        self.left[port] += 1;
        if !self.alone() {
            self.protected[port] = self.left[port];
        }
    }

    fn activate(&mut self) {
        let received = self.checkpoints[self.r].clone();
        self.standby_memory = received.memory.clone();
        self.standby_disk = received.disk.clone();
        self.activated = true;
    }
}

fn replace(image: &mut [u8], at: usize, bytes: &[u8]) {
    image[at..at + bytes.len()].copy_from_slice(bytes);
}
