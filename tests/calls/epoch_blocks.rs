//! The blocks of a run, kept from the calls and their numbers alone (document 02, Job 9): the different blocks and the
//! BLOCK records of each end's epoch, what the standby has staged, and what its disk must hold.
use crate::both::Both;
use crate::checker::{demand, Check};
use crate::items::code;
use crate::kinds::unit_number;
use crate::model::{is_commit, Mode, Reply, Settings, CUT_SHORT};
use crate::world::{Args, World};
use std::collections::BTreeSet;

const BLOCK: u64 = 2;
const MOST: u64 = 65_535;

/// The different blocks of an epoch, and its BLOCK records.
#[derive(Clone, Default)]
struct Counted {
    blocks: BTreeSet<u64>,
    records: u64,
}

impl Counted {
    fn note(&mut self, block: u64) {
        self.blocks.insert(block);
        self.records += 1;
    }

    /// Whether another record of this block gives 14.
    fn is_refused(&self, block: u64, b: u64) -> bool {
        self.records == MOST || self.blocks.len() as u64 == b && !self.blocks.contains(&block)
    }
}

#[derive(Clone)]
pub struct EpochBlocks {
    settings: Settings,
    primary: Counted,
    standby: Counted,
    /// The staged blocks, each once an epoch in the place where it came first, with its last bytes. So many are due.
    staged: Vec<(u64, Vec<u8>)>,
    due: usize,
    disk: Vec<u8>,
    /// The most records of an epoch that was wholly received, and the records for which no slot more was needed.
    pub most_records: u64,
    pub again: u64,
}

impl EpochBlocks {
    /// After an accepted start.
    pub fn start(settings: Settings, world: &World) -> EpochBlocks {
        let (primary, standby, disk) = (Counted::default(), Counted::default(), world.standby_disk.clone());
        EpochBlocks { settings, primary, standby, staged: Vec::new(), due: 0, disk, most_records: 0, again: 0 }
    }

    /// The records of the primary's open epoch.
    pub fn written(&self) -> u64 {
        self.primary.records
    }

    /// A call that was made; `alone` is what the primary was before it, and the world is the one after it.
    pub fn step(&mut self, which: usize, a: &Args, reply: &Reply, alone: bool, w: &World) -> Check {
        match which {
            code::DISK_WRITE if !alone => self.write(a.place, reply.number),
            code::READ => self.read(a, reply),
            _ if reply.number != 0 => Ok(()),
            code::CHECKPOINT => {
                self.primary = Counted::default();
                Ok(())
            }
            code::FLUSH => self.flush(a.n, reply.value),
            code::STANDBY_TICK if w.standby.mode != Mode::Receiving => {
                self.staged.truncate(self.due);
                self.standby = Counted::default();
                Ok(())
            }
            code::STANDBY_DISK_WRITE => {
                store(&mut self.disk, self.settings.u, a.place, &a.data);
                Ok(())
            }
            _ => Ok(()),
        }
    }

    /// A disk write gives 14 where another block is not allowed or the records are at their most, and nowhere else.
    fn write(&mut self, block: u64, number: u64) -> Check {
        let refused = self.primary.is_refused(block, self.settings.b);
        match number {
            0 => {
                demand(!refused, "a disk write is accepted that must give 14")?;
                self.primary.note(block);
                Ok(())
            }
            14 => demand(refused, "a disk write gives 14 within the allowance"),
            _ => Ok(()),
        }
    }

    /// What the primary sent is never refused with 14 or 10; only 17 may come, and only for want of a slot.
    fn read(&mut self, a: &Args, reply: &Reply) -> Check {
        let block = unit_number(&a.data).unwrap_or(0);
        let place = self.staged[self.due..].iter().position(|one| one.0 == block);
        match reply.number {
            0 if reply.value == BLOCK => self.stage(place, block, &a.data[10..reply.used as usize]),
            0 if is_commit(reply.value) => {
                self.most_records = self.most_records.max(self.standby.records);
                (self.due, self.standby) = (self.staged.len(), Counted::default());
            }
            17 => {
                let wanted = place.is_none() && self.staged.len() as u64 == self.settings.s;
                demand(wanted, "a BLOCK gives 17 with a slot left, or one to reuse")?;
            }
            5 => demand(a.out.len() < 8, "a COMMIT gives 5 with room for the ACK")?,
            0 | 13 | CUT_SHORT => {}
            number => return Err(format!("what the primary sent is refused with {number}")),
        }
        Ok(())
    }

    fn stage(&mut self, place: Option<usize>, block: u64, bytes: &[u8]) {
        self.standby.note(block);
        match place {
            Some(place) => {
                self.staged[self.due + place].1 = bytes.to_vec();
                self.again += 1;
            }
            None => self.staged.push((block, bytes.to_vec())),
        }
    }

    /// A flush counts slots: one for each block of an epoch, however many records it had.
    fn flush(&mut self, n: u64, value: u64) -> Check {
        let stored = n.min(self.due as u64);
        for (block, bytes) in self.staged.drain(..stored as usize) {
            store(&mut self.disk, self.settings.u, block, &bytes);
        }
        self.due -= stored as usize;
        demand(value == stored, "a flush's count is not that of the slots stored")
    }

    /// What must hold after every call.
    pub fn check(&self, both: &Both) -> Check {
        let (w, plain) = (&both.world, &both.plain);
        let (p, s) = (&w.primary, &w.standby);
        demand(p.blocks == self.primary.blocks.len() as u64, "the primary's blocks are not the different ones")?;
        demand(p.records == self.primary.records, "the primary's records are not the BLOCKs written")?;
        let written = &p.written[..p.blocks as usize];
        demand(written.iter().all(|block| self.primary.blocks.contains(block)), "the primary remembers other blocks")?;
        demand(s.blocks == self.standby.blocks.len() as u64, "the standby's blocks are not the different ones")?;
        demand(s.records == self.standby.records, "the standby's records are not the BLOCKs read")?;
        demand(s.staged == self.staged.len() as u64 && s.due == self.due as u64, "staged or due is another")?;
        let slots = s.slots.iter().zip(w.blocks.chunks(self.settings.u as usize)).take(self.staged.len());
        let same = slots.zip(&self.staged).all(|((number, bytes), one)| *number == one.0 && *bytes == one.1);
        demand(same, "a slot's block or bytes are not the last that came for it")?;
        demand(w.standby_disk == self.disk, "the standby's disk is not what was flushed")?;
        let flushed = self.due == 0 && !plain.activated;
        demand(!flushed || self.disk == plain.received().disk, "all due flushed, the disk is not checkpoint r's")
    }
}

fn store(disk: &mut [u8], u: u64, block: u64, bytes: &[u8]) {
    let at = (block * u) as usize;
    disk[at..at + bytes.len()].copy_from_slice(bytes);
}
