//! The standby's ticks since the last accepted record, counted from the calls and their numbers alone.
use crate::checker::{demand, Check};
use crate::items::code;
use crate::model::{is_commit, Mode, Reply, Standby};

/// The ticks of a pair since its accepted start.
#[derive(Clone)]
pub struct Ticks {
    t: u64,
    /// Ticks since the last accepted record, or since the start.
    since_record: u64,
    /// Whether these have been T at some moment.
    been_t: bool,
    /// Ticks since the first record of the checkpoint under way, once it has come.
    in_checkpoint: Option<u64>,
    /// Checkpoints wholly received although more than T ticks came between their records.
    pub long_checkpoints: u64,
}

impl Ticks {
    pub fn start(t: u64) -> Ticks {
        Ticks { t, since_record: 0, been_t: false, in_checkpoint: None, long_checkpoints: 0 }
    }

    /// A call that was made. One refused or cut short is neither a tick nor an accepted record.
    pub fn step(&mut self, which: usize, reply: &Reply) {
        match which {
            code::STANDBY_TICK if reply.number == 0 => {
                self.since_record += 1;
                self.been_t |= self.since_record == self.t;
                self.in_checkpoint = self.in_checkpoint.map(|ticks| ticks + 1);
            }
            code::READ if reply.number == 0 => {
                self.since_record = 0;
                self.note_record(reply.value);
            }
            _ => {}
        }
    }

    fn note_record(&mut self, kind: u64) {
        let ticks = self.in_checkpoint.unwrap_or(0);
        if is_commit(kind) {
            self.long_checkpoints += (ticks > self.t) as u64;
            self.in_checkpoint = None;
        } else {
            self.in_checkpoint = Some(ticks);
        }
    }

    /// While the standby is receiving, its count is the ticks since the last accepted record, and they have never been
    /// T. One that is not receiving had T of them, and its count stays there.
    pub fn check(&self, s: &Standby) -> Check {
        if s.mode != Mode::Receiving {
            demand(self.been_t, "not receiving, though T ticks never came without an accepted record")?;
            return demand(s.count == self.t, "not receiving, and the count is not T");
        }
        demand(!self.been_t && s.count < self.t, "still receiving after T ticks without an accepted record")?;
        if s.count == self.since_record {
            return Ok(());
        }
        Err(format!("the count is {}, but the ticks since the last accepted record are {}", s.count, self.since_record))
    }
}
