//! Both ends with all their buffers and the link between them, and one call made on them by the model.
use crate::items::code;
use crate::model::*;

#[derive(Clone, PartialEq)]
pub struct World {
    pub primary: Primary,
    pub standby: Standby,
    pub memory: Vec<u8>,
    pub disk: Vec<u8>,
    pub marks: Vec<u64>,
    pub held: Vec<u8>,
    pub stream: Vec<u8>,
    pub standby_memory: Vec<u8>,
    pub standby_disk: Vec<u8>,
    pub pages: Vec<u8>,
    pub standby_marks: Vec<u64>,
    pub blocks: Vec<u8>,
    pub area: Vec<u8>,
    /// Bytes drained and not yet used.
    pub link: Vec<u8>,
    /// ACK bytes written and not yet used.
    pub acks: Vec<u8>,
}

/// What a call is given besides states and lent buffers. `out` is the destination or the reply buffer; after
/// the disk choice it is the disk handed back. A normal form is given the U M D B of `settings`; its file is `data`.
#[derive(Clone)]
pub struct Args {
    pub settings: Settings,
    pub cpu: [u8; 64],
    /// The page or the block.
    pub place: u64,
    pub offset: u64,
    pub n: u64,
    pub port: u64,
    pub data: Vec<u8>,
    pub out: Vec<u8>,
    /// The pages in the order in which the standby visited them.
    pub order: Vec<u64>,
}

impl Args {
    pub fn none() -> Args {
        let settings = Settings::default();
        let (data, out, order) = (Vec::new(), Vec::new(), Vec::new());
        Args { settings, cpu: [0; 64], place: 0, offset: 0, n: 0, port: 0, data, out, order }
    }
}

/// Makes one call by the model.
pub fn run(which: usize, w: &mut World, a: &mut Args) -> Reply {
    let (p, s) = (&mut w.primary, &mut w.standby);
    match which {
        code::START => run_start(w, a),
        code::MEMORY_WRITE => memory_write(p, &mut w.memory, &mut w.marks, a.place, a.offset, &a.data),
        code::DISK_WRITE => disk_write(p, &mut w.disk, &mut w.stream, a.place, &a.data),
        code::PACKET => packet(p, &mut w.held, a.port, &a.data),
        code::CHECKPOINT => checkpoint(p, &w.memory, &mut w.marks, &mut w.stream, &a.cpu),
        code::DRAIN => drain(p, &mut w.stream, a.n, &mut a.out),
        code::ACK => ack(p, &a.data),
        code::TAKE => take(p, &mut w.held, a.port, &mut a.out),
        code::PRIMARY_TICK => primary_tick(p),
        code::READ => {
            let mut lent = Staging {
                memory: &mut w.standby_memory,
                pages: &mut w.pages,
                marks: &mut w.standby_marks,
                blocks: &mut w.blocks,
            };
            read(s, &mut lent, &a.data, &mut a.out)
        }
        code::FLUSH => flush(s, &mut w.blocks, &mut w.standby_disk, a.n),
        code::STANDBY_TICK => standby_tick(s, &mut w.standby_marks),
        code::ACTIVATION => activate(s, &mut w.area),
        code::STANDBY_MEMORY_WRITE => standby_memory_write(s, &mut w.standby_memory, a.place, a.offset, &a.data),
        code::STANDBY_DISK_WRITE => standby_disk_write(s, &mut w.standby_disk, a.place, &a.data),
        code::PRIMARY_SUM => primary_sum(p, &w.memory),
        code::STANDBY_SUM => standby_sum(s, &w.standby_memory, &a.order),
        code::NORMAL_FORM => normal_form(&a.settings, &a.data, &mut a.out),
        _ => {
            let (number, chosen) = disk_choice(&w.disk, &w.standby_disk, &w.area);
            a.out = chosen.to_vec();
            Reply { number, value: chosen_number(number, &w.area), used: 0, missing: 0 }
        }
    }
}

/// The disk chosen as the C interface names it: 1 is the primary's, 2 the standby's, 0 none.
fn chosen_number(number: u64, area: &[u8]) -> u64 {
    match number {
        0 if area.iter().all(|&byte| byte == 0) => 1,
        0 => 2,
        _ => 0,
    }
}

fn run_start(w: &mut World, a: &Args) -> Reply {
    let mut lent = Lent {
        memory: &mut w.memory,
        disk: &mut w.disk,
        marks: &mut w.marks,
        held: &mut w.held,
        stream: &mut w.stream,
        standby_memory: &mut w.standby_memory,
        standby_disk: &mut w.standby_disk,
        pages: &mut w.pages,
        standby_marks: &mut w.standby_marks,
        blocks: &mut w.blocks,
        area: &mut w.area,
    };
    let (number, primary, standby) = start(&a.settings, &a.cpu, &mut lent);
    w.primary = primary;
    w.standby = standby;
    Reply { number, value: 0, used: 0, missing: 0 }
}

/// What a call moves over the link: drained bytes, bytes used, ACKs written.
pub fn carry(which: usize, w: &mut World, a: &Args, reply: &Reply) {
    match which {
        code::DRAIN if reply.number == 0 => w.link.extend_from_slice(&a.out[..reply.value as usize]),
        code::READ => {
            w.link.drain(..(reply.used as usize).min(w.link.len()));
            if reply.number == 0 && is_commit(reply.value) {
                w.acks.extend_from_slice(&a.out[..8]);
            }
        }
        code::ACK => {
            w.acks.drain(..(reply.used as usize).min(w.acks.len()));
        }
        _ => {}
    }
}
