//! Files and standbys (document 02, Job 14): a standby that reads a file, and another that reads its normal form, come
//! to the same memory, processor state and, all due flushed, disk; what a standby accepts record by record is accepted
//! as a file, and what it refuses is refused with the same number. The files are made up, damaged, or drained from a
//! primary.
use crate::arguments::{arguments, fresh_world, small_settings};
use crate::checker::{demand, Check};
use crate::file_damage::change;
use crate::file_records::*;
use crate::generate::started;
use crate::items::code;
use crate::kept_files::{told, Writer};
use crate::model::*;
use crate::random::Random;
use crate::sink::Sink;
use crate::world::{Args, World};
use std::collections::BTreeSet;

/// Files at M up to 4,096 and above, by how they are made.
const MADE_UP: [u64; 2] = [1_500, 30];
const DRAINED: [u64; 2] = [150, 6];
/// The epochs of a run whose checkpoints are drained.
const EPOCHS: u64 = 3;

pub fn run(r: &Random, sink: &mut Sink) -> Check {
    let (mut accepted, mut refused) = (0, 0);
    for (wide, count) in [false, true].into_iter().zip(MADE_UP) {
        for _ in 0..count {
            let number = made_up(r, sink, wide)?;
            *if number == 0 { &mut accepted } else { &mut refused } += 1;
        }
    }
    println!("  {accepted} files that a standby reads to the end, {refused} that it refuses");
    demand(accepted > 300 && refused > 300, "too few files of a sort")?;
    for (wide, count) in [false, true].into_iter().zip(DRAINED) {
        (0..count).try_for_each(|_| drained(r, sink, wide))?;
    }
    Ok(())
}

/// A made-up file for a standby that waits for its epoch, some of them damaged. The number that the standby gives.
fn made_up(r: &Random, sink: &mut Sink, wide: bool) -> Result<u64, String> {
    let m = if wide { 4_097 } else { r.range(1, 5) };
    let (d, b) = (r.range(0, 6), r.range(0, 4));
    let mut one = some_checkpoint(r, sizes(64, m, d, b), 5);
    one.epoch = one.epoch.max(1);
    let mut records = one.records();
    if r.percent(60) {
        (0..r.pick(&[1, 1, 2])).for_each(|_| change(r, &mut records));
    }
    compared(r, sink, &one, &records.concat()).map_err(|what| told(&one, &what))
}

/// A standby with blocks due, that has received the epoch before this file's.
fn waiting(r: &Random, one: &Checkpoint) -> World {
    let Settings { u, m, d, b, .. } = one.s;
    let s = r.pick(&[b, b, 64, r.range(b, 64)]);
    let staged = if d == 0 { 0 } else { r.pick(&[0, s, r.range(0, s)]) };
    let mut slots = [0; 64];
    slots[..staged as usize].iter_mut().for_each(|slot| *slot = r.below(d));
    let received = one.epoch - 1;
    let standby = Standby { u, m, d, b, s, t: 3, received, staged, due: staged, slots, ..Standby::zero() };
    let mut w = fresh_world(r, &Settings { s, ..one.s });
    w.standby_marks.fill(0);
    World { standby, ..w }
}

/// The standby reads the file, and another one its normal form.
fn compared(r: &Random, sink: &mut Sink, one: &Checkpoint, file: &[u8]) -> Result<u64, String> {
    let mut w = waiting(r, one);
    let mut other = w.clone();
    let (number, used) = read_all(sink, &mut w, file)?;
    let mut writer = Writer::new(r, sink);
    let given = writer.number(&one.s, file);
    // of the first record alone a standby asks for a certain epoch
    if file.get(4..8).is_some_and(|epoch| epoch != one.epoch.to_le_bytes()) {
        return Ok(number);
    }
    let wanted = if number == 0 && used < file.len() { 29 } else { number };
    demand(given == wanted, &format!("the standby gives {number}, the normal form {given}"))?;
    if wanted == 0 {
        let normal = writer.accepted(&one.s, file)?;
        demand(read_all(sink, &mut other, &normal)? == (0, normal.len()), "a standby refuses the normal form")?;
        same_standby(&w, &other)?;
    }
    Ok(number)
}

fn same_standby(one: &World, other: &World) -> Check {
    demand(one.standby_memory == other.standby_memory, "the memories differ")?;
    demand(one.standby_disk == other.standby_disk, "the disks differ")?;
    demand(one.standby.kept_cpu == other.standby.kept_cpu, "the processor states differ")?;
    demand(one.standby.received == other.standby.received, "the epochs differ")
}

/// Reads record by record up to a COMMIT, with a flush where the slots are full, then stores all that is due: the
/// number of the first that is refused or cut short, or 0; and the bytes used.
fn read_all(sink: &mut Sink, w: &mut World, file: &[u8]) -> Result<(u64, usize), String> {
    let mut at = 0;
    loop {
        let mut a = Args { data: file[at..].to_vec(), out: vec![0; 8], ..Args::none() };
        let reply = sink.call(code::READ, w, &mut a);
        match reply.number {
            0 => at += reply.used as usize,
            17 => {
                let stored = sink.call(code::FLUSH, w, &mut Args { n: 1, ..Args::none() }).value;
                demand(stored == 1, "the slots are full, and none is due")?;
            }
            number => return Ok((number, at)),
        }
        if is_commit(reply.value) {
            sink.call(code::FLUSH, w, &mut Args { n: 64, ..Args::none() });
            return Ok((0, at));
        }
    }
}

/// Checkpoints of a run that a primary drains: the normal form has the blocks and pages that the guest wrote, with the
/// bytes that the primary's disk and memory have at the checkpoint.
fn drained(r: &Random, sink: &mut Sink, wide: bool) -> Check {
    let mut settings = small_settings(r);
    if wide {
        settings = Settings { u: 64, m: 4_097, l: least_stream(64, 4_097, settings.b), ..settings };
    }
    let mut w = started(r, sink, settings);
    for _ in 0..EPOCHS {
        let (file, one) = next_checkpoint(r, sink, settings, &mut w)?;
        let normal = Writer::new(r, sink).accepted(&settings, &file)?;
        demand(normal == one.normal().file(), &told(&one, "not what the guest wrote"))?;
        let mut other = w.clone();
        demand(read_all(sink, &mut w, &file)? == (0, file.len()), "the standby refuses a checkpoint")?;
        demand(read_all(sink, &mut other, &normal)? == (0, normal.len()), "a standby refuses the normal form")?;
        same_standby(&w, &other)?;
        demand(w.standby_memory == w.memory && w.standby_disk == w.disk, "the standby has not the primary's images")?;
        if r.percent(50) {
            w = other;
        }
    }
    Ok(())
}

/// Some writes of the guest and a checkpoint: the bytes drained, and what they are to name.
fn next_checkpoint(
    r: &Random, sink: &mut Sink, s: Settings, w: &mut World,
) -> Result<(Vec<u8>, Checkpoint), String> {
    let (mut file, mut blocks, mut pages) = (Vec::new(), BTreeSet::new(), BTreeSet::new());
    for _ in 0..r.range(0, 14) {
        let which = r.pick(&[code::MEMORY_WRITE, code::DISK_WRITE, code::DISK_WRITE]);
        let mut a = arguments(r, which, w, 0);
        let written = if which == code::DISK_WRITE { &mut blocks } else { &mut pages };
        if sink.call(which, w, &mut a).number == 0 {
            written.insert(a.place);
        }
        file.extend(drain(sink, w));
    }
    let (epoch, mut a) = (w.primary.open, Args { cpu: r.cpu(), ..Args::none() });
    demand(sink.call(code::CHECKPOINT, w, &mut a).number == 0, "a checkpoint is refused")?;
    file.extend(drain(sink, w));
    let part = |image: &[u8], unit: u64| (unit, image[(unit * s.u) as usize..][..s.u as usize].to_vec());
    let blocks = blocks.into_iter().map(|block| part(&w.disk, block)).collect();
    let pages = pages.into_iter().map(|page| part(&w.memory, page)).collect();
    Ok((file, Checkpoint { s, epoch, blocks, pages, cpu: a.cpu }))
}

/// All that waits in the stream.
fn drain(sink: &mut Sink, w: &mut World) -> Vec<u8> {
    let n = w.primary.waiting;
    let mut a = Args { n, out: vec![0; n as usize], ..Args::none() };
    sink.call(code::DRAIN, w, &mut a);
    a.out
}
