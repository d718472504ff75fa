//! Files damaged and cut at every place (document 02, Job 14). What a cut misses is worked out here, beside the model.
use crate::checker::{demand, Check};
use crate::file_records::*;
use crate::kept_files::Writer;
use crate::random::Random;

/// Files of each width that are damaged at every byte, and those that are damaged at random.
const SMALL: u64 = 6;
const RANDOM: u64 = 40_000;

pub fn run(writer: &mut Writer) -> Check {
    for m in [1, 3, 4_096, 4_097, 65_536] {
        for _ in 0..SMALL {
            let one = small(writer.r, m);
            every_byte(writer, &one);
            every_cut(writer, &one)?;
            behind(writer, &one)?;
        }
    }
    (0..RANDOM).for_each(|_| damaged(writer));
    Ok(())
}

/// A few blocks and pages, at settings that the bytes of a number can pass.
fn small(r: &Random, m: u64) -> Checkpoint {
    some_checkpoint(r, sizes(64, m, r.range(1, 5), r.range(0, 3)), 3)
}

/// Each byte of a file changed: the answers are the model's, whichever they are.
fn every_byte(writer: &mut Writer, one: &Checkpoint) {
    let file = one.file();
    for at in 0..file.len() {
        for change in [1, 128, writer.r.range(2, 127) as u8] {
            let mut damaged = file.clone();
            damaged[at] ^= change;
            writer.number(&one.s, &damaged);
        }
    }
}

/// A file cut at every length: "4 less the bytes present for the header, then the rest of the body" (Job 2), of the
/// record under way.
fn every_cut(writer: &mut Writer, one: &Checkpoint) -> Check {
    let (file, mut at) = (one.file(), 0);
    for record in one.records() {
        for present in 0..record.len() {
            let missing = if present < 4 { 4 - present } else { record.len() - present };
            let room = writer.r.bytes(writer.r.below(600));
            let (reply, _) = writer.call(&one.s, &file[..at + present], room);
            let right = reply.number == 256 && reply.missing == missing as u64;
            let (number, given) = (reply.number, reply.missing);
            demand(right, &format!("cut at {}: {number}, {given} missing and not {missing}", at + present))?;
        }
        at += record.len();
    }
    Ok(())
}

/// Bytes behind the COMMIT give 29, whatever they are and whatever room there is.
fn behind(writer: &mut Writer, one: &Checkpoint) -> Check {
    let (r, file) = (writer.r, one.file());
    let more = [r.bytes(1), vec![0], r.bytes(4), r.bytes(200), file.clone(), file[..file.len() - 1].to_vec()];
    for more in more {
        let (long, room) = ([&file[..], &more].concat(), r.bytes(r.below(2 * file.len() as u64)));
        demand(writer.number(&one.s, &long) == 29, "bytes behind the COMMIT")?;
        demand(writer.call(&one.s, &long, room).0.number == 29, "bytes behind the COMMIT, and any room")?;
    }
    Ok(())
}

/// A file with some of its records left out, doubled, exchanged or changed, or none, at settings that need not fit it.
pub fn damaged(writer: &mut Writer) {
    let r = writer.r;
    let m = r.pick(&[1, 3, 65, 4_096, 4_097, 65_536]);
    let one = some_checkpoint(r, sizes(r.pick(&[64, 64, 128]), m, r.range(0, 6), r.range(0, 4)), 4);
    let mut records = one.records();
    (0..r.pick(&[0, 1, 1, 1, 2])).for_each(|_| change(r, &mut records));
    let mut s = one.s;
    match r.below(30) {
        0 => s.u = r.pick(&[64, 128, 192]),
        1 => s.m = r.pick(&[1, 3, 4_096, 4_097]),
        2 => s.d = r.range(0, 3),
        3 => s.b = r.range(0, 2),
        _ => {}
    }
    let room = r.bytes(r.pick(&[0, 200, 400, 1_000, 2_000]));
    writer.call(&s, &records.concat(), room);
}

/// One record left out, doubled, exchanged with another, cut or changed, or all from it on left out.
pub fn change(r: &Random, records: &mut Vec<Vec<u8>>) {
    if records.is_empty() {
        return;
    }
    let (at, other) = (r.below(records.len() as u64) as usize, r.below(records.len() as u64) as usize);
    let last = records[at].len().saturating_sub(1) as u64;
    match r.below(7) {
        0 => drop(records.remove(at)),
        1 => records.insert(other, records[at].clone()),
        2 => records.swap(at, other),
        3 => records.truncate(at),
        4 => records[at].truncate(r.below(last + 1) as usize),
        _ if records[at].is_empty() => {}
        _ => {
            let place = r.pick(&[0, 1, 2, 3, 4, 7, 8, 9, 10, 11, last, r.below(last + 1)]).min(last) as usize;
            let byte = records[at][place];
            records[at][place] = r.pick(&[byte ^ 1, byte.wrapping_add(1), byte.wrapping_sub(1), r.next() as u8]);
        }
    }
}
