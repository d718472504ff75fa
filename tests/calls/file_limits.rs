//! Settings and files at their limits (document 02, Job 14): each of U M D B at an end of its range and past it, the
//! last page and the last block and one more, B different blocks and one more, 65,535 BLOCKs and one more, and every
//! page of the largest memories.
use crate::checker::{demand, Check};
use crate::file_records::*;
use crate::kept_files::{told, Writer};
use crate::model::Settings;

const EPOCH: u32 = 9;
/// An M of the kinds 1 and 4, and the least M of the kinds 8 and 9.
const WIDTHS: [u64; 2] = [3, 4_097];

pub fn run(writer: &mut Writer) -> Check {
    settings(writer)?;
    for m in [1, 64, 4_095, 4_096, 4_097, 65_535, 65_536] {
        last_page(writer, m).map_err(|what| format!("M {m}: {what}"))?;
    }
    for m in WIDTHS {
        [0, 1, 2, 255, 256, 4_095, 4_096].into_iter().try_for_each(|d| last_block(writer, m, d))?;
        [0, 1, 2, 3, 63, 64].into_iter().try_for_each(|b| allowance(writer, m, b))?;
        most_blocks(writer, m)?;
    }
    largest(writer)
}

/// A number that a file must get.
fn gives(writer: &mut Writer, s: &Settings, number: u64, file: &[u8], what: &str) -> Check {
    let given = writer.number(s, file);
    demand(given == number, &format!("{what}: {given} and not {number}"))
}

/// Settings at their limits, and over them: 1, whatever the file and the destination are.
fn settings(writer: &mut Writer) -> Check {
    let right = sizes(64, 3, 4, 2);
    let one = some_checkpoint(writer.r, right, 3);
    let at_limits = [sizes(64, 3, 4_096, 2), sizes(64, 4_096, 4, 2), sizes(64, 3, 4, 64), sizes(64, 4_096, 4_096, 64)];
    for s in at_limits {
        demand(writer.number(&s, &one.file()) == 0, "settings at their limits are refused")?;
    }
    let huge = [1 << 16, 1 << 32, (1 << 32) + 64, 1 << 63, u64::MAX - 63, u64::MAX];
    let u = [0, 1, 32, 63, 65, 96, 100, 127, 4_095, 4_097, 4_160].into_iter().chain(huge);
    let m = [0, 65_537, 65_538, 131_072, (1 << 32) + 3].into_iter().chain(huge).filter(|&m| m != 65_536);
    let d = [4_097, 4_098, 65_535, (1 << 32) + 4].into_iter().chain(huge);
    let b = [65, 66, 255, 256, 258, (1 << 32) + 2].into_iter().chain(huge);
    let (u, m) = (u.map(|u| Settings { u, ..right }), m.map(|m| Settings { m, ..right }));
    let (d, b) = (d.map(|d| Settings { d, ..right }), b.map(|b| Settings { b, ..right }));
    let several = [sizes(0, 0, 4_097, 65), sizes(u64::MAX, u64::MAX, u64::MAX, u64::MAX), sizes(0, 0, 0, 0)];
    for s in u.chain(m).chain(d).chain(b).chain(several) {
        for file in [one.file(), vec![], vec![0; 4], [one.file(), vec![1]].concat()] {
            demand(writer.number(&s, &file) == 1, "settings over their limits are not refused with 1")?;
            demand(writer.call(&s, &file, vec![]).0.number == 1, "1 does not come first")?;
        }
    }
    Ok(())
}

/// All pages of the largest M with the least U, all of the largest narrow M, and 16 MiB of pages.
fn largest(writer: &mut Writer) -> Check {
    for (u, m) in [(64, 65_536), (64, 65_535), (64, 4_097), (64, 4_096), (4_096, 4_096)] {
        let (r, s) = (writer.r, sizes(u, m, 4_096, 64));
        let pages = (0..m).map(|page| (page, r.bytes(u))).collect();
        let blocks = (0..130).map(|at| (4_095 - at % 64, r.bytes(u))).collect();
        let one = Checkpoint { s, epoch: u32::MAX, blocks, pages, cpu: r.cpu() };
        let normal = writer.accepted(&s, &one.file())?;
        demand(normal == one.normal().file(), &told(&one, "not its normal form"))?;
        let (reply, _) = writer.call(&s, &normal, vec![0; normal.len() - 1]);
        demand(reply.number == 30, "a large destination that is one byte too short")?;
    }
    Ok(())
}

/// Page M - 1 is there, page M is not.
fn last_page(writer: &mut Writer, m: u64) -> Check {
    let file = |number| {
        let pages = vec![(number, vec![1; 64])];
        Checkpoint { s: sizes(64, m, 0, 0), epoch: EPOCH, blocks: vec![], pages, cpu: [5; 64] }.file()
    };
    gives(writer, &sizes(64, m, 0, 0), 0, &file(m - 1), "page M - 1")?;
    gives(writer, &sizes(64, m, 0, 0), 2, &file(m), "page M")
}

/// Block D - 1 is there, block D is not.
fn last_block(writer: &mut Writer, m: u64, d: u64) -> Check {
    let s = sizes(64, m, d, 1);
    let file = |number| Checkpoint { s, epoch: EPOCH, blocks: written(&[number]), pages: vec![], cpu: [5; 64] }.file();
    if d > 0 {
        gives(writer, &s, 0, &file(d - 1), &format!("M {m}, block {}", d - 1))?;
    }
    gives(writer, &s, 2, &file(d), &format!("M {m}, block {d}"))
}

fn written(numbers: &[u64]) -> Units {
    numbers.iter().map(|&number| (number, vec![number as u8; 64])).collect()
}

/// B different blocks, also with some of them again, and then another one.
fn allowance(writer: &mut Writer, m: u64, b: u64) -> Check {
    let s = sizes(64, m, 4_096, b);
    let falling: Vec<u64> = (0..b).map(|at| 4_095 - 60 * at).collect();
    let again = [&falling[..], &falling].concat();
    let more = [[&falling[..], &[0]].concat(), [&again[..], &[0]].concat()];
    let cases = [(0, &falling), (0, &again), (14, &more[0]), (14, &more[1])];
    for (number, blocks) in cases {
        let one = Checkpoint { s, epoch: EPOCH, blocks: written(blocks), pages: vec![], cpu: [5; 64] };
        gives(writer, &s, number, &one.file(), &format!("M {m}, B {b}, {} BLOCKs", blocks.len()))?;
    }
    Ok(())
}

/// "14 is also given at 65,535 BLOCK records in an epoch" (Job 9): after 2, 8 and 9, whichever block it is.
fn most_blocks(writer: &mut Writer, m: u64) -> Check {
    let s = sizes(64, m, 4, 2);
    let most: Vec<u8> = (0..65_535u32).flat_map(|at| block(EPOCH, 0, &at.to_le_bytes().repeat(16))).collect();
    let (state, page) = (state(EPOCH, &[5; 64]), page(m, EPOCH, 0, &[6; 64]));
    let one = |epoch, number| vec![block(epoch, number, &[7; 64])];
    let cases = [
        (0, vec![state.clone(), commit(m, EPOCH, 0, 65_535)]),
        (0, vec![page.clone(), state.clone(), commit(m, EPOCH, 1, 65_535)]),
        (10, vec![state.clone(), commit(m, EPOCH, 0, 65_534)]),
        (10, vec![state, commit(m, EPOCH, 0, 1)]),
        (14, one(EPOCH, 0)),
        (14, one(EPOCH, 1)),
        (2, one(EPOCH, 4)),
        (8, one(EPOCH + 1, 0)),
        (9, [vec![page], one(EPOCH, 0)].concat()),
    ];
    for (at, (number, end)) in cases.into_iter().enumerate() {
        let file = [&most[..], &end.concat()].concat();
        gives(writer, &s, number, &file, &format!("M {m}, 65,535 BLOCKs, case {at}"))?;
    }
    Ok(())
}
