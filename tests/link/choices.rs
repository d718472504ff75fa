//! The disk choice: its answer from the rules, its inputs, and the comparison.

use crate::inputs::Numbers;
use crate::{CHOICES, PRINTED, library};

/// The answers that must all come.
pub const CHOICE_CLASSES: [(u64, &str); 4] = [
    (256, "256, the primary's disk"),
    (512, "512, the standby's disk"),
    (1, "1, a length is wrong"),
    (12, "12, the area is neither zero nor a record"),
];

/// Which disk is valid after both boxes fail, from the rules: the lent lengths are exact, the area 8
/// bytes and the disks equally long, else 1. An area that is zero means the primary's disk. One with
/// a record of length 4, kind 6 means the standby's, whatever its epoch. All others are 12.
pub fn choice(primary: &[u8], standby: &[u8], area: &[u8]) -> u64 {
    if primary.len() != standby.len() {
        return 1;
    }
    let Ok(area) = <[u8; 8]>::try_from(area) else {
        return 1;
    };
    let whole = u64::from_le_bytes(area);
    let (length, kind) = (whole & 0xffff, whole >> 16 & 0xffff);
    match (whole, length, kind) {
        (0, _, _) => 256,
        (_, 4, 6) => 512,
        _ => 12,
    }
}

/// An area: zero, an activation, or near one of the two, and sometimes of another length.
pub fn some_area(n: &mut Numbers) -> Vec<u8> {
    let mut area = vec![0; 8];
    if n.one_in(2) {
        area[0] = 4;
        area[2] = 6;
        for b in &mut area[4..] {
            *b = if n.one_in(3) { 0 } else { n.next() as u8 };
        }
    }
    match n.below(8) {
        // One bit, or one byte.
        0 => area[n.below(8)] ^= 1 << n.below(8),
        1 => area[n.below(8)] = n.next() as u8,
        // Small numbers, most of them in the header.
        2 => {
            for _ in 0..1 + n.below(4) {
                area[n.below(5)] = n.below(8) as u8;
            }
        }
        // Two bytes of the header exchanged.
        3 => {
            let (a, b) = (n.below(4), n.below(4));
            area.swap(a, b);
        }
        // Bytes of no record.
        4 if n.one_in(2) => {
            for b in &mut area {
                *b = n.next() as u8;
            }
        }
        _ => {}
    }
    if n.one_in(10) {
        let len = if n.one_in(2) {
            7 + n.below(3)
        } else {
            n.below(20)
        };
        area.resize(len, 0);
    }
    area
}

/// Compares on `CHOICES` inputs. Whether all were equal, and each answer came.
pub fn compare_choices(n: &mut Numbers) -> bool {
    let disks: [Vec<u8>; 2] = [0, 1].map(|_| (0..4096).map(|_| n.next() as u8).collect());
    let mut counts = [0u64; 4];
    let mut differences = 0;
    for _ in 0..CHOICES {
        let length = if n.one_in(4) { 0 } else { n.below(4097) };
        let other = match n.below(10) {
            0 => n.below(4097),
            1 => (length + 1).min(4096),
            _ => length,
        };
        // Sometimes one disk is lent twice.
        let (first, second) = (n.below(2), n.below(2));
        let (primary, standby) = (&disks[first][..length], &disks[second][..other]);
        let area = some_area(n);
        let ours = choice(primary, standby, &area);
        let theirs = library::choice(primary, standby, &area);
        for (class, count) in CHOICE_CLASSES.iter().zip(&mut counts) {
            *count += u64::from(class.0 == ours);
        }
        if ours != theirs {
            differences += 1;
            if differences <= PRINTED {
                println!("DIFFERENCE: disks of {length} and {other} bytes, area {area:02x?}");
                println!("  wanted {ours}, got {theirs}");
            }
        }
    }
    println!("{CHOICES} inputs of the disk choice");
    let mut good = differences == 0;
    for (class, count) in CHOICE_CLASSES.iter().zip(counts) {
        println!("{count:>10}  {}", class.1);
        if count == 0 {
            println!("FAILED: this answer never came");
            good = false;
        }
    }
    if differences != 0 {
        println!("FAILED: {differences} differences, of which {PRINTED} at most are printed");
    }
    good
}
