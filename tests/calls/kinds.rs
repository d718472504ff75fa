//! What reads gave to each kind of record, where M is up to 4,096 and where it is above (document 02, Job 7).
use crate::model::{is_wide, Standby, CUT_SHORT};

/// The kinds counted: 0 to 10.
const KINDS: usize = 11;
/// The numbers counted; 1 and 13 are given before the record is looked at, and 11 is of an ACK.
const NUMBERS: [u64; 11] = [0, 2, 5, 6, 7, 8, 9, 10, 14, 17, CUT_SHORT];
/// PAGE, BLOCK, STATE and COMMIT at M up to 4,096, and above.
const READ: [[u64; 4]; 2] = [[1, 2, 3, 4], [8, 2, 3, 9]];
/// The numbers, beside accepted, 7 and cut short, that each of these four can get.
const JUDGED: [&[u64]; 4] = [&[2, 8, 9], &[2, 8, 9, 14, 17], &[8, 9], &[5, 8, 9, 10]];
const NAMES: [&str; 2] = ["up to 4,096", "above 4,096"];

/// How often each number came, by the width of M and by the kind in the header.
#[derive(Default)]
pub struct Kinds([[[u64; NUMBERS.len()]; KINDS]; 2]);

impl Kinds {
    /// Counts what a read gave to these bytes, where it saw a whole header.
    pub fn note(&mut self, s: &Standby, data: &[u8], number: u64) {
        let (Some(kind), Some(at)) = (kind_of(data), NUMBERS.iter().position(|&one| one == number)) else { return };
        if (kind as usize) < KINDS {
            self.0[is_wide(s.m) as usize][kind as usize][at] += 1;
        }
    }

    pub fn print(&self) {
        for (name, kinds) in NAMES.iter().zip(&self.0) {
            println!("numbers of reads by the record's kind, M {name}:");
            print!("{:>7}", "kind");
            NUMBERS.iter().for_each(|number| print!("{number:>8}"));
            println!();
            for (kind, counts) in kinds.iter().enumerate() {
                print!("{kind:>7}");
                counts.iter().for_each(|count| print!("{count:>8}"));
                println!();
            }
        }
    }

    /// Every number that a kind can get at this M must have come, and 6 of the kinds that M does not call for.
    pub fn all_came(&self) -> bool {
        let mut all = true;
        for (wide, kind, number) in wanted() {
            let at = NUMBERS.iter().position(|&one| one == number);
            if at.is_none_or(|at| self.0[wide][kind as usize][at] == 0) {
                println!("at M {} kind {kind} never got {number}", NAMES[wide]);
                all = false;
            }
        }
        all
    }
}

fn wanted() -> Vec<(usize, u64, u64)> {
    let mut all = Vec::new();
    for (wide, read) in READ.into_iter().enumerate() {
        let others = (0..KINDS as u64).filter(|kind| !read.contains(kind));
        all.extend(others.map(|kind| (wide, kind, 6)));
        for (kind, judged) in read.into_iter().zip(JUDGED) {
            all.extend([0, 7, CUT_SHORT].iter().chain(judged).map(|&number| (wide, kind, number)));
        }
    }
    all
}

/// The kind that a whole header says.
fn kind_of(record: &[u8]) -> Option<u64> {
    Some(u16::from_le_bytes([*record.get(2)?, *record.get(3)?]) as u64)
}

/// The number of a page or a block, of 4 bytes in kind 8 and of 2 in the others, as far as the record goes.
pub fn unit_number(record: &[u8]) -> Option<u64> {
    let width = if kind_of(record)? == 8 { 4 } else { 2 };
    let bytes = record.get(8..8 + width)?;
    Some(bytes.iter().rev().fold(0, |number, &byte| number << 8 | byte as u64))
}
