//! The numbers that the calls gave: every one that a call can give must come, and no other.
use crate::items::code;
use crate::model::CUT_SHORT;
use std::collections::{BTreeMap, BTreeSet};

/// What each call can give besides 0 and 1, by code, in the order of its tests (documents 01 and 02).
const REFUSALS: [&[u64]; code::ALL] = [
    &[],
    &[2, 3],
    &[2, 3, 14, 15],
    &[4, 23, 16],
    &[13, 15, 19],
    &[],
    &[13, CUT_SHORT, 6, 7, 11],
    &[23, 18, 5],
    &[],
    &[13, CUT_SHORT, 6, 7, 2, 5, 8, 9, 10, 14, 17],
    &[],
    &[],
    &[13, 20],
    &[13, 2, 3],
    &[13, 2, 3],
    &[12],
    &[],
    &[],
    &[CUT_SHORT, 6, 7, 2, 8, 9, 10, 14, 29, 30],
];

/// How often each number came, by call code.
#[derive(Default)]
pub struct Numbers(BTreeMap<(u64, usize), u64>);

impl Numbers {
    pub fn note(&mut self, which: usize, number: u64) {
        *self.0.entry((number, which)).or_default() += 1;
    }

    pub fn print(&self) {
        println!("numbers by call code (256 is cut short):");
        print!("{:>7}{:>9}", "number", "all");
        (0..code::ALL).for_each(|which| print!("{which:>7}"));
        println!();
        let numbers: BTreeSet<u64> = wanted().iter().chain(self.0.keys()).map(|one| one.0).collect();
        for number in numbers {
            let counts = (0..code::ALL).map(|which| self.0.get(&(number, which)).copied().unwrap_or(0));
            print!("{number:>7}{:>9}", counts.clone().sum::<u64>());
            counts.for_each(|count| print!("{count:>7}"));
            println!();
        }
    }

    /// Whether every call has given every number that it can, and no other.
    pub fn all_came(&self) -> bool {
        let (wanted, came): (_, BTreeSet<_>) = (wanted(), self.0.keys().copied().collect());
        wanted.difference(&came).for_each(|(number, which)| println!("code {which} never gave {number}"));
        came.difference(&wanted).for_each(|(number, which)| println!("code {which} cannot give {number}, but did"));
        wanted == came
    }
}

fn wanted() -> BTreeSet<(u64, usize)> {
    let of = |(which, refusals): (usize, &&'static [u64])| {
        [0, 1].iter().chain(refusals.iter()).map(move |&number| (number, which))
    };
    REFUSALS.iter().enumerate().flat_map(of).collect()
}
