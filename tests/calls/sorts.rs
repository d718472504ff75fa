//! Sorts of calls, each with how often it came, for what is printed and for the test that each came.

/// What the sorts are of, their names and their counts.
pub type Sorts<'a> = (&'a str, &'a [&'a str], &'a [u64]);

pub fn print(all: &[Sorts]) {
    for (name, sorts, counts) in all {
        println!("{name}:");
        sorts.iter().zip(*counts).for_each(|(sort, count)| println!("  {sort}: {count}"));
    }
}

/// Whether every sort came.
pub fn all_came(all: &[Sorts]) -> bool {
    let mut came = true;
    for (name, sorts, counts) in all {
        for (sort, _) in sorts.iter().zip(*counts).filter(|one| *one.1 == 0) {
            println!("never came of {name}: {sort}");
            came = false;
        }
    }
    came
}
