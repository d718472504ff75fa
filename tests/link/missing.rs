//! What more bytes behind an input make of the library's answer. Only its own words are compared
//! with each other: the rules are not asked.

use crate::inputs::{Input, Numbers};
use crate::library;

/// What the inputs were that got more bytes.
pub const STAGES: [&str; 3] = [
    "cut short in the header",
    "cut short in the body",
    "refused or whole",
];

/// The word of so many bytes from the input's start on.
fn word(input: &Input, len: usize) -> u64 {
    let first = &input.room[input.start..];
    library::word(input.u, &first[..len.min(first.len())])
}

/// How many bytes are missing, where these are cut short.
fn missing(input: &Input, len: usize) -> Option<usize> {
    let word = word(input, len);
    (word % 65_536 == 0).then_some((word / 65_536) as usize)
}

/// Checks the input with more bytes behind it, those that lie there or any other; its place in
/// `STAGES`, or what is wrong.
pub fn check(n: &mut Numbers, input: &mut Input) -> Result<usize, String> {
    if n.one_in(2) {
        input.replace_behind(n.next() as usize);
    }
    let (len, more) = (input.len, 1 + n.below(40));
    let Some(lacking) = missing(input, len) else {
        return same(input, len, more).map(|()| 2);
    };
    fewer(n, input, len, lacking)?;
    if len >= 4 {
        return enough(input, len + lacking, more).map(|()| 1);
    }
    if len + lacking != 4 {
        return Err(format!("{len} bytes and {lacking} missing are no header"));
    }
    // With its header whole it is refused, or cut short in its body.
    let Some(body) = missing(input, 4) else {
        return same(input, 4, more).map(|()| 0);
    };
    fewer(n, input, 4, body)?;
    enough(input, 4 + body, more).map(|()| 0)
}

/// With fewer bytes more than are lacking, the rest of these is missing.
fn fewer(n: &mut Numbers, input: &Input, len: usize, lacking: usize) -> Result<(), String> {
    if lacking == 0 {
        return Err(format!("{len} bytes are cut short, and none is missing"));
    }
    for more in [0, 1, lacking / 2, lacking - 1, n.below(lacking)] {
        let left = missing(input, len + more);
        if more < lacking && left != Some(lacking - more) {
            return Err(format!("{more} of {lacking} more, then {left:?} missing"));
        }
    }
    Ok(())
}

/// With all that was missing of the body it is not cut short, and yet more bytes change nothing.
fn enough(input: &Input, whole: usize, more: usize) -> Result<(), String> {
    match missing(input, whole) {
        None => same(input, whole, more),
        again => Err(format!("{whole} bytes, all of it, then {again:?} missing")),
    }
}

/// What is not cut short is the same with more bytes behind it.
fn same(input: &Input, len: usize, more: usize) -> Result<(), String> {
    let (short, long) = (word(input, len), word(input, len + more));
    if short == long {
        return Ok(());
    }
    Err(format!("{short} becomes {long} with {more} bytes more"))
}
