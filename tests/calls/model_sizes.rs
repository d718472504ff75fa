//! The kinds and the lengths of records by M (document 02, Job 7), and the least stream.
use super::records::*;

/// "Up to M 4,096 the writer uses kinds 1 and 4 as before, above that only 8 and 9".
const MOST_NARROW_PAGES: u64 = 4_096;

/// Whether M calls for the kinds 8 and 9 in place of 1 and 4.
pub fn is_wide(m: u64) -> bool {
    m > MOST_NARROW_PAGES
}

/// The bytes of a whole PAGE record at this M.
pub fn page_record(u: u64, m: u64) -> u64 {
    if is_wide(m) { u + 12 } else { u + 10 }
}

/// The bytes of a whole COMMIT record at this M.
pub fn commit_record(m: u64) -> u64 {
    if is_wide(m) { 16 } else { 12 }
}

/// The bytes of STATE and COMMIT together at this M: 84 or 88.
pub fn state_and_commit(m: u64) -> u64 {
    72 + commit_record(m)
}

/// The kind of a PAGE at this M.
pub fn page_kind(m: u64) -> u64 {
    if is_wide(m) { WIDE_PAGE } else { PAGE }
}

/// The kind of a COMMIT at this M.
pub fn commit_kind(m: u64) -> u64 {
    if is_wide(m) { WIDE_COMMIT } else { COMMIT }
}

/// PAGE, BLOCK, STATE and COMMIT at this M.
pub fn kinds_of(m: u64) -> [u64; 4] {
    [page_kind(m), BLOCK, STATE, commit_kind(m)]
}

/// "A standby reads only the kinds that its M calls for; the others give 6."
pub fn is_read(kind: u64, m: u64) -> bool {
    if is_wide(m) {
        matches!(kind, BLOCK | STATE | WIDE_PAGE | WIDE_COMMIT)
    } else {
        (PAGE..=COMMIT).contains(&kind)
    }
}

/// Whether a record of this kind is a COMMIT, of either width.
pub fn is_commit(kind: u64) -> bool {
    kind == COMMIT || kind == WIDE_COMMIT
}

pub fn least_stream(u: u64, m: u64, b: u64) -> u64 {
    m * page_record(u, m) + b * (u + 10) + state_and_commit(m)
}
