//! The record test, from the rules.

/// What the record test answers.
#[derive(Clone, Copy)]
pub enum Answer {
    OutOfRange,
    HeaderCutShort { missing: u64 },
    BodyCutShort { missing: u64 },
    NoKind,
    WrongLength,
    Record { kind: u16, used: u64 },
}

/// The kinds that the record test passes, of which 8 and 9 are PAGE and COMMIT with wide fields.
pub const KINDS: [u16; 7] = [1, 2, 3, 4, 5, 8, 9];

pub const CLASSES: [&str; 12] = [
    "1, U out of range",
    "cut short in the header",
    "cut short in the body",
    "6, kind not 1 to 5, 8 or 9",
    "7, length not the kind's",
    "kind 1, PAGE",
    "kind 2, BLOCK",
    "kind 3, STATE",
    "kind 4, COMMIT",
    "kind 5, ACK",
    "kind 8, wide PAGE",
    "kind 9, wide COMMIT",
];

impl Answer {
    pub fn word(self) -> u64 {
        match self {
            Answer::OutOfRange => 1,
            Answer::HeaderCutShort { missing } | Answer::BodyCutShort { missing } => {
                65_536 * missing
            }
            Answer::NoKind => 6,
            Answer::WrongLength => 7,
            Answer::Record { kind, used } => 256 * u64::from(kind) + 65_536 * used,
        }
    }

    /// Its place in `CLASSES`.
    pub fn class(self) -> usize {
        match self {
            Answer::OutOfRange => 0,
            Answer::HeaderCutShort { .. } => 1,
            Answer::BodyCutShort { .. } => 2,
            Answer::NoKind => 3,
            Answer::WrongLength => 4,
            Answer::Record { kind, .. } if kind >= 8 => 2 + usize::from(kind),
            Answer::Record { kind, .. } => 4 + usize::from(kind),
        }
    }
}

/// The length of a body, for U in range and a kind that the link carries.
pub fn body(u: u64, kind: u16) -> Option<u64> {
    let epoch = 4;
    match kind {
        1 | 2 => Some(epoch + 2 + u),
        3 => Some(epoch + 64),
        4 => Some(epoch + 2 + 2),
        5 => Some(epoch),
        // document 02, Job 7: "PAGE with a 4-byte page number", "COMMIT with two 4-byte counts"
        8 => Some(epoch + 4 + u),
        9 => Some(epoch + 4 + 4),
        _ => None,
    }
}

pub fn answer(u: u64, bytes: &[u8]) -> Answer {
    if u < 64 || u > 4096 || u % 64 != 0 {
        return Answer::OutOfRange;
    }
    let &[l0, l1, k0, k1, ref rest @ ..] = bytes else {
        // document 02, Job 2: "4 less the bytes present for the header"
        return Answer::HeaderCutShort {
            missing: 4 - bytes.len() as u64,
        };
    };
    let kind = u16::from_le_bytes([k0, k1]);
    let Some(body) = body(u, kind) else {
        return Answer::NoKind;
    };
    if u64::from(u16::from_le_bytes([l0, l1])) != body {
        return Answer::WrongLength;
    }
    let present = rest.len() as u64;
    if present < body {
        // "then the rest of the body"
        return Answer::BodyCutShort {
            missing: body - present,
        };
    }
    Answer::Record {
        kind,
        used: 4 + body,
    }
}
