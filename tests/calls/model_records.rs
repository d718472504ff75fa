//! The bytes of the records: writing them, and reading one of them.

pub const PAGE: u64 = 1;
pub const BLOCK: u64 = 2;
pub const STATE: u64 = 3;
pub const COMMIT: u64 = 4;
pub const ACK: u64 = 5;
pub const ACTIVATION: u64 = 6;
/// PAGE with a 4-byte page number, and COMMIT with two 4-byte counts (document 02, Job 7).
pub const WIDE_PAGE: u64 = 8;
pub const WIDE_COMMIT: u64 = 9;

/// What stands at the head of some bytes.
pub enum Record<'a> {
    CutShort { missing: u64 },
    Refused(u64),
    Page { epoch: u32, page: u64, bytes: &'a [u8] },
    Block { epoch: u32, block: u64, bytes: &'a [u8] },
    State { epoch: u32, cpu: &'a [u8] },
    Commit { epoch: u32, pages: u64, records: u64 },
    Ack { epoch: u32 },
}

fn get_16(bytes: &[u8], at: usize) -> u64 {
    u16::from_le_bytes([bytes[at], bytes[at + 1]]) as u64
}

fn get_32(bytes: &[u8], at: usize) -> u32 {
    u32::from_le_bytes([bytes[at], bytes[at + 1], bytes[at + 2], bytes[at + 3]])
}

/// The length of a body of this kind.
fn body_length(kind: u64, u: u64) -> u64 {
    match kind {
        PAGE | BLOCK => u + 6,
        STATE => 68,
        COMMIT => 8,
        WIDE_PAGE => u + 8,
        WIDE_COMMIT => 12,
        _ => 4,
    }
}

/// Reads one record of the kinds that are for this end. The order: header incomplete, 6, 7, body incomplete.
pub fn read_record(bytes: &[u8], u: u64, is_for_it: impl Fn(u64) -> bool) -> Record<'_> {
    if bytes.len() < 4 {
        // document 02, Job 2: "4 less the bytes present for the header"
        return Record::CutShort { missing: 4 - bytes.len() as u64 };
    }
    let (length, kind) = (get_16(bytes, 0), get_16(bytes, 2));
    if !is_for_it(kind) {
        return Record::Refused(6);
    }
    if length != body_length(kind, u) {
        return Record::Refused(7);
    }
    let end = 4 + length as usize;
    if bytes.len() < end {
        // "then the rest of the body"
        return Record::CutShort { missing: (end - bytes.len()) as u64 };
    }
    let epoch = get_32(bytes, 4);
    match kind {
        PAGE => Record::Page { epoch, page: get_16(bytes, 8), bytes: &bytes[10..end] },
        BLOCK => Record::Block { epoch, block: get_16(bytes, 8), bytes: &bytes[10..end] },
        STATE => Record::State { epoch, cpu: &bytes[8..end] },
        COMMIT => Record::Commit { epoch, pages: get_16(bytes, 8), records: get_16(bytes, 10) },
        WIDE_PAGE => Record::Page { epoch, page: get_32(bytes, 8) as u64, bytes: &bytes[12..end] },
        WIDE_COMMIT => {
            Record::Commit { epoch, pages: get_32(bytes, 8) as u64, records: get_32(bytes, 12) as u64 }
        }
        _ => Record::Ack { epoch },
    }
}

fn put_head(out: &mut [u8], length: u64, kind: u64, epoch: u32) {
    out[..2].copy_from_slice(&(length as u16).to_le_bytes());
    out[2..4].copy_from_slice(&(kind as u16).to_le_bytes());
    out[4..8].copy_from_slice(&epoch.to_le_bytes());
}

/// A page or block number or a count of this width; where it ends.
fn put_number(out: &mut [u8], at: usize, wide: bool, number: u64) -> usize {
    if wide {
        out[at..at + 4].copy_from_slice(&(number as u32).to_le_bytes());
        at + 4
    } else {
        out[at..at + 2].copy_from_slice(&(number as u16).to_le_bytes());
        at + 2
    }
}

/// A PAGE of either width or a BLOCK at the head of `out`; the bytes written.
pub fn put_data(out: &mut [u8], kind: u64, epoch: u32, number: u64, bytes: &[u8]) -> usize {
    put_head(out, body_length(kind, bytes.len() as u64), kind, epoch);
    let at = put_number(out, 8, kind == WIDE_PAGE, number);
    out[at..at + bytes.len()].copy_from_slice(bytes);
    at + bytes.len()
}

pub fn put_state(out: &mut [u8], epoch: u32, cpu: &[u8; 64]) -> usize {
    put_head(out, 68, STATE, epoch);
    out[8..72].copy_from_slice(cpu);
    72
}

/// A COMMIT of either width with the counts of pages and of BLOCK records; the bytes written.
pub fn put_commit(out: &mut [u8], kind: u64, epoch: u32, pages: u64, records: u64) -> usize {
    put_head(out, body_length(kind, 0), kind, epoch);
    let at = put_number(out, 8, kind == WIDE_COMMIT, pages);
    put_number(out, at, kind == WIDE_COMMIT, records)
}

/// An ACK or an activation record: 8 bytes.
pub fn put_epoch(out: &mut [u8], kind: u64, epoch: u32) {
    put_head(out, 4, kind, epoch);
}
