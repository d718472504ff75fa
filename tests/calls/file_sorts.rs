//! The sorts of files (document 02, Job 14) that must come, and which of them a file is. Why a file is refused is told
//! by the first of its records that has the fault of the number given: all before it were accepted.
use crate::file_walk::{walk, Before, End, Found, Name, Sizes};
use crate::files::Kept;

/// At either width.
pub const ACCEPTED: [&str; 17] = [
    "no block and no page",
    "blocks and no page",
    "pages and no block",
    "all M pages, of several",
    "a block that came again",
    "blocks that are not rising",
    "B different blocks",
    "64 different blocks",
    "65,535 BLOCKs",
    "epoch 0",
    "epoch 1",
    "epoch 4,294,967,295",
    "a normal form already",
    "a destination that just fits",
    "a destination with a spare end",
    "the last page and the last block",
    "another file",
];

/// At either width. A number is 256 where the file is cut short.
pub const REFUSED: [&str; 45] = [
    "256, empty",
    "256, between two records",
    "256, in a header",
    "256, in a PAGE",
    "256, in a BLOCK",
    "256, in a STATE",
    "256, in a COMMIT",
    "6, ACK",
    "6, activation",
    "6, COPY",
    "6, PAGE of the other width",
    "6, COMMIT of the other width",
    "6, another kind",
    "7, PAGE",
    "7, BLOCK",
    "7, STATE",
    "7, COMMIT",
    "2, PAGE of page M",
    "2, PAGE above it",
    "2, BLOCK of block D",
    "2, BLOCK above it",
    "8, PAGE",
    "8, BLOCK",
    "8, STATE",
    "8, COMMIT",
    "9, BLOCK after PAGE",
    "9, BLOCK after STATE",
    "9, PAGE of the last page",
    "9, PAGE below the last",
    "9, PAGE after STATE",
    "9, second STATE",
    "9, COMMIT without STATE",
    "10, the count of pages",
    "10, the count of blocks",
    "10, the count of different blocks",
    "14, a different block with B had",
    "14, B 0",
    "14, a block again with 65,535 BLOCKs had",
    "14, a different block with 65,535 BLOCKs had, and B not",
    "29, one byte",
    "29, more bytes",
    "29, another checkpoint",
    "30, empty",
    "30, one byte too short",
    "30, shorter",
];

pub const SETTINGS: [&str; 10] = [
    "1, U below 64 alone",
    "1, U above 4,096 alone",
    "1, U no multiple of 64 alone",
    "1, M 0 alone",
    "1, M above 65,536 alone",
    "1, D above 4,096 alone",
    "1, B above 64 alone",
    "1, right when cut to 32 bits",
    "1, 2^64 - 1",
    "1, several",
];

pub fn settings_sorts(s: Sizes) -> Vec<&'static str> {
    let odd = (64..=4_096).contains(&s.u) && s.u % 64 != 0;
    let out = [s.u < 64, s.u > 4_096, odd, s.m == 0, s.m > 65_536, s.d > 4_096, s.b > 64];
    let mut came = if out.iter().filter(|&&one| one).count() == 1 {
        SETTINGS.into_iter().zip(out).filter(|one| one.1).map(|one| one.0).collect()
    } else {
        vec![SETTINGS[9]]
    };
    let [u, m, d, b] = [s.u, s.m, s.d, s.b].map(|size| size as u32 as u64);
    if (64..=4_096).contains(&u) && u % 64 == 0 && (1..=65_536).contains(&m) && d <= 4_096 && b <= 64 {
        came.push(SETTINGS[7]);
    }
    if [s.u, s.m, s.d, s.b].contains(&u64::MAX) {
        came.push(SETTINGS[8]);
    }
    came
}

pub fn accepted_sorts(kept: &Kept, length: usize) -> Vec<&'static str> {
    let (s, mut epoch, mut rising, mut last) = (kept.s, 0, true, None);
    let (mut records, mut blocks, mut pages, mut last_page) = (0, 0, 0, None);
    walk(s, kept.file, |found, before| {
        if found.name == Name::Block {
            rising &= last < Some(found.numbers[0]);
            last = Some(found.numbers[0]);
        }
        (records, blocks, pages) = (before.records, before.blocks.len() as u64, before.pages);
        (epoch, last_page) = (found.epoch, before.last_page);
    });
    let room = kept.before.len();
    let came = [
        records + pages == 0, records > 0 && pages == 0, records == 0 && pages > 0, pages == s.m && pages > 1,
        records > blocks, !rising && records == blocks, blocks == s.b && blocks > 0, blocks == 64, records == 65_535,
        epoch == 0, epoch == 1, epoch == u32::MAX as u64, kept.after[..length] == *kept.file, room == length,
        room > length, last_page == Some(s.m - 1) && last.is_some_and(|last| last + 1 == s.d), true,
    ];
    ACCEPTED.into_iter().zip(came).filter(|one| one.1).map(|one| one.0).collect()
}

pub fn refused_sorts(kept: &Kept, number: u64) -> Vec<&'static str> {
    let s = kept.s;
    let (at, end) = walk(s, kept.file, |_, _| {});
    let rest = &kept.file[at..];
    let sort = match (number, end) {
        (256, End::Short) => short_sort(s, kept.file, rest),
        (6, End::Kind(kind)) => kind_sort(s, kind),
        (7, End::Length(name)) => by_name(name, ["7, PAGE", "7, BLOCK", "7, STATE", "7, COMMIT"]),
        (29, End::Commit) if rest.len() == 1 => "29, one byte",
        (29, End::Commit) if walk(s, rest, |_, _| {}).1 == End::Commit => "29, another checkpoint",
        (29, End::Commit) => "29, more bytes",
        (30, End::Commit) => room_sort(kept),
        _ => return record_sorts(s, kept.file, number),
    };
    vec![sort]
}

fn by_name(name: Name, names: [&'static str; 4]) -> &'static str {
    names[name as usize]
}

fn short_sort(s: Sizes, file: &[u8], rest: &[u8]) -> &'static str {
    match rest.len() {
        0 if file.is_empty() => "256, empty",
        0 => "256, between two records",
        1..4 => "256, in a header",
        _ => match (rest[2], s.is_wide()) {
            (2, _) => "256, in a BLOCK",
            (3, _) => "256, in a STATE",
            (1, false) | (8, true) => "256, in a PAGE",
            _ => "256, in a COMMIT",
        },
    }
}

fn kind_sort(s: Sizes, kind: u64) -> &'static str {
    match (kind, s.is_wide()) {
        (5, _) => "6, ACK",
        (6, _) => "6, activation",
        (7, _) => "6, COPY",
        (8, false) | (1, true) => "6, PAGE of the other width",
        (9, false) | (4, true) => "6, COMMIT of the other width",
        _ => "6, another kind",
    }
}

/// The destination beside the normal form's length, which the counts of what the file names give.
fn room_sort(kept: &Kept) -> &'static str {
    let (s, mut length) = (kept.s, 0);
    walk(s, kept.file, |_, before| {
        let (page, commit) = if s.is_wide() { (12, 16) } else { (10, 12) };
        length = before.blocks.len() as u64 * (s.u + 10) + before.pages * (s.u + page) + 72 + commit;
    });
    match kept.before.len() as u64 {
        0 => "30, empty",
        room if room + 1 == length => "30, one byte too short",
        _ => "30, shorter",
    }
}

/// The sort of the first record that has this fault.
fn record_sorts(s: Sizes, file: &[u8], number: u64) -> Vec<&'static str> {
    let mut sort = None;
    walk(s, file, |found, before| sort = sort.or_else(|| fault(s, number, found, before)));
    sort.into_iter().collect()
}

fn fault(s: Sizes, number: u64, found: &Found, before: &Before) -> Option<&'static str> {
    let unit = found.numbers[0];
    let limit = if found.name == Name::Page { s.m } else { s.d };
    let has_unit = matches!(found.name, Name::Page | Name::Block);
    let name = |names| Some(by_name(found.name, names));
    match number {
        2 if has_unit && unit == limit => name(["2, PAGE of page M", "2, BLOCK of block D", "", ""]),
        2 if has_unit && unit > limit => name(["2, PAGE above it", "2, BLOCK above it", "", ""]),
        8 if before.epoch.is_some_and(|epoch| epoch != found.epoch) => {
            name(["8, PAGE", "8, BLOCK", "8, STATE", "8, COMMIT"])
        }
        9 => order_fault(found.name, unit, before),
        10 if found.name == Name::Commit => count_fault(found, before),
        14 if found.name == Name::Block => allowance_fault(s, unit, before),
        _ => None,
    }
}

fn order_fault(name: Name, unit: u64, before: &Before) -> Option<&'static str> {
    match name {
        Name::Block if before.has_state => Some("9, BLOCK after STATE"),
        Name::Block if before.pages > 0 => Some("9, BLOCK after PAGE"),
        Name::Page if before.has_state => Some("9, PAGE after STATE"),
        Name::Page if before.last_page == Some(unit) => Some("9, PAGE of the last page"),
        Name::Page if before.last_page > Some(unit) => Some("9, PAGE below the last"),
        Name::State if before.has_state => Some("9, second STATE"),
        Name::Commit if !before.has_state => Some("9, COMMIT without STATE"),
        _ => None,
    }
}

fn count_fault(found: &Found, before: &Before) -> Option<&'static str> {
    let [pages, records] = found.numbers;
    if pages != before.pages {
        Some("10, the count of pages")
    } else if records == before.blocks.len() as u64 {
        Some("10, the count of different blocks")
    } else {
        Some("10, the count of blocks")
    }
}

fn allowance_fault(s: Sizes, unit: u64, before: &Before) -> Option<&'static str> {
    let (again, full) = (before.blocks.contains(&unit), before.blocks.len() as u64 == s.b);
    match before.records {
        65_535 if again => Some("14, a block again with 65,535 BLOCKs had"),
        65_535 if !full => Some("14, a different block with 65,535 BLOCKs had, and B not"),
        _ if s.b == 0 => Some("14, B 0"),
        _ if full && !again => Some("14, a different block with B had"),
        _ => None,
    }
}
