//! Checkpoints to be kept on file (document 02, Job 14), as lists of records that a test may change before they are
//! joined. The records are written here, beside the model.
use crate::made_up::record;
use crate::model::Settings;
use crate::orders::shuffle;
use crate::random::Random;
use std::collections::BTreeMap;

/// Numbers with their bytes: blocks in the order written, or pages in rising order.
pub type Units = Vec<(u64, Vec<u8>)>;

/// One checkpoint. Of the settings only U M D B count.
#[derive(Clone, PartialEq)]
pub struct Checkpoint {
    pub s: Settings,
    pub epoch: u32,
    pub blocks: Units,
    pub pages: Units,
    pub cpu: [u8; 64],
}

pub fn sizes(u: u64, m: u64, d: u64, b: u64) -> Settings {
    Settings { u, m, d, b, ..Settings::default() }
}

pub fn block(epoch: u32, number: u64, bytes: &[u8]) -> Vec<u8> {
    let body = [&(number as u16).to_le_bytes()[..], bytes].concat();
    record(bytes.len() as u64 + 6, 2, epoch, &body)
}

/// A PAGE of the width that M calls for.
pub fn page(m: u64, epoch: u32, number: u64, bytes: &[u8]) -> Vec<u8> {
    let (kind, width) = if m > 4_096 { (8, 4) } else { (1, 2) };
    let body = [&number.to_le_bytes()[..width], bytes].concat();
    record(body.len() as u64 + 4, kind, epoch, &body)
}

pub fn state(epoch: u32, cpu: &[u8]) -> Vec<u8> {
    record(68, 3, epoch, cpu)
}

/// A COMMIT of the width that M calls for, with the counts of pages and of BLOCK records.
pub fn commit(m: u64, epoch: u32, pages: u64, records: u64) -> Vec<u8> {
    let (kind, width) = if m > 4_096 { (9, 4) } else { (4, 2) };
    let body = [&pages.to_le_bytes()[..width], &records.to_le_bytes()[..width]].concat();
    record(body.len() as u64 + 4, kind, epoch, &body)
}

impl Checkpoint {
    /// The records as they travel: "BLOCKs in the order written, PAGEs in rising order, one STATE, one COMMIT".
    pub fn records(&self) -> Vec<Vec<u8>> {
        let (m, epoch) = (self.s.m, self.epoch);
        let blocks = self.blocks.iter().map(|(number, bytes)| block(epoch, *number, bytes));
        let pages = self.pages.iter().map(|(number, bytes)| page(m, epoch, *number, bytes));
        let last = [state(epoch, &self.cpu), commit(m, epoch, self.pages.len() as u64, self.blocks.len() as u64)];
        blocks.chain(pages).chain(last).collect()
    }

    pub fn file(&self) -> Vec<u8> {
        self.records().concat()
    }

    /// The same content with each block once, with its last bytes, rising.
    pub fn normal(&self) -> Checkpoint {
        let last: BTreeMap<u64, Vec<u8>> = self.blocks.iter().cloned().collect();
        Checkpoint { blocks: last.into_iter().collect(), ..self.clone() }
    }

    /// The same content, with the blocks in another order and other bytes before the last ones of some.
    pub fn mixed(&self, r: &Random) -> Checkpoint {
        let mut blocks = self.normal().blocks;
        shuffle(r, &mut blocks);
        for _ in 0..if blocks.is_empty() { 0 } else { r.below(5) } {
            let at = r.below(blocks.len() as u64) as usize;
            blocks.insert(r.below(at as u64 + 1) as usize, (blocks[at].0, r.bytes(self.s.u)));
        }
        Checkpoint { blocks, ..self.clone() }
    }
}

/// Epochs of files: unlike a standby, a file has no epoch before its own.
pub fn some_epoch(r: &Random) -> u32 {
    r.pick(&[0, 1, 2, 7, 255, 65_536, u32::MAX - 1, u32::MAX, r.next() as u32])
}

/// Settings of files of both widths, most of them small.
pub fn some_sizes(r: &Random) -> Settings {
    let u = r.pick(&[64, 64, 64, 64, 128, 192, 1_024, 4_032, 4_096]);
    let m = r.pick(&[1, 2, 3, 4, 5, 63, 64, 65, 4_095, 4_096, 4_097, 4_098, 65_535, 65_536]);
    let d = r.pick(&[0, 1, 2, 5, 63, 64, 65, 255, 256, 257, 4_095, 4_096]);
    sizes(u, m, d, r.pick(&[0, 1, 2, 3, 63, 64, r.range(0, 64)]))
}

/// A checkpoint at these settings: no block up to B different ones, some of them again and again; no page, some or all
/// of them, as far as these are no more than `most`.
pub fn some_checkpoint(r: &Random, s: Settings, most: u64) -> Checkpoint {
    let blocks = some_blocks(r, s);
    let pages = match r.below(4) {
        0 => vec![],
        1 if s.m <= most => (0..s.m).collect(),
        _ => some_pages(r, s.m, most.min(8)),
    };
    let pages = pages.into_iter().map(|page| (page, r.bytes(s.u))).collect();
    Checkpoint { s, epoch: some_epoch(r), blocks, pages, cpu: r.cpu() }
}

fn some_blocks(r: &Random, s: Settings) -> Units {
    let most = s.b.min(s.d);
    let different = r.pick(&[0, 1, 2, most, r.range(0, most)]).min(most);
    // the blocks from a first one on, so that the last block of the disk comes too
    let first = r.pick(&[0, s.d - different, r.range(0, s.d - different)]);
    let mut numbers: Vec<u64> = (first..first + different).collect();
    shuffle(r, &mut numbers);
    for _ in 0..if different == 0 { 0 } else { r.pick(&[0, 0, 1, r.below(6), different]) } {
        numbers.insert(r.below(numbers.len() as u64 + 1) as usize, first + r.below(different));
    }
    numbers.into_iter().map(|number| (number, r.bytes(s.u))).collect()
}

/// At most so many pages, in rising order, also the first and the last.
fn some_pages(r: &Random, m: u64, most: u64) -> Vec<u64> {
    let mut pages: Vec<u64> = (0..most).map(|_| r.pick(&[0, m - 1, r.below(m), r.below(m), r.below(m)])).collect();
    pages.sort_unstable();
    pages.dedup();
    pages
}
