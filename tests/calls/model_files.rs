//! Checkpoints kept on file (document 02, Job 14): the normal form of one.
use super::records::*;
use super::*;
use std::collections::BTreeMap;

/// What the records read so far name. Blocks are kept by their numbers, each with its last bytes.
#[derive(Default)]
struct Content<'a> {
    /// The first record's epoch.
    epoch: Option<u32>,
    /// BLOCK records, those of a block that came again too.
    records: u64,
    blocks: BTreeMap<u64, &'a [u8]>,
    /// In the order of the file, which is rising.
    pages: Vec<(u64, &'a [u8])>,
    cpu: Option<&'a [u8]>,
}

/// "A writer turns every accepted checkpoint .. into one normal form." The value is its length. Refused or cut short,
/// the destination is as before; accepted, "its spare end stays" (Job 10).
pub fn normal_form(s: &Settings, file: &[u8], destination: &mut [u8]) -> Reply {
    let patience = 1;
    if !sizes_in_range(s.u, s.m, s.d, s.b, patience) {
        return refused(1);
    }
    let (content, used) = match read_file(s, file) {
        Ok(read) => read,
        Err(reply) => return reply,
    };
    if used < file.len() {
        return refused(29);
    }
    let length = content.length(s);
    if (destination.len() as u64) < length {
        return refused(30);
    }
    content.write(s, destination);
    accepted(length)
}

/// Reads record after record up to the COMMIT: what they name, and the bytes that they take.
fn read_file<'a>(s: &Settings, file: &'a [u8]) -> Result<(Content<'a>, usize), Reply> {
    let (mut content, mut used) = (Content::default(), 0);
    loop {
        let (judged, length) = match read_record(&file[used..], s.u, |kind| is_read(kind, s.m)) {
            Record::CutShort { missing } => return Err(cut_short(missing)),
            Record::Refused(number) => return Err(refused(number)),
            Record::Page { epoch, page, bytes } => (content.page(s, epoch, page, bytes), page_record(s.u, s.m)),
            Record::Block { epoch, block, bytes } => (content.block(s, epoch, block, bytes), s.u + 10),
            Record::State { epoch, cpu } => (content.state(epoch, cpu), 72),
            Record::Commit { epoch, pages, records } => {
                content.commit(epoch, (pages, records)).map_err(refused)?;
                return Ok((content, used + commit_record(s.m) as usize));
            }
            Record::Ack { .. } => (Err(6), 0),
        };
        judged.map_err(refused)?;
        used += length as usize;
    }
}

/// Nothing, or the number of the refusal.
type Judged = Result<(), u64>;

fn test(holds: bool, number: u64) -> Judged {
    if holds { Ok(()) } else { Err(number) }
}

impl<'a> Content<'a> {
    /// "8 means an epoch unlike the first record's" (Job 10).
    fn same_epoch(&mut self, epoch: u32) -> Judged {
        test(*self.epoch.get_or_insert(epoch) == epoch, 8)
    }

    fn page(&mut self, s: &Settings, epoch: u32, page: u64, bytes: &'a [u8]) -> Judged {
        test(page < s.m, 2)?;
        self.same_epoch(epoch)?;
        test(self.cpu.is_none() && self.pages.last().is_none_or(|last| page > last.0), 9)?;
        self.pages.push((page, bytes));
        Ok(())
    }

    fn block(&mut self, s: &Settings, epoch: u32, block: u64, bytes: &'a [u8]) -> Judged {
        test(block < s.d, 2)?;
        self.same_epoch(epoch)?;
        test(self.cpu.is_none() && self.pages.is_empty(), 9)?;
        // Job 9: 14 counts different blocks, and is given at 65,535 records too
        let has_room = self.blocks.contains_key(&block) || (self.blocks.len() as u64) < s.b;
        test(has_room && self.records < MOST_RECORDS, 14)?;
        self.records += 1;
        self.blocks.insert(block, bytes);
        Ok(())
    }

    fn state(&mut self, epoch: u32, cpu: &'a [u8]) -> Judged {
        self.same_epoch(epoch)?;
        test(self.cpu.is_none(), 9)?;
        self.cpu = Some(cpu);
        Ok(())
    }

    fn commit(&mut self, epoch: u32, counts: (u64, u64)) -> Judged {
        self.same_epoch(epoch)?;
        test(self.cpu.is_some(), 9)?;
        test(counts == (self.pages.len() as u64, self.records), 10)
    }

    fn length(&self, s: &Settings) -> u64 {
        let (blocks, pages) = (self.blocks.len() as u64, self.pages.len() as u64);
        blocks * (s.u + 10) + pages * page_record(s.u, s.m) + state_and_commit(s.m)
    }

    /// "Blocks, then pages, each once with its last bytes, rising, then STATE and COMMIT with new counts."
    fn write(&self, s: &Settings, out: &mut [u8]) {
        let (epoch, mut at) = (self.epoch.unwrap_or(0), 0);
        for (&block, bytes) in &self.blocks {
            at += put_data(&mut out[at..], BLOCK, epoch, block, bytes);
        }
        for (page, bytes) in &self.pages {
            at += put_data(&mut out[at..], page_kind(s.m), epoch, *page, bytes);
        }
        let mut cpu = [0; 64];
        cpu.copy_from_slice(self.cpu.unwrap_or(&[0; 64]));
        at += put_state(&mut out[at..], epoch, &cpu);
        let (pages, blocks) = (self.pages.len() as u64, self.blocks.len() as u64);
        put_commit(&mut out[at..], commit_kind(s.m), epoch, pages, blocks);
    }
}
