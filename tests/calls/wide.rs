//! Memory of both widths (document 02, Job 7): runs at the largest M of the kinds 1 and 4, at the least of the kinds 8
//! and 9, and at the two largest. What a checkpoint's bytes must be is worked out here from the tables of documents 01
//! and 02, beside the model. Both sides keep their buffers from call to call, as in large.rs. Then calls at random and
//! cut runs at these M, and the ends of M's and L's ranges.
use crate::arguments::{arguments, fresh_world};
use crate::checker::{demand, Check};
use crate::cuts;
use crate::generate::list;
use crate::items::code;
use crate::large::Pair;
use crate::made_up::record;
use crate::model::*;
use crate::random::Random;
use crate::refused_records::next;
use crate::singles::single_at;
use crate::sink::Sink;
use crate::wide_ends;
use crate::wide_records::{made_up, other_kinds, refusals, wrong_counts};
use crate::world::{Args, World};

const PAGES: [u64; 4] = [4_096, 4_097, 65_535, 65_536];
/// U and M of the runs, and whether one of the checkpoints has all pages.
const SIZES: [(u64, u64, bool); 6] = [
    (64, 4_096, true), (64, 4_097, true), (64, 65_535, true), (64, 65_536, true), (1_024, 4_097, true),
    (128, 65_536, false),
];
const ALLOWANCE: u64 = 2;
/// Records made up for states of every sort, at each of the four M, and single calls of every sort about the least M of
/// the kinds 8 and 9.
const MADE_UP: u64 = 1_500;
const SINGLES: u64 = 500;
/// Runs cut at every place at the least M of the kinds 8 and 9.
const CUT_RUNS: u64 = 4;

/// By M, the head of the PAGE with the number M - 1 and the COMMIT of epoch 2 with 3 pages and 1 block, at U 64. The
/// COMMIT of kind 4 is document 01's E4.
const KNOWN: [(u64, &[u8], &[u8]); 4] = [
    (4_096, &[0x46, 0, 1, 0, 2, 0, 0, 0, 0xff, 0x0f], &[8, 0, 4, 0, 2, 0, 0, 0, 3, 0, 1, 0]),
    (4_097, &[0x48, 0, 8, 0, 2, 0, 0, 0, 0, 0x10, 0, 0], &[12, 0, 9, 0, 2, 0, 0, 0, 3, 0, 0, 0, 1, 0, 0, 0]),
    (65_535, &[0x48, 0, 8, 0, 2, 0, 0, 0, 0xfe, 0xff, 0, 0], &[12, 0, 9, 0, 2, 0, 0, 0, 3, 0, 0, 0, 1, 0, 0, 0]),
    (65_536, &[0x48, 0, 8, 0, 2, 0, 0, 0, 0xff, 0xff, 0, 0], &[12, 0, 9, 0, 2, 0, 0, 0, 3, 0, 0, 0, 1, 0, 0, 0]),
];

pub fn run(r: &Random, sink: &mut Sink) -> Check {
    for (u, m, all) in SIZES {
        whole_run(r, sink, u, m, all).map_err(|what| format!("U {u}, M {m}: {what}"))?;
    }
    let calls = sink.calls;
    for m in PAGES {
        let settings = settings(64, m);
        made_up(Pair::started(r, sink, settings, fresh_world(r, &settings))?, MADE_UP)?;
        list(r, sink, Settings { l: settings.l + 1_000, t: 3, ..settings }, 40, false);
    }
    for turn in 0..SINGLES {
        let settings = settings(64, 4_096 + turn % 2);
        single_at(r, sink, &Settings { l: settings.l + r.below(200), ..settings });
    }
    println!("  {} calls on states of every sort and in lists", sink.calls - calls);
    cut_runs(r, sink)?;
    wide_ends::run(r, sink)
}

/// L is the least, so that a checkpoint of all pages and all blocks just fits.
fn settings(u: u64, m: u64) -> Settings {
    Settings { u, m, d: 3, b: ALLOWANCE, s: 3, q: 200, l: least_stream(u, m, ALLOWANCE), t: 2 }
}

/// From the start to the takeover: checkpoints of one page, of three, of all, of none, and one cut before its COMMIT.
fn whole_run(r: &Random, sink: &mut Sink, u: u64, m: u64, all: bool) -> Check {
    let (settings, began) = (settings(u, m), sink.calls);
    let mut w = fresh_world(r, &settings);
    // bits past M are set in both ends' marks, to be kept by everything
    let last = w.marks.len() - 1;
    (w.marks[last], w.standby_marks[last]) = (u64::MAX, u64::MAX);
    let mut run = Run { pair: Pair::started(r, sink, settings, w)?, blocks: Vec::new(), packets: Vec::new() };
    run.write(&[m - 1], 0)?;
    let link = run.checkpoint_and_drain(&[m - 1])?;
    run.receive(&link)?;
    run.three_pages(all)?;
    run.no_page()?;
    run.cut_before_commit()?;
    run.pair.take_over()?;
    run.pair.whole()?;
    println!("  U {u}, M {m}: {} calls", run.pair.sink.calls - began);
    Ok(())
}

/// A run, with the blocks written in its open epoch and the packets not yet taken.
struct Run<'a> {
    pair: Pair<'a>,
    blocks: Vec<(u64, Vec<u8>)>,
    packets: Vec<Vec<u8>>,
}

impl Run<'_> {
    /// One packet, and guest writes of these pages and of so many blocks.
    fn write(&mut self, pages: &[u64], blocks: u64) -> Check {
        let mut a = Args { data: self.pair.r.bytes(20), ..Args::none() };
        demand(self.pair.step(code::PACKET, &mut a)?.number == 0, "a packet is refused")?;
        self.packets.push(a.data);
        for &place in pages {
            let mut a = Args { place, ..arguments(self.pair.r, code::MEMORY_WRITE, &self.pair.w, 0) };
            demand(self.pair.step(code::MEMORY_WRITE, &mut a)?.number == 0, "a memory write is refused")?;
        }
        for _ in 0..blocks {
            let mut a = arguments(self.pair.r, code::DISK_WRITE, &self.pair.w, 0);
            demand(self.pair.step(code::DISK_WRITE, &mut a)?.number == 0, "a disk write is refused")?;
            self.blocks.push((a.place, a.data));
        }
        Ok(())
    }

    /// A checkpoint that is accepted; these are the pages written in its epoch, rising. The bytes that it leaves for
    /// the link, with the blocks before it.
    fn checkpoint(&mut self, pages: &[u64]) -> Result<Vec<u8>, String> {
        let (mut a, epoch) = (Args { cpu: self.pair.r.cpu(), ..Args::none() }, self.pair.w.primary.open);
        let reply = self.pair.step(code::CHECKPOINT, &mut a)?;
        demand(reply.number == 0 && reply.value == epoch as u64, "the checkpoint is refused")?;
        let blocks = std::mem::take(&mut self.blocks);
        Ok(checkpoint_bytes(&self.pair.w, epoch, &blocks, pages, &a.cpu))
    }

    /// The same with nothing waiting before it, drained: its bytes are those of the tables.
    fn checkpoint_and_drain(&mut self, pages: &[u64]) -> Result<Vec<u8>, String> {
        let wanted = self.checkpoint(pages)?;
        let link = self.pair.drain(&[usize::MAX])?;
        demand(link == wanted, "the checkpoint's bytes are not those of the tables")?;
        Ok(link)
    }

    /// The records left of a checkpoint are read to its COMMIT, and the memory is the primary's.
    fn receive(&mut self, link: &[u8]) -> Check {
        let ack = self.pair.read_all(link)?;
        demand(self.pair.w.standby_memory == self.pair.w.memory, "the standby has not received the memory")?;
        self.pair.same_sums()?;
        self.acknowledge(ack)
    }

    /// The ACK is accepted, and no other kind before it; a block is stored, and the epoch's packet leaves, no other.
    fn acknowledge(&mut self, ack: Vec<u8>) -> Check {
        for kind in [1, 2, 3, 4, 8, 9] {
            let other = next(&self.pair.w.standby, kind);
            for data in [other[..4].to_vec(), other] {
                let reply = self.pair.step(code::ACK, &mut Args { data, ..Args::none() })?;
                demand(reply.number == 6, "a primary reads another kind than ACK")?;
            }
        }
        let reply = self.pair.step(code::ACK, &mut Args { data: ack, ..Args::none() })?;
        demand(reply.number == 0, "the ACK is refused")?;
        self.pair.step(code::FLUSH, &mut Args { n: 1, ..Args::none() })?;
        let mut a = Args { out: vec![0; 20], ..Args::none() };
        demand(self.pair.step(code::TAKE, &mut a)?.number == 0, "no packet leaves after the ACK")?;
        demand(a.out == self.packets.remove(0), "another packet than the oldest leaves")?;
        demand(self.pair.step(code::TAKE, &mut a)?.number == 18, "a packet leaves that is not acknowledged")
    }

    /// Epoch 2 with one block and three pages: its known bytes, and every refusal before each of its records.
    fn three_pages(&mut self, all: bool) -> Check {
        let m = self.pair.w.primary.m;
        let pages = [0, m / 2, m - 1];
        self.write(&[m - 1, 0, m / 2, 0], 1)?;
        let link = self.checkpoint(&pages)?;
        known_bytes(&self.pair.w.primary, &link)?;
        // one byte of it waits on, where a checkpoint of all pages is to lack it
        let kept = all as u64;
        self.drain_but(kept, &link)?;
        let mut at = 0;
        other_kinds(&mut self.pair)?;
        while at + (commit_record(m) as usize) < link.len() {
            refusals(&mut self.pair)?;
            let (reply, _) = self.pair.read(&link[at..link.len() - kept as usize])?;
            demand(reply.number == 0, "a record is refused")?;
            at += reply.used as usize;
        }
        refusals(&mut self.pair)?;
        wrong_counts(&mut self.pair)?;
        if all { self.all_pages(&link[at..]) } else { self.receive(&link[at..]) }
    }

    /// Drains all that waits but so many bytes: they are the first of these.
    fn drain_but(&mut self, kept: u64, link: &[u8]) -> Check {
        let n = self.pair.w.primary.waiting - kept;
        let mut a = Args { n, out: vec![0; link.len()], ..Args::none() };
        self.pair.step(code::DRAIN, &mut a)?;
        let same = a.out[..n as usize] == link[..n as usize];
        demand(same && self.pair.w.primary.waiting == kept, "the bytes drained are not those of the tables")
    }

    /// Epoch 3 with all pages and all blocks, which just fit: 15 while one byte of epoch 2, whose COMMIT is still to be
    /// read, waits before them.
    fn all_pages(&mut self, commit: &[u8]) -> Check {
        let m = self.pair.w.primary.m;
        self.write(&[], ALLOWANCE)?;
        self.pair.write_all_pages()?;
        demand(self.pair.plain(code::CHECKPOINT)?.number == 15, "a checkpoint one byte too long is not refused")?;
        let mut a = Args { n: 1, out: vec![0], ..Args::none() };
        self.pair.step(code::DRAIN, &mut a)?;
        demand(a.out[0] == commit[commit.len() - 1], "the byte left waiting is not the COMMIT's last")?;
        let ack = self.pair.read_all(commit)?;
        self.acknowledge(ack)?;
        let pages: Vec<u64> = (0..m).collect();
        let wanted = self.checkpoint(&pages)?;
        demand(self.pair.w.primary.waiting == self.pair.w.primary.l, "the checkpoint does not fill the stream")?;
        let link = self.pair.drain(&[wanted.len() / 2 + 1, 7, usize::MAX])?;
        demand(link == wanted, "the checkpoint's bytes are not those of the tables")?;
        let before_commit = link.len() - commit_record(m) as usize;
        self.pair.read_all(&link[..before_commit])?;
        refusals(&mut self.pair)?;
        wrong_counts(&mut self.pair)?;
        self.receive(&link[before_commit..])
    }

    /// A checkpoint with no page and no block: STATE and COMMIT.
    fn no_page(&mut self) -> Check {
        self.write(&[], 0)?;
        let link = self.checkpoint_and_drain(&[])?;
        demand(link.len() as u64 == state_and_commit(self.pair.w.primary.m), "there is more than STATE and COMMIT")?;
        self.receive(&link)
    }

    /// A checkpoint of which all but its COMMIT is read: the standby's memory stays as it was.
    fn cut_before_commit(&mut self) -> Check {
        let m = self.pair.w.primary.m;
        let mut pages = vec![0, 1, 255, 256, 4_094, 4_095, 4_096, m / 3, m - 2, m - 1];
        pages.retain(|&page| page < m);
        pages.sort();
        pages.dedup();
        self.write(&pages, 1)?;
        let link = self.checkpoint_and_drain(&pages)?;
        let before = self.pair.w.standby_memory.clone();
        self.pair.read_all(&link[..link.len() - commit_record(m) as usize])?;
        demand(self.pair.w.standby_memory == before, "a PAGE reaches the memory before its COMMIT")
    }
}

/// The bytes of a checkpoint. Document 01: "BLOCKs in the order written, PAGEs in rising order, one STATE, one COMMIT
/// with the counts"; the kinds, numbers and lengths of PAGE and COMMIT by M as Job 7 says.
fn checkpoint_bytes(w: &World, epoch: u32, blocks: &[(u64, Vec<u8>)], pages: &[u64], cpu: &[u8; 64]) -> Vec<u8> {
    let (u, wide) = (w.primary.u, w.primary.m > 4_096);
    let (page_kind, commit_kind, width) = if wide { (8, 9, 4) } else { (1, 4, 2) };
    let number = |number: u64, width: usize| number.to_le_bytes()[..width].to_vec();
    let mut bytes = Vec::new();
    for (block, data) in blocks {
        bytes.extend(record(u + 6, 2, epoch, &[number(*block, 2), data.clone()].concat()));
    }
    for &page in pages {
        let data = &w.memory[(page * u) as usize..((page + 1) * u) as usize];
        bytes.extend(record(u + 4 + width as u64, page_kind, epoch, &[&number(page, width), data].concat()));
    }
    bytes.extend(record(68, 3, epoch, cpu));
    let counts = [number(pages.len() as u64, width), number(blocks.len() as u64, width)].concat();
    bytes.extend(record(4 + counts.len() as u64, commit_kind, epoch, &counts));
    bytes
}

/// The last of three PAGEs behind one BLOCK, and the COMMIT at the end, where they are known.
fn known_bytes(p: &Primary, link: &[u8]) -> Check {
    let Some((_, page, commit)) = KNOWN.iter().find(|(m, ..)| p.u == 64 && *m == p.m) else { return Ok(()) };
    let at = 74 + 2 * if p.m > 4_096 { 76 } else { 74 };
    demand(link[at..].starts_with(page), "the PAGE's head is not the known one")?;
    demand(link.ends_with(commit), "the COMMIT is not the known one")
}

/// Whole runs of both ends with the plain pair beside them, cut at every place, at the least M of the kinds 8 and 9.
fn cut_runs(r: &Random, sink: &mut Sink) -> Check {
    let mut tally = cuts::Tally::default();
    for _ in 0..CUT_RUNS {
        cuts::run_at(r, sink, &mut tally, Settings { q: 100, ..settings(64, 4_097) }, false)?;
    }
    println!("  {} runs of M 4,097, {} cuts, {} takeovers", tally.runs, tally.cuts, tally.takeovers);
    demand(tally.after_checkpoint[0] > 0, "no takeover was after a checkpoint")
}
