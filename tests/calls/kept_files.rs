//! Checkpoints kept on file (document 02, Job 14): cases whose numbers are written beside them (file_cases.rs),
//! settings and files at their limits (file_limits.rs), files damaged and cut at every place (file_damage.rs), files
//! that standbys read (file_runs.rs), and what is here: random checkpoints of both widths, the content that decides of
//! a normal form, and every length of a destination.
use crate::arguments::fresh_world;
use crate::checker::{demand, Check};
use crate::file_records::*;
use crate::items::code;
use crate::model::{Reply, Settings};
use crate::random::Random;
use crate::sink::Sink;
use crate::world::{Args, World};
use crate::{file_cases, file_damage, file_limits, file_runs};

/// Random checkpoints, and the most pages of one; larger ones come by themselves.
const RANDOM: u64 = 3_000;
const MOST: u64 = 130;

pub fn run(r: &Random, sink: &mut Sink) -> Check {
    let mut writer = Writer::new(r, sink);
    (0..RANDOM).try_for_each(|_| random(&mut writer))?;
    (0..60).try_for_each(|at| every_room(&mut writer, at % 2 == 1))?;
    file_limits::run(&mut writer)?;
    file_cases::run(&mut writer)?;
    file_damage::run(&mut writer)?;
    file_runs::run(r, sink)
}

/// One file of any sort for the lines of FORM.md: small, and often damaged.
pub fn any_file(r: &Random, sink: &mut Sink) {
    file_damage::damaged(&mut Writer::new(r, sink));
}

/// Makes normal forms, by the library and by the model.
pub struct Writer<'a> {
    pub r: &'a Random,
    pub sink: &'a mut Sink,
    /// A normal form is given no part of it.
    w: World,
}

impl<'a> Writer<'a> {
    pub fn new(r: &'a Random, sink: &'a mut Sink) -> Writer<'a> {
        Writer { r, sink, w: fresh_world(r, &Settings::default()) }
    }

    /// One call, with this destination, which is handed back as it is after it.
    pub fn call(&mut self, s: &Settings, file: &[u8], out: Vec<u8>) -> (Reply, Vec<u8>) {
        let mut a = Args { settings: *s, data: file.to_vec(), out, ..Args::none() };
        let reply = self.sink.call(code::NORMAL_FORM, &mut self.w, &mut a);
        (reply, a.out)
    }

    /// A normal form never needs more room than its file.
    fn room(&self, file: &[u8]) -> Vec<u8> {
        self.r.bytes(file.len() as u64 + self.r.pick(&[0, 0, 1, 7, 300]))
    }

    /// The number that a file gets, with room for its normal form.
    pub fn number(&mut self, s: &Settings, file: &[u8]) -> u64 {
        let room = self.room(file);
        self.call(s, file, room).0.number
    }

    /// The normal form of a file, which must be accepted.
    pub fn accepted(&mut self, s: &Settings, file: &[u8]) -> Result<Vec<u8>, String> {
        let room = self.room(file);
        let (reply, mut out) = self.call(s, file, room);
        demand(reply.number == 0, &format!("refused with {}", reply.number))?;
        out.truncate(reply.value as usize);
        Ok(out)
    }
}

/// A checkpoint at random, and what its content says of others.
fn random(writer: &mut Writer) -> Check {
    let r = writer.r;
    let checkpoint = some_checkpoint(r, some_sizes(r), MOST);
    content_decides(writer, &checkpoint).map_err(|what| told(&checkpoint, &what))
}

pub fn told(checkpoint: &Checkpoint, what: &str) -> String {
    let Settings { u, m, d, b, .. } = checkpoint.s;
    let (blocks, pages) = (checkpoint.blocks.len(), checkpoint.pages.len());
    format!("U {u}, M {m}, D {d}, B {b}, epoch {}, {blocks} blocks, {pages} pages: {what}", checkpoint.epoch)
}

/// "Equal files exactly when they name the same pages and blocks with the same last bytes and carry the same processor
/// state. A file is normalised to itself."
fn content_decides(writer: &mut Writer, one: &Checkpoint) -> Check {
    let r = writer.r;
    let normal = writer.accepted(&one.s, &one.file())?;
    demand(normal == one.normal().file(), "not blocks, then pages, each once with its last bytes, STATE and COMMIT")?;
    demand(writer.accepted(&one.s, &normal)? == normal, "the normal form of a normal form is another")?;
    let mixed = writer.accepted(&one.s, &one.mixed(r).file())?;
    demand(mixed == normal, "the same content in another order has another normal form")?;
    for other in others(r, one) {
        let given = writer.accepted(&other.s, &other.mixed(r).file())?;
        demand(given != normal, "another content has the same normal form")?;
    }
    Ok(())
}

/// Checkpoints with another content: another byte of the processor state, other blocks or pages; and another epoch.
fn others(r: &Random, one: &Checkpoint) -> Vec<Checkpoint> {
    let normal = one.normal();
    let mut others = vec![normal.clone(), normal.clone()];
    others[0].cpu[r.below(64) as usize] ^= 1;
    others[1].epoch ^= 1 << r.below(32);
    let blocks = other_units(r, &normal.blocks, one.s.d).into_iter();
    let pages = other_units(r, &normal.pages, one.s.m).into_iter();
    others.extend(blocks.map(|blocks| Checkpoint { blocks, ..normal.clone() }));
    others.extend(pages.map(|pages| Checkpoint { pages, ..normal.clone() }));
    others
}

/// These blocks or pages, which are rising and below the limit, with one byte changed, with one of them left out, and
/// with the last one in place of which the next one is named.
fn other_units(r: &Random, units: &Units, limit: u64) -> Vec<Units> {
    let Some(last) = units.len().checked_sub(1) else { return vec![] };
    let at = r.range(0, last as u64) as usize;
    let [mut changed, mut fewer, mut moved] = [units.clone(), units.clone(), units.clone()];
    let place = r.below(units[at].1.len() as u64) as usize;
    changed[at].1[place] ^= r.pick(&[1, 2, 128]);
    fewer.remove(at);
    moved[last].0 += 1;
    if moved[last].0 < limit { vec![changed, fewer, moved] } else { vec![changed, fewer] }
}

/// Destinations of every length about that of the normal form: 30 exactly where it is shorter.
fn every_room(writer: &mut Writer, wide: bool) -> Check {
    let (r, m) = (writer.r, if wide { 4_097 } else { 5 });
    let one = some_checkpoint(r, sizes(64, m, 5, r.range(0, 4)), 3);
    let (file, normal) = (one.file(), one.normal().file());
    for length in [0, 1, normal.len() / 2].into_iter().chain(normal.len() - 3..normal.len() + 4).chain([file.len()]) {
        let before = r.bytes(length as u64);
        let (reply, out) = writer.call(&one.s, &file, before.clone());
        let fits = length >= normal.len();
        let number = if fits { 0 } else { 30 };
        demand(reply.number == number, "30 is not given exactly where the destination is too short")?;
        let head = if fits { &normal[..] } else { &[] };
        demand(out == [head, &before[head.len()..]].concat(), "the destination, or its spare end")?;
    }
    Ok(())
}
