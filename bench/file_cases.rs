//! The cases of a normal form, of checkpoints kept on file. They are made through the C interface alone: no state is
//! lent, so that it adds nothing but the word of the answer.

use super::{filled, told};
use crate::interface;
use crate::library;
use crate::model;
use crate::{Call, Case};

/// The different blocks of the file with blocks alone, and how often each is written: 65,472 BLOCKs, of at most 65,535.
const BLOCKS: usize = 64;
const TIMES: usize = 1023;

pub struct NormalForm {
    name: String,
    settings: model::Settings,
    file: Vec<u8>,
    destination: Vec<u8>,
    wanted: u64,
}

/// A record of epoch 2: its head, and then a number or the counts, and bytes.
fn put(file: &mut Vec<u8>, kind: u8, numbers: &[u8], bytes: &[u8]) {
    let length = (4 + numbers.len() + bytes.len()) as u16;
    file.extend_from_slice(&length.to_le_bytes());
    file.extend_from_slice(&[kind, 0, 2, 0, 0, 0]);
    file.extend_from_slice(numbers);
    file.extend_from_slice(bytes);
}

/// A number of a PAGE or a count of a COMMIT, as M calls for.
fn number(m: usize, n: usize) -> Vec<u8> {
    n.to_le_bytes()[..if model::is_wide(m as u64) { 4 } else { 2 }].to_vec()
}

impl NormalForm {
    /// A file of all M pages and no block.
    pub fn pages(u: usize, m: usize) -> NormalForm {
        let (mut file, pages) = (Vec::new(), filled(m * u, 21));
        for (page, bytes) in pages.chunks(u).enumerate() {
            put(&mut file, model::page_kind(m as u64) as u8, &number(m, page), bytes);
        }
        NormalForm::new(format!("normal form of all pages, U {u}, M {m}"), u, m, file, m, 0, 0)
    }

    /// A file of no page and 64 blocks, the last one first, each written again and again.
    pub fn blocks(u: usize) -> NormalForm {
        let (mut file, bytes) = (Vec::new(), filled(u, 22));
        for at in 0..BLOCKS * TIMES {
            put(&mut file, 2, &[(BLOCKS - 1 - at % BLOCKS) as u8, 0], &bytes);
        }
        let name = format!("normal form of {BLOCKS} blocks, each {TIMES} times, U {u}");
        NormalForm::new(name, u, 1, file, 0, BLOCKS * TIMES, BLOCKS)
    }

    /// The file with its STATE and COMMIT; `different` are the blocks that its normal form has.
    fn new(
        name: String,
        u: usize,
        m: usize,
        mut file: Vec<u8>,
        pages: usize,
        records: usize,
        different: usize,
    ) -> NormalForm {
        put(&mut file, 3, &[], &[5; 64]);
        put(&mut file, model::commit_kind(m as u64) as u8, &[number(m, pages), number(m, records)].concat(), &[]);
        let wanted = (file.len() - (records - different) * (u + 10)) as u64;
        let (u, m, d, b) = (u as u64, m as u64, BLOCKS as u64, BLOCKS as u64);
        let settings = model::Settings { u, m, d, b, ..model::Settings::default() };
        NormalForm { name, settings, destination: filled(file.len(), 23), file, wanted }
    }
}

impl Call for NormalForm {
    fn name(&self) -> String {
        self.name.clone()
    }
    fn wanted(&self) -> u64 {
        self.wanted
    }
    fn ours(&mut self) -> u64 {
        told(interface::normal_form(&self.settings, &self.file, &mut self.destination))
    }
    #[inline(never)]
    fn model(&mut self) -> u64 {
        told(model::normal_form(&self.settings, &self.file, &mut self.destination))
    }
}

/// The bytes are those of the file: with blocks that are written again more are read than written.
impl Case for NormalForm {
    fn bytes(&self) -> usize {
        self.file.len()
    }
    fn copy(&mut self) {
        library::base_copy(&mut self.destination, &self.file);
    }
}
