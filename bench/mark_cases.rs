//! What a checkpoint and a COMMIT do with the marks: the count of the marked pages, and the walk over them.

use super::{how_many, marks};
use crate::library;
use crate::model;
use crate::Call;
use std::hint::black_box;

/// Gives how many of M pages are marked.
type Marked = fn(&[u64], usize) -> u64;

pub struct Marks {
    what: &'static str,
    m: usize,
    /// Every step-th page is marked, or none is.
    step: Option<usize>,
    words: Vec<u64>,
    ours: Marked,
    model: Marked,
}

impl Marks {
    fn new(what: &'static str, m: usize, step: Option<usize>, ours: Marked, model: Marked) -> Marks {
        let words = step.map_or(vec![0; m.div_ceil(64)], |step| marks(m, step));
        Marks { what, m, step, words, ours, model }
    }
    pub fn count(m: usize, step: Option<usize>) -> Marks {
        Marks::new("count", m, step, library::count, |words, m| model::count_marked(words, m as u64))
    }
    pub fn walk(m: usize, step: Option<usize>) -> Marks {
        Marks::new("walk", m, step, library::walk, walk_by_model)
    }
}

fn walk_by_model(words: &[u64], m: usize) -> u64 {
    let mut passed = 0;
    model::for_marked(words, m as u64, |page| {
        black_box(page);
        passed += 1;
    });
    passed
}

impl Call for Marks {
    fn name(&self) -> String {
        let marked = self.step.map_or("none", |step| how_many(self.m, step));
        format!("{}, M {}, marked {marked}", self.what, self.m)
    }
    fn wanted(&self) -> u64 {
        self.step.map_or(0, |step| self.m.div_ceil(step) as u64)
    }
    fn ours(&mut self) -> u64 {
        (self.ours)(&self.words, self.m)
    }
    fn model(&mut self) -> u64 {
        (self.model)(&self.words, self.m)
    }
}
