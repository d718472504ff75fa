//! The cases, and what they share.

#[path = "block_cases.rs"]
mod block;
#[path = "file_cases.rs"]
mod file;
#[path = "mark_cases.rs"]
mod mark;
#[path = "primary_cases.rs"]
mod primary;
#[path = "standby_cases.rs"]
mod standby;
#[path = "sum_cases.rs"]
mod sum;
#[path = "tick_cases.rs"]
mod tick;

use crate::model;
use crate::{Call, Case, Interface};
use block::{BlockReads, Blocks, DiskWrites};
use file::NormalForm;
use mark::Marks;
use primary::{Checkpoint, Drain, Packets, ROUNDS};
use standby::{Commit, Flush, PageReads};
use sum::{PageSums, PrimarySum, StandbySum};
use tick::{PrimaryTicks, StandbyTicks};

/// Bytes that are not all alike.
fn filled(n: usize, from: usize) -> Vec<u8> {
    (from..from + n).map(|i| (i * 31 + i / 251 + 7) as u8).collect()
}

/// Every step-th of m pages is marked.
fn marks(m: usize, step: usize) -> Vec<u64> {
    let mut words = vec![0u64; m.div_ceil(64)];
    for p in (0..m).step_by(step) {
        words[p / 64] |= 1 << (p % 64);
    }
    words
}

fn how_many(m: usize, step: usize) -> &'static str {
    if step == m {
        "one"
    } else if step == 1 {
        "all"
    } else {
        "1 in 8"
    }
}

fn told(r: model::Reply) -> u64 {
    if r.number == 0 {
        r.value
    } else {
        u64::MAX
    }
}

/// The most pages that there are.
const MOST_PAGES: usize = 65536;

/// The sizes of a read of PAGE: U, and M of either width.
const PAGE_READS: [(usize, usize); 5] = [(64, 64), (512, 64), (4096, 64), (64, MOST_PAGES), (1024, MOST_PAGES)];

/// The packets in and out: their bytes, how many others are held, and the port.
const PACKETS: [(usize, usize, usize); 7] =
    [(64, 0, 0), (64, 32, 0), (64, 63, 0), (1514, 0, 0), (1514, 32, 0), (1514, 63, 0), (64, 63, 3)];

/// What a disk write and a read of BLOCK find in the epoch: how many blocks, and whether the last of them comes again.
const BLOCKS: [(usize, bool); 3] = [(0, false), (63, false), (63, true)];

/// The sizes of a sum, U and M: 16 MiB of either width, and few bytes, which show what the call itself costs.
const SUMS: [(usize, usize); 3] = [(64, 64), (256, MOST_PAGES), (4096, 4096)];

fn blocks() -> impl Iterator<Item = Blocks> {
    [64, 4096].into_iter().flat_map(|u| BLOCKS.map(|(had, again)| Blocks { u, had, again }))
}

/// The cases of a checkpoint's pages, at each end.
fn checkpoints(sizes: &[(usize, usize, usize)], each: &mut impl FnMut(&mut (dyn Case + 'static))) {
    for &(u, m, step) in sizes {
        each(&mut Checkpoint::new(u, m, step));
    }
    for &(u, m, step) in sizes {
        each(&mut Commit::new(u, m, step));
    }
}

/// The largest images, of 256 MiB each: about 800 MB of memory.
pub fn huge(mut each: impl FnMut(&mut (dyn Case + 'static))) {
    checkpoints(&[MOST_PAGES, 1].map(|step| (4096, MOST_PAGES, step)), &mut each);
}

/// Every other case in turn.
pub fn all(mut each: impl FnMut(&mut (dyn Case + 'static))) {
    let narrow = [64, 512, 4096].map(|u| [64, 4096].map(|m| [m, 8, 1].map(|step| (u, m, step))));
    let wide = [64, 1024].map(|u| [MOST_PAGES, 1].map(|step| (u, MOST_PAGES, step)));
    let sizes: Vec<_> = narrow.into_iter().flatten().flatten().chain(wide.into_iter().flatten()).collect();
    checkpoints(&sizes, &mut each);
    for (u, m) in PAGE_READS {
        each(&mut PageReads::new(u, m));
    }
    // The first copies nothing: what remains is the state and its range test.
    each(&mut Drain::new(0, 0, ROUNDS));
    for n in [4096, 1 << 20, 16 << 20] {
        each(&mut Drain::new(n, n, 1));
    }
    for (n, waiting) in [(64, 4096), (64, 1 << 16), (64, 1 << 20), (4096, 1 << 20)] {
        each(&mut Drain::new(n, waiting, ROUNDS));
    }
    for (n, kept, port) in PACKETS {
        each(&mut Packets::new(n, kept, port));
    }
    for u in [64, 512, 4096] {
        for (staged, n) in [(0, 0), (1, 1), (64, 1), (64, 64)] {
            each(&mut Flush::new(u, staged, n));
        }
    }
    for (u, m) in [(4096, 4096), (64, MOST_PAGES)] {
        each(&mut NormalForm::pages(u, m));
    }
    each(&mut NormalForm::blocks(64));
}

/// Every case of the C interface in turn.
pub fn interface(mut each: impl FnMut(&mut (dyn Interface + 'static))) {
    for (n, kept, port) in PACKETS {
        each(&mut Packets::new(n, kept, port));
    }
    each(&mut PrimaryTicks::new());
    for blocks in blocks() {
        each(&mut DiskWrites::new(blocks));
    }
    for (u, m) in PAGE_READS {
        each(&mut PageReads::new(u, m));
    }
    for blocks in blocks() {
        each(&mut BlockReads::new(blocks));
    }
    each(&mut StandbyTicks::new());
    for (u, m) in SUMS {
        each(&mut PrimarySum::new(u, m));
    }
    for (u, m) in SUMS {
        each(&mut StandbySum::new(u, m));
    }
    for u in [64, 4096] {
        each(&mut PageSums::new(u));
    }
}

/// Every case of the marks in turn.
pub fn parts(mut each: impl FnMut(&mut (dyn Call + 'static))) {
    for part in [Marks::count, Marks::walk] {
        for m in [64, 4096] {
            for step in [None, Some(m), Some(8), Some(1)] {
                each(&mut part(m, step));
            }
        }
    }
}
