//! Times the verified calls of libbench.a beside memcpy of the same bytes and beside a plain Rust writing of the
//! same rules, and with them the normal form of libcapi.a; the other calls of libcapi.a beside both; and two parts of
//! the calls beside the plain writing. It prints a table of each.
//!
//! The compared things run by turns, in short batches. A time is the median of its batches, in processor time of
//! this thread. What has to be made anew before each call is timed by itself and taken off.

#[path = "../tests/calls/model.rs"]
mod model;

mod cases;
mod interface;
mod library;

use std::hint::black_box;

mod clock {
    extern "C" {
        fn clock_gettime(id: i32, time: *mut [i64; 2]) -> i32;
    }

    const THREAD_CPU_TIME: i32 = 3;

    /// The processor time of this thread, in nanoseconds.
    pub fn now() -> u64 {
        let mut time = [0i64; 2];
        let status = unsafe { clock_gettime(THREAD_CPU_TIME, &mut time) };
        assert!(status == 0, "there is no clock of a thread's processor time");
        time[0] as u64 * 1_000_000_000 + time[1] as u64
    }
}

/// About how long a batch takes, in nanoseconds.
const BATCH: f64 = 200_000.0;
const BATCHES: usize = 61;

/// A verified call and the model's. Its buffers are touched before anything is timed.
pub trait Call {
    fn name(&self) -> String;
    /// How many operations a call makes.
    fn operations(&self) -> usize {
        1
    }
    /// What both ours and the model's call give.
    fn wanted(&self) -> u64;
    fn ours(&mut self) -> u64;
    fn model(&mut self) -> u64;
}

/// One that is timed beside memcpy.
pub trait Case: Call {
    /// The bytes that one operation copies or moves.
    fn bytes(&self) -> usize;
    /// Makes anew what a call changes.
    fn reset(&mut self) {}
    fn copy(&mut self);
}

/// One that is made through the C interface too.
pub trait Interface: Call {
    /// How many calls of the interface are one operation.
    fn calls(&self) -> usize {
        1
    }
    /// Whether libbench.a has the call. Where it has not, ours is the model's.
    fn is_inlined(&self) -> bool {
        true
    }
    /// The same as ours, by calls of libcapi.a. The words of the state are copied from kept ones first, as ours makes
    /// its state first: that is in the time of both, once for all operations.
    fn in_c(&mut self) -> u64;
}

type Timed<C> = fn(&mut C);

/// What is timed: the reset, then each of the three with what it needs.
const TIMED: [Timed<dyn Case>; 4] = [
    |c| c.reset(),
    |c| {
        c.reset();
        black_box(c.ours());
    },
    |c| c.copy(),
    |c| {
        c.reset();
        black_box(c.model());
    },
];

/// What is timed of the C interface.
const TIMED_IN_C: [Timed<dyn Interface>; 3] = [
    |c| {
        black_box(c.in_c());
    },
    |c| {
        black_box(c.ours());
    },
    |c| {
        black_box(c.model());
    },
];

/// What is timed of a part of a call.
const TIMED_PARTS: [Timed<dyn Call>; 2] = [
    |c| {
        black_box(c.ours());
    },
    |c| {
        black_box(c.model());
    },
];

/// Nanoseconds of one call, of a batch of them.
fn batch<C: ?Sized>(calls: u64, f: Timed<C>, case: &mut C) -> f64 {
    let began = clock::now();
    for _ in 0..calls {
        f(black_box(&mut *case));
    }
    (clock::now() - began) as f64 / calls as f64
}

/// A batch on a stack that is a few hundred bytes deeper for each step, so that the steps go through a page: an array
/// on the stack that lies across two pages takes longer to copy, and where the stack begins is chance.
#[inline(never)]
fn deeper<C: ?Sized>(steps: usize, calls: u64, f: Timed<C>, case: &mut C) -> f64 {
    let room = black_box([0u8; 192]);
    let time = if steps == 0 { batch(calls, f, case) } else { deeper(steps - 1, calls, f, case) };
    black_box(room);
    time
}

fn median(mut list: Vec<f64>) -> f64 {
    list.sort_by(f64::total_cmp);
    list[list.len() / 2]
}

/// The median nanoseconds of each.
fn times<C: ?Sized, const N: usize>(timed: [Timed<C>; N], case: &mut C) -> [f64; N] {
    let calls = timed.map(|f| {
        batch(2, f, case);
        (BATCH / batch(3, f, case).max(1.0)).ceil() as u64
    });
    let mut lists = [const { Vec::new() }; N];
    for at in 0..BATCHES {
        for i in 0..N {
            lists[i].push(deeper(at % 16, calls[i], timed[i], case));
        }
    }
    lists.map(median)
}

struct Row {
    name: String,
    ns: f64,
    to_copy: f64,
    to_model: f64,
}

fn row(case: &mut (dyn Case + 'static)) -> Row {
    case.reset();
    assert_eq!(case.model(), case.wanted(), "the model's call: {}", case.name());
    case.reset();
    assert_eq!(case.ours(), case.wanted(), "the verified call: {}", case.name());
    let [reset, ours, copy, model] = times(TIMED, case);
    let per = case.operations() as f64;
    let (ns, copy, model) = ((ours - reset) / per, copy / per, (model - reset) / per);
    let row = Row { name: case.name(), ns, to_copy: ns / copy, to_model: ns / model };
    println!(
        "| {} | {} | {:.0} | {copy:.0} | {:.2} | {model:.0} | {:.2} |",
        row.name,
        case.bytes(),
        row.ns,
        row.to_copy,
        row.to_model
    );
    row
}

/// What the C interface adds to a call, in nanoseconds, and the whole call's time to the model's.
struct Added {
    name: String,
    ns: f64,
    to_model: f64,
}

/// The name of a case of the C interface.
fn name_in_c(case: &dyn Interface) -> String {
    format!("C interface: {}", case.name())
}

fn added(case: &mut (dyn Interface + 'static)) -> Added {
    let name = name_in_c(case);
    assert_eq!(case.model(), case.wanted(), "the model's call: {name}");
    assert_eq!(case.ours(), case.wanted(), "the verified call: {name}");
    assert_eq!(case.in_c(), case.wanted(), "the call in C: {name}");
    let per = case.operations() as f64;
    let [in_c, ours, model] = times(TIMED_IN_C, case).map(|time| time / per);
    let (ns, to_model) = ((in_c - ours) / case.calls() as f64, in_c / model);
    let inlined = if case.is_inlined() { format!("{ours:.0}") } else { "none".to_string() };
    println!("| {name} | {in_c:.0} | {inlined} | {model:.0} | {to_model:.2} | {} | {ns:.0} |", case.calls());
    Added { name, ns, to_model }
}

/// A part of a call has no limit of its own.
fn part(case: &mut (dyn Call + 'static)) {
    let name = case.name();
    assert_eq!(case.model(), case.wanted(), "the model's part: {name}");
    assert_eq!(case.ours(), case.wanted(), "the verified part: {name}");
    let [ours, model] = times(TIMED_PARTS, case);
    println!("| {name} | {ours:.0} | {model:.0} | {:.2} |", ours / model);
}

/// Says of a limit which cases pass it.
fn limit<'a>(what: &str, over: impl Iterator<Item = &'a String>) {
    let names: Vec<&str> = over.map(String::as_str).collect();
    if names.is_empty() {
        println!("- {what}: kept.");
    } else {
        println!("- {what}: passed by {}: {}.", names.len(), names.join("; "));
    }
}

/// All pages of the largest images, of either width, with U of 1,024 and above.
fn largest(r: &Row) -> bool {
    let sizes = ["U 4096, M 4096,", "U 1024, M 65536,", "U 4096, M 65536,"];
    r.name.ends_with("all") && sizes.iter().any(|size| r.name.contains(size))
}

fn limits(rows: &[Row]) {
    if rows.is_empty() {
        return;
    }
    let over = |test: fn(&Row) -> bool| rows.iter().filter(move |r| test(r)).map(|r| &r.name);
    println!();
    let most = "all pages of 4,096 bytes with M 4,096, and of 1,024 and more with M 65,536, within 1.25 times memcpy";
    limit(most, over(|r| largest(r) && r.to_copy > 1.25));
    limit("within 1.5 times the model", over(|r| r.to_model > 1.5));
    let normal = "the normal form of 4,096 pages of 4,096 bytes within 1.3 times memcpy";
    limit(normal, over(|r| r.name.starts_with("normal form of all pages, U 4096") && r.to_copy > 1.3));
    limit("packet and take under 1,000 ns", over(|r| r.name.starts_with("packet") && r.ns >= 1000.0));
}

/// The wanted bound is of the primary's calls: the guest waits for them. A sum is not among them, since nearly all its
/// time is the bytes': the whole call of the largest has a bound.
fn limits_in_c(rows: &[Added]) {
    if rows.is_empty() {
        return;
    }
    let sum = |r: &&Added| r.name.contains("sum ");
    let primary = |r: &&Added| ["packet", "primary", "disk write"].iter().any(|call| r.name.contains(call));
    let over = rows.iter().filter(|r| primary(r) && !sum(r) && r.ns >= 100.0).map(|r| &r.name);
    println!();
    limit("the C interface adds under 100 ns to a primary's call", over);
    let largest = |r: &&Added| ["U 256, M 65536", "U 4096, M 4096"].iter().any(|size| r.name.contains(size));
    let over = rows.iter().filter(|r| sum(r) && largest(r) && r.to_model > 1.5).map(|r| &r.name);
    limit("sums of 16 MiB within 1.5 times the model", over);
}

fn main() {
    let words: Vec<String> = std::env::args().skip(1).collect();
    let wanted = |name: String| words.is_empty() || words.iter().any(|w| name.contains(w.as_str()));

    println!("| case | bytes | ns | memcpy ns | to memcpy | model ns | to model |");
    println!("|---|---:|---:|---:|---:|---:|---:|");
    let mut rows = Vec::new();
    if words == ["huge"] {
        cases::huge(|case| rows.push(row(case)));
        limits(&rows);
        return;
    }
    cases::all(|case| {
        if wanted(case.name()) {
            rows.push(row(case));
        }
    });
    limits(&rows);

    println!();
    println!("| case | C ns | inlined ns | model ns | to model | calls | added a call, ns |");
    println!("|---|---:|---:|---:|---:|---:|---:|");
    let mut rows = Vec::new();
    cases::interface(|case| {
        if wanted(name_in_c(case)) {
            rows.push(added(case));
        }
    });
    limits_in_c(&rows);

    println!();
    println!("| part | ns | model ns | to model |");
    println!("|---|---:|---:|---:|");
    cases::parts(|case| {
        if wanted(case.name()) {
            part(case);
        }
    });
}
