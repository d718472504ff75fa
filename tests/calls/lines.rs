//! The program that reads lines (FORM.md), compared with the calls themselves: good lines of every code, changed ones,
//! and lines at the limits of the form.
use crate::arguments::{fresh_world, small_settings};
use crate::changed_lines;
use crate::checker::{demand, Check};
use crate::generate::list;
use crate::items::{code, STANDBY_WORDS};
use crate::kept_files::any_file;
use crate::model::*;
use crate::random::Random;
use crate::refused_records::page_of;
use crate::singles;
use crate::sink::{Sink, Text};
use crate::world::{Args, World};
use crate::{no_state, outside};
use std::io::{Read, Write};
use std::process::{Command, Stdio};
use std::thread;

const GOOD_LINES: usize = 33_000;

pub fn run(r: &Random, sink: &mut Sink, program: &str) -> Check {
    let text = good_lines(r, sink);
    let (lines, answers) = (text.lines.concat(), text.answers.concat());
    same(&lines, &answers, &printed(program, &[&lines])?)?;
    every_code(&text)?;
    examples(program)?;
    changed_lines::compare(r, program, &text)?;
    most_pages(r, sink, program)?;
    limits(program)
}

/// Calls of every code as lines with the answers of the calls themselves.
fn good_lines(r: &Random, sink: &mut Sink) -> Text {
    sink.text = Some(Text::default());
    let count = |sink: &Sink| sink.text.as_ref().map_or(0, |text| text.lines.len());
    no_state::fields(r, sink);
    while count(sink) < GOOD_LINES {
        list(r, sink, small_settings(r), 40, false);
        (0..40).for_each(|_| singles::any_single(r, sink));
        (3..7).for_each(|clause| {
            let mut settings = small_settings(r);
            singles::start(r, sink, settings, r.percent(30));
            outside::push_setting(r, &mut settings, clause);
            singles::start(r, sink, settings, false);
            singles::choice(r, sink);
            any_file(r, sink);
        });
    }
    sink.text.take().unwrap_or_default()
}

/// A checkpoint, a read, both sums and that checkpoint's normal form at the largest M: their buffers fit on a line.
fn most_pages(r: &Random, sink: &mut Sink, program: &str) -> Check {
    let (u, m, d, b, s, t) = (64, MOST_PAGES, 1, 1, 1, 1);
    let settings = Settings { u, m, d, b, s, q: 0, l: least_stream(u, m, b), t };
    let primary = Primary { u, m, d, b, l: settings.l, t, open: 1, ..Primary::zero() };
    let standby = Standby { u, m, d, b, s, t, ..Standby::zero() };
    let mut page = Args { data: page_of(&standby, m - 1), out: vec![0; 8], ..Args::none() };
    let mut falling = Args { order: (0..m).rev().collect(), ..Args::none() };
    let mut w = World { primary, standby, ..fresh_world(r, &settings) };
    sink.text = Some(Text::default());
    let checkpoint = sink.call(code::CHECKPOINT, &mut w, &mut Args::none());
    let data = w.stream[..w.primary.waiting as usize].to_vec();
    let mut file = Args { settings, out: vec![7; data.len() + 1], data, ..Args::none() };
    let replies = [
        checkpoint,
        sink.call(code::READ, &mut w, &mut page),
        sink.call(code::PRIMARY_SUM, &mut w, &mut Args::none()),
        sink.call(code::STANDBY_SUM, &mut w, &mut falling),
        sink.call(code::NORMAL_FORM, &mut w, &mut file),
    ];
    demand(replies.iter().all(|reply| reply.number == 0), "a line of the largest M is refused")?;
    let text = sink.text.take().unwrap_or_default();
    let (lines, answers) = (text.lines.concat(), text.answers.concat());
    same(&lines, &answers, &printed(program, &[&lines])?)
}

fn every_code(text: &Text) -> Check {
    for which in 0..code::ALL {
        let head = format!("{which} ");
        if !text.lines.iter().any(|line| line.starts_with(head.as_bytes())) {
            return Err(format!("no line of code {which}"));
        }
    }
    Ok(())
}

/// Lines with answers that an earlier program of the form gave, which had no ports and no records: theirs are 0, and as
/// many as the blocks. Or worked out by hand where a record is cut short or refused, where M or L is at an end of its
/// range, where ports differ, where blocks come again, where a memory is summed (image_sums.rs says how), or where a
/// file is normalised: block 3, then 0, then 3 again, with B 2; and one of every number (file_cases.rs has more). The
/// order of the items is in one table for both programs here, and a mistake in it would be seen by nothing else.
fn examples(program: &str) -> Check {
    let (lines, answers) = (include_bytes!("examples.in"), include_bytes!("examples.out"));
    same(lines, answers, &printed(program, &[lines])?)
}

/// What the program prints on this input. It must end well, whatever it is given.
pub fn printed(program: &str, input: &[&[u8]]) -> Result<Vec<u8>, String> {
    let run = Command::new(program).stdin(Stdio::piped()).stdout(Stdio::piped()).stderr(Stdio::piped()).spawn();
    let mut child = run.map_err(|error| format!("{program}: {error}"))?;
    let (stdin, stdout) = (child.stdin.take(), child.stdout.take());
    let mut answers = Vec::new();
    thread::scope(|scope| {
        // Where the program ends early the writing fails; the answers tell it.
        scope.spawn(move || stdin.map(|mut stdin| input.iter().try_for_each(|part| stdin.write_all(part))));
        stdout.map(|mut stdout| stdout.read_to_end(&mut answers))
    });
    let mut said = String::new();
    child.stderr.take().map(|mut stderr| stderr.read_to_string(&mut said));
    let status = child.wait().map_err(|error| error.to_string())?;
    if status.success() && said.is_empty() { Ok(answers) } else { Err(format!("the program: {status}, {said}")) }
}

/// Compares line by line, and tells the first that differs.
pub fn same(lines: &[u8], wanted: &[u8], given: &[u8]) -> Check {
    if wanted == given {
        return Ok(());
    }
    let newline = |byte: &u8| *byte == b'\n';
    let (mut lines, mut wanted, mut given) = (lines.split(newline), wanted.split(newline), given.split(newline));
    loop {
        let (line, one, other) = (lines.next(), wanted.next(), given.next());
        if one != other || line.is_none() {
            let (line, one, other) = (shortened(line), shortened(one), shortened(other));
            return Err(format!("a line's answer differs\nsent: {line}\nwanted: {one}\ngiven: {other}"));
        }
    }
}

fn shortened(line: Option<&[u8]>) -> String {
    let text = String::from_utf8_lossy(line.unwrap_or(b"(none)"));
    let head: String = text.chars().take(2_000).collect();
    if head.len() == text.len() { head } else { format!("{head} ... ({} bytes)", text.len()) }
}

/// The most bytes and words that the form has, and one more.
fn limits(program: &str) -> Check {
    let digits = vec![b'0'; 2 * 67_108_864];
    let long = printed(program, &[b"15 67108864 ", &digits, b" 0 8 0000000000000000\n"])?;
    same(b"15 67108864 ..", b"1 0\n", &long)?;
    let longer = printed(program, &[b"15 67108865 ", &digits, b"00 0 8 0000000000000000\n"])?;
    same(b"15 67108865 ..", b"!\n", &longer)?;
    let state = [b"0 ".repeat(STANDBY_WORDS), b"0".repeat(128), b" ".to_vec(), b"0".repeat(128)].concat();
    let words = b" 9".repeat(1_048_576);
    let many = printed(program, &[b"11 ", &state, b" 1048576", &words, b"\n"])?;
    same(b"11 .. 1048576 ..", &[b"1 0 ", &state[..], b" 1048576", &words, b"\n"].concat(), &many)?;
    let more = printed(program, &[b"11 ", &state, b" 1048577 9", &words, b"\n"])?;
    same(b"11 .. 1048577 ..", b"!\n", &more)?;
    let order = printed(program, &[b"17 ", &state, b" 0 1048576", &words, b"\n"])?;
    same(b"17 .. 0 1048576 ..", &[b"1 0 ", &state[..], b"\n"].concat(), &order)?;
    let longer = printed(program, &[b"17 ", &state, b" 0 1048577 9", &words, b"\n"])?;
    same(b"17 .. 0 1048577 ..", b"!\n", &longer)?;
    // a file of zeros is refused with 6 by its first header; the destination is as long as a line takes
    let file = printed(program, &[b"18 64 1 0 0 4 00000000 67108864 ", &digits, b"\n"])?;
    same(b"18 64 1 0 0 4 00000000 67108864 ..", &[b"6 0 0 67108864 ", &digits[..], b"\n"].concat(), &file)?;
    let longer = printed(program, &[b"18 64 1 0 0 67108865 ", &digits, b"00 0\n"])?;
    same(b"18 64 1 0 0 67108865 ..", b"!\n", &longer)?;
    others(program)
}

/// Inputs that are empty or not of the form.
fn others(program: &str) -> Check {
    let good = b"15 0 0 8 0000000000000000";
    same(b"", b"", &printed(program, &[])?)?;
    same(good, b"0 0\n", &printed(program, &[good, b"\n"])?)?;
    let bad: [&[u8]; 12] = [
        b"\n", b"19\n", b"18\n", b"18 64 1 0 0 0\n", b"18 64 1 0 0 0 0 0\n", b"17\n", b"15\n", b" 15 0 0 0\n",
        b"15  0 0 0\n", b"15 0 0 0 \n", b"15 0 0 1 0\n", b"15 1 0 0\n",
    ];
    for bad in bad {
        same(bad, b"!\n", &printed(program, &[bad])?)?;
        same(bad, b"0 0\n!\n", &printed(program, &[good, b"\n", bad, good, b"\n"])?)?;
    }
    for cut in [&good[..], b"15 0 0 0", b"15 0 0 8 00000000000000", b"1", b"15 "] {
        same(cut, b"!\n", &printed(program, &[cut])?)?;
    }
    Ok(())
}
