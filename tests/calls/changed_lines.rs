//! Good lines with changes in them, given to the program that reads lines. A second reader of the form says
//! whether one is still of the form.
use crate::call::call;
use crate::checker::Check;
use crate::lent::Lent;
use crate::lines::{printed, same};
use crate::random::Random;
use crate::recognise::recognise;
use crate::sink::{answer_line, Text};

const CHANGED_TEXTS: usize = 400;

/// Some good lines with changes in them: the answers of those that are still of the form, up to the first that is not.
pub fn compare(r: &Random, program: &str, text: &Text) -> Check {
    let (mut ended, mut answered) = (0, 0);
    for _ in 0..CHANGED_TEXTS {
        let mut input = Vec::new();
        for _ in 0..r.range(1, 4) {
            input.extend(changed(r, text.lines[r.below(text.lines.len() as u64) as usize].clone()));
        }
        let (wanted, of_the_form) = expected(&input);
        same(&input, &wanted, &printed(program, &[&input])?)?;
        ended += wanted.ends_with(b"!\n") as u64;
        answered += of_the_form;
    }
    println!("  {CHANGED_TEXTS} texts of changed lines: {answered} lines answered, {ended} texts ended by !");
    if ended > 50 && answered > 50 { Ok(()) } else { Err("too few changed lines of a sort".to_string()) }
}

/// What the program must print, by a reader of the form that works on whole lines; and how many lines are answered.
fn expected(input: &[u8]) -> (Vec<u8>, u64) {
    let (mut answers, mut count) = (Vec::new(), 0);
    for line in input.split_inclusive(|&byte| byte == b'\n') {
        let mut l = Lent::new();
        let Some(which) = line.strip_suffix(b"\n").and_then(|line| recognise(line, &mut l)) else {
            answers.extend_from_slice(b"!\n");
            break;
        };
        l.lend_states(which, 0, 0);
        let answer = call(which, &mut l);
        answers.extend(answer_line(which, &l, answer));
        count += 1;
    }
    (answers, count)
}

/// One line with one change, or with none.
fn changed(r: &Random, mut line: Vec<u8>) -> Vec<u8> {
    let at = r.below(line.len() as u64) as usize;
    let some = r.pick(b" \n0123456789abcdefgABF-+.!\r\t\0\xff");
    match r.below(9) {
        0 => line[at] = some,
        1 => line.insert(at, some),
        2 => drop(line.remove(at)),
        3 => line.truncate(at),
        4 => return change_token(r, &line),
        5 | 6 => return change_number(r, &line),
        7 => line[0] = some,
        _ => {}
    }
    line
}

/// One token left out, or given twice.
fn change_token(r: &Random, line: &[u8]) -> Vec<u8> {
    let mut tokens: Vec<&[u8]> = line.split(|&byte| byte == b' ').collect();
    let at = r.below(tokens.len() as u64) as usize;
    if r.percent(50) {
        tokens.remove(at);
    } else {
        tokens.insert(at, tokens[at]);
    }
    tokens.join(&b' ')
}

/// One token replaced by a number, often in a state.
fn change_number(r: &Random, line: &[u8]) -> Vec<u8> {
    const NUMBERS: [&[u8]; 16] = [
        b"0", b"1", b"2", b"4", b"65535", b"65536", b"00000000000000000000000000000000007", b"4294967295",
        b"4294967296", b"9223372036854775808", b"18446744073709551615", b"18446744073709551616",
        b"99999999999999999999999", b"67108864", b"16", b"18",
    ];
    let mut tokens: Vec<&[u8]> = line.split(|&byte| byte == b' ').collect();
    let last = r.pick(&[tokens.len() as u64, 20, 273]).min(tokens.len() as u64);
    tokens[r.below(last) as usize] = r.pick(&NUMBERS);
    tokens.join(&b' ')
}
