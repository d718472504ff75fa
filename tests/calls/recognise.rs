//! A second reader of the form, for testing the first: it works on a whole line, token by token.
use crate::items::{code, Item, Sort, INPUT};
use crate::lent::Lent;

type Tokens<'a> = std::slice::Split<'a, u8, fn(&u8) -> bool>;

fn is_space(byte: &u8) -> bool {
    *byte == b' '
}

/// The line's code, with what the line gives; nothing where it is not of the form.
pub fn recognise(line: &[u8], l: &mut Lent) -> Option<usize> {
    let mut tokens: Tokens = line.split(is_space);
    let which = number(tokens.next()?).filter(|&number| number < code::ALL as u64)? as usize;
    for &item in INPUT[which] {
        take(&mut tokens, item, l)?;
    }
    if tokens.next().is_none() { Some(which) } else { None }
}

fn take(tokens: &mut Tokens, item: Item, l: &mut Lent) -> Option<()> {
    match item.sort() {
        Sort::Numbers(count) => l.words_mut(item).load(&numbers(tokens, count)?),
        Sort::Words => {
            let count = number(tokens.next()?).filter(|&count| count <= 1_048_576)?;
            l.words_mut(item).load(&numbers(tokens, count as usize)?);
        }
        Sort::Processor => l.bytes_mut(item).load(&hexadecimal(tokens.next()?, 64)?),
        Sort::Bytes => {
            let count = number(tokens.next()?).filter(|&count| count <= 67_108_864)? as usize;
            let bytes = if count == 0 { Vec::new() } else { hexadecimal(tokens.next()?, count)? };
            l.bytes_mut(item).load(&bytes);
        }
        Sort::Given => l.set_number(item, number(tokens.next()?)?),
        Sort::Answered => return None,
    }
    Some(())
}

fn numbers(tokens: &mut Tokens, count: usize) -> Option<Vec<u64>> {
    (0..count).map(|_| number(tokens.next()?)).collect()
}

/// The library's own reading of a number takes a sign too.
fn number(token: &[u8]) -> Option<u64> {
    let digits = token.iter().all(u8::is_ascii_digit);
    std::str::from_utf8(token).ok().filter(|_| digits)?.parse().ok()
}

fn hexadecimal(token: &[u8], count: usize) -> Option<Vec<u8>> {
    let digits = token.iter().all(|byte| byte.is_ascii_digit() || (b'a'..=b'f').contains(byte));
    if token.len() != 2 * count || !digits {
        return None;
    }
    let text = std::str::from_utf8(token).ok()?;
    (0..count).map(|at| u8::from_str_radix(&text[2 * at..2 * at + 2], 16).ok()).collect()
}
