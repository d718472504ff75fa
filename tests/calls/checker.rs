//! The comparison of what a call of the library gave with what is wanted. A difference is told in words.
use crate::call::Answer;
use crate::items::{given, Item};
use crate::lent::Lent;
use crate::model::Reply;
use crate::names::{item_name, word_name};
use crate::view::View;
use std::ops::Range;

/// What differs, in words.
pub type Check = Result<(), String>;

pub fn demand(holds: bool, what: &str) -> Check {
    if holds { Ok(()) } else { Err(what.to_string()) }
}

/// Everything: the answer, and every word and byte that the call was given, with the guards.
pub fn compare(which: usize, l: &Lent, answer: Answer, reply: &Reply, wanted: &View) -> Check {
    compare_answer(answer, reply)?;
    given(which).try_for_each(|item| compare_item(l, item, wanted))
}

pub fn compare_answer(answer: Answer, reply: &Reply) -> Check {
    same_number("number", answer.number, reply.number)?;
    same_number("used", answer.used, reply.used)?;
    same_number("missing", answer.missing, reply.missing)?;
    same_number("value", answer.value, reply.value)
}

fn same_number(what: &str, given: u64, wanted: u64) -> Check {
    if given == wanted { Ok(()) } else { Err(format!("{what}: wanted {wanted}, given {given}")) }
}

pub fn compare_item(l: &Lent, item: Item, wanted: &View) -> Check {
    if item.is_words() {
        same_words(l, item, wanted.words(item))
    } else if item.is_bytes() {
        same_bytes(l, item, wanted.bytes(item), 0..usize::MAX)
    } else {
        same_number("a number given", l.number(item), wanted.number(item))
    }
}

/// Everything that the call was given is as another one holds it.
pub fn compare_lent(which: usize, l: &Lent, wanted: &Lent) -> Check {
    given(which).try_for_each(|item| {
        if item.is_words() {
            same_words(l, item, wanted.words(item).items())
        } else if item.is_bytes() {
            same_bytes(l, item, wanted.bytes(item).items(), 0..usize::MAX)
        } else {
            same_number("a number given", l.number(item), wanted.number(item))
        }
    })
}

fn same_words(l: &Lent, item: Item, wanted: &[u64]) -> Check {
    let words = l.words(item);
    if words.items() != wanted {
        let at = first_difference(words.items(), wanted);
        let told = |words: &[u64]| words.get(at).map_or("no such word".to_string(), |word| word.to_string());
        let (wanted, given) = (told(wanted), told(words.items()));
        return Err(format!("{}: wanted {wanted}, given {given}", word_name(item, at)));
    }
    guards(words.guards_stand(), item)
}

/// Compares the bytes of the range, as far as there are so many; the lengths and the guards whole.
pub fn same_bytes(l: &Lent, item: Item, wanted: &[u8], range: Range<usize>) -> Check {
    let bytes = l.bytes(item);
    same_number(&format!("{}, length", item_name(item)), bytes.items().len() as u64, wanted.len() as u64)?;
    let range = range.start.min(wanted.len())..range.end.min(wanted.len());
    if bytes.items()[range.clone()] != wanted[range.clone()] {
        let at = range.start + first_difference(&bytes.items()[range.clone()], &wanted[range]);
        let (wanted, given) = (wanted[at], bytes.items()[at]);
        return Err(format!("{}, byte {at}: wanted {wanted}, given {given}", item_name(item)));
    }
    guards(bytes.guards_stand(), item)
}

fn first_difference<T: PartialEq>(one: &[T], other: &[T]) -> usize {
    one.iter().zip(other).take_while(|(a, b)| a == b).count()
}

fn guards(stand: bool, item: Item) -> Check {
    if stand { Ok(()) } else { Err(format!("{}: changed in front of it or behind it", item_name(item))) }
}
