//! Words that are no state: their count is not exact, or one of them does not fit its field. Every call gives 1 on
//! them and changes nothing, whatever else it is given.
use crate::arguments::{arguments, fresh_world, small_settings, start_args};
use crate::guarded::Guarded;
use crate::items::{
    calls_of, calls_of_ends, code, is_of, Item, PACKET_WORDS, PRIMARY_FIRST_WORDS, PRIMARY_WORDS, STANDBY_WORDS,
    WRITTEN_AT,
};
use crate::names::word_name;
use crate::random::Random;
use crate::singles::any_world;
use crate::sink::Sink;

/// What a field holds.
#[derive(Clone, Copy)]
enum Field {
    Bits32,
    Bits16,
    Flag,
    Mode,
}

/// The fields of a primary by their words: T, the count of ticks, two epochs, alone, every packet's epoch, length and
/// port, and the 64 block numbers of the open epoch, those behind its count of blocks too.
fn primary_fields() -> Vec<(usize, Field)> {
    let packets = (PRIMARY_FIRST_WORDS..WRITTEN_AT).step_by(PACKET_WORDS);
    let packets = packets.flat_map(|at| [(at, Field::Bits32), (at + 1, Field::Bits16), (at + 2, Field::Bits16)]);
    let written = (WRITTEN_AT..PRIMARY_WORDS).map(|at| (at, Field::Bits16));
    (6..10).map(|at| (at, Field::Bits32)).chain([(10, Field::Flag)]).chain(packets).chain(written).collect()
}

/// The fields of a standby by their words: T, the count of ticks, the mode, the last received epoch and STATE seen.
fn standby_fields() -> Vec<(usize, Field)> {
    vec![(5, Field::Bits32), (6, Field::Bits32), (7, Field::Mode), (8, Field::Bits32), (79, Field::Flag)]
}

/// The numbers that do not fit: also some that are the word itself when cut to 32, 16 or 8 bits.
fn unfit(field: Field, word: u64) -> Vec<u64> {
    let mut numbers = vec![1 << 32, (1 << 32) + word, (1 << 32) + word + 1, 1 << 63, u64::MAX];
    match field {
        Field::Bits32 => {}
        Field::Bits16 => numbers.extend([65_536, 65_536 + word, 65_537 + word, u32::MAX as u64]),
        Field::Flag => numbers.extend([2, 3, 256 + word, 65_536 + word, u32::MAX as u64]),
        Field::Mode => numbers.extend([3, 4, 256 + word, 65_536 + word, u32::MAX as u64]),
    }
    numbers
}

/// One of the calls with one of its fields; `came` is how often it did.
struct Target {
    which: usize,
    item: Item,
    word: usize,
    field: Field,
    came: u64,
}

/// Every field of every call on a state.
fn targets() -> Vec<Target> {
    let primary = calls_of(Item::Primary).map(|which| (which, Item::Primary, primary_fields()));
    let standby = calls_of(Item::Standby).map(|which| (which, Item::Standby, standby_fields()));
    let target = |which, item, (word, field)| Target { which, item, word, field, came: 0 };
    primary
        .chain(standby)
        .flat_map(|(which, item, fields)| fields.into_iter().map(move |field| target(which, item, field)))
        .collect()
}

/// Every field of every call at every number that does not fit, over and over up to this count of calls. What is wrong
/// where a field never came.
pub fn run(r: &Random, sink: &mut Sink, end: u64) -> Result<(), String> {
    let mut targets = targets();
    let mut rounds = 0;
    while rounds == 0 || sink.calls < end {
        targets.iter_mut().for_each(|target| unfit_field(r, sink, target));
        calls_of_ends().for_each(|which| wrong_counts(r, sink, which));
        wrong_counts_at_start(r, sink);
        rounds += 1;
    }
    println!("  {} fields of {} calls, {rounds} times each number", targets.len(), calls_of_ends().count());
    match targets.iter().find(|target| target.came == 0) {
        None => Ok(()),
        Some(target) => Err(format!("code {} never had {}", target.which, word_name(target.item, target.word))),
    }
}

/// Every field of every call once at every number that does not fit.
pub fn fields(r: &Random, sink: &mut Sink) {
    targets().iter_mut().for_each(|target| unfit_field(r, sink, target));
}

/// The call on a state in range but for this field, at each number that does not fit it.
fn unfit_field(r: &Random, sink: &mut Sink, target: &mut Target) {
    let (which, item, at) = (target.which, target.item, target.word);
    let w = any_world(r, which);
    let odd = r.pick(&[0, 0, 0, 30]);
    let a = arguments(r, which, &w, odd);
    // The word itself is only known once it is lent; a number for each place of the list is asked for.
    for choice in 0..unfit(target.field, 0).len() {
        sink.refused(which, &w, &a, |l| {
            let word = &mut l.words_mut(item).items_mut()[at];
            *word = unfit(target.field, *word)[choice];
        });
        target.came += 1;
    }
}

/// The call on a state in range with words missing or too many.
fn wrong_counts(r: &Random, sink: &mut Sink, which: usize) {
    let item = if is_of(which, Item::Primary) { Item::Primary } else { Item::Standby };
    let w = any_world(r, which);
    let odd = r.pick(&[0, 0, 0, 30]);
    let a = arguments(r, which, &w, odd);
    for count in counts(item) {
        sink.refused(which, &w, &a, |l| resize(l.words_mut(item), count));
    }
}

/// A start that would be accepted, with a wrong count of its settings or of a state's words.
fn wrong_counts_at_start(r: &Random, sink: &mut Sink) {
    let settings = small_settings(r);
    let (w, a) = (fresh_world(r, &settings), start_args(r, settings));
    for item in [Item::Settings, Item::Primary, Item::Standby] {
        for count in counts(item) {
            sink.refused(code::START, &w, &a, |l| resize(l.words_mut(item), count));
        }
    }
}

/// Counts of words that are not exact.
fn counts(item: Item) -> Vec<usize> {
    match item {
        Item::Settings => vec![0, 1, 7, 9, 16, 64],
        Item::Primary => {
            vec![0, 1, 16, STANDBY_WORDS, 207, WRITTEN_AT, PRIMARY_WORDS - 1, PRIMARY_WORDS + 1, 2 * PRIMARY_WORDS]
        }
        _ => vec![0, 1, 11, STANDBY_WORDS - 1, STANDBY_WORDS + 1, PRIMARY_WORDS, 2 * STANDBY_WORDS],
    }
}

fn resize(words: &mut Guarded<u64>, count: usize) {
    let mut changed = words.items().to_vec();
    changed.resize(count, 0);
    words.load(&changed);
}
