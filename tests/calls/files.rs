//! Checkpoints kept on file (document 02, Job 14): what every answer must be beside the bytes of its file, and what
//! came of every sort. It is read from what the library was lent and what it left, and from its own answers, without
//! the model.
use crate::call::Answer;
use crate::checker::{demand, Check};
use crate::file_sorts::{accepted_sorts, refused_sorts, settings_sorts, ACCEPTED, REFUSED, SETTINGS};
use crate::file_walk::{content, walk, End, Name, Sizes};
use crate::items::{code, Item};
use crate::lent::Lent;
use crate::sorts::{self, Sorts};

/// How often each sort came: those of a file at M up to 4,096, and above.
#[derive(Default)]
pub struct Files {
    accepted: [Vec<u64>; 2],
    refused: [Vec<u64>; 2],
    settings: Vec<u64>,
}

/// A call as it was lent and as it left the destination.
pub struct Kept<'a> {
    pub s: Sizes,
    pub file: &'a [u8],
    pub before: &'a [u8],
    pub after: &'a [u8],
}

impl Files {
    /// Counts and checks a normal form.
    pub fn check(&mut self, which: usize, answer: Answer, before: &Lent, after: &Lent) -> Check {
        if which != code::NORMAL_FORM {
            return Ok(());
        }
        let kept = Kept {
            s: Sizes::of(before.words(Item::Sizes).items()),
            file: before.bytes(Item::Data).items(),
            before: before.bytes(Item::Out).items(),
            after: after.bytes(Item::Out).items(),
        };
        demand(answer.used == 0, "a normal form uses bytes")?;
        let wide = kept.s.is_wide() as usize;
        if answer.number == 0 {
            accepted(&kept, answer.value as usize)?;
            return count(&mut self.accepted[wide], &ACCEPTED, accepted_sorts(&kept, answer.value as usize));
        }
        demand(answer.value == 0, "a refused file has a value")?;
        demand(kept.before == kept.after, "a refused file changes the destination")?;
        if answer.number == 1 {
            return count(&mut self.settings, &SETTINGS, settings_sorts(kept.s));
        }
        count(&mut self.refused[wide], &REFUSED, refused_sorts(&kept, answer.number))
    }

    fn sorts(&self) -> [Sorts<'_>; 5] {
        [
            ("files accepted, M up to 4,096", &ACCEPTED, &self.accepted[0]),
            ("files accepted, M above 4,096", &ACCEPTED, &self.accepted[1]),
            ("files refused or cut short, M up to 4,096", &REFUSED, &self.refused[0]),
            ("files refused or cut short, M above 4,096", &REFUSED, &self.refused[1]),
            ("files with settings out of their ranges", &SETTINGS, &self.settings),
        ]
    }

    pub fn print(&self) {
        sorts::print(&self.sorts());
    }

    /// Whether every sort came.
    pub fn all_came(&self) -> bool {
        let some = self.sorts().iter().all(|sorts| sorts.1.len() == sorts.2.len());
        if !some {
            println!("no file of some sorts came");
        }
        sorts::all_came(&self.sorts()) && some
    }
}

fn count(counts: &mut Vec<u64>, names: &[&str], came: Vec<&str>) -> Check {
    counts.resize(names.len(), 0);
    demand(!came.is_empty(), "a file of no sort")?;
    for name in came {
        let at = names.iter().position(|one| *one == name).ok_or(format!("there is no sort '{name}'"))?;
        counts[at] += 1;
    }
    Ok(())
}

/// "Blocks, then pages, each once with its last bytes, rising, then STATE and COMMIT with new counts": and nothing
/// behind it is changed.
fn accepted(kept: &Kept, length: usize) -> Check {
    demand(length <= kept.after.len() && length <= kept.file.len(), "the normal form is too long")?;
    demand(kept.before[length..] == kept.after[length..], "the destination's spare end")?;
    let normal = &kept.after[..length];
    let named = content(kept.s, kept.file);
    demand(content(kept.s, normal) == named, "not the same content")?;
    let (mut in_order, mut one_epoch, mut counts) = (true, true, [0, 0]);
    let (mut last_block, mut written) = (None, [0, 0]);
    let end = walk(kept.s, normal, |found, before| {
        one_epoch &= Some(found.epoch) == named.epoch;
        match found.name {
            Name::Block => {
                in_order &= last_block < Some(found.numbers[0]) && before.pages == 0 && !before.has_state;
                last_block = Some(found.numbers[0]);
                counts[1] += 1;
            }
            Name::Page => {
                in_order &= before.last_page < Some(found.numbers[0]) && !before.has_state;
                counts[0] += 1;
            }
            Name::State => in_order &= !before.has_state,
            Name::Commit => (in_order, written) = (in_order && before.has_state, found.numbers),
        }
    });
    demand(end == (length, End::Commit) && in_order, "the normal form's records")?;
    demand(one_epoch, "the normal form's epochs")?;
    demand(written == counts, "the normal form's counts")
}
