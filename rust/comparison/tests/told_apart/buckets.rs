//! Wrong bucket engines, guards, poison flags and stamp tests.

use crate::fault::{instead, Fault, Wrong};
use comparison::call::{Buckets, Call};
use model::answers::{ELEMENT, LIMIT, SPACE};
use model::Told;

fn words(buckets: u32) -> usize {
    (buckets as usize).div_ceil(32)
}

/// The elements that are not below the bucket count.
fn bad_elements(lent: &Buckets) -> Vec<u32> {
    let bad = |element: &u32| *element >= lent.buckets;
    lent.input.iter().copied().filter(bad).collect()
}

/// Takes over what was told and as much of the output as there is room for.
fn redo(lent: Buckets, told: &mut Told, after: &mut Buckets) {
    if let Call::Sort(done) = instead(Call::Sort(lent), told) {
        let places = after.output.iter_mut().zip(done.output);
        places.for_each(|(to, from)| *to = from);
    }
}

/// The sort engine clears the output behind what it wrote.
pub fn output_cleared() -> Wrong {
    let fault = Fault::Sort(|_, told, after| {
        if told.answer == 0 {
            after.output[told.named as usize..].fill(0);
        }
    });
    ("the rest of the output is cleared", fault)
}

/// Only the binding of a guard is looked at.
pub fn binding_alone() -> Wrong {
    let fault = Fault::Held(|lent| {
        let mut guards = lent.guards.iter();
        guards.any(|guard| guard.binding == lent.binding)
    });
    ("only the binding is looked at", fault)
}

/// Wrong sort engines.
pub fn wrong_sorts() -> Vec<Wrong> {
    vec![
        output_cleared(),
        (
            "the last bad element is named",
            Fault::Sort(|lent, told, _| {
                if told.answer == ELEMENT {
                    told.named = *bad_elements(lent).last().expect("a bad element");
                }
            }),
        ),
        (
            "the least bad element is named",
            Fault::Sort(|lent, told, _| {
                if told.answer == ELEMENT {
                    told.named = *bad_elements(lent).iter().min().expect("a bad element");
                }
            }),
        ),
        (
            "the output is written before a bad element is found",
            Fault::Sort(|lent, told, after| {
                if told.answer == ELEMENT && lent.input[0] < lent.buckets {
                    after.output[0] = lent.input[0];
                }
            }),
        ),
        (
            "room is asked for the distinct elements only",
            Fault::Sort(|lent, told, after| {
                if told.answer == SPACE {
                    let mut other = lent.clone();
                    other.output.resize(4_096, 0);
                    let mut more = *told;
                    redo(other.clone(), &mut more, &mut other.clone());
                    if more.answer == 0 && more.named as usize <= lent.output.len() {
                        redo(other, told, after);
                    }
                }
            }),
        ),
        (
            "room is asked for the whole input",
            Fault::Sort(|lent, told, after| {
                if told.answer != LIMIT && lent.output.len() < lent.input.len() {
                    (told.answer, told.named) = (SPACE, 0);
                    *after = lent.clone();
                }
            }),
        ),
        (
            "4,097 elements are taken",
            Fault::Sort(|lent, told, after| {
                if lent.input.len() == 4_097 {
                    let mut other = lent.clone();
                    other.input.pop();
                    redo(other, told, after);
                }
            }),
        ),
        (
            "65,537 buckets are taken",
            Fault::Sort(|lent, told, after| {
                if lent.buckets == 65_537 {
                    let mut other = lent.clone();
                    other.buckets = 65_536;
                    redo(other, told, after);
                }
            }),
        ),
        (
            "65,536 buckets are too many",
            Fault::Sort(|lent, told, after| {
                if lent.buckets == 65_536 {
                    (told.answer, told.named) = (LIMIT, 0);
                    *after = lent.clone();
                }
            }),
        ),
        (
            "repeats are counted",
            Fault::Sort(|lent, told, _| {
                if told.answer == 0 {
                    told.named = lent.input.len() as u32;
                }
            }),
        ),
        (
            "the output descends",
            Fault::Sort(|_, told, after| {
                if told.answer == 0 {
                    after.output[..told.named as usize].reverse();
                }
            }),
        ),
    ]
}

/// Wrong bitmap engines.
pub fn wrong_bitmaps() -> Vec<Wrong> {
    vec![
        (
            "old bits of the scratch stay",
            Fault::Bitmap(|lent, _, after| {
                let places = after.scratch.iter_mut().zip(&lent.scratch);
                places.for_each(|(word, old)| *word |= old);
            }),
        ),
        (
            "bits at or above the count stay",
            Fault::Bitmap(|lent, told, after| {
                let over = lent.buckets % 32;
                if told.answer == 0 && over > 0 {
                    let last = words(lent.buckets) - 1;
                    after.scratch[last] |= lent.scratch[last] >> over << over;
                }
            }),
        ),
        (
            "the rest of the scratch is cleared",
            Fault::Bitmap(|lent, told, after| {
                if told.answer == 0 {
                    after.scratch[words(lent.buckets)..].fill(0);
                }
            }),
        ),
        (
            "the scratch is cleared before a bad element is found",
            Fault::Bitmap(|lent, told, after| {
                if told.answer == ELEMENT {
                    after.scratch[..words(lent.buckets)].fill(0);
                }
            }),
        ),
        (
            "the scratch's room is rounded down",
            Fault::Bitmap(|lent, told, after| {
                let need = lent.buckets as usize / 32;
                if told.answer == SPACE && lent.scratch.len() == need {
                    let mut other = lent.clone();
                    other.scratch.push(0);
                    if let Call::Bitmap(done) = instead(Call::Bitmap(other), told) {
                        after.output = done.output;
                    }
                }
            }),
        ),
        (
            "elements are looked at before the room",
            Fault::Bitmap(|lent, told, _| {
                let bad = bad_elements(lent);
                if told.answer == SPACE && !bad.is_empty() {
                    (told.answer, told.named) = (ELEMENT, bad[0]);
                }
            }),
        ),
        (
            "the highest bit of a word is lost",
            Fault::Bitmap(|lent, told, after| {
                if told.answer == 0 {
                    let places = after.scratch.iter_mut().take(words(lent.buckets));
                    places.for_each(|word| *word &= u32::MAX >> 1);
                }
            }),
        ),
    ]
}

/// Wrong guards, poison flags and stamp tests.
pub fn wrong_guards_and_stamps() -> Vec<Wrong> {
    vec![
        binding_alone(),
        (
            "only 1,024 guards are looked at",
            Fault::Held(|lent| {
                let seen = lent.guards.len().min(1_024);
                model::held(&lent.guards[..seen], lent.binding, lent.key)
            }),
        ),
        (
            "the last guard is overlooked",
            Fault::Held(|lent| {
                let seen = lent.guards.len().saturating_sub(1);
                model::held(&lent.guards[..seen], lent.binding, lent.key)
            }),
        ),
        (
            "binding and key are mixed up",
            Fault::Held(|lent| model::held(&lent.guards, lent.key, lent.binding)),
        ),
        (
            "a flag of 2 stays",
            Fault::Poison(|lent, after| after.poisoned = lent.poisoned.max(1)),
        ),
        (
            "poison takes the postings away",
            Fault::Poison(|_, after| after.used = 0),
        ),
        (
            "an equal stamp precedes",
            Fault::Stamp(|stamp, snapshot| stamp <= snapshot),
        ),
        (
            "stamps have a sign",
            Fault::Stamp(|stamp, snapshot| (stamp as i64) < (snapshot as i64)),
        ),
        (
            "stamps have 32 bits",
            Fault::Stamp(|stamp, snapshot| (stamp as u32) < (snapshot as u32)),
        ),
        (
            "stamps wrap",
            Fault::Stamp(|stamp, snapshot| (snapshot.wrapping_sub(stamp) as i64) > 0),
        ),
    ]
}
