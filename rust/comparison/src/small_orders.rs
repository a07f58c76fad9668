//! All small orders: every one of them within tiny bounds.

use crate::call::{Call, Counting, Order};
use crate::compare::{Compared, Comparison};
use crate::draft::{flat_changes, flat_table, Change, Posting};
use crate::orders::calls_of;
use model::Head;
use std::collections::BTreeSet;

/// What stands in the places of a record list before a call.
const STALE: u32 = 77;

/// All lists of exactly this length over these items.
pub fn lists_of<Item: Copy>(items: &[Item], length: usize) -> Vec<Vec<Item>> {
    let mut lists = vec![Vec::new()];
    for _ in 0..length {
        lists = lists
            .iter()
            .flat_map(|list| items.iter().map(|&item| [&list[..], &[item]].concat()))
            .collect();
    }
    lists
}

/// All lists up to this length over these items.
pub fn lists_up_to<Item: Copy>(items: &[Item], length: usize) -> Vec<Vec<Item>> {
    let lengths = 0..=length;
    lengths.flat_map(|length| lists_of(items, length)).collect()
}

/// All sets of at most two of these items.
fn sets_of_two<Item: Copy + Ord>(items: &[Item]) -> BTreeSet<BTreeSet<Item>> {
    lists_up_to(items, 2)
        .into_iter()
        .map(|list| list.into_iter().collect())
        .collect()
}

/// The four postings of binding 0 with keys and rows 0 and 1.
const POSTINGS: [Posting; 4] = [(0, 0, 0), (0, 0, 1), (0, 1, 0), (0, 1, 1)];

/// The keys that a change may name.
const KEYS: [Option<u32>; 3] = [None, Some(0), Some(1)];

/// All changes of these bindings with keys and rows 0 and 1.
fn changes_of(bindings: &[u32]) -> Vec<Change> {
    let mut changes = Vec::new();
    for &binding in bindings {
        for row in [0, 1] {
            for before in KEYS {
                for after in KEYS {
                    changes.push(Change {
                        binding,
                        row,
                        before,
                        after,
                    });
                }
            }
        }
    }
    changes
}

/// The guards of keys 0 and 1 of bindings 0 and 1.
const GUARDS: [u32; 8] = [0, 0, 0, 1, 1, 0, 1, 1];

/// An order on these postings with so many free places. The record has a place for each change.
fn order_on(postings: &BTreeSet<Posting>, free: usize, changes: &[Change], strip: &[u8]) -> Order {
    Order {
        head: Head {
            bindings: 1,
            used: postings.len() as u32,
            poisoned: 0,
        },
        table: flat_table(postings, postings.len() + free),
        changes: flat_changes(changes),
        guards: GUARDS.to_vec(),
        strip: strip.to_vec(),
        record: vec![STALE; changes.len()],
    }
}

/// One change: all changes, all tables of up to two postings, full or with a free place, and all
/// strips of up to two bytes. No step can read a third.
pub fn one_change(comparison: &mut Comparison) -> Compared {
    let strips = lists_up_to(&[0, 1, 2], 2);
    for change in changes_of(&[0, 1]) {
        for postings in sets_of_two(&POSTINGS) {
            for free in [0, 1] {
                for strip in &strips {
                    let order = order_on(&postings, free, &[change], strip);
                    let mut rollback = order.clone();
                    rollback.record = vec![0];
                    comparison.check_all("one change", &calls_of(&order, rollback))?;
                }
            }
        }
    }
    Ok(())
}

/// One change as bare numbers: flags 0 to 2 with keys 0 and 1, and all sets of held guards.
pub fn one_change_of_bare_numbers(comparison: &mut Comparison) -> Compared {
    let held = lists_of(&[false, true], 4);
    for numbers in bare_changes() {
        for held in &held {
            for used in [0, 1] {
                let postings = POSTINGS[3..3 + used].iter().copied().collect();
                let mut order = order_on(&postings, 1, &[], &[]);
                order.changes = numbers.clone();
                order.record = vec![STALE];
                order.guards = held_guards(held);
                let mut rollback = order.clone();
                rollback.record = vec![0];
                comparison.check_all("bare change", &calls_of(&order, rollback))?;
            }
        }
    }
    Ok(())
}

/// Binding, row, flag, key, flag, key: all within small numbers.
fn bare_changes() -> Vec<Vec<u32>> {
    let flag_and_key = lists_of(&[0, 1, 2], 2);
    let mut changes = Vec::new();
    for start in lists_of(&[0, 1], 2) {
        for before in &flag_and_key {
            for after in &flag_and_key {
                changes.push([&start[..], before, after].concat());
            }
        }
    }
    changes
}

fn held_guards(held: &[bool]) -> Vec<u32> {
    let pairs = GUARDS.chunks(2).zip(held);
    pairs
        .filter(|(_, &held)| held)
        .flat_map(|(pair, _)| pair.to_vec())
        .collect()
}

/// Whether the answer was found before the first step, so that the strip has no part in it.
fn refused_at_entry(answer: u32) -> bool {
    matches!(answer, 1..=9 | 14)
}

/// Makes the call with each strip, or with the first two if it is refused before the first step.
fn check_with_strips(
    comparison: &mut Comparison,
    order: &Order,
    strips: &[Vec<u8>],
    call: fn(Order) -> Call,
) -> Compared {
    let mut refusals = 0;
    for strip in strips {
        let mut order = order.clone();
        order.strip.clone_from(strip);
        let told = comparison.check("two changes", &call(order))?;
        refusals += usize::from(refused_at_entry(told.answer));
        if refusals == 2 {
            return Ok(());
        }
    }
    Ok(())
}

/// All pairs of changes of binding 0.
fn two_changes() -> Vec<Vec<Change>> {
    lists_of(&changes_of(&[0]), 2)
}

/// Publish and prepare with two changes: all pairs, all tables of up to two postings with up to two
/// free places, and all strips. No publish of two changes reads a fifth byte.
pub fn two_changes_published(comparison: &mut Comparison) -> Compared {
    let strips = lists_of(&[0, 1, 2], 4);
    let short = lists_of(&[0, 1, 2], 3);
    for changes in two_changes() {
        for postings in sets_of_two(&POSTINGS) {
            for free in [0, 1, 2] {
                let order = order_on(&postings, free, &changes, &[]);
                check_with_strips(comparison, &order, &strips, Call::PublishByValue)?;
                check_with_strips(comparison, &order, &short, Call::Prepare)?;
            }
        }
    }
    Ok(())
}

/// Removal and rollback with two changes: all pairs, all tables of up to two postings, all records
/// of up to two numbers below 3, and all strips of two bytes.
pub fn two_changes_removed(comparison: &mut Comparison) -> Compared {
    let strips = lists_of(&[0, 1, 2], 2);
    let records = lists_up_to(&[0, 1, 2], 2);
    for changes in two_changes() {
        for postings in sets_of_two(&POSTINGS) {
            let mut order = order_on(&postings, 0, &changes, &[]);
            check_with_strips(comparison, &order, &strips, Call::Removal)?;
            for record in &records {
                order.record.clone_from(record);
                check_with_strips(comparison, &order, &strips, Call::Rollback)?;
            }
        }
    }
    Ok(())
}

/// All heads of small numbers.
fn small_heads() -> Vec<Head> {
    let head = |numbers: Vec<u32>| Head {
        bindings: numbers[0],
        used: numbers[1],
        poisoned: numbers[2],
    };
    lists_of(&[0, 1, 2, 3], 3).into_iter().map(head).collect()
}

/// All tables of up to seven numbers 0 and 1 under all small heads: well formed or not.
pub fn small_tables(comparison: &mut Comparison) -> Compared {
    let changes = flat_changes(&[Change::bringing((0, 2, 2))]);
    for table in lists_up_to(&[0, 1], 7) {
        for head in small_heads() {
            let order = Order {
                head,
                table: table.clone(),
                changes: changes.clone(),
                guards: vec![0, 2],
                strip: vec![],
                record: vec![0],
            };
            let origin = "small table";
            comparison.check_all(origin, &calls_of(&order, order.clone()))?;
            comparison.check_all(origin, &small_counts(&order))?;
        }
    }
    Ok(())
}

/// Counts of bindings and keys 0 and 1.
fn small_counts(order: &Order) -> Vec<Call> {
    let count = |numbers: Vec<u32>| {
        Call::Count(Counting {
            head: order.head,
            table: order.table.clone(),
            binding: numbers[0],
            key: numbers[1],
        })
    };
    lists_of(&[0, 1], 2).into_iter().map(count).collect()
}
