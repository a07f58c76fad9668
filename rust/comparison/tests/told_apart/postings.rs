//! Wrong ways to publish, prepare, roll back, remove and count.

use crate::fault::{instead, Fault, Wrong};
use comparison::call::{pairs, Call, Order};
use comparison::draft::{read_changes, Change, Posting};
use model::answers::{
    FULL, GUARD, OVERLAP, POISONED, RECORD, ROOM, SOURCE, STORE, TABLE, TWICE, UNDO,
};
use model::{Head, Told};

const NOTHING: Told = Told {
    answer: 0,
    named: 0,
    other: 0,
};

/// The postings in the used part of the table.
fn has(order: &Order, posting: Option<Posting>) -> bool {
    let found = |numbers: &[u32]| Some((numbers[0], numbers[1], numbers[2])) == posting;
    order.table.chunks(3).any(found)
}

/// Takes over head, table, record and what was told from the model with another order. Lists that
/// were lent to be read stay.
fn redo(call: fn(Order) -> Call, order: Order, told: &mut Told, after: &mut Order) {
    let done = instead(call(order), told);
    let done = done.order().expect("a call on changes");
    after.head = done.head;
    write_front(&mut after.table, &done.table);
    write_front(&mut after.record, &done.record);
}

/// Writes as much as there is room for.
fn write_front(list: &mut [u32], from: &[u32]) {
    list.iter_mut().zip(from).for_each(|(to, from)| *to = *from);
}

/// The same order with another strip, after a prepare of the model.
fn removal_after_prepare(lent: &Order, strip: &[u8], told: &mut Told, after: &mut Order) {
    redo(Call::Prepare, lent.clone(), told, after);
    if told.answer != 0 {
        return;
    }
    let named = told.named;
    let prepared = Order {
        strip: strip.to_vec(),
        ..after.clone()
    };
    redo(Call::Removal, prepared, told, after);
    if told.answer == 0 {
        told.named = named;
    }
}

/// The strip is read from its start again for the source removals.
pub fn strip_from_the_start_again() -> Wrong {
    let fault = Fault::PublishByValue(|lent, told, after| {
        if told.answer == 0 || told.answer == SOURCE {
            removal_after_prepare(lent, &lent.strip, told, after);
        }
    });
    ("the strip is read from its start again", fault)
}

/// The lent head is not written.
pub fn head_not_written() -> Wrong {
    let fault = Fault::Publish(|lent, _, after| after.head = lent.head);
    ("the lent head is not written", fault)
}

/// The record counts changes from 1.
pub fn record_from_one() -> Wrong {
    let fault = Fault::Prepare(|_, told, after| {
        if told.answer == 0 {
            let written = after.record.iter_mut().take(told.named as usize);
            written.for_each(|place| *place += 1);
        }
    });
    ("the record counts from 1", fault)
}

/// A count is always 0.
pub fn always_counts_none() -> Wrong {
    (
        "a count is always 0",
        Fault::Count(|_, told| told.named = 0),
    )
}

/// Steps that are wrong.
pub fn wrong_publishes() -> Vec<Wrong> {
    vec![
        strip_from_the_start_again(),
        head_not_written(),
        (
            "sources go before the destinations come",
            Fault::PublishByValue(|lent, told, after| {
                if told.answer == FULL {
                    redo(Call::Removal, lent.clone(), told, after);
                    redo(Call::Prepare, after.clone(), told, after);
                }
            }),
        ),
        (
            "the record is written although an insertion failed",
            Fault::PublishByValue(|_, told, after| {
                if matches!(told.answer, STORE | FULL | UNDO) && told.named > 0 {
                    after.record[0] = 0;
                }
            }),
        ),
        (
            "the record is taken back when a source stays",
            Fault::PublishByValue(|lent, told, after| {
                if told.answer == SOURCE {
                    after.record.clone_from(&lent.record);
                }
            }),
        ),
        (
            "places behind the record are cleared",
            Fault::PublishByValue(|_, told, after| {
                if told.answer == 0 {
                    after.record[told.named as usize..].fill(0);
                }
            }),
        ),
        (
            "a failed undo does not poison",
            Fault::PublishByValue(|_, told, after| {
                if told.answer == UNDO {
                    after.head.poisoned = 0;
                }
            }),
        ),
        (
            "an undo that left nothing behind does not poison",
            Fault::PublishByValue(|lent, told, after| {
                if told.answer == UNDO && after.table == lent.table {
                    after.head.poisoned = 0;
                }
            }),
        ),
        (
            "a source that stays does not poison",
            Fault::Publish(|_, told, after| {
                if told.answer == SOURCE {
                    after.head.poisoned = 0;
                }
            }),
        ),
        (
            "the undo stops at its first failure",
            Fault::PublishByValue(undo_stops),
        ),
        (
            "a freed place keeps its numbers",
            Fault::PublishByValue(|lent, _, after| {
                if after.head.used < lent.head.used {
                    let freed = 3 * after.head.used as usize;
                    after.table[freed] = 1;
                }
            }),
        ),
        (
            "accepted names the number of changes",
            Fault::PublishByValue(|lent, told, _| {
                if told.answer == 0 {
                    told.named = (lent.changes.len() / 6) as u32;
                }
            }),
        ),
        (
            "room is looked at before the byte",
            Fault::PublishByValue(|lent, told, _| {
                if told.answer == STORE && lent.head.used as usize == lent.table.len() / 3 {
                    told.answer = FULL;
                }
            }),
        ),
        (
            "full names the change before",
            Fault::PublishByValue(|_, told, _| {
                if told.answer == FULL {
                    told.named = told.named.saturating_sub(1);
                }
            }),
        ),
    ]
}

/// Of the undo only the removals up to the first that fails are made.
fn undo_stops(lent: &Order, told: &mut Told, after: &mut Order) {
    if told.answer != UNDO {
        return;
    }
    let right = *told;
    let inserted = Order {
        changes: lent.changes[..6 * told.named as usize].to_vec(),
        strip: vec![],
        ..lent.clone()
    };
    redo(Call::Prepare, inserted.clone(), told, after);
    let count = told.named as usize;
    let undo = &lent.strip[count + 1..];
    let made = undo.iter().position(|&byte| byte > 0).unwrap_or(0) + 1;
    let rollback = Order {
        head: after.head,
        table: after.table.clone(),
        strip: undo.to_vec(),
        record: after.record[count - made..count].to_vec(),
        ..inserted
    };
    redo(Call::Rollback, rollback, told, after);
    after.record.clone_from(&lent.record);
    *told = right;
}

/// Checks that are wrong or stand in the wrong order.
pub fn wrong_checks() -> Vec<Wrong> {
    vec![
        (
            "only a change's own destination counts for overlap",
            Fault::PublishByValue(|lent, told, after| {
                let own =
                    |change: &Change| change.before.is_some() && change.before == change.after;
                if told.answer == OVERLAP && !read_changes(&lent.changes).iter().any(own) {
                    removal_after_prepare(lent, &[], told, after);
                }
            }),
        ),
        (
            "overlap names the change with the destination",
            Fault::PublishByValue(|lent, told, _| {
                if told.answer == OVERLAP {
                    let changes = read_changes(&lent.changes);
                    let source = changes[told.named as usize].source();
                    let place = changes
                        .iter()
                        .position(|change| change.destination() == source);
                    told.named = place.expect("a destination") as u32;
                }
            }),
        ),
        (
            "twice finds the pair with the least earlier change",
            Fault::PublishByValue(|lent, told, _| {
                if told.answer == TWICE {
                    (told.named, told.other) = earliest_pair(&read_changes(&lent.changes));
                }
            }),
        ),
        (
            "a place is asked for each destination only",
            Fault::PublishByValue(|lent, told, after| {
                if told.answer == ROOM {
                    let mut order = lent.clone();
                    order.record.resize(256, 0);
                    redo(Call::PublishByValue, order, told, after);
                }
            }),
        ),
        (
            "the keys before are not asked for",
            Fault::PublishByValue(|lent, told, after| {
                if told.answer == GUARD {
                    let mut order = lent.clone();
                    let changes = read_changes(&lent.changes);
                    let sources = changes.iter().filter_map(Change::source);
                    let guards = sources.flat_map(|(binding, key, _)| [binding, key]);
                    order.guards.extend(guards.take(600));
                    redo(Call::PublishByValue, order, told, after);
                }
            }),
        ),
        (
            "the last byte of the strip is not judged",
            Fault::PublishByValue(|lent, told, after| {
                let mut order = lent.clone();
                if let Some(last) = order.strip.last_mut() {
                    *last = (*last).min(2);
                    redo(Call::PublishByValue, order, told, after);
                }
            }),
        ),
        (
            "a key without its flag is overlooked",
            Fault::PublishByValue(|lent, told, after| {
                let mut order = lent.clone();
                for change in order.changes.chunks_exact_mut(6) {
                    change[3] *= change[2].min(1);
                    change[5] *= change[4].min(1);
                }
                redo(Call::PublishByValue, order, told, after);
            }),
        ),
        (
            "poison is looked at before the table",
            Fault::PublishByValue(|lent, told, _| {
                if told.answer == TABLE && lent.head.poisoned == 1 {
                    told.answer = POISONED;
                }
            }),
        ),
        (
            "guards are looked at before the room for the record",
            Fault::PublishByValue(|lent, told, _| {
                let mut other = NOTHING;
                instead(Call::Removal(lent.clone()), &mut other);
                if told.answer == ROOM && other.answer == GUARD {
                    *told = other;
                }
            }),
        ),
    ]
}

fn earliest_pair(changes: &[Change]) -> (u32, u32) {
    for first in 0..changes.len() {
        for second in first + 1..changes.len() {
            let destination = changes[first].destination();
            if destination.is_some() && destination == changes[second].destination() {
                return (first as u32, second as u32);
            }
        }
    }
    panic!("no pair");
}

/// Limits that are off by one, and tables that are taken as they come.
pub fn wrong_limits() -> Vec<Wrong> {
    vec![
        (
            "257 changes are taken",
            Fault::PublishByValue(|lent, told, after| {
                if lent.changes.len() == 6 * 257 {
                    let mut order = lent.clone();
                    order.changes.truncate(6 * 256);
                    redo(Call::PublishByValue, order, told, after);
                }
            }),
        ),
        (
            "1,025 guards are taken",
            Fault::Publish(|lent, told, after| {
                if pairs(&lent.guards).len() == 1_025 {
                    let mut order = lent.clone();
                    order.guards.truncate(2 * 1_024);
                    redo(Call::Publish, order, told, after);
                }
            }),
        ),
        (
            "1,024 guards are too many",
            Fault::Publish(|lent, told, after| {
                if pairs(&lent.guards).len() == 1_024 {
                    let mut order = lent.clone();
                    order.guards.extend([0, 0]);
                    redo(Call::Publish, order, told, after);
                }
            }),
        ),
        (
            "half a guard is overlooked",
            Fault::PublishByValue(|lent, told, after| {
                let mut order = lent.clone();
                order.guards.truncate(lent.guards.len() / 2 * 2);
                redo(Call::PublishByValue, order, told, after);
            }),
        ),
        (
            "1,025 bytes are taken",
            Fault::PublishByValue(|lent, told, after| {
                if lent.strip.len() == 1_025 {
                    let mut order = lent.clone();
                    order.strip.truncate(1_024);
                    redo(Call::PublishByValue, order, told, after);
                }
            }),
        ),
        (
            "4,097 postings are taken",
            Fault::PublishByValue(|lent, told, after| {
                if lent.table.len() == 3 * 4_097 {
                    let mut order = lent.clone();
                    order.table.truncate(3 * 4_096);
                    redo(Call::PublishByValue, order, told, after);
                }
            }),
        ),
        (
            "65 bindings are taken",
            Fault::PublishByValue(|lent, told, after| {
                if lent.head.bindings == 65 {
                    let mut order = lent.clone();
                    order.head.bindings = 64;
                    redo(Call::PublishByValue, order, told, after);
                    after.head.bindings = 65;
                }
            }),
        ),
        (
            "a flag of 2 is taken for poison",
            Fault::PublishByValue(|lent, told, _| {
                if told.answer == TABLE && lent.head.poisoned == 2 {
                    told.answer = POISONED;
                }
            }),
        ),
        (
            "free places are not looked at",
            Fault::PublishByValue(|lent, told, after| {
                let used = 3 * lent.head.used.min(5_000) as usize;
                if told.answer == TABLE && used < lent.table.len() {
                    let mut order = lent.clone();
                    order.table[used..].fill(0);
                    redo(Call::PublishByValue, order, told, after);
                }
            }),
        ),
        (
            "the order of the postings is not looked at",
            Fault::Count(|lent, told| {
                let mut postings: Vec<&[u32]> = lent.table.chunks(3).collect();
                let used = postings.len().min(lent.head.used as usize);
                postings[..used].sort();
                *told = model::count(lent.head, &postings.concat(), lent.binding, lent.key);
            }),
        ),
    ]
}

/// Wrong ways to prepare, to roll back and to remove.
pub fn wrong_parts() -> Vec<Wrong> {
    vec![
        record_from_one(),
        (
            "prepare refuses overlap",
            Fault::Prepare(|lent, told, after| {
                let mut published = NOTHING;
                instead(Call::PublishByValue(lent.clone()), &mut published);
                if published.answer == OVERLAP {
                    (*told, *after) = (published, lent.clone());
                }
            }),
        ),
        (
            "rollback goes up its record",
            Fault::Rollback(|lent, told, after| {
                if told.answer != RECORD {
                    let mut order = lent.clone();
                    order.record.reverse();
                    redo(Call::Rollback, order, told, after);
                    after.record.clone_from(&lent.record);
                }
            }),
        ),
        (
            "rollback stops at its first failure",
            Fault::Rollback(|lent, told, after| {
                if told.answer == UNDO {
                    let failed = lent.strip.iter().position(|&byte| byte > 0);
                    let made = failed.expect("a failure") + 1;
                    let mut order = lent.clone();
                    order.record.drain(..lent.record.len() - made);
                    redo(Call::Rollback, order, told, after);
                    after.record.clone_from(&lent.record);
                }
            }),
        ),
        (
            "rollback names the change of its first failure",
            Fault::Rollback(|lent, told, _| {
                if told.answer == UNDO {
                    let failed = lent.strip.iter().position(|&byte| byte > 0);
                    let place = lent.record.len() - 1 - failed.expect("a failure");
                    told.named = lent.record[place];
                }
            }),
        ),
        (
            "a bad record names the number at the place",
            Fault::Rollback(|lent, told, _| {
                if told.answer == RECORD {
                    told.named = lent.record[told.named as usize];
                }
            }),
        ),
        (
            "a repeated number of the record is overlooked",
            Fault::Rollback(|lent, told, after| {
                if told.answer == RECORD {
                    let mut order = lent.clone();
                    order.record.sort();
                    order.record.dedup();
                    redo(Call::Rollback, order, told, after);
                    after.record.clone_from(&lent.record);
                }
            }),
        ),
        (
            "removal goes on after a failure",
            Fault::Removal(|_, told, after| {
                if told.answer == SOURCE {
                    let mut rest = after.clone();
                    rest.changes.drain(..6 * (told.named as usize + 1));
                    rest.strip.clear();
                    rest.head.poisoned = 0;
                    redo(Call::Removal, rest, &mut told.clone(), after);
                    after.head.poisoned = 1;
                }
            }),
        ),
        (
            "the removal of an absent posting never fails",
            Fault::Removal(|lent, told, after| {
                if told.answer == SOURCE {
                    let change = read_changes(&lent.changes)[told.named as usize];
                    if !has(lent, change.source()) {
                        let mut order = lent.clone();
                        order.strip.clear();
                        redo(Call::Removal, order, told, after);
                    }
                }
            }),
        ),
        (
            "a change without a source reads a byte",
            Fault::Removal(|lent, told, after| {
                let changes = read_changes(&lent.changes);
                let idle = changes.iter().take_while(|change| change.before.is_none());
                let mut order = lent.clone();
                order.strip.drain(..idle.count().min(lent.strip.len()));
                if told.answer == SOURCE {
                    redo(Call::Removal, order, told, after);
                }
            }),
        ),
    ]
}

/// Wrong ways to count.
pub fn wrong_counts() -> Vec<Wrong> {
    vec![
        always_counts_none(),
        poisoned_counted(),
        (
            "an unknown binding counts as 0",
            Fault::Count(|_, told| {
                if told.answer == GUARD {
                    told.answer = 0;
                }
            }),
        ),
        (
            "an unknown binding is named",
            Fault::Count(|lent, told| {
                if told.answer == GUARD {
                    told.named = lent.binding;
                }
            }),
        ),
        (
            "the binding is looked at before poison",
            Fault::Count(|lent, told| {
                if told.answer == POISONED && lent.binding >= lent.head.bindings {
                    told.answer = GUARD;
                }
            }),
        ),
        (
            "a key is counted in every binding",
            Fault::Count(|lent, told| {
                if told.answer == 0 {
                    let of = |binding| model::count(lent.head, &lent.table, binding, lent.key);
                    told.named = (0..lent.head.bindings)
                        .map(|binding| of(binding).named)
                        .sum();
                }
            }),
        ),
    ]
}

fn poisoned_counted() -> Wrong {
    let fault = Fault::Count(|lent, told| {
        if told.answer == POISONED {
            let head = Head {
                poisoned: 0,
                ..lent.head
            };
            *told = model::count(head, &lent.table, lent.binding, lent.key);
        }
    });
    ("a poisoned table is counted", fault)
}

/// Faults that the histories alone have to see.
pub fn wrong_histories() -> Vec<Wrong> {
    vec![
        always_counts_none(),
        head_not_written(),
        poisoned_counted(),
        (
            "a failed undo does not poison",
            Fault::Publish(|_, told, after| {
                if told.answer == UNDO {
                    after.head.poisoned = 0;
                }
            }),
        ),
        (
            "a failed source removal is told as accepted",
            Fault::PublishByValue(|_, told, after| {
                if told.answer == SOURCE {
                    told.answer = 0;
                    after.head.poisoned = 0;
                }
            }),
        ),
        (
            "a clean undo leaves a posting behind",
            Fault::PublishByValue(|lent, told, after| {
                if told.answer == STORE && told.named > 0 {
                    let mut first = lent.clone();
                    first.changes.truncate(6);
                    first.strip.clear();
                    redo(Call::Prepare, first, &mut told.clone(), after);
                }
            }),
        ),
        (
            "publish always accepts",
            Fault::PublishByValue(|_, told, _| told.answer = 0),
        ),
        (
            "publish changes nothing",
            Fault::PublishByValue(|lent, _, after| *after = lent.clone()),
        ),
        (
            "a record depends on the strip",
            Fault::Publish(|lent, told, after| {
                if told.answer == 0 && !lent.strip.is_empty() {
                    after.record.fill(9);
                }
            }),
        ),
    ]
}
