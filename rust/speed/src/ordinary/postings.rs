//! The posting calls over any ordinary table, with any ordinary way to look things up.

use super::checks::{changes, check_present, proper_lists, proper_strip, Lookups, Pair};
use super::storage::Storage;
use super::tables::Table;
use asdrifen::{Head, Told};

/// What a call lends beside the table and the record.
pub struct Order<'a, G> {
    pub changes: &'a [u32],
    pub guards: &'a [G],
    /// The numbers of the guards came in pairs.
    pub whole_guards: bool,
    pub strip: &'a [u8],
}

/// An order whose guards are flat numbers.
pub fn flat_order<'a>(
    changes: &'a [u32],
    guards: &'a [u32],
    strip: &'a [u8],
) -> Order<'a, [u32; 2]> {
    let (pairs, rest) = guards.as_chunks();
    Order {
        changes,
        guards: pairs,
        whole_guards: rest.is_empty(),
        strip,
    }
}

pub fn refusal(answer: u32, named: u32) -> Told {
    Told {
        answer,
        named,
        other: 0,
    }
}

fn accepted(named: u32) -> Told {
    refusal(0, named)
}

fn must(holds: bool, answer: u32) -> Result<(), Told> {
    if holds {
        Ok(())
    } else {
        Err(refusal(answer, 0))
    }
}

/// 1 and 2.
fn check_table(head: Head, table: &impl Table) -> Result<(), Told> {
    must(table.well_formed(head), 1)?;
    must(head.poisoned == 0, 2)
}

/// 1 to 4.
fn check_lent<G>(head: Head, table: &impl Table, order: &Order<G>) -> Result<(), Told> {
    check_table(head, table)?;
    must(proper_lists(order), 3)?;
    must(proper_strip(order.strip), 4)
}

/// 1 to 8.
fn check_prepare<L: Lookups, G: Pair>(
    head: Head,
    table: &impl Table,
    order: &Order<G>,
    record: &[u32],
) -> Result<L::Destinations, Told> {
    check_lent(head, table, order)?;
    must(order.changes.len() / 6 <= record.len(), 5)?;
    L::check_guards(head.bindings, order.changes, order.guards)?;
    let known = L::check_twice(order.changes)?;
    check_present(order.changes, table)?;
    Ok(known)
}

/// Takes the destinations of the changes below one out again, the last first. Whether each removal went well.
fn undo(table: &mut impl Table, list: &[u32], below: usize, storage: &mut Storage) -> bool {
    let mut well = true;
    for change in changes(&list[..below * 6]).rev() {
        let Some(posting) = change.destination() else {
            continue;
        };
        let byte = storage.next();
        if byte != 1 {
            table.remove(posting);
        }
        well &= byte == 0;
    }
    well
}

fn insert_all(table: &mut impl Table, list: &[u32], storage: &mut Storage) -> Result<u32, Told> {
    let mut inserted = 0;
    for (i, change) in changes(list).enumerate() {
        let Some(posting) = change.destination() else {
            continue;
        };
        let why = match storage.next() {
            0 if table.has_room() => {
                table.insert(posting);
                inserted += 1;
                continue;
            }
            0 => 11,
            _ => 10,
        };
        let answer = if undo(table, list, i, storage) {
            why
        } else {
            12
        };
        return Err(refusal(answer, i as u32));
    }
    Ok(inserted)
}

fn remove_all(table: &mut impl Table, list: &[u32], storage: &mut Storage) -> Result<(), Told> {
    for (i, change) in changes(list).enumerate() {
        let Some(posting) = change.source() else {
            continue;
        };
        let byte = storage.next();
        if byte != 1 {
            table.remove(posting);
        }
        if byte != 0 {
            return Err(refusal(13, i as u32));
        }
    }
    Ok(())
}

fn write_record(list: &[u32], record: &mut [u32]) {
    let numbers = changes(list)
        .enumerate()
        .filter(|(_, change)| change.after.is_some())
        .map(|(i, _)| i as u32);
    for (place, number) in record.iter_mut().zip(numbers) {
        *place = number;
    }
}

/// The answer, and the head as the work left it.
fn settle(head: &mut Head, table: &impl Table, outcome: Result<u32, Told>) -> Told {
    let told = outcome.map_or_else(|refused| refused, accepted);
    head.used = table.used() as u32;
    if told.answer == 12 || told.answer == 13 {
        head.poisoned = 1;
    }
    told
}

#[inline(never)]
pub fn publish<L: Lookups, G: Pair>(
    head: &mut Head,
    table: &mut impl Table,
    order: &Order<G>,
    record: &mut [u32],
) -> Told {
    let checked = check_prepare::<L, G>(*head, table, order, record)
        .and_then(|known| L::check_overlap(order.changes, &known));
    if let Err(refused) = checked {
        return refused;
    }
    let mut storage = Storage::new(order.strip);
    let outcome = insert_all(table, order.changes, &mut storage).and_then(|inserted| {
        write_record(order.changes, record);
        remove_all(table, order.changes, &mut storage)?;
        Ok(inserted)
    });
    settle(head, table, outcome)
}

#[inline(never)]
pub fn prepare<L: Lookups, G: Pair>(
    head: &mut Head,
    table: &mut impl Table,
    order: &Order<G>,
    record: &mut [u32],
) -> Told {
    if let Err(refused) = check_prepare::<L, G>(*head, table, order, record) {
        return refused;
    }
    let mut storage = Storage::new(order.strip);
    let outcome = insert_all(table, order.changes, &mut storage);
    if outcome.is_ok() {
        write_record(order.changes, record);
    }
    settle(head, table, outcome)
}

#[inline(never)]
pub fn remove_sources<L: Lookups, G: Pair>(
    head: &mut Head,
    table: &mut impl Table,
    order: &Order<G>,
) -> Told {
    let checked = check_lent(*head, table, order)
        .and_then(|()| L::check_guards(head.bindings, order.changes, order.guards));
    if let Err(refused) = checked {
        return refused;
    }
    let mut storage = Storage::new(order.strip);
    let outcome = remove_all(table, order.changes, &mut storage).map(|()| 0);
    settle(head, table, outcome)
}

#[inline(never)]
pub fn rollback<L: Lookups, G: Pair>(
    head: &mut Head,
    table: &mut impl Table,
    order: &Order<G>,
    record: &[u32],
) -> Told {
    let checked = check_lent(*head, table, order)
        .and_then(|()| L::check_guards(head.bindings, order.changes, order.guards))
        .and_then(|()| L::check_record(order.changes, record));
    if let Err(refused) = checked {
        return refused;
    }
    let mut storage = Storage::new(order.strip);
    let outcome = take_back(table, order.changes, record, &mut storage).map(|()| 0);
    settle(head, table, outcome)
}

/// Takes the destinations of a record out, from its end to its start. A failure is kept, and what comes after goes on.
fn take_back(
    table: &mut impl Table,
    list: &[u32],
    record: &[u32],
    storage: &mut Storage,
) -> Result<(), Told> {
    let mut outcome = Ok(());
    for &number in record.iter().rev() {
        let first = number as usize * 6;
        let Some(posting) = changes(&list[first..first + 6])
            .next()
            .and_then(|change| change.destination())
        else {
            continue;
        };
        let byte = storage.next();
        if byte != 1 {
            table.remove(posting);
        }
        if byte != 0 {
            outcome = Err(refusal(12, number));
        }
    }
    outcome
}

#[inline(never)]
pub fn count(head: Head, table: &impl Table, binding: u32, key: u32) -> Told {
    if let Err(refused) = check_table(head, table) {
        return refused;
    }
    if binding >= head.bindings {
        return refusal(6, 0);
    }
    accepted(table.count(binding, key) as u32)
}

#[inline(always)]
pub fn held<G: Pair>(guards: &[G], binding: u32, key: u32) -> bool {
    guards.iter().any(|guard| guard.pair() == (binding, key))
}

#[inline(always)]
pub fn poison(head: &mut Head) {
    head.poisoned = 1;
}
