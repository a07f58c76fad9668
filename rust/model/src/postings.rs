//! The posting table: prepare, rollback, source removal, publish, count, and the held guards.
//!
//! A call first judges what it was lent, one check after another. Each check looks at the whole of
//! a list before the next one begins, and the first that applies is the answer. Only then do the
//! steps begin, on a set of postings. At the end the set is written back in order, with zeros
//! behind it.

use crate::{answers, number, Told};
use std::collections::BTreeSet;

/// A posting: binding, key and row, in the order by which the table ascends.
type Posting = (u32, u32, u32);

/// The numbers of one posting in a table.
const POSTING_NUMBERS: usize = 3;
/// The numbers of one change in a list.
const CHANGE_NUMBERS: usize = 6;
/// The numbers of one guard in a flat list.
const GUARD_NUMBERS: usize = 2;
/// The longest table.
const TABLE_LIMIT: usize = 12_288;
/// The most bindings.
const BINDING_LIMIT: u32 = 64;
/// The most changes in a list.
const CHANGE_LIMIT: usize = 256;
/// The most guards in a list.
const GUARD_LIMIT: usize = 1_024;
/// The longest strip.
pub(crate) const STRIP_LIMIT: usize = 1_024;
/// The largest byte of a strip.
pub(crate) const LARGEST_BYTE: u8 = 2;

/// The head of a table.
#[derive(Clone, Copy, Debug, PartialEq, Eq)]
pub struct Head {
    /// How many bindings there are.
    pub bindings: u32,
    /// How many postings the table holds.
    pub used: u32,
    /// 1 once an index is in doubt, otherwise 0.
    pub poisoned: u32,
}

/// A guard: the right to change the postings of one key of one binding.
#[derive(Clone, Copy, Debug, PartialEq, Eq)]
pub struct Guard {
    /// The binding.
    pub binding: u32,
    /// The key.
    pub key: u32,
}

/// The head after a call, and what the call tells.
#[derive(Clone, Copy, Debug, PartialEq, Eq)]
pub struct Done {
    /// The head after the call.
    pub head: Head,
    /// What the call tells.
    pub told: Told,
}

/// One change of a list: a row leaves one key, enters another, or both.
#[derive(Clone, Copy)]
struct Change {
    binding: u32,
    row: u32,
    before: Option<u32>,
    after: Option<u32>,
}

impl Change {
    /// The posting that this change takes away.
    fn source(&self) -> Option<Posting> {
        self.before.map(|key| (self.binding, key, self.row))
    }

    /// The posting that this change brings.
    fn destination(&self) -> Option<Posting> {
        self.after.map(|key| (self.binding, key, self.row))
    }
}

/// The table as a set, and the storage beneath it that does what the strip says.
struct Storage<'strip> {
    postings: BTreeSet<Posting>,
    capacity: usize,
    strip: std::slice::Iter<'strip, u8>,
}

impl Storage<'_> {
    /// Each insertion and each removal reads one byte. Behind the end of the strip there are zeros.
    fn next_byte(&mut self) -> u8 {
        self.strip.next().copied().unwrap_or(0)
    }

    /// Byte 0 inserts, or finds the table full. Any other byte fails. A failure changes nothing.
    /// It says why it failed: as STORE or as FULL.
    fn insert(&mut self, posting: Posting) -> Result<(), u32> {
        if self.next_byte() != 0 {
            return Err(answers::STORE);
        }
        if self.postings.len() == self.capacity {
            return Err(answers::FULL);
        }
        self.postings.insert(posting);
        Ok(())
    }

    /// Byte 0 removes, and an absent posting is no fault. Byte 1 fails and changes nothing. Byte 2
    /// fails with the posting gone. It says whether it went well.
    fn remove(&mut self, posting: Posting) -> bool {
        let byte = self.next_byte();
        if byte != 1 {
            self.postings.remove(&posting);
        }
        byte == 0
    }
}

// What is lent, read and judged.

/// TABLE: the postings of a well-formed table under a well-formed head.
///
/// The length is a multiple of three and within its limit; so is the number of bindings; the flag
/// is 0 or 1; the postings in use fit, ascend strictly and name bindings that exist; all behind is
/// 0.
fn read_table(head: Head, table: &[u32]) -> Result<BTreeSet<Posting>, Told> {
    let bad = Err(Told::refused(answers::TABLE));
    if !table.len().is_multiple_of(POSTING_NUMBERS) || table.len() > TABLE_LIMIT {
        return bad;
    }
    if head.bindings > BINDING_LIMIT || head.poisoned > 1 {
        return bad;
    }
    let capacity = table.len() / POSTING_NUMBERS;
    if head.used as usize > capacity {
        return bad;
    }
    let (in_use, free) = table.split_at(head.used as usize * POSTING_NUMBERS);
    let postings: Vec<Posting> = in_use
        .chunks(POSTING_NUMBERS)
        .map(|numbers| (numbers[0], numbers[1], numbers[2]))
        .collect();
    let ascending = postings.windows(2).all(|pair| pair[0] < pair[1]);
    let known = postings.iter().all(|posting| posting.0 < head.bindings);
    let clear = free.iter().all(|&number| number == 0);
    if ascending && known && clear {
        Ok(postings.into_iter().collect())
    } else {
        bad
    }
}

/// POISONED: a table in doubt is not worked on.
fn not_poisoned(head: Head) -> Result<(), Told> {
    if head.poisoned == 0 {
        Ok(())
    } else {
        Err(Told::refused(answers::POISONED))
    }
}

/// A flag and its key: flag 1 gives the key, flag 0 with key 0 gives none, all else is ill formed.
fn read_key(flag: u32, key: u32) -> Result<Option<u32>, Told> {
    match (flag, key) {
        (1, key) => Ok(Some(key)),
        (0, 0) => Ok(None),
        _ => Err(Told::refused(answers::LIST)),
    }
}

/// One change: binding, row, before flag, before key, after flag, after key.
fn read_change(numbers: &[u32]) -> Result<Change, Told> {
    Ok(Change {
        binding: numbers[0],
        row: numbers[1],
        before: read_key(numbers[2], numbers[3])?,
        after: read_key(numbers[4], numbers[5])?,
    })
}

/// LIST, first half: six numbers to a change, all well formed, and not too many.
fn read_changes(changes: &[u32]) -> Result<Vec<Change>, Told> {
    if !changes.len().is_multiple_of(CHANGE_NUMBERS)
        || changes.len() / CHANGE_NUMBERS > CHANGE_LIMIT
    {
        return Err(Told::refused(answers::LIST));
    }
    changes.chunks(CHANGE_NUMBERS).map(read_change).collect()
}

/// LIST, second half: two numbers to a guard, and not too many. Order and repeats do not matter.
fn read_guards(guards: &[u32]) -> Result<BTreeSet<(u32, u32)>, Told> {
    if !guards.len().is_multiple_of(GUARD_NUMBERS) || guards.len() / GUARD_NUMBERS > GUARD_LIMIT {
        return Err(Told::refused(answers::LIST));
    }
    let pairs = guards.chunks(GUARD_NUMBERS);
    Ok(pairs.map(|numbers| (numbers[0], numbers[1])).collect())
}

/// STRIP: not too long, and every byte is 0, 1 or 2, also one that no step would reach.
fn good_strip(strip: &[u8]) -> Result<(), Told> {
    if strip.len() <= STRIP_LIMIT && strip.iter().all(|&byte| byte <= LARGEST_BYTE) {
        Ok(())
    } else {
        Err(Told::refused(answers::STRIP))
    }
}

/// ROOM: the record list has a place for each change, whether or not the change brings anything.
fn room_for_record(changes: &[Change], record: &[u32]) -> Result<(), Told> {
    if record.len() >= changes.len() {
        Ok(())
    } else {
        Err(Told::refused(answers::ROOM))
    }
}

/// GUARD: each change's binding exists, and each key it names is held. Names the first that fails.
fn all_guarded(head: Head, changes: &[Change], guards: &BTreeSet<(u32, u32)>) -> Result<(), Told> {
    let is_held = |binding: u32, key: Option<u32>| match key {
        Some(key) => guards.contains(&(binding, key)),
        None => true,
    };
    let is_bad = |change: &Change| {
        change.binding >= head.bindings
            || !is_held(change.binding, change.before)
            || !is_held(change.binding, change.after)
    };
    name_first(answers::GUARD, changes.iter().position(is_bad))
}

/// The answer that names the first bad place, if there is one.
fn name_first(answer: u32, bad: Option<usize>) -> Result<(), Told> {
    match bad {
        Some(place) => Err(Told::naming(answer, number(place))),
        None => Ok(()),
    }
}

/// RECORD: each number is a change that brings something, and stands at no earlier place. Names the
/// first bad place of the record.
fn good_record(changes: &[Change], record: &[u32]) -> Result<(), Told> {
    let is_bad = |place: usize| match changes.get(record[place] as usize) {
        Some(change) => change.after.is_none() || record[..place].contains(&record[place]),
        None => true,
    };
    name_first(
        answers::RECORD,
        (0..record.len()).find(|&place| is_bad(place)),
    )
}

/// TWICE: all destinations differ. Names the pair with the least later change.
fn destinations_differ(changes: &[Change]) -> Result<(), Told> {
    for later in 0..changes.len() {
        for earlier in 0..later {
            let destination = changes[later].destination();
            if destination.is_some() && destination == changes[earlier].destination() {
                return Err(Told {
                    answer: answers::TWICE,
                    named: number(earlier),
                    other: number(later),
                });
            }
        }
    }
    Ok(())
}

/// PRESENT: no destination is in the table yet. Names the first change whose destination is.
fn destinations_absent(changes: &[Change], postings: &BTreeSet<Posting>) -> Result<(), Told> {
    let is_bad = |change: &Change| {
        change
            .destination()
            .is_some_and(|destination| postings.contains(&destination))
    };
    name_first(answers::PRESENT, changes.iter().position(is_bad))
}

/// OVERLAP: no source is a destination of any change of the list, its own, an earlier or a later
/// one. Names the first change with such a source.
fn sources_apart(changes: &[Change]) -> Result<(), Told> {
    let destinations: BTreeSet<Posting> = changes.iter().filter_map(Change::destination).collect();
    let is_bad = |change: &Change| {
        change
            .source()
            .is_some_and(|source| destinations.contains(&source))
    };
    name_first(answers::OVERLAP, changes.iter().position(is_bad))
}

// The checks of each call, in their order.

/// An order as it was read: the storage, the changes and the guards.
struct Order<'strip> {
    storage: Storage<'strip>,
    changes: Vec<Change>,
    guards: BTreeSet<(u32, u32)>,
}

/// What every call but count judges first: TABLE, POISONED, LIST, STRIP.
fn read_order<'strip>(
    head: Head,
    table: &[u32],
    changes: &[u32],
    guards: &[u32],
    strip: &'strip [u8],
) -> Result<Order<'strip>, Told> {
    let postings = read_table(head, table)?;
    not_poisoned(head)?;
    let changes = read_changes(changes)?;
    let guards = read_guards(guards)?;
    good_strip(strip)?;
    let storage = Storage {
        postings,
        capacity: table.len() / POSTING_NUMBERS,
        strip: strip.iter(),
    };
    Ok(Order {
        storage,
        changes,
        guards,
    })
}

/// Prepare then judges ROOM, GUARD, TWICE, PRESENT.
fn good_for_prepare(head: Head, order: &Order, record: &[u32]) -> Result<(), Told> {
    room_for_record(&order.changes, record)?;
    all_guarded(head, &order.changes, &order.guards)?;
    destinations_differ(&order.changes)?;
    destinations_absent(&order.changes, &order.storage.postings)
}

/// Publish then judges what prepare does, and OVERLAP.
fn good_for_publish(head: Head, order: &Order, record: &[u32]) -> Result<(), Told> {
    good_for_prepare(head, order, record)?;
    sources_apart(&order.changes)
}

/// Source removal then judges GUARD.
fn good_for_removal(head: Head, order: &Order) -> Result<(), Told> {
    all_guarded(head, &order.changes, &order.guards)
}

/// Rollback then judges GUARD, RECORD.
fn good_for_rollback(head: Head, order: &Order, record: &[u32]) -> Result<(), Told> {
    all_guarded(head, &order.changes, &order.guards)?;
    good_record(&order.changes, record)
}

// The steps.

/// Inserts the destinations up the list. A change that brings nothing is passed over and reads no
/// byte. At a failed insertion all that was inserted is undone, and the answer names the change
/// that was not inserted: UNDO if the undo failed, else the reason. Gives the changes inserted,
/// ascending.
fn insert_destinations(storage: &mut Storage, changes: &[Change]) -> Result<Vec<usize>, Told> {
    let mut inserted = Vec::new();
    for (place, change) in changes.iter().enumerate() {
        let Some(destination) = change.destination() else {
            continue;
        };
        if let Err(reason) = storage.insert(destination) {
            let answer = match undo(storage, changes, &inserted) {
                None => reason,
                Some(_) => answers::UNDO,
            };
            return Err(Told::naming(answer, number(place)));
        }
        inserted.push(place);
    }
    Ok(inserted)
}

/// Removes the destinations of the recorded changes, from the end of the record to its start, and
/// goes on after a failure. Gives the change of the last removal to fail, if any failed.
fn undo(storage: &mut Storage, changes: &[Change], recorded: &[usize]) -> Option<usize> {
    let mut failed = None;
    for &place in recorded.iter().rev() {
        let destination = changes[place].destination();
        let destination = destination.expect("a recorded change has a destination");
        if !storage.remove(destination) {
            failed = Some(place);
        }
    }
    failed
}

/// Removes the sources up the list. A change without a source reads no byte. It stops at the first
/// failure and names that change.
fn remove_sources(storage: &mut Storage, changes: &[Change]) -> Result<(), Told> {
    for (place, change) in changes.iter().enumerate() {
        let Some(source) = change.source() else {
            continue;
        };
        if !storage.remove(source) {
            return Err(Told::naming(answers::SOURCE, number(place)));
        }
    }
    Ok(())
}

/// Writes the record of the inserted changes. Places behind it stay.
fn write_record(inserted: &[usize], record: &mut [u32]) {
    for (place, &change) in inserted.iter().enumerate() {
        record[place] = number(change);
    }
}

/// Writes the set back in order with zeros behind it. UNDO and SOURCE set the poison flag.
fn finish(head: Head, table: &mut [u32], storage: &Storage, told: Told) -> Done {
    table.fill(0);
    for (place, &(binding, key, row)) in storage.postings.iter().enumerate() {
        let first = place * POSTING_NUMBERS;
        table[first..first + POSTING_NUMBERS].copy_from_slice(&[binding, key, row]);
    }
    let in_doubt = told.answer == answers::UNDO || told.answer == answers::SOURCE;
    let head = Head {
        bindings: head.bindings,
        used: number(storage.postings.len()),
        poisoned: u32::from(in_doubt),
    };
    Done { head, told }
}

// The calls.

/// Inserts every destination or none. Accepted, it tells how many numbers its record has, and the
/// record is written. With any other answer the record list is as before.
pub fn prepare_index_destinations(
    head: Head,
    table: &mut [u32],
    changes: &[u32],
    guards: &[u32],
    strip: &[u8],
    record: &mut [u32],
) -> Done {
    let mut order = match read_order(head, table, changes, guards, strip) {
        Ok(order) => order,
        Err(told) => return Done { head, told },
    };
    if let Err(told) = good_for_prepare(head, &order, record) {
        return Done { head, told };
    }
    let told = match insert_destinations(&mut order.storage, &order.changes) {
        Ok(inserted) => {
            write_record(&inserted, record);
            Told::accepted(inserted.len())
        }
        Err(told) => told,
    };
    finish(head, table, &order.storage, told)
}

/// Removes the destinations that the record lists. The whole lent list is the record. If a removal
/// failed, the answer is UNDO with the change of the last one to fail.
pub fn rollback_index_destinations(
    head: Head,
    table: &mut [u32],
    changes: &[u32],
    guards: &[u32],
    strip: &[u8],
    record: &[u32],
) -> Done {
    let mut order = match read_order(head, table, changes, guards, strip) {
        Ok(order) => order,
        Err(told) => return Done { head, told },
    };
    if let Err(told) = good_for_rollback(head, &order, record) {
        return Done { head, told };
    }
    let recorded: Vec<usize> = record.iter().map(|&change| change as usize).collect();
    let told = match undo(&mut order.storage, &order.changes, &recorded) {
        None => Told::accepted(0),
        Some(change) => Told::naming(answers::UNDO, number(change)),
    };
    finish(head, table, &order.storage, told)
}

/// Removes every source, or stops at the first failure.
pub fn remove_index_sources(
    head: Head,
    table: &mut [u32],
    changes: &[u32],
    guards: &[u32],
    strip: &[u8],
) -> Done {
    let mut order = match read_order(head, table, changes, guards, strip) {
        Ok(order) => order,
        Err(told) => return Done { head, told },
    };
    if let Err(told) = good_for_removal(head, &order) {
        return Done { head, told };
    }
    let told = match remove_sources(&mut order.storage, &order.changes) {
        Ok(()) => Told::accepted(0),
        Err(told) => told,
    };
    finish(head, table, &order.storage, told)
}

/// Prepares, then removes the sources, with one strip for both. The record is written as soon as
/// the last destination is in, so a failed source removal keeps it.
pub fn publish_by_value(
    head: Head,
    table: &mut [u32],
    changes: &[u32],
    guards: &[u32],
    strip: &[u8],
    record: &mut [u32],
) -> Done {
    let mut order = match read_order(head, table, changes, guards, strip) {
        Ok(order) => order,
        Err(told) => return Done { head, told },
    };
    if let Err(told) = good_for_publish(head, &order, record) {
        return Done { head, told };
    }
    let told = match insert_destinations(&mut order.storage, &order.changes) {
        Ok(inserted) => {
            write_record(&inserted, record);
            match remove_sources(&mut order.storage, &order.changes) {
                Ok(()) => Told::accepted(inserted.len()),
                Err(told) => told,
            }
        }
        Err(told) => told,
    };
    finish(head, table, &order.storage, told)
}

/// The same as [`publish_by_value`], with the head lent and the guards as pairs.
pub fn publish(
    head: &mut Head,
    table: &mut [u32],
    changes: &[u32],
    guards: &[Guard],
    strip: &[u8],
    record: &mut [u32],
) -> Told {
    let flat: Vec<u32> = guards
        .iter()
        .flat_map(|guard| [guard.binding, guard.key])
        .collect();
    let done = publish_by_value(*head, table, changes, &flat, strip, record);
    *head = done.head;
    done.told
}

/// Sets the poison flag, whatever the head holds.
pub fn poison_indexes(head: &mut Head) {
    head.poisoned = 1;
}

/// Whether the list of guards has this pair. The list may be of any length.
pub fn held(guards: &[Guard], binding: u32, key: u32) -> bool {
    guards.contains(&Guard { binding, key })
}

/// How many postings have this binding and key. It judges TABLE, POISONED and its own binding.
pub fn count(head: Head, table: &[u32], binding: u32, key: u32) -> Told {
    match counted(head, table, binding, key) {
        Ok(told) | Err(told) => told,
    }
}

fn counted(head: Head, table: &[u32], binding: u32, key: u32) -> Result<Told, Told> {
    let postings = read_table(head, table)?;
    not_poisoned(head)?;
    if binding >= head.bindings {
        return Err(Told::refused(answers::GUARD));
    }
    let matching = postings
        .iter()
        .filter(|posting| (posting.0, posting.1) == (binding, key));
    Ok(Told::accepted(matching.count()))
}
