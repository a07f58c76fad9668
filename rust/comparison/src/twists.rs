//! Faults that are put into good orders, each one aimed at an answer.

use crate::call::Order;
use crate::draft::{needed_guards, Change, Draft, Posting, World};
use crate::random::Random;

/// A fault put into a draft.
type DraftTwist = fn(&mut Random, &World, &mut Draft);

/// Faults of the lists.
const LIST_TWISTS: [DraftTwist; 7] = [
    same_destination_again,
    destination_present,
    row_unmoved,
    source_is_destination,
    source_is_destination,
    guard_forgotten,
    binding_unknown,
];

/// Faults of the storage.
const STORAGE_TWISTS: [DraftTwist; 4] =
    [less_room, failing_insertion, failing_undo, failing_source];

/// Puts a fault into the lists of the draft.
pub fn twist_list(random: &mut Random, world: &World, draft: &mut Draft) {
    random.pick(&LIST_TWISTS)(random, world, draft);
}

/// Puts a fault into the lists of the draft or into its storage.
pub fn twist_draft(random: &mut Random, world: &World, draft: &mut Draft) {
    if random.one_in(2) {
        twist_list(random, world, draft);
    } else {
        random.pick(&STORAGE_TWISTS)(random, world, draft);
    }
}

/// Puts the change anywhere in the list, and its guards in too.
fn put_in(random: &mut Random, draft: &mut Draft, change: Change) {
    let place = random.below(draft.changes.len() + 1);
    draft.changes.insert(place, change);
    draft.guards.extend(needed_guards(&[change]));
}

fn some_destination(random: &mut Random, draft: &Draft) -> Option<Posting> {
    let bringing = draft.bringing();
    if bringing.is_empty() {
        return None;
    }
    draft.changes[random.pick(&bringing) as usize].destination()
}

fn same_destination_again(random: &mut Random, _world: &World, draft: &mut Draft) {
    if let Some(posting) = some_destination(random, draft) {
        put_in(random, draft, Change::bringing(posting));
    }
}

fn some_posting(random: &mut Random, draft: &Draft) -> Option<Posting> {
    let present: Vec<_> = draft.postings.iter().copied().collect();
    (!present.is_empty()).then(|| random.pick(&present))
}

fn destination_present(random: &mut Random, _world: &World, draft: &mut Draft) {
    if let Some(posting) = some_posting(random, draft) {
        put_in(random, draft, Change::bringing(posting));
    }
}

fn row_unmoved(random: &mut Random, world: &World, draft: &mut Draft) {
    let posting = some_posting(random, draft).unwrap_or_else(|| world.posting(random));
    let mut change = Change::bringing(posting);
    change.before = change.after;
    put_in(random, draft, change);
}

fn source_is_destination(random: &mut Random, _world: &World, draft: &mut Draft) {
    if let Some(posting) = some_destination(random, draft) {
        put_in(random, draft, Change::taking(posting));
    }
}

fn less_room(random: &mut Random, _world: &World, draft: &mut Draft) {
    draft.free = random.below(draft.bringing().len() + 1);
}

/// An insertion fails.
pub fn failing_insertion(random: &mut Random, _world: &World, draft: &mut Draft) {
    let place = random.below(draft.bringing().len() + 1);
    let byte = random.pick(&[1, 2]);
    draft.set_byte(place, byte);
}

/// An insertion fails, and so does at least one removal of its undo, if there is any to undo.
pub fn failing_undo(random: &mut Random, _world: &World, draft: &mut Draft) {
    let failed = match draft.bringing().len() {
        0 | 1 => 0,
        count => 1 + random.below(count - 1),
    };
    draft.strip = vec![0; failed];
    draft.strip.push(1);
    draft
        .strip
        .extend((0..failed).map(|_| random.pick(&[0, 0, 1, 2])));
    if failed > 0 {
        let place = failed + 1 + random.below(failed);
        draft.strip[place] = random.pick(&[1, 2]);
    }
}

/// Every insertion goes well, and a removal of a source fails.
pub fn failing_source(random: &mut Random, _world: &World, draft: &mut Draft) {
    draft.strip.clear();
    let place = draft.bringing().len() + random.below(draft.taking() + 1);
    let byte = random.pick(&[1, 2]);
    draft.set_byte(place, byte);
}

fn guard_forgotten(random: &mut Random, _world: &World, draft: &mut Draft) {
    if draft.guards.is_empty() {
        return;
    }
    let forgotten = random.pick(&draft.guards);
    draft.guards.retain(|&guard| guard != forgotten);
}

fn binding_unknown(random: &mut Random, world: &World, draft: &mut Draft) {
    let mut change = Change::bringing(world.posting(random));
    change.binding = random.pick(&[draft.bindings, draft.bindings + 1, u32::MAX]);
    put_in(random, draft, change);
}

/// A fault put into a flat order.
type OrderTwist = fn(&mut Random, &mut Order);

const ORDER_TWISTS: [OrderTwist; 12] = [
    head_poisoned,
    head_poisoned,
    head_odd,
    postings_swapped,
    posting_doubled,
    free_place_written,
    table_length_odd,
    change_ill_formed,
    list_length_odd,
    byte_above_two,
    record_short,
    record_short,
];

/// Puts one fault into the flat order.
pub fn twist_order(random: &mut Random, order: &mut Order) {
    random.pick(&ORDER_TWISTS)(random, order);
}

fn head_poisoned(_random: &mut Random, order: &mut Order) {
    order.head.poisoned = 1;
}

fn head_odd(random: &mut Random, order: &mut Order) {
    let head = &mut order.head;
    match random.below(6) {
        0 => head.used = head.used.wrapping_add(1),
        1 => head.used = head.used.wrapping_sub(1),
        2 => head.used = random.pick(&[u32::MAX, 1 << 30, u32::MAX / 3 + 1]),
        3 => head.bindings = random.pick(&[65, u32::MAX]),
        4 => head.bindings = head.bindings.wrapping_sub(1),
        _ => head.poisoned = random.pick(&[2, u32::MAX]),
    }
}

/// Two postings in use, if there are two.
fn two_postings(random: &mut Random, order: &Order) -> Option<(usize, usize)> {
    let used = (order.head.used as usize).min(order.table.len() / 3);
    (used >= 2).then(|| {
        let first = random.below(used - 1);
        (3 * first, 3 * (first + 1))
    })
}

fn postings_swapped(random: &mut Random, order: &mut Order) {
    if let Some((first, second)) = two_postings(random, order) {
        for number in 0..3 {
            order.table.swap(first + number, second + number);
        }
    }
}

fn posting_doubled(random: &mut Random, order: &mut Order) {
    if let Some((first, second)) = two_postings(random, order) {
        order.table.copy_within(first..first + 3, second);
    }
}

fn free_place_written(random: &mut Random, order: &mut Order) {
    let used = (order.head.used as usize).saturating_mul(3);
    if used < order.table.len() {
        let place = used + random.below(order.table.len() - used);
        order.table[place] = random.pick(&[1, u32::MAX]);
    }
}

fn table_length_odd(random: &mut Random, order: &mut Order) {
    if random.one_in(2) {
        order.table.push(0);
    } else {
        order.table.pop();
    }
}

/// A flag above 1, or a key without its flag.
fn change_ill_formed(random: &mut Random, order: &mut Order) {
    let changes = order.changes.len() / 6;
    if changes == 0 {
        return;
    }
    let flag = 6 * random.below(changes) + random.pick(&[2, 4]);
    if random.one_in(2) {
        order.changes[flag] = random.pick(&[2, 3, u32::MAX]);
    } else {
        order.changes[flag] = 0;
        order.changes[flag + 1] = random.pick(&[1, u32::MAX]);
    }
}

fn list_length_odd(random: &mut Random, order: &mut Order) {
    match random.below(4) {
        0 => order.changes.push(0),
        1 => drop(order.changes.pop()),
        2 => order.guards.push(0),
        _ => drop(order.guards.pop()),
    }
}

fn byte_above_two(random: &mut Random, order: &mut Order) {
    let place = random.below(order.strip.len() + 1);
    let byte = random.pick(&[3, 4, 128, 255]);
    order.strip.insert(place, byte);
}

fn record_short(random: &mut Random, order: &mut Order) {
    let changes = order.changes.len() / 6;
    let places = random.below(changes.max(1));
    let places = random.pick(&[places, changes.saturating_sub(1)]);
    order.record.truncate(places);
}

/// Changes one number of a list or of the head, or the length of a list by one.
pub fn damage(random: &mut Random, order: &mut Order) {
    match random.below(16) {
        0 => order.head.bindings = random.damaged(order.head.bindings),
        1 => order.head.used = random.damaged(order.head.used),
        2 => order.head.poisoned = random.damaged(order.head.poisoned),
        3..=6 => damage_list(random, &mut order.table),
        7..=10 => damage_list(random, &mut order.changes),
        11 | 12 => damage_list(random, &mut order.guards),
        13 => damage_strip(random, &mut order.strip),
        _ => damage_list(random, &mut order.record),
    }
}

/// Changes one number of the list, often to one that stands elsewhere in it, or the length by one.
pub fn damage_list(random: &mut Random, list: &mut Vec<u32>) {
    if list.is_empty() || random.one_in(12) {
        list.push(random.pick(&[0, 1, u32::MAX]));
    } else if random.one_in(12) {
        list.pop();
    } else {
        let place = random.below(list.len());
        list[place] = if random.one_in(3) {
            random.pick(list)
        } else {
            random.damaged(list[place])
        };
    }
}

/// Changes one byte of the strip, or its length by one.
pub fn damage_strip(random: &mut Random, strip: &mut Vec<u8>) {
    let byte = random.pick(&[0, 1, 2, 3, 255]);
    if strip.is_empty() || random.one_in(8) {
        strip.push(byte);
    } else {
        let place = random.below(strip.len());
        strip[place] = byte;
    }
}

/// A record for rollback: some of the changes that bring something, in any order. Now and then one
/// place is bad.
pub fn rollback_record(random: &mut Random, draft: &Draft) -> Vec<u32> {
    let mut record = draft.bringing();
    random.shuffle(&mut record);
    let length = random.below(record.len() + 1).max(record.len() / 2);
    record.truncate(length);
    if random.one_in(4) {
        let place = random.below(record.len() + 1);
        let bad = bad_number(random, draft, &record);
        record.insert(place, bad);
    }
    record
}

fn bad_number(random: &mut Random, draft: &Draft, record: &[u32]) -> u32 {
    let changes = draft.changes.len() as u32;
    match random.below(3) {
        0 if !record.is_empty() => random.pick(record),
        1 if changes > 0 => random.up_to(changes - 1),
        _ => random.pick(&[changes, changes + 1, u32::MAX]),
    }
}
