//! Orders at the limits: the largest table, list, guards, strip and record, and one beyond each.

use crate::amounts;
use crate::call::{Call, Order};
use crate::compare::{differs, Compared, Comparison};
use crate::draft::{Change, Draft, World};
use crate::orders::{calls_of, counts_of, rollback_of};
use crate::random::{seeds, Random};
use crate::twists::{damage, twist_draft};

/// The most postings in a table.
pub const POSTINGS: usize = 4_096;
/// The most changes in a list.
pub const CHANGES: usize = 256;
/// The most guards.
pub const GUARDS: usize = 1_024;
/// The longest strip.
pub const STRIP: usize = 1_024;

/// A draft near the limits. Without the beyond of one part it is within all of them.
fn large_draft(random: &mut Random, world: &World) -> Draft {
    let free = random.pick(&[0, 1, 100, 255, 256, 257, 3_000]);
    let capacity = random.pick(&[POSTINGS, POSTINGS, POSTINGS - 1]);
    let postings = world.postings(random, capacity - free);
    let changes = random.pick(&[0, 1, CHANGES - 1, CHANGES, CHANGES]);
    let changes = world.changes(random, &postings, changes);
    Draft {
        bindings: world.bindings,
        free: capacity - postings.len(),
        guards: world.guards(random, &changes, 0),
        strip: large_strip(random),
        postings,
        changes,
    }
}

/// A strip of zeros, or with a failure at some place.
fn large_strip(random: &mut Random) -> Vec<u8> {
    let length = random.pick(&[0, 255, 256, 512, STRIP - 1, STRIP]);
    let mut strip = vec![0; length];
    if length > 0 && random.one_in(3) {
        let place = random.below(length.min(600));
        strip[place] = random.pick(&[1, 2]);
    }
    strip
}

/// Adds guards that nobody needs, up to this many.
fn pad_guards(random: &mut Random, order: &mut Order, count: usize) {
    while order.guards.len() < 2 * count {
        order.guards.extend([random.number(), random.number()]);
    }
}

/// One more change that brings nothing and takes nothing.
fn one_more_change(order: &mut Order) {
    let idle = Change {
        binding: 0,
        row: 0,
        before: None,
        after: None,
    };
    order.changes.extend(idle.numbers());
    order.record.push(0);
}

/// Takes one part of the order to its limit or one beyond.
fn push_a_limit(random: &mut Random, order: &mut Order) {
    match random.below(16) {
        0 | 1 => pad_guards(random, order, GUARDS),
        2 => pad_guards(random, order, GUARDS + 1),
        3 => order.guards.push(0),
        4 | 5 => order.strip.resize(STRIP, 0),
        6 => order.strip.resize(STRIP + 1, 0),
        7 => *order.strip.last_mut().unwrap_or(&mut 0) = 3,
        8 | 9 => one_more_change(order),
        10 => order.table.extend([0, 0, 0]),
        11 => order.table.push(0),
        12 | 13 => order
            .record
            .truncate((order.changes.len() / 6).saturating_sub(1)),
        14 => order.head.bindings = random.pick(&[64, 65]),
        _ => order.head.poisoned = 1,
    }
}

/// Random orders at the limits. One in four is damaged.
pub fn limit_orders(comparison: &mut Comparison) -> Compared {
    for seed in seeds(amounts::LIMIT_ORDERS) {
        let random = &mut Random::new(seed);
        let world = World::large(random);
        let mut draft = large_draft(random, &world);
        if random.one_in(3) {
            twist_draft(random, &world, &mut draft);
        }
        let mut order = draft.order(random, 0);
        let mut rollback = rollback_of(random, &draft);
        for _ in 0..random.pick(&[0, 1, 1, 2]) {
            push_a_limit(random, &mut order);
            push_a_limit(random, &mut rollback);
        }
        if random.one_in(4) {
            damage(random, &mut order);
            damage(random, &mut rollback);
        }
        let origin = format!("order at the limits, seed {seed}");
        comparison.check_all(&origin, &counts_of(random, &world, &order))?;
        comparison.check_all(&origin, &calls_of(&order, rollback))?;
    }
    Ok(())
}

/// The largest order: each part at its limit at once, then one beyond in each part by turns.
pub fn largest_order(comparison: &mut Comparison) -> Compared {
    let full = full_order();
    check_publish(comparison, "largest order", &full, 0)?;
    for (part, beyond, answer) in beyond_by_one() {
        let mut order = full.clone();
        beyond(&mut order);
        check_publish(comparison, part, &order, answer)?;
    }
    Ok(())
}

/// Every call, and publish has this answer. Rollback's record lists the changes from the first on.
fn check_publish(
    comparison: &mut Comparison,
    origin: &str,
    order: &Order,
    answer: u32,
) -> Compared {
    let mut rollback = order.clone();
    rollback.record = (0..order.record.len() as u32).collect();
    comparison.check_all(origin, &calls_of(order, rollback))?;
    let told = comparison.check(origin, &Call::PublishByValue(order.clone()))?;
    if told.answer == answer {
        return Ok(());
    }
    differs(origin, format!("{told:?}, and {answer} is expected"))
}

/// 256 moves on a table with 3,840 postings and 256 free places, 1,024 guards, 1,024 bytes.
fn full_order() -> Order {
    let used = POSTINGS - CHANGES;
    let postings = (0..used as u32).map(|row| (63, 1, row)).collect();
    let change = |row: u32| Change {
        binding: 63,
        row,
        before: Some(1),
        after: Some(2),
    };
    let draft = Draft {
        bindings: 64,
        postings,
        free: CHANGES,
        changes: (0..CHANGES as u32).map(change).collect(),
        guards: vec![(63, 1); GUARDS - 1],
        strip: vec![0; STRIP],
    };
    let mut order = draft.order(&mut Random::new(0), 0);
    order.guards.extend([63, 2]);
    order
}

/// A name, what takes one part one step beyond its limit, and the answer that publish then has.
type Beyond = (&'static str, fn(&mut Order), u32);

fn beyond_by_one() -> [Beyond; 11] {
    use model::answers::{FULL, LIST, ROOM, STRIP as BAD_STRIP, TABLE};
    [
        ("a posting more", |order| order.table.extend([0; 3]), TABLE),
        ("a number more", |order| order.table.push(0), TABLE),
        ("65 bindings", |order| order.head.bindings = 65, TABLE),
        ("63 bindings", |order| order.head.bindings = 63, TABLE),
        ("257 changes", one_more_change, LIST),
        ("1,025 guards", |order| order.guards.extend([63, 2]), LIST),
        (
            "half a guard",
            |order| order.guards.truncate(2 * GUARDS - 1),
            LIST,
        ),
        ("1,025 bytes", |order| order.strip.push(0), BAD_STRIP),
        (
            "a last byte of 3",
            |order| order.strip[STRIP - 1] = 3,
            BAD_STRIP,
        ),
        (
            "255 places",
            |order| order.record.truncate(CHANGES - 1),
            ROOM,
        ),
        (
            "4,095 places",
            |order| order.table.truncate(3 * (POSTINGS - 1)),
            FULL,
        ),
    ]
}
