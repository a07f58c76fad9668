//! Random small orders: good ones, ones with faults put in, and damaged copies.

use crate::amounts;
use crate::call::{Call, Counting, Order};
use crate::compare::{Compared, Comparison};
use crate::draft::{small_draft, Draft, World};
use crate::random::{seeds, Random};
use crate::twists::{damage, rollback_record, twist_draft, twist_order};

/// Every call on changes with one order; rollback with its own record.
pub fn calls_of(order: &Order, rollback: Order) -> [Call; 5] {
    [
        Call::publish(order.clone()),
        Call::PublishByValue(order.clone()),
        Call::Prepare(order.clone()),
        Call::Removal(order.clone()),
        Call::Rollback(rollback),
    ]
}

/// Two counts on the table of the order: of a posting in it, if there is one, and of any key.
pub fn counts_of(random: &mut Random, world: &World, order: &Order) -> [Call; 2] {
    let (binding, key, _) = world.posting(random);
    let postings = order.table.len() / 3;
    let place = random.below(postings.max(1)) * 3;
    let present = order.table.get(place..place + 2);
    let any_binding = random.pick(&[binding, order.head.bindings, u32::MAX, binding]);
    let count = |binding, key| {
        Call::Count(Counting {
            head: order.head,
            table: order.table.clone(),
            binding,
            key,
        })
    };
    match present {
        Some(numbers) => [count(numbers[0], numbers[1]), count(any_binding, key)],
        None => [count(binding, key), count(any_binding, key)],
    }
}

/// The order that rollback gets: its destinations are often in the table already.
pub fn rollback_of(random: &mut Random, draft: &Draft) -> Order {
    let draft = if random.one_in(4) {
        draft.clone()
    } else {
        draft.prepared()
    };
    let mut order = draft.order(random, 0);
    order.record = rollback_record(random, &draft);
    order
}

/// A draft with none, one or a few faults.
fn some_draft(random: &mut Random, world: &World) -> Draft {
    let mut draft = small_draft(random, world);
    for _ in 0..random.pick(&[0, 0, 1, 1, 1, 2, 3]) {
        twist_draft(random, world, &mut draft);
    }
    draft
}

/// An order and the one for rollback, both with none, one or two faults in the flat lists.
fn some_orders(random: &mut Random, draft: &Draft) -> (Order, Order) {
    let spare = random.below(3);
    let mut order = draft.order(random, spare);
    let mut rollback = rollback_of(random, draft);
    for _ in 0..random.pick(&[0, 0, 0, 0, 1, 1, 2]) {
        twist_order(random, &mut order);
        twist_order(random, &mut rollback);
    }
    (order, rollback)
}

/// Random small orders, some of them with faults.
pub fn random_orders(comparison: &mut Comparison) -> Compared {
    for seed in seeds(amounts::RANDOM_ORDERS) {
        let random = &mut Random::new(seed);
        let world = World::small(random);
        let draft = some_draft(random, &world);
        let (order, rollback) = some_orders(random, &draft);
        let origin = format!("random order, seed {seed}");
        comparison.check_all(&origin, &counts_of(random, &world, &order))?;
        comparison.check_all(&origin, &calls_of(&order, rollback))?;
    }
    Ok(())
}

/// Damaged copies of orders that would go well, as far as storage lets them.
pub fn damaged_orders(comparison: &mut Comparison) -> Compared {
    for seed in seeds(amounts::DAMAGED_ORDERS) {
        let random = &mut Random::new(seed);
        let world = World::small(random);
        let draft = small_draft(random, &world);
        let mut order = draft.order(random, 0);
        let mut rollback = rollback_of(random, &draft);
        damage(random, &mut order);
        damage(random, &mut rollback);
        let origin = format!("damaged order, seed {seed}");
        comparison.check_all(&origin, &counts_of(random, &world, &order))?;
        comparison.check_all(&origin, &calls_of(&order, rollback))?;
    }
    Ok(())
}
