//! Relations between the calls of one engine that the rules ask for, without the model's help.

use crate::amounts;
use crate::buckets::some_buckets;
use crate::call::{pairs, Call, Counting, Holding, Lane, Order, Outcome};
use crate::compare::{differs, Compared};
use crate::draft::{small_draft, World};
use crate::engine::Engine;
use crate::lanes::{some_lane_strip, some_view};
use crate::random::{seeds, Random};
use crate::twists::{damage, twist_draft};
use model::{Head, Told};
use std::collections::BTreeMap;

/// A random order, often with a fault.
fn some_order(random: &mut Random) -> Order {
    let world = World::small(random);
    let mut draft = small_draft(random, &world);
    if random.one_in(2) {
        twist_draft(random, &world, &mut draft);
    }
    let mut order = draft.order(random, 2);
    if random.one_in(4) {
        damage(random, &mut order);
    }
    order
}

/// The head, table and record after a call, and what it told.
#[derive(Debug, PartialEq)]
struct Left {
    told: Told,
    head: Head,
    table: Vec<u32>,
    record: Vec<u32>,
}

fn left(outcome: Outcome) -> Left {
    let order = outcome.after.order().expect("a call on changes");
    Left {
        told: outcome.told,
        head: order.head,
        table: order.table.clone(),
        record: order.record.clone(),
    }
}

/// Fails unless the two are equal.
fn same<Value: PartialEq + std::fmt::Debug>(
    origin: &str,
    order: &impl std::fmt::Debug,
    one: &Value,
    other: &Value,
) -> Compared {
    if one == other {
        return Ok(());
    }
    differs(
        origin,
        format!("the calls disagree\nlent:  {order:?}\none:   {one:?}\nother: {other:?}"),
    )
}

/// Publish with a lent head and pairs does what publish by value does with the flat numbers.
pub fn publish_is_publish_by_value(engine: &dyn Engine) -> Compared {
    for seed in seeds(amounts::RELATIONS) {
        let mut order = some_order(&mut Random::new(seed));
        order.guards.truncate(order.guards.len() / 2 * 2);
        let lent = left(engine.make(&Call::publish(order.clone())));
        let by_value = left(engine.make(&Call::PublishByValue(order.clone())));
        let origin = format!("publish by value, seed {seed}");
        same(&origin, &order, &lent, &by_value)?;
    }
    Ok(())
}

/// An accepted prepare is taken back by a rollback of its record where storage works.
pub fn rollback_undoes_prepare(engine: &dyn Engine) -> Compared {
    let mut undone = 0;
    for seed in seeds(amounts::RELATIONS) {
        let order = some_order(&mut Random::new(seed));
        let prepared = left(engine.make(&Call::Prepare(order.clone())));
        if prepared.told.answer != 0 {
            continue;
        }
        let recorded = &prepared.record[..prepared.told.named as usize];
        let rollback = Call::Rollback(Order {
            head: prepared.head,
            table: prepared.table.clone(),
            strip: vec![],
            record: recorded.to_vec(),
            ..order.clone()
        });
        let after = left(engine.make(&rollback));
        let origin = format!("rollback of prepare, seed {seed}");
        let accepted = (0, 0, order.head, &order.table);
        let found = (
            after.told.answer,
            after.told.named,
            after.head,
            &after.table,
        );
        same(&origin, &order, &found, &accepted)?;
        undone += recorded.len();
    }
    enough("rollback of prepare", undone)
}

/// A publish that no check refuses is a prepare, and a source removal with the rest of the strip.
pub fn publish_is_prepare_then_removal(engine: &dyn Engine) -> Compared {
    let mut joined = 0;
    for seed in seeds(amounts::RELATIONS) {
        let order = some_order(&mut Random::new(seed));
        let published = left(engine.make(&Call::PublishByValue(order.clone())));
        if published.told.answer == model::answers::OVERLAP {
            continue;
        }
        let prepared = left(engine.make(&Call::Prepare(order.clone())));
        let origin = format!("publish in two steps, seed {seed}");
        if prepared.told.answer != 0 {
            same(&origin, &order, &published, &prepared)?;
            continue;
        }
        let read = (prepared.told.named as usize).min(order.strip.len());
        let removal = Call::Removal(Order {
            head: prepared.head,
            table: prepared.table.clone(),
            strip: order.strip[read..].to_vec(),
            record: prepared.record.clone(),
            ..order.clone()
        });
        let mut removed = left(engine.make(&removal));
        if removed.told.answer == 0 {
            removed.told.named = prepared.told.named;
        }
        same(&origin, &order, &published, &removed)?;
        joined += 1;
    }
    enough("publish in two steps", joined)
}

/// The two bucket engines agree where both have room.
pub fn bucket_engines_agree(engine: &dyn Engine) -> Compared {
    for seed in seeds(amounts::RELATIONS / 5) {
        let mut lent = some_buckets(&mut Random::new(seed));
        lent.scratch.resize(2_048, 1);
        let sorted = engine.make(&Call::Sort(lent.clone()));
        let mapped = engine.make(&Call::Bitmap(lent.clone()));
        let output = |outcome: Outcome| match outcome.after {
            Call::Sort(after) | Call::Bitmap(after) => (outcome.told, after.output),
            other => panic!("{} is no bucket engine", other.name()),
        };
        let origin = format!("bucket engines, seed {seed}");
        same(&origin, &lent, &output(sorted), &output(mapped))?;
    }
    Ok(())
}

/// A detach that meets no error byte, with two rounds more than its strip has bytes, ends retired.
pub fn two_spare_rounds_are_enough(engine: &dyn Engine) -> Compared {
    for seed in seeds(amounts::RELATIONS) {
        let random = &mut Random::new(seed);
        let strip = some_lane_strip(random, 2);
        let lane = Lane {
            view: some_view(random),
            contents: vec![],
            rounds: strip.len() as u32 + 2,
            strip,
        };
        let outcome = engine.make(&Call::Detach(lane.clone()));
        let Call::Detach(after) = &outcome.after else {
            panic!("a detach stays a detach");
        };
        let found = (
            outcome.told.answer,
            after.view.retired,
            after.view.attached,
            outcome.told.named <= lane.rounds,
        );
        let origin = format!("two spare rounds, seed {seed}");
        same(&origin, &lane, &found, &(0, 1, 0, true))?;
    }
    Ok(())
}

/// The counts of all keys of a good table are its postings, key by key.
pub fn counts_add_up(engine: &dyn Engine) -> Compared {
    for seed in seeds(amounts::RELATIONS / 5) {
        let random = &mut Random::new(seed);
        let world = World::small(random);
        let draft = small_draft(random, &world);
        let order = draft.order(random, 0);
        let mut keys: BTreeMap<(u32, u32), u32> = BTreeMap::new();
        for &(binding, key, _) in &draft.postings {
            *keys.entry((binding, key)).or_default() += 1;
        }
        for (&(binding, key), &times) in &keys {
            let count = Call::Count(Counting {
                head: order.head,
                table: order.table.clone(),
                binding,
                key,
            });
            let told = engine.make(&count).told;
            let origin = format!("count, seed {seed}");
            same(&origin, &order, &(told.answer, told.named), &(0, times))?;
        }
    }
    Ok(())
}

/// Whether the guards held are those of the list, asked one by one.
pub fn held_is_membership(engine: &dyn Engine) -> Compared {
    for seed in seeds(amounts::RELATIONS / 5) {
        let order = some_order(&mut Random::new(seed));
        let guards = pairs(&order.guards);
        let changes = order.changes.chunks_exact(6);
        for (binding, key) in changes.map(|numbers| (numbers[0], numbers[5])) {
            let listed = guards
                .iter()
                .any(|guard| (guard.binding, guard.key) == (binding, key));
            let held = Call::Held(Holding {
                guards: guards.clone(),
                binding,
                key,
            });
            let found = engine.make(&held).told.answer;
            let origin = format!("held, seed {seed}");
            same(&origin, &held, &found, &u32::from(listed))?;
        }
    }
    Ok(())
}

/// Fails where a relation was hardly ever looked at.
fn enough(origin: &str, times: usize) -> Compared {
    if times as u64 >= amounts::RELATIONS / 5 {
        return Ok(());
    }
    differs(origin, format!("looked at {times} times only"))
}
