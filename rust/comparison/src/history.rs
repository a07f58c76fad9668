//! Long histories: a table that only publish calls write, under any lists and storage failures.
//!
//! Until a call answers 12 or 13 the table is what the accepted calls alone say, every count is
//! that table's own, and a replay of the accepted calls on working storage gives the same table and
//! the same records. After a 12 or 13 every publish and count is refused with 2 and the table
//! stays.

use crate::amounts;
use crate::call::{Call, Counting, Order};
use crate::compare::{differs, Compared, Difference};
use crate::draft::{flat_table, read_changes, Change, Draft, Posting, World};
use crate::engine::Engine;
use crate::random::Random;
use crate::twists::{
    damage_list, damage_strip, failing_insertion, failing_source, failing_undo, twist_list,
};
use model::{answers, Head, Told};
use std::collections::BTreeSet;
use std::fmt::Debug;

/// How large a history is.
#[derive(Clone, Copy, Debug)]
#[allow(missing_docs)]
pub struct Size {
    pub steps: usize,
    pub capacity: usize,
    /// The most changes in a call.
    pub changes: usize,
    /// How many keys are counted after each step, drawn from all where there are more.
    pub counts: usize,
    /// One call in so many meets storage that may fail in a way that poisons.
    pub rough: usize,
}

/// What histories have seen.
#[derive(Clone, Copy, Debug, Default)]
#[allow(missing_docs)]
pub struct Seen {
    pub steps: usize,
    pub accepted: usize,
    pub refused: usize,
    pub storage_failures: usize,
    pub poisoned_by_undo: usize,
    pub poisoned_by_source: usize,
    pub counts: usize,
    pub replayed: usize,
    pub longest: usize,
}

impl Seen {
    /// Adds what another history has seen.
    pub fn add(&mut self, other: Seen) {
        self.steps += other.steps;
        self.accepted += other.accepted;
        self.refused += other.refused;
        self.storage_failures += other.storage_failures;
        self.poisoned_by_undo += other.poisoned_by_undo;
        self.poisoned_by_source += other.poisoned_by_source;
        self.counts += other.counts;
        self.replayed += other.replayed;
        self.longest = self.longest.max(other.steps);
    }

    fn step(&mut self, answer: u32) {
        self.steps += 1;
        match answer {
            answers::ACCEPTED => self.accepted += 1,
            answers::STORE | answers::FULL => self.storage_failures += 1,
            answers::UNDO => self.poisoned_by_undo += 1,
            answers::SOURCE => self.poisoned_by_source += 1,
            _ => self.refused += 1,
        }
    }
}

/// An accepted call: all that was lent, and the record list afterwards.
struct Accepted {
    call: Call,
    record: Vec<u32>,
}

/// A table, and what ought to be in it.
struct History<'engine> {
    engine: &'engine dyn Engine,
    seed: u64,
    size: Size,
    world: World,
    head: Head,
    table: Vec<u32>,
    rows: BTreeSet<Posting>,
    accepted: Vec<Accepted>,
    seen: Seen,
}

/// Runs the history of this seed.
pub fn run(engine: &dyn Engine, seed: u64, size: Size) -> Result<Seen, Box<Difference>> {
    let random = &mut Random::new(seed);
    let mut history = History::begin(engine, seed, size, random);
    for _ in 0..size.steps {
        let before = history.table.clone();
        let told = history.step(random);
        if matches!(told.answer, answers::UNDO | answers::SOURCE) {
            history.check_poisoned(random)?;
            history.check_replay(&before)?;
            return Ok(history.seen);
        }
        history.check_table()?;
        history.check_counts(random)?;
    }
    let last = history.table.clone();
    history.check_replay(&last)?;
    Ok(history.seen)
}

/// The order of a publish.
fn order_of(call: &Call) -> &Order {
    call.order().expect("a publish")
}

/// The same call on another head and table, with storage that works.
fn replay_on(call: &Call, head: Head, table: &[u32]) -> Call {
    let order = Order {
        head,
        table: table.to_vec(),
        strip: vec![],
        ..order_of(call).clone()
    };
    match call {
        Call::Publish(_) => Call::Publish(order),
        _ => Call::PublishByValue(order),
    }
}

impl<'engine> History<'engine> {
    fn begin(
        engine: &'engine dyn Engine,
        seed: u64,
        size: Size,
        random: &mut Random,
    ) -> History<'engine> {
        let world = if size.capacity > 100 {
            World::large(random)
        } else {
            World::small(random)
        };
        History {
            engine,
            seed,
            size,
            head: empty_head(&world),
            table: vec![0; 3 * size.capacity],
            rows: BTreeSet::new(),
            accepted: Vec::new(),
            seen: Seen::default(),
            world,
        }
    }

    /// A publish of either form, drawn for the rows that ought to be there.
    fn draw(&self, random: &mut Random) -> Call {
        let mut draft = self.good_draft(random);
        if random.one_in(5) {
            twist_list(random, &self.world, &mut draft);
        }
        self.draw_storage(random, &mut draft);
        let mut order = draft.order(random, 1);
        if random.one_in(10) {
            damage_lists(random, &mut order);
        }
        order.head = self.head;
        order.table.clone_from(&self.table);
        if random.one_in(2) {
            Call::publish(order)
        } else {
            Call::PublishByValue(order)
        }
    }

    fn good_draft(&self, random: &mut Random) -> Draft {
        let count = random.below(self.size.changes + 1);
        let changes = self.world.changes(random, &self.rows, count);
        Draft {
            bindings: self.world.bindings,
            postings: self.rows.clone(),
            free: self.size.capacity.saturating_sub(self.rows.len()),
            guards: self.world.guards(random, &changes, 2),
            strip: vec![],
            changes,
        }
    }

    /// Storage works, or fails at an insertion with a clean undo, or now and then fails anywhere.
    fn draw_storage(&self, random: &mut Random, draft: &mut Draft) {
        if random.one_in(self.size.rough) {
            let fail = random.pick(&[failing_undo, failing_source]);
            fail(random, &self.world, draft);
        } else if random.one_in(4) && !draft.bringing().is_empty() {
            failing_insertion(random, &self.world, draft);
            // A failure behind the last insertion would be a source's.
            draft.strip.truncate(draft.bringing().len());
        }
    }

    /// One publish call. An accepted one says what the rows are from now on.
    fn step(&mut self, random: &mut Random) -> Told {
        let call = self.draw(random);
        let outcome = self.engine.make(&call);
        self.seen.step(outcome.told.answer);
        let after = order_of(&outcome.after);
        self.head = after.head;
        self.table.clone_from(&after.table);
        if outcome.told.answer == answers::ACCEPTED {
            self.apply(&call);
            let record = after.record.clone();
            self.accepted.push(Accepted { call, record });
        }
        outcome.told
    }

    /// Destinations are added, sources taken away.
    fn apply(&mut self, call: &Call) {
        let changes = read_changes(&order_of(call).changes);
        self.rows
            .extend(changes.iter().filter_map(Change::destination));
        for source in changes.iter().filter_map(Change::source) {
            self.rows.remove(&source);
        }
    }

    /// The table is what the accepted calls say.
    fn check_table(&self) -> Compared {
        let expected = flat_table(&self.rows, self.size.capacity);
        self.same("the table", &self.table, &expected)?;
        let head = Head {
            used: self.rows.len() as u32,
            ..empty_head(&self.world)
        };
        self.same("the head", &self.head, &head)
    }

    /// The keys to count: all, or so many drawn ones.
    fn keys(&self, random: &mut Random) -> Vec<(u32, u32)> {
        let bindings = self.world.used_bindings.iter();
        let mut keys: Vec<(u32, u32)> = bindings
            .flat_map(|&binding| self.world.keys.iter().map(move |&key| (binding, key)))
            .collect();
        random.shuffle(&mut keys);
        keys.truncate(self.size.counts);
        keys
    }

    fn count(&self, binding: u32, key: u32) -> Told {
        let count = Call::Count(Counting {
            head: self.head,
            table: self.table.clone(),
            binding,
            key,
        });
        self.engine.make(&count).told
    }

    /// Every count is that of the rows that ought to be there.
    fn check_counts(&mut self, random: &mut Random) -> Compared {
        for (binding, key) in self.keys(random) {
            let told = self.count(binding, key);
            let rows = (binding, key, 0)..=(binding, key, u32::MAX);
            let expected = self.rows.range(rows).count() as u32;
            let what = format!("the count of {binding}, {key}");
            self.same(&what, &(told.answer, told.named), &(0, expected))?;
            self.seen.counts += 1;
        }
        Ok(())
    }

    /// Once poisoned, every publish and count is refused with 2 and nothing moves.
    fn check_poisoned(&mut self, random: &mut Random) -> Compared {
        self.same("the flag", &self.head.poisoned, &1)?;
        let refused = Told {
            answer: answers::POISONED,
            named: 0,
            other: 0,
        };
        for _ in 0..amounts::POISONED_STEPS {
            let (binding, key, _) = self.world.posting(random);
            let told = self.count(binding, key);
            self.same("a poisoned count", &told, &refused)?;
            let call = self.draw(random);
            let outcome = self.engine.make(&call);
            self.same("a poisoned publish", &outcome.told, &refused)?;
            self.same("what it was lent", &outcome.after, &call)?;
        }
        Ok(())
    }

    /// The accepted calls alone, on an empty table of equal size and with working storage, give
    /// this table and the same records.
    fn check_replay(&mut self, expected: &Vec<u32>) -> Compared {
        let mut head = empty_head(&self.world);
        let mut table = vec![0; 3 * self.size.capacity];
        for accepted in &self.accepted {
            let call = replay_on(&accepted.call, head, &table);
            let outcome = self.engine.make(&call);
            let after = order_of(&outcome.after);
            self.same("a replayed answer", &outcome.told.answer, &0)?;
            self.same("a replayed record", &after.record, &accepted.record)?;
            head = after.head;
            table.clone_from(&after.table);
        }
        self.same("the replayed table", &table, expected)?;
        self.seen.replayed += self.accepted.len();
        Ok(())
    }

    fn same<Value: PartialEq + Debug>(
        &self,
        what: &str,
        found: &Value,
        expected: &Value,
    ) -> Compared {
        if found == expected {
            return Ok(());
        }
        differs(
            &format!("history, seed {}, step {}", self.seed, self.seen.steps),
            format!("{what}\nfound:    {found:?}\nexpected: {expected:?}"),
        )
    }
}

fn empty_head(world: &World) -> Head {
    Head {
        bindings: world.bindings,
        used: 0,
        poisoned: 0,
    }
}

/// Damages a list that is not the table's.
fn damage_lists(random: &mut Random, order: &mut Order) {
    match random.below(4) {
        0 => damage_list(random, &mut order.changes),
        1 => damage_list(random, &mut order.guards),
        2 => damage_list(random, &mut order.record),
        _ => damage_strip(random, &mut order.strip),
    }
}
