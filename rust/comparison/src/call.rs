//! One call with all that is lent to it, and what it leaves behind.

use crate::engine::Functions;
use model::{Detached, Done, Guard, Head, Told, View};

/// What is lent to the calls on changes. Rollback reads the record, removal does not look at it.
#[derive(Clone, Debug, PartialEq, Eq)]
#[allow(missing_docs)]
pub struct Order {
    pub head: Head,
    pub table: Vec<u32>,
    pub changes: Vec<u32>,
    pub guards: Vec<u32>,
    pub strip: Vec<u8>,
    pub record: Vec<u32>,
}

/// What is lent to a count.
#[derive(Clone, Debug, PartialEq, Eq)]
#[allow(missing_docs)]
pub struct Counting {
    pub head: Head,
    pub table: Vec<u32>,
    pub binding: u32,
    pub key: u32,
}

/// What is lent to the search for a guard.
#[derive(Clone, Debug, PartialEq, Eq)]
#[allow(missing_docs)]
pub struct Holding {
    pub guards: Vec<Guard>,
    pub binding: u32,
    pub key: u32,
}

/// What is lent to the lane calls. Only a detach looks at the rounds.
#[derive(Clone, Debug, PartialEq, Eq)]
#[allow(missing_docs)]
pub struct Lane {
    pub view: View,
    pub contents: Vec<u32>,
    pub strip: Vec<u8>,
    pub rounds: u32,
}

/// What is lent to the bucket engines. Only the bitmap looks at the scratch.
#[derive(Clone, Debug, PartialEq, Eq)]
#[allow(missing_docs)]
pub struct Buckets {
    pub input: Vec<u32>,
    pub buckets: u32,
    pub output: Vec<u32>,
    pub scratch: Vec<u32>,
}

/// One call with all that is lent to it.
#[derive(Clone, Debug, PartialEq, Eq)]
#[allow(missing_docs)]
pub enum Call {
    Publish(Order),
    PublishByValue(Order),
    Prepare(Order),
    Rollback(Order),
    Removal(Order),
    Count(Counting),
    Held(Holding),
    Poison(Head),
    Cached(Lane),
    Refreshed(Lane),
    Detach(Lane),
    Sort(Buckets),
    Bitmap(Buckets),
    Stamp(u64, u64),
}

/// What a call told, and all that was lent as it is afterwards.
#[derive(Clone, Debug, PartialEq, Eq)]
pub struct Outcome {
    /// What it told. A yes or no without an answer stands as the answer 1 or 0.
    pub told: Told,
    /// All that was lent.
    pub after: Call,
}

/// The flat guards as pairs. A number without its partner is left out.
pub fn pairs(guards: &[u32]) -> Vec<Guard> {
    let pair = |numbers: &[u32]| Guard {
        binding: numbers[0],
        key: numbers[1],
    };
    guards.chunks_exact(2).map(pair).collect()
}

impl Order {
    /// The same with an even number of numbers in the guards.
    fn in_pairs(mut self) -> Order {
        self.guards.truncate(self.guards.len() / 2 * 2);
        self
    }

    fn publish(&mut self, functions: &Functions) -> Told {
        (functions.publish)(
            &mut self.head,
            &mut self.table,
            &self.changes,
            &pairs(&self.guards),
            &self.strip,
            &mut self.record,
        )
    }

    fn publish_by_value(&mut self, functions: &Functions) -> Told {
        let done = (functions.publish_by_value)(
            self.head,
            &mut self.table,
            &self.changes,
            &self.guards,
            &self.strip,
            &mut self.record,
        );
        self.ended(done)
    }

    fn prepare(&mut self, functions: &Functions) -> Told {
        let done = (functions.prepare_index_destinations)(
            self.head,
            &mut self.table,
            &self.changes,
            &self.guards,
            &self.strip,
            &mut self.record,
        );
        self.ended(done)
    }

    fn rollback(&mut self, functions: &Functions) -> Told {
        let done = (functions.rollback_index_destinations)(
            self.head,
            &mut self.table,
            &self.changes,
            &self.guards,
            &self.strip,
            &self.record,
        );
        self.ended(done)
    }

    fn removal(&mut self, functions: &Functions) -> Told {
        let done = (functions.remove_index_sources)(
            self.head,
            &mut self.table,
            &self.changes,
            &self.guards,
            &self.strip,
        );
        self.ended(done)
    }

    fn ended(&mut self, done: Done) -> Told {
        self.head = done.head;
        done.told
    }
}

impl Lane {
    fn ended(&mut self, detached: Detached) -> Told {
        self.view = detached.view;
        Told {
            answer: detached.answer,
            named: detached.value,
            other: 0,
        }
    }

    fn cached(&mut self, functions: &Functions) -> Told {
        self.ended((functions.cached_detach)(
            self.view,
            &self.contents,
            &self.strip,
        ))
    }

    fn refreshed(&mut self, functions: &Functions) -> Told {
        self.ended((functions.refreshed_detach)(
            self.view,
            &self.contents,
            &self.strip,
        ))
    }

    fn detach(&mut self, functions: &Functions) -> Told {
        self.ended((functions.detach_before_retire)(
            self.view,
            &self.contents,
            &self.strip,
            self.rounds,
        ))
    }
}

fn yes_or_no(yes: bool) -> Told {
    Told {
        answer: u32::from(yes),
        named: 0,
        other: 0,
    }
}

impl Call {
    /// Publish with the guards as pairs.
    pub fn publish(order: Order) -> Call {
        Call::Publish(order.in_pairs())
    }

    /// The name of the call.
    pub fn name(&self) -> &'static str {
        match self {
            Call::Publish(_) => "publish",
            Call::PublishByValue(_) => "publish_by_value",
            Call::Prepare(_) => "prepare_index_destinations",
            Call::Rollback(_) => "rollback_index_destinations",
            Call::Removal(_) => "remove_index_sources",
            Call::Count(_) => "count",
            Call::Held(_) => "held",
            Call::Poison(_) => "poison_indexes",
            Call::Cached(_) => "cached_detach",
            Call::Refreshed(_) => "refreshed_detach",
            Call::Detach(_) => "detach_before_retire",
            Call::Sort(_) => "canonical_buckets_sort",
            Call::Bitmap(_) => "canonical_buckets_bitmap",
            Call::Stamp(..) => "stamp_precedes_snapshot",
        }
    }

    /// The order, of a call on changes.
    pub fn order(&self) -> Option<&Order> {
        match self {
            Call::Publish(order)
            | Call::PublishByValue(order)
            | Call::Prepare(order)
            | Call::Rollback(order)
            | Call::Removal(order) => Some(order),
            _ => None,
        }
    }

    /// The order, of a call on changes, to be written.
    pub fn order_mut(&mut self) -> Option<&mut Order> {
        match self {
            Call::Publish(order)
            | Call::PublishByValue(order)
            | Call::Prepare(order)
            | Call::Rollback(order)
            | Call::Removal(order) => Some(order),
            _ => None,
        }
    }

    /// Makes the call. What is lent is written in place.
    pub fn run(&mut self, functions: &Functions) -> Told {
        match self {
            Call::Publish(order) => order.publish(functions),
            Call::PublishByValue(order) => order.publish_by_value(functions),
            Call::Prepare(order) => order.prepare(functions),
            Call::Rollback(order) => order.rollback(functions),
            Call::Removal(order) => order.removal(functions),
            Call::Count(lent) => (functions.count)(lent.head, &lent.table, lent.binding, lent.key),
            Call::Held(lent) => yes_or_no((functions.held)(&lent.guards, lent.binding, lent.key)),
            Call::Poison(head) => {
                (functions.poison_indexes)(head);
                yes_or_no(false)
            }
            Call::Cached(lane) => lane.cached(functions),
            Call::Refreshed(lane) => lane.refreshed(functions),
            Call::Detach(lane) => lane.detach(functions),
            Call::Sort(lent) => {
                (functions.canonical_buckets_sort)(&lent.input, lent.buckets, &mut lent.output)
            }
            Call::Bitmap(lent) => (functions.canonical_buckets_bitmap)(
                &lent.input,
                lent.buckets,
                &mut lent.output,
                &mut lent.scratch,
            ),
            Call::Stamp(stamp, snapshot) => {
                yes_or_no((functions.stamp_precedes_snapshot)(*stamp, *snapshot))
            }
        }
    }
}
