//! Who makes the calls: the model or the library, or one that is wrong on purpose.

use crate::call::{Call, Outcome};
use model::{Detached, Done, Guard, Head, Told, View};

/// Makes any of the fourteen calls with copies of all that is lent.
pub trait Engine {
    /// Makes the call.
    fn make(&self, call: &Call) -> Outcome;
}

/// Publish with the head lent and the guards as pairs.
pub type LentPublish = fn(&mut Head, &mut [u32], &[u32], &[Guard], &[u8], &mut [u32]) -> Told;
/// Publish or prepare with the head by value: the record is written.
pub type Writing = fn(Head, &mut [u32], &[u32], &[u32], &[u8], &mut [u32]) -> Done;
/// Rollback: the record is read.
pub type Undoing = fn(Head, &mut [u32], &[u32], &[u32], &[u8], &[u32]) -> Done;
/// Source removal: no record.
pub type Removing = fn(Head, &mut [u32], &[u32], &[u32], &[u8]) -> Done;
/// A pass over the lanes.
pub type Pass = fn(View, &[u32], &[u8]) -> Detached;

/// The fourteen calls as functions.
#[allow(missing_docs)]
pub struct Functions {
    pub publish: LentPublish,
    pub poison_indexes: fn(&mut Head),
    pub held: fn(&[Guard], u32, u32) -> bool,
    pub publish_by_value: Writing,
    pub prepare_index_destinations: Writing,
    pub rollback_index_destinations: Undoing,
    pub remove_index_sources: Removing,
    pub count: fn(Head, &[u32], u32, u32) -> Told,
    pub cached_detach: Pass,
    pub refreshed_detach: Pass,
    pub detach_before_retire: fn(View, &[u32], &[u8], u32) -> Detached,
    pub canonical_buckets_sort: fn(&[u32], u32, &mut [u32]) -> Told,
    pub canonical_buckets_bitmap: fn(&[u32], u32, &mut [u32], &mut [u32]) -> Told,
    pub stamp_precedes_snapshot: fn(u64, u64) -> bool,
}

impl Engine for Functions {
    fn make(&self, call: &Call) -> Outcome {
        let mut after = call.clone();
        let told = after.run(self);
        Outcome { told, after }
    }
}

/// The model's calls.
pub const MODEL: Functions = Functions {
    publish: model::publish,
    poison_indexes: model::poison_indexes,
    held: model::held,
    publish_by_value: model::publish_by_value,
    prepare_index_destinations: model::prepare_index_destinations,
    rollback_index_destinations: model::rollback_index_destinations,
    remove_index_sources: model::remove_index_sources,
    count: model::count,
    cached_detach: model::cached_detach,
    refreshed_detach: model::refreshed_detach,
    detach_before_retire: model::detach_before_retire,
    canonical_buckets_sort: model::canonical_buckets_sort,
    canonical_buckets_bitmap: model::canonical_buckets_bitmap,
    stamp_precedes_snapshot: model::stamp_precedes_snapshot,
};

/// The library's calls.
pub const LIBRARY: Functions = Functions {
    publish: library::publish,
    poison_indexes: library::poison_indexes,
    held: library::held,
    publish_by_value: library::publish_by_value,
    prepare_index_destinations: library::prepare_index_destinations,
    rollback_index_destinations: library::rollback_index_destinations,
    remove_index_sources: library::remove_index_sources,
    count: library::count,
    cached_detach: library::cached_detach,
    refreshed_detach: library::refreshed_detach,
    detach_before_retire: library::detach_before_retire,
    canonical_buckets_sort: library::canonical_buckets_sort,
    canonical_buckets_bitmap: library::canonical_buckets_bitmap,
    stamp_precedes_snapshot: asdrifen::lent::stamp_precedes_snapshot,
};

/// The library's calls with the model's types.
mod library {
    use asdrifen::lent;
    use model::{Detached, Done, Guard, Head, Told, View};

    fn lent_head(head: Head) -> asdrifen::Head {
        asdrifen::Head {
            bindings: head.bindings,
            used: head.used,
            poisoned: head.poisoned,
        }
    }

    fn plain_head(head: asdrifen::Head) -> Head {
        Head {
            bindings: head.bindings,
            used: head.used,
            poisoned: head.poisoned,
        }
    }

    fn lent_guards(guards: &[Guard]) -> Vec<asdrifen::Guard> {
        let lent_guard = |guard: &Guard| asdrifen::Guard {
            binding: guard.binding,
            key: guard.key,
        };
        guards.iter().map(lent_guard).collect()
    }

    fn plain_told(told: asdrifen::Told) -> Told {
        Told {
            answer: told.answer,
            named: told.named,
            other: told.other,
        }
    }

    fn plain_done(done: asdrifen::Done) -> Done {
        Done {
            head: plain_head(done.head),
            told: plain_told(done.told),
        }
    }

    fn lent_view(view: View) -> asdrifen::View {
        asdrifen::View {
            height: view.height,
            guarded: view.guarded,
            retired: view.retired,
            attached: view.attached,
            window: view.window,
        }
    }

    fn plain_detached(detached: asdrifen::Detached) -> Detached {
        Detached {
            view: View {
                height: detached.view.height,
                guarded: detached.view.guarded,
                retired: detached.view.retired,
                attached: detached.view.attached,
                window: detached.view.window,
            },
            answer: detached.answer,
            value: detached.value,
        }
    }

    pub fn publish(
        head: &mut Head,
        table: &mut [u32],
        changes: &[u32],
        guards: &[Guard],
        strip: &[u8],
        record: &mut [u32],
    ) -> Told {
        let mut lent = lent_head(*head);
        let guards = lent_guards(guards);
        let before = guards.clone();
        let told = lent::publish(&mut lent, table, changes, &guards, strip, record);
        assert_eq!(before, guards, "publish wrote the guards");
        *head = plain_head(lent);
        plain_told(told)
    }

    pub fn poison_indexes(head: &mut Head) {
        let mut lent = lent_head(*head);
        lent::poison_indexes(&mut lent);
        *head = plain_head(lent);
    }

    pub fn held(guards: &[Guard], binding: u32, key: u32) -> bool {
        let guards = lent_guards(guards);
        let before = guards.clone();
        let held = lent::held(&guards, binding, key);
        assert_eq!(before, guards, "held wrote the guards");
        held
    }

    pub fn publish_by_value(
        head: Head,
        table: &mut [u32],
        changes: &[u32],
        guards: &[u32],
        strip: &[u8],
        record: &mut [u32],
    ) -> Done {
        let head = lent_head(head);
        plain_done(lent::publish_by_value(
            head, table, changes, guards, strip, record,
        ))
    }

    pub fn prepare_index_destinations(
        head: Head,
        table: &mut [u32],
        changes: &[u32],
        guards: &[u32],
        strip: &[u8],
        record: &mut [u32],
    ) -> Done {
        let head = lent_head(head);
        plain_done(lent::prepare_index_destinations(
            head, table, changes, guards, strip, record,
        ))
    }

    pub fn rollback_index_destinations(
        head: Head,
        table: &mut [u32],
        changes: &[u32],
        guards: &[u32],
        strip: &[u8],
        record: &[u32],
    ) -> Done {
        let head = lent_head(head);
        plain_done(lent::rollback_index_destinations(
            head, table, changes, guards, strip, record,
        ))
    }

    pub fn remove_index_sources(
        head: Head,
        table: &mut [u32],
        changes: &[u32],
        guards: &[u32],
        strip: &[u8],
    ) -> Done {
        let head = lent_head(head);
        plain_done(lent::remove_index_sources(
            head, table, changes, guards, strip,
        ))
    }

    pub fn count(head: Head, table: &[u32], binding: u32, key: u32) -> Told {
        plain_told(lent::count(lent_head(head), table, binding, key))
    }

    pub fn cached_detach(view: View, contents: &[u32], strip: &[u8]) -> Detached {
        plain_detached(lent::cached_detach(lent_view(view), contents, strip))
    }

    pub fn refreshed_detach(view: View, contents: &[u32], strip: &[u8]) -> Detached {
        plain_detached(lent::refreshed_detach(lent_view(view), contents, strip))
    }

    pub fn detach_before_retire(
        view: View,
        contents: &[u32],
        strip: &[u8],
        rounds: u32,
    ) -> Detached {
        let view = lent_view(view);
        plain_detached(lent::detach_before_retire(view, contents, strip, rounds))
    }

    pub fn canonical_buckets_sort(input: &[u32], buckets: u32, output: &mut [u32]) -> Told {
        plain_told(lent::canonical_buckets_sort(input, buckets, output))
    }

    pub fn canonical_buckets_bitmap(
        input: &[u32],
        buckets: u32,
        output: &mut [u32],
        scratch: &mut [u32],
    ) -> Told {
        plain_told(lent::canonical_buckets_bitmap(
            input, buckets, output, scratch,
        ))
    }
}
