//! The C header `include/asdrifen.h`, word for word.
//!
//! Nothing here is safe by itself: [`crate::lent`] has the same calls with
//! slices for pointers.

/// The head of a table: how many bindings there are, how many postings are in use, and the poison flag.
#[repr(C)]
#[derive(Clone, Copy, Debug, PartialEq, Eq)]
pub struct Head {
    /// Number of bindings (indexes), 0 to 64. Each posting's binding is below it.
    pub bindings: u32,
    /// Number of postings in use.
    pub used: u32,
    /// The poison flag: 0, or 1 when the counts must be withheld.
    pub poisoned: u32,
}

/// A held guard: the right to change the postings of one key of one binding.
#[repr(C)]
#[derive(Clone, Copy, Debug, PartialEq, Eq)]
pub struct Guard {
    /// The binding.
    pub binding: u32,
    /// The key.
    pub key: u32,
}

/// The numbers of an answer.
#[must_use = "the answer may be a refusal"]
#[repr(C)]
#[derive(Clone, Copy, Debug, PartialEq, Eq)]
pub struct Told {
    /// The number of the answer, 0 for accepted.
    pub answer: u32,
    /// What the answer names.
    pub named: u32,
    /// The second change of answer 7, else 0.
    pub other: u32,
}

/// The head after a call, and its answer.
#[must_use = "the next call takes the head that this one left"]
#[repr(C)]
#[derive(Clone, Copy, Debug, PartialEq, Eq)]
pub struct Done {
    /// The head as the call left it. Give it to the next call.
    pub head: Head,
    /// The answer.
    pub told: Told,
}

/// A node of the index as a detach sees it.
#[repr(C)]
#[derive(Clone, Copy, Debug, PartialEq, Eq)]
pub struct View {
    /// Number of lanes, 1 to 32.
    pub height: u32,
    /// 1 if the guard of the node is held, else 0.
    pub guarded: u32,
    /// 1 if the node is retired, else 0.
    pub retired: u32,
    /// The lanes that lead to the node: lane l is bit l.
    pub attached: u32,
    /// The lanes that the last search found. Bits at or above the height are ignored.
    pub window: u32,
}

/// The view after a lane call, and its answer.
#[must_use = "the next call takes the view that this one left"]
#[repr(C)]
#[derive(Clone, Copy, Debug, PartialEq, Eq)]
pub struct Detached {
    /// The node as the call left it.
    pub view: View,
    /// The number of the answer, 0 for accepted.
    pub answer: u32,
    /// Of a pass: 1 for yes, 0 for no. Of a detach: the rounds made.
    pub value: u32,
}

extern "C" {
    /// See [`crate::lent::publish`].
    pub fn asdrifen_publish(
        head: *mut Head,
        table: *mut u32,
        table_len: usize,
        changes: *const u32,
        changes_len: usize,
        guards: *const Guard,
        guards_len: usize,
        strip: *const u8,
        strip_len: usize,
        record: *mut u32,
        record_len: usize,
    ) -> Told;

    /// See [`crate::lent::poison_indexes`].
    pub fn asdrifen_poison_indexes(head: *mut Head);

    /// See [`crate::lent::held`].
    pub fn asdrifen_held(guards: *const Guard, guards_len: usize, binding: u32, key: u32) -> u32;

    /// See [`crate::lent::publish_by_value`].
    pub fn asdrifen_publish_by_value(
        head: Head,
        table: *mut u32,
        table_len: usize,
        changes: *const u32,
        changes_len: usize,
        guards: *const u32,
        guards_len: usize,
        strip: *const u8,
        strip_len: usize,
        record: *mut u32,
        record_len: usize,
    ) -> Done;

    /// See [`crate::lent::prepare_index_destinations`].
    pub fn asdrifen_prepare_index_destinations(
        head: Head,
        table: *mut u32,
        table_len: usize,
        changes: *const u32,
        changes_len: usize,
        guards: *const u32,
        guards_len: usize,
        strip: *const u8,
        strip_len: usize,
        record: *mut u32,
        record_len: usize,
    ) -> Done;

    /// See [`crate::lent::rollback_index_destinations`].
    pub fn asdrifen_rollback_index_destinations(
        head: Head,
        table: *mut u32,
        table_len: usize,
        changes: *const u32,
        changes_len: usize,
        guards: *const u32,
        guards_len: usize,
        strip: *const u8,
        strip_len: usize,
        record: *const u32,
        record_len: usize,
    ) -> Done;

    /// See [`crate::lent::remove_index_sources`].
    pub fn asdrifen_remove_index_sources(
        head: Head,
        table: *mut u32,
        table_len: usize,
        changes: *const u32,
        changes_len: usize,
        guards: *const u32,
        guards_len: usize,
        strip: *const u8,
        strip_len: usize,
    ) -> Done;

    /// See [`crate::lent::count`].
    pub fn asdrifen_count(
        head: Head,
        table: *const u32,
        table_len: usize,
        binding: u32,
        key: u32,
    ) -> Told;

    /// See [`crate::lent::cached_detach`].
    pub fn asdrifen_cached_detach(
        view: View,
        contents: *const u32,
        contents_len: usize,
        strip: *const u8,
        strip_len: usize,
    ) -> Detached;

    /// See [`crate::lent::refreshed_detach`].
    pub fn asdrifen_refreshed_detach(
        view: View,
        contents: *const u32,
        contents_len: usize,
        strip: *const u8,
        strip_len: usize,
    ) -> Detached;

    /// See [`crate::lent::detach_before_retire`].
    pub fn asdrifen_detach_before_retire(
        view: View,
        contents: *const u32,
        contents_len: usize,
        strip: *const u8,
        strip_len: usize,
        rounds: u32,
    ) -> Detached;

    /// See [`crate::lent::canonical_buckets_sort`].
    pub fn asdrifen_canonical_buckets_sort(
        input: *const u32,
        input_len: usize,
        buckets: u32,
        output: *mut u32,
        output_len: usize,
    ) -> Told;

    /// See [`crate::lent::canonical_buckets_bitmap`].
    pub fn asdrifen_canonical_buckets_bitmap(
        input: *const u32,
        input_len: usize,
        buckets: u32,
        output: *mut u32,
        output_len: usize,
        scratch: *mut u32,
        scratch_len: usize,
    ) -> Told;

    /// See [`crate::lent::stamp_precedes_snapshot`].
    pub fn asdrifen_stamp_precedes_snapshot(stamp: u64, snapshot: u64) -> u32;
}
