//! The calls one to one, safe, over lists that the caller lends.
//!
//! Any numbers may come in. Nothing is allocated. The numbers of an answer come
//! back as they are; [`Told::result`], [`Told::counted`] and [`Detached::result`] make a
//! `Result` of them.
//!
//! Flat forms: a table is three numbers to a posting (binding, key, row); a
//! change six (binding, row, before flag, before key, after flag, after key); a
//! guard of the by-value calls two (binding, key). A strip says how storage
//! behaves, a byte to each insertion or removal: 0 well, 1 or 2 it fails. The
//! empty strip is storage that does not fail.

use crate::raw::{self, Detached, Done, Guard, Head, Told, View};

/// Publishes: all destinations in, then all sources out, or a refusal. The head is written in place.
///
/// ```
/// use asdrifen::{lent, Guard, Head};
///
/// let mut head = Head { bindings: 2, used: 3, poisoned: 0 };
/// let mut table = [0, 5, 1, 0, 5, 2, 0, 5, 3, 0, 0, 0];
/// let mut record = [0];
/// // Binding 0, row 1, from key 5, to key 6. Both keys are held.
/// let changes = [0, 1, 1, 5, 1, 6];
/// let held = [Guard::new(0, 5), Guard::new(0, 6)];
///
/// let told = lent::publish(&mut head, &mut table, &changes, &held, &[], &mut record);
/// assert_eq!(told.result(), Ok(1));
/// assert_eq!(table, [0, 5, 2, 0, 5, 3, 0, 6, 1, 0, 0, 0]);
/// assert_eq!(lent::count(head, &table, 0, 5).counted(), Ok(2));
/// ```
pub fn publish(
    head: &mut Head,
    table: &mut [u32],
    changes: &[u32],
    guards: &[Guard],
    strip: &[u8],
    record: &mut [u32],
) -> Told {
    // SAFETY: the references are live and do not overlap; each length is its slice's own.
    unsafe {
        raw::asdrifen_publish(
            head,
            table.as_mut_ptr(),
            table.len(),
            changes.as_ptr(),
            changes.len(),
            guards.as_ptr(),
            guards.len(),
            strip.as_ptr(),
            strip.len(),
            record.as_mut_ptr(),
            record.len(),
        )
    }
}

/// Sets the poison flag in place.
pub fn poison_indexes(head: &mut Head) {
    // SAFETY: the reference is live and nothing else refers to the head.
    unsafe { raw::asdrifen_poison_indexes(head) }
}

/// Whether the guard of a binding and key is among those held.
///
/// ```
/// use asdrifen::{held, Guard};
///
/// let guards = [Guard::new(0, 5), Guard::new(0, 6)];
/// assert!(held(&guards, 0, 6));
/// assert!(!held(&guards, 1, 6));
/// ```
pub fn held(guards: &[Guard], binding: u32, key: u32) -> bool {
    // SAFETY: the slice is live and the length is its own.
    unsafe { raw::asdrifen_held(guards.as_ptr(), guards.len(), binding, key) != 0 }
}

/// The same publish, with the head by value and flat guards.
///
/// ```
/// use asdrifen::{lent, Answer, Head};
///
/// // Storage fails as row 1 is taken away: the head that comes back is poisoned.
/// let head = Head { bindings: 1, used: 1, poisoned: 0 };
/// let mut table = [0, 5, 1];
/// let done = lent::publish_by_value(head, &mut table, &[0, 1, 1, 5, 0, 0], &[0, 5], &[1], &mut [0]);
/// assert_eq!(done.told.result().unwrap_err().answer, Answer::Source);
/// assert_eq!(done.head.poisoned, 1);
/// ```
pub fn publish_by_value(
    head: Head,
    table: &mut [u32],
    changes: &[u32],
    guards: &[u32],
    strip: &[u8],
    record: &mut [u32],
) -> Done {
    // SAFETY: the slices are live and do not overlap; each length is its slice's own.
    unsafe {
        raw::asdrifen_publish_by_value(
            head,
            table.as_mut_ptr(),
            table.len(),
            changes.as_ptr(),
            changes.len(),
            guards.as_ptr(),
            guards.len(),
            strip.as_ptr(),
            strip.len(),
            record.as_mut_ptr(),
            record.len(),
        )
    }
}

/// Puts all destinations in, or none. The record names the changes that had one.
pub fn prepare_index_destinations(
    head: Head,
    table: &mut [u32],
    changes: &[u32],
    guards: &[u32],
    strip: &[u8],
    record: &mut [u32],
) -> Done {
    // SAFETY: the slices are live and do not overlap; each length is its slice's own.
    unsafe {
        raw::asdrifen_prepare_index_destinations(
            head,
            table.as_mut_ptr(),
            table.len(),
            changes.as_ptr(),
            changes.len(),
            guards.as_ptr(),
            guards.len(),
            strip.as_ptr(),
            strip.len(),
            record.as_mut_ptr(),
            record.len(),
        )
    }
}

/// Takes back what a prepare put in. Lend the part of the record list that prepare named, and no more.
pub fn rollback_index_destinations(
    head: Head,
    table: &mut [u32],
    changes: &[u32],
    guards: &[u32],
    strip: &[u8],
    record: &[u32],
) -> Done {
    // SAFETY: the slices are live and do not overlap; each length is its slice's own.
    unsafe {
        raw::asdrifen_rollback_index_destinations(
            head,
            table.as_mut_ptr(),
            table.len(),
            changes.as_ptr(),
            changes.len(),
            guards.as_ptr(),
            guards.len(),
            strip.as_ptr(),
            strip.len(),
            record.as_ptr(),
            record.len(),
        )
    }
}

/// Takes all sources out, up to the first that storage fails on.
pub fn remove_index_sources(
    head: Head,
    table: &mut [u32],
    changes: &[u32],
    guards: &[u32],
    strip: &[u8],
) -> Done {
    // SAFETY: the slices are live and do not overlap; each length is its slice's own.
    unsafe {
        raw::asdrifen_remove_index_sources(
            head,
            table.as_mut_ptr(),
            table.len(),
            changes.as_ptr(),
            changes.len(),
            guards.as_ptr(),
            guards.len(),
            strip.as_ptr(),
            strip.len(),
        )
    }
}

/// The number of postings with a binding and key.
pub fn count(head: Head, table: &[u32], binding: u32, key: u32) -> Told {
    // SAFETY: the slice is live and the length is its own.
    unsafe { raw::asdrifen_count(head, table.as_ptr(), table.len(), binding, key) }
}

/// One pass over the lanes of the window, from the top down: yes if every lane was cleared.
pub fn cached_detach(view: View, contents: &[u32], strip: &[u8]) -> Detached {
    // SAFETY: the slices are live and each length is its slice's own.
    unsafe {
        raw::asdrifen_cached_detach(
            view,
            contents.as_ptr(),
            contents.len(),
            strip.as_ptr(),
            strip.len(),
        )
    }
}

/// One pass over the lanes of a refreshed window: yes if there was no lane left to clear.
pub fn refreshed_detach(view: View, contents: &[u32], strip: &[u8]) -> Detached {
    // SAFETY: the slices are live and each length is its slice's own.
    unsafe {
        raw::asdrifen_refreshed_detach(
            view,
            contents.as_ptr(),
            contents.len(),
            strip.as_ptr(),
            strip.len(),
        )
    }
}

/// Detaches a node from all its lanes and retires it, in at most `rounds` rounds.
pub fn detach_before_retire(view: View, contents: &[u32], strip: &[u8], rounds: u32) -> Detached {
    // SAFETY: the slices are live and each length is its slice's own.
    unsafe {
        raw::asdrifen_detach_before_retire(
            view,
            contents.as_ptr(),
            contents.len(),
            strip.as_ptr(),
            strip.len(),
            rounds,
        )
    }
}

/// The distinct elements of the input, ascending, by sorting.
pub fn canonical_buckets_sort(input: &[u32], buckets: u32, output: &mut [u32]) -> Told {
    // SAFETY: the slices are live and do not overlap; each length is its slice's own.
    unsafe {
        raw::asdrifen_canonical_buckets_sort(
            input.as_ptr(),
            input.len(),
            buckets,
            output.as_mut_ptr(),
            output.len(),
        )
    }
}

/// The distinct elements of the input, ascending, by a bit to each bucket.
pub fn canonical_buckets_bitmap(
    input: &[u32],
    buckets: u32,
    output: &mut [u32],
    scratch: &mut [u32],
) -> Told {
    // SAFETY: the slices are live and do not overlap; each length is its slice's own.
    unsafe {
        raw::asdrifen_canonical_buckets_bitmap(
            input.as_ptr(),
            input.len(),
            buckets,
            output.as_mut_ptr(),
            output.len(),
            scratch.as_mut_ptr(),
            scratch.len(),
        )
    }
}

/// Whether a stamp is less than a snapshot.
///
/// ```
/// assert!(asdrifen::stamp_precedes_snapshot(6, 7));
/// assert!(!asdrifen::stamp_precedes_snapshot(7, 7));
/// ```
pub fn stamp_precedes_snapshot(stamp: u64, snapshot: u64) -> bool {
    // SAFETY: two numbers go in and one comes out.
    unsafe { raw::asdrifen_stamp_precedes_snapshot(stamp, snapshot) != 0 }
}
