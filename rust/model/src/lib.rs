//! An independent model of the fourteen calls: obviously right rather than fast.
//!
//! It shares no code and no type with the library. It is written from the rules in words alone,
//! with sets, options and plain vectors, so that a comparison of the two means something. Any
//! numbers may come in, and every call ends.
//!
//! One module for each part: [`postings`], [`lanes`] and [`buckets`].

#![forbid(unsafe_code)]
#![warn(missing_docs)]

pub mod answers;
pub mod buckets;
pub mod lanes;
pub mod postings;

pub use buckets::{canonical_buckets_bitmap, canonical_buckets_sort, stamp_precedes_snapshot};
pub use lanes::{cached_detach, detach_before_retire, refreshed_detach, Detached, View};
pub use postings::{
    count, held, poison_indexes, prepare_index_destinations, publish, publish_by_value,
    remove_index_sources, rollback_index_destinations, Done, Guard, Head,
};

/// What a call tells: its answer, and the one or two values that go with it.
#[derive(Clone, Copy, Debug, PartialEq, Eq)]
pub struct Told {
    /// 0 for accepted, otherwise one of the numbers in [`answers`].
    pub answer: u32,
    /// The value that the answer names, 0 where it names none.
    pub named: u32,
    /// The later change of the pair in [`answers::TWICE`], 0 with any other answer.
    pub other: u32,
}

impl Told {
    /// Accepted, with the value that the call gives.
    fn accepted(value: usize) -> Told {
        Told::naming(answers::ACCEPTED, number(value))
    }

    /// Refused, with nothing to name.
    fn refused(answer: u32) -> Told {
        Told::naming(answer, 0)
    }

    /// An answer that names one value.
    fn naming(answer: u32, named: u32) -> Told {
        Told {
            answer,
            named,
            other: 0,
        }
    }
}

/// A place or a length as the number that is told. All that are told are far below the limit of
/// u32.
fn number(place: usize) -> u32 {
    u32::try_from(place).expect("a told place or length fits in u32")
}
