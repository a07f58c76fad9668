//! Posting counts that are right or withheld.
//!
//! A forecast ensemble's probabilities are counts divided by a declared number.
//! Each member's field has a posting in an index: binding (the number of the
//! index), key, row. When a posting is lost and nobody says so, every probability
//! comes out too low. Asdrifen publishes postings and counts them so that a count
//! is right or withheld. This crate is the Rust face of its proved library.
//!
//! # Publish and count
//!
//! ```
//! use asdrifen::{Change, Guard, Index, Posting};
//!
//! // One binding, room for four postings, and the guard of key 5 is held.
//! let mut index = Index::new(1, 4)?;
//! let held = [Guard::new(0, 5)];
//! let member = |row| Change::added(Posting { binding: 0, key: 5, row });
//!
//! let record = index.publish(&[member(1), member(2), member(3)], &held)?;
//! assert_eq!(record, [0, 1, 2]);
//! assert_eq!(index.count(0, 5)?, 3);
//! # Ok::<(), asdrifen::Refused>(())
//! ```
//!
//! # A refusal
//!
//! A call does all its work or is refused by number. [`Refused`] says which
//! change, and prints what an operator needs. Changes are counted from 0.
//!
//! ```
//! use asdrifen::{Answer, Change, Guard, Index, Posting};
//!
//! let mut index = Index::new(1, 4)?;
//! let held = [Guard::new(0, 5)];
//! let member = |row| Change::added(Posting { binding: 0, key: 5, row });
//! index.publish(&[member(1)], &held)?;
//!
//! let refused = index.publish(&[member(2), member(1)], &held).unwrap_err();
//! assert_eq!(refused.answer, Answer::Present);
//! assert_eq!(
//!     refused.to_string(),
//!     "8 PRESENT, change 1 (counted from 0): a destination stands in the table already. \
//!      What to do: take the change out; it is published already."
//! );
//! assert_eq!(index.count(0, 5)?, 1);
//! # Ok::<(), asdrifen::Refused>(())
//! ```
//!
//! # Right or withheld
//!
//! Until a call answers 12 or 13, each count is the number of the rows that the
//! accepted publishes say. After a 12 or 13 the index is poisoned, and every
//! publish and count is refused with 2.
//!
//! Here storage fails in a drill. The strip says how it behaves: the first
//! insertion goes well, the second fails, and so does the removal that would undo
//! the first.
//!
//! ```
//! use asdrifen::{Answer, Change, Guard, Index, Posting};
//!
//! let mut index = Index::new(1, 4)?;
//! let held = [Guard::new(0, 5)];
//! let member = |row| Change::added(Posting { binding: 0, key: 5, row });
//!
//! let drill = index.with_strip(&[0, 1, 1]).publish(&[member(1), member(2)], &held);
//! assert_eq!(drill.unwrap_err().answer, Answer::Undo);
//! assert!(index.is_poisoned());
//!
//! let withheld = index.count(0, 5).unwrap_err();
//! assert_eq!(
//!     withheld.to_string(),
//!     "2 POISONED: the index was poisoned before the call. \
//!      What to do: withhold the index's counts."
//! );
//! # Ok::<(), asdrifen::Refused>(())
//! ```
//!
//! # What is proved
//!
//! Each call of the library is proved to end without fault and to do what its
//! rules say, for any numbers. That is so of lists that do not overlap and live as
//! long as the call, which Rust's borrows see to. This crate itself is not proved:
//! it is tested. Its only `unsafe` code is in [`lent`], one call in each function.
//! Nor does any proof cover what a caller does by hand with the numbers of a table.
//!
//! # Where to look
//!
//! - [`Index`] owns a table and its head. [`Node`] owns a view of a node. They keep what each call leaves.
//! - [`canonical_buckets`] and its sisters bring the buckets to lock into one order.
//! - [`Answer`] has the operator's table of numbers; [`limits`] the largest sizes.
//! - [`lent`] has every call one to one, over lists of your own, with no allocation.
//! - [`raw`] is the C header.

#![deny(missing_docs)]
#![deny(unsafe_op_in_unsafe_fn)]

mod answers;
mod buckets;
mod index;
pub mod lent;
pub mod limits;
mod node;
pub mod raw;

pub use answers::{Answer, Named, Refused};
pub use buckets::{
    canonical_buckets, canonical_buckets_bitmap, canonical_buckets_sort, output_length,
    scratch_length,
};
pub use index::{flatten_changes, flatten_guards, Change, Index, Posting, WithStrip};
pub use lent::{held, stamp_precedes_snapshot};
pub use node::{enough_rounds, Node};
pub use raw::{Detached, Done, Guard, Head, Told, View};
