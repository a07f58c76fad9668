//! The same calls in ordinary Rust: the same checks in the same order, the same work, the same answers.
//!
//! The long ones are functions of their own, never put into their caller. The short ones (held, poison, the lane calls, the
//! stamp test) are measured both ways, because a call over a border is a good part of their time.

pub mod buckets;
pub mod checks;
pub mod lanes;
pub mod postings;
pub mod storage;
pub mod tables;
