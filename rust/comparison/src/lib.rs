//! Compares the library with the model.
//!
//! An [`engine::Engine`] makes the fourteen calls: the model, the library, or one that is wrong on
//! purpose. A [`call::Call`] is one call with all that is lent to it. A [`compare::Comparison`]
//! makes a call with two engines and looks at the answer, the named values and every number lent,
//! written or not. The suites make the calls: all small cases, random ones, ones at the limits, and
//! damaged copies. They run with any two engines, so that the tests can also show that a wrong one
//! is told apart.
//!
//! Random cases come from seeds in a row. A failure prints its seed and the whole case. To begin
//! with that case, set `ASDRIFEN_SEED` to its seed.

#![forbid(unsafe_code)]
#![warn(missing_docs)]

pub mod amounts;
pub mod buckets;
pub mod call;
pub mod compare;
pub mod coverage;
pub mod draft;
pub mod engine;
pub mod guards;
pub mod history;
pub mod lanes;
pub mod limits;
pub mod orders;
pub mod random;
pub mod relations;
pub mod small_orders;
pub mod twists;
