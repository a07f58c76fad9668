//! How many cases each suite makes. A case of an order is six or more calls.

/// Random small orders, some with one or more faults put in.
pub const RANDOM_ORDERS: u64 = 40_000;
/// Random small orders with one number damaged.
pub const DAMAGED_ORDERS: u64 = 40_000;
/// Orders at the limits of table, changes, guards, strip and record.
pub const LIMIT_ORDERS: u64 = 1_000;
/// Random views.
pub const RANDOM_VIEWS: u64 = 40_000;
/// Random inputs of buckets.
pub const RANDOM_BUCKETS: u64 = 8_000;
/// Random lists of guards.
pub const RANDOM_GUARDS: u64 = 2_000;
/// Random pairs of stamps.
pub const RANDOM_STAMPS: u64 = 5_000;
/// Cases of each relation between calls.
pub const RELATIONS: u64 = 5_000;
/// Histories of publish calls on small tables.
pub const HISTORIES: u64 = 120;
/// The most publish calls in one history.
pub const HISTORY_STEPS: usize = 400;
/// Publish calls made once a history is poisoned.
pub const POISONED_STEPS: usize = 20;
/// Histories on a table of the largest size.
pub const LARGE_HISTORIES: u64 = 4;
/// The most publish calls in one of those.
pub const LARGE_HISTORY_STEPS: usize = 120;

/// How often each answer of each call must be seen at least.
pub const LEAST: u64 = 10;
