//! The largest sizes that the calls take. More is refused by number.

/// Bindings of a head; more is 1 TABLE.
pub const BINDINGS: u32 = 64;
/// Postings that a table has room for; more is 1 TABLE.
pub const CAPACITY: usize = 4_096;
/// Changes of a list; more is 3 LIST.
pub const CHANGES: usize = 256;
/// Guards held; more is 3 LIST.
pub const GUARDS: usize = 1_024;
/// Bytes of a strip; more is 4 STRIP or 23 STRIP.
pub const STRIP: usize = 1_024;
/// Lanes of a node; more is 20 HEIGHT.
pub const LANES: u32 = 32;
/// Numbers of a bucket call's input; more is 30 LIMITS.
pub const INPUT: usize = 4_096;
/// Buckets; more is 30 LIMITS.
pub const BUCKETS: u32 = 65_536;
