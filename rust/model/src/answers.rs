//! The numbers that an operator sees.

/// The call did all that it was asked.
pub const ACCEPTED: u32 = 0;

/// Table or head not well formed.
pub const TABLE: u32 = 1;
/// The poison flag was set at entry.
pub const POISONED: u32 = 2;
/// Change list ill formed or too long, or guards ill formed or too many.
pub const LIST: u32 = 3;
/// Strip too long, or a byte of it above 2.
pub const STRIP: u32 = 4;
/// Record list shorter than the number of changes.
pub const ROOM: u32 = 5;
/// A binding that does not exist, or a key whose guard is not held.
pub const GUARD: u32 = 6;
/// Two changes have the same destination.
pub const TWICE: u32 = 7;
/// A destination is already in the table.
pub const PRESENT: u32 = 8;
/// A source is also a destination of the same list.
pub const OVERLAP: u32 = 9;
/// An insertion failed in storage, and the undo was clean.
pub const STORE: u32 = 10;
/// An insertion found no room, and the undo was clean.
pub const FULL: u32 = 11;
/// A removal of the undo failed: poisoned.
pub const UNDO: u32 = 12;
/// The removal of a source failed: poisoned.
pub const SOURCE: u32 = 13;
/// A place of the record lent to rollback is bad.
pub const RECORD: u32 = 14;

/// Height 0 or above 32.
pub const HEIGHT: u32 = 20;
/// View not guarded, retired, or with a lane attached at or above its height.
pub const VIEW: u32 = 21;
/// Refreshed pass alone: a lane is attached outside the window.
pub const WINDOW: u32 = 22;
/// Strip of a lane call too long, or a byte of it above 2.
pub const LANE_STRIP: u32 = 23;
/// Storage met an error byte.
pub const OFFSET: u32 = 24;
/// The lent rounds are used up.
pub const BUDGET: u32 = 25;

/// Too many numbers of input, or too many buckets.
pub const LIMIT: u32 = 30;
/// Output or scratch too short.
pub const SPACE: u32 = 31;
/// An element is not below the bucket count.
pub const ELEMENT: u32 = 32;
