//! The limits of the specification, each stated once.

/// Last moment of the range, in nanoseconds from the epoch.
pub const MAX_MOMENT: i64 = 4_000_000_000_000_000_000;
/// First moment of the range.
pub const MIN_MOMENT: i64 = -MAX_MOMENT;

/// Nominal length of a tick in nanoseconds.
pub const NOMINAL_TICK: i64 = 1_000_000;
/// Largest claim: how far a tick may be from its nominal length, either way.
pub const MAX_CLAIM: u16 = 50_000;

/// Largest number of ticks since the start.
pub const MAX_TICKS: u64 = 4_000_000_000_000_000_000;
/// Largest number of ticks in one pass.
pub const MAX_PASS: u64 = 86_400_000;
/// Largest number of ticks between a request and its reply.
pub const MAX_WAIT: u64 = 3_600_000;

/// Number of boards; a board number and a peer number are below it.
pub const BOARDS: usize = 16;
/// Largest number of requests, and so the largest tag.
pub const MAX_REQUESTS: u32 = 16_777_215;

/// Largest out time and largest back time of a peer, in nanoseconds.
pub const MAX_FLIGHT: u32 = 1_000_000_000;

/// Number of heater slots.
pub const SLOTS: usize = 16;

/// Length of a second in nanoseconds.
pub const SECOND: i64 = 1_000_000_000;
/// First year that has dates.
pub const FIRST_YEAR: u64 = 1900;
/// Last year that has dates.
pub const LAST_YEAR: u64 = 2099;

/// Longest line in bytes, without its LF.
pub const MAX_LINE: usize = 160;
/// Most digits in a numeral; its sign and each `_` are not counted.
pub const MAX_DIGITS: usize = 19;
/// Shortest output that a caller may lend. The longest answer is a `waiting`
/// line with fifteen peers; it has 211 bytes with its LF.
pub const MIN_OUTPUT: usize = 256;
