//! The limits of the specification that the cases are built around. They are
//! stated here again, because a limit taken from one of the two sides would
//! not be tested.

pub const LAST_MOMENT: i64 = 4_000_000_000_000_000_000;
pub const LAST_TICKS: u64 = 4_000_000_000_000_000_000;
pub const LAST_CLAIM: u16 = 50_000;
pub const LAST_PASS: u64 = 86_400_000;
pub const LAST_WAIT: u64 = 3_600_000;
pub const LAST_TAG: u32 = 16_777_215;
/// Of an out time and of a back time.
pub const LAST_FLIGHT: u32 = 1_000_000_000;
pub const PEERS: usize = 16;
pub const SLOTS: usize = 16;
pub const FIRST_YEAR: u64 = 1900;
pub const LAST_YEAR: u64 = 2099;
pub const FIRST_DATED: i64 = -3_155_673_600_000_000_000;
pub const LAST_DATED: i64 = 3_155_759_999_999_999_999;
pub const SECOND: i64 = 1_000_000_000;
pub const MOST_DIGITS: usize = 19;
pub const LONGEST_LINE: usize = 160;
/// No longer line has a command's shape: a start with the longest numerals.
pub const LONGEST_SHAPE: usize = 118;
pub const SHORTEST_OUTPUT: usize = 256;
pub const IMAGE_LENGTH: usize = 360;
pub const VERSION: u8 = 2;
/// Those of an image before flight times.
pub const OLDER_LENGTH: usize = 232;
pub const OLDER_VERSION: u8 = 1;

pub type Image = [u8; IMAGE_LENGTH];
