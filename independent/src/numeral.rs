//! The spelling of a numeral, plain or grouped. Every number of a line is one,
//! but for the fields of a date.
//!
//! "A numeral is 1 to 19 digits, with no leading zero unless it is 0 itself,
//! and one '-' before it if negative; -0 is no numeral." It "may now carry `_`
//! between groups of three counted from the right, either at every group or at
//! none".

use crate::limits::MAX_DIGITS;

/// Stands between the groups of a grouped numeral.
const SEPARATOR: u8 = b'_';
/// Digits of a group. Only the first one may have fewer, because the groups are
/// counted from the right.
const GROUP: usize = 3;

/// The value of a numeral without a sign; `None` if the word is no such
/// numeral. Nineteen digits always fit in u64.
pub fn unsigned(word: &[u8]) -> Option<u64> {
    let is_spelled = is_plain(word) || is_grouped(word);
    if !is_spelled || has_leading_zero(word) {
        return None;
    }
    let digits = word.iter().filter(|&&byte| byte != SEPARATOR);
    // "The 19-digit limit counts digits only".
    if digits.clone().count() > MAX_DIGITS {
        return None;
    }
    Some(digits.fold(0, |value, digit| value * 10 + u64::from(digit - b'0')))
}

/// The value of a numeral that may be negative; `None` if the word is none.
///
/// A magnitude above `i64::MAX` becomes `i64::MAX`. Both are outside the range
/// of moments, so the caller refuses the one as it would the other.
pub fn signed(word: &[u8]) -> Option<i64> {
    let Some(magnitude) = word.strip_prefix(b"-") else {
        return Some(clamped(unsigned(word)?));
    };
    match unsigned(magnitude)? {
        0 => None,
        magnitude => Some(-clamped(magnitude)),
    }
}

fn clamped(magnitude: u64) -> i64 {
    i64::try_from(magnitude).unwrap_or(i64::MAX)
}

/// `_` "at none" of the groups: one digit or more, and no other byte.
fn is_plain(word: &[u8]) -> bool {
    !word.is_empty() && word.iter().all(u8::is_ascii_digit)
}

/// `_` "at every group": each group has three digits, but the first may have
/// fewer. A word of a single group is plain as well.
fn is_grouped(word: &[u8]) -> bool {
    let mut groups = word.split(|&byte| byte == SEPARATOR);
    let Some(first) = groups.next() else {
        return false;
    };
    is_plain(first)
        && first.len() <= GROUP
        && groups.all(|group| is_plain(group) && group.len() == GROUP)
}

/// Whether the word begins with a zero but is not 0 itself.
fn has_leading_zero(word: &[u8]) -> bool {
    word.starts_with(b"0") && word.len() > 1
}
