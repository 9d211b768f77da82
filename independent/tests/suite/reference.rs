//! A second reading of lines, by another way than that of the library: the
//! words of a line are put together again and compared with the line, and so
//! are the groups of a numeral. Also a second arithmetic of dates, with a
//! formula instead of counting.

/// Returns 0 for a line that is a command, else the number of its refusal.
pub fn number_of(line: &[u8]) -> u8 {
    let Ok(text) = std::str::from_utf8(line) else {
        return 1;
    };
    match number_of_shape(text) {
        _ if line.len() > 160 => 1,
        None => 1,
        Some(number) => number,
    }
}

/// The number of a line of any length; `None` if it has no command shape.
fn number_of_shape(text: &str) -> Option<u8> {
    let words: Vec<&str> = text
        .split(['(', ')', ' '])
        .filter(|word| !word.is_empty())
        .collect();
    let (again, allowed) = match words[..] {
        ["start", board, rule @ ("im" | "mm"), claim, lower, upper] => (
            format!("(start {board} {rule} {claim} ({lower} {upper}))"),
            // Every part is read, so that a wrong shape in a later one shows.
            (count(board)? <= 15) & (count(claim)? <= 50_000) & edges(lower, upper)?,
        ),
        ["reply", peer, tag, trailing, leading] => (
            format!("(reply {peer} {tag} ({trailing} {leading}))"),
            (count(peer)? <= 15)
                & (1..=16_777_215).contains(&count(tag)?)
                & edges(trailing, leading)?,
        ),
        ["pass", ticks] => (format!("(pass {ticks})"), count(ticks)? <= 86_400_000),
        [word @ ("request" | "drop"), peer] => (format!("({word} {peer})"), count(peer)? <= 15),
        [word @ ("read" | "waiting")] => (format!("({word})"), true),
        ["window", slot, start, end] => {
            let again = format!("(window {slot} ({start} {end}))");
            let number = number_of_window(count(slot)?, date(start)?, date(end)?);
            return (again == text).then_some(number);
        }
        ["flight", peer, out_time, back_time] => (
            format!("(flight {peer} ({out_time} {back_time}))"),
            (count(peer)? <= 15)
                & (count(out_time)? <= 1_000_000_000)
                & (count(back_time)? <= 1_000_000_000),
        ),
        _ => return None,
    };
    (again == text).then_some(if allowed { 0 } else { 2 })
}

/// The number of a window whose line has the shape.
pub fn number_of_window(slot: i128, start: [u64; 6], end: [u64; 6]) -> u8 {
    if slot > 15 {
        2
    } else if !exists(start) || !exists(end) {
        11
    } else if start >= end {
        // Fields in this order compare as the dates do.
        12
    } else {
        0
    }
}

/// The fields of a date, which are put together again and compared.
fn date(word: &str) -> Option<[u64; 6]> {
    let mut fields = [0; 6];
    for (field, place) in fields
        .iter_mut()
        .zip([0..4, 5..7, 8..10, 11..13, 14..16, 17..19])
    {
        *field = word.get(place)?.parse().ok()?;
    }
    (text_of_date(fields) == word).then_some(fields)
}

/// A date as it stands in a line.
pub fn text_of_date([year, month, day, hour, minute, second]: [u64; 6]) -> String {
    format!("{year:04}-{month:02}-{day:02}T{hour:02}:{minute:02}:{second:02}")
}

/// Whether the date exists, by a table of the months.
pub fn exists([year, month, day, hour, minute, second]: [u64; 6]) -> bool {
    let lengths = [31, 28, 31, 30, 31, 30, 31, 31, 30, 31, 30, 31];
    if !(1900..=2099).contains(&year) || !(1..=12).contains(&month) || day == 0 {
        return false;
    }
    // 1900 is the only year of these that 4 divides and that is no leap year.
    let leap_day = u64::from(month == 2 && year % 4 == 0 && year != 1900);
    let last = lengths[month as usize - 1] + leap_day;
    day <= last && hour <= 23 && minute <= 59 && second <= 59
}

/// The moment of a date that exists. The days come from a formula for the
/// Gregorian calendar in which the year begins with March.
pub fn moment([year, month, day, hour, minute, second]: [u64; 6]) -> i64 {
    let (year, month) = if month > 2 {
        (year, month - 3)
    } else {
        (year - 1, month + 9)
    };
    let days = 365 * year + year / 4 - year / 100 + year / 400 + (153 * month + 2) / 5 + day;
    // This is the sum for 2000-01-01.
    let days = days as i64 - 730_426;
    let seconds = hour * 3600 + minute * 60 + second;
    (days * 86_400 + seconds as i64) * 1_000_000_000
}

/// A numeral, in a type that holds every numeral of 19 digits. Its plain
/// spelling is what is left without each `_`.
pub fn numeral(word: &str) -> Option<i128> {
    let plain = word.replace('_', "");
    let value: i128 = plain.parse().ok()?;
    let digits = value.unsigned_abs().to_string().len();
    let is_spelling = word == plain || word == grouped(&plain);
    (digits <= 19 && value.to_string() == plain && is_spelling).then_some(value)
}

/// The grouped spelling of a plain numeral: `_` is put in from the right, as
/// long as more than three digits are left.
pub fn grouped(plain: &str) -> String {
    let first_digit = usize::from(plain.starts_with('-'));
    let mut text = plain.to_string();
    let mut place = text.len();
    while place > first_digit + 3 {
        place -= 3;
        text.insert(place, '_');
    }
    text
}

/// A line of plain numerals with some of them grouped: bit 0 of `chosen`
/// stands for the first of them. A date is no numeral and stays.
pub fn grouped_line(line: &str, chosen: u32) -> String {
    let mut text = String::new();
    let mut bits = chosen;
    for piece in line.split_inclusive(['(', ')', ' ']) {
        let word = piece.trim_end_matches(['(', ')', ' ']);
        if numeral(word).is_none() {
            text.push_str(piece);
            continue;
        }
        if bits & 1 == 1 {
            text.push_str(&grouped(word));
        } else {
            text.push_str(word);
        }
        text.push_str(&piece[word.len()..]);
        bits >>= 1;
    }
    text
}

/// A numeral without a sign.
fn count(word: &str) -> Option<i128> {
    numeral(word).filter(|&value| value >= 0)
}

/// Whether both edges are in the range and in order.
fn edges(first: &str, second: &str) -> Option<bool> {
    let range = -4_000_000_000_000_000_000..=4_000_000_000_000_000_000;
    let (first, second) = (numeral(first)?, numeral(second)?);
    Some(range.contains(&first) && range.contains(&second) && first <= second)
}
