//! The constants of this crate are those of the header, which
//! `examples/c/constants.c` holds against the library.

use boardtime::{image, Refusal, Rule, IMAGE_BYTES, LINE_BYTES, OUTPUT_BYTES};

const HEADER: &str = include_str!("../../include/boardtime.h");

const REFUSALS: [(&str, Refusal); 12] = [
    ("NO_SHAPE", Refusal::NoShape),
    ("OUTSIDE_RANGE", Refusal::OutsideRange),
    ("WRONG_ORDER", Refusal::WrongOrder),
    ("OWN_BOARD", Refusal::OwnBoard),
    ("OVERFLOW", Refusal::Overflow),
    ("STILL_WAITING", Refusal::StillWaiting),
    ("NOT_WAITING", Refusal::NotWaiting),
    ("TOO_LATE", Refusal::TooLate),
    ("TAGS_SPENT", Refusal::TagsSpent),
    ("SHORT_OUTPUT", Refusal::ShortOutput),
    ("NO_DATE", Refusal::NoDate),
    ("NO_WINDOW", Refusal::NoWindow),
];

/// The name, without its prefix, and the value of a line that defines a number.
fn constant(line: &str) -> Option<(&str, usize)> {
    let (name, value) = line.strip_prefix("#define BOARDTIME_")?.split_once(' ')?;
    Some((name, value.parse().ok()?))
}

#[test]
fn constants_are_those_of_the_header() {
    let mut ours = vec![
        ("IMAGE_BYTES", IMAGE_BYTES),
        ("OUTPUT_BYTES", OUTPUT_BYTES),
        ("LINE_BYTES", LINE_BYTES),
        ("ACCEPTED", 0),
    ];
    ours.extend(REFUSALS.map(|(name, refusal)| (name, refusal.number().into())));
    ours.push(("WRONG_IMAGE_LENGTH", image::WRONG_LENGTH.into()));
    ours.extend([("IM", Rule::Im as usize), ("MM", Rule::Mm as usize)]);
    let header: Vec<_> = HEADER.lines().filter_map(constant).collect();
    // The same names too: neither side has a number that the other lacks.
    assert_eq!(ours, header);
}

/// Each declaration of the header beside the one that Rust calls by. A type
/// that is too narrow in one of them need not show in any call: what is in the
/// rest of a register is left open.
const DECLARATIONS: [(&str, &str); 15] = [
    (
        "uint8_t boardtime_fresh(uint8_t *image, size_t image_length);",
        "pub fn boardtime_fresh(image: *mut u8, image_length: usize) -> u8;",
    ),
    (
        "uint32_t boardtime_line(uint8_t *image, size_t image_length, \
         const uint8_t *line, size_t line_length, uint8_t *out, size_t out_length);",
        "pub fn boardtime_line( image: *mut u8, image_length: usize, \
         line: *const u8, line_length: usize, out: *mut u8, out_length: usize, ) -> u32;",
    ),
    (
        "uint8_t boardtime_pass(uint8_t *image, size_t image_length, uint64_t ticks);",
        "pub fn boardtime_pass(image: *mut u8, image_length: usize, ticks: u64) -> u8;",
    ),
    (
        "uint32_t boardtime_write_start(uint8_t *out, size_t out_length, uint64_t board, \
         uint64_t rule, uint64_t claim, int64_t lower, int64_t upper);",
        "pub fn boardtime_write_start( out: *mut u8, out_length: usize, board: u64, \
         rule: u64, claim: u64, lower: i64, upper: i64, ) -> u32;",
    ),
    (
        "uint32_t boardtime_write_pass(uint8_t *out, size_t out_length, uint64_t ticks);",
        "pub fn boardtime_write_pass(out: *mut u8, out_length: usize, ticks: u64) -> u32;",
    ),
    (
        "uint32_t boardtime_write_request(uint8_t *out, size_t out_length, uint64_t peer);",
        "pub fn boardtime_write_request(out: *mut u8, out_length: usize, peer: u64) -> u32;",
    ),
    (
        "uint32_t boardtime_write_reply(uint8_t *out, size_t out_length, uint64_t peer, \
         uint64_t tag, int64_t trailing, int64_t leading);",
        "pub fn boardtime_write_reply( out: *mut u8, out_length: usize, peer: u64, \
         tag: u64, trailing: i64, leading: i64, ) -> u32;",
    ),
    (
        "uint32_t boardtime_write_drop(uint8_t *out, size_t out_length, uint64_t peer);",
        "pub fn boardtime_write_drop(out: *mut u8, out_length: usize, peer: u64) -> u32;",
    ),
    (
        "uint32_t boardtime_write_read(uint8_t *out, size_t out_length);",
        "pub fn boardtime_write_read(out: *mut u8, out_length: usize) -> u32;",
    ),
    (
        "uint32_t boardtime_write_waiting(uint8_t *out, size_t out_length);",
        "pub fn boardtime_write_waiting(out: *mut u8, out_length: usize) -> u32;",
    ),
    (
        "uint32_t boardtime_write_window(uint8_t *out, size_t out_length, uint64_t slot, \
         const struct boardtime_date *start, const struct boardtime_date *end);",
        "pub fn boardtime_write_window( out: *mut u8, out_length: usize, slot: u64, \
         start: *const Date, end: *const Date, ) -> u32;",
    ),
    (
        "uint32_t boardtime_write_flight(uint8_t *out, size_t out_length, uint64_t peer, \
         uint64_t out_time, uint64_t back_time);",
        "pub fn boardtime_write_flight( out: *mut u8, out_length: usize, peer: u64, \
         out_time: u64, back_time: u64, ) -> u32;",
    ),
    (
        "uint32_t boardtime_plain(const uint8_t *line, size_t line_length, \
         uint8_t *out, size_t out_length);",
        "pub fn boardtime_plain( line: *const u8, line_length: usize, \
         out: *mut u8, out_length: usize, ) -> u32;",
    ),
    (
        "uint8_t boardtime_moment_of(const struct boardtime_date *date, int64_t *moment);",
        "pub fn boardtime_moment_of(date: *const Date, moment: *mut i64) -> u8;",
    ),
    (
        "uint8_t boardtime_date_of(int64_t moment, struct boardtime_date *date);",
        "pub fn boardtime_date_of(moment: i64, date: *mut Date) -> u8;",
    ),
];

/// A text without its line ends, so that it does not matter where they are.
fn words(text: &str) -> String {
    text.split_whitespace().collect::<Vec<_>>().join(" ")
}

#[test]
fn declarations_are_those_of_the_header() {
    let header = words(HEADER);
    let foreign = words(concat!(
        include_str!("../src/image.rs"),
        include_str!("../src/lines.rs"),
        include_str!("../src/dates.rs")
    ));
    for (in_c, in_rust) in DECLARATIONS {
        assert!(header.contains(in_c), "the header has no {in_c}");
        assert!(foreign.contains(in_rust), "the crate has no {in_rust}");
    }
    // No declaration is left out above.
    assert_eq!(header.matches("_t boardtime_").count(), DECLARATIONS.len());
    assert_eq!(foreign.matches("fn boardtime_").count(), DECLARATIONS.len());
}

/// The only type that C and Rust have to lay out alike.
#[test]
fn the_date_is_that_of_the_header() {
    let header = words(HEADER);
    let in_c = "struct boardtime_date { uint64_t year, month, day, hour, minute, second; };";
    assert!(header.contains(in_c), "the header has no {in_c}");
    assert_eq!(header.matches("{ uint").count(), 1);
    let in_rust = "#[repr(C)] pub struct Date { pub year: u64, pub month: u64, pub day: u64, \
                   pub hour: u64, pub minute: u64, pub second: u64, }";
    let date = words(include_str!("../src/date.rs"));
    assert!(date.contains(in_rust), "the crate has no {in_rust}");
}
