/*
 * boardtime: the time keeper of a board, as a static library.
 *
 * The library is three archives for x86-64 Linux, the only target that the kit
 * builds for. For any other target this header stops the compiler.
 *   - crates/boardtime_lib/out/libboardtime_lib.a has the calls on an image,
 *     for a board: boardtime_fresh, boardtime_line and boardtime_pass. The
 *     command `rt lib` in crates/boardtime_lib proves and builds it.
 *   - crates/boardtime_uplink/out/libboardtime_uplink.a has the calls that
 *     write a line, for who sends lines: boardtime_plain and those whose names
 *     begin with boardtime_write. `rt lib` in crates/boardtime_uplink proves
 *     and builds it.
 *   - crates/boardtime_dates/out/libboardtime_dates.a has the calls that
 *     convert dates and moments, for boards and who sends lines alike:
 *     boardtime_moment_of and boardtime_date_of. `rt lib` in
 *     crates/boardtime_dates proves and builds it.
 * No archive needs another. A program links those that have its calls, in any
 * order.
 *
 * The keeper is an image: an array of 360 bytes that the caller owns. A call
 * reads the image and answers; an accepted one makes it the image of the keeper
 * after it, by storing what the command changed: nothing for a read, a list of
 * the waiting peers or a window. A refused one leaves every byte as it was.
 * Beside these there are calls without an image, which write a command as its
 * line, or convert a date or a moment. The library holds nothing between calls,
 * allocates nothing and calls nothing but memcpy and memset.
 *
 * What the caller owes:
 *   - every pointer is valid for the length that is passed with it, and is not
 *     null even where that length is 0; one to a date or a moment is valid for
 *     that, and aligned as its type asks;
 *   - what a call stores in, as its image, its output, or the date or moment
 *     that it gives, overlaps nothing else that is passed to it;
 *   - from entry to return nothing else writes what was passed to the call, or
 *     reads what it stores in. So no interrupt makes a call on an image that it
 *     may find in the middle of another call: it counts its ticks, and the
 *     main loop passes them. Calls that store in different places may run at
 *     the same time.
 * Nothing else is asked. Every call answers for all bytes, all lengths and all
 * numbers. What C makes of a number before the call is the caller's: a length
 * of -1, as `read` gives for an error, arrives as the largest size_t, for which
 * no pointer is valid.
 *
 * Layout of an image. Numbers are little-endian.
 *
 *   byte       field
 *   0          version, 2
 *   1          started, 0 or 1
 *   2          board, 0 to 15
 *   3          rule, 0 for im, 1 for mm
 *   4..5       claim, 0 to 50000
 *   6..7       mask of the waiting peers, bit p for peer p
 *   8..15      lower edge in nanoseconds, signed, two's complement
 *   16..23     upper edge, the same
 *   24..31     ticks since the start
 *   32..35     requests sent since the start
 *   36..39     conflicts
 *   40..103    the tags: that of peer p's request in 4 bytes from 40 + 4 p
 *   104..231   the tick counts: that of peer p's request in 8 bytes from
 *              104 + 8 p
 *   232..295   the out times in nanoseconds: that of peer p in 4 bytes from
 *              232 + 4 p
 *   296..359   the back times, the same: that of peer p from 296 + 4 p
 *
 * An image whose byte 0 is not 2, or whose byte 1 or byte 3 is above 1, counts
 * as not started. So does one whose byte 1 is 0, and one that breaks any of
 * these: the board is at most 15 and the claim at most 50000; the edges are in
 * order and from -4000000000000000000 through 4000000000000000000; the ticks
 * are at most 4000000000000000000 and the requests at most 16777215; conflicts
 * and waiting peers together are at most the requests; the board's own bit is
 * clear; a waiting peer's tag is 1 through the requests, no other waiting
 * peer's, and its tick count at most the ticks; every other place, the board's
 * own too, holds 0 for both; every out time and every back time, the board's own
 * too, is at most 1000000000. A keeper that counts as not started accepts
 * `(start ...)` alone.
 *
 * An image that an older library left is 232 bytes long, with a version of 1
 * and without flight times. This library does not read it: passed with its own
 * length, it is refused with 255 and left as it was; put at the front of a
 * buffer of 360 bytes, it counts as not started, by its version. A board that
 * finds one makes a fresh image of 360 bytes, starts it with edges that hold the
 * true time, and sets the flight times that it knows. Nothing of the old image is
 * read: a request that waits in it is lost. As after every start the tags begin
 * at 1 again, so a late reply to such a request must not be given to the new
 * keeper, which may have sent one with the same tag.
 *
 * The edges of an image, and those in the answers to a pass and to a reply,
 * are those at the last tick that was passed. `(read)` tells the upper edge
 * with one longest tick more (1000000 ns plus the claim), and `(window ...)`
 * goes by the same edges, since almost a whole tick may have gone by since then:
 * what is told may be above 4000000000000000000 by that tick. A reply may be
 * given at any moment between two ticks, once all ticks that were counted are
 * passed. Its TRAILING and LEADING are edges that held the true time when the
 * peer sent them, as those that the peer's own `(read)` tells.
 *
 * `(flight PEER (OUT BACK))` sets a peer's out time and back time, in
 * nanoseconds: a request never takes less than OUT to reach the peer, and its
 * reply never less than BACK to come back. Both are 0 after a start, and stay as
 * they are when a request ends; while one waits they cannot be set (6). A reply
 * is judged by its bracket, the moments at which the last tick can have been by
 * the reply: from TRAILING less one longest tick through LEADING plus the longest
 * ticks since the request. With flight times the brackets of that peer's replies
 * begin BACK later and end OUT earlier. One that is left empty is a conflict.
 * Under im a bracket narrows the edges; under mm it decides about conflicts
 * alone, and the times bear on nothing else. A time that is larger than what
 * frames really take can make the edges lose the true time.
 *
 * A board may keep the image in FRAM and go on with it after a reset. It then
 * owes the keeper the ticks that passed meanwhile: without them the edges need
 * no longer hold the true time. A reset in the middle of a call may leave an
 * image of which only a part is stored, and not every such image counts as not
 * started. A board that can be reset at any time makes the call on a copy and
 * stores the copy with a check of its own; examples/c/store.h does that.
 */
#ifndef BOARDTIME_H
#define BOARDTIME_H

/*
 * Who builds for a target that the archives are not for learns it from the
 * compiler and not from the linker. A tool that only reads the declarations,
 * as a static analyser, or a test with a library of its own, defines
 * BOARDTIME_ANY_TARGET. (x32 is x86-64 too, but its size_t has 32 bits.)
 */
#if !defined(BOARDTIME_ANY_TARGET) \
    && !(defined(__x86_64__) && defined(__LP64__) && defined(__linux__))
#error "the archives libboardtime_*.a are for x86-64 Linux alone"
#endif

#include <stddef.h>
#include <stdint.h>

#ifdef __cplusplus
extern "C" {
#endif

/* Length of an image. */
#define BOARDTIME_IMAGE_BYTES 360
/* Least length of the output of a call that has one; a shorter one is refused
   with 10. No answer is longer than this, and no line that is written. */
#define BOARDTIME_OUTPUT_BYTES 256
/* Greatest length of a line without its LF; a longer one is refused with 1. */
#define BOARDTIME_LINE_BYTES 160

/*
 * The number that a call returns. After any number but 0 the image, if the call
 * has one, is as it was.
 */
/* The call was accepted. */
#define BOARDTIME_ACCEPTED 0
/* The line has no command's shape, or is longer than 160 bytes. What is no
   numeral's spelling breaks the shape; boardtime_line says which ones are. */
#define BOARDTIME_NO_SHAPE 1
/* A number is outside its range, or a first edge is above the second. */
#define BOARDTIME_OUTSIDE_RANGE 2
/* A start after a start, or another call before one. */
#define BOARDTIME_WRONG_ORDER 3
/* The peer is the board itself. */
#define BOARDTIME_OWN_BOARD 4
/* An edge would leave the range of moments, or the ticks their limit. */
#define BOARDTIME_OVERFLOW 5
/* A request to a peer that has one waiting, or flight times for one. */
#define BOARDTIME_STILL_WAITING 6
/* A reply or drop for a peer with none waiting, or a reply with another tag. */
#define BOARDTIME_NOT_WAITING 7
/* A reply more than 3600000 ticks after its request. */
#define BOARDTIME_TOO_LATE 8
/* A request after 16777215 were sent. */
#define BOARDTIME_TAGS_SPENT 9
/* The output is shorter than 256 bytes. */
#define BOARDTIME_SHORT_OUTPUT 10
/* A date does not exist or lies outside the years 1900 through 2099, or a
   moment lies outside them and has no date. */
#define BOARDTIME_NO_DATE 11
/* A window whose end is not later than its start. */
#define BOARDTIME_NO_WINDOW 12
/* The image is not 360 bytes long. Tested before everything else. No call
   without an image returns this. */
#define BOARDTIME_WRONG_IMAGE_LENGTH 255

/*
 * A date: the year is 1900 to 2099, the month 1 to 12, the day 1 to the last of
 * its month in the Gregorian calendar, the hour 0 to 23, the minute and the
 * second 0 to 59. With any other number the date does not exist: 2000-02-29
 * exists and 1900-02-29 does not, and no minute has a second 60. The numbers
 * have 64 bits, so that none is cut short on its way here: a month of 257 is
 * not taken for 1, and a negative int arrives as a number that no date has.
 */
struct boardtime_date {
    uint64_t year, month, day, hour, minute, second;
};

/*
 * The calls on an image, in libboardtime_lib.a.
 */

/*
 * Stores the image of a fresh keeper, one that has not started.
 *
 * Returns 0, or 255 with nothing touched.
 */
uint8_t boardtime_fresh(uint8_t *image, size_t image_length);

/*
 * Answers one line, which is given without its LF. The answer, with its LF,
 * is stored at the front of the output, and no byte after it is touched.
 *
 * Returns the number (0, 1 to 12, or 255) and the length of the answer; take
 * them with BOARDTIME_NUMBER and BOARDTIME_LENGTH. What is returned is not 0
 * for an accepted line: its number is 0, but its answer has some length. The
 * numbers 10 and 255 come with length 0 and an untouched output; the numbers 1
 * to 9, 11 and 12 come with the answer `(no NUMBER)`.
 *
 * A numeral of a line has 1 to 19 digits, and the first of two or more is not
 * 0. It is plain, without any `_`, or grouped, with one `_` between every two
 * groups of three digits, counted from the right. `1_000` and `12_345_678` are
 * numerals; `12_7`, `1000_000`, `_100`, `100_` and `0_000` are none, and a line
 * with one of them is refused with 1. Only an edge may be negative: `-1_000`,
 * but not `-0`. A date takes no `_`. An answer has plain numerals alone.
 */
uint32_t boardtime_line(uint8_t *image, size_t image_length,
                        const uint8_t *line, size_t line_length,
                        uint8_t *out, size_t out_length);

/* The number in what boardtime_line, or a call that writes a line, returned. */
#define BOARDTIME_NUMBER(returned) \
    ((uint8_t)(BOARDTIME_WHOLE(returned) & 255u))
/* The length of the answer, or of the line that was written, in the same. */
#define BOARDTIME_LENGTH(returned) ((size_t)(BOARDTIME_WHOLE(returned) >> 8))
/* What was returned, for these two. A variable of 8 or 16 bits has lost the
   length or a part of it: for one the size of the array is negative, and the
   compiler stops. The argument is evaluated once. */
#define BOARDTIME_WHOLE(returned) \
    ((uint32_t)(returned) + 0 * sizeof(char[sizeof(returned) < 4 ? -1 : 1]))

/*
 * Lets ticks pass, as the line `(pass TICKS)` does, without a line.
 *
 * Returns 0; 2 if ticks is above 86400000; 3 if the keeper has not started;
 * 5 if an edge or the ticks would leave their range; or 255.
 *
 * No number of up to 64 bits is cut short on its way here, and a negative one
 * arrives as one above 86400000. What the caller's own counter lost when it
 * began again at 0 no call can see: one of 16 bits does so after 65 seconds.
 */
uint8_t boardtime_pass(uint8_t *image, size_t image_length, uint64_t ticks);

/*
 * The calls that write lines, in libboardtime_uplink.a. Each of the first nine
 * writes a command, given as its numbers, as its line: one space between parts,
 * none elsewhere, no leading zero but in a date, no `_`. The line is stored at
 * the front of the output without an LF, and no byte after it is touched.
 * boardtime_line takes it as it stands; the program takes it with an LF behind
 * it, for which the output has room.
 *
 * Each returns the number and the length of the line, to be taken with
 * BOARDTIME_NUMBER and BOARDTIME_LENGTH. The number is 10 if the output is
 * shorter than 256 bytes; else 2 if a number of the command is outside its
 * range or its first edge is above the second; else, for a window, 11 if one of
 * its dates does not exist, else 12 if its end is not later than its start;
 * else 0. The numbers but 0 come with length 0 and an untouched output. What is
 * returned is not 0 for a line that was written: its number is 0, but it has
 * some length.
 *
 * A line that is written has at most 63 bytes and is read as the command that
 * it was written from: boardtime_line refuses it with none of 1, 2, 11 and 12.
 * No two commands have the same line. What a keeper makes of a command no call
 * without an image can know: the numbers 3 to 9 are boardtime_line's.
 *
 * All numbers have 64 bits, so that none is cut short on its way here: a board
 * of 256 is refused with 2 and not written as 0, and a negative int that is
 * passed as a board arrives as a number above 15. Only an edge is signed. What
 * C makes of an unsigned number above INT64_MAX that is passed as an edge is
 * the caller's: it may arrive as an edge within the range.
 */

/* The rule of a start: im or mm, as in byte 3 of an image. Any other number is
   outside its range. */
#define BOARDTIME_IM 0
#define BOARDTIME_MM 1

/* `(start BOARD RULE CLAIM (LOWER UPPER))`: the board is 0 to 15, the rule
   BOARDTIME_IM or BOARDTIME_MM, the claim 0 to 50000, and the edges are from
   -4000000000000000000 through 4000000000000000000, the lower at most the
   upper. */
uint32_t boardtime_write_start(uint8_t *out, size_t out_length, uint64_t board,
                               uint64_t rule, uint64_t claim, int64_t lower,
                               int64_t upper);

/* `(pass TICKS)`: the ticks are 0 to 86400000. */
uint32_t boardtime_write_pass(uint8_t *out, size_t out_length, uint64_t ticks);

/* `(request PEER)`: the peer is 0 to 15. */
uint32_t boardtime_write_request(uint8_t *out, size_t out_length,
                                 uint64_t peer);

/* `(reply PEER TAG (TRAILING LEADING))`: the peer is 0 to 15, the tag 1 to
   16777215, and the edges are as those of a start. */
uint32_t boardtime_write_reply(uint8_t *out, size_t out_length, uint64_t peer,
                               uint64_t tag, int64_t trailing, int64_t leading);

/* `(drop PEER)`: the peer is 0 to 15. */
uint32_t boardtime_write_drop(uint8_t *out, size_t out_length, uint64_t peer);

/* `(read)`, which has no number: refused with 10 alone. */
uint32_t boardtime_write_read(uint8_t *out, size_t out_length);

/* `(waiting)`, as `(read)`. Its answer lists the waiting peers by tag, smallest
   first. */
uint32_t boardtime_write_waiting(uint8_t *out, size_t out_length);

/* `(window SLOT (DATE DATE))`: the slot is 0 to 15, and the end is later than
   the start. The window holds the first moment of its start's second, and not
   that of its end's. */
uint32_t boardtime_write_window(uint8_t *out, size_t out_length, uint64_t slot,
                                const struct boardtime_date *start,
                                const struct boardtime_date *end);

/* `(flight PEER (OUT BACK))`: the peer is 0 to 15, and either time 0 to
   1000000000 nanoseconds. The two need not be in order. */
uint32_t boardtime_write_flight(uint8_t *out, size_t out_length, uint64_t peer,
                                uint64_t out_time, uint64_t back_time);

/*
 * Reads a line, which is given without its LF, and writes its command as the
 * calls above do: the line's plain spelling. That is the line without its `_`,
 * so that a line that has none is written back byte for byte.
 *
 * Returns the number and the length of the spelling: 10 if the output is
 * shorter than 256 bytes; else 1 if the line has no command's shape or is
 * longer than 160 bytes; else 2 if a numeral is outside its range or a first
 * edge is above the second; else 11 and 12 as above; else 0. The numbers but 0
 * come with length 0 and an untouched output. A line that still has its LF, or
 * a CR, has no command's shape.
 */
uint32_t boardtime_plain(const uint8_t *line, size_t line_length, uint8_t *out,
                         size_t out_length);

/*
 * The calls that convert dates and moments, in libboardtime_dates.a. A moment
 * is a number of nanoseconds from 2000-01-01T00:00:00, as an edge is, on a
 * scale without leap seconds. A moment of 0 that is stored may be that of a
 * refusal or of 2000-01-01T00:00:00: the number that is returned tells them
 * apart.
 */

/*
 * Stores the moment at which the second of a date begins.
 *
 * Returns 0; or 11, with 0 stored, if the date does not exist.
 */
uint8_t boardtime_moment_of(const struct boardtime_date *date, int64_t *moment);

/*
 * Stores the date in whose second a moment falls: the second that began at or
 * before it, also before 2000.
 *
 * Returns 0; or 11, with six zeros stored, if the moment has no date. The
 * moments from -3155673600000000000 through 3155759999999999999 have one.
 */
uint8_t boardtime_date_of(int64_t moment, struct boardtime_date *date);

#ifdef __cplusplus
}
#endif

#endif
