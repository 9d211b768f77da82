/*
 * Holds every constant of boardtime.h against the library: for each there is a
 * call whose result must be that constant, or change where it says.
 */
#include <stdio.h>
#include <string.h>

#include "boardtime.h"

#define START "(start 3 im 200 (-1000 1000))"
#define START_MM "(start 3 mm 200 (-1000 1000))"
#define LAST_TAG 16777215u
/* Both the last moment and the most ticks. */
#define LAST_MOMENT 4000000000000000000u
/* Both the longest out time and the longest back time. */
#define LAST_FLIGHT 1000000000u
/* Where the out times and the back times begin in an image. */
#define OUT_TIMES 232
#define BACK_TIMES 296
/* Version of an image, and version and length of one that an older library
   left. */
#define VERSION 2
#define OLDER_VERSION 1
#define OLDER_BYTES 232
/* The longest line that has a shape: 19 digits, grouped, in every numeral. */
#define LONGEST_SHAPE                                             \
    "(start 9_999_999_999_999_999_999 im 9_999_999_999_999_999_999" \
    " (-9_999_999_999_999_999_999 -9_999_999_999_999_999_999))"
/* One of the two longest lines that are written: every part has the most
   bytes. */
#define LONGEST_WRITTEN \
    "(start 15 mm 50000 (-4000000000000000000 -3999999999999999999))"
/* The same command with its numerals grouped. */
#define LONGEST_GROUPED \
    "(start 15 mm 50_000 (-4_000_000_000_000_000_000 -3_999_999_999_999_999_999))"
/* The longest window that is written. */
#define LONGEST_WINDOW "(window 15 (1900-01-01T00:00:00 2099-12-31T23:59:59))"
/* The longest flight that is written. */
#define LONGEST_FLIGHT "(flight 15 (1000000000 1000000000))"
#define FIRST_DATED INT64_C(-3155673600000000000)
#define LAST_DATED INT64_C(3155759999999999999)

/* The first second that has a date, the last one, and what is no date. */
static const struct boardtime_date first = {1900, 1, 1, 0, 0, 0};
static const struct boardtime_date last = {2099, 12, 31, 23, 59, 59};
static const struct boardtime_date none = {1900, 2, 29, 0, 0, 0};
static const struct boardtime_date zeros;

/* One more than an image and an output, for a length that is too great. */
static uint8_t image[BOARDTIME_IMAGE_BYTES + 1];
static uint8_t out[BOARDTIME_OUTPUT_BYTES + 1];
static int failures;

#define HELD(constant, returned) \
    held(__LINE__, #constant, (constant), (returned))

static void held(int at, const char *name, uint32_t constant, uint32_t returned)
{
    if (constant == returned)
        return;
    printf("constants.c:%d: %s is %lu, and the library has %lu\n", at, name,
           (unsigned long)constant, (unsigned long)returned);
    failures++;
}

static void holds(int at, const char *statement, int is_true)
{
    if (is_true)
        return;
    printf("constants.c:%d: not so: %s\n", at, statement);
    failures++;
}

#define HOLDS(statement) holds(__LINE__, #statement, (statement))

static uint32_t line_of(const char *bytes, size_t length, size_t out_length)
{
    return boardtime_line(image, BOARDTIME_IMAGE_BYTES, (const uint8_t *)bytes,
                          length, out, out_length);
}

/* The number of a line that is answered, which the answer must spell too. */
static uint8_t number_of(const char *line)
{
    uint32_t returned = line_of(line, strlen(line), BOARDTIME_OUTPUT_BYTES);
    uint8_t number = BOARDTIME_NUMBER(returned);
    char refused[16];
    int length = snprintf(refused, sizeof refused, "(no %u)\n", (unsigned)number);

    HOLDS(BOARDTIME_LENGTH(returned) <= BOARDTIME_OUTPUT_BYTES);
    HOLDS(number == BOARDTIME_ACCEPTED
          || (BOARDTIME_LENGTH(returned) == (size_t)length
              && memcmp(out, refused, (size_t)length) == 0));
    return number;
}

static uint8_t pass_of(uint64_t ticks)
{
    return boardtime_pass(image, BOARDTIME_IMAGE_BYTES, ticks);
}

/* Whether a call wrote this line. */
static int wrote(uint32_t returned, const char *line)
{
    return BOARDTIME_NUMBER(returned) == BOARDTIME_ACCEPTED
        && BOARDTIME_LENGTH(returned) == strlen(line)
        && memcmp(out, line, strlen(line)) == 0;
}

/* Whether a line is accepted with this answer. */
static int answers(const char *line, const char *answer)
{
    return wrote(line_of(line, strlen(line), BOARDTIME_OUTPUT_BYTES), answer);
}

static uint32_t start_of(uint64_t board, uint64_t rule)
{
    return boardtime_write_start(out, BOARDTIME_OUTPUT_BYTES, board, rule, 200,
                                 -1000, 1000);
}

static uint32_t window_of(uint64_t slot, const struct boardtime_date *begin,
                          const struct boardtime_date *end)
{
    return boardtime_write_window(out, BOARDTIME_OUTPUT_BYTES, slot, begin, end);
}

static uint32_t flight_of(uint64_t peer, uint64_t out_time, uint64_t back_time)
{
    return boardtime_write_flight(out, BOARDTIME_OUTPUT_BYTES, peer, out_time,
                                  back_time);
}

/* Whether a date has this moment; one that has none is stored as 0. */
static uint8_t moment_of(const struct boardtime_date *date, int64_t moment)
{
    int64_t stored = 5;
    uint8_t number = boardtime_moment_of(date, &stored);

    HOLDS(stored == moment);
    return number;
}

/* Whether a moment has this date; if it has none, six zeros are stored. */
static uint8_t date_of(int64_t moment, const struct boardtime_date *date)
{
    struct boardtime_date stored = {5, 5, 5, 5, 5, 5};
    uint8_t number = boardtime_date_of(moment, &stored);

    HOLDS(memcmp(&stored, date, sizeof stored) == 0);
    return number;
}

static uint32_t plain_of(const char *line)
{
    return boardtime_plain((const uint8_t *)line, strlen(line), out,
                           BOARDTIME_OUTPUT_BYTES);
}

/* The keeper that `(start ...)` leaves. */
static void start(void)
{
    HELD(BOARDTIME_ACCEPTED, boardtime_fresh(image, BOARDTIME_IMAGE_BYTES));
    HELD(BOARDTIME_ACCEPTED, number_of(START));
}

/* Puts a number at its place in the image, by the layout in boardtime.h. */
static void put(size_t at, size_t width, uint64_t number)
{
    for (size_t i = 0; i < width; i++)
        image[at + i] = (uint8_t)(number >> (8 * i));
}

static void refused_image(size_t length)
{
    HELD(BOARDTIME_WRONG_IMAGE_LENGTH, boardtime_fresh(image, length));
    HELD(BOARDTIME_WRONG_IMAGE_LENGTH, boardtime_pass(image, length, 1));
    HELD(BOARDTIME_WRONG_IMAGE_LENGTH,
         boardtime_line(image, length, (const uint8_t *)"(read)", 6, out,
                        BOARDTIME_OUTPUT_BYTES));
}

static void lengths_of_an_image(void)
{
    start();
    HELD(BOARDTIME_ACCEPTED, pass_of(1));
    for (size_t length = 0; length < BOARDTIME_IMAGE_BYTES; length++)
        refused_image(length);
    refused_image(BOARDTIME_IMAGE_BYTES + 1);
}

/* An older library's image is refused by its own length, and in front of other
   bytes it counts as not started, by its version alone. */
static void versions_of_an_image(void)
{
    boardtime_fresh(image, BOARDTIME_IMAGE_BYTES);
    HOLDS(image[0] == VERSION);
    start();
    HOLDS(image[0] == VERSION);
    image[0] = OLDER_VERSION;
    HOLDS(OLDER_BYTES < BOARDTIME_IMAGE_BYTES);
    refused_image(OLDER_BYTES);
    HELD(BOARDTIME_WRONG_ORDER, number_of("(read)"));
    HELD(BOARDTIME_WRONG_ORDER, pass_of(1));
    HOLDS(image[0] == OLDER_VERSION);
    image[0] = VERSION;
    HELD(BOARDTIME_ACCEPTED, number_of("(read)"));
    for (unsigned version = 0; version < 256; version++) {
        image[0] = (uint8_t)version;
        HELD(version == VERSION ? BOARDTIME_ACCEPTED : BOARDTIME_WRONG_ORDER,
             pass_of(1));
    }
}

static void lengths_of_an_output(void)
{
    start();
    for (size_t length = 0; length < BOARDTIME_OUTPUT_BYTES; length++)
        HELD(BOARDTIME_SHORT_OUTPUT, line_of("(read)", 6, length));
    HELD(BOARDTIME_ACCEPTED,
         BOARDTIME_NUMBER(line_of("(read)", 6, BOARDTIME_OUTPUT_BYTES)));
}

/* Tried before the numbers and the line, which would be refused too. */
static void refused_output(size_t length)
{
    HELD(BOARDTIME_SHORT_OUTPUT, boardtime_write_start(out, length, 16, 2, 50001, 1, 0));
    HELD(BOARDTIME_SHORT_OUTPUT, boardtime_write_pass(out, length, 86400001));
    HELD(BOARDTIME_SHORT_OUTPUT, boardtime_write_request(out, length, 16));
    HELD(BOARDTIME_SHORT_OUTPUT, boardtime_write_reply(out, length, 16, 0, 1, 0));
    HELD(BOARDTIME_SHORT_OUTPUT, boardtime_write_drop(out, length, 16));
    HELD(BOARDTIME_SHORT_OUTPUT, boardtime_write_read(out, length));
    HELD(BOARDTIME_SHORT_OUTPUT, boardtime_write_waiting(out, length));
    HELD(BOARDTIME_SHORT_OUTPUT, boardtime_write_window(out, length, 16, &none, &first));
    HELD(BOARDTIME_SHORT_OUTPUT,
         boardtime_write_flight(out, length, 16, LAST_FLIGHT + 1, LAST_FLIGHT + 1));
    HELD(BOARDTIME_SHORT_OUTPUT,
         boardtime_plain((const uint8_t *)"(pass 12x7)", 11, out, length));
}

/* At 256 bytes each line is there: numbers_of_written_lines. */
static void lengths_of_a_written_output(void)
{
    for (size_t length = 0; length < BOARDTIME_OUTPUT_BYTES; length++)
        refused_output(length);
}

/* Fifteen peers that wait, each with a tag of eight digits: no other answer has
   as many bytes. That it has 211 shows that every answer fits the output. */
static void longest_answer(void)
{
    uint32_t returned;

    start();
    put(6, 2, 0xFFFF & ~(1u << 3));
    put(32, 4, LAST_TAG);
    for (unsigned peer = 0; peer < 16; peer++)
        if (peer != 3)
            put(40 + 4 * peer, 4, LAST_TAG - peer);
    returned = line_of("(waiting)", 9, BOARDTIME_OUTPUT_BYTES);
    HELD(BOARDTIME_ACCEPTED, BOARDTIME_NUMBER(returned));
    HOLDS(BOARDTIME_LENGTH(returned) == 211);
    HOLDS(BOARDTIME_LENGTH(returned) <= BOARDTIME_OUTPUT_BYTES);
}

/*
 * What a call can show of the longest line is little: the grammar has no line
 * of more than 118 bytes, so that 119 bytes are refused with 1 for want of a
 * shape, and 161 with the same number for their length. No line tells 160 from
 * 118 or from 1000. Here: every line above the constant is refused with 1, and
 * the constant is not below the longest shape (which is refused with 2, for its
 * numerals). That it is 160, examples/run reads in the proved source.
 */
static void lengths_of_a_line(void)
{
    char line[2 * BOARDTIME_LINE_BYTES + sizeof LONGEST_SHAPE] = LONGEST_SHAPE;

    start();
    HOLDS(strlen(LONGEST_SHAPE) == 118);
    HOLDS(strlen(LONGEST_SHAPE) <= BOARDTIME_LINE_BYTES);
    HELD(BOARDTIME_OUTSIDE_RANGE, number_of(line));
    HELD(BOARDTIME_OUTSIDE_RANGE, plain_of(line));
    memset(line, ' ', sizeof line);
    memcpy(line, "(read)", 6);
    for (size_t length = BOARDTIME_LINE_BYTES + 1; length <= sizeof line; length++) {
        HELD(BOARDTIME_NO_SHAPE,
             BOARDTIME_NUMBER(line_of(line, length, BOARDTIME_OUTPUT_BYTES)));
        HELD(BOARDTIME_NO_SHAPE,
             boardtime_plain((const uint8_t *)line, length, out, BOARDTIME_OUTPUT_BYTES));
    }
}

static void numbers_of_lines(void)
{
    boardtime_fresh(image, BOARDTIME_IMAGE_BYTES);
    HELD(BOARDTIME_WRONG_ORDER, number_of("(read)"));
    start();
    HELD(BOARDTIME_WRONG_ORDER, number_of(START));
    HELD(BOARDTIME_NO_SHAPE, number_of("(pass 12x7)"));
    HELD(BOARDTIME_OUTSIDE_RANGE, number_of("(pass 86400001)"));
    HELD(BOARDTIME_OWN_BOARD, number_of("(request 3)"));
    HELD(BOARDTIME_NOT_WAITING, number_of("(drop 4)"));
    HELD(BOARDTIME_ACCEPTED, number_of("(request 4)"));
    HELD(BOARDTIME_STILL_WAITING, number_of("(request 4)"));
    HELD(BOARDTIME_NOT_WAITING, number_of("(reply 4 2 (0 0))"));
    HELD(BOARDTIME_ACCEPTED, number_of("(pass 3600001)"));
    HELD(BOARDTIME_TOO_LATE, number_of("(reply 4 1 (0 0))"));
    HELD(BOARDTIME_ACCEPTED, number_of(LONGEST_WINDOW));
}

/* A numeral has no `_`, or one between every two groups of three digits; what
   is spelled otherwise has no shape. */
static void numbers_of_spellings(void)
{
    start();
    HELD(BOARDTIME_ACCEPTED, number_of("(pass 1_000)"));
    HELD(BOARDTIME_OUTSIDE_RANGE, number_of("(pass 86_400_001)"));
    HELD(BOARDTIME_NO_SHAPE, number_of("(pass 12_7)"));
    HELD(BOARDTIME_NO_SHAPE, number_of("(pass 1000_000)"));
    HELD(BOARDTIME_NO_SHAPE, number_of("(pass _100)"));
    HELD(BOARDTIME_NO_SHAPE, number_of("(pass 100_)"));
    HELD(BOARDTIME_NO_SHAPE, number_of("(pass 0_000)"));
    HELD(BOARDTIME_WRONG_ORDER, number_of("(start 3 im 1_000 (-1_000 1000))"));
    HELD(BOARDTIME_NO_SHAPE, number_of("(start 3 im 1_000 (-_100 1000))"));
    /* Nineteen digits, and twenty. */
    HELD(BOARDTIME_OUTSIDE_RANGE, number_of("(drop 1_000_000_000_000_000_000)"));
    HELD(BOARDTIME_NO_SHAPE, number_of("(drop 10_000_000_000_000_000_000)"));
    HELD(BOARDTIME_NO_SHAPE,
         number_of("(window 15 (2_000-01-01T00:00:00 2001-01-01T00:00:00))"));
    HELD(BOARDTIME_NO_SHAPE, plain_of("(pass 1000_000)"));
    HOLDS(wrote(plain_of(LONGEST_GROUPED), LONGEST_WRITTEN));
    boardtime_fresh(image, BOARDTIME_IMAGE_BYTES);
    HELD(BOARDTIME_ACCEPTED, number_of(LONGEST_GROUPED));
}

/* All of these come before the test whether the keeper has started. */
static void numbers_of_windows(void)
{
    boardtime_fresh(image, BOARDTIME_IMAGE_BYTES);
    HELD(BOARDTIME_NO_SHAPE,
         number_of("(window 16 (1900-2-29T00:00:00 1900-01-01T00:00:00))"));
    HELD(BOARDTIME_OUTSIDE_RANGE,
         number_of("(window 16 (1900-02-29T00:00:00 1900-01-01T00:00:00))"));
    HELD(BOARDTIME_NO_DATE,
         number_of("(window 15 (1900-02-29T00:00:00 1900-01-01T00:00:00))"));
    HELD(BOARDTIME_NO_DATE,
         number_of("(window 15 (2100-01-01T00:00:00 1900-01-01T00:00:00))"));
    HELD(BOARDTIME_NO_WINDOW,
         number_of("(window 15 (2000-02-29T00:00:00 1900-01-01T00:00:00))"));
    HELD(BOARDTIME_NO_WINDOW,
         number_of("(window 15 (2000-02-29T00:00:00 2000-02-29T00:00:00))"));
    HELD(BOARDTIME_WRONG_ORDER, number_of(LONGEST_WINDOW));
}

/* The numbers of a flight in their order; then where its times are in the image,
   and what they do to the bracket of a reply, which begins the back time later
   and ends the out time earlier: here from -803079 through -258, then from -500
   through -500, then from -499 through -500, which holds no moment. */
static void numbers_of_flights(void)
{
    boardtime_fresh(image, BOARDTIME_IMAGE_BYTES);
    HELD(BOARDTIME_NO_SHAPE, number_of("(flight 16 (-1 1000000001))"));
    HELD(BOARDTIME_NO_SHAPE, number_of("(flight 4 (0 -1))"));
    HELD(BOARDTIME_OUTSIDE_RANGE, number_of("(flight 16 (0 0))"));
    HELD(BOARDTIME_OUTSIDE_RANGE, number_of("(flight 4 (1000000001 0))"));
    HELD(BOARDTIME_OUTSIDE_RANGE, number_of("(flight 4 (0 1_000_000_001))"));
    HELD(BOARDTIME_WRONG_ORDER, number_of(LONGEST_FLIGHT));
    start();
    HELD(BOARDTIME_OWN_BOARD, number_of("(flight 3 (0 0))"));
    HOLDS(answers(LONGEST_FLIGHT, "(flight 15)\n"));
    HOLDS(answers("(flight 4 (258 197121))", "(flight 4)\n"));
    HOLDS(memcmp(image + OUT_TIMES + 4 * 4, "\2\1\0\0", 4) == 0);
    HOLDS(memcmp(image + BACK_TIMES + 4 * 4, "\1\2\3\0", 4) == 0);
    HELD(BOARDTIME_ACCEPTED, number_of("(request 4)"));
    HELD(BOARDTIME_STILL_WAITING, number_of("(flight 4 (0 0))"));
    HOLDS(answers("(reply 4 1 (0 0))", "(taken 4 (-1000 -258))\n"));
    HELD(BOARDTIME_ACCEPTED, number_of("(flight 9 (500000 500200))"));
    HELD(BOARDTIME_ACCEPTED, number_of("(request 9)"));
    HOLDS(answers("(reply 9 2 (499500 499500))", "(taken 9 (-500 -500))\n"));
    start();
    HELD(BOARDTIME_ACCEPTED, number_of("(flight 9 (500000 500201))"));
    HELD(BOARDTIME_ACCEPTED, number_of("(request 9)"));
    HOLDS(answers("(reply 9 1 (499500 499500))", "(conflict 9 (-1000 1000))\n"));
}

/* Each of the 32 times of a keeper that is handed in, the board's own too. */
static void flight_times_of_an_image(void)
{
    for (size_t at = OUT_TIMES; at < BOARDTIME_IMAGE_BYTES; at += 4) {
        start();
        put(at, 4, LAST_FLIGHT);
        HELD(BOARDTIME_ACCEPTED, pass_of(1));
        put(at, 4, LAST_FLIGHT + 1);
        HELD(BOARDTIME_WRONG_ORDER, pass_of(1));
        put(at, 4, UINT32_MAX);
        HELD(BOARDTIME_WRONG_ORDER, number_of("(read)"));
    }
}

/* States that take too many lines to reach. */
static void numbers_of_states(void)
{
    start();
    put(32, 4, LAST_TAG - 1);
    HELD(BOARDTIME_ACCEPTED, number_of("(request 4)"));
    HELD(BOARDTIME_TAGS_SPENT, number_of("(request 5)"));
    start();
    put(24, 8, LAST_MOMENT - 1);
    HELD(BOARDTIME_ACCEPTED, number_of("(pass 1)"));
    HELD(BOARDTIME_OVERFLOW, number_of("(pass 1)"));
    HELD(BOARDTIME_OVERFLOW, pass_of(1));
}

static void numbers_of_passes(void)
{
    boardtime_fresh(image, BOARDTIME_IMAGE_BYTES);
    HELD(BOARDTIME_WRONG_ORDER, pass_of(86400000));
    start();
    HELD(BOARDTIME_ACCEPTED, pass_of(86400000));
    HELD(BOARDTIME_OUTSIDE_RANGE, pass_of(86400001));
    /* These end in 32 bits that would be accepted. */
    HELD(BOARDTIME_OUTSIDE_RANGE, pass_of(UINT64_C(1) << 32));
    HELD(BOARDTIME_OUTSIDE_RANGE, pass_of((UINT64_C(1) << 32) + 5));
    HELD(BOARDTIME_OUTSIDE_RANGE, pass_of(UINT64_MAX));
    put(16, 8, LAST_MOMENT);
    HELD(BOARDTIME_OVERFLOW, pass_of(1));
}

/* Each rule has its name in a line and its number in an image. */
static void rules_of_a_start(void)
{
    HOLDS(wrote(start_of(3, BOARDTIME_IM), START));
    HOLDS(wrote(start_of(3, BOARDTIME_MM), START_MM));
    HELD(BOARDTIME_OUTSIDE_RANGE, start_of(3, BOARDTIME_MM + 1));
    start();
    HELD(BOARDTIME_IM, image[3]);
    boardtime_fresh(image, BOARDTIME_IMAGE_BYTES);
    HELD(BOARDTIME_ACCEPTED, number_of(START_MM));
    HELD(BOARDTIME_MM, image[3]);
}

static void numbers_of_written_lines(void)
{
    size_t length = BOARDTIME_OUTPUT_BYTES;

    HOLDS(strlen(LONGEST_WRITTEN) == 63);
    HOLDS(strlen(LONGEST_WRITTEN) <= BOARDTIME_LINE_BYTES);
    HOLDS(wrote(boardtime_write_start(out, length, 15, BOARDTIME_MM, 50000,
                                      INT64_C(-4000000000000000000),
                                      INT64_C(-3999999999999999999)),
                LONGEST_WRITTEN));
    /* The lowest byte of the first is 0; a negative int arrives as the second. */
    HELD(BOARDTIME_OUTSIDE_RANGE, start_of(256, BOARDTIME_IM));
    HELD(BOARDTIME_OUTSIDE_RANGE, start_of((uint64_t)-1, BOARDTIME_IM));
    HOLDS(wrote(boardtime_write_pass(out, length, 86400000), "(pass 86400000)"));
    HELD(BOARDTIME_OUTSIDE_RANGE, boardtime_write_pass(out, length, 86400001));
    HOLDS(wrote(boardtime_write_request(out, length, 15), "(request 15)"));
    HELD(BOARDTIME_OUTSIDE_RANGE, boardtime_write_request(out, length, 16));
    HOLDS(wrote(boardtime_write_reply(out, length, 15, LAST_TAG, -5, 2),
                "(reply 15 16777215 (-5 2))"));
    HELD(BOARDTIME_OUTSIDE_RANGE, boardtime_write_reply(out, length, 15, 1, 2, -5));
    HOLDS(wrote(boardtime_write_drop(out, length, 0), "(drop 0)"));
    HELD(BOARDTIME_OUTSIDE_RANGE, boardtime_write_drop(out, length, 16));
    HOLDS(wrote(boardtime_write_read(out, length), "(read)"));
    HOLDS(wrote(boardtime_write_waiting(out, length), "(waiting)"));
    HOLDS(wrote(window_of(15, &first, &last), LONGEST_WINDOW));
    HELD(BOARDTIME_OUTSIDE_RANGE, window_of(16, &none, &first));
    HELD(BOARDTIME_NO_DATE, window_of(15, &none, &first));
    HELD(BOARDTIME_NO_DATE, window_of(15, &last, &none));
    HELD(BOARDTIME_NO_WINDOW, window_of(15, &last, &first));
    HELD(BOARDTIME_NO_WINDOW, window_of(15, &last, &last));
    HOLDS(strlen(LONGEST_FLIGHT) <= strlen(LONGEST_WRITTEN));
    HOLDS(wrote(flight_of(15, LAST_FLIGHT, LAST_FLIGHT), LONGEST_FLIGHT));
    HOLDS(wrote(flight_of(4, 2000, 30), "(flight 4 (2000 30))"));
    HELD(BOARDTIME_OUTSIDE_RANGE, flight_of(16, 0, 0));
    HELD(BOARDTIME_OUTSIDE_RANGE, flight_of(15, LAST_FLIGHT + 1, 0));
    HELD(BOARDTIME_OUTSIDE_RANGE, flight_of(15, 0, LAST_FLIGHT + 1));
    /* These end in 32 bits that would be accepted. */
    HELD(BOARDTIME_OUTSIDE_RANGE, flight_of(15, UINT64_C(1) << 32, 0));
    HELD(BOARDTIME_OUTSIDE_RANGE, flight_of(15, 0, UINT64_C(1) << 32));
    HOLDS(wrote(plain_of(START_MM), START_MM));
    HOLDS(wrote(plain_of(LONGEST_WINDOW), LONGEST_WINDOW));
    HOLDS(wrote(plain_of(LONGEST_FLIGHT), LONGEST_FLIGHT));
    HELD(BOARDTIME_NO_SHAPE, plain_of("(pass 12x7)"));
    HELD(BOARDTIME_OUTSIDE_RANGE, plain_of("(pass 86400001)"));
    HELD(BOARDTIME_NO_DATE,
         plain_of("(window 15 (1900-02-29T00:00:00 1900-01-01T00:00:00))"));
    HELD(BOARDTIME_NO_WINDOW,
         plain_of("(window 15 (2000-02-29T00:00:00 2000-02-29T00:00:00))"));
}

/* Numbers that all differ, so that none can stand for another, and the ends. */
static void numbers_of_dates(void)
{
    static const struct boardtime_date some = {2001, 2, 3, 4, 5, 6};
    static const struct boardtime_date before_2000 = {1999, 12, 31, 23, 59, 59};
    /* The lowest byte of the month is 1. */
    static const struct boardtime_date month_257 = {2001, 257, 3, 4, 5, 6};

    HELD(BOARDTIME_ACCEPTED, moment_of(&some, INT64_C(34488306000000000)));
    HELD(BOARDTIME_ACCEPTED, date_of(INT64_C(34488306999999999), &some));
    HELD(BOARDTIME_ACCEPTED, moment_of(&before_2000, -1000000000));
    HELD(BOARDTIME_ACCEPTED, date_of(-1, &before_2000));
    HELD(BOARDTIME_ACCEPTED, moment_of(&first, FIRST_DATED));
    HELD(BOARDTIME_ACCEPTED, date_of(FIRST_DATED, &first));
    HELD(BOARDTIME_ACCEPTED, moment_of(&last, LAST_DATED - 999999999));
    HELD(BOARDTIME_ACCEPTED, date_of(LAST_DATED, &last));
    HELD(BOARDTIME_NO_DATE, moment_of(&none, 0));
    HELD(BOARDTIME_NO_DATE, moment_of(&month_257, 0));
    HELD(BOARDTIME_NO_DATE, date_of(FIRST_DATED - 1, &zeros));
    HELD(BOARDTIME_NO_DATE, date_of(LAST_DATED + 1, &zeros));
}

int main(void)
{
    lengths_of_an_image();
    versions_of_an_image();
    lengths_of_an_output();
    lengths_of_a_written_output();
    longest_answer();
    lengths_of_a_line();
    numbers_of_lines();
    numbers_of_spellings();
    numbers_of_windows();
    numbers_of_flights();
    flight_times_of_an_image();
    numbers_of_states();
    numbers_of_passes();
    rules_of_a_start();
    numbers_of_written_lines();
    numbers_of_dates();
    return failures != 0;
}
