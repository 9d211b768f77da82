/*
 * A board that asks its keeper each second whether a heater's window is open.
 * The start and the window are planned in dates. Prints the second, as the
 * board counts it, and the answer.
 */
#include <inttypes.h>
#include <stdio.h>

#include "boardtime.h"

#define SECOND INT64_C(1000000000)

static uint8_t image[BOARDTIME_IMAGE_BYTES];
static uint8_t line[BOARDTIME_OUTPUT_BYTES];

/* Takes what the writer of `line` returned, writes the answer to the line and
   returns its number. */
static uint8_t answer(uint32_t written)
{
    uint8_t out[BOARDTIME_OUTPUT_BYTES];
    uint32_t returned;

    if (BOARDTIME_NUMBER(written) != BOARDTIME_ACCEPTED)
        return BOARDTIME_NUMBER(written);
    returned = boardtime_line(image, sizeof image, line,
                              BOARDTIME_LENGTH(written), out, sizeof out);
    fwrite(out, 1, BOARDTIME_LENGTH(returned), stdout);
    return BOARDTIME_NUMBER(returned);
}

/* Prints the date in whose second a moment falls. */
static uint8_t print_date(int64_t moment)
{
    struct boardtime_date date;
    uint8_t number = boardtime_date_of(moment, &date);

    if (number == BOARDTIME_ACCEPTED)
        printf("%04" PRIu64 "-%02" PRIu64 "-%02" PRIu64 "T%02" PRIu64
               ":%02" PRIu64 ":%02" PRIu64 " ", date.year, date.month, date.day,
               date.hour, date.minute, date.second);
    return number;
}

/* Whether slot 5 is open from 2028-02-29T00:00:00 up to two seconds later. */
static uint8_t ask(void)
{
    static const struct boardtime_date start = {2028, 2, 29, 0, 0, 0};
    static const struct boardtime_date end = {2028, 2, 29, 0, 0, 2};

    return answer(boardtime_write_window(line, sizeof line, 5, &start, &end));
}

int main(void)
{
    static const struct boardtime_date planned = {2028, 2, 28, 23, 59, 59};
    int64_t moment;

    if (boardtime_moment_of(&planned, &moment) != BOARDTIME_ACCEPTED)
        return 1;
    boardtime_fresh(image, sizeof image);
    if (answer(boardtime_write_start(line, sizeof line, 3, BOARDTIME_IM, 200,
                                     moment, moment + 1000)) != BOARDTIME_ACCEPTED)
        return 1;
    for (int second = 0; second < 5; second++) {
        if (print_date(moment + second * SECOND) != BOARDTIME_ACCEPTED
            || ask() != BOARDTIME_ACCEPTED)
            return 1;
        if (boardtime_pass(image, sizeof image, 1000) != BOARDTIME_ACCEPTED)
            return 1;
    }
    return 0;
}
