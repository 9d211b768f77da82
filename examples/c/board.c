/*
 * A board that asks peer 4 for the time, is reset while it waits, and goes on
 * with the image that it kept. Prints each line and, below it, the number
 * returned and the answer.
 */
#include <inttypes.h>
#include <stdio.h>
#include <string.h>

#include "boardtime.h"

static uint8_t image[BOARDTIME_IMAGE_BYTES];
/* The line of the command that was written last. */
static uint8_t line[BOARDTIME_OUTPUT_BYTES];

static void answer_line(const uint8_t *bytes, size_t length)
{
    uint8_t out[BOARDTIME_OUTPUT_BYTES];
    uint32_t returned = boardtime_line(image, sizeof image, bytes, length,
                                       out, sizeof out);

    fwrite(bytes, 1, length, stdout);
    printf("\n%u ", (unsigned)BOARDTIME_NUMBER(returned));
    /* The answer brings its own LF. */
    fwrite(out, 1, BOARDTIME_LENGTH(returned), stdout);
}

/* Takes what the call that wrote the line returned. */
static void answer(uint32_t written)
{
    if (BOARDTIME_NUMBER(written) != BOARDTIME_ACCEPTED) {
        printf("not written: %u\n", (unsigned)BOARDTIME_NUMBER(written));
        return;
    }
    answer_line(line, BOARDTIME_LENGTH(written));
}

static void request(uint64_t peer)
{
    answer(boardtime_write_request(line, sizeof line, peer));
}

static void reply(uint64_t peer, uint64_t tag, int64_t trailing, int64_t leading)
{
    answer(boardtime_write_reply(line, sizeof line, peer, tag, trailing, leading));
}

static void read_time(void)
{
    answer(boardtime_write_read(line, sizeof line));
}

static void pass_by_number(uint64_t ticks)
{
    uint8_t number = boardtime_pass(image, sizeof image, ticks);

    printf("pass by number: %" PRIu64 "\n%u\n", ticks, (unsigned)number);
}

/* Everything but the kept copy is lost. */
static void reset(void)
{
    uint8_t kept[BOARDTIME_IMAGE_BYTES];

    memcpy(kept, image, sizeof image);
    memset(image, 0xFF, sizeof image);
    read_time();
    memcpy(image, kept, sizeof image);
    printf("the kept image is back\n");
}

int main(void)
{
    /* No command has this line: it came from outside, damaged. */
    static const char damaged[] = "(pass 12x7)";

    boardtime_fresh(image, sizeof image);
    answer(boardtime_write_start(line, sizeof line, 3, BOARDTIME_IM, 200,
                                 -1000, 1000));
    answer(boardtime_write_pass(line, sizeof line, 10));
    request(4);
    reset();
    pass_by_number(5);
    reply(4, 1, 9999000, 10001000);
    reply(4, 1, 9999000, 10001000);
    request(4);
    answer(boardtime_write_waiting(line, sizeof line));
    reply(4, 2, 16002201, 16002201);
    read_time();
    answer_line((const uint8_t *)damaged, sizeof damaged - 1);
    pass_by_number(86400001);
    pass_by_number(4294967301);
    return 0;
}
