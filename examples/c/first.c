#include <stdio.h>

#include "boardtime.h"

static uint8_t image[BOARDTIME_IMAGE_BYTES];
static uint8_t line[BOARDTIME_OUTPUT_BYTES];

/* Takes what the writer of `line` returned, writes the answer to the line and
   returns its number. */
static uint8_t answer(uint32_t written)
{
    uint8_t out[BOARDTIME_OUTPUT_BYTES];
    uint32_t returned;

    if (BOARDTIME_NUMBER(written) != BOARDTIME_ACCEPTED)
        return BOARDTIME_NUMBER(written);
    returned = boardtime_line(image, sizeof image, line,
                              BOARDTIME_LENGTH(written), out, sizeof out);
    fwrite(out, 1, BOARDTIME_LENGTH(returned), stdout);
    return BOARDTIME_NUMBER(returned);
}

/* A reply of peer 4 with this tag. */
static uint8_t reply(uint64_t tag)
{
    return answer(boardtime_write_reply(line, sizeof line, 4, tag,
                                        9999000, 10001000));
}

int main(void)
{
    boardtime_fresh(image, sizeof image);
    if (answer(boardtime_write_start(line, sizeof line, 3, BOARDTIME_IM, 200,
                                     -1000, 1000)) != BOARDTIME_ACCEPTED)
        return 1;
    if (boardtime_pass(image, sizeof image, 10) != BOARDTIME_ACCEPTED)
        return 1;
    if (answer(boardtime_write_request(line, sizeof line, 4)) != BOARDTIME_ACCEPTED)
        return 1;
    if (reply(2) == BOARDTIME_NOT_WAITING)
        puts("another tag");
    if (reply(1) != BOARDTIME_ACCEPTED)
        return 1;
    return answer(boardtime_write_read(line, sizeof line));
}
