/*
 * A store for the keeper's image in FRAM, or any other memory that keeps its
 * bytes over a reset and writes them one by one. A reset at any time leaves
 * the image before a call or the image after it, and nothing else.
 *
 * The memory holds two copies. A call is made on an image in RAM, and if it is
 * accepted, that image is stored over the older copy; the newer one stays
 * whole all the while. At a reset the newer whole copy is taken.
 *
 *   byte of a copy   field
 *   0..359           the image
 *   360..363         check sum: CRC-32 of the image and the number,
 *                    little-endian
 *   364              number: one more than that of the copy that was newer, or
 *                    0 after 255
 *   365..367         unused, so that no line of 16 bytes belongs to both copies
 *
 * A copy is whole if its check sum is right. The number is stored last. While
 * the rest is being stored the copy bears its older number, and the other copy
 * is taken even if a check sum is right by chance; a number that is stored in
 * part does not fit its check sum. Two whole copies are one apart, so that a
 * number of one byte, which begins again at 0, tells which is newer.
 *
 * Memory that a store for images of 232 bytes has left has its check sums at
 * other places. It has no whole copy here, and a fresh keeper is taken: as
 * boardtime.h says, such an image is not read.
 *
 * The ticks. An image that comes back after a reset is that of the last
 * accepted call, and the ticks since then are owed to the keeper: without them
 * its edges need no longer hold the true time. A board whose counter goes on
 * through a reset, and that has kept what it was at the start, knows them: the
 * counter now, less the counter at the start, less the ticks passed since the
 * start (bytes 24..31 of the image). It passes them, at most 86400000 at a
 * time, before it answers a line. As those ticks are stored with the edges, no
 * pass is lost or made twice. A board that has no such counter can't know what
 * it owes, and has to be started anew from a fresh keeper.
 */
#ifndef STORE_H
#define STORE_H

#include "boardtime.h"

#define STORE_COPY_BYTES 368
/* Length of the memory that the store takes, from address 0. */
#define STORE_BYTES (2 * STORE_COPY_BYTES)

/* The image to make calls on, and where the copy of it is. */
struct store {
    uint8_t image[BOARDTIME_IMAGE_BYTES];
    uint8_t newer;  /* 0 or 1 */
    uint8_t number;
};

/*
 * The board supplies these two. A write is in the memory when it returns, and
 * two writes are made in the order of their calls; within one, any order will
 * do.
 */
void fram_read(size_t address, uint8_t *bytes, size_t count);
void fram_write(size_t address, const uint8_t *bytes, size_t count);

/* After a reset: takes the newer whole copy, or a fresh keeper if none is. */
void store_open(struct store *store);

/* Stores the image over the older copy. */
void store_keep(struct store *store);

/*
 * The calls of boardtime.h on the store's image. An accepted one is stored
 * before they return: who sends the answer sends it afterwards, so that no peer
 * has seen a tag that a reset takes back.
 */
uint32_t store_line(struct store *store, const uint8_t *line,
                    size_t line_length, uint8_t *out, size_t out_length);
uint8_t store_pass(struct store *store, uint64_t ticks);

#endif
