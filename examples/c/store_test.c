/*
 * Cuts a store by a reset at every one of its bytes, with the byte torn in
 * every way, and looks at what is there afterwards: it must be the image before
 * the call or the image after it.
 */
#include <setjmp.h>
#include <stdio.h>
#include <stdlib.h>
#include <string.h>

#include "store.h"

#define SUM_AT BOARDTIME_IMAGE_BYTES
#define NUMBER_AT (SUM_AT + 4)
/* What a store writes. */
#define WRITTEN (NUMBER_AT + 1)
#define NEVER (-1)

#define START "(start 3 im 200 (-1000 1000))"
#define REQUIRE(statement) require((statement), __LINE__, #statement)

static uint8_t memory[STORE_BYTES];
static long left = NEVER;   /* bytes that are written before the reset */
static int torn;            /* what becomes of the byte after them */
static int order;           /* of the bytes within one write */
static size_t written;
static long cut_after;      /* for the message of a failure */
static jmp_buf reset;

static void require(int is_true, int at, const char *statement)
{
    if (is_true)
        return;
    printf("store_test.c:%d: not so: %s (cut after %ld bytes, torn %d, order %d)\n",
           at, statement, cut_after, torn, order);
    exit(1);
}

static uint32_t random_number(void)
{
    static uint64_t state = 1;

    state = state * UINT64_C(6364136223846793005) + UINT64_C(1442695040888963407);
    return (uint32_t)(state >> 33);
}

/* Some ways in which a byte may be torn, and after them, every byte. */
#define TORN_WAYS 8

static uint8_t torn_byte(unsigned was, unsigned is)
{
    const unsigned ways[TORN_WAYS] = {
        was, is, 0x00, 0xFF, was & is, was | is,
        (was & 0x55) | (is & 0xAA), (was & 0xF0) | (is & 0x0F),
    };

    return (uint8_t)(torn < TORN_WAYS ? ways[torn] : (unsigned)torn - TORN_WAYS);
}

void fram_read(size_t address, uint8_t *bytes, size_t count)
{
    REQUIRE(address + count <= STORE_BYTES);
    memcpy(bytes, memory + address, count);
}

#define UPWARD 0
#define DOWNWARD 1
#define ORDERS 3

/* The place of the byte that is written after i others. */
static size_t place(size_t i, size_t count)
{
    if (order == UPWARD)
        return i;
    /* 101 is a prime that divides no count of the store's. */
    return order == DOWNWARD ? count - 1 - i : i * 101 % count;
}

void fram_write(size_t address, const uint8_t *bytes, size_t count)
{
    REQUIRE(address + count <= STORE_BYTES);
    for (size_t i = 0; i < count; i++) {
        size_t at = place(i, count);
        uint8_t *byte = memory + address + at;

        if (left == 0) {
            *byte = torn_byte(*byte, bytes[at]);
            longjmp(reset, 1);
        }
        *byte = bytes[at];
        written++;
        if (left != NEVER)
            left--;
    }
}

/* A line on an open store. Returns its number. */
static uint8_t answer(struct store *store, const char *line)
{
    uint8_t out[BOARDTIME_OUTPUT_BYTES];

    return BOARDTIME_NUMBER(store_line(store, (const uint8_t *)line,
                                       strlen(line), out, sizeof out));
}

/* The line that is tried, or, if there is none, an image to keep. */
static const char *line;
static uint8_t kept[BOARDTIME_IMAGE_BYTES];

static void call(struct store *store)
{
    if (line != NULL) {
        answer(store, line);
        return;
    }
    memcpy(store->image, kept, sizeof kept);
    store_keep(store);
}

static int same(const struct store *one, const struct store *other)
{
    return memcmp(one->image, other->image, sizeof one->image) == 0;
}

/* Makes the call, and is reset after so many bytes. Tells whether there was a
   reset; a call that is refused, or is cut after its last byte, has none. */
static int call_and_cut(struct store store, long bytes)
{
    cut_after = bytes;
    left = bytes;
    if (setjmp(reset) != 0) {
        left = NEVER;
        return 1;
    }
    call(&store);
    left = NEVER;
    return 0;
}

/* What is there after a cut is the image before or after, and the next call,
   also one that is cut in its turn, goes on from there. */
static void cut(long bytes, const struct store *before, const struct store *after)
{
    struct store found, again, whole;
    uint8_t cut_memory[STORE_BYTES];

    REQUIRE(call_and_cut(*before, bytes) == (bytes < WRITTEN));
    store_open(&found);
    REQUIRE(same(&found, before) || same(&found, after));
    memcpy(cut_memory, memory, sizeof memory);

    whole = found;
    call(&whole);
    store_open(&again);
    REQUIRE(same(&again, &whole));

    memcpy(memory, cut_memory, sizeof memory);
    torn = (int)(random_number() % TORN_WAYS);
    call_and_cut(found, (long)(random_number() % WRITTEN));
    store_open(&again);
    REQUIRE(same(&again, &found) || same(&again, &whole));
}

/* Tries the call, cut in every way, and then lets it go through. */
static void try_cuts(struct store *store)
{
    struct store before = *store, found;
    uint8_t memory_before[STORE_BYTES], memory_after[STORE_BYTES];

    memcpy(memory_before, memory, sizeof memory);
    call(store);
    store_open(&found);
    REQUIRE(same(&found, store));
    memcpy(memory_after, memory, sizeof memory);
    for (long bytes = 0; bytes <= WRITTEN; bytes++) {
        /* The number decides which copy is taken: every byte is tried for it. */
        int ways = bytes == NUMBER_AT ? TORN_WAYS + 256 : TORN_WAYS;

        for (int way = 0; way < ways; way++) {
            memcpy(memory, memory_before, sizeof memory);
            torn = way;
            cut(bytes, &before, store);
        }
    }
    memcpy(memory, memory_after, sizeof memory);
}

/* Memory that no store was in: a fresh keeper, also after each cut. */
static void test_blank(void)
{
    struct store store, fresh;

    boardtime_fresh(fresh.image, sizeof fresh.image);
    line = START;
    for (int kind = 0; kind < 6; kind++) {
        order = kind % ORDERS;
        for (size_t i = 0; i < sizeof memory; i++)
            memory[i] = (uint8_t)(kind == 0 ? 0x00 : kind == 1 ? 0xFF : random_number());
        store_open(&store);
        REQUIRE(same(&store, &fresh));
        try_cuts(&store);
    }
}

/* The store works the same whichever copy is at which place. */
static void swap_copies(void)
{
    uint8_t first[STORE_COPY_BYTES];

    memcpy(first, memory, sizeof first);
    memcpy(memory, memory + STORE_COPY_BYTES, sizeof first);
    memcpy(memory + STORE_COPY_BYTES, first, sizeof first);
}

/* Twice round the numbers, with cuts at the first ones and where they begin
   again. The store is opened once, as after a reset, and goes on from there. */
static void test_rounds(void)
{
    static const char *const lines[] = {
        "(pass 1)", "(request 4)", "(pass 86400000)", "(request 15)", "(drop 4)",
        "(read)", "(flight 4 (1000 2000))", "(request 0)", "(drop 15)",
        "(pass 3)", "(flight 4 (1000000000 0))", "(drop 0)",
    };
    struct store store, found;

    memset(memory, 0, sizeof memory);
    store_open(&store);
    REQUIRE(answer(&store, START) == BOARDTIME_ACCEPTED);
    for (unsigned round = 0; round < 2 * 256; round++) {
        line = lines[round % (sizeof lines / sizeof lines[0])];
        order = (int)(round % ORDERS);
        if (round == 256) {
            swap_copies();
            store_open(&store);
        }
        if (store.number > 251 || store.number < 4) {
            try_cuts(&store);
            continue;
        }
        REQUIRE(answer(&store, line) == BOARDTIME_ACCEPTED);
        store_open(&found);
        REQUIRE(same(&found, &store));
    }
}

/* A refused call writes nothing, and an accepted one each byte once. */
static void test_refused(void)
{
    struct store store, before;

    store_open(&store);
    before = store;
    written = 0;
    REQUIRE(answer(&store, "(drop 7)") == BOARDTIME_NOT_WAITING);
    REQUIRE(store_pass(&store, 86400001) == BOARDTIME_OUTSIDE_RANGE);
    REQUIRE(written == 0 && same(&store, &before));
    REQUIRE(store_pass(&store, 5) == BOARDTIME_ACCEPTED);
    REQUIRE(written == WRITTEN);
    store_open(&before);
    REQUIRE(same(&store, &before));
}

/* A bit that flips in a copy makes it one that is not taken. */
static void test_flips(void)
{
    struct store older, newer, found, fresh;

    boardtime_fresh(fresh.image, sizeof fresh.image);
    store_open(&older);
    newer = older;
    REQUIRE(answer(&newer, "(pass 7)") == BOARDTIME_ACCEPTED);
    for (size_t bit = 0; bit < 8 * WRITTEN; bit++) {
        uint8_t flipped = (uint8_t)(1u << bit % 8);
        uint8_t *in_newer = memory + newer.newer * STORE_COPY_BYTES + bit / 8;
        uint8_t *in_older = memory + older.newer * STORE_COPY_BYTES + bit / 8;

        *in_newer ^= flipped;
        store_open(&found);
        REQUIRE(same(&found, &older));
        *in_older ^= flipped;
        store_open(&found);
        REQUIRE(same(&found, &fresh));
        *in_newer ^= flipped;
        store_open(&found);
        REQUIRE(same(&found, &newer));
        *in_older ^= flipped;
    }
    memory[newer.newer * STORE_COPY_BYTES] ^= 1;
    store_open(&found);
    line = "(pass 9)";
    try_cuts(&found);
}

/* CRC-32, one byte on and one byte back. */
static uint32_t crc_on(uint32_t crc, uint8_t byte)
{
    crc ^= byte;
    for (int bit = 0; bit < 8; bit++)
        crc = (crc & 1u) != 0 ? (crc >> 1) ^ 0xEDB88320u : crc >> 1;
    return crc;
}

static uint32_t crc_back(uint32_t crc, uint8_t byte)
{
    for (int bit = 0; bit < 8; bit++)
        crc = crc >> 31 != 0 ? (crc ^ 0xEDB88320u) << 1 | 1u : crc << 1;
    return crc ^ byte;
}

/* Four bytes that take the register from one value to another. */
static void steer(uint32_t from, uint32_t to, uint8_t *bytes)
{
    for (size_t i = 0; i < 4; i++)
        to = crc_back(to, 0);
    for (size_t i = 0; i < 4; i++)
        bytes[i] = (uint8_t)((from ^ to) >> (8 * i));
}

static uint32_t crc_of(uint32_t crc, const uint8_t *bytes, size_t count)
{
    for (size_t i = 0; i < count; i++)
        crc = crc_on(crc, bytes[i]);
    return crc;
}

#define OLDER_IMAGE_BYTES 232
#define OLDER_COPY_BYTES 240

/* A whole copy of a store for the images of an older library, of version 1. */
static void put_older_copy(size_t which, const uint8_t *image, uint8_t number)
{
    uint8_t *copy = memory + which * OLDER_COPY_BYTES;
    uint32_t crc;

    memcpy(copy, image, OLDER_IMAGE_BYTES);
    copy[0] = 1;
    crc = ~crc_on(crc_of(~0u, copy, OLDER_IMAGE_BYTES), number);
    for (size_t i = 0; i < 4; i++)
        copy[OLDER_IMAGE_BYTES + i] = (uint8_t)(crc >> (8 * i));
    copy[OLDER_IMAGE_BYTES + 4] = number;
}

/* Memory that an older store was in: a fresh keeper, also after each cut. */
static void test_older(void)
{
    struct store store, fresh;

    boardtime_fresh(fresh.image, sizeof fresh.image);
    for (int kind = 0; kind < 4; kind++) {
        order = kind % ORDERS;
        memset(memory, 0, sizeof memory);
        store_open(&store);
        REQUIRE(answer(&store, START) == BOARDTIME_ACCEPTED);
        for (size_t i = 0; i < sizeof memory; i++)
            memory[i] = (uint8_t)(kind == 0 ? 0x00 : kind == 1 ? 0xFF : random_number());
        put_older_copy(0, store.image, (uint8_t)kind);
        put_older_copy(1, store.image, (uint8_t)(kind + 1));
        store_open(&store);
        REQUIRE(same(&store, &fresh));
        line = START;
        try_cuts(&store);
    }
}

/* Makes an image whose first 8 bytes, stored over those of a copy, leave the
   copy's check sum right if the copy then bears this number. */
static void collide_upward(const uint8_t *copy, uint8_t number)
{
    uint32_t back = 0;

    for (size_t i = 4; i-- > 0;)
        back = back << 8 | copy[SUM_AT + i];
    back = crc_back(~back, number);
    for (size_t i = sizeof kept; i-- > 8;)
        back = crc_back(back, copy[i]);
    steer(crc_of(~0u, kept, 4), back, kept + 4);
}

/* Makes an image whose check sum is right too if its first 8 bytes are still
   those of the copy that it is stored over, and its number is there. */
static void collide_downward(const uint8_t *copy)
{
    steer(crc_of(~0u, kept, 4), crc_of(~0u, copy, 8), kept + 4);
}

/* Check sums that are right although the image is half of each. */
static void test_collisions(void)
{
    struct store store;

    store_open(&store);
    line = NULL;
    for (int round = 0; round < 9; round++) {
        const uint8_t *copy = memory + (1 - store.newer) * STORE_COPY_BYTES;

        for (size_t i = 0; i < sizeof kept; i++)
            kept[i] = (uint8_t)random_number();
        order = round % ORDERS;
        if (order == UPWARD)
            collide_upward(copy, (uint8_t)(store.number + (round % 2 == 0 ? 1 : -1)));
        else
            collide_downward(copy);
        try_cuts(&store);
    }
}

int main(void)
{
    test_blank();
    test_rounds();
    test_refused();
    test_flips();
    test_older();
    test_collisions();
    return 0;
}
