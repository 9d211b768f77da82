#include "store.h"

#include <string.h>

#define SUM_AT BOARDTIME_IMAGE_BYTES
#define NUMBER_AT (SUM_AT + 4)
#define USED_BYTES (NUMBER_AT + 1)

/* The register of CRC-32 (that of zip and Ethernet) after one more byte. */
static uint32_t crc_step(uint32_t crc, uint8_t byte)
{
    crc ^= byte;
    for (int bit = 0; bit < 8; bit++)
        crc = (crc >> 1) ^ ((crc & 1u) != 0 ? 0xEDB88320u : 0);
    return crc;
}

/* Puts down the check sum of a copy that has its image and its number. */
static void put_sum(uint8_t *copy)
{
    uint32_t crc = 0xFFFFFFFFu;

    for (size_t i = 0; i < BOARDTIME_IMAGE_BYTES; i++)
        crc = crc_step(crc, copy[i]);
    crc = ~crc_step(crc, copy[NUMBER_AT]);
    for (size_t i = 0; i < 4; i++)
        copy[SUM_AT + i] = (uint8_t)(crc >> (8 * i));
}

/* Reads a copy, and tells whether it is whole. */
static int read_copy(size_t which, uint8_t *copy)
{
    uint8_t right[USED_BYTES];

    fram_read(which * STORE_COPY_BYTES, copy, USED_BYTES);
    memcpy(right, copy, sizeof right);
    put_sum(right);
    return memcmp(right, copy, sizeof right) == 0;
}

static void take(struct store *store, uint8_t which, const uint8_t *copy)
{
    memcpy(store->image, copy, sizeof store->image);
    store->newer = which;
    store->number = copy[NUMBER_AT];
}

void store_open(struct store *store)
{
    uint8_t first[USED_BYTES];
    uint8_t second[USED_BYTES];
    int first_whole = read_copy(0, first);
    int second_whole = read_copy(1, second);
    /* The cast makes 0 one more than 255. */
    int second_newer = second[NUMBER_AT] == (uint8_t)(first[NUMBER_AT] + 1);

    if (second_whole && (!first_whole || second_newer)) {
        take(store, 1, second);
    } else if (first_whole) {
        take(store, 0, first);
    } else {
        boardtime_fresh(store->image, sizeof store->image);
        store->newer = 1;
        store->number = 0;
    }
}

void store_keep(struct store *store)
{
    uint8_t copy[USED_BYTES];
    size_t older = store->newer == 0 ? 1 : 0;
    size_t address = older * STORE_COPY_BYTES;

    memcpy(copy, store->image, sizeof store->image);
    copy[NUMBER_AT] = (uint8_t)(store->number + 1);
    put_sum(copy);
    fram_write(address, copy, NUMBER_AT);
    fram_write(address + NUMBER_AT, copy + NUMBER_AT, 1);
    take(store, (uint8_t)older, copy);
}

uint32_t store_line(struct store *store, const uint8_t *line,
                    size_t line_length, uint8_t *out, size_t out_length)
{
    uint32_t returned = boardtime_line(store->image, sizeof store->image, line,
                                       line_length, out, out_length);

    if (BOARDTIME_NUMBER(returned) == BOARDTIME_ACCEPTED)
        store_keep(store);
    return returned;
}

uint8_t store_pass(struct store *store, uint64_t ticks)
{
    uint8_t number = boardtime_pass(store->image, sizeof store->image, ticks);

    if (number == BOARDTIME_ACCEPTED)
        store_keep(store);
    return number;
}
