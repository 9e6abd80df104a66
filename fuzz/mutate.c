/* Mutations of the raw form (fuzz/cut.c) that know its rows: a row doubled or taken out, a field taken from another row,
 * a field a little off, an instruction or a kind that matters. Half of the time libFuzzer's own. */
#include <string.h>
#include "fuzz.h"

#define HEADER 71 /* the raw form up to the tables */

size_t LLVMFuzzerMutate(uint8_t *data, size_t len, size_t most);
size_t LLVMFuzzerCustomMutator(uint8_t *data, size_t len, size_t most, unsigned seed);

static uint32_t state;

static uint32_t pick(uint32_t n)
{
    state = state * 1664525 + 1013904223;
    return (state >> 8) % n;
}

static void put_u32(uint8_t *p, uint32_t v)
{
    for (int i = 0; i < 4; i++)
        p[i] = (uint8_t)(v >> (8 * i));
}

struct row {
    int table;
    size_t at; /* in the input */
};

/* A row of a table that has one and whose bytes are all there; false if the tables that come before are not. */
static int pick_row(const uint8_t *data, size_t len, struct row *r)
{
    size_t start = HEADER;
    int t = 1 + (int)pick(8);
    for (int i = 1; i <= t; i++) {
        size_t n = u32_at(data + 2 + 4 * (i - 1));
        if (n > len - start)
            return 0;
        if (i < t)
            start += n;
        else if (n < row_size[t])
            return 0;
        else
            r->at = start + row_size[t] * pick((uint32_t)(n / row_size[t]));
    }
    r->table = t;
    return 1;
}

static size_t double_row(uint8_t *data, size_t len, size_t most, const struct row *r)
{
    size_t n = row_size[r->table];
    uint8_t *length = data + 2 + 4 * (r->table - 1);
    if (len + n > most)
        return len;
    memmove(data + r->at + n, data + r->at, len - r->at);
    put_u32(length, u32_at(length) + (uint32_t)n);
    return len + n;
}

static size_t drop_row(uint8_t *data, size_t len, const struct row *r)
{
    size_t n = row_size[r->table];
    uint8_t *length = data + 2 + 4 * (r->table - 1);
    memmove(data + r->at, data + r->at + n, len - r->at - n);
    put_u32(length, u32_at(length) - (uint32_t)n);
    return len - n;
}

static void set_kind(uint8_t *row, int t)
{
    static const uint8_t slots[4][4] = {{0x85, 0x10, 0, 0}, {0x18, 0x01, 0, 0}, {0, 0, 0, 0}, {0x95, 0, 0, 0}};
    if (t == 6)
        memcpy(row, slots[pick(4)], 4);
    else if (t == 2)
        row[16] = (uint8_t)pick(3);
    else if (t == 4)
        row[16] = pick(2) ? 32 : 64;
    else if (t == 5)
        row[12] ^= 1;
    else if (t == 3)
        put_u32(row + 4 * pick(8), pick(5));
}

static size_t mutate_row(uint8_t *data, size_t len, size_t most, const struct row *r)
{
    static const uint32_t steps[6] = {1, 8, 16, (uint32_t)-1, (uint32_t)-8, (uint32_t)-16};
    uint8_t *row = data + r->at, *field = row + 4 * pick((uint32_t)row_size[r->table] / 4);
    struct row other;
    switch (pick(6)) {
    case 0:
        return double_row(data, len, most, r);
    case 1:
        return drop_row(data, len, r);
    case 2:
        put_u32(field, u32_at(field) + steps[pick(6)]);
        return len;
    case 3:
        set_kind(row, r->table);
        return len;
    default:
        if (pick_row(data, len, &other))
            memmove(field, data + other.at + 4 * pick((uint32_t)row_size[other.table] / 4), 4);
        return len;
    }
}

size_t LLVMFuzzerCustomMutator(uint8_t *data, size_t len, size_t most, unsigned seed)
{
    struct row r;
    state = seed;
    if (len < HEADER || data[0] % CUTS == CUT_GENERATED || pick(2))
        return LLVMFuzzerMutate(data, len, most);
    for (uint32_t times = 1 + pick(4); times; times--)
        if (pick_row(data, len, &r))
            len = mutate_row(data, len, most, &r);
    return len;
}
