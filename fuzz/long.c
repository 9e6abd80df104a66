/* Lengths past 32 bits, once in each run: memory that is all zero and takes no room, 2^32 bytes and some more, lent as each
 * table in turn, as each part of what an examination is shown and as the readers' data; and 2^32 rows. A length, a count or a product cut to 32 bits would be taken for a
 * small one. */
#define _GNU_SOURCE
#include <stdio.h>
#include <stdlib.h>
#include <string.h>
#include <sys/mman.h>
#include "fuzz.h"

/* Records of 65,544 bytes, 65,536 of them: 2^32 + 524,288 bytes, a multiple of every row. */
#define SIZE 65544u
#define COUNT 65536u
#define LONG ((size_t)SIZE * COUNT)
/* The fewest rows of 24 bytes that take more than 2^32: 8 bytes, by the low 32 bits. And 2^32 rows: none, by those. */
#define LONG_ROWS ((((size_t)1 << 32) + 23) / 24)
#define MANY_ROWS ((size_t)1 << 32)

static void hold(int holds, const char *entry, const char *what)
{
    if (holds)
        return;
    fprintf(stderr, "fuzz: %s: %s\n", entry, what);
    abort();
}

static int is_answer(uint32_t number, const uint8_t *places, uint32_t want, uint32_t a)
{
    return number == want && u32_at(places) == a && u64_at(places + 4) == 0;
}

/* Each table alone: 1 with its number. By the low 32 bits of its length it has one row, table 3 none. */
static void long_tables(const uint8_t *zeros)
{
    uint8_t places[BARKRUFFLE_PLACES], out[3][16];
    for (uint32_t t = 1; t <= 8; t++) {
        size_t n[9] = {0};
        n[t] = ((size_t)1 << 32) + (t == 3 ? 0 : row_size[t]);
        if (t <= 6) /* a refused map step does not write, so what it may write can be read-only here */
            hold(is_answer(barkruffle_relocate_maps(zeros, n[1], zeros, n[2], zeros, n[3], zeros, n[4], zeros, n[5],
                                                    (uint8_t *)(uintptr_t)zeros, n[6], places, sizeof places), places, 1, t),
                 "barkruffle_relocate_maps", "a length past 32 bits is not 1");
        memset(out, 0x5a, sizeof out);
        if (t != 5)
            hold(is_answer(barkruffle_link(zeros, n[1], zeros, n[2], zeros, n[3], zeros, n[4], zeros, n[6], zeros, n[7], zeros,
                                           n[8], 0, out[0], 16, out[1], 16, out[2], 16, places, sizeof places), places, 1, t) &&
                 u64_at(out[0]) == 0 && memcmp(out[0], out[0] + 1, sizeof out - 1) == 0,
                 "barkruffle_link", "a length past 32 bits is not 1");
    }
}

/* The same of the link with its list, but table 3 alone: its list has no room for that many rows. */
static void long_tables_listed(const uint8_t *zeros)
{
    uint8_t places[BARKRUFFLE_PLACES], out[4][16];
    for (uint32_t t = 1; t <= 8; t++) {
        size_t n[9] = {0};
        n[t] = ((size_t)1 << 32) + (t == 3 ? 0 : row_size[t]);
        memset(out, 0x5a, sizeof out);
        if (t != 5)
            hold(is_answer(barkruffle_link_pieces(zeros, n[1], zeros, n[2], zeros, n[3], zeros, n[4], zeros, n[6], zeros, n[7],
                                                  zeros, n[8], 0, out[0], 16, out[1], 16, out[2], 16, out[3], 16, places,
                                                  sizeof places), places, t == 3 ? 32 : 1, t == 3 ? 0 : t) &&
                 u64_at(out[0]) == 0 && memcmp(out[0], out[0] + 1, sizeof out - 1) == 0, "barkruffle_link_pieces",
                 t == 3 ? "a table 3 past 32 bits is not 32" : "a length past 32 bits is not 1");
        if (t != 5)
            hold(is_answer(barkruffle_examine(zeros, n[1], zeros, n[2], zeros, n[3], zeros, n[4], zeros, n[6], zeros, n[7],
                                              zeros, n[8], 0, zeros, 8, zeros, 0, zeros, 0, zeros, 8, places, sizeof places),
                           places, 1, t), "barkruffle_examine", "a length past 32 bits is not 1");
    }
}

/* One function of one slot, and an image of it: a yes; then each part of what is shown past 32 bits in turn. By the low 32
 * bits of its length it is what it was. */
static void long_shown(const uint8_t *zeros)
{
    static const uint8_t function[32] = {[4] = 1};
    uint8_t places[BARKRUFFLE_PLACES];
    for (uint32_t i = 0; i <= 4; i++) {
        size_t n[5] = {8, 0, 0, 8, 0};
        n[i] += i < 4 ? (size_t)1 << 32 : 0;
        hold(is_answer(barkruffle_examine(NULL, 0, NULL, 0, function, 32, NULL, 0, zeros, 8, NULL, 0, NULL, 0, 0, zeros, n[0],
                                          zeros, n[1], zeros, n[2], zeros, n[3], places, sizeof places), places, i < 4 ? 33 : 0,
                       i < 4 ? 6 + i : 1), "barkruffle_examine", "a length past 32 bits is not 33");
    }
}

/* `count` rows, all zero, and no other table: 1 for table 2, and index 0 in row 0. */
static void long_rows(const uint8_t *zeros, size_t count, const char *what)
{
    const struct barkruffle_symbol *rows = (const void *)zeros;
    uint8_t places[BARKRUFFLE_PLACES], out[3][16];
    memset(out, 0x5a, sizeof out);
    uint32_t number = barkruffle_link_rows(NULL, 0, rows, count, NULL, 0, NULL, 0, NULL, 0, NULL, 0, NULL, 0, 0, out[0], 16,
                                           out[1], 16, out[2], 16, places, sizeof places);
    hold(is_answer(number, places, 1, 2) && out[0][0] == 0 && memcmp(out[0], out[0] + 1, sizeof out - 1) == 0,
         "barkruffle_link_rows", what);
    hold(barkruffle_find_symbol(rows, count, 0) == 0, "barkruffle_find_symbol", what);
}

static int is_part(struct barkruffle_part p, uint64_t at, uint64_t len) { return p.at == at && p.len == len; }

static void long_data(const uint8_t *zeros)
{
    static uint8_t rows[16 * COUNT];
    uint8_t places[BARKRUFFLE_PLACES];
    const uint64_t last = (uint64_t)SIZE * (COUNT - 1);
    hold(is_answer(barkruffle_func_info(SIZE, COUNT, zeros, LONG, rows, 8 * COUNT, places, sizeof places), places, 0, COUNT) &&
         is_answer(barkruffle_func_info(SIZE, COUNT, zeros, (uint32_t)LONG, rows, 8 * COUNT, places, sizeof places), places, 14, 0),
         "barkruffle_func_info", "data past 32 bits");
    hold(is_answer(barkruffle_line_info(SIZE, COUNT, zeros, LONG, rows, 16 * COUNT, places, sizeof places), places, 0, COUNT) &&
         is_answer(barkruffle_line_info(SIZE, COUNT, zeros, (uint32_t)LONG, rows, 16 * COUNT, places, sizeof places), places, 14, 0),
         "barkruffle_line_info", "data past 32 bits");
    hold(is_part(barkruffle_func_info_record(SIZE, COUNT, zeros, LONG, COUNT - 1), last, SIZE) &&
         is_part(barkruffle_func_info_record(SIZE, COUNT, zeros, LONG, COUNT), 0, 0),
         "barkruffle_func_info_record", "data past 32 bits");
    hold(is_part(barkruffle_line_info_record(SIZE, COUNT, zeros, LONG, COUNT - 1), last, SIZE) &&
         is_part(barkruffle_line_info_record(SIZE, COUNT, zeros, LONG, COUNT), 0, 0),
         "barkruffle_line_info_record", "data past 32 bits");
    hold(is_answer(barkruffle_func_info_record_number(SIZE, COUNT, zeros, LONG, COUNT - 1, places, sizeof places), places, 0, COUNT),
         "barkruffle_func_info_record_number", "data past 32 bits");
    hold(is_answer(barkruffle_line_info_record_number(SIZE, COUNT, zeros, LONG, COUNT - 1, places, sizeof places), places, 0, COUNT),
         "barkruffle_line_info_record_number", "data past 32 bits");
}

/* Zeros that cannot be written, or NULL, which is told. */
static uint8_t *map_zeros(size_t len)
{
    uint8_t *zeros = mmap(NULL, len, PROT_READ, MAP_PRIVATE | MAP_ANONYMOUS | MAP_NORESERVE, -1, 0);
    if (zeros != MAP_FAILED)
        return zeros;
    fprintf(stderr, "fuzz: what takes %zu bytes of zeros is left out\n", len);
    return NULL;
}

void try_long(void)
{
    const size_t many = MANY_ROWS * sizeof(struct barkruffle_symbol);
    uint8_t *zeros = map_zeros(LONG), *rows = map_zeros(many);
    if (zeros) {
        long_tables(zeros);
        long_tables_listed(zeros);
        long_shown(zeros);
        long_data(zeros);
        long_rows(zeros, LONG_ROWS, "rows of more bytes than 32 bits tell");
        munmap(zeros, LONG);
    }
    if (rows) {
        long_rows(rows, MANY_ROWS, "a count past 32 bits");
        munmap(rows, many);
    }
}
