/* Buffers lent between guards. Regions of a file in memory are mapped twice, to be written and only to be read, with
 * pages around each that are not mapped at all. A buffer lies at one end of its region, or at an odd address inside;
 * all else in the region is guard bytes. So a stray write is seen wherever it goes near the buffer, and a stray read
 * traps on one side, and on the other in the run that lends from there. Packed buffers lie side by side in one region,
 * upwards or downwards in the order in which they are lent: copies may go by where their two ends lie. Rows lie at a
 * multiple of 8, never of 16 where bytes lie at an odd address; guard bytes fill what that leaves between packed buffers. */
#define _GNU_SOURCE
#include <stdio.h>
#include <stdlib.h>
#include <string.h>
#include <sys/mman.h>
#include <unistd.h>
#include "fuzz.h"

#define REGIONS 12
#define SIZES 4
#define PAGE ((size_t)4096)
#define GAP (64 * PAGE)

/* A buffer takes the smallest region that leaves a page or more for guard bytes. */
static const size_t region_size[SIZES] = {2 * PAGE, 4 * PAGE, 9 * PAGE, MOST + 2 * PAGE};

struct lent {
    const uint8_t *copy; /* what it must hold still, or NULL where it may be written */
    uint8_t *region, *own; /* as we write them */
    const uint8_t *seen;   /* the region as it is lent */
    size_t size, len;
};

static uint8_t *to_write[REGIONS][SIZES], *to_read[REGIONS][SIZES], copies[REGIONS][MOST];
static uint8_t guards_of[SIDES][MOST + 2 * PAGE], *guards;
static uint8_t packed[REGIONS * (MOST + 8) + 2 * PAGE], *lowest, *highest; /* what packed buffers take so far */
static struct lent lent[REGIONS];
static int lent_count, null_when_empty;
static enum side side;
static char told[160];

static void *need(void *p)
{
    if (p == MAP_FAILED) {
        perror("fuzz: mmap");
        exit(2);
    }
    return p;
}

static void map_regions(void)
{
    size_t sum = 0, at = 0;
    for (int j = 0; j < SIZES; j++)
        sum += region_size[j];
    int file = memfd_create("lent", 0);
    if (file < 0 || ftruncate(file, (off_t)(REGIONS * sum))) {
        perror("fuzz: memfd_create");
        exit(2);
    }
    uint8_t *free_pages = need(mmap(NULL, 2 * REGIONS * (sum + SIZES * GAP) + GAP, PROT_NONE,
                                    MAP_PRIVATE | MAP_ANONYMOUS | MAP_NORESERVE, -1, 0));
    free_pages += GAP;
    for (int i = 0; i < REGIONS; i++)
        for (int j = 0; j < SIZES; j++) {
            size_t n = region_size[j];
            to_write[i][j] = need(mmap(free_pages, n, PROT_READ | PROT_WRITE, MAP_SHARED | MAP_FIXED, file, (off_t)at));
            free_pages += n + GAP;
            to_read[i][j] = need(mmap(free_pages, n, PROT_READ, MAP_SHARED | MAP_FIXED, file, (off_t)at));
            free_pages += n + GAP;
            at += n;
        }
    close(file);
}

/* Buffers lent from now on lie at that side. */
void lend_from(enum side from, int null)
{
    static const uint8_t guard[SIDES] = {0xa5, 0x3c, 0xc3, 0x69, 0x96};
    if (!guards) {
        map_regions();
        for (int i = 0; i < SIDES; i++)
            memset(guards_of[i], guard[i], sizeof guards_of[i]);
    }
    guards = guards_of[from];
    lent_count = 0;
    side = from;
    null_when_empty = null;
    lowest = highest = side == PACKED_UP ? packed + PAGE : packed + sizeof packed - PAGE;
}

/* The next of the packed buffers, and guard bytes on both sides of all of them. What lies before it or after it up to
 * its neighbour, because of its alignment, belongs to its region. */
static void pack(struct lent *l, size_t len, size_t align)
{
    uint8_t *start = highest, *end = lowest;
    if (side == PACKED_UP) {
        l->region = start;
        l->own = start + (align - (uintptr_t)start % align) % align;
        highest = end = l->own + len;
    } else {
        l->region = l->own = end - len - (uintptr_t)(end - len) % align;
        lowest = l->own;
    }
    memcpy(lowest - PAGE, guards, PAGE);
    memcpy(highest, guards, PAGE);
    l->seen = l->region;
    l->size = (size_t)(end - l->region);
    l->len = len;
}

/* Where a buffer lies in its region, when not packed. */
static size_t offset_in(const struct lent *l, size_t len, size_t align)
{
    size_t i = (size_t)(l - lent);
    if (side == AT_ODD)
        return align == 1 ? 33 + 2 * i : align * (2 * i + 5);
    return side == AT_END ? l->size - len : 0;
}

static struct lent *next(size_t len, size_t align, int only_read)
{
    if (lent_count == REGIONS || len > MOST || len % align) {
        fprintf(stderr, "fuzz: too much lent, or a part of a row\n");
        exit(2);
    }
    int i = lent_count++, j = 0;
    while (len + PAGE > region_size[j])
        j++;
    struct lent *l = &lent[i];
    l->copy = NULL;
    if (side >= PACKED_UP)
        pack(l, len, align);
    else {
        l->region = to_write[i][j];
        l->seen = only_read ? to_read[i][j] : l->region;
        l->size = region_size[j];
        l->own = l->region + offset_in(l, len, align);
        l->len = len;
    }
    memcpy(l->region, guards, (size_t)(l->own - l->region));
    memcpy(l->own + len, guards, (size_t)(l->region + l->size - l->own) - len);
    return l;
}

static uint8_t *lent_to_write(const struct lent *l) { return l->len == 0 && null_when_empty ? NULL : l->own; }

static const uint8_t *lend_aligned(const uint8_t *bytes, size_t len, size_t align)
{
    struct lent *l = next(len, align, 1);
    l->copy = copies[l - lent];
    memcpy(copies[l - lent], bytes, len);
    memcpy(l->own, bytes, len);
    return len == 0 && null_when_empty ? NULL : l->seen + (l->own - l->region);
}

const uint8_t *lend(const uint8_t *bytes, size_t len) { return lend_aligned(bytes, len, 1); }

const struct barkruffle_symbol *lend_rows(const uint8_t *bytes, size_t len)
{
    return (const void *)lend_aligned(bytes, len, _Alignof(struct barkruffle_symbol));
}

uint8_t *lend_to_write(const uint8_t *bytes, size_t len)
{
    struct lent *l = next(len, 1, 0);
    memcpy(l->own, bytes, len);
    return lent_to_write(l);
}

uint8_t *lend_filled(uint8_t fill, size_t len)
{
    struct lent *l = next(len, 1, 0);
    memset(l->own, fill, len);
    return lent_to_write(l);
}

static const char *tell(const char *what, int i)
{
    snprintf(told, sizeof told, "%s buffer %d of %zu bytes", what, i, lent[i].len);
    return told;
}

const char *take_back(void)
{
    if (side >= PACKED_UP && (memcmp(lowest - PAGE, guards, PAGE) || memcmp(highest, guards, PAGE)))
        return "guard bytes written around packed buffers";
    for (int i = 0; i < lent_count; i++) {
        const struct lent *l = &lent[i];
        size_t before = (size_t)(l->own - l->region);
        if (memcmp(l->region, guards, before))
            return tell("guard bytes written before", i);
        if (memcmp(l->own + l->len, guards, l->size - before - l->len))
            return tell("guard bytes written after", i);
        if (l->copy && memcmp(l->copy, l->own, l->len))
            return tell("a change of the read-only", i);
    }
    lent_count = 0;
    return NULL;
}

/* Which buffer an access that trapped was meant for. */
const char *trapped_at(const void *address)
{
    const uint8_t *p = address;
    for (int i = 0; i < lent_count; i++) {
        const uint8_t *start = lent[i].seen, *end = start + lent[i].size;
        if (p >= start - GAP / 2 && p < end + GAP / 2)
            return tell(p < start ? "trapped: an access before" : p >= end ? "trapped: an access past"
                                                                          : "trapped: a write to the read-only", i);
    }
    return "trapped: an access to no buffer that is lent";
}
