/* Images for the examiner that no link of the library made: a linker of another order, and changes of one thing. It lays the
 * functions breadth-first, then shuffles them; some it lays twice, and some that nobody calls; where a function stands in
 * several pieces, any of them is called. A slot that cannot be linked is left as its source, so that such images are met too. */
#include <string.h>
#include "fuzz.h"

uint32_t choose(uint64_t *choices, uint32_t n)
{
    *choices = *choices * 6364136223846793005u + 1442695040888963407u;
    return (uint32_t)(*choices >> 33) % n;
}

/* ---- the linker */

#define MOST_LAID 96

struct layer {
    const struct run *table;
    uint64_t *choices;
    struct shown *s;
    size_t count;
    uint32_t row[MOST_LAID], start[MOST_LAID];
    size_t used[3]; /* slots, function records, line records */
    int met;
};

static const uint8_t *function_row(const struct layer *l, uint32_t row) { return l->table[3].at + 32 * row; }

static void put_u32(uint8_t *p, uint64_t v)
{
    for (int i = 0; i < 4; i++)
        p[i] = (uint8_t)(v >> (8 * i));
}

static int is_laid(const struct layer *l, uint32_t row)
{
    for (size_t k = 0; k < l->count; k++)
        if (l->row[k] == row)
            return 1;
    return 0;
}

/* One more piece, where an image has room for it. */
static void add_piece(struct layer *l, uint32_t row)
{
    static const size_t field[3] = {4, 24, 28};
    if (l->count == MOST_LAID)
        return;
    for (int i = 0; i < 3; i++)
        if (l->used[i] + u32_at(function_row(l, row) + field[i]) > most_shown[i])
            return;
    for (int i = 0; i < 3; i++)
        l->used[i] += u32_at(function_row(l, row) + field[i]);
    l->row[l->count++] = row;
}

/* The functions that the pieces name, each behind those named before it. */
static void add_named(struct layer *l)
{
    for (size_t k = 0; k < l->count; k++)
        for (uint32_t s = 0; s < u32_at(function_row(l, l->row[k]) + 4); s++) {
            size_t callee;
            if (model_names(l->table, l->row[k], s, &callee) > MODEL_COPIED &&
                (!is_laid(l, (uint32_t)callee) || choose(l->choices, 24) == 0))
                add_piece(l, (uint32_t)callee);
        }
}

static void shuffle(struct layer *l)
{
    for (size_t k = l->count - 1; k > 1; k--) {
        size_t other = 1 + choose(l->choices, (uint32_t)k);
        uint32_t row = l->row[k];
        l->row[k] = l->row[other];
        l->row[other] = row;
    }
}

/* Any piece of the function, or none. */
static size_t piece_of(struct layer *l, uint32_t row)
{
    size_t from = choose(l->choices, (uint32_t)l->count);
    for (size_t i = 0; i < l->count; i++)
        if (l->row[(from + i) % l->count] == row)
            return (from + i) % l->count;
    return l->count;
}

static void lay_slots(struct layer *l, size_t k, const uint8_t *source, int *is_called)
{
    uint32_t n = u32_at(function_row(l, l->row[k]) + 4);
    uint8_t *image = l->s->part[0].at + 8 * l->start[k];
    memcpy(image, source, 8 * (size_t)n);
    for (uint32_t s = 0; s < n; s++) {
        size_t callee, to;
        uint32_t names = model_names(l->table, l->row[k], s, &callee);
        if (names < MODEL_COPIED || (names > MODEL_COPIED && !is_laid(l, (uint32_t)callee)))
            l->met &= ~LAID_WHOLE;
        if (names <= MODEL_COPIED || !is_laid(l, (uint32_t)callee))
            continue;
        to = piece_of(l, (uint32_t)callee);
        is_called[to] = 1;
        put_u32(image + 8 * s + 4, (uint64_t)l->start[to] - l->start[k] - s - 1);
        if (names == MODEL_REFERENCE)
            image[8 * s + 1] = (uint8_t)(0x40 | (image[8 * s + 1] & 15));
        l->met |= to == 0 ? LAID_TO_FIRST : 0;
    }
}

/* The records of piece k, after those laid so far. */
static void lay_records(struct layer *l, size_t k, const uint8_t *func, const uint8_t *line)
{
    const uint8_t *f = function_row(l, l->row[k]);
    for (uint32_t j = 0; j < u32_at(f + 24); j++, func += 8) {
        uint8_t *p = l->s->part[1].at + l->s->part[1].len;
        memcpy(p, func, 8);
        if (k)
            put_u32(p, l->start[k]);
        l->s->part[1].len += 8;
    }
    const uint8_t *first = line;
    for (uint32_t j = 0; j < u32_at(f + 28); j++, line += 16) {
        uint8_t *p = l->s->part[2].at + l->s->part[2].len;
        uint32_t from_first = u32_at(line) - u32_at(first);
        memcpy(p, line, 16);
        if (k)
            put_u32(p, (uint64_t)l->start[k] + from_first);
        if (k && (u32_at(line) < u32_at(first) || from_first >= u32_at(f + 4)))
            l->met &= ~LAID_WHOLE;
        l->s->part[2].len += 16;
    }
}

static void lay_piece(struct layer *l, size_t k, int *is_called)
{
    const uint8_t *slot = l->table[6].at, *func = l->table[7].at, *line = l->table[8].at;
    for (uint32_t row = 0; row < l->row[k]; row++) {
        slot += 8 * (size_t)u32_at(function_row(l, row) + 4);
        func += 8 * (size_t)u32_at(function_row(l, row) + 24);
        line += 16 * (size_t)u32_at(function_row(l, row) + 28);
    }
    lay_slots(l, k, slot, is_called);
    lay_records(l, k, func, line);
    put_u32(l->s->part[3].at + 8 * k, l->row[k]);
    put_u32(l->s->part[3].at + 8 * k + 4, l->start[k]);
}

static void start_pieces(struct layer *l)
{
    uint32_t at = 0;
    for (size_t k = 0; k < l->count; k++) {
        l->start[k] = at;
        at += u32_at(function_row(l, l->row[k]) + 4);
        for (size_t i = 0; i < k; i++)
            l->met |= l->row[i] == l->row[k] ? LAID_TWICE : 0;
    }
    l->s->part[0].len = 8 * (size_t)at;
    l->s->part[1].len = l->s->part[2].len = 0;
    l->s->part[3].len = 8 * l->count;
}

/* The tables pass the link's checks. */
int lay_image(const struct run *table, uint32_t root, uint64_t *choices, struct shown *s)
{
    static struct layer l;
    int is_called[MOST_LAID] = {1};
    l = (struct layer){.table = table, .choices = choices, .s = s, .met = LAID_WHOLE};
    add_piece(&l, root);
    if (l.count == 0)
        return 0; /* a root that no image has room for */
    for (uint32_t more = choose(choices, 3); more; more--)
        add_piece(&l, choose(choices, (uint32_t)(table[3].len / 32)));
    add_named(&l);
    shuffle(&l);
    start_pieces(&l);
    for (size_t k = 0; k < l.count; k++)
        lay_piece(&l, k, is_called);
    for (size_t k = 0; k < l.count; k++)
        l.met |= is_called[k] ? 0 : LAID_UNCALLED;
    return l.met | LAID;
}

/* ---- one thing changed */

static size_t rows_of(const struct shown *s, int part) { return s->part[part].len / row_shown[part]; }

/* One of the rows, all of which are there. */
static uint8_t *some_row(struct shown *s, int part, uint64_t *choices)
{
    return s->part[part].at + row_shown[part] * choose(choices, (uint32_t)rows_of(s, part));
}

static void double_row(struct shown *s, int part, uint64_t *choices)
{
    uint8_t *row = some_row(s, part, choices), *end = s->part[part].at + s->part[part].len;
    if (rows_of(s, part) > most_shown[part])
        return;
    memmove(row + row_shown[part], row, (size_t)(end - row));
    s->part[part].len += row_shown[part];
}

static void drop_row(struct shown *s, int part, uint64_t *choices)
{
    uint8_t *row = some_row(s, part, choices), *end = s->part[part].at + s->part[part].len, *next = row + row_shown[part];
    memmove(row, next, (size_t)(end - next));
    s->part[part].len -= row_shown[part];
}

static void swap_rows(struct shown *s, int part, uint64_t *choices)
{
    uint8_t *row = some_row(s, part, choices), *other = some_row(s, part, choices), kept[16];
    memcpy(kept, row, row_shown[part]);
    memmove(row, other, row_shown[part]);
    memcpy(other, kept, row_shown[part]);
}

/* To that many bytes, with zeros where there were none. */
static void resize(struct shown *s, int part, size_t len)
{
    if (len > s->part[part].len)
        memset(s->part[part].at + s->part[part].len, 0, len - s->part[part].len);
    s->part[part].len = len;
}

/* Rows doubled, dropped or swapped; a byte, or a number a little off, or one that stands elsewhere in the same part. */
static void change_row(struct shown *s, int part, uint64_t *choices)
{
    static const uint32_t steps[4] = {1, 8, (uint32_t)-1, 0x10000};
    uint8_t *row = some_row(s, part, choices), *field = row + 4 * choose(choices, (uint32_t)row_shown[part] / 4);
    switch (choose(choices, 6)) {
    case 0:
        double_row(s, part, choices);
        break;
    case 1:
        drop_row(s, part, choices);
        break;
    case 2:
        swap_rows(s, part, choices);
        break;
    case 3:
        row[choose(choices, (uint32_t)row_shown[part])] ^= (uint8_t)(1 << choose(choices, 8));
        break;
    case 4:
        put_u32(field, u32_at(field) + steps[choose(choices, 4)]);
        break;
    default:
        memmove(field, some_row(s, part, choices) + (field - row), 4);
    }
}

/* A call or a load of the image sent to the start of some piece, or its source register changed. */
static void change_slot(struct shown *s, uint64_t *choices)
{
    size_t slots = rows_of(s, 0), at = choose(choices, (uint32_t)slots);
    for (size_t i = 0; i < slots && s->part[0].at[8 * at] != 0x85 && s->part[0].at[8 * at] != 0x18; i++)
        at = (at + 1) % slots;
    uint8_t *slot = s->part[0].at + 8 * at;
    if (choose(choices, 2) && rows_of(s, 3))
        put_u32(slot + 4, (uint64_t)u32_at(some_row(s, 3, choices) + 4) - at - 1);
    else
        slot[1] = (uint8_t)(choose(choices, 8) << 4 | (slot[1] & 15));
}

/* A part with a partial row at its end, with nothing in it, or with a row or a byte more than an image can have. */
static void change_size(struct shown *s, int part, uint64_t *choices)
{
    size_t row = row_shown[part], len = s->part[part].len;
    uint32_t way = choose(choices, 16);
    if (way == 0)
        resize(s, part, row * most_shown[part] + 1 + choose(choices, (uint32_t)row));
    else if (way == 1)
        resize(s, part, row * most_shown[part]);
    else if (way < 4)
        s->part[part].len = 0;
    else if (way < 10 && len >= row)
        s->part[part].len = len - 1 - choose(choices, (uint32_t)row - 1);
    else
        resize(s, part, len + 1 + choose(choices, (uint32_t)row));
}

void change_shown(struct shown *s, uint64_t *choices)
{
    int part = (int)choose(choices, 4);
    uint32_t way = choose(choices, 8);
    if (way == 0)
        change_size(s, part, choices);
    else if (way < 4 && rows_of(s, 0))
        change_slot(s, choices);
    else if (rows_of(s, part))
        change_row(s, part, choices);
    else
        resize(s, part, row_shown[part]);
}
