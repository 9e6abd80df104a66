/* An input cut into the buffers of the entries. Its first byte chooses the way: raw bytes, which are mostly refused with
 * 1 or 2; the same bytes repaired to sound tables; or a generator, for which the bytes are choices. fuzz/seeds.py writes
 * the raw form. */
#include <stdlib.h>
#include <string.h>
#include "fuzz.h"

struct source {
    const uint8_t *at;
    size_t left;
};

/* The next number of that many bytes; zero where none is left. */
static uint32_t take(struct source *s, int bytes)
{
    uint32_t v = 0;
    for (int i = 0; i < bytes && s->left; i++, s->left--)
        v |= (uint32_t)*s->at++ << (8 * i);
    return v;
}

static uint64_t take_choices(struct source *s)
{
    uint64_t low = take(s, 4);
    return low | (uint64_t)take(s, 4) << 32;
}

static uint32_t below(struct source *s, uint32_t n) { return take(s, n <= 256 ? 1 : 2) % n; }

/* True for `of_256` of 256 bytes; false where none is left. */
static int rare(struct source *s, unsigned of_256) { return take(s, 1) > 255 - of_256; }

/* ---- raw */

/* A length with its high bit set is taken as it stands, with zeros for what is missing; else what is there bounds it. */
static size_t length_of(uint32_t v) { return (v & 0x7fffffff) % (MOST + 1); }

static void take_bytes(struct source *s, struct bytes *b, uint32_t length)
{
    size_t have = length_of(length) < s->left ? length_of(length) : s->left;
    memcpy(b->at, s->at, have);
    s->at += have;
    s->left -= have;
    b->len = length >> 31 ? length_of(length) : have;
    memset(b->at + have, 0, b->len - have);
}

static void cut_raw(struct input *in, struct source *s)
{
    uint32_t lengths[9], data;
    uint32_t flags = take(s, 1);
    in->maps_first = flags & 1;
    in->shared = flags >> 1 & 1;
    for (int t = 1; t <= 8; t++)
        lengths[t] = take(s, 4);
    in->root = take(s, 4);
    in->size = take(s, 4);
    in->count = take(s, 4);
    in->k = take(s, 4);
    data = take(s, 4);
    for (int i = 0; i < 3; i++)
        in->out_len[i] = length_of(take(s, 4));
    in->rows_len = length_of(take(s, 4));
    in->places_len = take(s, 1) % 24;
    for (int t = 1; t <= 8; t++)
        take_bytes(s, &in->table[t], lengths[t]);
    take_bytes(s, &in->data, data);
    in->choices = take_choices(s);
}

/* ---- rows put right */

static void put(uint8_t *p, uint64_t v, int bytes)
{
    for (int i = 0; i < bytes; i++)
        p[i] = (uint8_t)(v >> (8 * i));
}

static void limit(uint8_t *p, int bytes, uint64_t most)
{
    uint64_t v = bytes == 8 ? u64_at(p) : u32_at(p);
    if (v > most)
        put(p, v % (most + 1), bytes);
}

static void section_or_none(uint8_t *p)
{
    if (u32_at(p) != NONE)
        limit(p, 4, 65535);
}

/* Each field of a row in its bounds. */
static void right_row(uint8_t *r, int t)
{
    const uint64_t address = ((uint64_t)1 << 48) - 1;
    if (t == 2)
        section_or_none(r + 4);
    else
        limit(r, 4, 65535);
    if (t == 2)
        limit(r, 4, NONE - 1);
    if (t == 4)
        limit(r + 4, 4, NONE - 1);
    if (t == 2 || t == 3 || t == 4)
        limit(r + 8, 8, address);
    if (t == 2)
        r[16] %= 3;
    if (t == 2 || t == 4)
        memset(r + 17, 0, 7);
    if (t == 3) {
        limit(r + 4, 4, 4096);
        r[4] |= !u32_at(r + 4);
        limit(r + 16, 8, address);
        r[16] &= 0xf8;
    }
    if (t == 5) {
        r[12] %= 2;
        memset(r + 13, 0, 3);
    }
}

static int by_number(const void *a, const void *b)
{
    uint32_t x = u32_at(a), y = u32_at(b);
    return x < y ? -1 : x > y;
}

static int by_pair(const void *a, const void *b)
{
    uint64_t x = u64_at((const uint8_t *)a + 8), y = u64_at((const uint8_t *)b + 8);
    int sections = by_number(a, b);
    return sections ? sections : x < y ? -1 : x > y;
}

/* Whether row k may not stand after the rows before it. */
static int doubled(const struct bytes *b, int t, size_t k)
{
    const uint8_t *r = b->at + k * row_size[t];
    if (t != 5)
        return k && (t <= 2 ? by_number : by_pair)(r - row_size[t], r) >= 0;
    for (const uint8_t *q = b->at; q < r; q += 16)
        if (u32_at(q + 4) == u32_at(r + 4) && (u32_at(r + 4) != NONE || u32_at(q) == u32_at(r)))
            return 1;
    return 0;
}

static void right_table(struct bytes *b, int t)
{
    size_t rows = b->len / row_size[t];
    if (rows > most_rows[t])
        rows = most_rows[t];
    for (size_t k = 0; k < rows; k++)
        right_row(b->at + k * row_size[t], t);
    if (t != 5)
        qsort(b->at, rows, row_size[t], t <= 2 ? by_number : by_pair);
    size_t kept = 0;
    for (size_t k = 0; k < rows; k++) {
        if (kept < k)
            memcpy(b->at + kept * row_size[t], b->at + k * row_size[t], row_size[t]);
        kept += !doubled(b, t, kept);
    }
    b->len = kept * row_size[t];
}

/* One of tables 6 to 8 as long as table 3 says; what table 3 asks past the limit it asks no more. */
static void right_total(struct input *in, int t, size_t field, uint32_t least)
{
    size_t sum = 0, rows = in->table[3].len / 32;
    for (size_t k = 0; k < rows; k++) {
        uint8_t *p = in->table[3].at + 32 * k + field;
        size_t spare = most_rows[t] - sum - least * (rows - 1 - k);
        if (u32_at(p) > spare)
            put(p, spare < 4 ? least : u32_at(p) % 4 + least, 4);
        sum += u32_at(p);
    }
    struct bytes *b = &in->table[t];
    if (b->len < sum * row_size[t])
        memset(b->at + b->len, 0, sum * row_size[t] - b->len);
    b->len = sum * row_size[t];
}

static void repair(struct input *in)
{
    for (int t = 1; t <= 5; t++)
        right_table(&in->table[t], t);
    right_total(in, 6, 4, 1);
    right_total(in, 7, 24, 0);
    right_total(in, 8, 28, 0);
    size_t rows = in->table[3].len / 32;
    if (rows && in->root >= rows && in->root % 16)
        in->root %= (uint32_t)rows;
    if (in->size && in->size % 16 && in->data.len >= 16) {
        in->size = 8 + in->size % 33;
        in->count = (uint32_t)(in->data.len / in->size);
        in->data.len = (size_t)in->count * in->size;
        for (size_t k = 0; k < in->count; k++)
            in->data.at[k * in->size] &= 0xf8;
        in->k %= in->count + 2;
    }
}

/* ---- the generator: an object as a compiler might have made it, then perhaps damaged. Zero chooses what is sound. */

struct maker {
    struct input *in;
    struct source *s;
    uint32_t functions, symbols;
};

static uint8_t *add_row(struct input *in, int t)
{
    struct bytes *b = &in->table[t];
    if (b->len >= most_rows[t] * row_size[t])
        b->len -= row_size[t];
    uint8_t *r = b->at + b->len;
    memset(r, 0, row_size[t]);
    b->len += row_size[t];
    return r;
}

static const uint8_t *function_row(const struct maker *m, uint32_t k) { return m->in->table[3].at + 32 * k; }

static void add_function(struct maker *m, uint32_t section, uint64_t *at)
{
    uint8_t *r = add_row(m->in, 3);
    uint32_t slots = 1 + below(m->s, 6);
    if (rare(m->s, 1))
        slots = 1 + below(m->s, 4096);
    put(r, section, 4);
    put(r + 4, slots, 4);
    put(r + 8, *at + (rare(m->s, 6) ? below(m->s, 8) : 0), 8);
    put(r + 16, *at, 8);
    put(r + 24, rare(m->s, 2) ? below(m->s, 300) : below(m->s, 3), 4);
    put(r + 28, rare(m->s, 2) ? below(m->s, 5000) : below(m->s, 4), 4);
    *at += 8 * (uint64_t)(rare(m->s, 8) ? 1 : slots);
}

static void add_functions(struct maker *m)
{
    uint32_t n = 1 + below(m->s, rare(m->s, 6) ? 64 : 6), section = 1;
    uint64_t at = 0;
    for (uint32_t k = 0; k < n; k++) {
        if (rare(m->s, 60)) {
            section++;
            at = 8 * (uint64_t)below(m->s, 4);
        }
        add_function(m, section, &at);
    }
    for (uint32_t k = 1; k <= section + 1; k++)
        if (!rare(m->s, 10))
            put(add_row(m->in, 1), k, 4);
    right_table(&m->in->table[3], 3);
    right_total(m->in, 6, 4, 1);
    right_total(m->in, 7, 24, 0);
    right_total(m->in, 8, 28, 0);
    m->functions = (uint32_t)(m->in->table[3].len / 32);
}

static void add_symbol(struct maker *m, uint32_t *index, uint32_t section, uint64_t address, uint8_t kind)
{
    uint8_t *r = add_row(m->in, 2);
    put(r, *index, 4);
    put(r + 4, rare(m->s, 4) ? NONE : section, 4);
    put(r + 8, address, 8);
    r[16] = rare(m->s, 4) ? 0 : kind;
    *index += 1 + rare(m->s, 8);
}

/* Symbols by number: the functions' first, then the sections', then data. */
static void add_symbols(struct maker *m)
{
    uint32_t index = below(m->s, 3);
    for (uint32_t k = 0; k < m->functions; k++)
        add_symbol(m, &index, u32_at(function_row(m, k)), u64_at(function_row(m, k) + 8), 1);
    for (uint32_t k = 1; k <= 3; k++)
        add_symbol(m, &index, k, 0, 2);
    for (uint32_t k = 0; k < 4; k++)
        add_symbol(m, &index, 20 + k / 2, rare(m->s, 16) ? 0x7ffffff0u + below(m->s, 32) : below(m->s, 64), k % 2 ? 2 : 0);
    m->symbols = (uint32_t)(m->in->table[2].len / 24);
}

static void add_relocation(struct maker *m, const uint8_t *f, uint32_t k, uint32_t symbol, uint8_t size)
{
    uint8_t *r = add_row(m->in, 4);
    uint32_t index = u32_at(m->in->table[2].at + 24 * (symbol % m->symbols));
    put(r, u32_at(f), 4);
    put(r + 4, rare(m->s, 3) ? index + 40 : index, 4);
    put(r + 8, u64_at(f + 16) + 8 * (uint64_t)k + (rare(m->s, 3) ? below(m->s, 8) : 0), 8);
    r[16] = rare(m->s, 3) ? (uint8_t)take(m->s, 1) : size;
}

static void set_slot(uint8_t *p, uint8_t opcode, uint8_t registers, uint32_t immediate)
{
    p[0] = opcode;
    p[1] = registers;
    p[2] = p[3] = 0;
    put(p + 4, immediate, 4);
}

/* A call of a function: by its symbol, by its section's, or in its own section with no relocation. */
static void add_call(struct maker *m, const uint8_t *f, uint32_t k, uint8_t *slot)
{
    uint32_t callee = below(m->s, m->functions), way = below(m->s, 3), section = u32_at(function_row(m, callee));
    int64_t address = (int64_t)u64_at(function_row(m, callee) + 8), by = -1;
    if (way == 0 && section == u32_at(f))
        by = (address - (int64_t)u64_at(f + 16)) / 8 - (int64_t)k - 1;
    else if (way == 1 && section <= 3) {
        by = address / 8 - 1;
        add_relocation(m, f, k, m->functions + section - 1, 32);
    } else
        add_relocation(m, f, k, callee, 32);
    set_slot(slot, 0x85, 0x10, (uint32_t)(by + rare(m->s, 2)));
}

/* A wide load in two slots: of a function, of data, or of a number. */
static void add_wide(struct maker *m, const uint8_t *f, uint32_t k, uint8_t *slot)
{
    uint32_t way = below(m->s, 5), callee = below(m->s, m->functions), section = u32_at(function_row(m, callee));
    uint32_t value = below(m->s, 64);
    if (way == 0)
        add_relocation(m, f, k, callee, 64);
    else if (way == 1 && section <= 3) {
        value = u32_at(function_row(m, callee) + 8);
        add_relocation(m, f, k, m->functions + section - 1, 64);
    } else if (way < 4)
        add_relocation(m, f, k, m->functions + 3 + callee, 64);
    if (rare(m->s, 4))
        value = 0x7ffffff8u;
    set_slot(slot, 0x18, (uint8_t)take(m->s, 1), value);
    set_slot(slot + 8, rare(m->s, 3), 0, below(m->s, 8));
}

static void add_slots(struct maker *m, const uint8_t *f, uint8_t *slots)
{
    static const uint8_t plain[8] = {0x95, 0xb7, 0x05, 0x85, 0x18, 0x1d, 0x06, 0x07};
    uint32_t n = u32_at(f + 4);
    for (uint32_t k = 0; k < n; k++) {
        uint32_t way = m->s->left ? below(m->s, 8) : 7;
        if (way < 3)
            add_call(m, f, k, slots + 8 * k);
        else if (way < 5 && k + 1 < n) {
            add_wide(m, f, k, slots + 8 * k);
            k++;
        } else {
            set_slot(slots + 8 * k, plain[below(m->s, 8)], (uint8_t)take(m->s, 1), take(m->s, 1));
            if (rare(m->s, 2))
                add_relocation(m, f, k, below(m->s, m->symbols), 32);
        }
    }
}

static void add_records(struct maker *m)
{
    uint8_t *func = m->in->table[7].at, *line = m->in->table[8].at;
    for (uint32_t i = 0; i < m->functions; i++) {
        const uint8_t *f = function_row(m, i);
        for (uint32_t k = 0; k < u32_at(f + 24); k++, func += 8) {
            put(func, take(m->s, 1), 4);
            put(func + 4, i, 4);
        }
        for (uint32_t k = 0; k < u32_at(f + 28); k++, line += 16) {
            put(line, 10 + below(m->s, u32_at(f + 4)) * (k > 0) + (rare(m->s, 2) ? take(m->s, 4) : 0), 4);
            put(line + 4, (uint64_t)i << 32 | take(m->s, 2), 8);
            put(line + 12, k, 4);
        }
    }
}

static void add_maps(struct maker *m)
{
    for (uint32_t k = 0; k < 4; k++) {
        uint8_t *r = add_row(m->in, 5);
        uint32_t symbol = m->functions + 3 + k;
        put(r, 20 + k / 2, 4);
        put(r + 4, k % 2 == 0 ? NONE : u32_at(m->in->table[2].at + 24 * (symbol % m->symbols)), 4);
        put(r + 8, take(m->s, 1) - 1, 4);
        r[12] = (uint8_t)below(m->s, 2);
        if (rare(m->s, 16))
            m->in->table[5].len -= 16;
    }
}

/* A byte, a length or a row gone wrong. */
static void damage(struct maker *m)
{
    int t = 1 + (int)below(m->s, 8);
    struct bytes *b = &m->in->table[t];
    uint32_t way = below(m->s, 6), at = take(m->s, 2);
    if (way < 3 && b->len)
        b->at[at % b->len] = (uint8_t)take(m->s, 1);
    else if (way == 3 && b->len)
        b->len -= 1 + at % (b->len < 40 ? b->len : 40);
    else if (way == 4) {
        memset(b->at + b->len, 0, 40);
        b->len += at % 40;
    } else if (way == 5 && b->len <= most_rows[t] * row_size[t]) {
        size_t past = most_rows[t] * row_size[t] + 1 + at % 64;
        memset(b->at + b->len, 0, past - b->len);
        b->len = past;
    }
}

static void make_info(struct input *in, struct source *s)
{
    in->size = rare(s, 30) ? below(s, 24) : 8 + 4 * below(s, 8);
    in->count = below(s, 24);
    in->k = rare(s, 8) ? take(s, 4) : below(s, in->count + 2);
    in->data.len = (size_t)in->size * in->count;
    memset(in->data.at, 0, in->data.len + 1);
    for (size_t i = 0; i < in->data.len && s->left; i++)
        in->data.at[i] = (uint8_t)take(s, 1);
    for (size_t k = 0; k < in->count && in->size; k++)
        if (!rare(s, 2))
            in->data.at[k * in->size] &= 0xf8;
    if (rare(s, 16))
        in->data.len += 1;
    else if (rare(s, 16) && in->data.len)
        in->data.len -= 1;
    else if (rare(s, 8))
        in->count = take(s, 4);
    in->rows_len = rare(s, 128) ? below(s, 400) : 16 * 24 + below(s, 8);
}

static void make_outputs(struct input *in, struct source *s)
{
    static const size_t most[3] = {BARKRUFFLE_IMAGE, BARKRUFFLE_IMAGE_FUNC_INFO, BARKRUFFLE_IMAGE_LINE_INFO};
    for (int i = 0; i < 3; i++)
        in->out_len[i] = rare(s, 24) ? below(s, 200) : rare(s, 8) ? most[i] + 8 : 2 * in->table[6 + i].len + below(s, 32);
    for (int i = 0; i < 3; i++)
        if (in->out_len[i] > MOST)
            in->out_len[i] = MOST;
}

static void generate(struct input *in, struct source *s)
{
    struct maker m = {in, s, 0, 0};
    for (int t = 1; t <= 8; t++)
        in->table[t].len = 0;
    in->maps_first = (int)below(s, 2);
    in->shared = rare(s, 16);
    in->places_len = rare(s, 128) ? below(s, 24) : BARKRUFFLE_PLACES;
    struct source rest = {s->at + s->left - s->left / 4, s->left / 4}; /* the last quarter is the readers' and the choices */
    s->left -= rest.left;
    in->choices = take_choices(&rest);
    make_info(in, &rest);
    uint32_t damages = rare(s, 70) ? 1 + below(s, 3) : 0;
    add_functions(&m);
    in->root = below(s, m.functions) + (rare(s, 6) ? take(s, 4) : 0);
    add_symbols(&m);
    uint8_t *slots = in->table[6].at;
    for (uint32_t k = 0; k < m.functions; k++, slots += 8 * u32_at(function_row(&m, k - 1) + 4))
        add_slots(&m, function_row(&m, k), slots);
    right_table(&in->table[4], 4);
    add_maps(&m);
    add_records(&m);
    make_outputs(in, s);
    while (damages--)
        damage(&m);
}

int cut(struct input *in, const uint8_t *data, size_t len)
{
    struct source s = {data, len};
    int way = (int)take(&s, 1) % CUTS;
    if (way == CUT_GENERATED)
        generate(in, &s);
    else
        cut_raw(in, &s);
    if (way == CUT_REPAIRED)
        repair(in);
    return way;
}
