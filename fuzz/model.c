/* Document 01, and W1 of document 02, as a literal program: what each entry answers, and what its outputs then hold. It is
 * slow on purpose: every search starts at the table's first row. The fuzz harness and the comparison with the Rust files
 * (compare/) share it. Being compiled with the harness, it also shows the fuzzer which rules an input reaches, which the
 * archive does not. */
#include <string.h>
#include "model.h"

const size_t row_size[9] = {0, 4, 24, 32, 24, 16, 8, 8, 16};
const size_t most_rows[9] = {0, 64, 1024, 64, 1024, 64, 8192, 256, 4096};
const size_t row_shown[4] = {8, 8, 16, 8};
const size_t most_shown[4] = {4096, 256, 4096, 4096}; /* each piece has a slot */

enum { OTHER, TEXT, SECTION };

uint32_t u32_at(const uint8_t *p)
{
    return p[0] | (uint32_t)p[1] << 8 | (uint32_t)p[2] << 16 | (uint32_t)p[3] << 24;
}

uint64_t u64_at(const uint8_t *p) { return u32_at(p) | (uint64_t)u32_at(p + 4) << 32; }

static int64_t immediate(const uint8_t *slot)
{
    uint32_t v = u32_at(slot + 4);
    return v < 0x80000000u ? (int64_t)v : (int64_t)v - 0x100000000;
}

static void put_u32(uint8_t *p, int64_t v)
{
    for (int i = 0; i < 4; i++)
        p[i] = (uint8_t)((uint64_t)v >> (8 * i));
}

static struct answer answer_of(uint32_t number, size_t a, size_t b, size_t c)
{
    struct answer r = {number, {(uint32_t)a, (uint32_t)b, (uint32_t)c}};
    return r;
}

static struct answer answer(uint32_t number, size_t a, size_t b) { return answer_of(number, a, b, 0); }

static size_t rows_of(const struct run *table, int t) { return table[t].len / row_size[t]; }
static const uint8_t *row_of(const struct run *table, int t, size_t k) { return table[t].at + k * row_size[t]; }

/* ---- the checks: 1, 2 and 13 */

static int is_zero(const uint8_t *p, size_t n)
{
    while (n--)
        if (p[n])
            return 0;
    return 1;
}

static int is_section(uint32_t v) { return v <= 65535; }
static int is_address(uint64_t v) { return v < (uint64_t)1 << 48; }

/* Pairs (section, number) that rise strictly. */
static int rises(uint32_t s, uint64_t v, uint32_t then_s, uint64_t then_v) { return s < then_s || (s == then_s && v < then_v); }

static int broken_map(const struct run *table, size_t k)
{
    const uint8_t *r = row_of(table, 5, k);
    if (!is_section(u32_at(r)) || r[12] > 1 || !is_zero(r + 13, 3))
        return 1;
    for (size_t i = 0; i < k; i++) {
        const uint8_t *q = row_of(table, 5, i);
        if (u32_at(q + 4) == u32_at(r + 4) && (u32_at(r + 4) != NONE || u32_at(q) == u32_at(r)))
            return 1;
    }
    return 0;
}

static int broken_row(const struct run *table, int t, size_t k)
{
    const uint8_t *r = row_of(table, t, k), *q = k ? r - row_size[t] : NULL;
    switch (t) {
    case 1:
        return !is_section(u32_at(r)) || (q && u32_at(q) >= u32_at(r));
    case 2:
        return u32_at(r) == NONE || (u32_at(r + 4) != NONE && !is_section(u32_at(r + 4))) || !is_address(u64_at(r + 8)) ||
               r[16] > 2 || !is_zero(r + 17, 7) || (q && u32_at(q) >= u32_at(r));
    case 3:
        return !is_section(u32_at(r)) || u32_at(r + 4) < 1 || u32_at(r + 4) > 4096 || !is_address(u64_at(r + 8)) ||
               !is_address(u64_at(r + 16)) || u64_at(r + 16) % 8 ||
               (q && !rises(u32_at(q), u64_at(q + 8), u32_at(r), u64_at(r + 8)));
    case 4:
        return !is_section(u32_at(r)) || u32_at(r + 4) == NONE || !is_address(u64_at(r + 8)) || !is_zero(r + 17, 7) ||
               (q && !rises(u32_at(q), u64_at(q + 8), u32_at(r), u64_at(r + 8)));
    default:
        return broken_map(table, k);
    }
}

static uint64_t total(const struct run *table, size_t field)
{
    uint64_t sum = 0;
    for (size_t k = 0; k < rows_of(table, 3); k++)
        sum += u32_at(row_of(table, 3, k) + field);
    return sum;
}

static struct answer check_table(const struct run *table, int t)
{
    if (t >= 6)
        return table[t].len == row_size[t] * total(table, t == 6 ? 4 : t == 7 ? 24 : 28) ? answer(0, 0, 0) : answer(2, (size_t)t, 0);
    for (size_t k = 0; k < rows_of(table, t); k++)
        if (broken_row(table, t, k))
            return answer(2, (size_t)t, k);
    return table[t].len % row_size[t] ? answer(2, (size_t)t, rows_of(table, t)) : answer(0, 0, 0);
}

/* The tables up to `last`, but for one. */
static struct answer check(const struct run *table, int last, int but)
{
    for (int t = 1; t <= last; t++)
        if (t != but && (table[t].len + row_size[t] - 1) / row_size[t] > most_rows[t])
            return answer(1, (size_t)t, 0);
    for (int t = 1; t <= last; t++) {
        struct answer a = t == but ? answer(0, 0, 0) : check_table(table, t);
        if (a.number)
            return a;
    }
    return answer(0, 0, 0);
}

/* ---- instructions and lookups */

struct function {
    uint32_t section, slots;
    uint64_t address, offset;
    uint32_t funcs, lines;
    size_t slot, func, line; /* its first in tables 6 to 8 */
};

static struct function function_at(const struct run *table, size_t row)
{
    const uint8_t *r = row_of(table, 3, row);
    struct function f = {u32_at(r), u32_at(r + 4), u64_at(r + 8), u64_at(r + 16), u32_at(r + 24), u32_at(r + 28), 0, 0, 0};
    for (size_t k = 0; k < row; k++) {
        f.slot += u32_at(row_of(table, 3, k) + 4);
        f.func += u32_at(row_of(table, 3, k) + 24);
        f.line += u32_at(row_of(table, 3, k) + 28);
    }
    return f;
}

static int is_call(const uint8_t *slot) { return slot[0] == 0x85 && slot[1] == 0x10 && !slot[2] && !slot[3]; }

/* `slots` are a function's, `n` of them. */
static int is_wide_load(const uint8_t *slots, size_t n, size_t k)
{
    return slots[8 * k] == 0x18 && k + 1 < n && is_zero(slots + 8 * k + 8, 4);
}

static void set_source(uint8_t *slot, int source) { slot[1] = (uint8_t)(source << 4 | (slot[1] & 15)); }

static const uint8_t *find_symbol(const struct run *table, uint32_t index)
{
    for (size_t k = 0; k < rows_of(table, 2); k++)
        if (u32_at(row_of(table, 2, k)) == index)
            return row_of(table, 2, k);
    return NULL;
}

static int is_code(const struct run *table, uint32_t section)
{
    for (size_t k = 0; k < rows_of(table, 1); k++)
        if (section != NONE && u32_at(row_of(table, 1, k)) == section)
            return 1;
    return 0;
}

/* ---- the map step */

static const uint8_t *find_map(const struct run *table, const uint8_t *symbol)
{
    for (size_t k = 0; k < rows_of(table, 5); k++)
        if (u32_at(row_of(table, 5, k) + 4) != NONE && u32_at(row_of(table, 5, k) + 4) == u32_at(symbol))
            return row_of(table, 5, k);
    for (size_t k = 0; k < rows_of(table, 5); k++)
        if (u32_at(row_of(table, 5, k) + 4) == NONE && u32_at(row_of(table, 5, k)) == u32_at(symbol + 4))
            return row_of(table, 5, k);
    return NULL;
}

/* What a relocation that applies writes, and where. */
struct change {
    size_t slot;
    const uint8_t *map;
    int64_t value;
};

/* One relocation of one function: a refusal, MODEL_SKIPPED or MODEL_APPLIED. */
static uint32_t judge(const struct run *table, const struct function *f, const uint8_t *relocation, const uint8_t *slots,
                      struct change *c)
{
    uint64_t offset = u64_at(relocation + 8);
    if (u32_at(relocation) != f->section || offset < f->offset || offset - f->offset >= 8 * (uint64_t)f->slots)
        return MODEL_SKIPPED;
    c->slot = (size_t)(offset - f->offset) / 8;
    if (offset % 8)
        return 4;
    const uint8_t *symbol = find_symbol(table, u32_at(relocation + 4)), *slot = slots + 8 * c->slot;
    if (!symbol)
        return 3;
    if (u32_at(symbol + 4) == NONE || is_call(slot) || is_code(table, u32_at(symbol + 4)))
        return MODEL_SKIPPED;
    c->map = symbol[16] == TEXT ? NULL : find_map(table, symbol);
    if (!c->map)
        return 5;
    if (!is_wide_load(slots, f->slots, c->slot))
        return 6;
    c->value = immediate(slot) + (int64_t)u64_at(symbol + 8);
    if (c->map[12] && (c->value < INT32_MIN || c->value > INT32_MAX))
        return 7;
    return MODEL_APPLIED;
}

static void apply(const struct change *c, uint8_t *slots)
{
    uint8_t *slot = slots + 8 * c->slot;
    set_source(slot, c->map[12] ? 2 : 1);
    if (c->map[12])
        put_u32(slot + 12, c->value);
    memcpy(slot + 4, c->map + 8, 4);
}

uint32_t model_judge(const struct run *table, size_t row, size_t relocation)
{
    struct function f = function_at(table, row);
    struct change c;
    return judge(table, &f, row_of(table, 4, relocation), row_of(table, 6, f.slot), &c);
}

static struct answer rewrite(const struct run *table, uint8_t *instructions)
{
    size_t applied = 0;
    for (size_t row = 0; row < rows_of(table, 3); row++) {
        struct function f = function_at(table, row);
        uint8_t *slots = instructions + 8 * f.slot;
        for (size_t k = 0; k < rows_of(table, 4); k++) {
            struct change c;
            uint32_t judged = judge(table, &f, row_of(table, 4, k), slots, &c);
            if (judged < MODEL_SKIPPED)
                return answer(judged, row, c.slot);
            if (judged == MODEL_APPLIED) {
                apply(&c, slots);
                applied++;
            }
        }
    }
    return answer(0, applied, 0);
}

/* Rewrites a copy; two functions whose bytes overlap have slots of their own each. */
struct answer model_maps(const struct run *table, uint8_t *instructions)
{
    struct answer a = check(table, 6, 0);
    if (table[6].len)
        memcpy(instructions, table[6].at, table[6].len);
    if (a.number)
        return a;
    a = rewrite(table, instructions);
    if (a.number && table[6].len)
        memcpy(instructions, table[6].at, table[6].len);
    return a;
}

/* ---- the link step */

struct linker {
    const struct run *table;
    const size_t *out_len;
    uint8_t *const *out;
    struct reached *reached;
    size_t used[3]; /* slots, function records, line records */
    int is_placed[64];
    size_t start[64];
    size_t pieces; /* in order of placing: the root, each function once, and the root's copy */
    struct piece {
        size_t row, start;
    } piece[65];
    struct answer refusal;
};

static int refuse(struct linker *l, uint32_t number, size_t a, size_t b)
{
    l->refusal = answer(number, a, b);
    return 0;
}

static int has_room(const struct linker *l, const struct function *f)
{
    const size_t more[3] = {f->slots, f->funcs, f->lines};
    for (int i = 0; i < 3; i++)
        if (l->used[i] + more[i] > most_shown[i] || row_shown[i] * (l->used[i] + more[i]) > l->out_len[i])
            return 0;
    return 1;
}

static void copy_in(struct linker *l, size_t row, const struct function *f)
{
    l->piece[l->pieces++] = (struct piece){row, l->used[0]};
    memcpy(l->out[0] + 8 * l->used[0], row_of(l->table, 6, f->slot), 8 * (size_t)f->slots);
    if (f->funcs)
        memcpy(l->out[1] + 8 * l->used[1], row_of(l->table, 7, f->func), 8 * (size_t)f->funcs);
    if (f->lines)
        memcpy(l->out[2] + 16 * l->used[2], row_of(l->table, 8, f->line), 16 * (size_t)f->lines);
    l->used[0] += f->slots;
    l->used[1] += f->funcs;
    l->used[2] += f->lines;
}

static int visit(struct linker *l, size_t row, size_t start);

/* The slots between line record k and the function's first. */
static int64_t line_difference(const struct run *table, const struct function *f, size_t k)
{
    return (int64_t)u32_at(row_of(table, 8, f->line + k)) - (int64_t)u32_at(row_of(table, 8, f->line));
}

/* The first line record that 12 refuses, or their count. */
static size_t stray_line(const struct run *table, const struct function *f)
{
    size_t k = 0;
    while (k < f->lines && line_difference(table, f, k) >= 0 && line_difference(table, f, k) < (int64_t)f->slots)
        k++;
    return k;
}

static int append(struct linker *l, size_t row)
{
    struct function f = function_at(l->table, row);
    size_t start = l->used[0], func = l->used[1], line = l->used[2];
    if (!has_room(l, &f))
        return refuse(l, 11, row, 0);
    if (stray_line(l->table, &f) < f.lines)
        return refuse(l, 12, row, stray_line(l->table, &f));
    copy_in(l, row, &f);
    for (size_t k = 0; k < f.funcs; k++)
        put_u32(l->out[1] + 8 * (func + k), (int64_t)start);
    for (size_t k = 0; k < f.lines; k++)
        put_u32(l->out[2] + 16 * (line + k), (int64_t)start + line_difference(l->table, &f, k));
    l->is_placed[row] = 1;
    l->start[row] = start;
    return visit(l, row, start);
}

static const uint8_t *relocation_of(const struct run *table, const struct function *f, size_t k)
{
    for (size_t i = 0; i < rows_of(table, 4); i++) {
        const uint8_t *r = row_of(table, 4, i);
        if (u32_at(r) == f->section && u64_at(r + 8) == f->offset + 8 * k)
            return r;
    }
    return NULL;
}

struct target {
    int is_code;
    uint32_t section;
    int64_t address;
};

/* What a slot names: 0 with a target or with none, or the refusal. */
static uint32_t target_of(const struct run *table, const struct function *f, size_t k, struct target *t)
{
    const uint8_t *slots = row_of(table, 6, f->slot), *slot = slots + 8 * k, *r = relocation_of(table, f, k);
    t->is_code = 0;
    if (!r) {
        t->is_code = is_call(slot);
        t->section = f->section;
        t->address = (int64_t)f->offset + 8 * (int64_t)k + 8 * (immediate(slot) + 1);
        return 0;
    }
    const uint8_t *symbol = find_symbol(table, u32_at(r + 4));
    if (!symbol)
        return 3;
    t->section = u32_at(symbol + 4);
    t->address = (int64_t)u64_at(symbol + 8);
    if (symbol[16] != TEXT && !is_code(table, t->section))
        return is_call(slot) ? 9 : 0;
    if (symbol[16] == TEXT ? t->section == NONE : symbol[16] != SECTION || (r[16] != 32 && r[16] != 64))
        return 8;
    if (symbol[16] == SECTION)
        t->address += r[16] == 32 ? 8 * (immediate(slot) + 1) : immediate(slot);
    t->is_code = 1;
    return is_call(slot) || is_wide_load(slots, f->slots, k) ? 0 : 6;
}

static size_t find_function(const struct run *table, uint32_t section, int64_t address)
{
    size_t row = 0;
    while (row < rows_of(table, 3) && (u32_at(row_of(table, 3, row)) != section ||
                                       (int64_t)u64_at(row_of(table, 3, row) + 8) != address))
        row++;
    return row;
}

uint32_t model_names(const struct run *table, size_t row, size_t k, size_t *callee)
{
    struct function f = function_at(table, row);
    struct target t;
    uint32_t refusal = target_of(table, &f, k, &t);
    if (refusal)
        return refusal;
    if (!t.is_code)
        return MODEL_COPIED;
    *callee = find_function(table, t.section, t.address);
    if (*callee == rows_of(table, 3))
        return 10;
    return is_call(row_of(table, 6, f.slot + k)) ? MODEL_CALL : MODEL_REFERENCE;
}

static int visit_slot(struct linker *l, size_t row, size_t start, size_t k)
{
    size_t callee;
    uint32_t names = model_names(l->table, row, k, &callee);
    if (names < MODEL_COPIED)
        return refuse(l, names, row, k);
    if (names == MODEL_COPIED)
        return 1;
    l->reached->row[l->reached->count++] = (uint32_t)callee;
    if (!l->is_placed[callee] && !append(l, callee))
        return 0;
    uint8_t *slot = l->out[0] + 8 * (start + k);
    put_u32(slot + 4, (int64_t)l->start[callee] - (int64_t)(start + k) - 1);
    if (names == MODEL_REFERENCE)
        set_source(slot, 4);
    return 1;
}

static int visit(struct linker *l, size_t row, size_t start)
{
    for (size_t k = 0; k < u32_at(row_of(l->table, 3, row) + 4); k++)
        if (!visit_slot(l, row, start, k))
            return 0;
    return 1;
}

static int link_root(struct linker *l, uint32_t root)
{
    struct function f = function_at(l->table, root);
    if (!has_room(l, &f))
        return refuse(l, 11, root, 0);
    copy_in(l, root, &f);
    return visit(l, root, 0);
}

struct answer model_check_link(const struct run *table, uint32_t root)
{
    struct answer a = check(table, 8, 5);
    return a.number == 0 && root >= rows_of(table, 3) ? answer(13, 0, 0) : a;
}

static void wipe(int outs, const size_t *out_len, uint8_t *const *out)
{
    for (int i = 0; i < outs; i++)
        if (out_len[i])
            memset(out[i], 0, out_len[i]);
}

/* The link, and what it has placed, none where it is refused. */
static struct answer link_placing(struct linker *l, uint32_t root)
{
    l->reached->count = 0;
    l->refusal = model_check_link(l->table, root);
    wipe(3, l->out_len, l->out);
    if (l->refusal.number == 0 && link_root(l, root))
        return answer_of(0, l->used[0], l->used[1], l->used[2]);
    wipe(3, l->out_len, l->out);
    l->pieces = 0;
    return l->refusal;
}

struct answer model_link_reaching(const struct run *table, uint32_t root, const size_t *out_len, uint8_t *const *out,
                                  struct reached *reached)
{
    struct linker l = {.table = table, .out_len = out_len, .out = out, .reached = reached};
    return link_placing(&l, root);
}

struct answer model_link(const struct run *table, uint32_t root, const size_t *out_len, uint8_t *const *out)
{
    struct reached reached;
    return model_link_reaching(table, root, out_len, out, &reached);
}

/* Document 02, W1: out[3] is the list. */
struct answer model_link_pieces(const struct run *table, uint32_t root, const size_t *out_len, uint8_t *const *out)
{
    struct reached reached;
    struct linker l = {.table = table, .out_len = out_len, .out = out, .reached = &reached};
    wipe(4, out_len, out);
    if (out_len[3] < 8 * (rows_of(table, 3) + 1))
        return answer(32, 0, 0);
    struct answer a = link_placing(&l, root);
    for (size_t k = 0; k < l.pieces; k++) {
        put_u32(out[3] + 8 * k, (int64_t)l.piece[k].row);
        put_u32(out[3] + 8 * k + 4, (int64_t)l.piece[k].start);
    }
    return a;
}

/* ---- an image from elsewhere (document 02, W1): shown are the image, its function records, its line records and the list */

struct examined {
    const struct run *table, *shown;
    size_t pieces, funcs, lines; /* shown */
};

/* 33 and 34, each of what is shown in turn; the list is 9. */
static struct answer check_sizes(const struct run *shown)
{
    for (size_t i = 0; i < 4; i++) {
        size_t whole = shown[i].len / row_shown[i], partial = shown[i].len % row_shown[i] != 0;
        if (whole + partial > most_shown[i])
            return answer(33, 6 + i, 0);
        if (partial)
            return answer(34, 6 + i, whole);
    }
    return answer(0, 0, 0);
}

static struct piece piece_at(const struct examined *e, size_t k)
{
    const uint8_t *p = e->shown[3].at + 8 * k;
    return (struct piece){u32_at(p), u32_at(p + 4)};
}

/* 35 to 38. */
static struct answer check_pieces(const struct examined *e, uint32_t root)
{
    size_t at = 0;
    if (e->pieces == 0 || piece_at(e, 0).row != root || piece_at(e, 0).start != 0)
        return answer(35, 0, 0);
    for (size_t k = 0; k < e->pieces; k++) {
        struct piece p = piece_at(e, k);
        if (p.row >= rows_of(e->table, 3))
            return answer(36, k, p.row);
        if (p.start != at)
            return answer(37, k, at);
        at += u32_at(row_of(e->table, 3, p.row) + 4);
    }
    return at == e->shown[0].len / 8 ? answer(0, 0, 0) : answer(38, e->pieces, at);
}

static int starts_piece_of(const struct examined *e, size_t row, int64_t slot)
{
    for (size_t k = 0; k < e->pieces; k++)
        if (piece_at(e, k).row == row && (int64_t)piece_at(e, k).start == slot)
            return 1;
    return 0;
}

/* Slot s of piece k: the link's refusal of its source, or 39 to 41. */
static struct answer check_slot(const struct examined *e, size_t k, const struct function *f, size_t s)
{
    struct piece p = piece_at(e, k);
    size_t here = p.start + s, callee = 0;
    const uint8_t *source = row_of(e->table, 6, f->slot + s), *slot = e->shown[0].at + 8 * here;
    uint32_t names = model_names(e->table, p.row, s, &callee);
    if (names < MODEL_COPIED)
        return answer(names, p.row, s);
    int same_source = slot[1] >> 4 == source[1] >> 4, same_immediate = memcmp(slot + 4, source + 4, 4) == 0;
    if (slot[0] != source[0] || (slot[1] & 15) != (source[1] & 15) || slot[2] != source[2] || slot[3] != source[3] ||
        (!same_source && names != MODEL_REFERENCE) || (!same_immediate && names == MODEL_COPIED))
        return answer_of(39, k, s, here);
    if (names == MODEL_REFERENCE && slot[1] >> 4 != 4)
        return answer_of(40, k, s, callee);
    if (names != MODEL_COPIED && !starts_piece_of(e, callee, (int64_t)here + 1 + immediate(slot)))
        return answer_of(41, k, s, callee);
    return answer(0, 0, 0);
}

/* Whether record `at` of the image is record j of piece k: the first piece's as it is, a later one's as appended. */
static int is_func_record(const struct examined *e, size_t k, const struct function *f, size_t j, size_t at)
{
    if (at >= e->funcs)
        return 0;
    const uint8_t *source = row_of(e->table, 7, f->func + j), *record = e->shown[1].at + 8 * at;
    return u32_at(record) == (k ? piece_at(e, k).start : u32_at(source)) && u32_at(record + 4) == u32_at(source + 4);
}

static int is_line_record(const struct examined *e, size_t k, const struct function *f, size_t j, size_t at)
{
    if (at >= e->lines)
        return 0;
    const uint8_t *source = row_of(e->table, 8, f->line + j), *record = e->shown[2].at + 16 * at;
    int64_t slot = k ? (int64_t)piece_at(e, k).start + line_difference(e->table, f, j) : (int64_t)u32_at(source);
    return (int64_t)u32_at(record) == slot && memcmp(record + 4, source + 4, 12) == 0;
}

/* Piece k, whose records should stand from `func` and `line` on: its slots, 42, 12, 43. */
static struct answer check_piece(const struct examined *e, size_t k, const struct function *f, size_t func, size_t line)
{
    for (size_t s = 0; s < f->slots; s++) {
        struct answer a = check_slot(e, k, f, s);
        if (a.number)
            return a;
    }
    for (size_t j = 0; j < f->funcs; j++)
        if (!is_func_record(e, k, f, j, func + j))
            return answer_of(42, k, j, func + j);
    if (k && stray_line(e->table, f) < f->lines)
        return answer(12, piece_at(e, k).row, stray_line(e->table, f));
    for (size_t j = 0; j < f->lines; j++)
        if (!is_line_record(e, k, f, j, line + j))
            return answer_of(43, k, j, line + j);
    return answer(0, 0, 0);
}

static struct answer check_image(const struct examined *e)
{
    size_t func = 0, line = 0;
    for (size_t k = 0; k < e->pieces; k++) {
        struct function f = function_at(e->table, piece_at(e, k).row);
        struct answer a = check_piece(e, k, &f, func, line);
        if (a.number)
            return a;
        func += f.funcs;
        line += f.lines;
    }
    return e->funcs > func ? answer(44, 7, func) : e->lines > line ? answer(44, 8, line) : answer(0, e->pieces, 0);
}

struct answer model_examine(const struct run *table, uint32_t root, const struct run *shown)
{
    struct examined e = {table, shown, shown[3].len / 8, shown[1].len / 8, shown[2].len / 16};
    struct answer a = model_check_link(table, root);
    if (a.number == 0)
        a = check_sizes(shown);
    if (a.number == 0)
        a = check_pieces(&e, root);
    return a.number ? a : check_image(&e);
}

/* The first row of table 2 with an index, a partial row not among them. */
uint64_t model_find(const struct run *table, uint32_t index)
{
    for (size_t k = 0; k < rows_of(table, 2); k++)
        if (u32_at(row_of(table, 2, k)) == index)
            return k;
    return MODEL_NO_ROW;
}

/* ---- the readers: rows of 8 bytes are function records, of 16 line records */

static int broken_info(size_t row, uint32_t size, uint32_t count, struct run data)
{
    if (size < row || (uint64_t)count * size != data.len)
        return 1;
    for (size_t k = 0; k < count; k++)
        if (u32_at(data.at + k * size) % 8)
            return 1;
    return 0;
}

struct answer model_read(size_t row, uint32_t size, uint32_t count, struct run data, uint8_t *out, size_t out_len)
{
    if (out_len)
        memset(out, 0, out_len);
    if (broken_info(row, size, count, data))
        return answer(14, 0, 0);
    if (count * row > out_len)
        return answer(11, 0, 0);
    for (size_t k = 0; k < count; k++) {
        memcpy(out + k * row, data.at + k * size, row);
        put_u32(out + k * row, u32_at(data.at + k * size) / 8);
    }
    return answer(0, count, 0);
}

struct answer model_record(size_t row, uint32_t size, uint32_t count, struct run data, uint32_t k)
{
    return broken_info(row, size, count, data) || k >= count ? answer(14, 0, 0) : answer(0, count, 0);
}
