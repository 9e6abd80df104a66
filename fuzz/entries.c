/* The fuzz harness: every entry of include/barkruffle.h is called on each input, with guards around every buffer, and held
 * to document 01 and W1 of document 02. First come the things that need no model: guards, what is only read, numbers, places, wiped outputs, the
 * same again from other memory; then the answer and every byte against model.c.
 *
 * An entry is added as a function that tries it, and a line in `entries` with the numbers that the header gives it. */
#include <stdio.h>
#include <stdlib.h>
#include <string.h>
#include "fuzz.h"

enum { MAPS, LINK, LINK_PIECES, EXAMINE, LINK_ROWS, FIND, FUNC, LINE, FUNC_RECORD, LINE_RECORD, FUNC_NUMBER, LINE_NUMBER, ENTRIES };

#define NUMBERS 45
#define BIT(n) ((uint64_t)1 << (n))
#define LINK_NUMBERS (0xf | BIT(6) | BIT(8) | BIT(9) | BIT(10) | BIT(11) | BIT(12) | BIT(13))
#define EXAMINE_NUMBERS ((LINK_NUMBERS & ~BIT(11)) | (BIT(45) - BIT(33)))

static void try_maps(struct input *in);
static void try_link(struct input *in);
static void try_link_pieces(struct input *in);
static void try_examine(struct input *in);
static void try_link_rows(struct input *in);
static void try_find(struct input *in);
static void try_func_rows(struct input *in);
static void try_line_rows(struct input *in);
static void try_func_record(struct input *in);
static void try_line_record(struct input *in);
static void try_func_number(struct input *in);
static void try_line_number(struct input *in);

/* The map step is tried first: a link may take what it made of table 6. The examination comes after the link with its list,
 * which it is shown. A record's part counts as 0, no part as 14; a symbol's row counts as 0, no row as 3. */
static const struct entry {
    const char *name;
    uint64_t numbers;
    void (*try)(struct input *in);
} entries[ENTRIES] = {
    [MAPS] = {"barkruffle_relocate_maps", 0xff, try_maps},
    [LINK] = {"barkruffle_link", LINK_NUMBERS, try_link},
    [LINK_PIECES] = {"barkruffle_link_pieces", LINK_NUMBERS | BIT(32), try_link_pieces},
    [EXAMINE] = {"barkruffle_examine", EXAMINE_NUMBERS, try_examine},
    [LINK_ROWS] = {"barkruffle_link_rows", LINK_NUMBERS, try_link_rows},
    [FIND] = {"barkruffle_find_symbol", BIT(0) | BIT(3), try_find},
    [FUNC] = {"barkruffle_func_info", BIT(0) | BIT(11) | BIT(14), try_func_rows},
    [LINE] = {"barkruffle_line_info", BIT(0) | BIT(11) | BIT(14), try_line_rows},
    [FUNC_RECORD] = {"barkruffle_func_info_record", BIT(0) | BIT(14), try_func_record},
    [LINE_RECORD] = {"barkruffle_line_info_record", BIT(0) | BIT(14), try_line_record},
    [FUNC_NUMBER] = {"barkruffle_func_info_record_number", BIT(0) | BIT(14), try_func_number},
    [LINE_NUMBER] = {"barkruffle_line_info_record_number", BIT(0) | BIT(14), try_line_number},
};

static unsigned long reached[ENTRIES][NUMBERS], cut_by[CUTS];
static int now; /* the entry that is tried */

/* The archive has no counters of its own: answers and places are given to the fuzzer as such. */
#ifdef FUZZING_BUILD_MODE_UNSAFE_FOR_PRODUCTION
__attribute__((section("__libfuzzer_extra_counters")))
#endif
static uint8_t seen[1 << 17];

static void finding(const char *what)
{
    fprintf(stderr, "fuzz: %s: %s\n", entries[now].name, what);
    abort();
}

const char *entry_tried(void) { return entries[now].name; }

#ifdef FUZZING_BUILD_MODE_UNSAFE_FOR_PRODUCTION
void __asan_on_error(void);
void __asan_on_error(void) { fprintf(stderr, "fuzz: in %s\n", entries[now].name); }
#endif

static void hold(int holds, const char *what)
{
    if (!holds)
        finding(what);
}

static int all_are(const uint8_t *p, size_t n, uint8_t v) { return n == 0 || (p[0] == v && memcmp(p, p + 1, n - 1) == 0); }
static int all_zero(const uint8_t *p, size_t n) { return all_are(p, n, 0); }
static int same(const uint8_t *p, const uint8_t *q, size_t n) { return n == 0 || memcmp(p, q, n) == 0; }

/* One way to make a call: where buffers lie, what the outputs held before, and the length of the places. */
struct round {
    enum side side;
    uint8_t before;
    size_t places_len;
};

static const struct round first = {AT_END, 0x5a, 0}, again = {AT_START, 0xff, 0};
static const struct round others[3] = {{AT_ODD, 0x96, 0}, {PACKED_UP, 0x69, 0}, {PACKED_DOWN, 0x0f, 0}};

/* What a call left. */
struct left {
    struct answer answer;
    uint8_t places[24], out[4][MOST];
};

static struct left one, two, other;

/* A buffer of no bytes is NULL in the second call. */
static void open_round(const struct round *r) { lend_from(r->side, r->side == AT_START); }

static void count(struct answer a)
{
    uint32_t h = (uint32_t)now * NUMBERS + a.number;
    reached[now][a.number]++;
    for (int i = 0; i < 2; i++)
        h = h * 12 + (a.places[i] < 10 ? a.places[i] : a.places[i] < 100 ? 10 : 11);
    seen[h % sizeof seen] = 1;
}

/* The guards, the number, and the places: those that fit whole, zero after. */
static void close_round(const struct round *r, uint32_t number, const uint8_t *places, struct left *got)
{
    size_t whole = r->places_len / 4 < 3 ? r->places_len / 4 : 3;
    if (r->places_len)
        memcpy(got->places, places, r->places_len);
    const char *wrong = take_back();
    if (wrong)
        finding(wrong);
    hold(number < NUMBERS && entries[now].numbers & BIT(number), "a number that the header does not give it");
    got->answer.number = number;
    for (size_t i = 0; i < 3; i++)
        got->answer.places[i] = i < whole ? u32_at(got->places + 4 * i) : 0;
    hold(all_zero(got->places + 4 * whole, r->places_len - 4 * whole), "not zero after the places that fit whole");
}

/* The second call has room for all places; the first has as many as fit. */
static void same_answer(const struct left *got, size_t places_len, const struct left *full)
{
    hold(got->answer.number == full->answer.number, "called twice, two numbers");
    for (size_t i = 0; i < 3 && 4 * i + 4 <= places_len; i++)
        hold(got->answer.places[i] == full->answer.places[i], "called twice, other places");
}

static void as_model(const struct left *full, struct answer want)
{
    hold(full->answer.number == want.number, "another number than the model's");
    hold(memcmp(full->answer.places, want.places, sizeof want.places) == 0, "other places than the model's");
}

/* An input as the model takes it; good until the next call. */
static const struct run *tables_of(const struct input *in)
{
    static struct run table[9];
    for (int t = 1; t <= 8; t++)
        table[t] = (struct run){in->table[t].at, in->table[t].len};
    return table;
}

static struct run data_of(const struct input *in) { return (struct run){in->data.at, in->data.len}; }

/* What document 01 says of a refusal of either step without looking into any row. */
static void plain_rules(const struct input *in, int last, int but, const struct answer *a)
{
    uint32_t too_many = 0, rows = (uint32_t)(in->table[3].len / 32);
    for (int t = last; t >= 1; t--)
        if (t != but && in->table[t].len > most_rows[t] * row_size[t])
            too_many = (uint32_t)t;
    hold((a->number == 1) == (too_many != 0), "1 is not told exactly where a table has too many rows");
    if (a->number == 1)
        hold(a->places[0] == too_many && a->places[1] == 0, "1 does not name the first table with too many rows");
    if (a->number == 2)
        hold(a->places[0] >= 1 && a->places[0] <= (uint32_t)last && a->places[0] != (uint32_t)but &&
             a->places[1] <= in->table[a->places[0]].len / row_size[a->places[0]] && (a->places[0] < 6 || a->places[1] == 0),
             "2 names no row");
    if (a->number >= 3 && a->number <= 12)
        hold(a->places[0] < rows, "a refusal names no function");
    if (a->number >= 3 && a->number <= 10 && a->places[0] < rows)
        hold(a->places[1] < u32_at(in->table[3].at + 32 * a->places[0] + 4), "a refusal names no slot of its function");
    if (a->number == 11 || a->number == 13)
        hold(a->places[1] == 0 && (a->number == 11 || a->places[0] == 0), "places that are not named are not 0");
    if (a->number && a->number <= 38)
        hold(a->places[2] == 0, "a third place with a refusal");
}

/* ---- the map step */

static uint8_t mapped[MOST];

static void maps_once(const struct input *in, struct round r, size_t places_len, struct left *got)
{
    const uint8_t *t[6];
    r.places_len = places_len;
    open_round(&r);
    for (int i = 1; i <= 5; i++)
        t[i] = lend(in->table[i].at, in->table[i].len);
    uint8_t *instructions = lend_to_write(in->table[6].at, in->table[6].len);
    uint8_t *places = lend_filled(r.before, places_len);
    uint32_t number = barkruffle_relocate_maps(t[1], in->table[1].len, t[2], in->table[2].len, t[3], in->table[3].len, t[4],
                                               in->table[4].len, t[5], in->table[5].len, instructions, in->table[6].len,
                                               places, places_len);
    if (in->table[6].len)
        memcpy(got->out[0], instructions, in->table[6].len);
    close_round(&r, number, places, got);
}

/* Only the source register and the immediate of a slot may change, and of no more slots than two for each application. */
static void only_rewritten(const struct input *in, const struct left *got)
{
    size_t changed = 0;
    if (same(got->out[0], in->table[6].at, in->table[6].len))
        return;
    for (size_t at = 0; at < in->table[6].len; at += 8) {
        const uint8_t *p = in->table[6].at + at, *q = got->out[0] + at;
        hold(p[0] == q[0] && (p[1] & 15) == (q[1] & 15) && same(p + 2, q + 2, 2), "a map step changes more than it may");
        changed += !same(p, q, 8);
    }
    hold(changed <= 2 * (size_t)got->answer.places[0], "a map step changes more slots than it says");
}

static void try_maps(struct input *in)
{
    maps_once(in, first, in->places_len, &one);
    if (one.answer.number)
        hold(same(one.out[0], in->table[6].at, in->table[6].len), "a refused map step changes a byte");
    maps_once(in, again, BARKRUFFLE_PLACES, &two);
    same_answer(&one, in->places_len, &two);
    hold(same(one.out[0], two.out[0], in->table[6].len), "called twice, other bytes");
    for (int i = 0; i < 3; i++) {
        maps_once(in, others[i], BARKRUFFLE_PLACES, &other);
        same_answer(&other, BARKRUFFLE_PLACES, &two);
        hold(same(other.out[0], two.out[0], in->table[6].len), "called elsewhere, other bytes");
    }
    plain_rules(in, 6, 0, &two.answer);
    if (two.answer.number == 0)
        only_rewritten(in, &two);
    as_model(&two, model_maps(tables_of(in), mapped));
    hold(same(one.out[0], mapped, in->table[6].len), "other bytes than the model's");
    count(two.answer);
    if (in->maps_first)
        memcpy(in->table[6].at, one.out[0], in->table[6].len);
    for (int t = 7; t <= 8; t++)
        in->shared &= in->table[t].len <= in->table[6].len;
    for (int t = 7; t <= 8 && in->shared; t++)
        memcpy(in->table[t].at, in->table[6].at, in->table[t].len);
}

/* ---- the link */

/* Lends tables 1 to 4 and 6 to 8, but the one that is lent as rows. */
static void lend_tables(const struct input *in, const uint8_t **t, int as_rows, const struct barkruffle_symbol **rows)
{
    const struct bytes *b = in->table;
    for (int i = 1; i <= 8; i++)
        if (i == as_rows)
            *rows = lend_rows(b[i].at, b[i].len);
        else if (i != 5)
            t[i] = i > 6 && in->shared ? t[6] : lend(b[i].at, b[i].len);
}

enum by { BY_TABLES, BY_ROWS, BY_PIECES };

/* By barkruffle_link, by barkruffle_link_rows, or by barkruffle_link_pieces, whose fourth output is the list. */
static void link_by(enum by by, const struct input *in, const size_t *n, struct round r, size_t places_len, struct left *got)
{
    const struct bytes *b = in->table;
    const uint8_t *t[9];
    const struct barkruffle_symbol *rows = NULL;
    const int outs = by == BY_PIECES ? 4 : 3;
    uint8_t *out[4];
    uint32_t number;
    r.places_len = places_len;
    open_round(&r);
    lend_tables(in, t, by == BY_ROWS ? 2 : 0, &rows);
    for (int i = 0; i < outs; i++)
        out[i] = lend_filled(r.before, n[i]);
    uint8_t *places = lend_filled(r.before, places_len);
    if (by == BY_ROWS)
        number = barkruffle_link_rows(t[1], b[1].len, rows, b[2].len / sizeof *rows, t[3], b[3].len, t[4], b[4].len, t[6],
                                      b[6].len, t[7], b[7].len, t[8], b[8].len, in->root, out[0], n[0], out[1], n[1], out[2],
                                      n[2], places, places_len);
    else if (by == BY_PIECES)
        number = barkruffle_link_pieces(t[1], b[1].len, t[2], b[2].len, t[3], b[3].len, t[4], b[4].len, t[6], b[6].len, t[7],
                                        b[7].len, t[8], b[8].len, in->root, out[0], n[0], out[1], n[1], out[2], n[2], out[3],
                                        n[3], places, places_len);
    else
        number = barkruffle_link(t[1], b[1].len, t[2], b[2].len, t[3], b[3].len, t[4], b[4].len, t[6], b[6].len, t[7],
                                 b[7].len, t[8], b[8].len, in->root, out[0], n[0], out[1], n[1], out[2], n[2], places,
                                 places_len);
    for (int i = 0; i < outs; i++)
        if (n[i])
            memcpy(got->out[i], out[i], n[i]);
    close_round(&r, number, places, got);
    for (int i = 0; i < outs && number; i++)
        hold(all_zero(got->out[i], n[i]), "a refused link leaves a byte");
}

static void link_once(const struct input *in, const size_t *out_len, struct round r, size_t places_len, struct left *got)
{
    link_by(BY_TABLES, in, out_len, r, places_len, got);
}

/* An accepted image: its counts fit, and zero follows. */
static void is_image(const size_t *out_len, const struct left *got)
{
    for (int i = 0; i < 3; i++) {
        size_t rows = got->answer.places[i];
        hold(rows <= most_shown[i] && rows * row_shown[i] <= out_len[i], "an image past its limits or its buffer");
        hold(all_zero(got->out[i] + rows * row_shown[i], out_len[i] - rows * row_shown[i]), "not zero after the image");
    }
}

/* With larger outputs, for some inputs the largest: the same image, and no refusal that was not there. */
static void try_larger(const struct input *in, const struct left *full)
{
    const size_t most[3] = {BARKRUFFLE_IMAGE + 8, BARKRUFFLE_IMAGE_FUNC_INFO + 8, BARKRUFFLE_IMAGE_LINE_INFO + 16};
    size_t len[3];
    for (int i = 0; i < 3; i++) {
        len[i] = in->k % 8 == 0 && in->out_len[i] < most[i] ? most[i] : in->out_len[i] + 40;
        if (len[i] > MOST)
            len[i] = MOST;
    }
    link_once(in, len, first, BARKRUFFLE_PLACES, &other);
    hold(other.answer.number == full->answer.number, "larger outputs give another number");
    hold(memcmp(other.answer.places, full->answer.places, sizeof full->answer.places) == 0, "larger outputs give other places");
    if (full->answer.number == 0)
        for (int i = 0; i < 3; i++)
            hold(same(other.out[i], full->out[i], row_shown[i] * full->answer.places[i]), "larger outputs get another image");
}

/* Outputs that the image fills exactly are enough, and a byte less in any of them is not. */
static void try_exact(const struct input *in, const struct left *full)
{
    size_t exact[3];
    for (int i = 0; i < 3; i++)
        exact[i] = row_shown[i] * full->answer.places[i];
    for (int r = 0; r < 3; r++) {
        link_once(in, exact, others[r], BARKRUFFLE_PLACES, &other);
        hold(other.answer.number == 0, "an image is refused outputs that it fills exactly");
        for (int i = 0; i < 3; i++)
            hold(same(other.out[i], full->out[i], exact[i]), "outputs filled exactly get another image");
    }
    for (int i = 0; i < 3; i++) {
        if (exact[i] == 0)
            continue;
        exact[i]--;
        link_once(in, exact, first, BARKRUFFLE_PLACES, &other);
        hold(other.answer.number == 11, "an image is accepted in an output that is too short");
        exact[i]++;
    }
}

static void link_as_model(const struct input *in, const struct left *got)
{
    static uint8_t want[3][MOST];
    uint8_t *const outs[3] = {want[0], want[1], want[2]};
    as_model(got, model_link(tables_of(in), in->root, in->out_len, outs));
    for (int i = 0; i < 3; i++)
        hold(same(got->out[i], want[i], in->out_len[i]), "other bytes than the model's");
}

static void try_link(struct input *in)
{
    link_once(in, in->out_len, first, in->places_len, &one);
    link_once(in, in->out_len, again, BARKRUFFLE_PLACES, &two);
    same_answer(&one, in->places_len, &two);
    for (int i = 0; i < 3; i++)
        hold(same(one.out[i], two.out[i], in->out_len[i]), "called twice, other bytes");
    plain_rules(in, 8, 5, &two.answer);
    if (two.answer.number != 1 && two.answer.number != 2)
        hold((two.answer.number == 13) == (in->root >= in->table[3].len / 32), "13 is not told exactly where the root is no row");
    if (two.answer.number == 0) {
        is_image(in->out_len, &two);
        try_exact(in, &two);
    }
    if (two.answer.number != 11)
        try_larger(in, &two);
    link_as_model(in, &two);
    count(two.answer);
}

/* The same as barkruffle_link over the tables' bytes. */
static void as_link(const struct input *in, const struct left *got)
{
    link_once(in, in->out_len, again, BARKRUFFLE_PLACES, &other);
    hold(got->answer.number == other.answer.number, "another number than barkruffle_link's");
    hold(memcmp(got->answer.places, other.answer.places, sizeof other.answer.places) == 0, "other places than barkruffle_link's");
    for (int i = 0; i < 3; i++)
        hold(same(got->out[i], other.out[i], in->out_len[i]), "other bytes than barkruffle_link's");
}

/* ---- the link with its list */

static struct shown shown; /* what the examination is shown; first the link's own image, where it made one */
static int is_linked;

/* The list as the header says to find its end. It starts with the root at 0, and each piece where the one before ends. */
static size_t list_len(const struct input *in, const uint8_t *pieces, size_t len, const struct left *got)
{
    size_t n = 8, at = 0;
    while (n + 8 <= len && memcmp(pieces + n + 4, "\0\0\0\0", 4) != 0)
        n += 8;
    hold(u32_at(pieces) == in->root, "the list does not start with the root");
    for (size_t k = 0; k < n; k += 8) {
        hold(u32_at(pieces + k) < in->table[3].len / 32, "the list names no function");
        hold(u32_at(pieces + k + 4) == at, "a piece does not start where the one before ends");
        at += u32_at(in->table[3].at + 32 * u32_at(pieces + k) + 4);
    }
    hold(at == got->answer.places[0], "the pieces do not end with the image");
    hold(all_zero(pieces + n, len - n), "not zero after the list");
    return n;
}

static void keep_shown(const struct input *in, const size_t *n, const struct left *got)
{
    is_linked = got->answer.number == 0;
    if (!is_linked)
        return;
    for (int i = 0; i < 3; i++)
        shown.part[i].len = row_shown[i] * got->answer.places[i];
    shown.part[3].len = list_len(in, got->out[3], n[3], got);
    for (int i = 0; i < 4; i++)
        memcpy(shown.part[i].at, got->out[i], shown.part[i].len);
}

/* A list of the length that the header says is enough, and a byte less is 32, told before all else. */
static void try_list_room(const struct input *in, const size_t *n, const struct left *full)
{
    size_t exact[4] = {n[0], n[1], n[2], BARKRUFFLE_PIECES(in->table[3].len)};
    link_by(BY_PIECES, in, exact, others[0], BARKRUFFLE_PLACES, &other);
    hold(other.answer.number != 32, "a list is refused the bytes that the header says are enough");
    hold((full->answer.number == 32) == (n[3] < exact[3]), "32 is not told exactly where the list has no room");
    hold(full->answer.number == 32 || other.answer.number == full->answer.number, "a longer list gives another number");
    exact[3]--;
    link_by(BY_PIECES, in, exact, others[1], BARKRUFFLE_PLACES, &other);
    hold(other.answer.number == 32 && all_zero(other.places, BARKRUFFLE_PLACES), "a list that is too short is not 32");
}

static void pieces_as_model(const struct input *in, const size_t *n, const struct left *got)
{
    static uint8_t want[4][MOST];
    uint8_t *const outs[4] = {want[0], want[1], want[2], want[3]};
    as_model(got, model_link_pieces(tables_of(in), in->root, n, outs));
    for (int i = 0; i < 4; i++)
        hold(same(got->out[i], want[i], n[i]), i < 3 ? "other bytes than the model's" : "another list than the model's");
}

static void try_link_pieces(struct input *in)
{
    size_t need = BARKRUFFLE_PIECES(in->table[3].len), n[4] = {in->out_len[0], in->out_len[1], in->out_len[2], need};
    uint64_t choices = in->choices;
    if (choose(&choices, 16) == 0)
        n[3] = choose(&choices, (uint32_t)need);
    else
        n[3] += choose(&choices, 40);
    link_by(BY_PIECES, in, n, first, in->places_len, &one);
    link_by(BY_PIECES, in, n, again, BARKRUFFLE_PLACES, &two);
    same_answer(&one, in->places_len, &two);
    for (int i = 0; i < 4; i++)
        hold(same(one.out[i], two.out[i], n[i]), "called twice, other bytes");
    if (two.answer.number != 32) {
        plain_rules(in, 8, 5, &two.answer);
        as_link(in, &two);
    }
    try_list_room(in, n, &two);
    keep_shown(in, n, &two);
    pieces_as_model(in, n, &two);
    count(two.answer);
}

/* ---- the examination */

enum { OWN_YES, LAID_YES, TWICE_YES, UNCALLED_YES, TO_FIRST_YES, METS };
static unsigned long met[METS], of_what[3][4]; /* 33, 34 and 44, of the image, its records and the list */
static const char *const met_names[METS] = {"the link's own", "laid in another order", "with a function twice",
                                            "with a piece that nobody calls", "with a call of the first piece"};

static void examine_once(const struct input *in, const struct shown *s, struct round r, size_t places_len, struct left *got)
{
    const struct bytes *b = in->table, *p = s->part;
    const uint8_t *t[9], *q[4];
    r.places_len = places_len;
    open_round(&r);
    lend_tables(in, t, 0, NULL);
    for (int i = 0; i < 4; i++)
        q[i] = lend(p[i].at, p[i].len);
    uint8_t *places = lend_filled(r.before, places_len);
    uint32_t number = barkruffle_examine(t[1], b[1].len, t[2], b[2].len, t[3], b[3].len, t[4], b[4].len, t[6], b[6].len, t[7],
                                         b[7].len, t[8], b[8].len, in->root, q[0], p[0].len, q[1], p[1].len, q[2], p[2].len,
                                         q[3], p[3].len, places, places_len);
    close_round(&r, number, places, got);
}

/* What the header says of the places without looking into a row. */
static void plain_places(const struct shown *s, const struct answer *a)
{
    const uint32_t *at = a->places;
    if (a->number == 0)
        hold(at[0] == s->part[3].len / 8 && at[1] == 0 && at[2] == 0, "a yes does not tell the pieces");
    if (a->number == 33 || a->number == 34)
        hold(at[0] >= 6 && at[0] <= 9, "a size of what is not shown");
    if (a->number == 35)
        hold(at[0] == 0 && at[1] == 0, "places that are not named are not 0");
    if (a->number >= 36 && a->number <= 43 && a->number != 38)
        hold(at[0] < s->part[3].len / 8, "a no names no piece");
    if (a->number == 39)
        hold(at[2] < s->part[0].len / 8, "a no names no slot of the image");
    if (a->number == 44)
        hold(at[0] == 7 ? at[1] < s->part[1].len / 8 : at[0] == 8 && at[1] < s->part[2].len / 16, "a no names no record over");
}

static void examine_as_model(const struct input *in, const struct shown *s)
{
    const struct run parts[4] = {{s->part[0].at, s->part[0].len}, {s->part[1].at, s->part[1].len},
                                 {s->part[2].at, s->part[2].len}, {s->part[3].at, s->part[3].len}};
    plain_rules(in, 8, 5, &two.answer);
    plain_places(s, &two.answer);
    as_model(&two, model_examine(tables_of(in), in->root, parts));
    count(two.answer);
    if (two.answer.number == 33 || two.answer.number == 34 || two.answer.number == 44)
        of_what[two.answer.number == 44 ? 2 : two.answer.number - 33][two.answer.places[0] - 6]++;
}

/* From both sides, some from everywhere. The answer is left in `two`. What is said where it is a no that must be a yes. */
static void examine(const struct input *in, const struct shown *s, int is_yes, const char *no)
{
    examine_once(in, s, first, in->places_len, &one);
    examine_once(in, s, again, BARKRUFFLE_PLACES, &two);
    same_answer(&one, in->places_len, &two);
    for (int r = 0; r < 3 && in->choices % 4 == 0; r++) {
        examine_once(in, s, others[r], BARKRUFFLE_PLACES, &other);
        same_answer(&other, BARKRUFFLE_PLACES, &two);
    }
    hold(!is_yes || two.answer.number == 0, no);
    examine_as_model(in, s);
}

/* From one place. */
static void examine_changed(const struct input *in, const struct shown *s, uint64_t *choices)
{
    examine_once(in, s, choose(choices, 2) ? first : again, BARKRUFFLE_PLACES, &two);
    examine_as_model(in, s);
}

/* With one thing changed, then two; and a bit of a table changed under the image. */
static void change(struct input *in, struct shown *s, uint64_t *choices)
{
    for (int times = 0; times < 2; times++) {
        change_shown(s, choices);
        examine_changed(in, s, choices);
    }
    struct bytes *t = &in->table[choose(choices, 2) ? 6 : 1 + choose(choices, 8)];
    if (t->len == 0 || in->shared || t == &in->table[5])
        return;
    uint8_t *byte = t->at + choose(choices, (uint32_t)t->len), kept = *byte;
    *byte ^= (uint8_t)(1 << choose(choices, 8));
    examine_changed(in, s, choices);
    *byte = kept;
}

static void count_yes(int laid)
{
    met[LAID_YES]++;
    met[TWICE_YES] += (laid & LAID_TWICE) != 0;
    met[UNCALLED_YES] += (laid & LAID_UNCALLED) != 0;
    met[TO_FIRST_YES] += (laid & LAID_TO_FIRST) != 0;
}

/* Tables 6 to 8 for an image, and the readers' data for a list. */
static void show_tables(const struct input *in)
{
    for (int i = 0; i < 4; i++) {
        const struct bytes *b = i < 3 ? &in->table[6 + i] : &in->data;
        memcpy(shown.part[i].at, b->at, b->len);
        shown.part[i].len = b->len;
    }
}

/* What was linked, if it was; then an image of another order, or any bytes; and what becomes of each when it is changed. */
static void try_examine(struct input *in)
{
    uint64_t choices = in->choices + 1;
    if (is_linked) {
        examine(in, &shown, 1, "an image that was linked is not accepted with its list");
        met[OWN_YES]++;
        change(in, &shown, &choices);
    }
    int laid = 0;
    if (model_check_link(tables_of(in), in->root).number || in->choices % 16 == 0)
        show_tables(in);
    else
        laid = lay_image(tables_of(in), in->root, &choices, &shown);
    examine(in, &shown, laid & LAID_WHOLE, "an image of another order is not accepted");
    if (laid & LAID_WHOLE)
        count_yes(laid);
    if (laid)
        change(in, &shown, &choices);
}

/* ---- table 2 lent as rows */

/* A slice of rows has no partial row: one that table 2 ends with is left away. */
static void whole_rows(struct input *in) { in->table[2].len -= in->table[2].len % sizeof(struct barkruffle_symbol); }

static void rows_once(const struct input *in, struct round r, size_t places_len, struct left *got)
{
    link_by(BY_ROWS, in, in->out_len, r, places_len, got);
}

static void try_link_rows(struct input *in)
{
    whole_rows(in);
    rows_once(in, first, in->places_len, &one);
    rows_once(in, again, BARKRUFFLE_PLACES, &two);
    same_answer(&one, in->places_len, &two);
    for (int i = 0; i < 3; i++)
        hold(same(one.out[i], two.out[i], in->out_len[i]), "called twice, other bytes");
    for (int r = 0; r < 3; r++) {
        rows_once(in, others[r], BARKRUFFLE_PLACES, &other);
        same_answer(&other, BARKRUFFLE_PLACES, &two);
        for (int i = 0; i < 3; i++)
            hold(same(other.out[i], two.out[i], in->out_len[i]), "called elsewhere, other bytes");
    }
    plain_rules(in, 8, 5, &two.answer);
    if (two.answer.number == 0)
        is_image(in->out_len, &two);
    as_link(in, &two);
    link_as_model(in, &two);
    count(two.answer);
}

static uint64_t row_once(const struct input *in, const struct round *r, uint32_t index)
{
    open_round(r);
    const struct barkruffle_symbol *rows = lend_rows(in->table[2].at, in->table[2].len);
    uint64_t row = barkruffle_find_symbol(rows, in->table[2].len / sizeof *rows, index);
    const char *wrong = take_back();
    if (wrong)
        finding(wrong);
    return row;
}

static void try_index(const struct input *in, uint32_t index)
{
    uint64_t row = row_once(in, &first, index);
    hold(row_once(in, &again, index) == row, "called twice, another row");
    for (int r = 0; r < 3; r++)
        hold(row_once(in, &others[r], index) == row, "called elsewhere, another row");
    hold(row == BARKRUFFLE_NONE || row < in->table[2].len / sizeof(struct barkruffle_symbol), "a row that is not there");
    hold(row == model_find(tables_of(in), index), "another row than the model's");
    count((struct answer){row == BARKRUFFLE_NONE ? 3 : 0, {0, 0, 0}});
}

/* Some number; an index that a row has, and the next; the last row's. */
static void try_find(struct input *in)
{
    whole_rows(in);
    const struct bytes *t = &in->table[2];
    size_t rows = t->len / sizeof(struct barkruffle_symbol);
    try_index(in, in->k);
    if (rows == 0)
        return;
    uint32_t index = u32_at(t->at + in->k % rows * sizeof(struct barkruffle_symbol));
    try_index(in, index);
    try_index(in, index + 1);
    try_index(in, u32_at(t->at + (rows - 1) * sizeof(struct barkruffle_symbol)));
}

/* ---- the readers */

typedef uint32_t reader(uint32_t, uint32_t, const uint8_t *, size_t, uint8_t *, size_t, uint8_t *, size_t);
typedef struct barkruffle_part finder(uint32_t, uint32_t, const uint8_t *, size_t, uint32_t);
typedef uint32_t teller(uint32_t, uint32_t, const uint8_t *, size_t, uint32_t, uint8_t *, size_t);

static void read_once(reader *rows, const struct input *in, struct round r, size_t places_len, struct left *got)
{
    r.places_len = places_len;
    open_round(&r);
    const uint8_t *data = lend(in->data.at, in->data.len);
    uint8_t *out = lend_filled(r.before, in->rows_len), *places = lend_filled(r.before, places_len);
    uint32_t number = rows(in->size, in->count, data, in->data.len, out, in->rows_len, places, places_len);
    if (in->rows_len)
        memcpy(got->out[0], out, in->rows_len);
    close_round(&r, number, places, got);
    if (number)
        hold(all_zero(got->out[0], in->rows_len), "a refused reader leaves a byte");
}

static void try_rows(reader *rows, size_t row, const struct input *in)
{
    static uint8_t want[MOST];
    read_once(rows, in, first, in->places_len, &one);
    read_once(rows, in, again, BARKRUFFLE_PLACES, &two);
    same_answer(&one, in->places_len, &two);
    hold(same(one.out[0], two.out[0], in->rows_len), "called twice, other bytes");
    for (int i = 0; i < 3; i++) {
        read_once(rows, in, others[i], BARKRUFFLE_PLACES, &other);
        same_answer(&other, BARKRUFFLE_PLACES, &two);
        hold(same(other.out[0], two.out[0], in->rows_len), "called elsewhere, other bytes");
    }
    if (two.answer.number == 0) {
        size_t used = two.answer.places[0] * row;
        hold(used <= in->rows_len && all_zero(two.out[0] + used, in->rows_len - used), "not zero after the rows");
    }
    as_model(&two, model_read(row, in->size, in->count, data_of(in), want, in->rows_len));
    hold(same(two.out[0], want, in->rows_len), "other bytes than the model's");
    count(two.answer);
}

static struct barkruffle_part find_once(finder *record, const struct input *in, const struct round *r)
{
    open_round(r);
    const uint8_t *data = lend(in->data.at, in->data.len);
    struct barkruffle_part p = record(in->size, in->count, data, in->data.len, in->k);
    const char *wrong = take_back();
    if (wrong)
        finding(wrong);
    return p;
}

static void try_record(finder *record, size_t row, const struct input *in)
{
    struct barkruffle_part p = find_once(record, in, &first), q = find_once(record, in, &again);
    struct answer want = model_record(row, in->size, in->count, data_of(in), in->k);
    hold(p.at == q.at && p.len == q.len, "called twice, another part");
    hold(p.len <= in->data.len && p.at <= in->data.len - p.len, "a part that is not inside the data");
    if (want.number)
        hold(p.at == 0 && p.len == 0, "a part that is not empty with a refusal");
    else
        hold(p.len == in->size && p.at == (uint64_t)in->size * in->k, "another part than the model's");
    count(want);
}

static void number_once(teller *number_of, const struct input *in, struct round r, size_t places_len, struct left *got)
{
    r.places_len = places_len;
    open_round(&r);
    const uint8_t *data = lend(in->data.at, in->data.len);
    uint8_t *places = lend_filled(r.before, places_len);
    close_round(&r, number_of(in->size, in->count, data, in->data.len, in->k, places, places_len), places, got);
}

static void try_number(teller *number_of, finder *record, size_t row, const struct input *in)
{
    number_once(number_of, in, first, in->places_len, &one);
    number_once(number_of, in, again, BARKRUFFLE_PLACES, &two);
    same_answer(&one, in->places_len, &two);
    hold((two.answer.number == 0) == (find_once(record, in, &first).len != 0), "the number of a record is not its part's");
    as_model(&two, model_record(row, in->size, in->count, data_of(in), in->k));
    count(two.answer);
}

static void try_func_rows(struct input *in) { try_rows(barkruffle_func_info, 8, in); }
static void try_line_rows(struct input *in) { try_rows(barkruffle_line_info, 16, in); }
static void try_func_record(struct input *in) { try_record(barkruffle_func_info_record, 8, in); }
static void try_line_record(struct input *in) { try_record(barkruffle_line_info_record, 16, in); }

static void try_func_number(struct input *in)
{
    try_number(barkruffle_func_info_record_number, barkruffle_func_info_record, 8, in);
}

static void try_line_number(struct input *in)
{
    try_number(barkruffle_line_info_record_number, barkruffle_line_info_record, 16, in);
}

/* ---- the runs */

int LLVMFuzzerTestOneInput(const uint8_t *data, size_t len)
{
    static struct input in;
    cut_by[cut(&in, data, len)]++;
    for (now = 0; now < ENTRIES; now++)
        entries[now].try(&in);
    return 0;
}

/* Which images had a yes, and which parts had a size or a record over. */
static int report_images(void)
{
    int missing = 0;
    for (int i = 0; i < METS; i++) {
        fprintf(stderr, i ? ", %s: %lu" : "fuzz: images accepted, %s: %lu", met_names[i], met[i]);
        missing += met[i] == 0;
    }
    for (int i = 0; i < 3; i++) {
        fprintf(stderr, i ? ", %d of" : "\nfuzz: refused with %d of", i == 2 ? 44 : 33 + i);
        for (int part = i == 2; part < (i == 2 ? 3 : 4); part++) {
            fprintf(stderr, " %d:%lu", 6 + part, of_what[i][part]);
            missing += of_what[i][part] == 0;
        }
    }
    fprintf(stderr, "\n");
    return missing;
}

int report(void)
{
    int missing = 0;
    fprintf(stderr, "fuzz: %lu raw inputs, %lu repaired, %lu generated\n", cut_by[CUT_RAW], cut_by[CUT_REPAIRED],
            cut_by[CUT_GENERATED]);
    for (int e = 0; e < ENTRIES; e++) {
        fprintf(stderr, "fuzz: %s:", entries[e].name);
        for (unsigned n = 0; n < NUMBERS; n++)
            if (entries[e].numbers & BIT(n)) {
                fprintf(stderr, " %u:%lu", n, reached[e][n]);
                missing += reached[e][n] == 0;
            }
        fprintf(stderr, "\n");
    }
    missing += report_images();
    if (missing)
        fprintf(stderr, "fuzz: %d numbers of entries, or images, were never reached\n", missing);
    else
        fprintf(stderr, "fuzz: every number of every entry was reached\n");
    return missing != 0;
}

static void report_at_exit(void) { report(); }

int LLVMFuzzerInitialize(int *argc, char ***argv)
{
    (void)argc;
    (void)argv;
    try_long();
    atexit(report_at_exit);
    return 0;
}
