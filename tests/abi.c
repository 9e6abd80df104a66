/* Holds every function that include/barkruffle.h declares to the built archive. */
#include "barkruffle.h"
#include "tables.h"

static int failures;

static void same(const char *what, long got, long want)
{
    if (got != want) {
        printf("FAIL %s: %ld, not %ld\n", what, got, want);
        failures++;
    }
}

static void same_bytes(const char *what, const uint8_t *got, const uint8_t *want, size_t n)
{
    for (size_t i = 0; i < n; i++)
        if (got[i] != want[i]) {
            printf("FAIL %s: byte %zu is %02x, not %02x\n", what, i, got[i], want[i]);
            failures++;
            return;
        }
}

static void all(const char *what, const uint8_t *got, uint8_t v, size_t n)
{
    for (size_t i = 0; i < n; i++)
        if (got[i] != v) {
            printf("FAIL %s: byte %zu is %02x, not %02x\n", what, i, got[i], v);
            failures++;
            return;
        }
}

/* Place buffers are held to three numbers, at every length from 0 to 16: those that fit whole, zero after, and
 * nothing past the length. */
static void same_places(const char *what, const uint8_t *p, size_t room, uint32_t a, uint32_t b, uint32_t c)
{
    uint32_t v[3] = {a, b, c};
    uint8_t want[32];
    memset(want, 0xee, sizeof want);
    memset(want, 0, room);
    for (size_t k = 0; k < 3 && 4 * k + 4 <= room; k++)
        for (int i = 0; i < 4; i++)
            want[4 * k + i] = (uint8_t)(v[k] >> (8 * i));
    same_bytes(what, p, want, sizeof want);
}

static uint8_t image[BARKRUFFLE_IMAGE + 8], funcs[BARKRUFFLE_IMAGE_FUNC_INFO + 8], lines[BARKRUFFLE_IMAGE_LINE_INFO + 16];
static uint8_t places[32];

/* What barkruffle_link left in the buffers above is held to what barkruffle_link_rows gives over the same rows. Table 2 is
 * copied as it is: C's layout of a row is its bytes. */
static struct barkruffle_symbol rows[(1 << 17) / 24];
static uint8_t row_image[sizeof image], row_funcs[sizeof funcs], row_lines[sizeof lines], row_places[32];

static void same_with_rows(struct object *o, uint32_t number, uint32_t root, size_t image_n, size_t funcs_n, size_t lines_n,
                           size_t room)
{
    size_t count = o->symbols.len / sizeof *rows;
    if (o->symbols.len % sizeof *rows)
        return; /* a slice of rows has no partial row */
    memset(row_image, 0xaa, sizeof row_image);
    memset(row_funcs, 0xaa, sizeof row_funcs);
    memset(row_lines, 0xaa, sizeof row_lines);
    memset(row_places, 0xee, sizeof row_places);
    memcpy(rows, o->symbols.bytes, count * sizeof *rows);
    same("with rows", barkruffle_link_rows(LENT(o->code), rows, count, LENT(o->functions), LENT(o->relocations),
                                           LENT(o->instructions), LENT(o->func_info), LENT(o->line_info), root, row_image,
                                           image_n, row_funcs, funcs_n, row_lines, lines_n, row_places, room), number);
    same_bytes("with rows: the rows", (const uint8_t *)rows, o->symbols.bytes, count * sizeof *rows);
    same_bytes("with rows: image", row_image, image, sizeof image);
    same_bytes("with rows: function records", row_funcs, funcs, sizeof funcs);
    same_bytes("with rows: line records", row_lines, lines, sizeof lines);
    same_bytes("with rows: places", row_places, places, sizeof places);
}

static uint32_t link_in(struct object *o, uint32_t root, size_t image_n, size_t funcs_n, size_t lines_n, size_t room)
{
    memset(image, 0xaa, sizeof image);
    memset(funcs, 0xaa, sizeof funcs);
    memset(lines, 0xaa, sizeof lines);
    memset(places, 0xee, sizeof places);
    uint32_t r = barkruffle_link(LENT(o->code), LENT(o->symbols), LENT(o->functions), LENT(o->relocations),
                                 LENT(o->instructions), LENT(o->func_info), LENT(o->line_info), root, image, image_n,
                                 funcs, funcs_n, lines, lines_n, places, room);
    all("past the image", image + image_n, 0xaa, sizeof image - image_n);
    all("past the function records", funcs + funcs_n, 0xaa, sizeof funcs - funcs_n);
    all("past the line records", lines + lines_n, 0xaa, sizeof lines - lines_n);
    if (r != BARKRUFFLE_DONE) {
        all("refused image", image, 0, image_n);
        all("refused function records", funcs, 0, funcs_n);
        all("refused line records", lines, 0, lines_n);
    }
    same_with_rows(o, r, root, image_n, funcs_n, lines_n, room);
    return r;
}

/* The same with the list, which is one more output: barkruffle_link_pieces, and what it says of barkruffle_link's outputs. */
static uint8_t pieces[BARKRUFFLE_IMAGE_PIECES + 16];
static uint8_t list_image[sizeof image], list_funcs[sizeof funcs], list_lines[sizeof lines], list_places[32];

static uint32_t link_listed(struct object *o, uint32_t root, size_t image_n, size_t funcs_n, size_t lines_n, size_t pieces_n,
                            size_t room)
{
    memset(list_image, 0xaa, sizeof list_image);
    memset(list_funcs, 0xaa, sizeof list_funcs);
    memset(list_lines, 0xaa, sizeof list_lines);
    memset(pieces, 0xaa, sizeof pieces);
    memset(list_places, 0xee, sizeof list_places);
    uint32_t r = barkruffle_link_pieces(LENT(o->code), LENT(o->symbols), LENT(o->functions), LENT(o->relocations),
                                        LENT(o->instructions), LENT(o->func_info), LENT(o->line_info), root, list_image,
                                        image_n, list_funcs, funcs_n, list_lines, lines_n, pieces, pieces_n, list_places, room);
    all("past the list", pieces + pieces_n, 0xaa, sizeof pieces - pieces_n);
    if (r != BARKRUFFLE_DONE)
        all("refused list", pieces, 0, pieces_n);
    if (r == BARKRUFFLE_NO_LIST_ROOM) {
        all("no room for the list: image", list_image, 0, image_n);
        all("no room for the list: function records", list_funcs, 0, funcs_n);
        all("no room for the list: line records", list_lines, 0, lines_n);
        all("past the image", list_image + image_n, 0xaa, sizeof list_image - image_n);
        same_places("no room for the list", list_places, room, 0, 0, 0);
        return r;
    }
    same("with the list", link_in(o, root, image_n, funcs_n, lines_n, room), r);
    same_bytes("with the list: image", list_image, image, sizeof image);
    same_bytes("with the list: function records", list_funcs, funcs, sizeof funcs);
    same_bytes("with the list: line records", list_lines, lines, sizeof lines);
    same_bytes("with the list: places", list_places, places, sizeof places);
    return r;
}

/* What an examination is shown. */
struct shown {
    const uint8_t *image;
    size_t slots;
    const uint8_t *funcs;
    size_t func_records;
    const uint8_t *lines;
    size_t line_records;
    const uint8_t *pieces;
    size_t count;
};

static uint32_t examine_in(struct object *o, uint32_t root, const struct shown *s, size_t room)
{
    memset(places, 0xee, sizeof places);
    return barkruffle_examine(LENT(o->code), LENT(o->symbols), LENT(o->functions), LENT(o->relocations),
                              LENT(o->instructions), LENT(o->func_info), LENT(o->line_info), root, s->image, 8 * s->slots,
                              s->funcs, 8 * s->func_records, s->lines, 16 * s->line_records, s->pieces, 8 * s->count, places,
                              room);
}

/* A no, at every length of the places. */
static void is_no(const char *what, struct object *o, uint32_t root, const struct shown *s, uint32_t number, uint32_t a,
                  uint32_t b, uint32_t c)
{
    for (size_t room = 0; room <= 16; room++) {
        same(what, examine_in(o, root, s, room), number);
        same_places(what, places, room, a, b, c);
    }
}

/* Document 01: a root of 2 slots that calls itself without a relocation. */
static void own_call(void)
{
    static const uint8_t want[32] = {0x85, 0x10, 0, 0, 1, 0, 0, 0, 0x95, 0, 0, 0, 0, 0, 0, 0,
                                     0x85, 0x10, 0, 0, 0xff, 0xff, 0xff, 0xff, 0x95, 0, 0, 0, 0, 0, 0, 0};
    static const uint8_t want_lines[64] = {0, 0, 0, 0, 1, 0, 0, 0, 10, 0, 0, 0, 2, 0, 0, 0,
                                           1, 0, 0, 0, 1, 0, 0, 0, 11, 0, 0, 0, 3, 0, 0, 0,
                                           2, 0, 0, 0, 1, 0, 0, 0, 10, 0, 0, 0, 2, 0, 0, 0,
                                           3, 0, 0, 0, 1, 0, 0, 0, 11, 0, 0, 0, 3, 0, 0, 0};
    static const uint8_t want_funcs[16] = {0, 0, 0, 0, 7, 0, 0, 0, 2, 0, 0, 0, 7, 0, 0, 0};
    struct object *o = new_object();
    code_section(&o->code, 1);
    function(&o->functions, 1, 2, 0, 0, 1, 2);
    call(&o->instructions, -1);
    leave(&o->instructions);
    func_record(&o->func_info, 0, 7);
    line_record(&o->line_info, 0, 1, 10, 2);
    line_record(&o->line_info, 1, 1, 11, 3);
    for (size_t room = 0; room <= 16; room++) {
        same("own call", link_in(o, 0, 48, 24, 80, room), BARKRUFFLE_DONE);
        same_places("own call's places", places, room, 4, 2, 4);
        same_bytes("own call's image", image, want, 32);
        all("zero after the image", image + 32, 0, 16);
        same_bytes("own call's function records", funcs, want_funcs, 16);
        all("zero after the function records", funcs + 16, 0, 8);
        same_bytes("own call's line records", lines, want_lines, 64);
        all("zero after the line records", lines + 64, 0, 16);
    }
    /* refusals, each with all places and wiped outputs */
    same("no room for slots", link_in(o, 0, 31, 24, 80, 12), BARKRUFFLE_NO_ROOM);
    same_places("no room for slots", places, 12, 0, 0, 0);
    same("no room for function records", link_in(o, 0, 48, 15, 80, 12), BARKRUFFLE_NO_ROOM);
    same("no room for line records", link_in(o, 0, 48, 24, 63, 12), BARKRUFFLE_NO_ROOM);
    same("outputs of length 0", link_in(o, 0, 0, 0, 0, 12), BARKRUFFLE_NO_ROOM);
    for (size_t room = 0; room <= 16; room++) {
        same("no root", link_in(o, 1, 48, 24, 80, room), BARKRUFFLE_NO_ROOT);
        same_places("no root", places, room, 0, 0, 0);
    }
    o->line_info.bytes[16] = 5; /* the second record's slot: the root keeps it, its copy is refused */
    for (size_t room = 0; room <= 16; room++) {
        same("line outside", link_in(o, 0, 48, 24, 80, room), BARKRUFFLE_LINE_OUTSIDE);
        same_places("line outside", places, room, 0, 1, 0);
    }
    o->instructions.bytes[4] = 3; /* a call to where no function is */
    for (size_t room = 0; room <= 16; room++) {
        same("no function there", link_in(o, 0, 48, 24, 80, room), BARKRUFFLE_UNKNOWN_FUNCTION);
        same_places("no function there", places, room, 0, 0, 0);
    }
    o->instructions.len--;
    same("partial table 6", link_in(o, 0, 48, 24, 80, 12), BARKRUFFLE_BROKEN_ROW);
    same_places("partial table 6", places, 12, 6, 0, 0);
    o->functions.len = 65 * 32;
    same("too many functions", link_in(o, 0, 48, 24, 80, 12), BARKRUFFLE_TOO_MANY_ROWS);
    same_places("too many functions", places, 12, 3, 0, 0);
    free(o);
}

/* Document 01: a root calls F, H and exits; F calls G and exits: starts 0, 3, 5, 6; immediates 2, 4, 1. */
static void depth_first(void)
{
    struct object *o = new_object();
    code_section(&o->code, 1);
    symbol(&o->symbols, 5, 1, 0, 2);
    function(&o->functions, 1, 3, 0, 0, 0, 0);
    function(&o->functions, 1, 2, 24, 24, 0, 0);
    function(&o->functions, 1, 1, 40, 40, 0, 0);
    function(&o->functions, 1, 1, 48, 48, 0, 0);
    relocation(&o->relocations, 1, 5, 0, 32);
    call(&o->instructions, 2); /* F at 24 */
    call(&o->instructions, 4); /* H at 48, by its own offset */
    leave(&o->instructions);
    call(&o->instructions, 1); /* G at 40 */
    leave(&o->instructions);
    leave(&o->instructions);
    leave(&o->instructions);
    same("depth first", link_in(o, 0, 56, 0, 0, 12), BARKRUFFLE_DONE);
    same_places("depth first", places, 12, 7, 0, 0);
    same("call of F", number_at(image, 1), 2);
    same("call of H", number_at(image, 3), 4);
    same("call of G", number_at(image, 7), 1);
    same("no room for F", link_in(o, 0, 39, 0, 0, 12), BARKRUFFLE_NO_ROOM);
    same_places("no room for F", places, 12, 1, 0, 0);
    o->relocations.bytes[16] = 16; /* size */
    same("form unknown", link_in(o, 0, 56, 0, 0, 12), BARKRUFFLE_UNKNOWN_FORM);
    same_places("form unknown", places, 12, 0, 0, 0);
    o->relocations.bytes[16] = 32;
    o->relocations.bytes[8] = 16; /* the exit at slot 2 */
    for (size_t room = 0; room <= 16; room++) {
        same("neither call nor wide load", link_in(o, 0, 56, 0, 0, room), BARKRUFFLE_NOT_WIDE_LOAD);
        same_places("neither call nor wide load", places, room, 0, 2, 0);
    }
    o->relocations.bytes[8] = 0;
    o->symbols.bytes[4] = 9; /* a section that is not in table 1 */
    same("call names no code", link_in(o, 0, 56, 0, 0, 12), BARKRUFFLE_NO_CODE);
    same_places("call names no code", places, 12, 0, 0, 0);
    o->symbols.bytes[4] = 1;
    o->symbols.bytes[0] = 6;
    same("symbol not in table 2", link_in(o, 0, 56, 0, 0, 12), BARKRUFFLE_UNKNOWN_SYMBOL);
    same_places("symbol not in table 2", places, 12, 0, 0, 0);
    o->symbols.bytes[17] = 1; /* padding */
    same("broken symbol", link_in(o, 0, 56, 0, 0, 12), BARKRUFFLE_BROKEN_ROW);
    same_places("broken symbol", places, 12, 2, 0, 0);
    free(o);
}

/* A root of 4 slots, with records, that calls F and loads it: 2 slots. */
static struct object *calling_and_loading(void)
{
    struct object *o = new_object();
    code_section(&o->code, 1);
    symbol(&o->symbols, 5, 1, 32, 1);
    function(&o->functions, 1, 4, 0, 0, 1, 1);
    function(&o->functions, 1, 2, 32, 32, 1, 2);
    relocation(&o->relocations, 1, 5, 0, 32);
    relocation(&o->relocations, 1, 5, 8, 64);
    call(&o->instructions, 9);
    slot(&o->instructions, 0x18, 0x02, 0, 0);
    slot(&o->instructions, 0, 0, 0, 0);
    leave(&o->instructions);
    plain(&o->instructions);
    leave(&o->instructions);
    func_record(&o->func_info, 0, 7);
    func_record(&o->func_info, 4, 8);
    line_record(&o->line_info, 0, 1, 10, 2);
    line_record(&o->line_info, 4, 1, 20, 3);
    line_record(&o->line_info, 5, 1, 21, 3);
    return o;
}

/* The list: its rows, zero after it, and the bytes that it needs. */
static void list_of_pieces(void)
{
    static const uint8_t want[16] = {0, 0, 0, 0, 0, 0, 0, 0, 1, 0, 0, 0, 4, 0, 0, 0};
    struct object *o = calling_and_loading();
    same("the list's bytes", BARKRUFFLE_PIECES(o->functions.len), 24);
    same("the most that a list takes", BARKRUFFLE_PIECES(64 * 32), BARKRUFFLE_IMAGE_PIECES);
    for (size_t room = 0; room <= 16; room++)
        for (size_t n = 24; n <= 40; n++) {
            same("with its list", link_listed(o, 0, 64, 24, 80, n, room), BARKRUFFLE_DONE);
            same_places("with its list", list_places, room, 6, 2, 3);
            same_bytes("the list", pieces, want, 16);
            all("zero after the list", pieces + 16, 0, n - 16);
        }
    for (size_t n = 0; n < 24; n++)
        same("no room for the list", link_listed(o, 0, 64, 24, 80, n, 12), BARKRUFFLE_NO_LIST_ROOM);
    same("refused with its list", link_listed(o, 2, 64, 24, 80, 24, 12), BARKRUFFLE_NO_ROOT);
    same("no room with its list", link_listed(o, 0, 47, 24, 80, 24, 12), BARKRUFFLE_NO_ROOM);
    same_places("no room with its list", list_places, 12, 1, 0, 0);
    /* 32 comes before every other number: a partial row asks for none, a row past the limit does */
    o->functions.len = 65 * 32 - 1;
    same("64 rows and a part", link_listed(o, 2, 64, 24, 80, BARKRUFFLE_IMAGE_PIECES, 12), BARKRUFFLE_TOO_MANY_ROWS);
    o->functions.len++;
    same("65 rows", link_listed(o, 2, 64, 24, 80, BARKRUFFLE_IMAGE_PIECES, 12), BARKRUFFLE_NO_LIST_ROOM);
    same("65 rows and their list", link_listed(o, 2, 64, 24, 80, BARKRUFFLE_PIECES(o->functions.len), 12),
         BARKRUFFLE_TOO_MANY_ROWS);
    same("nothing lent, no list", barkruffle_link_pieces(NULL, 0, NULL, 0, NULL, 0, NULL, 0, NULL, 0, NULL, 0, NULL, 0, 0,
                                                         NULL, 0, NULL, 0, NULL, 0, NULL, 0, NULL, 0),
         BARKRUFFLE_NO_LIST_ROOM);
    same("nothing lent", barkruffle_link_pieces(NULL, 0, NULL, 0, NULL, 0, NULL, 0, NULL, 0, NULL, 0, NULL, 0, 0, NULL, 0,
                                                NULL, 0, NULL, 0, pieces, 8, NULL, 0),
         BARKRUFFLE_NO_ROOT);
    free(o);
}

/* One byte of an accepted image, of its records or of its list changed, and the no that names it. */
static void one_byte_changed(struct object *o, const struct shown *s)
{
    static const struct {
        int part;
        size_t byte;
        uint8_t value;
        uint32_t number, places[3];
    } no[] = {
        {3, 8, 9, BARKRUFFLE_NO_SUCH_FUNCTION, {1, 9, 0}},      {3, 12, 5, BARKRUFFLE_NOT_TILED, {1, 4, 0}},
        {3, 4, 1, BARKRUFFLE_ROOT_NOT_FIRST, {0, 0, 0}},        {0, 34, 1, BARKRUFFLE_SLOT_CHANGED, {1, 0, 4}},
        {0, 9, 0x32, BARKRUFFLE_NOT_REFERENCE, {0, 1, 1}},      {0, 4, 4, BARKRUFFLE_WRONG_TARGET, {0, 0, 1}},
        {0, 12, 0xfe, BARKRUFFLE_WRONG_TARGET, {0, 1, 1}},      {1, 8, 5, BARKRUFFLE_FUNC_INFO_DIFFERS, {1, 0, 1}},
        {2, 32, 4, BARKRUFFLE_LINE_INFO_DIFFERS, {1, 1, 2}},    {2, 12, 9, BARKRUFFLE_LINE_INFO_DIFFERS, {0, 0, 0}},
    };
    uint8_t *part[4] = {list_image, list_funcs, list_lines, pieces};
    for (size_t k = 0; k < sizeof no / sizeof *no; k++) {
        uint8_t *byte = part[no[k].part] + no[k].byte, kept = *byte;
        *byte = no[k].value;
        is_no("one byte changed", o, 0, s, no[k].number, no[k].places[0], no[k].places[1], no[k].places[2]);
        *byte = kept;
    }
    same("and put back", examine_in(o, 0, s, 12), BARKRUFFLE_DONE);
}

/* More or less shown than there is. */
static void other_sizes(struct object *o, const struct shown *s)
{
    struct shown longer = *s, none = *s, shorter = *s, over = *s;
    longer.slots = 4097;
    none.count = 0;
    shorter.slots = 5;
    over.func_records = 3;
    is_no("too long", o, 0, &longer, BARKRUFFLE_SHOWN_TOO_LONG, 6, 0, 0);
    is_no("no pieces", o, 0, &none, BARKRUFFLE_ROOT_NOT_FIRST, 0, 0, 0);
    is_no("a slot missing", o, 0, &shorter, BARKRUFFLE_ENDS_ELSEWHERE, 2, 6, 0);
    is_no("a record over", o, 0, &over, BARKRUFFLE_RECORDS_OVER, 7, 2, 0);
    memset(places, 0xee, sizeof places);
    same("a partial row", barkruffle_examine(LENT(o->code), LENT(o->symbols), LENT(o->functions), LENT(o->relocations),
                                             LENT(o->instructions), LENT(o->func_info), LENT(o->line_info), 0, s->image, 48,
                                             s->funcs, 16, s->lines, 47, s->pieces, 16, places, 12), BARKRUFFLE_SHOWN_PARTIAL);
    same_places("a partial row", places, 12, 8, 2, 0);
}

/* What was linked has a yes; each thing changed in it, or in the tables under it, has the no that names it. */
static void examined(void)
{
    struct object *o = calling_and_loading();
    same("to be examined", link_listed(o, 0, 64, 24, 80, 24, 12), BARKRUFFLE_DONE);
    struct shown s = {list_image, 6, list_funcs, 2, list_lines, 3, pieces, 2};
    for (size_t room = 0; room <= 16; room++) {
        same("yes", examine_in(o, 0, &s, room), BARKRUFFLE_DONE);
        same_places("yes", places, room, 2, 0, 0);
    }
    other_sizes(o, &s);
    one_byte_changed(o, &s);
    is_no("another root", o, 1, &s, BARKRUFFLE_ROOT_NOT_FIRST, 0, 0, 0);
    is_no("no root", o, 2, &s, BARKRUFFLE_NO_ROOT, 0, 0, 0);
    o->line_info.bytes[32] = 6;
    is_no("a line record outside", o, 0, &s, BARKRUFFLE_LINE_OUTSIDE, 1, 1, 0);
    o->symbols.bytes[16] = 0;
    is_no("a form unknown", o, 0, &s, BARKRUFFLE_UNKNOWN_FORM, 0, 0, 0);
    o->symbols.bytes[17] = 1;
    is_no("a broken symbol", o, 0, &s, BARKRUFFLE_BROKEN_ROW, 2, 0, 0);
    same("nothing shown", barkruffle_examine(NULL, 0, NULL, 0, NULL, 0, NULL, 0, NULL, 0, NULL, 0, NULL, 0, 0, NULL, 0, NULL,
                                             0, NULL, 0, NULL, 0, NULL, 0), BARKRUFFLE_NO_ROOT);
    free(o);
}

/* An image of another order: F twice, the copy that nobody calls first. The load goes to the second. */
static void from_elsewhere(void)
{
    static const uint8_t list[24] = {0, 0, 0, 0, 0, 0, 0, 0, 1, 0, 0, 0, 4, 0, 0, 0, 1, 0, 0, 0, 6, 0, 0, 0};
    struct object *o = calling_and_loading();
    struct table i = {.len = 0}, f = {.len = 0}, l = {.len = 0};
    call(&i, 5);
    slot(&i, 0x18, 0x42, 0, 4);
    put(&i, 0, 8);
    leave(&i);
    for (int twice = 0; twice < 2; twice++) {
        plain(&i);
        leave(&i);
    }
    func_record(&f, 0, 7);
    line_record(&l, 0, 1, 10, 2);
    for (uint32_t start = 4; start <= 6; start += 2) {
        func_record(&f, start, 8);
        line_record(&l, start, 1, 20, 3);
        line_record(&l, start + 1, 1, 21, 3);
    }
    struct shown s = {i.bytes, 8, f.bytes, 3, l.bytes, 5, list, 3};
    same("from elsewhere", examine_in(o, 0, &s, 12), BARKRUFFLE_DONE);
    same_places("from elsewhere", places, 12, 3, 0, 0);
    i.bytes[4] = 3; /* the other piece of the same function */
    same("from elsewhere, the other piece", examine_in(o, 0, &s, 12), BARKRUFFLE_DONE);
    s.count = 2;
    is_no("a piece not listed", o, 0, &s, BARKRUFFLE_ENDS_ELSEWHERE, 2, 6, 0);
    free(o);
}

static void nothing_lent(void)
{
    same("nothing lent", barkruffle_link(NULL, 0, NULL, 0, NULL, 0, NULL, 0, NULL, 0, NULL, 0, NULL, 0, 0, NULL, 0, NULL,
                                         0, NULL, 0, NULL, 0),
         BARKRUFFLE_NO_ROOT);
    same("no function records", barkruffle_func_info(8, 0, NULL, 0, NULL, 0, NULL, 0), BARKRUFFLE_DONE);
    same("no line records", barkruffle_line_info(16, 0, NULL, 0, NULL, 0, NULL, 0), BARKRUFFLE_DONE);
    same("size 7", barkruffle_func_info(7, 0, NULL, 0, NULL, 0, NULL, 0), BARKRUFFLE_BROKEN_INFO);
    same("size 15", barkruffle_line_info(15, 0, NULL, 0, NULL, 0, NULL, 0), BARKRUFFLE_BROKEN_INFO);
    struct barkruffle_part p = barkruffle_func_info_record(8, 0, NULL, 0, 0);
    same("no function record: at", (long)p.at, 0);
    same("no function record: len", (long)p.len, 0);
    p = barkruffle_line_info_record(16, 0, NULL, 0, 0);
    same("no line record: at", (long)p.at, 0);
    same("no line record: len", (long)p.len, 0);
    same("no function record", barkruffle_func_info_record_number(8, 0, NULL, 0, 0, NULL, 0), BARKRUFFLE_BROKEN_INFO);
    same("no line record", barkruffle_line_info_record_number(16, 0, NULL, 0, 0, NULL, 0), BARKRUFFLE_BROKEN_INFO);
    same("no maps", barkruffle_relocate_maps(NULL, 0, NULL, 0, NULL, 0, NULL, 0, NULL, 0, NULL, 0, NULL, 0), BARKRUFFLE_DONE);
}

typedef uint32_t reader(uint32_t, uint32_t, const uint8_t *, size_t, uint8_t *, size_t, uint8_t *, size_t);
typedef struct barkruffle_part finder(uint32_t, uint32_t, const uint8_t *, size_t, uint32_t);
typedef uint32_t teller(uint32_t, uint32_t, const uint8_t *, size_t, uint32_t, uint8_t *, size_t);

/* Three records of `size` bytes, at byte offsets 8, 16 and 24, into rows of `row` bytes. */
static void records(reader *rows_of, finder *record_of, teller *number_of, uint32_t size, uint32_t row)
{
    uint8_t bytes[3 * 40], out[3 * 40], want[3 * 40];
    size_t n = 3 * size;
    for (size_t i = 0; i < n; i++)
        bytes[i] = (uint8_t)(i + 1);
    for (uint32_t k = 0; k < 3; k++) {
        memset(bytes + k * size, 0, 4);
        bytes[k * size] = (uint8_t)(8 * (k + 1));
    }
    memset(want, 0, sizeof want);
    for (uint32_t k = 0; k < 3; k++) {
        memcpy(want + k * row, bytes + k * size, row);
        want[k * row] = (uint8_t)(k + 1);
    }
    for (size_t room = 0; room <= 16; room++) {
        memset(out, 0xaa, sizeof out);
        memset(places, 0xee, sizeof places);
        same("records", rows_of(size, 3, bytes, n, out, sizeof out, places, room), BARKRUFFLE_DONE);
        same_places("records' places", places, room, 3, 0, 0);
        same_bytes("rows", out, want, sizeof out);
        memset(places, 0xee, sizeof places);
        same("record 2", number_of(size, 3, bytes, n, 2, places, room), BARKRUFFLE_DONE);
        same_places("record 2's places", places, room, 3, 0, 0);
        memset(places, 0xee, sizeof places);
        same("record 3", number_of(size, 3, bytes, n, 3, places, room), BARKRUFFLE_BROKEN_INFO);
        same_places("record 3's places", places, room, 0, 0, 0);
    }
    for (uint32_t k = 0; k < 5; k++) {
        struct barkruffle_part p = record_of(size, 3, bytes, n, k);
        same("record's start", (long)p.at, k < 3 ? (long)(k * size) : 0);
        same("record's length", (long)p.len, k < 3 ? (long)size : 0);
    }
    memset(out, 0xaa, sizeof out);
    memset(places, 0xee, sizeof places);
    same("output too short", rows_of(size, 3, bytes, n, out, 3 * row - 1, places, 12), BARKRUFFLE_NO_ROOM);
    same_places("output too short", places, 12, 0, 0, 0);
    all("output too short", out, 0, 3 * row - 1);
    all("past the output", out + 3 * row - 1, 0xaa, sizeof out - 3 * row + 1);
    memset(out, 0xaa, sizeof out);
    same("wrong length", rows_of(size, 3, bytes, n - 1, out, sizeof out, places, 12), BARKRUFFLE_BROKEN_INFO);
    all("wrong length", out, 0, sizeof out);
    bytes[size] = 17;
    memset(out, 0xaa, sizeof out);
    same("off the grid", rows_of(size, 3, bytes, n, out, sizeof out, places, 12), BARKRUFFLE_BROKEN_INFO);
    all("off the grid", out, 0, sizeof out);
    struct barkruffle_part p = record_of(size, 3, bytes, n, 0);
    same("off the grid: at", (long)p.at, 0);
    same("off the grid: len", (long)p.len, 0);
    same("off the grid: number", number_of(size, 3, bytes, n, 0, places, 12), BARKRUFFLE_BROKEN_INFO);
}

static uint32_t map_in(struct object *o, size_t room)
{
    memset(places, 0xee, sizeof places);
    return barkruffle_relocate_maps(LENT(o->code), LENT(o->symbols), LENT(o->functions), LENT(o->relocations),
                                    LENT(o->maps), LENT(o->instructions), places, room);
}

/* Document 01: `18 01`, immediate 4, address 16, fd 7; with data and without. */
static void map_step(void)
{
    static const uint8_t with_data[24] = {0x18, 0x21, 0, 0, 7, 0, 0, 0, 0, 0, 0, 0, 20, 0, 0, 0, 0x95, 0, 0, 0, 0, 0, 0, 0};
    static const uint8_t no_data[24] = {0x18, 0x11, 0, 0, 7, 0, 0, 0, 0, 0, 0, 0, 5, 0, 0, 0, 0x95, 0, 0, 0, 0, 0, 0, 0};
    struct object *o = new_object();
    uint8_t before[24];
    code_section(&o->code, 1);
    symbol(&o->symbols, 1, 9, 16, 0);
    function(&o->functions, 1, 3, 0, 0, 0, 0);
    relocation(&o->relocations, 1, 1, 0, 64);
    map(&o->maps, 9, NONE, 7, 1);
    slot(&o->instructions, 0x18, 0x01, 0, 4);
    slot(&o->instructions, 0, 0, 0, 5);
    leave(&o->instructions);
    memcpy(before, o->instructions.bytes, 24);
    for (size_t room = 0; room <= 16; room++) {
        memcpy(o->instructions.bytes, before, 24);
        same("map with data", map_in(o, room), BARKRUFFLE_DONE);
        same_places("map with data", places, room, 1, 0, 0);
        same_bytes("map with data", o->instructions.bytes, with_data, 24);
    }
    memcpy(o->instructions.bytes, before, 24);
    o->maps.bytes[12] = 0;
    same("map without data", map_in(o, 12), BARKRUFFLE_DONE);
    same_bytes("map without data", o->instructions.bytes, no_data, 24);
    /* refusals leave table 6 as it was */
    memcpy(o->instructions.bytes, before, 24);
    o->maps.bytes[12] = 2;
    same("broken map", map_in(o, 12), BARKRUFFLE_BROKEN_ROW);
    same_places("broken map", places, 12, 5, 0, 0);
    same_bytes("broken map", o->instructions.bytes, before, 24);
    o->maps.bytes[12] = 1;
    o->maps.bytes[0] = 8;
    same("no map", map_in(o, 12), BARKRUFFLE_SECTION_NOT_FOUND);
    same_bytes("no map", o->instructions.bytes, before, 24);
    o->maps.bytes[0] = 9;
    o->relocations.bytes[8] = 4;
    same("off the grid", map_in(o, 12), BARKRUFFLE_INVALID_RELOCATION_OFFSET);
    same_bytes("off the grid", o->instructions.bytes, before, 24);
    o->relocations.bytes[8] = 16;
    for (size_t room = 0; room <= 16; room++) {
        same("not a wide load", map_in(o, room), BARKRUFFLE_NOT_WIDE_LOAD);
        same_places("not a wide load", places, room, 0, 2, 0);
        same_bytes("not a wide load", o->instructions.bytes, before, 24);
    }
    /* immediate 2147483640: address 7 passes, address 8 gives 7 */
    o->relocations.bytes[8] = 0;
    memcpy(before + 4, (const uint8_t[]){0xf8, 0xff, 0xff, 0x7f}, 4);
    memcpy(o->instructions.bytes, before, 24);
    o->symbols.bytes[8] = 8;
    same("value outside", map_in(o, 12), BARKRUFFLE_VALUE_OUTSIDE);
    same_places("value outside", places, 12, 0, 0, 0);
    same_bytes("value outside", o->instructions.bytes, before, 24);
    o->symbols.bytes[8] = 7;
    same("value at the end", map_in(o, 12), BARKRUFFLE_DONE);
    same("value at the end", number_at(o->instructions.bytes, 3), 0x7fffffff);
    free(o);
}

/* Table 2 lent as rows: its layout, and each of its refusals, told as the bytes' (link_in compares). */
static void symbol_rows(void)
{
    same("a row's bytes", (long)sizeof(struct barkruffle_symbol), 24);
    same("index", (long)offsetof(struct barkruffle_symbol, index), 0);
    same("section", (long)offsetof(struct barkruffle_symbol, section), 4);
    same("address", (long)offsetof(struct barkruffle_symbol, address), 8);
    same("kind", (long)offsetof(struct barkruffle_symbol, kind), 16);
    same("padding", (long)offsetof(struct barkruffle_symbol, padding), 17);
    struct object *o = new_object();
    code_section(&o->code, 1);
    symbol(&o->symbols, 1, 1, 16, 1);
    symbol(&o->symbols, 2, NONE, 0, 0);
    symbol(&o->symbols, 4, 65535, 0xffffffffffff, 2);
    function(&o->functions, 1, 2, 0, 0, 0, 0);
    function(&o->functions, 1, 1, 16, 16, 0, 0);
    relocation(&o->relocations, 1, 1, 0, 32);
    call(&o->instructions, 7);
    leave(&o->instructions);
    leave(&o->instructions);
    for (size_t room = 0; room <= 16; room++) {
        same("rows", link_in(o, 0, 64, 0, 0, room), BARKRUFFLE_DONE);
        same_places("rows", places, room, 3, 0, 0);
        same("rows: the call", number_at(image, 1), 1);
        same("rows: no root", link_in(o, 2, 64, 0, 0, room), BARKRUFFLE_NO_ROOT);
    }
    o->relocations.bytes[4] = 3;
    same("rows: unknown symbol", link_in(o, 0, 64, 0, 0, 12), BARKRUFFLE_UNKNOWN_SYMBOL);
    o->relocations.bytes[4] = 1;
    /* each way to break row 1 or 2: byte, value */
    static const uint8_t broken[][2] = {{24, 1}, {24, 5}, {24, 0}, {30, 1}, {31, 1}, {38, 1}, {39, 1}, {40, 3}, {40, 255},
                                        {41, 1}, {42, 1}, {43, 1}, {44, 1}, {45, 1}, {46, 1}, {47, 128},
                                        {50, 0}, {54, 1}, {62, 1}, {64, 3}, {71, 1}};
    for (size_t i = 0; i < sizeof broken / sizeof *broken; i++) {
        uint8_t kept = o->symbols.bytes[broken[i][0]];
        o->symbols.bytes[broken[i][0]] = broken[i][1];
        uint32_t r = link_in(o, 0, 64, 0, 0, 12);
        int whole = kept == broken[i][1];
        same("broken row", r, whole ? BARKRUFFLE_DONE : BARKRUFFLE_BROKEN_ROW);
        if (!whole)
            same_places("broken row", places, 12, 2, broken[i][0] < 48 && broken[i][1] != 5 ? 1 : 2, 0);
        o->symbols.bytes[broken[i][0]] = kept;
    }
    memset(o->symbols.bytes + 48, 0xff, 4);
    same("index that means none", link_in(o, 0, 64, 0, 0, 12), BARKRUFFLE_BROKEN_ROW);
    same_places("index that means none", places, 12, 2, 2, 0);
    /* at the limit, past it, and far past it */
    o->symbols.len = 24;
    for (uint32_t k = 2; k <= 1024; k++)
        symbol(&o->symbols, k, NONE, 0, 0);
    same("1024 rows", link_in(o, 0, 64, 0, 0, 12), BARKRUFFLE_DONE);
    symbol(&o->symbols, 1025, NONE, 0, 0);
    same("1025 rows", link_in(o, 0, 64, 0, 0, 12), BARKRUFFLE_TOO_MANY_ROWS);
    same_places("1025 rows", places, 12, 2, 0, 0);
    for (uint32_t k = 1026; k <= 5000; k++)
        symbol(&o->symbols, k, NONE, 0, 0);
    same("5000 rows", link_in(o, 0, 64, 0, 0, 12), BARKRUFFLE_TOO_MANY_ROWS);
    same_places("5000 rows", places, 12, 2, 0, 0);
    /* table 1 comes first */
    o->code.len = 65 * 4;
    same("table 1 too", link_in(o, 0, 64, 0, 0, 12), BARKRUFFLE_TOO_MANY_ROWS);
    same_places("table 1 too", places, 12, 1, 0, 0);
    same("no rows, nothing lent", barkruffle_link_rows(NULL, 0, NULL, 0, NULL, 0, NULL, 0, NULL, 0, NULL, 0, NULL, 0, 0,
                                                       NULL, 0, NULL, 0, NULL, 0, NULL, 0), BARKRUFFLE_NO_ROOT);
    free(o);
}

/* The row with an index, by table 2's bytes. */
static uint64_t row_with(const struct table *t, uint32_t index)
{
    for (size_t k = 0; k < t->len / sizeof *rows; k++)
        if (number_at(t->bytes + k * sizeof *rows, 0) == index)
            return k;
    return BARKRUFFLE_NONE;
}

static void same_row(const struct table *t, uint32_t index)
{
    size_t count = t->len / sizeof *rows;
    memcpy(rows, t->bytes, count * sizeof *rows);
    same("the row with an index", (long)barkruffle_find_symbol(rows, count, index), (long)row_with(t, index));
}

/* A symbol by index: rising rows, rows out of order and doubled, past the limit, and none. */
static void find_rows(void)
{
    static const uint32_t indices[] = {7, 3, 7, 0, 0xffffffffu, 0x01000000, 1, 3};
    static struct table t;
    same("no rows", barkruffle_find_symbol(NULL, 0, 0) == BARKRUFFLE_NONE, 1);
    for (size_t i = 0; i < sizeof indices / sizeof *indices; i++) {
        symbol(&t, indices[i], 5, 6, 9);
        for (size_t k = 0; k < sizeof indices / sizeof *indices; k++)
            same_row(&t, indices[k]);
        same_row(&t, 5);
        same_row(&t, 6);
    }
    same("the first of two", (long)barkruffle_find_symbol(rows, 8, 3), 1);
    same("all ones as an index", (long)barkruffle_find_symbol(rows, 8, 0xffffffffu), 4);
    t.len = 0;
    for (uint32_t k = 0; k < 5000; k++)
        symbol(&t, 3 * k, NONE, 0, 0);
    for (uint32_t index = 0; index < 15010; index += 7)
        same_row(&t, index);
}

int main(void)
{
    own_call();
    symbol_rows();
    find_rows();
    depth_first();
    list_of_pieces();
    examined();
    from_elsewhere();
    nothing_lent();
    records(barkruffle_func_info, barkruffle_func_info_record, barkruffle_func_info_record_number, 8, 8);
    records(barkruffle_func_info, barkruffle_func_info_record, barkruffle_func_info_record_number, 12, 8);
    records(barkruffle_line_info, barkruffle_line_info_record, barkruffle_line_info_record_number, 16, 16);
    records(barkruffle_line_info, barkruffle_line_info_record, barkruffle_line_info_record_number, 24, 16);
    map_step();
    if (failures) {
        printf("abi: %d failed\n", failures);
        return 1;
    }
    printf("abi: all as declared\n");
    return 0;
}
