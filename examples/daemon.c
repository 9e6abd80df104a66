/* A small sealing daemon: it builds the tables of an object, sets its maps, links its root, reads records from .BTF.ext data,
 * examines an image with its list of pieces, and prints what it was told. A real one takes the tables from an ELF file. */
#include "barkruffle.h"
#include "tables.h"

static uint8_t image[BARKRUFFLE_IMAGE], funcs[BARKRUFFLE_IMAGE_FUNC_INFO], lines[BARKRUFFLE_IMAGE_LINE_INFO];
static uint8_t pieces[BARKRUFFLE_IMAGE_PIECES], places[BARKRUFFLE_PLACES];

static void print_answer(const char *step, uint32_t number)
{
    printf("%s: %u (%u, %u, %u)\n", step, number, number_at(places, 0), number_at(places, 1), number_at(places, 2));
}

static void print_slots(const uint8_t *bytes, uint32_t n)
{
    for (uint32_t k = 0; k < n; k++) {
        printf("  %2u:", k);
        for (int i = 0; i < 8; i++)
            printf(" %02x", bytes[8 * k + i]);
        printf("\n");
    }
}

static uint32_t seal(struct object *o, uint32_t root)
{
    uint32_t r = barkruffle_relocate_maps(LENT(o->code), LENT(o->symbols), LENT(o->functions), LENT(o->relocations),
                                 LENT(o->maps), LENT(o->instructions), places, sizeof places);
    print_answer("maps", r);
    if (r != BARKRUFFLE_DONE)
        return r;
    r = barkruffle_link(LENT(o->code), LENT(o->symbols), LENT(o->functions), LENT(o->relocations),
                        LENT(o->instructions), LENT(o->func_info), LENT(o->line_info), root, image, sizeof image, funcs,
                        sizeof funcs, lines, sizeof lines, places, sizeof places);
    print_answer("link", r);
    if (r != BARKRUFFLE_DONE)
        return r;
    print_slots(image, number_at(places, 0));
    for (uint32_t k = 0; k < number_at(places, 1); k++)
        printf("  function at slot %u, type %u\n", number_at(funcs, 2 * k), number_at(funcs, 2 * k + 1));
    for (uint32_t k = 0; k < number_at(places, 2); k++)
        printf("  line %u at slot %u\n", number_at(lines, 4 * k + 2), number_at(lines, 4 * k));
    return r;
}

static void examine(struct object *o, uint32_t root, uint32_t slots, uint32_t func_records, uint32_t line_records, size_t list)
{
    print_answer("examine", barkruffle_examine(LENT(o->code), LENT(o->symbols), LENT(o->functions), LENT(o->relocations),
                                               LENT(o->instructions), LENT(o->func_info), LENT(o->line_info), root, image,
                                               8 * slots, funcs, 8 * func_records, lines, 16 * line_records, pieces, list,
                                               places, sizeof places));
}

/* Links with the list of pieces, and has the image examined: as it is, and with its call sent one slot further. */
static void examine_linked(struct object *o, uint32_t root)
{
    uint32_t r = barkruffle_link_pieces(LENT(o->code), LENT(o->symbols), LENT(o->functions), LENT(o->relocations),
                                        LENT(o->instructions), LENT(o->func_info), LENT(o->line_info), root, image,
                                        sizeof image, funcs, sizeof funcs, lines, sizeof lines, pieces, sizeof pieces, places,
                                        sizeof places);
    print_answer("link with its list", r);
    uint32_t slots = number_at(places, 0), func_records = number_at(places, 1), line_records = number_at(places, 2);
    size_t list = 8; /* the header: up to the next start that is 0, or the buffer's end */
    while (list + 8 <= sizeof pieces && number_at(pieces + list, 1) != 0)
        list += 8;
    for (size_t k = 0; k < list; k += 8)
        printf("  function %u at slot %u\n", number_at(pieces + k, 0), number_at(pieces + k, 1));
    examine(o, root, slots, func_records, line_records, list);
    image[2 * 8 + 4]++;
    examine(o, root, slots, func_records, line_records, list);
}

/* .BTF.ext has byte offsets where the tables have slots. */
static void read_infos(struct object *o)
{
    struct table bytes = {.len = 0};
    put(&bytes, 0, 4); /* records of 12 bytes: the last four are a tail that no row has */
    put(&bytes, 40, 4);
    put(&bytes, 77, 4);
    put(&bytes, 0, 4);
    put(&bytes, 41, 4);
    put(&bytes, 78, 4);
    print_answer("function records", barkruffle_func_info(12, 2, LENT(bytes), o->func_info.bytes,
                                                          sizeof o->func_info.bytes, places, sizeof places));
    o->func_info.len = 2 * 8;
    struct barkruffle_part p = barkruffle_func_info_record(12, 2, LENT(bytes), 1);
    printf("  record 1 at %u, %u bytes, tail %u\n", (unsigned)p.at, (unsigned)p.len, number_at(bytes.bytes + p.at, 2));
    p = barkruffle_func_info_record(12, 2, LENT(bytes), 2);
    printf("  record 2 at %u, %u bytes\n", (unsigned)p.at, (unsigned)p.len);
    print_answer("  its number", barkruffle_func_info_record_number(12, 2, LENT(bytes), 2, places, sizeof places));

    bytes.len = 0;
    line_record(&bytes, 0, 1, 20, 2); /* the helper's line; byte offsets, here and below */
    line_record(&bytes, 0, 1, 10, 2);
    line_record(&bytes, 16, 1, 11, 2);
    print_answer("line records", barkruffle_line_info(16, 3, LENT(bytes), o->line_info.bytes,
                                                      sizeof o->line_info.bytes, places, sizeof places));
    o->line_info.len = 3 * 16;
    p = barkruffle_line_info_record(16, 3, LENT(bytes), 2);
    printf("  record 2 at %u, %u bytes\n", (unsigned)p.at, (unsigned)p.len);
    print_answer("  its number", barkruffle_line_info_record_number(16, 3, LENT(bytes), 2, places, sizeof places));
    bytes.bytes[0] = 4;
    print_answer("line records off the grid", barkruffle_line_info(16, 3, LENT(bytes), lines, sizeof lines, places, sizeof places));
}

int main(void)
{
    struct object *o = new_object();
    code_section(&o->code, 1);
    code_section(&o->code, 2);
    symbol(&o->symbols, 1, 1, 0, 2);   /* the section of the helper */
    symbol(&o->symbols, 2, 9, 16, 0);  /* a value in a map's section */
    function(&o->functions, 1, 2, 0, 0, 1, 1);  /* the helper */
    function(&o->functions, 2, 4, 0, 0, 1, 2);  /* the program */
    relocation(&o->relocations, 2, 2, 0, 64);   /* the load of the value */
    relocation(&o->relocations, 2, 1, 16, 32);  /* the call of the helper */
    map(&o->maps, 9, NONE, 7, 1);
    plain(&o->instructions);
    leave(&o->instructions);
    slot(&o->instructions, 0x18, 0x01, 0, 4);
    slot(&o->instructions, 0, 0, 0, 0);
    call(&o->instructions, -1);
    leave(&o->instructions);

    read_infos(o);
    struct object *again = new_object();
    *again = *o; /* the map step rewrites the instructions, and is for once */
    seal(o, 1);
    examine_linked(o, 1);
    printf("a root that is no function\n");
    *o = *again;
    seal(o, 2);
    printf("a call to where no function is\n");
    *o = *again;
    o->instructions.bytes[4 * 8 + 4] = 9;
    seal(o, 1);
    printf("symbols out of order\n");
    *o = *again;
    o->symbols.bytes[0] = 3;
    seal(o, 1);
    free(again);
    free(o);
    return 0;
}
