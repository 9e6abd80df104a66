/* How long a link takes, by slots, functions and relocations, with table 2 as bytes and as rows: the median of many runs, in
 * microseconds. */
#define _POSIX_C_SOURCE 199309L
#include "bench.h"

static uint8_t image[BARKRUFFLE_IMAGE], funcs[BARKRUFFLE_IMAGE_FUNC_INFO], lines[BARKRUFFLE_IMAGE_LINE_INFO];
static uint8_t places[BARKRUFFLE_PLACES];
static struct barkruffle_symbol rows[1024];

static uint32_t linked(struct object *o, int by_rows)
{
    return by_rows ? barkruffle_link_rows(LENT(o->code), rows, o->symbols.len / sizeof *rows, LENT(o->functions),
                                          LENT(o->relocations), LENT(o->instructions), LENT(o->func_info),
                                          LENT(o->line_info), 0, image, sizeof image, funcs, sizeof funcs, lines,
                                          sizeof lines, places, sizeof places)
                   : barkruffle_link(LENT(o->code), LENT(o->symbols), LENT(o->functions), LENT(o->relocations),
                                     LENT(o->instructions), LENT(o->func_info), LENT(o->line_info), 0, image,
                                     sizeof image, funcs, sizeof funcs, lines, sizeof lines, places, sizeof places);
}

static double microseconds(struct object *o, uint32_t slots, int by_rows)
{
    static double t[RUNS];
    for (int k = 0; k < RUNS; k++) {
        struct timespec start = now();
        uint32_t r = linked(o, by_rows);
        t[k] = since(start);
        if (r != BARKRUFFLE_DONE || number_at(places, 0) != slots) {
            printf("link gave %u (%u, %u), not %u slots\n", r, number_at(places, 0), number_at(places, 1), slots);
            exit(1);
        }
    }
    return median(t);
}

static void run(uint32_t functions, uint32_t slots, uint32_t relocations, uint32_t symbols)
{
    struct object *o = made((struct sizes){functions, slots, relocations, symbols, 0});
    memcpy(rows, o->symbols.bytes, o->symbols.len);
    printf("%6u slots %3u functions %5u relocations %5u symbols %10.1f %10.1f\n", slots, functions,
           (unsigned)(o->relocations.len / 24), symbols, microseconds(o, slots, 0), microseconds(o, slots, 1));
    free(o);
}

int main(void)
{
    static const uint32_t functions[] = {10, 60};
    static const uint32_t slots[] = {1000, 2000, 4000};
    static const uint32_t relocations[] = {0, 128, 256, 512, 1000};
    static const uint32_t symbols[] = {2, 64, 1024};
    printf("by slots: with table 2 as bytes, and as rows\n");
    for (int f = 0; f < 2; f++)
        for (int s = 0; s < 3; s++)
            run(functions[f], slots[s], 0, 2);
    printf("by relocations\n");
    for (int f = 0; f < 2; f++)
        for (int r = 0; r < 5; r++)
            run(functions[f], 4000, relocations[r], 2);
    printf("by symbols\n");
    for (int r = 0; r < 3; r++)
        run(10, 4000, 1000, symbols[r]);
    return 0;
}
