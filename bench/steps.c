/* How long the check of tables at their limits takes, and the map step over 64 functions and 1,024 relocations:
 * the median of many runs, in microseconds. Figures, not a test. */
#define _POSIX_C_SOURCE 199309L
#include "bench.h"

static uint8_t image[8], funcs[8], lines[8], places[12];

/* 64 functions of 128 slots in one section; every eighth slot is a wide load with a relocation to a map's symbol. */
static struct object *largest(void)
{
    struct object *o = new_object();
    for (uint32_t k = 0; k < 64; k++)
        code_section(&o->code, k);
    for (uint32_t k = 0; k < 1024; k++)
        symbol(&o->symbols, k, 100, 8 * k, 0);
    for (uint32_t k = 0; k < 64; k++) {
        function(&o->functions, 1, 128, 1024 * k, 1024 * k, 4, 64);
        for (uint32_t s = 0; s < 128; s++) {
            if (s % 8 == 0 && s / 8 < 16)
                relocation(&o->relocations, 1, 16 * k + s / 8, 1024 * k + 8 * s, 64);
            if (s % 8 == 0)
                slot(&o->instructions, 0x18, 1, 0, 4);
            else
                slot(&o->instructions, 0, 0, 0, 0);
        }
        for (uint32_t r = 0; r < 4; r++)
            func_record(&o->func_info, 128 * k, r);
        for (uint32_t r = 0; r < 64; r++)
            line_record(&o->line_info, 128 * k + r, 1, r, 1);
        map(&o->maps, 100 + k, k == 0 ? NONE : 2000 + k, 7, 1);
    }
    return o;
}

int main(void)
{
    static double t[RUNS];
    struct object *o = largest();
    for (int k = 0; k < RUNS; k++) {
        struct timespec a = now();
        uint32_t r = barkruffle_link(LENT(o->code), LENT(o->symbols), LENT(o->functions), LENT(o->relocations),
                                     LENT(o->instructions), LENT(o->func_info), LENT(o->line_info), 64, image,
                                     sizeof image, funcs, sizeof funcs, lines, sizeof lines, places, sizeof places);
        t[k] = since(a);
        if (r != 13) {
            printf("check gave %u (%u, %u)\n", r, number_at(places, 0), number_at(places, 1));
            return 1;
        }
    }
    printf("tables 1 to 4 and 6 to 8 at their limits, checked: %.1f us\n", median(t));
    static uint8_t before[1 << 17];
    memcpy(before, o->instructions.bytes, o->instructions.len);
    for (int k = 0; k < RUNS; k++) {
        memcpy(o->instructions.bytes, before, o->instructions.len);
        struct timespec a = now();
        uint32_t r = barkruffle_relocate_maps(LENT(o->code), LENT(o->symbols), LENT(o->functions), LENT(o->relocations),
                                              LENT(o->maps), o->instructions.bytes, o->instructions.len, places, sizeof places);
        t[k] = since(a);
        if (r != 0 || number_at(places, 0) != 1024) {
            printf("map step gave %u (%u, %u)\n", r, number_at(places, 0), number_at(places, 1));
            return 1;
        }
    }
    printf("map step, 64 functions, 1,024 relocations, all applied: %.1f us\n", median(t));
    free(o);
    return 0;
}
