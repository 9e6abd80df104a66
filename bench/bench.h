/* What the benches share: the clock, the median, and an object by its sizes. */
#ifndef BARKRUFFLE_BENCH_H
#define BARKRUFFLE_BENCH_H

#include <time.h>
#include "barkruffle.h"
#include "tables.h"

#define RUNS 201

static inline int rising(const void *a, const void *b)
{
    double x = *(const double *)a, y = *(const double *)b;
    return (x > y) - (x < y);
}

static inline double median(double *t)
{
    qsort(t, RUNS, sizeof *t, rising);
    return t[RUNS / 2];
}

static inline struct timespec now(void)
{
    struct timespec t;
    clock_gettime(CLOCK_MONOTONIC, &t);
    return t;
}

/* Microseconds. */
static inline double since(struct timespec a)
{
    struct timespec b = now();
    return 1e6 * (double)(b.tv_sec - a.tv_sec) + 1e-3 * (double)(b.tv_nsec - a.tv_nsec);
}

/* The sizes of an object: functions and slots in all, relocations in all, rows of table 2, and whether it has records: then
 * each function has a function record, and a line record for every second slot. */
struct sizes {
    uint32_t functions, slots, relocations, symbols;
    int has_records;
};

static inline void add_records(struct object *o, uint32_t at, uint32_t slots)
{
    func_record(&o->func_info, at, at);
    for (uint32_t s = 0; s < slots / 2; s++)
        line_record(&o->line_info, at + 2 * s, 1, s, 0);
}

/* A root that calls each of the others in turn through a relocation. The other relocations are of values, and copied. The
 * symbols that the two kinds name are the last of the rows. */
static inline struct object *made(struct sizes z)
{
    struct object *o = new_object();
    uint32_t each = (z.slots - z.functions) / z.functions, first = z.slots - each * (z.functions - 1), relocated = 0;
    code_section(&o->code, 1);
    for (uint32_t k = 0; k + 2 < z.symbols; k++)
        symbol(&o->symbols, k, 8, 0, 0);
    symbol(&o->symbols, z.symbols - 2, 1, 0, 2);
    symbol(&o->symbols, z.symbols - 1, 9, 0, 0);
    for (uint32_t f = 0, at = 0; f < z.functions; f++) {
        uint32_t n = f ? each : first;
        function(&o->functions, 1, n, 8 * at, 8 * at, z.has_records ? 1 : 0, z.has_records ? n / 2 : 0);
        for (uint32_t s = 0; s < n; s++) {
            if (f == 0 && s + 1 < z.functions) {
                call(&o->instructions, (int32_t)(first + each * s) - 1);
                relocation(&o->relocations, 1, z.symbols - 2, 8 * s, 32);
                relocated++;
            } else if (relocated < z.relocations && s + 1 < n) {
                plain(&o->instructions);
                relocation(&o->relocations, 1, z.symbols - 1, 8 * (at + s), 64);
                relocated++;
            } else if (s + 1 == n) {
                leave(&o->instructions);
            } else {
                plain(&o->instructions);
            }
        }
        if (z.has_records)
            add_records(o, at, n);
        at += n;
    }
    return o;
}

#endif
