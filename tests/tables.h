/* Little helpers that write rows of document 01's tables, for the C programs here. */
#ifndef BARKRUFFLE_TABLES_H
#define BARKRUFFLE_TABLES_H

#include <stddef.h>
#include <stdint.h>
#include <stdio.h>
#include <stdlib.h>
#include <string.h>

#define NONE 0xffffffffu

struct table {
    uint8_t bytes[1 << 17];
    size_t len;
};

static inline void put(struct table *t, uint64_t v, int bytes)
{
    if (t->len + (size_t)bytes > sizeof t->bytes) {
        fprintf(stderr, "table full\n");
        exit(2);
    }
    for (int i = 0; i < bytes; i++)
        t->bytes[t->len++] = (uint8_t)(v >> (8 * i));
}

static inline uint32_t number_at(const uint8_t *p, size_t k)
{
    return p[4 * k] | (uint32_t)p[4 * k + 1] << 8 | (uint32_t)p[4 * k + 2] << 16 | (uint32_t)p[4 * k + 3] << 24;
}

static inline void code_section(struct table *t, uint32_t number) { put(t, number, 4); }

static inline void symbol(struct table *t, uint32_t index, uint32_t section, uint64_t address, uint8_t kind)
{
    put(t, index, 4);
    put(t, section, 4);
    put(t, address, 8);
    put(t, kind, 8);
}

static inline void function(struct table *t, uint32_t section, uint32_t slots, uint64_t address, uint64_t offset,
                            uint32_t func_records, uint32_t line_records)
{
    put(t, section, 4);
    put(t, slots, 4);
    put(t, address, 8);
    put(t, offset, 8);
    put(t, func_records, 4);
    put(t, line_records, 4);
}

static inline void relocation(struct table *t, uint32_t section, uint32_t symbol_index, uint64_t offset, uint8_t size)
{
    put(t, section, 4);
    put(t, symbol_index, 4);
    put(t, offset, 8);
    put(t, size, 8);
}

static inline void map(struct table *t, uint32_t section, uint32_t symbol_index, int32_t fd, uint8_t has_data)
{
    put(t, section, 4);
    put(t, symbol_index, 4);
    put(t, (uint32_t)fd, 4);
    put(t, has_data, 4);
}

static inline void slot(struct table *t, uint8_t opcode, uint8_t registers, int16_t offset, int32_t immediate)
{
    put(t, opcode, 1);
    put(t, registers, 1);
    put(t, (uint16_t)offset, 2);
    put(t, (uint32_t)immediate, 4);
}

static inline void call(struct table *t, int32_t immediate) { slot(t, 0x85, 0x10, 0, immediate); }
static inline void leave(struct table *t) { slot(t, 0x95, 0, 0, 0); }
static inline void plain(struct table *t) { slot(t, 0xb7, 0, 0, 0); }

static inline void func_record(struct table *t, uint32_t slot_number, uint32_t type)
{
    put(t, slot_number, 4);
    put(t, type, 4);
}

static inline void line_record(struct table *t, uint32_t slot_number, uint32_t file, uint32_t line, uint32_t column)
{
    put(t, slot_number, 4);
    put(t, file, 4);
    put(t, line, 4);
    put(t, column, 4);
}

/* The tables of one object. */
struct object {
    struct table code, symbols, functions, relocations, maps, instructions, func_info, line_info;
};

static inline struct object *new_object(void)
{
    struct object *o = calloc(1, sizeof *o);
    if (!o) {
        fprintf(stderr, "no memory\n");
        exit(2);
    }
    return o;
}

#define LENT(t) (t).bytes, (t).len

#endif
