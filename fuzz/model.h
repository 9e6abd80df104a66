/* The literal model of document 01, the requirements, and of W1 in document 02, the later requests: model.c. The fuzz
 * harness and the comparison (compare/) hold the entries to it. Nothing here comes from the library. */
#ifndef BARKRUFFLE_MODEL_H
#define BARKRUFFLE_MODEL_H

#include <stddef.h>
#include <stdint.h>

#define NONE 0xffffffffu

/* Bytes that are only read: one table, or a reader's data. */
struct run {
    const uint8_t *at;
    size_t len;
};

struct answer {
    uint32_t number;
    uint32_t places[3];
};

/* Bytes of a row and most rows, by table number; 0 is no table. */
extern const size_t row_size[9], most_rows[9];
/* The same of an image, its function records, its line records and its list of pieces. */
extern const size_t row_shown[4], most_shown[4];
uint32_t u32_at(const uint8_t *p);
uint64_t u64_at(const uint8_t *p);

/* Tables are table[1] to table[8]. Outputs are written whole, with as many bytes as their length says; `instructions` with
 * as many as table 6 has. */
struct answer model_maps(const struct run *table, uint8_t *instructions);
struct answer model_link(const struct run *table, uint32_t root, const size_t *out_len, uint8_t *const *out);
/* The link with its list, out[3]. */
struct answer model_link_pieces(const struct run *table, uint32_t root, const size_t *out_len, uint8_t *const *out);
/* Shown are the image, its function records, its line records and the list. */
struct answer model_examine(const struct run *table, uint32_t root, const struct run *shown);
#define MODEL_NO_ROW UINT64_MAX
uint64_t model_find(const struct run *table, uint32_t index);
struct answer model_read(size_t row, uint32_t size, uint32_t count, struct run data, uint8_t *out, size_t out_len);
struct answer model_record(size_t row, uint32_t size, uint32_t count, struct run data, uint32_t k);

/* Parts of the two steps, for who asks more than the answer. The link's checks alone: 1, 2 and 13, or 0. */
struct answer model_check_link(const struct run *table, uint32_t root);

/* One relocation and one function of tables that the map step's checks pass, with table 6 as it is: the refusal,
 * MODEL_SKIPPED or MODEL_APPLIED. */
enum { MODEL_SKIPPED = 100, MODEL_APPLIED };
uint32_t model_judge(const struct run *table, size_t row, size_t relocation);

/* Slot k of a function, in tables that the link's checks pass: its refusal, or what it is; of a call and of a reference the
 * function that it names too. */
enum { MODEL_COPIED = 100, MODEL_CALL, MODEL_REFERENCE };
uint32_t model_names(const struct run *table, size_t row, size_t k, size_t *callee);

/* The link, and the row that each slot came to, in the order of coming: at most one for a slot of the image. */
struct reached {
    size_t count;
    uint32_t row[4096];
};
struct answer model_link_reaching(const struct run *table, uint32_t root, const size_t *out_len, uint8_t *const *out,
                                  struct reached *reached);

#endif
