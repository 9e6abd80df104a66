/* What the files of the fuzz harness share: an input cut into buffers, buffers lent between guards, images, and the
 * runs. What the documents answer to an input is model.h. */
#ifndef BARKRUFFLE_FUZZ_H
#define BARKRUFFLE_FUZZ_H

#include <stddef.h>
#include <stdint.h>
#include "barkruffle.h"
#include "model.h"

/* More bytes than the limit of any table or output. */
#define MOST 73728

struct bytes {
    uint8_t at[MOST];
    size_t len;
};

/* What one input is cut into; every entry is called on it. */
struct input {
    struct bytes table[9]; /* 1 to 8 */
    uint32_t root;
    size_t out_len[3];
    uint32_t size, count, k; /* the readers' */
    struct bytes data;
    size_t rows_len;
    size_t places_len;
    int maps_first; /* link what the map step made of table 6 */
    int shared;     /* in the link, tables 7 and 8 are lent as the start of table 6 */
    uint64_t choices; /* of images and lists: what choose() starts from */
};

/* What an examiner is shown: the image, its function records, its line records and the list. */
struct shown {
    struct bytes part[4];
};

/* cut.c: the first byte chooses raw bytes, raw bytes repaired, or a generator. */
enum { CUT_RAW, CUT_REPAIRED, CUT_GENERATED, CUTS };
int cut(struct input *in, const uint8_t *data, size_t len);

/* images.c: images that no link of the library made, and changes of one thing in what is shown. Laid is whether there is an
 * image; whole, whether a link refuses nothing of its source; and whether a function stands in it twice, a piece that nobody
 * calls, or a call of the first piece. */
enum { LAID = 1, LAID_WHOLE = 2, LAID_TWICE = 4, LAID_UNCALLED = 8, LAID_TO_FIRST = 16 };
int lay_image(const struct run *table, uint32_t root, uint64_t *choices, struct shown *s);
void change_shown(struct shown *s, uint64_t *choices);
uint32_t choose(uint64_t *choices, uint32_t n);

/* lend.c: each buffer of a call lies at an unmapped page, with its end or with its start, or at an odd address; guard
 * bytes fill what is mapped around it, and what is only read is lent through a mapping that cannot be written. Or all lie
 * side by side. */
enum side { AT_END, AT_START, AT_ODD, PACKED_UP, PACKED_DOWN, SIDES };
void lend_from(enum side side, int null_when_empty);
const uint8_t *lend(const uint8_t *bytes, size_t len);
const struct barkruffle_symbol *lend_rows(const uint8_t *bytes, size_t len); /* at a multiple of 8 */
uint8_t *lend_filled(uint8_t fill, size_t len);
uint8_t *lend_to_write(const uint8_t *bytes, size_t len);
const char *take_back(void); /* what was found wrong, or NULL */
const char *trapped_at(const void *address);

/* entries.c */
int LLVMFuzzerTestOneInput(const uint8_t *data, size_t len);
int LLVMFuzzerInitialize(int *argc, char ***argv);
const char *entry_tried(void);
int report(void); /* prints how often each entry gave each number; 0 if each number of the header was reached */

/* long.c: lengths past 32 bits. */
void try_long(void);

/* drive.c: pseudo-random inputs, and traps told in words. */
void tell_traps(void);
void drive(unsigned runs, uint64_t seed);

#endif
