/* Barkruffle: sets the maps of an eBPF object, links its functions into one program, examines programs that others have
 * linked, and reads records.
 *
 * Every function here is proved to return the number, and to leave every lent buffer with the bytes, that the
 * project's definitions give. None asks anything of the bytes: broken tables are refused with a number.
 *
 * Buffers. A buffer is a pointer and a length in bytes. A buffer of length 0 may have any pointer, NULL too.
 * No buffer of bytes needs alignment; rows of struct barkruffle_symbol stand where C puts them, at a multiple of 8.
 * A buffer that is lent to be written (not const) must overlap no other buffer of the same call. Buffers that are only
 * read may overlap each other. Nothing is kept after a call returns, and no function has state of its own: calls from
 * several threads at once are fine on buffers that are not shared.
 *
 * Byte order. All tables, records and places are little-endian. The archive is for x86-64.
 *
 * Places. Each function that takes `places` writes three numbers to it, u32 each: those that fit whole, zero
 * after. So a buffer of 0 to 3 bytes gets no number, of 4 to 7 one, of 8 to 11 two, of 12 or more all three.
 * It is written on every answer. What the numbers say stands with each answer below.
 *
 * Stack. A link recurses once for each function that it appends, 64 at most. The deepest, a chain of 64 functions
 * that ends in a call of the root, was measured at 94,400 bytes; give a thread that links 128 KiB beside its own. A link
 * with rows lays them into a table of its own, 24,600 bytes of the stack, and was measured at 119,008: give it 160 KiB.
 * A link with its list was measured at 94,432: 128 KiB. No other function here recurses; an examination was measured at
 * 912 bytes, and needs 16 KiB at most.
 * tests/stack.c measures all four, and fails past 128, 160, 128 and 16 KiB.
 *
 * The tables, by number, with the bytes of a row and the most rows:
 *   1 code sections       4    64   number u32; strictly rising
 *   2 symbols            24  1024   index u32, section u32 or FFFFFFFF hex, address u64, kind u8 (0 other, 1 text,
 *                                   2 section), 7 zero bytes; index strictly rising
 *   3 functions          32    64   section u32, slots u32 (1 to 4096), address u64, section offset u64 (a multiple
 *                                   of 8), function records u32, line records u32; (section, address) strictly rising
 *   4 relocations        24  1024   section u32, symbol u32, offset u64, size u8, 7 zero bytes; (section, offset)
 *                                   strictly rising
 *   5 maps               16    64   section u32, symbol u32 or FFFFFFFF hex, fd i32, has data u8 (0 or 1), 3 zero
 *                                   bytes; no symbol twice, at most one map without a symbol in a section
 *   6 instructions        8  8192   the functions' slots, one function after another
 *   7 function records    8   256   slot u32, type u32
 *   8 line records       16  4096   slot u32, file u32, line u32, column u32
 * Tables 6, 7 and 8 hold exactly the rows that table 3 adds up to. Sections are at most 65535, addresses and
 * offsets at most 2^48 - 1.
 *
 * A list of pieces, in rows of 8 bytes: function u32, a row of table 3, and start u32, a slot of the image. A piece is one
 * copy of a function in an image. The list has them in the order in which they lie there, each starting where the one
 * before it ends, the root first at 0. So all starts but the first are above 0.
 */
#ifndef BARKRUFFLE_H
#define BARKRUFFLE_H

#include <stddef.h>
#include <stdint.h>

#ifdef __cplusplus
extern "C" {
#endif

/* The numbers returned, and the places with each. Places that are not named are 0. Functions are rows of table 3;
 * rows, slots and records count from 0, slots and records within their function. Only the first refusal is told:
 * 1 over all tables given, then 2, both by table number, then 13, then those of the step itself. */
enum barkruffle_number {
    /* Done. Link: slots, function records, line records of the image. Map step: relocations applied. Readers: records.
     * Examination: yes, and the pieces. */
    BARKRUFFLE_DONE = 0,
    /* Too many rows; a partial row counts as one: table, 0. */
    BARKRUFFLE_TOO_MANY_ROWS = 1,
    /* The first broken or partial row: table, row. Tables 6 to 8, a wrong total: table, 0. */
    BARKRUFFLE_BROKEN_ROW = 2,
    /* A relocation's symbol is not in table 2: function, slot. */
    BARKRUFFLE_UNKNOWN_SYMBOL = 3,
    /* A relocation is off the grid of 8 bytes: function, slot rounded down. */
    BARKRUFFLE_INVALID_RELOCATION_OFFSET = 4,
    /* No map: function, slot. */
    BARKRUFFLE_SECTION_NOT_FOUND = 5,
    /* Not a wide load: function, slot. */
    BARKRUFFLE_NOT_WIDE_LOAD = 6,
    /* The offset of a value is outside a signed 32-bit number: function, slot. */
    BARKRUFFLE_VALUE_OUTSIDE = 7,
    /* A reference of unknown form: function, slot. */
    BARKRUFFLE_UNKNOWN_FORM = 8,
    /* A call names no code: function, slot. */
    BARKRUFFLE_NO_CODE = 9,
    /* No function at the target: caller, slot. */
    BARKRUFFLE_UNKNOWN_FUNCTION = 10,
    /* No room in an output, or a limit of the image reached: function being added, 0. Readers: 0, 0. */
    BARKRUFFLE_NO_ROOM = 11,
    /* A line record is outside its function: function, record. */
    BARKRUFFLE_LINE_OUTSIDE = 12,
    /* The root is no row of table 3: 0, 0. */
    BARKRUFFLE_NO_ROOT = 13,
    /* Broken info data, or no record k: 0, 0. */
    BARKRUFFLE_BROKEN_INFO = 14,

    /* The caller's mistake, told before every other number: the buffer for the list of pieces is too short: 0, 0. */
    BARKRUFFLE_NO_LIST_ROOM = 32,

    /* What an examination finds in what it is shown, in this order and by these places:
     *
     *   no.  when                                                           places
     *   33   more rows than an image can have; a partial row counts as one  what, 0, 0
     *   34   a partial row at the end                                       what, whole rows, 0
     *   35   the first piece is not the root at 0, or there is none         0, 0, 0
     *   36   a piece's function is no row of table 3                        piece, that number, 0
     *   37   a piece does not start where the piece before it ends          piece, slot where it should start, 0
     *   38   the pieces end elsewhere than the image                        pieces, slot where they end, 0
     *   39   a slot differs from its source in what may not change          piece, slot, slot of the image
     *   40   a reference without source register 4                          piece, slot, function named
     *   41   a call or reference goes to no start of a piece of the
     *        function that its source names                                 piece, slot, function named
     *   42   a function record of a piece differs, or is missing            piece, record, record of the image
     *   43   a line record of a piece differs, or is missing                piece, record, record of the image
     *   44   records over, that belong to no piece                          7 or 8, first record that is over, 0
     *
     * What: 6 the image, 7 its function records, 8 its line records, 9 the list, which has at most a piece for each of an
     * image's 4096 slots. Pieces count from 0 in the list, slots and records within their piece, those of the image
     * within the image. 33 and 34 are told of 6, 7, 8, 9 in turn, 36 and 37 of each piece in turn; then, piece by piece:
     * of its slots, in rising order, what a link would refuse of the source (3, 6, 8, 9, 10, by the link's places:
     * function, slot), 39, 40, 41; of its records 42, then in every piece but the first 12 (by the link's places:
     * function, record), then 43; and after all pieces 44. */
    BARKRUFFLE_SHOWN_TOO_LONG = 33,
    BARKRUFFLE_SHOWN_PARTIAL = 34,
    BARKRUFFLE_ROOT_NOT_FIRST = 35,
    BARKRUFFLE_NO_SUCH_FUNCTION = 36,
    BARKRUFFLE_NOT_TILED = 37,
    BARKRUFFLE_ENDS_ELSEWHERE = 38,
    BARKRUFFLE_SLOT_CHANGED = 39,
    BARKRUFFLE_NOT_REFERENCE = 40,
    BARKRUFFLE_WRONG_TARGET = 41,
    BARKRUFFLE_FUNC_INFO_DIFFERS = 42,
    BARKRUFFLE_LINE_INFO_DIFFERS = 43,
    BARKRUFFLE_RECORDS_OVER = 44
};

/* The length of a place buffer that holds all three numbers. */
#define BARKRUFFLE_PLACES 12
/* The most bytes that an image and its records take: with outputs of these lengths only the limits give 11. */
#define BARKRUFFLE_IMAGE (4096 * 8)
#define BARKRUFFLE_IMAGE_FUNC_INFO (256 * 8)
#define BARKRUFFLE_IMAGE_LINE_INFO (4096 * 16)
/* The bytes that a list of pieces needs for a table 3 of so many bytes: a row for each function, and one for the root's
 * copy. And the bytes that are enough for every table 3 of at most 64 whole rows; one with more is then 32 and not 1. */
#define BARKRUFFLE_PIECES(functions_len) (((size_t)(functions_len) / 32 + 1) * 8)
#define BARKRUFFLE_IMAGE_PIECES (65 * 8)

/* Rewrites table 6 in place: each wide load whose relocation names a map gets the map's file descriptor, and with
 * data also its value's offset.
 *
 * Answers: 0, 1, 2, 3, 4, 5, 6, 7. On 0 the first place is the number of relocations applied, and only their slots
 * of `instructions` have changed. On any other answer `instructions` is as it was. */
uint32_t barkruffle_relocate_maps(
    const uint8_t *code, size_t code_len,
    const uint8_t *symbols, size_t symbols_len,
    const uint8_t *functions, size_t functions_len,
    const uint8_t *relocations, size_t relocations_len,
    const uint8_t *maps, size_t maps_len,
    uint8_t *instructions, size_t instructions_len,
    uint8_t *places, size_t places_len);

/* Links the function at row `root` of table 3 and all that it reaches, depth first, into `image`, with the records
 * of the functions placed in `image_func_info` and `image_line_info` (rows of tables 7 and 8, slots of the image).
 *
 * Answers: 0, 1, 2, 3, 6, 8, 9, 10, 11, 12, 13.
 * On 0 the three places are the image's slots, function records and line records; each output holds that many
 * rows and zero after them. On any other answer all three outputs are zero from end to end.
 * Outputs may have any length: 11 says that one is too short, or that the image would pass 4096 slots, 256
 * function records or 4096 line records. */
uint32_t barkruffle_link(
    const uint8_t *code, size_t code_len,
    const uint8_t *symbols, size_t symbols_len,
    const uint8_t *functions, size_t functions_len,
    const uint8_t *relocations, size_t relocations_len,
    const uint8_t *instructions, size_t instructions_len,
    const uint8_t *func_info, size_t func_info_len,
    const uint8_t *line_info, size_t line_info_len,
    uint32_t root,
    uint8_t *image, size_t image_len,
    uint8_t *image_func_info, size_t image_func_info_len,
    uint8_t *image_line_info, size_t image_line_info_len,
    uint8_t *places, size_t places_len);

/* barkruffle_link with the list of its pieces as one more output, in the order of placing: what barkruffle_examine asks for.
 *
 * Answers: those of barkruffle_link, and 32 before every other, if `pieces_len` is below BARKRUFFLE_PIECES(functions_len).
 * Number, places and the other outputs are those of barkruffle_link on every input that is not 32. On 0 `pieces` holds the
 * list and zero after it. On any other answer, 32 too, all four outputs are zero from end to end.
 * The list ends before the first row after row 0 whose start is 0, or with the buffer:
 *
 *     size_t n = 8;
 *     while (n + 8 <= pieces_len && memcmp(pieces + n + 4, "\0\0\0\0", 4) != 0)
 *         n += 8;
 *
 * leaves its length in bytes in n: what barkruffle_examine takes as the length of `pieces`. */
uint32_t barkruffle_link_pieces(
    const uint8_t *code, size_t code_len,
    const uint8_t *symbols, size_t symbols_len,
    const uint8_t *functions, size_t functions_len,
    const uint8_t *relocations, size_t relocations_len,
    const uint8_t *instructions, size_t instructions_len,
    const uint8_t *func_info, size_t func_info_len,
    const uint8_t *line_info, size_t line_info_len,
    uint32_t root,
    uint8_t *image, size_t image_len,
    uint8_t *image_func_info, size_t image_func_info_len,
    uint8_t *image_line_info, size_t image_line_info_len,
    uint8_t *pieces, size_t pieces_len,
    uint8_t *places, size_t places_len);

/* Examines an image, whoever made it: whether it is a link of the function at row `root` of table 3, in some order, made of
 * the pieces in the list. The tables are those that a link takes: `instructions` is table 6 after the map step, since maps
 * are set in the image. Only `places` is written; all else is only read. Each length is that of the rows alone, with
 * nothing after them: a list with the zero after it is a no.
 *
 * Answers: 0, which is yes, and the first place is the number of pieces; any other number is a no and says what is wrong
 * first, and where: 1, 2, 13 of the tables and the root; 33 to 44; 3, 6, 8, 9, 10, 12 where a link would refuse the source.
 * It is yes exactly when all of this holds: the tables pass; image and records have whole rows within the limits of an image;
 * the first piece is the root at 0, and the pieces tile the image in the order of the list, to its end; no piece has a source
 * slot that a link refuses, and none but the first has a line record that a link refuses; every slot is its source slot with
 * the immediate of calls and references and the source register of references rewritten, and nothing else; each of these
 * goes to the start of a piece of the function that its source names, any such piece, and references have source register
 * 4; and the records are those of the pieces in the order of the list, the first piece's unchanged, later ones as a link
 * appends them, none over. A function may stand in several pieces, and in one that nobody calls.
 * What barkruffle_link_pieces leaves with a 0 has a yes. An image that has a yes walks as its source does (demand 3). A link
 * may refuse what has a yes in one case: a root with a stray line record that is called again, since a link appends its copy
 * (12) and an image from elsewhere may call the first piece. */
uint32_t barkruffle_examine(
    const uint8_t *code, size_t code_len,
    const uint8_t *symbols, size_t symbols_len,
    const uint8_t *functions, size_t functions_len,
    const uint8_t *relocations, size_t relocations_len,
    const uint8_t *instructions, size_t instructions_len,
    const uint8_t *func_info, size_t func_info_len,
    const uint8_t *line_info, size_t line_info_len,
    uint32_t root,
    const uint8_t *image, size_t image_len,
    const uint8_t *image_func_info, size_t image_func_info_len,
    const uint8_t *image_line_info, size_t image_line_info_len,
    const uint8_t *pieces, size_t pieces_len,
    uint8_t *places, size_t places_len);

/* A row of table 2: C's own layout of it is the row's 24 bytes. The padding is to be zero, as in the table's bytes. */
struct barkruffle_symbol {
    uint32_t index;
    uint32_t section;
    uint64_t address;
    uint8_t kind;
    uint8_t padding[7];
};

/* barkruffle_link with table 2 lent as rows: `symbols_count` is a count of rows, not of bytes. Answers, places and outputs
 * are those of barkruffle_link over the rows' bytes, on every input. */
uint32_t barkruffle_link_rows(
    const uint8_t *code, size_t code_len,
    const struct barkruffle_symbol *symbols, size_t symbols_count,
    const uint8_t *functions, size_t functions_len,
    const uint8_t *relocations, size_t relocations_len,
    const uint8_t *instructions, size_t instructions_len,
    const uint8_t *func_info, size_t func_info_len,
    const uint8_t *line_info, size_t line_info_len,
    uint32_t root,
    uint8_t *image, size_t image_len,
    uint8_t *image_func_info, size_t image_func_info_len,
    uint8_t *image_line_info, size_t image_line_info_len,
    uint8_t *places, size_t places_len);

/* No row. A row of rows that can be lent never has this number. */
#define BARKRUFFLE_NONE UINT64_MAX

/* The row of table 2, lent as rows, that has the index, counted from 0; the first one if several have it, and
 * BARKRUFFLE_NONE if none has. The rows are not checked: they may be broken, in any order and of any number. */
uint64_t barkruffle_find_symbol(
    const struct barkruffle_symbol *symbols, size_t symbols_count,
    uint32_t index);

/* Read `count` records of `size` bytes each from `bytes` into rows of table 7 (struct bpf_func_info) or of table 8
 * (struct bpf_line_info): the byte offset that a record starts with becomes a slot, and what a record has past a
 * row is ignored. `bytes_len` is to be count * size, or the answer is 14.
 *
 * Answers: 0, 11, 14. 14 if the size is below 8 (function) or 16 (line), the length is not count * size, or a byte
 * offset is not a multiple of 8; else 11 if `out_len` is below count * 8 (function) or count * 16 (line).
 * On 0 the first place is the count, and `out` holds the rows and zero after them. On 11 and 14 `out` is all zero. */
uint32_t barkruffle_func_info(
    uint32_t size, uint32_t count,
    const uint8_t *bytes, size_t bytes_len,
    uint8_t *out, size_t out_len,
    uint8_t *places, size_t places_len);

uint32_t barkruffle_line_info(
    uint32_t size, uint32_t count,
    const uint8_t *bytes, size_t bytes_len,
    uint8_t *out, size_t out_len,
    uint8_t *places, size_t places_len);

/* A part of the caller's bytes. */
struct barkruffle_part {
    uint64_t at;
    uint64_t len;
};

/* Record k, its tail included, as the part of `bytes` where it stands: (size * k, size). It is (0, 0) where the
 * data is refused as above or k is not below the count; no record that stands has length 0. */
struct barkruffle_part barkruffle_func_info_record(
    uint32_t size, uint32_t count,
    const uint8_t *bytes, size_t bytes_len,
    uint32_t k);

struct barkruffle_part barkruffle_line_info_record(
    uint32_t size, uint32_t count,
    const uint8_t *bytes, size_t bytes_len,
    uint32_t k);

/* The number of what the two functions above give. Answers: 0, and the first place is the count; 14. */
uint32_t barkruffle_func_info_record_number(
    uint32_t size, uint32_t count,
    const uint8_t *bytes, size_t bytes_len,
    uint32_t k,
    uint8_t *places, size_t places_len);

uint32_t barkruffle_line_info_record_number(
    uint32_t size, uint32_t count,
    const uint8_t *bytes, size_t bytes_len,
    uint32_t k,
    uint8_t *places, size_t places_len);

#ifdef __cplusplus
}
#endif

#endif
