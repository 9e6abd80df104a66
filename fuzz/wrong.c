/* Shows that the harness bites: each entry stands behind a wrapper (the linker's --wrap) that makes one error at a time,
 * and the harness has to notice it, for the right reason. With no error it has to notice nothing. */
#define _GNU_SOURCE
#include <stdio.h>
#include <stdlib.h>
#include <string.h>
#include <sys/resource.h>
#include <sys/wait.h>
#include <unistd.h>
#include "fuzz.h"

enum wrong {
    NOTHING, READS_PAST, READS_BEFORE, WRITES_PAST, WRITES_BEFORE, STORES_IN_CONST, WRITES_PAST_PLACES, LEAVES_A_BYTE,
    ONE_SLOT_MORE, A_ROW_AFTER, GOES_BY_BEFORE, KEEPS_STATE, EXACT_REFUSED, SHORT_ACCEPTED, TWO_FOR_ONE, THIRTEEN_FIRST,
    OTHER_TABLE, FIFTEEN, ONE_OFF, LARGER_OTHER, LARGER_REFUSED, ODD_OTHER, NEIGHBOUR_OTHER, WRITES_FAR,
    MAPS_REFUSED_CHANGES, MAPS_ONE_MORE, MAPS_OPCODE,
    MAPS_UNSAID, MAPS_DESCRIPTOR, MAPS_PART_OF_PLACE, FUNC_READS_PAST, FUNC_NOT_DIVIDED, FUNC_LEAVES_A_BYTE, LINE_ROW_AFTER,
    LINE_ELEVEN_FIRST, FUNC_PART_LONGER, LINE_PART_ON_REFUSAL, FUNC_NEXT_PART, FUNC_NUMBER_AT_COUNT, LINE_NUMBER_READS_BEFORE,
    ROWS_NINE_FOR_EIGHT, ROWS_FOURTEEN, ROWS_ONE_SLOT_MORE, ROWS_ONE_OFF, ROWS_LEAVE_A_BYTE, ROWS_LAST_UNSEEN, ROWS_LIMIT_UNSEEN,
    ROWS_READ_PAST, ROWS_STORED, ROWS_NEIGHBOUR_OTHER, FIND_INDEX, FIND_NONE_IS_COUNT, FIND_NONE_IN_32_BITS, FIND_LAST,
    FIND_LAST_UNSEEN, FIND_READS_PAST, FIND_STORES, FIND_PAGE_OTHER,
    LIST_READS_PAST, LIST_WRITES_PAST, LIST_STORES, LIST_SWAPPED, LIST_OTHER_ROW, LIST_WITHOUT_LAST, LIST_ROW_AFTER,
    LIST_LEAVES_A_BYTE, LIST_SHORT_LEAVES_A_BYTE, LIST_SHORT_ACCEPTED, LIST_EXACT_REFUSED, LIST_ONE_FIRST, LIST_OTHER_IMAGE,
    LIST_COUNT_FOR_SLOTS, LIST_GOES_BY_BEFORE,
    EXAMINE_NO, EXAMINE_OWN_ORDER, EXAMINE_CALLED_ONLY, EXAMINE_ONCE_ONLY, EXAMINE_READS_PAST, EXAMINE_READS_LIST_PAST,
    EXAMINE_STORES, EXAMINE_WRITES_PAST_PLACES, EXAMINE_KEEPS_STATE, EXAMINE_PAGE_OTHER, EXAMINE_ONE_PIECE_MORE,
    EXAMINE_ELEVEN, EXAMINE_CHANGED_FOR_REFERENCE, EXAMINE_SLOT_OF_IMAGE, EXAMINE_NO_FUNCTION, EXAMINE_SIZES_FIRST,
    EXAMINE_LIST_FIRST, EXAMINE_YES_TO_3, EXAMINE_YES_TO_6, EXAMINE_YES_TO_8, EXAMINE_YES_TO_9, EXAMINE_YES_TO_10,
    EXAMINE_YES_TO_12, EXAMINE_YES_TO_33, EXAMINE_YES_TO_34, EXAMINE_YES_TO_35, EXAMINE_YES_TO_36, EXAMINE_YES_TO_37,
    EXAMINE_YES_TO_38, EXAMINE_YES_TO_39, EXAMINE_YES_TO_40, EXAMINE_YES_TO_41, EXAMINE_YES_TO_42, EXAMINE_YES_TO_43,
    EXAMINE_YES_TO_44,
    LENGTH_IN_32_BITS, PART_IN_32_BITS, ROWS_COUNT_IN_32_BITS, ROWS_BYTES_IN_32_BITS, FIND_COUNT_IN_32_BITS,
    LIST_ROOM_IN_32_BITS, EXAMINE_TABLE_IN_32_BITS, EXAMINE_IMAGE_IN_32_BITS, EXAMINE_LIST_IN_32_BITS, WRONGS
};

#define YES_TO(n)                                                                                                          \
    [EXAMINE_YES_TO_##n] = {"an examination says yes where it should say " #n,                                             \
                            "barkruffle_examine: another number than the model's"}

/* The error, and what the harness has to say. */
static const struct {
    const char *error, *told;
} wrongs[WRONGS] = {
    [READS_PAST] = {"link reads a byte past the relocations", "barkruffle_link: trapped: an access past buffer 3"},
    [READS_BEFORE] = {"link reads a byte before the symbols", "barkruffle_link: trapped: an access before buffer 1"},
    [WRITES_PAST] = {"link writes a byte past the image", "barkruffle_link: guard bytes written after buffer 7"},
    [WRITES_BEFORE] = {"link writes a byte before the line records", "barkruffle_link: guard bytes written before buffer 9"},
    [STORES_IN_CONST] = {"link stores into table 1 what stands there",
                         "barkruffle_link: trapped: a write to the read-only buffer 0"},
    [WRITES_PAST_PLACES] = {"link writes a byte past the places", "barkruffle_link: trapped: an access past buffer 10"},
    [LEAVES_A_BYTE] = {"a refused link leaves the last line record's last byte", "a refused link leaves a byte"},
    [ONE_SLOT_MORE] = {"link tells one slot too many", "barkruffle_link: an image"},
    [A_ROW_AFTER] = {"link writes a slot after the image", "not zero after the image"},
    [GOES_BY_BEFORE] = {"link goes by what the image held before", "barkruffle_link: called twice, other bytes"},
    [KEEPS_STATE] = {"link tells other places at every other call", "barkruffle_link: called twice, other places"},
    [EXACT_REFUSED] = {"link wants a byte more than it needs", "an image is refused outputs that it fills exactly"},
    [SHORT_ACCEPTED] = {"link accepts a function record output that is a byte short",
                        "an image is accepted in an output that is too short"},
    [TWO_FOR_ONE] = {"link looks for broken rows before it counts rows",
                     "1 is not told exactly where a table has too many rows"},
    [THIRTEEN_FIRST] = {"link looks at the root first", "barkruffle_link: another number than the model's"},
    [OTHER_TABLE] = {"link tells a later table with too many rows", "1 does not name the first table with too many rows"},
    [FIFTEEN] = {"link answers 15", "barkruffle_link: a number that the header does not give it"},
    [ONE_OFF] = {"link sets the last slot's immediate one off", "barkruffle_link: other bytes than the model's"},
    [LARGER_OTHER] = {"link makes another image where there is more room", "larger outputs get another image"},
    [LARGER_REFUSED] = {"link answers 11 where there is more room", "larger outputs give another number"},
    [ODD_OTHER] = {"link makes another image at an odd address", "outputs filled exactly get another image"},
    [NEIGHBOUR_OTHER] = {"link copies wrongly where the image follows the tables", "outputs filled exactly get another image"},
    [WRITES_FAR] = {"link writes 4000 bytes past the function records", "barkruffle_link: guard bytes written after buffer 8"},
    [MAPS_REFUSED_CHANGES] = {"a refused map step changes the last slot", "a refused map step changes a byte"},
    [MAPS_ONE_MORE] = {"the map step tells one relocation too many",
                       "barkruffle_relocate_maps: other places than the model's"},
    [MAPS_OPCODE] = {"the map step changes an opcode", "a map step changes more than it may"},
    [MAPS_UNSAID] = {"the map step changes a slot and tells none", "a map step changes more slots than it says"},
    [MAPS_DESCRIPTOR] = {"the map step stores another descriptor", "barkruffle_relocate_maps: other bytes than the model's"},
    [MAPS_PART_OF_PLACE] = {"the map step writes a part of a place", "not zero after the places that fit whole"},
    [FUNC_READS_PAST] = {"the function reader reads a byte past its data",
                         "barkruffle_func_info: trapped: an access past buffer 0"},
    [FUNC_NOT_DIVIDED] = {"the function reader keeps byte offsets", "barkruffle_func_info: other bytes than the model's"},
    [FUNC_LEAVES_A_BYTE] = {"a refused function reader leaves a byte", "barkruffle_func_info: a refused reader leaves a byte"},
    [LINE_ROW_AFTER] = {"the line reader writes a byte after its rows", "barkruffle_line_info: not zero after the rows"},
    [LINE_ELEVEN_FIRST] = {"the line reader tells 11 before 14", "barkruffle_line_info: another number than the model's"},
    [FUNC_PART_LONGER] = {"a function record's part is a byte longer", "barkruffle_func_info_record: a"},
    [LINE_PART_ON_REFUSAL] = {"a refused line record gives a part", "barkruffle_line_info_record: a part that is not"},
    [FUNC_NEXT_PART] = {"the part of function record 0 is that of record 1",
                        "barkruffle_func_info_record: another part than the model's"},
    [FUNC_NUMBER_AT_COUNT] = {"the record at the count is told as done",
                              "barkruffle_func_info_record_number: the number of a record is not its part's"},
    [LINE_NUMBER_READS_BEFORE] = {"a record's number reads before the data",
                                  "barkruffle_line_info_record_number: trapped: an access before buffer 0"},
    [ROWS_NINE_FOR_EIGHT] = {"link with rows tells 9 for 8", "barkruffle_link_rows: another number than barkruffle_link's"},
    [ROWS_FOURTEEN] = {"link with rows tells 14 for 1", "barkruffle_link_rows: a number that the header does not give it"},
    [ROWS_ONE_SLOT_MORE] = {"link with rows tells one slot too many", "barkruffle_link_rows: other places than barkruffle_link's"},
    [ROWS_ONE_OFF] = {"link with rows sets the last slot's immediate one off",
                      "barkruffle_link_rows: other bytes than barkruffle_link's"},
    [ROWS_LEAVE_A_BYTE] = {"a refused link with rows leaves the last function record's last byte",
                           "barkruffle_link_rows: a refused link leaves a byte"},
    [ROWS_LAST_UNSEEN] = {"the last row is not linked", "barkruffle_link_rows: another number than barkruffle_link's"},
    [ROWS_LIMIT_UNSEEN] = {"no more rows are looked at than table 2 may have",
                           "barkruffle_link_rows: 1 is not told exactly where a table has too many rows"},
    [ROWS_READ_PAST] = {"link with rows reads a row past them", "barkruffle_link_rows: trapped: an access past buffer 1"},
    [ROWS_STORED] = {"link with rows stores into a row what stands there",
                     "barkruffle_link_rows: trapped: a write to the read-only buffer 1"},
    [ROWS_NEIGHBOUR_OTHER] = {"link with rows copies wrongly where the image follows the tables",
                              "barkruffle_link_rows: called elsewhere, other bytes"},
    [FIND_INDEX] = {"the index is told for its row", "barkruffle_find_symbol: a"},
    [FIND_NONE_IS_COUNT] = {"no row is told as the rows' count", "barkruffle_find_symbol: a row that is not there"},
    [FIND_NONE_IN_32_BITS] = {"no row is told as 32 ones", "barkruffle_find_symbol: a row that is not there"},
    [FIND_LAST] = {"the last row with the index is told", "barkruffle_find_symbol: another row than the model's"},
    [FIND_LAST_UNSEEN] = {"the last row is not searched", "barkruffle_find_symbol: another row than the model's"},
    [FIND_READS_PAST] = {"the search reads a row past them", "barkruffle_find_symbol: trapped: an access past buffer 0"},
    [FIND_STORES] = {"the search stores into a row what stands there",
                     "barkruffle_find_symbol: trapped: a write to the read-only buffer 0"},
    [FIND_PAGE_OTHER] = {"the search goes by where the rows lie", "barkruffle_find_symbol: called twice, another row"},
    [LIST_READS_PAST] = {"link with its list reads a byte past the functions",
                         "barkruffle_link_pieces: trapped: an access past buffer 2"},
    [LIST_WRITES_PAST] = {"link with its list writes a byte past it", "barkruffle_link_pieces: guard bytes written after buffer 10"},
    [LIST_STORES] = {"link with its list stores into table 3 what stands there",
                     "barkruffle_link_pieces: trapped: a write to the read-only buffer 2"},
    [LIST_SWAPPED] = {"the list's last two pieces are swapped",
                      "barkruffle_link_pieces: a piece does not start where the one before ends"},
    [LIST_OTHER_ROW] = {"the list names a function of the same length", "barkruffle_link_pieces: another list than the model's"},
    [LIST_WITHOUT_LAST] = {"the list lacks the last piece", "barkruffle_link_pieces: the pieces do not end with the image"},
    [LIST_ROW_AFTER] = {"the list has a row after it", "barkruffle_link_pieces: not zero after the list"},
    [LIST_LEAVES_A_BYTE] = {"a refused link leaves the list's last byte", "barkruffle_link_pieces: a refused link leaves a byte"},
    [LIST_SHORT_LEAVES_A_BYTE] = {"a link whose list is too short leaves the image's first byte",
                                  "barkruffle_link_pieces: a refused link leaves a byte"},
    [LIST_SHORT_ACCEPTED] = {"link accepts a list that is a byte short",
                             "barkruffle_link_pieces: a list that is too short is not 32"},
    [LIST_EXACT_REFUSED] = {"link wants a byte more for its list than it needs",
                            "barkruffle_link_pieces: a list is refused the bytes that the header says are enough"},
    [LIST_ONE_FIRST] = {"link with a list that is too short tells 1 first", "barkruffle_link_pieces: "},
    [LIST_OTHER_IMAGE] = {"link with its list sets the last slot's immediate one off",
                          "barkruffle_link_pieces: other bytes than barkruffle_link's"},
    [LIST_COUNT_FOR_SLOTS] = {"link with its list tells one slot too few",
                              "barkruffle_link_pieces: other places than barkruffle_link's"},
    [LIST_GOES_BY_BEFORE] = {"the list goes by what the buffer held before", "barkruffle_link_pieces: called twice, other bytes"},
    [EXAMINE_NO] = {"an examination says no to all",
                    "barkruffle_examine: an image that was linked is not accepted with its list"},
    [EXAMINE_OWN_ORDER] = {"an examination links again and compares", "barkruffle_examine: an image of another order is not accepted"},
    [EXAMINE_CALLED_ONLY] = {"an examination says no where the last piece is called by nobody",
                             "barkruffle_examine: an image of another order is not accepted"},
    [EXAMINE_ONCE_ONLY] = {"an examination says no where the last function stands twice",
                           "barkruffle_examine: an image of another order is not accepted"},
    [EXAMINE_READS_PAST] = {"an examination reads a byte past the image", "barkruffle_examine: trapped: an access past buffer 7"},
    [EXAMINE_READS_LIST_PAST] = {"an examination reads a byte past the list",
                                 "barkruffle_examine: trapped: an access past buffer 10"},
    [EXAMINE_STORES] = {"an examination stores into the list what stands there",
                        "barkruffle_examine: trapped: a write to the read-only buffer 10"},
    [EXAMINE_WRITES_PAST_PLACES] = {"an examination writes a byte past the places",
                                    "barkruffle_examine: trapped: an access past buffer 11"},
    [EXAMINE_KEEPS_STATE] = {"an examination tells other places at every other call",
                             "barkruffle_examine: called twice, other places"},
    [EXAMINE_PAGE_OTHER] = {"an examination goes by where the image lies", "barkruffle_examine: called twice, two numbers"},
    [EXAMINE_ONE_PIECE_MORE] = {"a yes tells one piece too many", "barkruffle_examine: a yes does not tell the pieces"},
    [EXAMINE_ELEVEN] = {"an examination tells 11 for 38", "barkruffle_examine: a number that the header does not give it"},
    [EXAMINE_CHANGED_FOR_REFERENCE] = {"an examination tells 39 for 40", "barkruffle_examine: another number than the model's"},
    [EXAMINE_SLOT_OF_IMAGE] = {"39 tells the slot of the image for that of the piece",
                               "barkruffle_examine: other places than the model's"},
    [EXAMINE_NO_FUNCTION] = {"41 does not tell the function", "barkruffle_examine: other places than the model's"},
    [EXAMINE_SIZES_FIRST] = {"an examination looks at the image's size before the tables",
                             "barkruffle_examine: another number than the model's"},
    [EXAMINE_LIST_FIRST] = {"an examination looks at the first piece before the sizes",
                            "barkruffle_examine: another number than the model's"},
    YES_TO(3), YES_TO(6), YES_TO(8), YES_TO(9), YES_TO(10), YES_TO(12), YES_TO(33), YES_TO(34), YES_TO(35), YES_TO(36),
    YES_TO(37), YES_TO(38), YES_TO(39), YES_TO(40), YES_TO(41), YES_TO(42), YES_TO(43), YES_TO(44),
    [LENGTH_IN_32_BITS] = {"link takes the low 32 bits of a length", "barkruffle_link: a length past 32 bits is not 1"},
    [PART_IN_32_BITS] = {"a part starts at the low 32 bits of its place", "barkruffle_line_info_record: data past 32 bits"},
    [ROWS_COUNT_IN_32_BITS] = {"link with rows takes the low 32 bits of their count",
                               "barkruffle_link_rows: a count past 32 bits"},
    [ROWS_BYTES_IN_32_BITS] = {"link with rows takes the low 32 bits of their bytes",
                               "barkruffle_link_rows: rows of more bytes than 32 bits tell"},
    [FIND_COUNT_IN_32_BITS] = {"the search takes the low 32 bits of the rows' count",
                               "barkruffle_find_symbol: a count past 32 bits"},
    [LIST_ROOM_IN_32_BITS] = {"the room for the list is by the low 32 bits of table 3's length",
                              "barkruffle_link_pieces: a table 3 past 32 bits is not 32"},
    [EXAMINE_TABLE_IN_32_BITS] = {"an examination takes the low 32 bits of table 7's length",
                                  "barkruffle_examine: a length past 32 bits is not 1"},
    [EXAMINE_IMAGE_IN_32_BITS] = {"an examination takes the low 32 bits of the image's length",
                                  "barkruffle_examine: a length past 32 bits is not 33"},
    [EXAMINE_LIST_IN_32_BITS] = {"an examination takes the low 32 bits of the list's length",
                                 "barkruffle_examine: a length past 32 bits is not 33"},
};

static enum wrong wrong;
static volatile uint8_t sink;

static int starts_a_page(const uint8_t *p) { return (uintptr_t)p % 4096 == 0; }

static void add_to_place(uint8_t *places, size_t len, uint8_t more)
{
    if (len >= 4)
        places[0] = (uint8_t)(places[0] + more);
}

/* ---- the map step */

#define MAPS_PARAMETERS                                                                                                    \
    const uint8_t *code, size_t code_len, const uint8_t *symbols, size_t symbols_len, const uint8_t *functions,            \
        size_t functions_len, const uint8_t *relocations, size_t relocations_len, const uint8_t *maps, size_t maps_len,    \
        uint8_t *instructions, size_t instructions_len, uint8_t *places, size_t places_len

uint32_t __real_barkruffle_relocate_maps(MAPS_PARAMETERS);
uint32_t __wrap_barkruffle_relocate_maps(MAPS_PARAMETERS);

uint32_t __wrap_barkruffle_relocate_maps(MAPS_PARAMETERS)
{
    uint8_t before = instructions_len > 4 ? instructions[4] : 0;
    uint32_t n = __real_barkruffle_relocate_maps(code, code_len, symbols, symbols_len, functions, functions_len, relocations,
                                                 relocations_len, maps, maps_len, instructions, instructions_len, places,
                                                 places_len);
    int none = places_len >= 4 && places[0] == 0;
    if (wrong == MAPS_REFUSED_CHANGES && n && instructions_len)
        instructions[instructions_len - 1] ^= 1;
    if (wrong == MAPS_ONE_MORE && n == 0)
        add_to_place(places, places_len, 1);
    if (wrong == MAPS_OPCODE && n == 0 && instructions_len)
        instructions[0] ^= 1;
    if (wrong == MAPS_UNSAID && n == 0 && instructions_len && none)
        instructions[4] ^= 1;
    if (wrong == MAPS_DESCRIPTOR && n == 0 && instructions_len && instructions[4] != before)
        instructions[4] ^= 1;
    if (wrong == MAPS_PART_OF_PLACE && places_len % 4 && places_len < 12)
        places[places_len - 1] = 1;
    return n;
}

/* ---- the link */

#define LINK_PARAMETERS                                                                                                    \
    const uint8_t *code, size_t code_len, const uint8_t *symbols, size_t symbols_len, const uint8_t *functions,            \
        size_t functions_len, const uint8_t *relocations, size_t relocations_len, const uint8_t *instructions,             \
        size_t instructions_len, const uint8_t *func_info, size_t func_info_len, const uint8_t *line_info,                 \
        size_t line_info_len, uint32_t root, uint8_t *image, size_t image_len, uint8_t *image_func_info,                   \
        size_t image_func_info_len, uint8_t *image_line_info, size_t image_line_info_len, uint8_t *places, size_t places_len

uint32_t __real_barkruffle_link(LINK_PARAMETERS);
uint32_t __wrap_barkruffle_link(LINK_PARAMETERS);

/* What a link reads or writes where it may not. */
static void stray(const uint8_t *code, size_t code_len, const uint8_t *symbols, size_t symbols_len, const uint8_t *relocations,
                  size_t relocations_len, uint8_t *image, size_t image_len, uint8_t *lines, uint8_t *places, size_t places_len)
{
    if (wrong == READS_PAST && relocations_len)
        sink = relocations[relocations_len];
    if (wrong == READS_BEFORE && symbols_len)
        sink = symbols[-1];
    if (wrong == WRITES_PAST && image_len && starts_a_page(image))
        image[image_len] = 0;
    if (wrong == WRITES_BEFORE && !starts_a_page(lines))
        lines[-1] = 0;
    if (wrong == STORES_IN_CONST && code_len)
        *(volatile uint8_t *)(uintptr_t)code = code[0];
    if (wrong == WRITES_PAST_PLACES && places_len)
        places[places_len] = 0;
}

struct outputs {
    uint8_t *at[3];
    size_t len[3];
};

static uint32_t refused(const struct outputs *o, uint32_t number)
{
    for (int i = 0; i < 3; i++)
        if (o->len[i])
            memset(o->at[i], 0, o->len[i]);
    return number;
}

/* What a link tells. */
static uint32_t mistold(uint32_t n, const struct outputs *o, uint32_t root, size_t rows, uint8_t *places, size_t places_len)
{
    static unsigned calls;
    size_t used = places_len >= 4 ? 8 * (size_t)u32_at(places) : 0;
    if (wrong == ONE_SLOT_MORE && n == 0)
        add_to_place(places, places_len, 1);
    if (wrong == KEEPS_STATE && n == 0)
        add_to_place(places, places_len, ++calls % 2);
    if (wrong == OTHER_TABLE && n == 1)
        add_to_place(places, places_len, 1);
    if (wrong == EXACT_REFUSED && n == 0 && used == o->len[0])
        return refused(o, 11);
    if (wrong == LARGER_REFUSED && n == 0 && o->len[0] > BARKRUFFLE_IMAGE)
        return refused(o, 11);
    if (wrong == TWO_FOR_ONE && n == 1)
        return 2;
    if (wrong == THIRTEEN_FIRST && n == 2 && root >= rows) {
        if (places_len)
            memset(places, 0, places_len);
        return 13;
    }
    return wrong == FIFTEEN && n == 3 ? 15 : n;
}

/* What a link leaves in its outputs. */
static void misleft(uint32_t n, const struct outputs *o, uint8_t before, const uint8_t *places, size_t places_len)
{
    size_t used = n == 0 && places_len >= 4 ? 8 * (size_t)u32_at(places) : 0;
    if (wrong == LEAVES_A_BYTE && n && o->len[2])
        o->at[2][o->len[2] - 1] = 1;
    if (wrong == A_ROW_AFTER && used && used + 8 <= o->len[0])
        o->at[0][used] = 0x95;
    if (wrong == GOES_BY_BEFORE && n == 0 && before == 0xff)
        o->at[0][4] ^= 1;
    if (wrong == ONE_OFF && used)
        o->at[0][used - 4] ^= 1;
    if (wrong == ODD_OTHER && n == 0 && (uintptr_t)o->at[0] % 2 && (uintptr_t)o->at[0] % 4096 < 64)
        o->at[0][0] ^= 1;
    if (wrong == WRITES_FAR && o->len[1] && starts_a_page(o->at[1]))
        o->at[1][o->len[1] + 4000] = 0;
    if (wrong == LARGER_OTHER && n == 0 && o->len[0] > BARKRUFFLE_IMAGE)
        o->at[0][0] ^= 1;
}

uint32_t __wrap_barkruffle_link(LINK_PARAMETERS)
{
    static uint8_t room[MOST + 1];
    struct outputs o = {{image, image_func_info, image_line_info}, {image_len, image_func_info_len, image_line_info_len}};
    uint8_t before = image_len ? image[0] : 0;
    if (wrong == LENGTH_IN_32_BITS)
        relocations_len = (uint32_t)relocations_len;
    int shorter = wrong == SHORT_ACCEPTED && image_func_info_len % 8 == 7;
    uint32_t n = __real_barkruffle_link(code, code_len, symbols, symbols_len, functions, functions_len, relocations,
                                        relocations_len, instructions, instructions_len, func_info, func_info_len, line_info,
                                        line_info_len, root, image, image_len, shorter ? room : image_func_info,
                                        image_func_info_len + (size_t)shorter,
                                        image_line_info, image_line_info_len, places, places_len);
    if (shorter)
        memcpy(image_func_info, room, image_func_info_len);
    if (wrong == NEIGHBOUR_OTHER && n == 0 && image == line_info + line_info_len)
        image[0] ^= 1;
    stray(code, code_len, symbols, symbols_len, relocations, relocations_len, image, image_len, image_line_info, places, places_len);
    misleft(n, &o, before, places, places_len);
    return mistold(n, &o, root, functions_len / 32, places, places_len);
}

/* ---- the link with rows */

#define ROWS_PARAMETERS                                                                                                    \
    const uint8_t *code, size_t code_len, const struct barkruffle_symbol *symbols, size_t symbols_count,                   \
        const uint8_t *functions, size_t functions_len, const uint8_t *relocations, size_t relocations_len,                \
        const uint8_t *instructions, size_t instructions_len, const uint8_t *func_info, size_t func_info_len,              \
        const uint8_t *line_info, size_t line_info_len, uint32_t root, uint8_t *image, size_t image_len,                   \
        uint8_t *image_func_info, size_t image_func_info_len, uint8_t *image_line_info, size_t image_line_info_len,        \
        uint8_t *places, size_t places_len

uint32_t __real_barkruffle_link_rows(ROWS_PARAMETERS);
uint32_t __wrap_barkruffle_link_rows(ROWS_PARAMETERS);

/* How many rows it looks at. */
static size_t rows_seen(size_t count)
{
    if (wrong == ROWS_COUNT_IN_32_BITS)
        return (uint32_t)count;
    if (wrong == ROWS_BYTES_IN_32_BITS)
        return (uint32_t)(24 * count) / 24;
    if (wrong == ROWS_LIMIT_UNSEEN && count > 1024)
        return 1024;
    return count - (wrong == ROWS_LAST_UNSEEN && count && count <= 1024);
}

/* What it reads or writes where it may not. */
static void stray_rows(const struct barkruffle_symbol *symbols, size_t count)
{
    if (wrong == ROWS_READ_PAST && count)
        sink = ((const volatile struct barkruffle_symbol *)symbols)[count].kind;
    if (wrong == ROWS_STORED && count)
        *(volatile uint32_t *)(uintptr_t)&symbols->index = symbols->index;
}

static void misleft_rows(uint32_t n, const struct outputs *o, uint8_t *places, size_t places_len)
{
    size_t used = n == 0 && places_len >= 4 ? 8 * (size_t)u32_at(places) : 0;
    if (wrong == ROWS_ONE_SLOT_MORE && n == 0)
        add_to_place(places, places_len, 1);
    if (wrong == ROWS_ONE_OFF && used)
        o->at[0][used - 4] ^= 1;
    if (wrong == ROWS_LEAVE_A_BYTE && n && o->len[1])
        o->at[1][o->len[1] - 1] = 1;
}

uint32_t __wrap_barkruffle_link_rows(ROWS_PARAMETERS)
{
    struct outputs o = {{image, image_func_info, image_line_info}, {image_len, image_func_info_len, image_line_info_len}};
    uint32_t n = __real_barkruffle_link_rows(code, code_len, symbols, rows_seen(symbols_count), functions, functions_len,
                                             relocations, relocations_len, instructions, instructions_len, func_info,
                                             func_info_len, line_info, line_info_len, root, image, image_len, image_func_info,
                                             image_func_info_len, image_line_info, image_line_info_len, places, places_len);
    if (wrong == ROWS_NEIGHBOUR_OTHER && n == 0 && image == line_info + line_info_len)
        image[0] ^= 1;
    stray_rows(symbols, symbols_count);
    misleft_rows(n, &o, places, places_len);
    if (wrong == ROWS_FOURTEEN && n == 1)
        return 14;
    return wrong == ROWS_NINE_FOR_EIGHT && n == 8 ? 9 : n;
}

/* ---- the link with its list */

#define LIST_PARAMETERS                                                                                                    \
    const uint8_t *code, size_t code_len, const uint8_t *symbols, size_t symbols_len, const uint8_t *functions,            \
        size_t functions_len, const uint8_t *relocations, size_t relocations_len, const uint8_t *instructions,             \
        size_t instructions_len, const uint8_t *func_info, size_t func_info_len, const uint8_t *line_info,                 \
        size_t line_info_len, uint32_t root, uint8_t *image, size_t image_len, uint8_t *image_func_info,                   \
        size_t image_func_info_len, uint8_t *image_line_info, size_t image_line_info_len, uint8_t *pieces,                 \
        size_t pieces_len, uint8_t *places, size_t places_len

uint32_t __real_barkruffle_link_pieces(LIST_PARAMETERS);
uint32_t __wrap_barkruffle_link_pieces(LIST_PARAMETERS);

/* Bytes of the list that a link has left, by the image's slots. */
static size_t listed(const uint8_t *functions, const uint8_t *pieces, size_t slots)
{
    size_t n = 0;
    for (size_t at = 0; at < slots; n += 8)
        at += u32_at(functions + 32 * u32_at(pieces + n) + 4);
    return n;
}

/* The last piece that another function of the same length can stand for. */
static void name_other(const uint8_t *functions, size_t functions_len, uint8_t *pieces, size_t n)
{
    for (size_t row = 0; n > 8 && row < functions_len / 32; row++)
        if (row != u32_at(pieces + n - 8) &&
            u32_at(functions + 32 * row + 4) == u32_at(functions + 32 * u32_at(pieces + n - 8) + 4)) {
            pieces[n - 8] = (uint8_t)row;
            return;
        }
}

static void mislist(const uint8_t *functions, size_t functions_len, uint8_t *pieces, size_t pieces_len, size_t n, uint8_t before)
{
    uint8_t kept[8];
    if (wrong == LIST_SWAPPED && n >= 24) {
        memcpy(kept, pieces + n - 16, 8);
        memcpy(pieces + n - 16, pieces + n - 8, 8);
        memcpy(pieces + n - 8, kept, 8);
    }
    if (wrong == LIST_OTHER_ROW)
        name_other(functions, functions_len, pieces, n);
    if (wrong == LIST_WITHOUT_LAST && n > 8)
        memset(pieces + n - 8, 0, 8);
    if (wrong == LIST_ROW_AFTER && n + 8 <= pieces_len)
        pieces[n] = 1;
    if (wrong == LIST_GOES_BY_BEFORE && before == 0xff)
        pieces[0] ^= 1;
}

/* A list a byte short, linked into one that is not. */
static uint8_t *longer_list(uint8_t *pieces, size_t *pieces_len)
{
    static uint8_t room[MOST + 8];
    if (wrong != LIST_SHORT_ACCEPTED || *pieces_len % 8 != 7)
        return pieces;
    ++*pieces_len;
    return room;
}

uint32_t __wrap_barkruffle_link_pieces(LIST_PARAMETERS)
{
    uint8_t before = pieces_len ? pieces[0] : 0, *own = pieces;
    size_t own_len = pieces_len, seen_len = wrong == LIST_ROOM_IN_32_BITS ? (uint32_t)functions_len : functions_len;
    struct outputs o = {{image, image_func_info, image_line_info}, {image_len, image_func_info_len, image_line_info_len}};
    pieces = longer_list(pieces, &pieces_len);
    uint32_t n = __real_barkruffle_link_pieces(code, code_len, symbols, symbols_len, functions, seen_len, relocations,
                                               relocations_len, instructions, instructions_len, func_info, func_info_len,
                                               line_info, line_info_len, root, image, image_len, image_func_info,
                                               image_func_info_len, image_line_info, image_line_info_len, pieces, pieces_len,
                                               places, places_len);
    size_t slots = n == 0 && places_len >= 4 ? u32_at(places) : 0;
    if (own != pieces)
        memcpy(own, pieces, own_len);
    if (wrong == LIST_READS_PAST && functions_len)
        sink = functions[functions_len];
    if (wrong == LIST_STORES && functions_len)
        *(volatile uint8_t *)(uintptr_t)functions = functions[0];
    if (wrong == LIST_WRITES_PAST && own_len && starts_a_page(own))
        own[own_len] = 0;
    if (slots)
        mislist(functions, functions_len, own, own_len, listed(functions, own, slots), before);
    if (wrong == LIST_LEAVES_A_BYTE && n && own_len)
        own[own_len - 1] = 1;
    if (wrong == LIST_SHORT_LEAVES_A_BYTE && n == 32 && image_len)
        image[0] = 1;
    if (wrong == LIST_OTHER_IMAGE && slots)
        image[8 * slots - 4] ^= 1;
    if (wrong == LIST_COUNT_FOR_SLOTS && n == 0)
        add_to_place(places, places_len, (uint8_t)-1);
    if (wrong == LIST_EXACT_REFUSED && n == 0 && own_len == BARKRUFFLE_PIECES(functions_len)) {
        memset(own, 0, own_len);
        return refused(&o, 32);
    }
    return wrong == LIST_ONE_FIRST && n == 32 && code_len > 64 * 4 ? 1 : n;
}

/* ---- the examination */

#define EXAMINE_PARAMETERS                                                                                                 \
    const uint8_t *code, size_t code_len, const uint8_t *symbols, size_t symbols_len, const uint8_t *functions,            \
        size_t functions_len, const uint8_t *relocations, size_t relocations_len, const uint8_t *instructions,             \
        size_t instructions_len, const uint8_t *func_info, size_t func_info_len, const uint8_t *line_info,                 \
        size_t line_info_len, uint32_t root, const uint8_t *image, size_t image_len, const uint8_t *image_func_info,       \
        size_t image_func_info_len, const uint8_t *image_line_info, size_t image_line_info_len, const uint8_t *pieces,     \
        size_t pieces_len, uint8_t *places, size_t places_len

uint32_t __real_barkruffle_examine(EXAMINE_PARAMETERS);
uint32_t __wrap_barkruffle_examine(EXAMINE_PARAMETERS);

static uint32_t told_as(uint32_t number, size_t a, size_t b, uint8_t *places, size_t places_len)
{
    const size_t v[2] = {a, b};
    if (places_len)
        memset(places, 0, places_len);
    for (size_t i = 0; i < 8 && 4 * (i / 4) + 4 <= places_len; i++)
        places[i] = (uint8_t)(v[i / 4] >> (8 * (i % 4)));
    return number;
}

/* The numbers that are taken for a yes, by the error. */
static const uint32_t yes_to[WRONGS] = {
    [EXAMINE_YES_TO_3] = 3,   [EXAMINE_YES_TO_6] = 6,   [EXAMINE_YES_TO_8] = 8,   [EXAMINE_YES_TO_9] = 9,
    [EXAMINE_YES_TO_10] = 10, [EXAMINE_YES_TO_12] = 12, [EXAMINE_YES_TO_33] = 33, [EXAMINE_YES_TO_34] = 34,
    [EXAMINE_YES_TO_35] = 35, [EXAMINE_YES_TO_36] = 36, [EXAMINE_YES_TO_37] = 37, [EXAMINE_YES_TO_38] = 38,
    [EXAMINE_YES_TO_39] = 39, [EXAMINE_YES_TO_40] = 40, [EXAMINE_YES_TO_41] = 41, [EXAMINE_YES_TO_42] = 42,
    [EXAMINE_YES_TO_43] = 43, [EXAMINE_YES_TO_44] = 44,
};

/* Whether the last piece's function stands in the list before. */
static int stands_twice(const uint8_t *pieces, size_t n)
{
    for (size_t k = 0; k + 16 <= n; k += 8)
        if (u32_at(pieces + k) == u32_at(pieces + n - 8))
            return 1;
    return 0;
}

/* Whether some slot of the image goes to the last piece. */
static int is_called(const uint8_t *image, size_t image_len, const uint8_t *pieces, size_t n)
{
    for (size_t at = 0; at < image_len / 8; at++)
        if ((image[8 * at] == 0x85 || image[8 * at] == 0x18) &&
            (uint32_t)at + 1 + u32_at(image + 8 * at + 4) == u32_at(pieces + n - 4))
            return 1;
    return n == 8;
}

/* What an examination reads or writes where it may not. */
static void stray_examination(const uint8_t *image, size_t image_len, const uint8_t *pieces, size_t pieces_len, uint8_t *places,
                              size_t places_len)
{
    if (wrong == EXAMINE_READS_PAST && image_len)
        sink = image[image_len];
    if (wrong == EXAMINE_READS_LIST_PAST && pieces_len)
        sink = pieces[pieces_len];
    if (wrong == EXAMINE_STORES && pieces_len)
        *(volatile uint8_t *)(uintptr_t)pieces = pieces[0];
    if (wrong == EXAMINE_WRITES_PAST_PLACES && places_len)
        places[places_len] = 0;
}

/* What it tells in its places. */
static void misplaced(uint32_t n, uint8_t *places, size_t places_len)
{
    static unsigned calls;
    if (wrong == EXAMINE_KEEPS_STATE && n == 0)
        add_to_place(places, places_len, ++calls % 2);
    if (wrong == EXAMINE_ONE_PIECE_MORE && n == 0)
        add_to_place(places, places_len, 1);
    if (wrong == EXAMINE_SLOT_OF_IMAGE && n == 39 && places_len >= 12)
        memcpy(places + 4, places + 8, 4);
    if (wrong == EXAMINE_NO_FUNCTION && n == 41 && places_len >= 12)
        memset(places + 8, 0, 4);
}

uint32_t __wrap_barkruffle_examine(EXAMINE_PARAMETERS)
{
    static uint8_t linked[4][MOST];
    if (wrong == EXAMINE_TABLE_IN_32_BITS)
        func_info_len = (uint32_t)func_info_len;
    if (wrong == EXAMINE_IMAGE_IN_32_BITS)
        image_len = (uint32_t)image_len;
    if (wrong == EXAMINE_LIST_IN_32_BITS)
        pieces_len = (uint32_t)pieces_len;
    uint32_t n = __real_barkruffle_examine(code, code_len, symbols, symbols_len, functions, functions_len, relocations,
                                           relocations_len, instructions, instructions_len, func_info, func_info_len,
                                           line_info, line_info_len, root, image, image_len, image_func_info,
                                           image_func_info_len, image_line_info, image_line_info_len, pieces, pieces_len,
                                           places, places_len);
    stray_examination(image, image_len, pieces, pieces_len, places, places_len);
    misplaced(n, places, places_len);
    if (n && yes_to[wrong] == n)
        return told_as(0, pieces_len / 8, 0, places, places_len);
    if (wrong == EXAMINE_OWN_ORDER && n == 0) {
        __real_barkruffle_link_pieces(code, code_len, symbols, symbols_len, functions, functions_len, relocations,
                                      relocations_len, instructions, instructions_len, func_info, func_info_len, line_info,
                                      line_info_len, root, linked[0], MOST, linked[1], MOST, linked[2], MOST, linked[3], MOST,
                                      NULL, 0);
        if (memcmp(linked[0], image, image_len) || memcmp(linked[3], pieces, pieces_len))
            return told_as(37, 0, 0, places, places_len);
    }
    if ((wrong == EXAMINE_CALLED_ONLY && n == 0 && !is_called(image, image_len, pieces, pieces_len)) ||
        (wrong == EXAMINE_ONCE_ONLY && n == 0 && pieces_len > 24 && stands_twice(pieces + 8, pieces_len - 8)) ||
        (wrong == EXAMINE_NO && n == 0) || (wrong == EXAMINE_PAGE_OTHER && n == 0 && starts_a_page(image)))
        return told_as(37, 0, 0, places, places_len);
    if (wrong == EXAMINE_SIZES_FIRST && n == 2 && image_len % 8)
        return told_as(34, 6, image_len / 8, places, places_len);
    if (wrong == EXAMINE_LIST_FIRST && (n == 33 || n == 34) && pieces_len >= 8 && u32_at(pieces) != root)
        return told_as(35, 0, 0, places, places_len);
    return wrong == EXAMINE_ELEVEN && n == 38 ? 11 : wrong == EXAMINE_CHANGED_FOR_REFERENCE && n == 40 ? 39 : n;
}

/* ---- a symbol by index */

uint64_t __real_barkruffle_find_symbol(const struct barkruffle_symbol *symbols, size_t count, uint32_t index);
uint64_t __wrap_barkruffle_find_symbol(const struct barkruffle_symbol *symbols, size_t count, uint32_t index);

static size_t rows_searched(size_t count)
{
    if (wrong == FIND_COUNT_IN_32_BITS)
        return (uint32_t)count;
    return count - (wrong == FIND_LAST_UNSEEN && count);
}

uint64_t __wrap_barkruffle_find_symbol(const struct barkruffle_symbol *symbols, size_t count, uint32_t index)
{
    uint64_t row = __real_barkruffle_find_symbol(symbols, rows_searched(count), index);
    if (wrong == FIND_READS_PAST && count)
        sink = ((const volatile struct barkruffle_symbol *)symbols)[count].kind;
    if (wrong == FIND_STORES && count)
        *(volatile uint32_t *)(uintptr_t)&symbols->index = symbols->index;
    if (row == BARKRUFFLE_NONE)
        return wrong == FIND_NONE_IS_COUNT ? count : wrong == FIND_NONE_IN_32_BITS ? UINT32_MAX : row;
    if (wrong == FIND_INDEX)
        return index;
    for (size_t k = count; wrong == FIND_LAST && k > row; k--)
        if (symbols[k - 1].index == index)
            return k - 1;
    return row + (wrong == FIND_PAGE_OTHER && starts_a_page((const uint8_t *)symbols));
}

/* ---- the readers */

#define READ_PARAMETERS uint32_t size, uint32_t count, const uint8_t *bytes, size_t bytes_len
#define READ_ARGUMENTS size, count, bytes, bytes_len
#define OUT_PARAMETERS uint8_t *out, size_t out_len, uint8_t *places, size_t places_len

uint32_t __real_barkruffle_func_info(READ_PARAMETERS, OUT_PARAMETERS);
uint32_t __wrap_barkruffle_func_info(READ_PARAMETERS, OUT_PARAMETERS);
uint32_t __real_barkruffle_line_info(READ_PARAMETERS, OUT_PARAMETERS);
uint32_t __wrap_barkruffle_line_info(READ_PARAMETERS, OUT_PARAMETERS);
struct barkruffle_part __real_barkruffle_func_info_record(READ_PARAMETERS, uint32_t k);
struct barkruffle_part __wrap_barkruffle_func_info_record(READ_PARAMETERS, uint32_t k);
struct barkruffle_part __real_barkruffle_line_info_record(READ_PARAMETERS, uint32_t k);
struct barkruffle_part __wrap_barkruffle_line_info_record(READ_PARAMETERS, uint32_t k);
uint32_t __real_barkruffle_func_info_record_number(READ_PARAMETERS, uint32_t k, uint8_t *places, size_t places_len);
uint32_t __wrap_barkruffle_func_info_record_number(READ_PARAMETERS, uint32_t k, uint8_t *places, size_t places_len);
uint32_t __real_barkruffle_line_info_record_number(READ_PARAMETERS, uint32_t k, uint8_t *places, size_t places_len);
uint32_t __wrap_barkruffle_line_info_record_number(READ_PARAMETERS, uint32_t k, uint8_t *places, size_t places_len);

uint32_t __wrap_barkruffle_func_info(READ_PARAMETERS, OUT_PARAMETERS)
{
    uint32_t n = __real_barkruffle_func_info(READ_ARGUMENTS, out, out_len, places, places_len);
    if (wrong == FUNC_READS_PAST && bytes_len)
        sink = bytes[bytes_len];
    if (wrong == FUNC_NOT_DIVIDED && n == 0 && count)
        memcpy(out, bytes, 4);
    if (wrong == FUNC_LEAVES_A_BYTE && n && out_len)
        out[0] = 1;
    return n;
}

uint32_t __wrap_barkruffle_line_info(READ_PARAMETERS, OUT_PARAMETERS)
{
    uint32_t n = __real_barkruffle_line_info(READ_ARGUMENTS, out, out_len, places, places_len);
    if (wrong == LINE_ROW_AFTER && n == 0 && out_len > 16 * (size_t)count)
        out[16 * (size_t)count] = 1;
    if (wrong == LINE_ELEVEN_FIRST && n == 14 && out_len < 16 * (size_t)count)
        return 11;
    return n;
}

struct barkruffle_part __wrap_barkruffle_func_info_record(READ_PARAMETERS, uint32_t k)
{
    struct barkruffle_part p = __real_barkruffle_func_info_record(READ_ARGUMENTS, k);
    if (wrong == FUNC_PART_LONGER && p.len)
        p.len++;
    if (wrong == FUNC_NEXT_PART && p.len && k == 0 && count > 1)
        p.at += size;
    return p;
}

struct barkruffle_part __wrap_barkruffle_line_info_record(READ_PARAMETERS, uint32_t k)
{
    struct barkruffle_part p = __real_barkruffle_line_info_record(READ_ARGUMENTS, k);
    if (wrong == LINE_PART_ON_REFUSAL && p.len == 0)
        p.len = size;
    if (wrong == PART_IN_32_BITS)
        p.at = (uint32_t)p.at;
    return p;
}

uint32_t __wrap_barkruffle_func_info_record_number(READ_PARAMETERS, uint32_t k, uint8_t *places, size_t places_len)
{
    uint32_t n = __real_barkruffle_func_info_record_number(READ_ARGUMENTS, k, places, places_len);
    return wrong == FUNC_NUMBER_AT_COUNT && k == count ? 0 : n;
}

uint32_t __wrap_barkruffle_line_info_record_number(READ_PARAMETERS, uint32_t k, uint8_t *places, size_t places_len)
{
    if (wrong == LINE_NUMBER_READS_BEFORE && bytes_len)
        sink = bytes[-1];
    return __real_barkruffle_line_info_record_number(READ_ARGUMENTS, k, places, places_len);
}

/* ---- one error after another */

#define RUNS 4000

/* What the harness says under one error, in a process of its own; whether it stopped. */
static int told_under(enum wrong w, char *told, size_t room)
{
    int ends[2], status;
    size_t len = 0;
    ssize_t n;
    if (pipe(ends))
        exit(2);
    pid_t child = fork();
    if (child < 0)
        exit(2);
    if (child == 0) {
        setrlimit(RLIMIT_CORE, &(struct rlimit){0, 0});
        dup2(ends[1], STDERR_FILENO);
        wrong = w;
        tell_traps();
        if (w < LENGTH_IN_32_BITS)
            drive(RUNS, 1);
        if (w == NOTHING || w >= LENGTH_IN_32_BITS)
            try_long();
        _exit(0);
    }
    close(ends[1]);
    while (len + 1 < room && (n = read(ends[0], told + len, room - 1 - len)) > 0)
        len += (size_t)n;
    told[len] = 0;
    close(ends[0]);
    waitpid(child, &status, 0);
    return !WIFEXITED(status) || WEXITSTATUS(status) != 0;
}

int main(void)
{
    char told[4096];
    int failures = 0;
    if (told_under(NOTHING, told, sizeof told) || told[0]) {
        printf("FAIL with no error: %s\n", told);
        failures++;
    }
    for (enum wrong w = NOTHING + 1; w < WRONGS; w++)
        if (!told_under(w, told, sizeof told) || !strstr(told, wrongs[w].told)) {
            printf("FAIL %s: told: %s\n", wrongs[w].error, told[0] ? told : "nothing");
            failures++;
        }
    if (failures)
        return 1;
    printf("fuzz-bites: %d errors, each noticed\n", WRONGS - 1);
    return 0;
}
