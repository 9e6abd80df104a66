/* Runs stored cases through barkruffle_examine and barkruffle_link_pieces: images of a linker that has nothing of ours, single
 * faults of them, and links with their lists. tools/examine_cases.py makes the cases.
 *
 *     examine FILE      or - for standard input
 *
 * Fails unless every answer, place and output is the one stored, every kind below is met, a fault of a kind that settles its cause
 * has that cause, and every number is met. The counts are printed.
 *
 * A case file is lines of four fields, WORD|KIND|NUMBERS|PARTS. A part is a table (1 2 3 4 6 7 8), the image i, its function
 * records f, its line records l, or the list of pieces p. PART=BYTES sets one; PART@AT-CUT+BYTES takes CUT bytes out at AT and
 * puts others there. BYTES is groups with a comma between them: HEX; HEX*N, N times those; HEX^N:M, N rows of 8 bytes, the second
 * number M more each time.
 *
 *     object||                                      sets the tables of what follows
 *     shown|KIND|ROOT 0 A B C|                      sets image, records and list, and examines them: a yes
 *     fault|KIND|ROOT NUMBER A B C|                 examines a copy of the last ones, changed: that number, with places A B C
 *     link|KIND|ROOT NUMBER A B C I F L P|          links a copy of the tables, changed, into outputs of I, F, L and P bytes, to give
 *                                                   the parts i f l p and zero after them; what is done is then examined
 *     end||CASES|                                   the last line: how many there were
 */
#define _POSIX_C_SOURCE 200809L
#include "barkruffle.h"
#include "tables.h"

/* Each number and each kind is to be met so often. */
#define LEAST 3
/* A kind that settles no cause. */
#define ANY 0xffu

struct kind {
    const char *name;
    uint32_t number;
    unsigned long met;
};

static struct kind shown_kinds[] = {
    {"the root alone", 0, 0}, {"the link's own order", 0, 0}, {"breadth-first", 0, 0}, {"shuffled", 0, 0},
    {"a function twice, both called", 0, 0}, {"a function that nobody calls", 0, 0}, {"the root's copy called", 0, 0},
    {"the root's copy, not called", 0, 0}, {"the first piece called", 0, 0}, {"all together", 0, 0}, {"at a limit", 0, 0},
    {NULL, 0, 0}};

static struct kind fault_kinds[] = {
    /* tables and root */
    {"table 1: too many rows", 1, 0}, {"table 2: too many rows", 1, 0}, {"table 3: too many rows", 1, 0},
    {"table 4: too many rows", 1, 0}, {"table 6: too many rows", 1, 0}, {"table 7: too many rows", 1, 0},
    {"table 8: too many rows", 1, 0}, {"table 1: a broken row", 2, 0}, {"table 2: a broken row", 2, 0},
    {"table 3: a broken row", 2, 0}, {"table 4: a broken row", 2, 0}, {"table 1: rows out of order", 2, 0},
    {"table 2: rows out of order", 2, 0}, {"table 3: rows out of order", 2, 0}, {"table 4: rows out of order", 2, 0},
    {"table 1: a row doubled", 2, 0}, {"table 2: a row doubled", 2, 0}, {"table 3: a row doubled", 2, 0},
    {"table 4: a row doubled", 2, 0}, {"table 1: a partial row", 2, 0}, {"table 2: a partial row", 2, 0},
    {"table 3: a partial row", 2, 0}, {"table 4: a partial row", 2, 0}, {"table 6: a wrong total", 2, 0},
    {"table 7: a wrong total", 2, 0}, {"table 8: a wrong total", 2, 0}, {"no such root", 13, 0}, {"another root", 35, 0},
    /* sizes */
    {"the image: too long", 33, 0}, {"function records: too long", 33, 0}, {"line records: too long", 33, 0},
    {"the list: too long", 33, 0}, {"the image: a partial row", 34, 0}, {"function records: a partial row", 34, 0},
    {"line records: a partial row", 34, 0}, {"the list: a partial row", 34, 0},
    /* the list */
    {"an empty list", 35, 0}, {"the root not first", 35, 0}, {"the first start", 35, 0}, {"the first piece swapped", 35, 0},
    {"the first piece left out", 35, 0}, {"the first piece of no function", 35, 0}, {"a piece of no function", 36, 0},
    {"a piece of no function, elsewhere", 36, 0}, {"a start", 37, 0}, {"a start, and a later piece of no function", 37, 0},
    {"two pieces of the list swapped", 37, 0}, {"a piece of the list doubled", 37, 0},
    {"a piece of the list left out", 37, 0}, {"a piece over, elsewhere", 37, 0},
    {"a piece of another function, longer or shorter", 37, 0}, {"a piece of another function as long", ANY, 0},
    {"the last piece of another function", 38, 0}, {"the last piece left out", 38, 0}, {"a piece over", 38, 0},
    {"a slot over", 38, 0}, {"a slot short", 38, 0}, {"an empty image", 38, 0},
    /* slots */
    {"copied slot: opcode", 39, 0}, {"copied slot: destination", 39, 0}, {"copied slot: source", 39, 0},
    {"copied slot: offset", 39, 0}, {"copied slot: immediate", 39, 0}, {"copied wide load: source register 4", 39, 0},
    {"call slot: opcode", 39, 0},
    {"call slot: destination", 39, 0}, {"call slot: source", 39, 0}, {"call slot: offset", 39, 0},
    {"reference slot: opcode", 39, 0}, {"reference slot: destination", 39, 0}, {"reference slot: offset", 39, 0},
    {"a field and the target", 39, 0}, {"a field and the register", 39, 0}, {"reference: source register 3", 40, 0},
    {"reference: source register 5", 40, 0}, {"reference: another source register", 40, 0},
    {"reference: left as in the source", 40, 0}, {"register and target", 40, 0}, {"call: left as in the source", 41, 0},
    {"call: to inside a piece", 41, 0}, {"call: to another function's start", 41, 0}, {"call: to past the image", 41, 0},
    {"call: to before the image", 41, 0}, {"reference: to inside a piece", 41, 0},
    {"reference: to another function's start", 41, 0}, {"reference: to past the image", 41, 0},
    {"reference: to before the image", 41, 0},
    /* records */
    {"function records: slot", 42, 0}, {"function records: type", 42, 0}, {"function records: two swapped", 42, 0},
    {"function records: one short", 42, 0}, {"function records: one left out", 42, 0}, {"function records: none", 42, 0},
    {"function records: kept as in the source", 42, 0}, {"function records: of the root's copy kept as in the source", 42, 0},
    {"function records: of the first piece moved", 42, 0}, {"function records: one over", 44, 0},
    {"function records: one doubled", ANY, 0}, {"line records: slot", 43, 0}, {"line records: file", 43, 0},
    {"line records: line", 43, 0}, {"line records: column", 43, 0}, {"line records: two swapped", 43, 0},
    {"line records: one short", 43, 0}, {"line records: one left out", 43, 0}, {"line records: none", 43, 0},
    {"line records: kept as in the source", 43, 0}, {"line records: of the root's copy kept as in the source", 43, 0},
    {"line records: of the first piece moved", 43, 0}, {"line records: one over", 44, 0},
    {"line records: one doubled", ANY, 0}, {"records of both: one over", 44, 0},
    /* the source: what the link would refuse, or would link otherwise */
    {"source: a symbol that is not there", 3, 0}, {"source: neither call nor wide load", 6, 0},
    {"source: a size of no form", 8, 0}, {"source: a form that nobody knows", 8, 0}, {"source: a call of no code", 9, 0},
    {"source: no function there", 10, 0}, {"source: a function at another address", 10, 0}, {"source: a line outside", 12, 0},
    {"source: a line outside, the image going along", 12, 0}, {"a piece that the link refuses: 3", 3, 0},
    {"a piece that the link refuses: 6", 6, 0}, {"a piece that the link refuses: 8", 8, 0},
    {"a piece that the link refuses: 9", 9, 0}, {"a piece that the link refuses: 10", 10, 0},
    {"a piece that the link refuses: 12", 12, 0}, {"source: a copied slot changed", 39, 0},
    {"source: a reference to data", 39, 0}, {"source: names another function", 41, 0},
    {"source: a record's type changed", 42, 0}, {"source: a record's line changed", 43, 0},
    {"two faults", ANY, 0}, {NULL, 0, 0}};

static struct kind link_kinds[] = {
    {"with room", ANY, 0}, {"just enough room", 0, 0}, {"too little room", 11, 0}, {"too little room for the list", 32, 0},
    {"faults of the tables", ANY, 0}, {"at a limit", 0, 0}, {NULL, 0, 0}};

static const int examine_numbers[] = {0, 1, 2, 3, 6, 8, 9, 10, 12, 13, 33, 34, 35, 36, 37, 38, 39, 40, 41, 42, 43, 44, -1};
static const int link_numbers[] = {0, 1, 2, 3, 6, 8, 9, 10, 11, 12, 13, 32, -1};

#define NUMBERS 64
static unsigned long examine_met[NUMBERS], link_met[NUMBERS], linked_met, cases, line_number;
static int failures;

/* ---- the parts */

#define PARTS 11
static const char part_names[PARTS + 1] = "1234678iflp";
enum { IMAGE = 7, FUNCS, LINES, LIST };
static struct table base[PARTS], now[PARTS];

static void bad_line(const char *why)
{
    fprintf(stderr, "examine: line %lu: %s\n", line_number, why);
    exit(2);
}

static unsigned hex_digit(char c)
{
    static const char digits[] = "0123456789abcdef";
    const char *at = c ? strchr(digits, c) : NULL;
    if (!at)
        bad_line("no hex");
    return (unsigned)(at - digits);
}

/* HEX, HEX*N or HEX^N:M. What is after it. */
static const char *put_group(struct table *t, const char *text)
{
    size_t from = t->len, digits = strcspn(text, "*^,");
    char *end = (char *)text + digits, how = text[digits];
    unsigned long times = 1, step = 0;
    for (size_t i = 0; i < digits; i += 2)
        put(t, hex_digit(text[i]) << 4 | hex_digit(text[i + 1]), 1);
    size_t n = t->len - from;
    if (how == '*' || how == '^')
        times = strtoul(end + 1, &end, 10);
    if (how == '^' && (n != 8 || *end != ':'))
        bad_line("no rows of a list");
    if (how == '^')
        step = strtoul(end + 1, &end, 10);
    for (unsigned long k = 1; k < times; k++)
        for (size_t i = 0; i < n; i++)
            if (how == '^' && i == 4) {
                put(t, number_at(t->bytes + from, 1) + k * step, 4);
                break;
            } else {
                put(t, t->bytes[from + i], 1);
            }
    return end;
}

static void put_bytes(struct table *t, const char *text)
{
    text = put_group(t, text);
    while (*text == ',')
        text = put_group(t, text + 1);
    if (*text)
        bad_line("no bytes");
}

static int part_of(char c)
{
    const char *at = c ? strchr(part_names, c) : NULL;
    if (!at)
        bad_line("no such part");
    return (int)(at - part_names);
}

/* PART=BYTES */
static void set_part(struct table *parts, const char *word)
{
    struct table *t = &parts[part_of(word[0])];
    t->len = 0;
    put_bytes(t, word + 2);
}

/* PART@AT-CUT+BYTES */
static void edit_part(struct table *parts, const char *word)
{
    static struct table rest;
    struct table *t = &parts[part_of(word[0])];
    char *end;
    unsigned long at = strtoul(word + 2, &end, 10), cut;
    if (*end != '-')
        bad_line("no edit");
    cut = strtoul(end + 1, &end, 10);
    if (*end != '+' || at > t->len || cut > t->len - at)
        bad_line("no edit that fits");
    rest.len = t->len - at - cut;
    memcpy(rest.bytes, t->bytes + at + cut, rest.len);
    t->len = at;
    put_bytes(t, end + 1);
    for (size_t i = 0; i < rest.len; i++)
        put(t, rest.bytes[i], 1);
}

static void copy_parts(struct table *to, const struct table *from)
{
    for (int i = 0; i < PARTS; i++) {
        to[i].len = from[i].len;
        memcpy(to[i].bytes, from[i].bytes, from[i].len);
    }
}

/* ---- answers */

struct expected {
    uint32_t root, number, places[3], rooms[4];
};

static void fail(const char *kind, const char *what, unsigned long got, unsigned long want)
{
    if (failures++ < 20)
        printf("FAIL line %lu, %s: %s %lu, not %lu\n", line_number, kind, what, got, want);
}

/* Those that fit whole, zero after, nothing past the room. */
static void same_places(const char *kind, const uint8_t *got, size_t room, const uint32_t *places)
{
    uint8_t want[32];
    memset(want, 0xee, sizeof want);
    memset(want, 0, room);
    for (size_t k = 0; k < 3 && 4 * k + 4 <= room; k++)
        for (int i = 0; i < 4; i++)
            want[4 * k + i] = (uint8_t)(places[k] >> (8 * i));
    for (size_t i = 0; i < sizeof want; i++)
        if (got[i] != want[i]) {
            fail(kind, i / 4 == 0 ? "first place" : i / 4 == 1 ? "second place" : i / 4 == 2 ? "third place" : "past the places",
                 number_at(got, i / 4), number_at(want, i / 4));
            return;
        }
}

static void examine(const char *kind, const struct table *t, uint32_t root, uint32_t number, const uint32_t *places)
{
    uint8_t got[32];
    /* a whole buffer, and one of some other length */
    for (size_t turn = 0; turn < 2; turn++) {
        size_t room = turn ? cases % 17 : BARKRUFFLE_PLACES;
        memset(got, 0xee, sizeof got);
        uint32_t r = barkruffle_examine(LENT(t[0]), LENT(t[1]), LENT(t[2]), LENT(t[3]), LENT(t[4]), LENT(t[5]), LENT(t[6]), root,
                                        LENT(t[IMAGE]), LENT(t[FUNCS]), LENT(t[LINES]), LENT(t[LIST]), got, room);
        if (r != number)
            fail(kind, "number", r, number);
        else
            same_places(kind, got, room, places);
    }
}

/* The output holds the bytes wanted, zero after them, and nothing is written past the room. */
static void same_output(const char *kind, const char *what, const struct table *got, size_t room, const struct table *want)
{
    for (size_t i = 0; i < room + 16; i++) {
        uint8_t right = i < want->len ? want->bytes[i] : i < room ? 0 : 0xaa;
        if (got->bytes[i] != right) {
            fail(kind, what, got->bytes[i], right);
            return;
        }
    }
}

/* The bytes of a list that a link has given, told as the header says. */
static size_t list_length(const struct table *out, size_t room)
{
    size_t n = 8;
    while (n + 8 <= room && number_at(out->bytes + n, 1) != 0)
        n += 8;
    return n;
}

/* `t` has the tables, and the outputs wanted as its last four. What is done is then examined. */
static void link_with_list(const char *kind, struct table *t, const struct expected *e)
{
    static struct table out[4];
    static const char *const names[4] = {"byte of the image", "byte of the function records", "byte of the line records",
                                         "byte of the list"};
    uint8_t got[32];
    memset(got, 0xee, sizeof got);
    for (int i = 0; i < 4; i++)
        memset(out[i].bytes, 0xaa, e->rooms[i] + 16);
    uint32_t r = barkruffle_link_pieces(LENT(t[0]), LENT(t[1]), LENT(t[2]), LENT(t[3]), LENT(t[4]), LENT(t[5]), LENT(t[6]), e->root,
                                        out[0].bytes, e->rooms[0], out[1].bytes, e->rooms[1], out[2].bytes, e->rooms[2],
                                        out[3].bytes, e->rooms[3], got, cases % 17);
    if (r != e->number)
        fail(kind, "number", r, e->number);
    same_places(kind, got, cases % 17, e->places);
    for (int i = 0; i < 4; i++)
        same_output(kind, names[i], &out[i], e->rooms[i], &t[IMAGE + i]);
    if (e->number == BARKRUFFLE_DONE) {
        uint32_t pieces[3] = {(uint32_t)(t[LIST].len / 8), 0, 0};
        if (list_length(&out[3], e->rooms[3]) != t[LIST].len)
            fail(kind, "bytes of the list", list_length(&out[3], e->rooms[3]), t[LIST].len);
        examine("what is linked, examined", t, e->root, BARKRUFFLE_DONE, pieces);
        linked_met++;
    }
}

/* ---- lines */

static void count(struct kind *kinds, const char *name, const struct expected *e)
{
    while (kinds->name && strcmp(kinds->name, name))
        kinds++;
    if (!kinds->name || e->number >= NUMBERS)
        bad_line("no such kind or number");
    if (kinds->number != ANY && kinds->number != e->number)
        fail(name, "stored with", e->number, kinds->number);
    kinds->met++;
    cases++;
}

static struct expected read_numbers(char *text, int many)
{
    uint32_t n[9] = {0};
    char *end = text;
    for (int i = 0; i < many; i++, text = end) {
        n[i] = (uint32_t)strtoul(text, &end, 10);
        if (end == text)
            bad_line("too few numbers");
    }
    struct expected e = {n[0], n[1], {n[2], n[3], n[4]}, {n[5], n[6], n[7], n[8]}};
    for (int i = 0; i < 4; i++)
        if (e.rooms[i] + 16 > sizeof base[0].bytes)
            bad_line("too much room");
    return e;
}

static void change_parts(struct table *parts, char *words)
{
    for (char *word = strtok(words, " "); word; word = strtok(NULL, " "))
        if (word[1] == '=')
            set_part(parts, word);
        else if (word[1] == '@')
            edit_part(parts, word);
        else
            bad_line("no part set and none edited");
}

static void run_line(const char *word, const char *kind, char *numbers, char *words)
{
    if (!strcmp(word, "object")) {
        change_parts(base, words);
    } else if (!strcmp(word, "shown")) {
        struct expected e = read_numbers(numbers, 5);
        change_parts(base, words);
        count(shown_kinds, kind, &e);
        examine(kind, base, e.root, e.number, e.places);
        examine_met[e.number]++;
    } else if (!strcmp(word, "fault")) {
        struct expected e = read_numbers(numbers, 5);
        copy_parts(now, base);
        change_parts(now, words);
        count(fault_kinds, kind, &e);
        examine(kind, now, e.root, e.number, e.places);
        examine_met[e.number]++;
    } else if (!strcmp(word, "link")) {
        struct expected e = read_numbers(numbers, 9);
        copy_parts(now, base);
        change_parts(now, words);
        count(link_kinds, kind, &e);
        link_with_list(kind, now, &e);
        link_met[e.number]++;
    } else {
        bad_line("no such word");
    }
}

/* Whether the file ended as it should. */
static int run_file(FILE *file)
{
    char *line = NULL, *field[4];
    size_t room = 0;
    ssize_t got;
    while ((got = getline(&line, &room, file)) > 0) {
        line_number++;
        line[strcspn(line, "\n")] = 0;
        field[0] = line;
        for (int i = 1; i < 4; i++) {
            field[i] = strchr(field[i - 1], '|');
            if (!field[i])
                bad_line("too few fields");
            *field[i]++ = 0;
        }
        if (!strcmp(field[0], "end")) {
            int whole = strtoul(field[2], NULL, 10) == cases;
            free(line);
            return whole;
        }
        run_line(field[0], field[1], field[2], field[3]);
    }
    free(line);
    return 0;
}

/* ---- the report */

static void told(const char *title, const int *numbers, const unsigned long *met)
{
    printf("%s:", title);
    for (; *numbers >= 0; numbers++) {
        printf(" %d: %lu%s", *numbers, met[*numbers], numbers[1] >= 0 ? "," : "\n");
        if (met[*numbers] < LEAST) {
            printf("FAIL number %d is met %lu times, not %d\n", *numbers, met[*numbers], LEAST);
            failures++;
        }
    }
}

static unsigned long told_kinds(const char *title, const struct kind *kinds)
{
    unsigned long sum = 0;
    size_t column = 0;
    for (const struct kind *k = kinds; k->name; k++)
        sum += k->met;
    printf("%s, %lu:\n", title, sum);
    for (const struct kind *k = kinds; k->name; k++) {
        size_t width = strlen(k->name) + 10;
        if (column && column + width > 118) {
            printf("\n");
            column = 0;
        }
        column += (size_t)printf("%s%s %lu%s", column ? " " : "  ", k->name, k->met, k[1].name ? ";" : "\n");
        if (k->met < LEAST) {
            printf("\nFAIL %s is met %lu times, not %d\n", k->name, k->met, LEAST);
            failures++;
        }
    }
    return sum;
}

int main(int argc, char **argv)
{
    FILE *file = argc != 2 ? NULL : strcmp(argv[1], "-") ? fopen(argv[1], "r") : stdin;
    if (!file) {
        fprintf(stderr, "examine: give a file of cases, or - for standard input\n");
        return 2;
    }
    int whole = run_file(file);
    if (file != stdin)
        fclose(file);
    told_kinds("Images of another linker, accepted", shown_kinds);
    told_kinds("Faults, refused", fault_kinds);
    told_kinds("Links with their lists", link_kinds);
    told("Numbers of examine", examine_numbers, examine_met);
    told("Numbers of the link with its list", link_numbers, link_met);
    printf("What the link gave, examined with its list: %lu\n", linked_met);
    if (!whole) {
        printf("FAIL the cases end too soon, or are not as many as they say\n");
        failures++;
    }
    printf("examine: %lu cases, %d failures\n", cases, failures);
    return failures != 0;
}
