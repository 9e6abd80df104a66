/* How long an examination takes beside the link of the same object, and a link with its list: all three in each of many runs,
 * the medians in microseconds, and the ratios to the link. The link's outputs are as long as the image, so it wipes no more
 * than it writes. Figures, not a test. */
#define _POSIX_C_SOURCE 199309L
#include "bench.h"

static uint8_t image[BARKRUFFLE_IMAGE], funcs[BARKRUFFLE_IMAGE_FUNC_INFO], lines[BARKRUFFLE_IMAGE_LINE_INFO];
static uint8_t pieces[BARKRUFFLE_IMAGE], places[BARKRUFFLE_PLACES];

/* The bytes of the image, of its records and of the list. */
static size_t image_len, funcs_len, lines_len, list_len;

static void need(const char *what, uint32_t number, uint32_t place)
{
    if (number == BARKRUFFLE_DONE && number_at(places, 0) == place)
        return;
    printf("%s gave %u (%u, %u, %u)\n", what, number, number_at(places, 0), number_at(places, 1), number_at(places, 2));
    exit(1);
}

static double link_time(struct object *o)
{
    struct timespec start = now();
    uint32_t r = barkruffle_link(LENT(o->code), LENT(o->symbols), LENT(o->functions), LENT(o->relocations),
                                 LENT(o->instructions), LENT(o->func_info), LENT(o->line_info), 0, image, image_len, funcs,
                                 funcs_len, lines, lines_len, places, sizeof places);
    double t = since(start);
    need("link", r, (uint32_t)image_len / 8);
    return t;
}

static double listed_time(struct object *o)
{
    struct timespec start = now();
    uint32_t r = barkruffle_link_pieces(LENT(o->code), LENT(o->symbols), LENT(o->functions), LENT(o->relocations),
                                        LENT(o->instructions), LENT(o->func_info), LENT(o->line_info), 0, image, image_len,
                                        funcs, funcs_len, lines, lines_len, pieces, BARKRUFFLE_PIECES(o->functions.len),
                                        places, sizeof places);
    double t = since(start);
    need("link with its list", r, (uint32_t)image_len / 8);
    return t;
}

static double examine_time(struct object *o)
{
    struct timespec start = now();
    uint32_t r = barkruffle_examine(LENT(o->code), LENT(o->symbols), LENT(o->functions), LENT(o->relocations),
                                    LENT(o->instructions), LENT(o->func_info), LENT(o->line_info), 0, image, image_len, funcs,
                                    funcs_len, lines, lines_len, pieces, list_len, places, sizeof places);
    double t = since(start);
    need("examination", r, (uint32_t)list_len / 8);
    return t;
}

/* Every function is reached once: the image has as many rows as the tables. */
static void run(struct sizes z)
{
    static double t[3][RUNS];
    struct object *o = made(z);
    image_len = o->instructions.len;
    funcs_len = o->func_info.len;
    lines_len = o->line_info.len;
    list_len = 8 * (size_t)z.functions;
    for (int k = 0; k < RUNS; k++) {
        t[0][k] = link_time(o);
        t[1][k] = listed_time(o);
        t[2][k] = examine_time(o);
    }
    double link = median(t[0]), listed = median(t[1]), examined = median(t[2]);
    printf("%6u %9u %11u %7u %8.1f %8.1f %7.2f %8.1f %7.2f\n", z.slots, z.functions, (unsigned)(o->relocations.len / 24),
           (unsigned)(lines_len / 16), link, listed, listed / link, examined, examined / link);
    free(o);
}

/* An image that no link makes: a root of 2,048 slots, all calls but the last, and 2,048 pieces of one function of one slot,
 * each called once but for one. */
static void many_pieces(void)
{
    static double t[RUNS];
    struct object *o = new_object();
    struct table shown = {.len = 0}, list = {.len = 0};
    const uint32_t n = 2048;
    function(&o->functions, 1, n, 0, 0, 0, 0);
    function(&o->functions, 1, 1, 8 * n, 8 * n, 0, 0);
    put(&list, 0, 8);
    for (uint32_t s = 0; s + 1 < n; s++) {
        call(&o->instructions, (int32_t)(n - s - 1));
        call(&shown, (int32_t)(n + (s * 5) % n - s - 1));
    }
    leave(&o->instructions);
    leave(&shown);
    leave(&o->instructions);
    for (uint32_t k = 0; k < n; k++) {
        leave(&shown);
        put(&list, 1, 4);
        put(&list, n + k, 4);
    }
    memcpy(image, shown.bytes, shown.len);
    memcpy(pieces, list.bytes, list.len);
    image_len = shown.len;
    list_len = list.len;
    funcs_len = lines_len = 0;
    for (int k = 0; k < RUNS; k++)
        t[k] = examine_time(o);
    printf("an examination of 4096 slots, %u calls, %u pieces: %.1f\n", n - 1, n + 1, median(t));
    free(o);
}

int main(void)
{
    static const uint32_t slots[] = {1000, 4000}, functions[] = {10, 60};
    printf("a link, a link with its list, an examination of what it made, and the ratios to the link\n");
    printf("%6s %9s %11s %7s %8s %8s %7s %8s %7s\n", "slots", "functions", "relocations", "lines", "link", "listed", "ratio",
           "examine", "ratio");
    for (int full = 0; full < 2; full++)
        for (int s = 0; s < 2; s++)
            for (int f = 0; f < 2; f++)
                run((struct sizes){functions[f], slots[s], full ? slots[s] / 10 : 0, 2, full});
    many_pieces();
    return 0;
}
