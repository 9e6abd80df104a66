/* How deep a link and an examination go into the stack: a thread on a stack of our own, filled with a pattern, links a chain of
 * 64 functions, the deepest there is, or examines it, and what it left of the pattern is counted. Fails past what the header
 * says. */
#define _POSIX_C_SOURCE 200112L
#include <pthread.h>
#include "barkruffle.h"
#include "tables.h"

#define STACK (8u << 20)
#define SAID (128u << 10)
#define SAID_ROWS (160u << 10)
#define SAID_EXAMINE (16u << 10)
#define SLOTS 130
#define PIECES 65

static uint8_t image[BARKRUFFLE_IMAGE], funcs[BARKRUFFLE_IMAGE_FUNC_INFO], lines[BARKRUFFLE_IMAGE_LINE_INFO];
static uint8_t pieces[BARKRUFFLE_IMAGE_PIECES], places[BARKRUFFLE_PLACES];
static struct barkruffle_symbol rows[1024];
static struct object *o;
static uint32_t result;

static void *idle(void *unused) { return unused; }

static void *link_chain(void *unused)
{
    result = barkruffle_link(LENT(o->code), LENT(o->symbols), LENT(o->functions), LENT(o->relocations),
                             LENT(o->instructions), LENT(o->func_info), LENT(o->line_info), 0, image, sizeof image,
                             funcs, sizeof funcs, lines, sizeof lines, places, sizeof places);
    return unused;
}

static void *link_chain_rows(void *unused)
{
    result = barkruffle_link_rows(LENT(o->code), rows, 1024, LENT(o->functions), LENT(o->relocations),
                                  LENT(o->instructions), LENT(o->func_info), LENT(o->line_info), 0, image, sizeof image,
                                  funcs, sizeof funcs, lines, sizeof lines, places, sizeof places);
    return unused;
}

static void *link_chain_listed(void *unused)
{
    result = barkruffle_link_pieces(LENT(o->code), LENT(o->symbols), LENT(o->functions), LENT(o->relocations),
                                    LENT(o->instructions), LENT(o->func_info), LENT(o->line_info), 0, image, sizeof image,
                                    funcs, sizeof funcs, lines, sizeof lines, pieces, sizeof pieces, places, sizeof places);
    return unused;
}

/* What was linked last with its list: a function record and a line record for each piece. */
static void *examine_chain(void *unused)
{
    result = barkruffle_examine(LENT(o->code), LENT(o->symbols), LENT(o->functions), LENT(o->relocations),
                                LENT(o->instructions), LENT(o->func_info), LENT(o->line_info), 0, image, 8 * SLOTS, funcs,
                                8 * PIECES, lines, 16 * PIECES, pieces, 8 * PIECES, places, sizeof places);
    return unused;
}

/* Bytes of the stack that a thread has written to. */
static size_t depth_of(void *(*run)(void *), uint8_t *stack)
{
    pthread_attr_t attr;
    pthread_t thread;
    size_t k = 0;
    memset(stack, 0xa5, STACK);
    pthread_attr_init(&attr);
    if (pthread_attr_setstack(&attr, stack, STACK) || pthread_create(&thread, &attr, run, NULL) || pthread_join(thread, NULL)) {
        fprintf(stderr, "no thread\n");
        exit(2);
    }
    pthread_attr_destroy(&attr);
    while (k < STACK && stack[k] == 0xa5)
        k++;
    return STACK - k;
}

/* The first place is to be `count`. */
static int fails(const char *what, void *(*run)(void *), uint32_t count, size_t said, uint8_t *stack)
{
    size_t before = depth_of(idle, stack), with = depth_of(run, stack);
    if (result != BARKRUFFLE_DONE || number_at(places, 0) != count) {
        printf("stack: %s gave %u (%u)\n", what, result, number_at(places, 0));
        return 1;
    }
    printf("stack: %s: %zu bytes over a thread that does nothing\n", what, with - before);
    if (with - before > said)
        printf("stack: the header says at most %zu\n", said);
    return with - before > said;
}

int main(void)
{
    void *stack;
    if (posix_memalign(&stack, 4096, STACK)) {
        fprintf(stderr, "no memory\n");
        return 2;
    }
    o = new_object();
    code_section(&o->code, 1);
    for (uint32_t k = 0; k < 64; k++) { /* each calls the next, the last the first: 65 deep with the root's copy */
        function(&o->functions, 1, 2, 16 * k, 16 * k, 1, 1);
        func_record(&o->func_info, 0, k);
        line_record(&o->line_info, 0, 1, k, 1);
        call(&o->instructions, k < 63 ? 1 : -127);
        leave(&o->instructions);
    }
    for (uint32_t k = 0; k < 1024; k++) {
        rows[k].index = k;
        rows[k].section = NONE;
    }
    int bad = fails("link", link_chain, SLOTS, SAID, stack);
    bad |= fails("link with rows", link_chain_rows, SLOTS, SAID_ROWS, stack);
    bad |= fails("link with its list", link_chain_listed, SLOTS, SAID, stack);
    bad |= fails("examination", examine_chain, PIECES, SAID_EXAMINE, stack);
    free(o);
    free(stack);
    return bad;
}
