/* Pseudo-random inputs, where there is no fuzzer; and what trapped, told in words. */
#define _GNU_SOURCE
#include <signal.h>
#include <string.h>
#include <unistd.h>
#include "fuzz.h"

static void say(const char *text)
{
    ssize_t written = write(STDERR_FILENO, text, strlen(text));
    (void)written;
}

static void on_trap(int signal_number, siginfo_t *info, void *context)
{
    (void)signal_number;
    (void)context;
    say("fuzz: ");
    say(entry_tried());
    say(": ");
    say(trapped_at(info->si_addr));
    say("\n");
    _exit(3);
}

void tell_traps(void)
{
    static char stack[1 << 16];
    stack_t s = {.ss_sp = stack, .ss_size = sizeof stack};
    struct sigaction action = {.sa_sigaction = on_trap, .sa_flags = SA_SIGINFO | SA_ONSTACK};
    sigaltstack(&s, NULL);
    sigaction(SIGSEGV, &action, NULL);
    sigaction(SIGBUS, &action, NULL);
}

static uint64_t next(uint64_t *state)
{
    *state ^= *state << 13;
    *state ^= *state >> 7;
    *state ^= *state << 17;
    return *state;
}

/* Mostly choices for the generator; raw bytes, as they are and repaired, in one input of eight. */
void drive(unsigned runs, uint64_t seed)
{
    static uint8_t input[4096];
    uint64_t state = seed * 0x9e3779b97f4a7c15u + 1;
    while (runs--) {
        size_t len = 1 + next(&state) % (next(&state) % 8 ? 600 : sizeof input);
        for (size_t i = 0; i < len; i++)
            input[i] = (uint8_t)(next(&state) >> 24);
        uint64_t way = next(&state) % 16;
        input[0] = way == 0 ? CUT_RAW : way == 1 ? CUT_REPAIRED : CUT_GENERATED;
        if (way < 2) /* lengths that leave something for every buffer */
            for (size_t i = 2; i + 3 < 71 && i + 3 < len; i += 4)
                input[i + 1] &= 1, input[i + 2] = 0, input[i + 3] &= 0x80 & -(next(&state) % 8 == 0);
        LLVMFuzzerTestOneInput(input, len);
    }
}
