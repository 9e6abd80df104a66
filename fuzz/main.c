/* The harness as a plain program: entries RUNS SEED [FILE...] tries long lengths, replays the files, then makes that many
 * inputs of its own. Fails where an entry did not give every number that the header says it can. */
#include <stdio.h>
#include <stdlib.h>
#include "fuzz.h"

static void replay(const char *name)
{
    static uint8_t input[1 << 20];
    FILE *f = fopen(name, "rb");
    if (!f) {
        perror(name);
        exit(2);
    }
    size_t len = fread(input, 1, sizeof input, f);
    fclose(f);
    LLVMFuzzerTestOneInput(input, len);
}

int main(int argc, char **argv)
{
    if (argc < 3) {
        fprintf(stderr, "usage: %s RUNS SEED [FILE...]\n", argv[0]);
        return 2;
    }
    tell_traps();
    try_long();
    for (int i = 3; i < argc; i++)
        replay(argv[i]);
    drive((unsigned)strtoul(argv[1], NULL, 10), strtoull(argv[2], NULL, 10));
    return report();
}
