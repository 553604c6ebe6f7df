/*
 * Judges document 01's worked timeline M with its table T, then with T's word 3 made too small. From the repository's root:
 *
 *   tools/build.sh miss_chance
 *   gcc -std=c99 -Wall -Wextra -pedantic -Ibindings/c bindings/c/example.c target/staticlib/libmiss_chance.a -o target/example
 *   target/example
 *
 * It prints `ACCEPTED 1 10 3` and `REFUSED 19 4`. Drafts are in draft.c, the board in board.c.
 */
#include "miss_chance.h"

#include <inttypes.h>
#include <stdio.h>

static const uint32_t model[] = {
    0x1110000A,                         /* one clock, weights add to 10 */
    0x20000000, 0x51001003,             /* location 0, clock at most 3 */
    0x30000000, 0x50100FFE,             /* its action, from clock 2 on */
    0x40010009, 0x40020001,             /* 9 in 10 to location 1, 1 in 10 to location 2 */
    0x20000000, 0x20000001,             /* location 1; location 2, a target */
    0x60000000, 0x51001000              /* start in location 0 with the clock at 0 */
};

static uint32_t table[] = {
    0x7000000A,                         /* values count tenths */
    0x80000000, 0x51001000, 0x90000001, /* node 0: location 0, clock at 0, value 1 */
    0xB0000001, 0xB0000002,             /* its row: to node 1 and node 2 */
    0x81000000, 0x90000000,             /* node 1: location 1, value 0 */
    0x82000000, 0x9000000A,             /* node 2: location 2, value 10 */
    0xC0000000                          /* start at node 0 */
};

/* Judges and prints a line as document 01's program does; false where no answer was written. */
static bool show(void)
{
    uint64_t answer[MISS_CHANCE_ANSWER_WORDS];

    if (!miss_chance_judge(model, sizeof model / sizeof model[0], table, sizeof table / sizeof table[0], answer,
                           MISS_CHANCE_ANSWER_WORDS)) {
        return false;
    }
    if (answer[0] == MISS_CHANCE_ACCEPTED) {
        printf("ACCEPTED %" PRIu64 " %" PRIu64 " %" PRIu64 "\n", answer[1], answer[2], answer[3]);
    } else {
        printf("REFUSED %" PRIu64 " %" PRIu64 "\n", answer[0], answer[1]);
    }
    return true;
}

int main(void)
{
    if (!show()) {
        return 1;
    }
    table[3] = 0x90000000; /* node 0 now claims 0 */
    return show() ? 0 : 1;
}
