/*
 * A priority engine's board: two teams submit tables for document 01's worked timeline M, then one of them for the other's slot, and the held
 * slots are ranked. From the repository's root:
 *
 *   tools/build.sh miss_chance
 *   gcc -std=c99 -Wall -Wextra -pedantic -Ibindings/c bindings/c/board.c target/staticlib/libmiss_chance.a -o target/board
 *   target/board
 *
 * It prints `ACCEPTED 2 10 3`, `ACCEPTED 1 10 3`, `REFUSED 56 0` and `RANKED 9 4`.
 */
#include "miss_chance.h"

#include <inttypes.h>
#include <stdio.h>

static const uint32_t model[] = { /* as in example.c: it misses 1 time in 10 */
    0x1110000A, 0x20000000, 0x51001003, 0x30000000, 0x50100FFE, 0x40010009, 0x40020001, 0x20000000, 0x20000001, 0x60000000, 0x51001000
};

static uint32_t table[] = { /* as in example.c, but word 3 claims 2 in 10, where 1 in 10 would do */
    0x7000000A, 0x80000000, 0x51001000, 0x90000002, 0xB0000001, 0xB0000002, 0x81000000, 0x90000000, 0x82000000, 0x9000000A, 0xC0000000
};

static struct miss_chance_slot slots[MISS_CHANCE_SLOTS]; /* static, so all zeros: a fresh board */
static struct miss_chance_ledger ledger = {MISS_CHANCE_ALLOWANCE};

/* Submits for a slot, keeps the ledger, and prints the answer as document 01's program does. */
static void submit(uint32_t team, uint32_t slot)
{
    struct miss_chance_request request = {team, slot};
    struct miss_chance_submitted given = miss_chance_submit(slots, MISS_CHANCE_SLOTS, ledger, request, model, sizeof model / sizeof model[0],
                                                            table, sizeof table / sizeof table[0]);

    ledger = given.ledger;
    if (given.answer.number == MISS_CHANCE_ACCEPTED) {
        printf("ACCEPTED %" PRIu32 " %" PRIu32 " %zu\n", given.answer.b, given.answer.whole, given.answer.nodes);
    } else {
        printf("REFUSED %" PRIu32 " %zu\n", given.answer.number, given.answer.place);
    }
}

/* Prints the held slots in rank. */
static void rank(void)
{
    struct miss_chance_ranking given = miss_chance_rank(slots, MISS_CHANCE_SLOTS);
    size_t at;

    if (given.number != MISS_CHANCE_ACCEPTED) {
        printf("REFUSED %" PRIu32 " %zu\n", given.number, given.place);
        return;
    }
    printf("RANKED");
    for (at = 0; at < given.count; at++) {
        printf(" %zu", given.order[at]);
    }
    printf("\n");
}

int main(void)
{
    submit(3, 4);
    table[3] = 0x90000001; /* node 0 now claims 1 in 10 */
    submit(5, 9);
    submit(3, 9); /* team 5 holds slot 9 */
    rank();
    return 0;
}
