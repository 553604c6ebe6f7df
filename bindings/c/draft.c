/*
 * Drafts a table for document 01's worked timeline M, with no round and then with two, and has the judge say what each certifies; then with too
 * few words lent. From the repository's root:
 *
 *   tools/build.sh miss_chance
 *   gcc -std=c99 -Wall -Wextra -pedantic -Ibindings/c bindings/c/draft.c target/staticlib/libmiss_chance.a -o target/draft
 *   target/draft
 *
 * It prints `DRAFTED 16`, `ACCEPTED 1000000 1000000 3`, `DRAFTED 16`, `ACCEPTED 100000 1000000 3` and `REFUSED 60 0`.
 */
#include "miss_chance.h"

#include <inttypes.h>
#include <stdio.h>

static const uint32_t model[] = { /* as in example.c: it misses 1 time in 10 */
    0x1110000A, 0x20000000, 0x51001003, 0x30000000, 0x50100FFE, 0x40010009, 0x40020001, 0x20000000, 0x20000001, 0x60000000, 0x51001000
};

static uint32_t table[MISS_CHANCE_DRAFT_WORDS]; /* enough for every draft */

/* Drafts into so many words and prints the length, or the refusal; says how many words the table then has. */
static size_t draft(uint64_t rounds, size_t lent)
{
    uint64_t answer[MISS_CHANCE_ANSWER_WORDS];

    if (!miss_chance_draft(model, sizeof model / sizeof model[0], rounds, table, lent, answer, MISS_CHANCE_ANSWER_WORDS)) {
        return 0;
    }
    if (answer[0] != MISS_CHANCE_ACCEPTED) {
        printf("REFUSED %" PRIu64 " %" PRIu64 "\n", answer[0], answer[1]);
        return 0;
    }
    printf("DRAFTED %" PRIu64 "\n", answer[1]);
    return (size_t)answer[1];
}

/* Judges the table. */
static void judge(size_t words)
{
    uint64_t answer[MISS_CHANCE_ANSWER_WORDS];

    if (!miss_chance_judge(model, sizeof model / sizeof model[0], table, words, answer, MISS_CHANCE_ANSWER_WORDS)) {
        return;
    }
    if (answer[0] == MISS_CHANCE_ACCEPTED) {
        printf("ACCEPTED %" PRIu64 " %" PRIu64 " %" PRIu64 "\n", answer[1], answer[2], answer[3]);
    } else {
        printf("REFUSED %" PRIu64 " %" PRIu64 "\n", answer[0], answer[1]);
    }
}

int main(void)
{
    judge(draft(0, MISS_CHANCE_DRAFT_WORDS)); /* every value is V */
    judge(draft(2, MISS_CHANCE_DRAFT_WORDS));
    draft(2, 15);
    return 0;
}
