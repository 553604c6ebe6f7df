/*
 * The miss-chance judge, for C and C++: five calls over lists of 32-bit words and two over a board of slots, as document 01 ("The miss-chance
 * judge: timelines, tables and the bound they certify") and document 02, the change requests to it, define them; docs/FORMAT.md of the
 * repository says what the words are, docs/REFUSALS.md what each refusal means. Link with target/staticlib/libmiss_chance.a, which
 * `tools/build.sh miss_chance` proves and writes at the repository's root (x86-64, System V calling convention).
 *
 * THE ANSWER. Each of the five calls writes its answer to the first four words of `answer` and returns true:
 *
 *   word 0             word 1    word 2   word 3
 *   0 (acceptance)     value     value    value    the values that the call gives, zeros where it gives fewer than three
 *   refusal's number   place     0        0        the place is a word index from 0, or the length where a word is lacking
 *
 * All four words are written each time, so nothing of an earlier answer stays in them. Words of `answer` behind the fourth are left as they are.
 * If `answer_words` is below MISS_CHANCE_ANSWER_WORDS, nothing is written and the call returns false; it never returns false otherwise. The two
 * calls of the board return their answer as a struct.
 *
 * WHAT THE CALLER OWES. Every list is a pointer and a length in words or slots, not in bytes. Each pointer must be non-null and aligned for its
 * type (4 bytes for uint32_t and slots, 8 for uint64_t), for a list of length 0 too, and the list must stay readable and unchanged, `answer`,
 * the table of a draft and the slots of a submission writable, until the call returns. These must overlap neither one another nor a list that is
 * read; lists that are only read may overlap. A list may hold any words and have any length: every input has an answer. Of a slot, `held` must
 * be 0 or 1, as C has it of a bool; its other fields may be anything. A word is a number, so words from a file, highest byte first, are put
 * together first.
 *
 * WHAT THE CALLS DO NOT DO. They read the lists and write `answer`, the table of a good draft or the slot of a submission that is accepted, and
 * touch nothing else of the caller's. They keep no pointer and no state between calls, allocate nothing, and are safe from several threads at
 * once, as long as no two share an `answer` or the table of a draft and none uses slots while another submits for them. Of the C library they
 * need memcpy and memset, which the linker finds as for any C program.
 *
 * STACK. The need is bounded and does not grow with the input: there is no recursion, and every frame has a fixed size. Measured on
 * x86-64: about 16 KiB for miss_chance_judge, 32 KiB for miss_chance_draft, 17 KiB for miss_chance_submit, 7 KiB for miss_chance_read_model,
 * 1 KiB for miss_chance_rank and for the two questions about zones. A thread with 256 KiB of stack is enough for each call.
 */
#ifndef MISS_CHANCE_H
#define MISS_CHANCE_H

#include <stdbool.h>
#include <stddef.h>
#include <stdint.h>

#ifdef __cplusplus
extern "C" {
#endif

/* How many words an answer takes. */
#define MISS_CHANCE_ANSWER_WORDS 4

/*
 * No draft takes more words than this: a head and the start node, and 64 nodes, each with its word, 20 bounds, its value and rows of 128 words
 * (32 actions of 4 edges). With so many lent none is refused with MISS_CHANCE_TOO_FEW_WORDS.
 */
#define MISS_CHANCE_DRAFT_WORDS 9602

/*
 * Word 0 of an answer, or its `number`: the numbers of documents 01 and 02, each with one name, the one that it has in the Rust package too.
 * Later versions may add some; whatever is not 0 is a refusal.
 */
enum miss_chance_number {
    MISS_CHANCE_ACCEPTED = 0,

    /* The model; the place lies in it. */
    MISS_CHANCE_BAD_MODEL_KIND = 1,   /* missing word, or kind not allowed here */
    MISS_CHANCE_BAD_MODEL_FIELD = 2,  /* field outside its range, spare bit set, or the start's location does not exist */
    MISS_CHANCE_OVER_MODEL_LIMIT = 3, /* location, action or edge over its limit */
    MISS_CHANCE_BAD_WEIGHTS = 4,      /* weights do not add to D; place: the word after the last edge */
    MISS_CHANCE_NO_LOCATION = 5,      /* an edge's location does not exist; place: the first such edge */
    MISS_CHANCE_NO_START = 6,         /* no start state at any scale; place: the start word */

    /* The table's words; the place lies in the table. */
    MISS_CHANCE_BAD_TABLE_KIND = 11,   /* missing word or wrong kind, rows, cuts and end included */
    MISS_CHANCE_BAD_TABLE_FIELD = 12,  /* field outside its range, spare bit set, or a node's location does not exist */
    MISS_CHANCE_OVER_TABLE_LIMIT = 13, /* a 65th node */
    MISS_CHANCE_NO_NODE = 14,          /* node number not there; place: the first such B or C word */

    /* What the table claims; the place lies in the table. */
    MISS_CHANCE_BAD_TARGET_VALUE = 15, /* a target's value is not V; place: its 9 word */
    MISS_CHANCE_NOT_BLOCKED = 16,      /* a row said to be blocked is not; place: its A word */
    MISS_CHANCE_WRONG_LOCATION = 17,   /* a successor has another location than the edge; place: its B word */
    MISS_CHANCE_NOT_INSIDE = 18,       /* a landing inside its location's invariant is not inside the successor's zone; place: its B word */
    MISS_CHANCE_SUM_TOO_LARGE = 19,    /* the weighted sum is too large for the node's value; place: the row's first B word */
    MISS_CHANCE_WRONG_START = 20,      /* the start node has another location than the start; place: the C word */
    MISS_CHANCE_START_NOT_INSIDE = 21, /* the start valuations are not inside the start node's zone; place: the C word */

    /* The questions about zones. */
    MISS_CHANCE_BAD_CLOCKS = 31,       /* C outside 1 to 4; place: 0 */
    MISS_CHANCE_BAD_BOUND = 32,        /* a word of the zone, of the first one where there are two, is no good bound; place: in its list */
    MISS_CHANCE_BAD_SECOND_BOUND = 33, /* a word of the second zone is no good bound; place: in its list */

    /* A cut, which the table has in place of a node's rows; the place is the B word of the part. */
    MISS_CHANCE_PART_NOT_ABOVE = 51,  /* the number of the part's node is not above the cut node's */
    MISS_CHANCE_PART_MISMATCH = 52,   /* the part's node has another location or a larger value than the cut node */
    MISS_CHANCE_PART_NOT_INSIDE = 53, /* the part is not inside its node's zone */

    /* A board, before the judge is asked; the place is 0. */
    MISS_CHANCE_BOARD_OUT_OF_RANGE = 54, /* not 16 slots, a held slot out of range, or allowance, team or slot number out of range */
    MISS_CHANCE_ALLOWANCE_SPENT = 55,    /* the allowance is spent */
    MISS_CHANCE_SLOT_HELD_BY_OTHER = 56, /* another team holds the slot */

    /* A draft, behind the model's own refusals; the place is 0. */
    MISS_CHANCE_TOO_MANY_NODES = 58, /* the draft would have a 65th node */
    MISS_CHANCE_BOUND_TOO_FAR = 59,  /* a node would have a bound beyond 4,095 either way */
    MISS_CHANCE_TOO_FEW_WORDS = 60   /* the words lent for the table are too few */
};

/*
 * Judges a table against a model. Acceptance: 0, b, V, node count; b / V is the certified fraction. Refusals: 1 to 6 with their place in the
 * model, which come first, then 11 to 21 and 51 to 53 with their place in the table.
 */
bool miss_chance_judge(const uint32_t *model, size_t model_words, const uint32_t *table, size_t table_words, uint64_t *answer,
                       size_t answer_words);

/*
 * Drafts a table for a model (document 02, card 5): explored forward from the start, with V 1,000,000 and values after so many rounds; above 1,000
 * they count as 1,000. Acceptance: 0, the length of the draft, which stands in the first words of `table`, then zeros. miss_chance_judge accepts
 * every draft, after 0 rounds too, and more rounds never give a larger fraction. Refusals: 1 to 6 with their place in the model, which come first,
 * then 58 to 60 with place 0. A refused draft leaves `table` as it was, and a good one the words past its end. draft.c beside this file is a whole
 * example.
 */
bool miss_chance_draft(const uint32_t *model, size_t model_words, uint64_t rounds, uint32_t *table, size_t table_words, uint64_t *answer,
                       size_t answer_words);

/* Reads a model. Acceptance: 0, then the counts of locations, actions and edges. Refusals: 1 to 6. */
bool miss_chance_read_model(const uint32_t *model, size_t model_words, uint64_t *answer, size_t answer_words);

/*
 * Asks whether a zone, a list of bound words over `clocks` clocks (document 01's C), is empty at every scale. Acceptance: 0, then 1 if it is
 * empty or 0 if not, then zeros. Refusals: 31, 32.
 */
bool miss_chance_zone_empty(uint32_t clocks, const uint32_t *zone, size_t zone_words, uint64_t *answer, size_t answer_words);

/*
 * Asks whether the first zone lies inside the second at every scale. Acceptance: 0, then 1 if it does or 0 if not, then zeros. Refusals: 31,
 * then 32 for the first list, then 33 for the second.
 */
bool miss_chance_zone_inside(uint32_t clocks, const uint32_t *first, size_t first_words, const uint32_t *second, size_t second_words,
                             uint64_t *answer, size_t answer_words);

/*
 * A BOARD (document 02, card 3), so that a priority engine takes its fractions from the judge alone: MISS_CHANCE_SLOTS slots and a ledger, both
 * the caller's, who lends the slots and hands the ledger from one submission to the next. Fresh, every slot is all zeros and the allowance is
 * MISS_CHANCE_ALLOWANCE. From a fresh board on, if nobody else writes them, a slot shows the last accepted submission for it, or is vacant
 * without one. board.c beside this file is a whole example.
 */

/* How many slots a board has, numbered from 0. */
#define MISS_CHANCE_SLOTS 16

/* How many submissions a fresh board may hand to the judge, over all teams together. */
#define MISS_CHANCE_ALLOWANCE 100

/* A slot: vacant, or held by a team with the fraction that the judge certified for it. What a vacant one has in its other
 * fields changes no answer and stays as it is; it must be initialised all the same, since slots are read whole. */
struct miss_chance_slot {
    bool held;
    uint32_t team;  /* 0 to 7 */
    uint32_t b;     /* b / V is the certified fraction, not reduced */
    uint32_t whole; /* V */
};

/* What submissions spend. */
struct miss_chance_ledger {
    uint32_t allowance; /* how many are left */
};

/* Who submits, and for which slot. */
struct miss_chance_request {
    uint32_t team; /* 0 to 7 */
    uint32_t slot; /* 0 to 15 */
};

/* The judge's answer, or 54 to 56 in its place. Acceptance: 0, 0, b, V, node count. Refusal: its number and place, zeros behind them. */
struct miss_chance_reply {
    uint32_t number; /* enum miss_chance_number */
    size_t place;
    uint32_t b;
    uint32_t whole;
    size_t nodes;
};

/* What a submission comes to. */
struct miss_chance_submitted {
    struct miss_chance_reply answer;
    struct miss_chance_ledger ledger; /* as it is then: hand in this one next time */
};

/* The held slots in rank. Refusal: 54, place 0, and zeros behind them. */
struct miss_chance_ranking {
    uint32_t number; /* enum miss_chance_number */
    size_t place;
    size_t count;                    /* how many slots are held */
    size_t order[MISS_CHANCE_SLOTS]; /* their numbers are the first `count`, zeros behind them */
};

/*
 * Submits a team's table for a slot. Acceptance: the slot becomes held, with the team and the certified fraction, and one of the allowance is
 * spent; a team may write over its own slot, also with a larger fraction. Refusals before the judge, place 0, with nothing spent and no slot
 * written: 54 where `slot_count` is not MISS_CHANCE_SLOTS, a held slot has a team above 7 or a fraction that no table could give (V of 0 or
 * above 268,435,455, b above V), the allowance is above MISS_CHANCE_ALLOWANCE, the team above 7 or the slot above 15; then 55 where the
 * allowance is 0; then 56 where another team holds the slot. Behind them those of miss_chance_judge, the model's included: one is spent, and no
 * slot is written.
 */
struct miss_chance_submitted miss_chance_submit(struct miss_chance_slot *slots, size_t slot_count, struct miss_chance_ledger ledger,
                                                struct miss_chance_request request, const uint32_t *model, size_t model_words,
                                                const uint32_t *table, size_t table_words);

/*
 * Gives the numbers of the held slots in rank: the smaller fraction first, of equal ones, 1/2 and 2/4 as well, the lower slot number. Refusal:
 * 54, for `slot_count` and the held slots as above.
 */
struct miss_chance_ranking miss_chance_rank(const struct miss_chance_slot *slots, size_t slot_count);

#ifdef __cplusplus
}
#endif

#endif
