/* Reduces document 01's bench table, and checks two trees against both tables. */
#include <stdio.h>

#include "fensullay.h"

/* A record is a length (4 bytes, of what follows it), a kind (2 bytes) and a body; all numbers are little-endian. */
static const uint8_t bench[] = {
    8, 0, 0, 0, 1, 0, 5, 0, 3, 0, 8, 0,        /* 5 states, 3 symbols, 8 rules */
    5, 0, 0, 0, 2, 0, 0, 0, 2,                 /* symbols 0, 1, 2: a, b and f, of ranks 0, 0, 2 */
    4, 0, 0, 0, 3, 0, 3, 0,                    /* state 3 is final */
    6, 0, 0, 0, 4, 0, 0, 0, 0, 0,              /* a -> 0 */
    6, 0, 0, 0, 4, 0, 0, 0, 1, 0,              /* a -> 1 */
    6, 0, 0, 0, 4, 0, 0, 0, 2, 0,              /* a -> 2 */
    6, 0, 0, 0, 4, 0, 1, 0, 2, 0,              /* b -> 2 */
    10, 0, 0, 0, 4, 0, 2, 0, 3, 0, 0, 0, 2, 0, /* f(0,2) -> 3 */
    10, 0, 0, 0, 4, 0, 2, 0, 3, 0, 1, 0, 2, 0, /* f(1,2) -> 3 */
    10, 0, 0, 0, 4, 0, 2, 0, 3, 0, 2, 0, 2, 0, /* f(2,2) -> 3 */
    10, 0, 0, 0, 4, 0, 2, 0, 4, 0, 4, 0, 0, 0  /* f(4,0) -> 4 */
};

/* A tree is one record of kind 16: the symbols of its nodes, each after its children. */
static const uint8_t flat[] = {8, 0, 0, 0, 16, 0, 1, 0, 0, 0, 2, 0};                          /* f(b,a) */
static const uint8_t deep[] = {16, 0, 0, 0, 16, 0, 0, 0, 0, 0, 2, 0, 0, 0, 2, 0, 1, 0, 2, 0}; /* f(f(f(a,a),a),b) */

/* Checks a tree over a, b and f and prints the answer; of a tree that is not accepted also the subtree to look at. */
static void check(
    const char *name, uint32_t *counts, const uint8_t *table, size_t table_length, const uint8_t *tree, size_t tree_length)
{
    size_t numbers[FENSULLAY_CHECK_NUMBERS];
    uint32_t answer = fensullay_check(
        counts, FENSULLAY_CHECK_COUNTS, table, table_length, tree, tree_length, numbers, FENSULLAY_CHECK_NUMBERS);
    printf("%s: %s", name, answer == FENSULLAY_OK ? "accepted" : answer == FENSULLAY_NO ? "not accepted" : "refused");
    if (answer == FENSULLAY_NO) {
        size_t node = numbers[FENSULLAY_CHECK_NODE], size = numbers[FENSULLAY_CHECK_SIZE], i;
        printf(", look at node %zu, size %zu:", node, size);
        for (i = node + 1 - size; i <= node; i++) {
            printf(" %c", "abf"[tree[6 + 2 * i] + 256 * tree[7 + 2 * i]]);
        }
    }
    printf("\n");
}

int main(void)
{
    uint8_t reduced[sizeof bench]; /* a reduced table is never longer than the table */
    size_t numbers[FENSULLAY_REDUCE_NUMBERS];
    size_t length;
    uint32_t counts[FENSULLAY_CHECK_COUNTS] = {0};

    uint32_t answer = fensullay_reduce(bench, sizeof bench, reduced, sizeof reduced, numbers, FENSULLAY_REDUCE_NUMBERS);
    if (answer != FENSULLAY_OK) {
        printf("refused %u\n", (unsigned)answer);
        return 1;
    }
    length = numbers[FENSULLAY_REDUCE_LENGTH];
    printf("bytes %zu %zu\n", sizeof bench, length);
    printf("states %zu %zu\n", numbers[FENSULLAY_REDUCE_OLD_STATES], numbers[FENSULLAY_REDUCE_NEW_STATES]);
    printf("rules %zu %zu\n", numbers[FENSULLAY_REDUCE_OLD_RULES], numbers[FENSULLAY_REDUCE_NEW_RULES]);
    printf("rounds %zu\n", numbers[FENSULLAY_REDUCE_ROUNDS]);

    check("f(b,a)", counts, bench, sizeof bench, flat, sizeof flat);
    check("f(b,a), reduced", counts, reduced, length, flat, sizeof flat);
    check("f(f(f(a,a),a),b)", counts, bench, sizeof bench, deep, sizeof deep);
    check("f(f(f(a,a),a),b), reduced", counts, reduced, length, deep, sizeof deep);
    printf("counts: accepted %u, not accepted %u, refused %u\n", (unsigned)counts[FENSULLAY_CHECK_ACCEPTED],
        (unsigned)counts[FENSULLAY_CHECK_REJECTED], (unsigned)counts[FENSULLAY_CHECK_REFUSED]);
    return 0;
}
