/*
 * Fensullay: reads, checks and shortens nondeterministic bottom-up tree automata that are kept as bytes ("tables").
 *
 * Link with libfensullay.a, on x86-64 Linux. It asks of the C library memcpy and memset, and nothing else. No function allocates, keeps
 * anything between calls, starts a thread, takes a lock or looks at the locale or the environment. Every call ends. Threads may call at the same
 * time, as long as none writes what another is given.
 *
 * A TABLE is a row of records. A record is a length (4 bytes), a kind (2 bytes) and a body; the length counts kind and body; all numbers are
 * unsigned and little-endian. In this order:
 *   kind 1   states n, symbols m, rules k, two bytes each; at most 256, 256 and 1,024
 *   kind 2   m bytes: the rank of each symbol, 0 to 8
 *   kind 3   the final states, two bytes each, strictly increasing
 *   kind 4   k times a rule: symbol, target state, as many child states as the symbol's rank; two bytes each
 * States, symbols and rules are numbered from 0. A TREE is one record of kind 16, with nothing after it; its body is the symbols of the tree's
 * nodes in postfix order, two bytes each.
 *
 * A tree belongs to a state if some rule with that target has the tree's top symbol and the tree's children belong to the rule's child states, in
 * order. A table accepts a tree that belongs to a final state. State q is simulated by state r (q <= r) in the largest relation in which each
 * rule of q is matched by one rule of r: the same symbol, and each child <= the child in its place. Final states play no part in it.
 *
 * A SUBTREE is a node of a tree, its top node, with all that is below it. It is given by `node`, the number of its top node in postfix order, counted
 * from 0, and `size`, how many nodes it has. Its symbols stand together: they are the `size` symbols of the tree that end with number `node`. Symbol
 * number i of a tree is the two bytes from byte 6 + 2 * i on.
 *
 * WHAT A CALLER OWES. Any bytes will do as a table or a tree, any state number, any length; all are answered. But
 *   - a pointer and its length name memory that may be read, and written where the pointer is not const;
 *   - a pointer is never NULL, not even where its length is 0;
 *   - what a call may write overlaps nothing else that the call is given: `out` may not be the table itself;
 *   - tables, trees and counts hold values. `out` and `numbers` are only written, and need hold nothing beforehand.
 *
 * WHAT IT GETS. Every function returns one number:
 *   FENSULLAY_OK (0)              done; or yes, accepted
 *   1 to 13                       refused: the number of the cause, below
 *   FENSULLAY_SHORT_ARRAY (100)   the array for numbers or counts is too short; found before everything else
 *   FENSULLAY_NO (101)            no: not accepted, or not simulated
 * Refusals and SHORT_ARRAY leave `out` and `numbers` as they were, byte for byte. SHORT_ARRAY leaves `counts` too; a check that refuses changes the
 * third of them.
 * Elements of `out`, `numbers` and `counts` after those that a call writes keep what they held. Tables and trees are never written.
 *
 * The table is judged before the tree, the state numbers and the output. In each record of a table the causes come in the order 1, 2, 7 (a rule too
 * many), 3 (length), 4, 5, 6; but a rule's symbol (5) comes before the comparison with its rank (3), and its states (5) after. Too few rules (7) is
 * found at the end. Of a tree: 8, then the node limit (11), then node by node 9, 10, 11, at the end 10.
 *
 * The stack that a call needs is said with each function, as trials/bench measures it on the compiled library, rounded up. Leave room for what
 * may interrupt a call, and for memcpy and memset where these are bound late.
 */
#ifndef FENSULLAY_H
#define FENSULLAY_H

#include <stddef.h>
#include <stdint.h>

#ifdef __cplusplus
extern "C" {
#endif

/* The library was compiled for a size_t of eight bytes. */
typedef char fensullay_size_t_has_eight_bytes[sizeof(size_t) == 8 ? 1 : -1];

enum {
    FENSULLAY_OK = 0,
    /* Of the table: */
    FENSULLAY_BROKEN_RECORD = 1,       /* what is left is not empty and holds no whole record, or a record's length is below 2 */
    FENSULLAY_WRONG_KIND = 2,          /* a record of another kind than the one that is due, or the table ends before its third record */
    FENSULLAY_WRONG_LENGTH = 3,        /* a body's length differs from the layout */
    FENSULLAY_ABOVE_LIMIT = 4,         /* more than 256 states, 256 symbols or 1,024 rules, or a rank above 8 */
    FENSULLAY_OUT_OF_RANGE = 5,        /* a symbol not below the number of symbols, or a state not below the number of states */
    FENSULLAY_FINALS_OUT_OF_ORDER = 6, /* final states that do not strictly increase */
    FENSULLAY_WRONG_RULE_COUNT = 7,    /* a rule too many, or too few */
    /* Of the tree: */
    FENSULLAY_NOT_A_TREE = 8,          /* not one whole record of kind 16 with an even body and nothing after it */
    FENSULLAY_UNKNOWN_SYMBOL = 9,      /* a node's symbol is not below the table's number of symbols */
    FENSULLAY_UNBALANCED = 10,         /* a node has fewer finished trees before it than its rank, or the body does not end with one tree */
    FENSULLAY_TREE_ABOVE_LIMIT = 11,   /* more than 16,384 nodes, or more than 1,024 finished trees waiting after a node */
    /* Of the query and of the output: */
    FENSULLAY_UNKNOWN_STATE = 12,      /* a state number that is not below the table's number of states */
    FENSULLAY_SHORT_OUTPUT = 13,       /* the output is shorter than the result */
    /* Not refusals: */
    FENSULLAY_SHORT_ARRAY = 100,
    FENSULLAY_NO = 101
};

/* A table that is not refused has at most this many bytes, and a reduced table never more than the table that it comes from. */
enum { FENSULLAY_TABLE_MAX = 27416 };

/* The relation has this many bytes to a state, and at most this many in all. */
enum { FENSULLAY_RELATION_ROW = 32, FENSULLAY_RELATION_MAX = 8192 };

/* A report has at most this many bytes. */
enum { FENSULLAY_REPORT_MAX = 64 };

/* What stands where in the array for numbers or counts; the last name of each list is how many elements the call needs. */
enum { FENSULLAY_JUDGE_STATES, FENSULLAY_JUDGE_SYMBOLS, FENSULLAY_JUDGE_RULES, FENSULLAY_JUDGE_NUMBERS };
enum { FENSULLAY_CHECK_ACCEPTED, FENSULLAY_CHECK_REJECTED, FENSULLAY_CHECK_REFUSED, FENSULLAY_CHECK_COUNTS };
enum { FENSULLAY_CHECK_NODE, FENSULLAY_CHECK_SIZE, FENSULLAY_CHECK_NUMBERS };
enum { FENSULLAY_RELATE_ROUNDS, FENSULLAY_RELATE_PAIRS, FENSULLAY_RELATE_NUMBERS };
enum { FENSULLAY_COMPARE_RULE, FENSULLAY_COMPARE_NUMBERS };
enum {
    FENSULLAY_REDUCE_LENGTH,
    FENSULLAY_REDUCE_OLD_STATES,
    FENSULLAY_REDUCE_NEW_STATES,
    FENSULLAY_REDUCE_OLD_RULES,
    FENSULLAY_REDUCE_NEW_RULES,
    FENSULLAY_REDUCE_ROUNDS,
    FENSULLAY_REDUCE_NUMBERS
};
enum { FENSULLAY_REPORT_LENGTH, FENSULLAY_REPORT_NUMBERS };

/*
 * Judges a table.
 *   OK           its states, symbols and rules stand in `numbers`
 *   1 to 7       the first cause, in the order above; `numbers` stays
 *   SHORT_ARRAY  fewer than 3 numbers; they stay
 * Stack: less than 1 KiB. No heap, no threads, no locale.
 */
uint32_t fensullay_judge(const uint8_t *table, size_t table_length, size_t *numbers, size_t numbers_length);

/*
 * Checks a tree against a table. `counts` holds how many checks were accepted, not accepted and refused, zeros at the start; the call adds one to
 * the count of its answer, also where it refuses. A count at 4,294,967,295 stays there.
 *   OK           accepted; `numbers` stays
 *   NO           not accepted, and node and size of a subtree stand in `numbers`: of the first one in postfix order that belongs to no state, final or
 *                not; or of the whole tree, if every subtree belongs to some state. All smaller subtrees in the named one belong to some state
 *   1 to 7       the table is refused; it is judged before the tree. `numbers` stays
 *   8 to 11      the tree is refused; `numbers` stays
 *   SHORT_ARRAY  fewer than 3 counts or fewer than 2 numbers; both arrays stay, and nothing is counted
 * The subtree is that of this table: with the reduced table a check may name another one.
 * Stack: 55 KiB. No heap, no threads, no locale.
 */
uint32_t fensullay_check(
    uint32_t *counts, size_t counts_length, const uint8_t *table, size_t table_length, const uint8_t *tree, size_t tree_length,
    size_t *numbers, size_t numbers_length);

/*
 * Which states of a table are simulated by which.
 *   OK           `out` begins with 32 bytes for each state q, in which bit r % 8 (bit 0 has the value 1) of byte r / 8 is 1 if q <= r, and the
 *                others are 0; the rounds after which the relation stays and the number of its pairs stand in `numbers`
 *   1 to 7       the table is refused; `out` and `numbers` stay
 *   13           `out` has fewer than 32 bytes to a state of the table; it stays, and `numbers` too
 *   SHORT_ARRAY  fewer than 2 numbers; they stay, and `out` too
 * Stack: 31 KiB. No heap, no threads, no locale.
 */
uint32_t fensullay_relate(
    const uint8_t *table, size_t table_length, uint8_t *out, size_t out_length, size_t *numbers, size_t numbers_length);

/*
 * Whether state q is simulated by state r.
 *   OK           yes; `numbers` stays
 *   NO           no, and the number of a rule of q that no rule of r matches stands in `numbers`; which such rule is not promised
 *   1 to 7       the table is refused; `numbers` stays
 *   12           q or r is not below the table's number of states; `numbers` stays
 *   SHORT_ARRAY  numbers_length is 0
 * Stack: 31 KiB. No heap, no threads, no locale.
 */
uint32_t fensullay_compare(const uint8_t *table, size_t table_length, size_t q, size_t r, size_t *numbers, size_t numbers_length);

/*
 * Reduces a table: the reduced one accepts the same trees, and a check of any bytes returns the same number and gives the same counts on both. The
 * subtrees that it names may differ.
 *   OK           `out` begins with the reduced table; its length, the states of the table and of the reduced one, the rules of both, and the rounds
 *                stand in `numbers`. The rounds are those of the simulation on what is left without the states to which no tree belongs: fensullay_relate
 *                may give another number for the same table
 *   1 to 7       the table is refused; `out` and `numbers` stay
 *   13           `out` is shorter than the reduced table; it stays, and `numbers` too. An `out` as long as the table is never too short
 *   SHORT_ARRAY  fewer than 6 numbers; they stay, and `out` too
 * Stack: 33 KiB. No heap, no threads, no locale.
 */
uint32_t fensullay_reduce(
    const uint8_t *table, size_t table_length, uint8_t *out, size_t out_length, size_t *numbers, size_t numbers_length);

/*
 * The report on a table, as lines of text, each ended by byte 10: `refused` and the number of the cause; or the four lines
 *     reduced
 *     states OLD NEW
 *     rules OLD NEW
 *     rounds NUMBER
 * It looks at the first 27,417 bytes of the input, so that on a longer input the number may differ from fensullay_judge's.
 *   OK           `out` begins with the lines, also with those of a refused table, without a 0 after them; their length stands in `numbers`
 *   13           `out` is shorter than the lines; it stays, and `numbers` too
 *   SHORT_ARRAY  numbers_length is 0; `out` stays
 * Stack: 33 KiB. No heap, no threads, no locale.
 */
uint32_t fensullay_report(
    const uint8_t *input, size_t input_length, uint8_t *out, size_t out_length, size_t *numbers, size_t numbers_length);

#ifdef __cplusplus
}
#endif

#endif
