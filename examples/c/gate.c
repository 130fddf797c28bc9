/* A gate's condition, built in bytes, checked and evaluated. From the root of the repository, after `tools/library`:
 *
 *     cc -std=c99 -Iinclude examples/c/gate.c target/staticlib/libfalgrumi.a -o target/gate && target/gate
 *
 * There is one given set, G0, of 4 valves. x0 is the set of open valves, x1 the level in the tank, both free. The gate opens
 * where at most 2 valves are open and the level is from 10 to 80:
 *
 *     x0 ⊆ G0 ∧ (card(x0) ≤ 2 ∧ x1 ∈ 10..80)
 */
#include "falgrumi.h"

#include <inttypes.h>
#include <stdio.h>

/* The kinds of nodes that are used here. */
enum { AND = 1, MEMBER = 7, SUBSET = 8, AT_MOST = 9, IDENTIFIER = 20, GIVEN_SET = 21, INTEGER = 23, CARD = 38, INTERVAL = 41 };

enum { GIVEN_SETS = 1, IDENTIFIERS = 2, NODES = 14, LENGTH = 44 + FALGRUMI_NODE_BYTES * NODES };

static const uint32_t words[LENGTH / 4] = {
    /* The header: form 1, counts, offsets, length. */
    1, GIVEN_SETS, IDENTIFIERS, NODES, FALGRUMI_HEADER_BYTES, 36, 44, LENGTH,
    /* The size of G0, then the marks of x0 and x1: 0 is free. */
    4, 0, 0,
    /* Each node's kind and three fields. Children stand before their parents, and the last node is the whole. */
    IDENTIFIER, 0, 0, 0, /* 0: x0 */
    GIVEN_SET, 0, 0, 0,  /* 1: G0 */
    SUBSET, 0, 1, 0,     /* 2: x0 ⊆ G0 */
    IDENTIFIER, 0, 0, 0, /* 3: x0 again, as every node has one parent */
    CARD, 3, 0, 0,       /* 4: card(x0) */
    INTEGER, 2, 0, 0,    /* 5: 2 */
    AT_MOST, 4, 5, 0,    /* 6: card(x0) ≤ 2 */
    IDENTIFIER, 1, 0, 0, /* 7: x1 */
    INTEGER, 10, 0, 0,   /* 8: 10 */
    INTEGER, 80, 0, 0,   /* 9: 80 */
    INTERVAL, 8, 9, 0,   /* 10: 10..80 */
    MEMBER, 7, 10, 0,    /* 11: x1 ∈ 10..80 */
    AND, 6, 11, 0,       /* 12: card(x0) ≤ 2 ∧ x1 ∈ 10..80 */
    AND, 2, 12, 0        /* 13: the condition */
};

/* A word, least byte first on any machine. */
static void put_word(uint8_t *at, uint32_t word)
{
    for (int i = 0; i < 4; i++)
        at[i] = (uint8_t)(word >> (8 * i));
}

/* Payload, then tag: 1 integer, 3 element (256 times its set's number plus its own), 5 set (then its members, rising). */
static void put_cell(uint8_t *at, uint8_t tag, uint32_t payload)
{
    put_word(at, payload);
    at[4] = tag;
    at[5] = at[6] = at[7] = 0;
}

/* The row of an identifier, as far as it is not fill. */
static void print_row(const uint8_t *row, int identifier)
{
    printf("x%d :", identifier);
    for (int i = 0; i < FALGRUMI_ROW_BYTES && row[i] != 0; i++)
        printf(" %02x", row[i]);
    printf("\n");
}

static void check(const uint8_t *table)
{
    static uint8_t sheet[FALGRUMI_ROW_BYTES * (IDENTIFIERS + NODES)];
    uint64_t place;
    uint8_t answer = falgrumi_check(table, LENGTH, sheet, sizeof sheet, &place);
    if (answer != FALGRUMI_NO_REFUSAL) {
        printf("refused %d at %" PRIu64 "\n", answer, place);
        return;
    }
    printf("accepted\n");
    for (int x = 0; x < IDENTIFIERS; x++)
        print_row(sheet + FALGRUMI_ROW_BYTES * x, x);
}

static void evaluate(const uint8_t *table, const uint8_t *values, size_t length)
{
    uint8_t truth;
    uint64_t place;
    uint32_t steps;
    uint8_t answer = falgrumi_evaluate(table, LENGTH, values, length, 1000, &truth, &place, &steps);
    if (answer != FALGRUMI_NO_REFUSAL)
        printf("refused %d at %" PRIu64 "\n", answer, place);
    else
        printf("%s in %" PRIu32 " steps\n", truth ? "true" : "false", steps);
}

int main(void)
{
    uint8_t table[LENGTH];
    for (int i = 0; i < LENGTH / 4; i++)
        put_word(table + 4 * i, words[i]);
    check(table);

    /* The values of x0 and x1: valves 1 and 3 are open, and the level. */
    uint8_t values[4 * FALGRUMI_CELL_BYTES];
    put_cell(values, 5, 2);
    put_cell(values + 8, 3, 1);
    put_cell(values + 16, 3, 3);
    put_cell(values + 24, 1, 42);
    evaluate(table, values, sizeof values);
    put_cell(values + 24, 1, 95);
    evaluate(table, values, sizeof values);

    /* Without the level: FALGRUMI_REFUSED_VALUES at identifier 1. */
    evaluate(table, values, 24);
    return 0;
}
