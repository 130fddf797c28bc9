/* Two groups of bins, merged. From the root of the repository, after `tools/library`:
 *
 *     cc -std=c99 -Iinclude examples/c/bins.c target/staticlib/libfalgrumi.a -o target/bins && target/bins
 *
 * There is one given set, G0, of 6 bins. x0 and x1 are groups of bins, both free. A merge does not evaluate the condition:
 *
 *     x0 ∪ x1 = G0
 */
#include "falgrumi.h"

#include <inttypes.h>
#include <stdio.h>

/* The kinds of nodes that are used here. */
enum { EQUAL = 6, IDENTIFIER = 20, GIVEN_SET = 21, UNION = 29 };

enum { GIVEN_SETS = 1, IDENTIFIERS = 2, NODES = 5, LENGTH = 44 + FALGRUMI_NODE_BYTES * NODES };

static const uint32_t words[LENGTH / 4] = {
    /* The header: form 1, counts, offsets, length. */
    1, GIVEN_SETS, IDENTIFIERS, NODES, FALGRUMI_HEADER_BYTES, 36, 44, LENGTH,
    /* The size of G0, then the marks of x0 and x1: 0 is free. */
    6, 0, 0,
    /* Each node's kind and three fields. */
    IDENTIFIER, 0, 0, 0, /* 0: x0 */
    IDENTIFIER, 1, 0, 0, /* 1: x1 */
    UNION, 0, 1, 0,      /* 2: x0 ∪ x1 */
    GIVEN_SET, 0, 0, 0,  /* 3: G0 */
    EQUAL, 2, 3, 0       /* 4: the condition */
};

/* A word, least byte first on any machine. */
static void put_word(uint8_t *at, uint32_t word)
{
    for (int i = 0; i < 4; i++)
        at[i] = (uint8_t)(word >> (8 * i));
}

/* Payload, then tag: 3 element (256 times its set's number plus its own), 5 set (then its members, rising). */
static void put_cell(uint8_t *at, uint8_t tag, uint32_t payload)
{
    put_word(at, payload);
    at[4] = tag;
    at[5] = at[6] = at[7] = 0;
}

static void put_group(uint8_t *at, const uint32_t *bins, uint32_t count)
{
    put_cell(at, 5, count);
    for (uint32_t i = 0; i < count; i++)
        put_cell(at + FALGRUMI_CELL_BYTES * (i + 1), 3, bins[i]);
}

/* The bins of a union: behind the cell of the set each has its own, with its number in the first byte. */
static void print_bins(const uint8_t *cells, uint64_t bytes)
{
    printf("bins");
    for (uint64_t at = FALGRUMI_CELL_BYTES; at < bytes; at += FALGRUMI_CELL_BYTES)
        printf(" %d", cells[at]);
}

static void merge(const uint8_t *table, const uint8_t *values, size_t length, uint8_t *cells, size_t room)
{
    uint64_t place, comparisons, bytes;
    uint8_t answer = falgrumi_merge(table, LENGTH, values, length, cells, room, &place, &comparisons, &bytes);
    if (answer != FALGRUMI_NO_REFUSAL) {
        printf("refused %d at %" PRIu64 "\n", answer, place);
        return;
    }
    if (bytes <= room)
        print_bins(cells, bytes);
    else
        printf("%" PRIu64 " bytes", bytes);
    printf(" in %" PRIu64 " comparisons\n", comparisons);
}

int main(void)
{
    uint8_t table[LENGTH];
    for (int i = 0; i < LENGTH / 4; i++)
        put_word(table + 4 * i, words[i]);

    /* The values of x0 and x1: bins 0, 1 and 3, and bins 1, 3 and 4. */
    uint8_t values[8 * FALGRUMI_CELL_BYTES], cells[FALGRUMI_MAX_VALUE_BYTES];
    put_group(values, (const uint32_t[]){0, 1, 3}, 3);
    put_group(values + 32, (const uint32_t[]){1, 3, 4}, 3);
    merge(table, values, sizeof values, cells, sizeof cells);

    /* Nothing is lent: the length of the union and the count alone. */
    merge(table, values, sizeof values, cells, 0);

    /* x1 is bin 1, which is no group: FALGRUMI_REFUSED_OPERANDS. */
    put_cell(values + 32, 3, 1);
    merge(table, values, 40, cells, sizeof cells);

    /* Without x1: FALGRUMI_REFUSED_VALUES at identifier 1. */
    merge(table, values, 32, cells, sizeof cells);
    return 0;
}
