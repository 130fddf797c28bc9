/* Falgrumi: checks the types of a B condition, evaluates it, and merges sets that it is given. The code behind these functions
 * is proved to meet document 01, as document 02 changes it.
 *
 * Link target/staticlib/libfalgrumi.a, which `tools/library` writes. examples/c/gate.c and bins.c are whole programs.
 *
 * Pointers and lengths. Bytes are lent as a pointer and then their number. Every pointer must be valid and not NULL, for
 *   length 0 too (any object's address will do there: such a pointer is never read). `place`, `steps`, `comparisons` and
 *   `bytes` must be aligned as their types are. What a function writes (the sheet, the cells, *truth, *place, *steps, *conforms,
 *   *comparisons, *bytes) must not overlap anything else that is lent.
 * Lifetimes. A function keeps no pointer: all that is lent is the caller's again when the call returns.
 * Any bytes will do. Whatever the table, sheet, values and cells hold, a call ends, stays inside what it was lent, and answers.
 * Threads. Nothing is kept between calls, and there is no shared state: calls may run at the same time, if no one writes
 *   what another reads or writes.
 * Stack. The functions allocate nothing and work on the caller's stack. The most that was measured (x86-64; tall tables over
 *   deeply nested values, deep types, and generated ones) is 47 KB for falgrumi_check, 188 KB for falgrumi_evaluate and 99 KB
 *   for falgrumi_merge. falgrumi_checked_evaluate takes what the larger
 *   of its calls takes. Lend 0.3 MB.
 * Bytes. A word is 4 bytes, least byte first. */
#ifndef FALGRUMI_H
#define FALGRUMI_H

#include <stddef.h>
#include <stdint.h>

#ifdef __cplusplus
extern "C" {
#endif

/* Sizes and limits. A table is a header of eight words (form 1; the numbers of given sets, identifiers and nodes; the offsets
 * of their records; the whole length), then one word for each given set (its element count, 1 to 32), one for each identifier
 * (0 free, 1 bound) and four for each node (kind and three fields). A table may have no nodes: a gate with no clauses yet, which
 * is true, with no visit. A sheet has one row for each identifier, then one for each node. A value is a run of cells, and its
 * weight is their number. */
enum falgrumi_size {
    FALGRUMI_HEADER_BYTES = 32,
    FALGRUMI_NODE_BYTES = 16,
    FALGRUMI_ROW_BYTES = 64,
    FALGRUMI_CELL_BYTES = 8,
    FALGRUMI_MAX_GIVEN_SETS = 16,
    FALGRUMI_MAX_ELEMENTS = 32,
    FALGRUMI_MAX_IDENTIFIERS = 32,
    FALGRUMI_MAX_NODES = 512,
    FALGRUMI_MAX_HEIGHT = 27,
    FALGRUMI_MAX_VALUE_CELLS = 256,
    FALGRUMI_MAX_VALUE_BYTES = 2048,
    /* No readable table, sheet or values buffer is longer than these. */
    FALGRUMI_MAX_TABLE_BYTES = 8416,
    FALGRUMI_MAX_SHEET_BYTES = 34816,
    FALGRUMI_MAX_VALUES_BYTES = 65536
};

/* The answers. Check gives 0 to 13, Evaluate 0 to 9 and 14 to 19, a checked evaluation 0 to 19, a merge 0 to 9, 14, 15 and 18.
 * In brackets: what the place counts; it is 0 where nothing is said, and for 15 and 18 of a merge, which visits no node. Where
 * several things of one kind are wrong, the place is the least. */
enum falgrumi_refusal {
    /* The table is accepted, the condition has a truth, or the sets are merged. */
    FALGRUMI_NO_REFUSAL = 0,
    /* The table is shorter than its header, or its first word is not 1. */
    FALGRUMI_REFUSED_FORM = 1,
    /* There are more than 16 given sets, 32 identifiers or 512 nodes. */
    FALGRUMI_REFUSED_COUNTS = 2,
    /* An offset or the length in the header is wrong, or the table's length is not the number of bytes lent. */
    FALGRUMI_REFUSED_LAYOUT = 3,
    /* A given set does not have 1 to 32 elements. [given set] */
    FALGRUMI_REFUSED_SET_SIZE = 4,
    /* An identifier is marked neither free nor bound. [identifier] */
    FALGRUMI_REFUSED_IDENTIFIER = 5,
    /* A node has an unknown kind, a field out of range, a nonzero unused field, or a child that is a predicate where an
     * expression belongs or the other way round. [node] */
    FALGRUMI_REFUSED_NODE = 6,
    /* A node is not the child of exactly one field, or the last node is not a predicate. [node] */
    FALGRUMI_REFUSED_TREE = 7,
    /* The tree under a node is more than 27 nodes high. [node] */
    FALGRUMI_REFUSED_HEIGHT = 8,
    /* A free identifier has a binder, or a bound one does not have exactly one, or is used outside its binder's body.
     * [identifier] */
    FALGRUMI_REFUSED_BINDING = 9,
    /* The sheet does not have 64 bytes for each identifier and each node. */
    FALGRUMI_REFUSED_SHEET = 10,
    /* The types clash: the rules of the nodes up to this one do not hold together. [node] */
    FALGRUMI_REFUSED_CLASH = 11,
    /* The type is ambiguous: the rules leave several. [identifiers first, then nodes] */
    FALGRUMI_REFUSED_AMBIGUITY = 12,
    /* The type weighs more than 64, which is more than a row holds. [identifiers first, then nodes] */
    FALGRUMI_REFUSED_HEAVY_TYPE = 13,
    /* The identifier's value is malformed, cut short, over 256 cells, a set whose members do not rise or are of mixed types, or
     * an element that is not there; or bytes are left behind the last value. [identifier; their number for bytes left] */
    FALGRUMI_REFUSED_VALUES = 14,
    /* The values of the node's operands have no types that its rule allows. [node] Of a merge: the two values are not sets that
     * share a type, or there are fewer than two free identifiers. */
    FALGRUMI_REFUSED_OPERANDS = 15,
    /* Choice has an empty set, or an application has a relation that is no function, since two of its pairs share a first part,
     * or an argument outside its domain. [node] */
    FALGRUMI_REFUSED_UNDEFINED = 16,
    /* A sum or difference does not fit in 32 bits. [node] */
    FALGRUMI_REFUSED_OVERFLOW = 17,
    /* The node's value would weigh more than 256 cells. [node] Of a merge: the union would. */
    FALGRUMI_REFUSED_HEAVY_VALUE = 18,
    /* The step budget is spent. [the node that would have been visited next] */
    FALGRUMI_REFUSED_BUDGET = 19
};

/* Check: whether exactly one assignment of types meets the typing rules, and which.
 *
 *   table, table_length  the table; read only.
 *   sheet, sheet_length  where the types go, FALGRUMI_ROW_BYTES for each identifier and then each node (for a table that is
 *                        not readable any length will do, 0 too). It may hold anything at entry. Written only where the
 *                        answer is 0, and then wholly; a refusal leaves every byte as it was.
 *   place                written at every return: the refusal's place, 0 where the answer is 0.
 *
 * A row is a type in prefix order, then zeros: 1 INTEGER, 2 BOOL, 3 POW, 4 the product, 16 + g the given set g. The row of a
 * predicate is zero.
 *
 * Answers a number of enum falgrumi_refusal, 0 to 13. */
uint8_t falgrumi_check(const uint8_t *table, size_t table_length, uint8_t *sheet, size_t sheet_length, uint64_t *place);

/* Evaluate: the truth of the condition at the given values. It does not check types first; an accepted table with values of
 * its types never meets refusal 15.
 *
 *   table, table_length    the table; read only.
 *   values, values_length  one value for each free identifier, in the order of their numbers, and nothing behind; read only. A
 *                          cell is 4 bytes payload, least byte first, 1 byte tag, 3 zero bytes. Tags: 1 integer (signed), 2
 *                          truth (0 or 1), 3 element k of given set g (payload 256 g + k), 4 pair (payload 0, then both
 *                          parts), 5 set (payload the number of members, then the members, rising, none twice). Values rise
 *                          by tag, then payload, then a pair's parts from left to right, a set's members from the greatest
 *                          down: {2,3} precedes {1,4}.
 *   budget                 the most visits of nodes that may be made; 0 is enough for a table without nodes.
 *   truth                  written at every return: 1 for true, 0 for false, 0 for a refusal.
 *   place                  written at every return: the refusal's place, 0 where the answer is 0.
 *   steps                  written at every return: the visits made, 0 for refusals 1 to 14.
 *
 * Answers a number of enum falgrumi_refusal: 0, 1 to 9, or 14 to 19. */
uint8_t falgrumi_evaluate(const uint8_t *table, size_t table_length, const uint8_t *values, size_t values_length,
                          uint32_t budget, uint8_t *truth, uint64_t *place, uint32_t *steps);

/* Whether the values have the types that the sheet gives to the free identifiers. Where falgrumi_check has accepted the table
 * and written the sheet, no evaluation at such values ends in refusal 15. Answers 1 where the table is readable, the sheet has
 * its length, the values pass refusal 14 and each has the type in its identifier's row; 0 otherwise. Everything is read only. */
uint8_t falgrumi_conforms(const uint8_t *table, size_t table_length, const uint8_t *sheet, size_t sheet_length,
                          const uint8_t *values, size_t values_length);

/* A checked evaluation: Check, and where it accepts the table, Evaluate, with whether the guarantee holds of it.
 *
 *   table, sheet           as for falgrumi_check: the sheet is written only where Check accepts the table.
 *   values, budget         as for falgrumi_evaluate.
 *   truth, place, steps    as for falgrumi_evaluate, written at every return; 0 steps where Check refuses.
 *   conforms               written at every return: 1 where Check accepts the table and the values have the types that it has
 *                          written for the free identifiers, else 0. Where it is 1 the guarantee holds: the answer is 0 or 16
 *                          to 19, and every value that the evaluation forms has the type in its node's row.
 *
 * Answers a number of enum falgrumi_refusal: 1 to 13 is Check's refusal, 0 and 14 to 19 the evaluation's answer, whether or not
 * the values conform. */
uint8_t falgrumi_checked_evaluate(const uint8_t *table, size_t table_length, uint8_t *sheet, size_t sheet_length,
                                  const uint8_t *values, size_t values_length, uint32_t budget, uint8_t *truth,
                                  uint64_t *place, uint32_t *steps, uint8_t *conforms);

/* A merge: the union of two sets, made in one pass front to front over their rising members, equal fronts taken together, and
 * the number of comparisons, one each time both still have a front: none where either is empty, otherwise fewer than both have
 * members together. The two are the values of the two free identifiers with the lowest numbers; the condition is not evaluated.
 *
 *   table, values          as for falgrumi_evaluate.
 *   cells, cells_length    where the union goes, in the form of the values buffer. Its cells fill the front of what is lent, if
 *                          they fit there: FALGRUMI_MAX_VALUE_BYTES are always enough, and 0 is enough to ask for the count
 *                          and the length. It may hold anything at entry. Where the cells do not fit, and for every answer but
 *                          0, no byte is written; what lies behind the cells is never written.
 *   place                  written at every return: the place of refusals 1 to 9 and 14, else 0.
 *   comparisons            written at every return: for 0 and 18 the comparisons of the whole merge, else 0.
 *   bytes                  written at every return: for 0 the length of the union's cells, which fit where this is at most
 *                          cells_length; else 0.
 *
 * Answers a number of enum falgrumi_refusal: 0, 1 to 9, 14, 15 or 18. Evaluate refuses a union with 15 or 18 exactly where the
 * merge of its operands' values is refused so. */
uint8_t falgrumi_merge(const uint8_t *table, size_t table_length, const uint8_t *values, size_t values_length, uint8_t *cells,
                       size_t cells_length, uint64_t *place, uint64_t *comparisons, uint64_t *bytes);

#ifdef __cplusplus
}
#endif

#endif
