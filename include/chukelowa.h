/* Chukelowa's calls for C and C++: scripts that edit a description, checked and run.
 *
 * A bundle holds types, a script, a forest and its texts (docs/REFUSALS.md, "1, Block" and "2, Shape"). Every call takes
 * a bundle, or tables, and bytes that the caller lends; it keeps none of them, holds no state of its own, takes no
 * memory but the stack (docs/STACK.md), and may be called from any thread. Every length is in bytes.
 *
 * For every input a call ends, and what it answers and leaves in every lent byte is proved (crates/calls):
 *   - refused, the result (rows, tables, blocks) is as it was; done, all past what is written is as it was;
 *   - the working bytes are all zero after every call, done or refused.
 *
 * What the caller owes: a pointer goes with as many bytes as its length says, less than 2^63, and what is lent to be
 * written overlaps nothing else that is lent to the same call. With length 0 the pointer is not used.
 */
#ifndef CHUKELOWA_H
#define CHUKELOWA_H

#include <stddef.h>

#ifdef __cplusplus
extern "C" {
#endif

/* What the number of an answer means; docs/REFUSALS.md says when each is given, and what to do about it. */
enum chukelowa_number {
    CHUKELOWA_DONE = 0,
    CHUKELOWA_BLOCK = 1,         /* the bytes are no bundle */
    CHUKELOWA_SHAPE = 2,         /* a rule or limit of the tables is broken; fit: no such type row */
    CHUKELOWA_BARREN = 3,        /* a type name has no finite forest; a: the lowest such name */
    CHUKELOWA_TIE = 4,           /* two type rows with one head may both stand next; a, b: the rows */
    CHUKELOWA_FUEL = 5,          /* a unit is due and none is left */
    CHUKELOWA_DEPTH = 6,         /* a row would start at depth 201 */
    CHUKELOWA_WIDE = 7,          /* a type asked about has more than 512 rows; a, b: the row that asks */
    CHUKELOWA_MISMATCH = 8,      /* a rule of the check is unmet; a, b: the row that asks */
    CHUKELOWA_NOT_INCLUDED = 9,  /* a call, or a declared output, does not lie in its type; a, b: the call's row, or 0, 0 */
    CHUKELOWA_UNFIT = 10,        /* the forest is not of the type; a: the forest row of the first tree whose head cannot stand
                                    where it is, or whose content ends too soon; 0 if the forest itself does */
    CHUKELOWA_STUCK = 11,        /* a run cannot go on; a, b: the row */
    CHUKELOWA_SCRATCH = 12,      /* too few working rows were lent */
    CHUKELOWA_ROOM = 13          /* too little was lent for the result */
};

/* With 7, 8, 9 and 11, b says which table the row a is of; with row 0, the end of a body or of the script, b is 0 too. */
enum chukelowa_table {
    CHUKELOWA_QUERY = 1,
    CHUKELOWA_STATEMENT = 2
};

/* An answer. What it does not carry is 0: units where the walk did not begin, the root where no run is done. */
typedef struct chukelowa_reply {
    size_t number;      /* an enum chukelowa_number */
    size_t a;
    size_t b;
    size_t check_units; /* units that the check took */
    size_t run_units;   /* units that the run took */
    size_t root;        /* the result's root: how many rows it has, 0 for the empty forest */
} chukelowa_reply;

/* A working row and a result row are four words of 16 bits, low byte first. Whole rows count, and at most 65,535. */
#define CHUKELOWA_ROW_BYTES 8

/* How much to lend: working rows that are enough for every check and run; result rows that the program apply lends, and
 * the most that count; bytes that hold any tables, and any bundle. */
#define CHUKELOWA_WORK_ROWS 6144
#define CHUKELOWA_RESULT_ROWS 8192
#define CHUKELOWA_MOST_RESULT_ROWS 65535
#define CHUKELOWA_WORK_BYTES (CHUKELOWA_ROW_BYTES * CHUKELOWA_WORK_ROWS)
#define CHUKELOWA_RESULT_BYTES (CHUKELOWA_ROW_BYTES * CHUKELOWA_RESULT_ROWS)
#define CHUKELOWA_TABLES_BYTES 44704
#define CHUKELOWA_BUNDLE_BYTES 45056

/* Tables begin with thirteen words, low byte first; these are their places. Then come the tables in the order of the
 * counts, with 1, 3, 4, 4, 5 and 4 words a row, then the pool. */
enum chukelowa_word {
    CHUKELOWA_NAMES,
    CHUKELOWA_TYPES,
    CHUKELOWA_QUERIES,
    CHUKELOWA_STATEMENTS,
    CHUKELOWA_PROCEDURES,
    CHUKELOWA_FOREST_ROWS,
    CHUKELOWA_POOL_BYTES,
    CHUKELOWA_A,            /* the type row of A */
    CHUKELOWA_B,
    CHUKELOWA_MAIN,         /* the statement row of the script */
    CHUKELOWA_FOREST_ROOT,
    CHUKELOWA_CHECK_FUEL,
    CHUKELOWA_RUN_FUEL
};

/* The kinds of forest rows, in tables and results alike. The words of a row: kind, p, q, next. */
enum chukelowa_kind {
    CHUKELOWA_TEXT = 1,     /* p: offset in the pool; q: length */
    CHUKELOWA_FALSE = 2,
    CHUKELOWA_TRUE = 3,
    CHUKELOWA_LABEL = 4     /* p: the label; q: the first child's row, 0 for none */
};

/* A bundle into the lent tables: 0, 1, 2 or 13. */
chukelowa_reply chukelowa_read(const unsigned char *bundle, size_t bundle_bytes,
                               unsigned char *tables, size_t tables_bytes);

/* Tables into a bundle, in the lent blocks: 0, 2 or 13. It has 512 bytes for each 508 of the tables, or part of them. */
chukelowa_reply chukelowa_write(const unsigned char *tables, size_t tables_bytes,
                                unsigned char *blocks, size_t blocks_bytes);

/* Does the script take type A into type B: 0 to 9 or 12, with check_units. */
chukelowa_reply chukelowa_check(const unsigned char *bundle, size_t bundle_bytes,
                                unsigned char *work, size_t work_bytes);

/* Is the forest of the type at row type_row: 0 to 4 or 10. */
chukelowa_reply chukelowa_fit(const unsigned char *bundle, size_t bundle_bytes, size_t type_row);

/* The edited forest, as result rows from the first lent row on: 0 to 6 or 11 to 13, with run_units and the root. Rows
 * are numbered from 1, 0 is none; a row's children and next are lower rows, and the first tree is the root's row. */
chukelowa_reply chukelowa_run(const unsigned char *bundle, size_t bundle_bytes,
                              unsigned char *work, size_t work_bytes,
                              unsigned char *result, size_t result_bytes);

/* Check, fit against A, run; the first refusal ends it: 0 to 10, 12 or 13, with both units, and of a run that is done the rows
 * and the root as chukelowa_run gives them. */
chukelowa_reply chukelowa_apply(const unsigned char *bundle, size_t bundle_bytes,
                                unsigned char *work, size_t work_bytes,
                                unsigned char *result, size_t result_bytes);

#ifdef __cplusplus
}
#endif

#endif
