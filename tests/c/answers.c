/* Every call over the stored cases, with every answer and every lent byte compared with what is promised.
 *
 *     answers FOLDER GUARD < WANTED
 *
 * WANTED has for each case a line "case FILE WORK RESULT" (a bundle of FOLDER, and the rows lent), then what
 * `second answers WORK RESULT` says of that bundle. What is lent is filled with 0xA5, and so are GUARD bytes on both
 * sides of it; with GUARD 0 memory ends where the slice does, for valgrind and the like to see.
 * Prints a line for each difference. Exits with 0 if there is none, 1 if there is one, 2 if it could not look.
 */
#include <stdio.h>
#include <stdlib.h>
#include <string.h>

#include "chukelowa.h"

enum { FILL = 0xA5, BLOCK_BYTES = 512, PAYLOAD_BYTES = 508, TYPE_ROWS = 512 };

/* a case: its name and rows, and what the second program says of it */
static struct wanted {
    char file[64];
    size_t work_rows, result_rows;
    chukelowa_reply read, check, fits[TYPE_ROWS + 1], run, apply;
    size_t types; /* fits from 1 to this */
    unsigned char rows[CHUKELOWA_ROW_BYTES * CHUKELOWA_MOST_RESULT_ROWS];
    size_t rows_bytes;
} wanted;

static size_t guard, cases, calls, differences;

/* ---- bytes that are lent, and looked at when they come back */

struct lent {
    unsigned char *at; /* NULL if there are none: it is not used then */
    unsigned char *memory;
    size_t bytes;
};

static void *memory_of(size_t bytes)
{
    void *memory = malloc(bytes != 0 ? bytes : 1);
    if (memory == NULL) {
        fprintf(stderr, "answers: no memory\n");
        exit(2);
    }
    return memory;
}

static struct lent lend(size_t bytes)
{
    struct lent it;
    it.bytes = bytes;
    it.memory = memory_of(bytes + 2 * guard);
    it.at = bytes != 0 ? it.memory + guard : NULL;
    memset(it.memory, FILL, bytes + 2 * guard);
    return it;
}

static void differs(const char *call, const char *what, long place, size_t said, size_t want)
{
    printf("%s %lu %lu: %s: %s", wanted.file, (unsigned long)wanted.work_rows, (unsigned long)wanted.result_rows, call, what);
    if (place >= 0)
        printf(" byte %ld", place);
    else if (place < -1)
        printf(" byte %ld before it", -1 - place);
    printf(" is %lu, not %lu\n", (unsigned long)said, (unsigned long)want);
    differences++;
}

/* so many first bytes are to be the wanted ones (NULL: 0), all else, guards too, as it was lent */
static void take_back(const char *call, const char *what, struct lent it, const unsigned char *want, size_t bytes)
{
    size_t i, place, byte;
    for (i = 0; i < it.bytes + 2 * guard; i++) {
        place = i - guard; /* before the slice: past any place */
        byte = place >= bytes ? FILL : want != NULL ? want[place] : 0;
        if (it.memory[i] != byte) {
            differs(call, what, i < guard ? -1 - (long)(guard - i) : (long)place, it.memory[i], byte);
            break;
        }
    }
    free(it.memory);
}

/* ---- one answer against another */

static void compare(const char *call, chukelowa_reply said, chukelowa_reply want)
{
    static const char *const names[] = {"number", "a", "b", "check_units", "run_units", "root"};
    size_t i, is[6], to_be[6];
    is[0] = said.number, is[1] = said.a, is[2] = said.b, is[3] = said.check_units, is[4] = said.run_units, is[5] = said.root;
    to_be[0] = want.number, to_be[1] = want.a, to_be[2] = want.b, to_be[3] = want.check_units, to_be[4] = want.run_units, to_be[5] = want.root;
    for (i = 0; i < 6; i++)
        if (is[i] != to_be[i])
            differs(call, names[i], -1, is[i], to_be[i]);
    calls++;
}

static chukelowa_reply only(size_t number)
{
    chukelowa_reply reply = {0, 0, 0, 0, 0, 0};
    reply.number = number;
    return reply;
}

/* ---- the calls, each with so many bytes lent */

static unsigned char *bundle;
static size_t bundle_bytes;

static void try_read(size_t tables_bytes, chukelowa_reply want, const unsigned char *tables, size_t need)
{
    struct lent lent = lend(tables_bytes);
    compare("read", chukelowa_read(bundle, bundle_bytes, lent.at, tables_bytes), want);
    take_back("read", "tables", lent, tables, want.number == CHUKELOWA_DONE ? need : 0);
}

/* the tables are lent as a copy that ends where they do */
static void try_write(const unsigned char *tables, size_t tables_bytes, size_t blocks_bytes, chukelowa_reply want)
{
    struct lent lent = lend(blocks_bytes);
    unsigned char *copy = memory_of(tables_bytes);
    memcpy(copy, tables, tables_bytes);
    compare("write", chukelowa_write(copy, tables_bytes, lent.at, blocks_bytes), want);
    take_back("write", "blocks", lent, bundle, want.number == CHUKELOWA_DONE ? bundle_bytes : 0);
    if (memcmp(copy, tables, tables_bytes) != 0)
        differs("write", "its tables", -1, 1, 0);
    free(copy);
}

static void try_check(size_t work_bytes)
{
    struct lent work = lend(work_bytes);
    compare("check", chukelowa_check(bundle, bundle_bytes, work.at, work_bytes), wanted.check);
    take_back("check", "working", work, NULL, work_bytes);
}

static void try_fit(size_t row, chukelowa_reply want)
{
    compare("fit", chukelowa_fit(bundle, bundle_bytes, row), want);
}

typedef chukelowa_reply edits(const unsigned char *, size_t, unsigned char *, size_t, unsigned char *, size_t);

/* run and apply */
static void try_edit(const char *call, edits *edit, chukelowa_reply want, size_t work_bytes, size_t result_bytes)
{
    struct lent work = lend(work_bytes), result = lend(result_bytes);
    compare(call, edit(bundle, bundle_bytes, work.at, work_bytes, result.at, result_bytes), want);
    take_back(call, "working", work, NULL, work_bytes);
    take_back(call, "result", result, wanted.rows, want.number == CHUKELOWA_DONE ? wanted.rows_bytes : 0);
}

/* ---- a case */

static size_t word(const unsigned char *bytes, size_t place)
{
    return bytes[2 * place] + 256u * bytes[2 * place + 1];
}

/* how many bytes tables have, by their counts */
static size_t need_of(const unsigned char *tables)
{
    static const size_t row_words[] = {1, 3, 4, 4, 5, 4};
    size_t i, words = 13;
    for (i = 0; i < 6; i++)
        words += row_words[i] * word(tables, i);
    return 2 * words + word(tables, CHUKELOWA_POOL_BYTES);
}

/* the reader and the writer: exactly enough is lent, one byte less, and more */
static void try_copies(void)
{
    unsigned char tables[CHUKELOWA_TABLES_BYTES];
    size_t need, blocks = bundle_bytes / BLOCK_BYTES, i;
    if (wanted.read.number == CHUKELOWA_BLOCK) {
        try_read(0, wanted.read, NULL, 0);
        try_read(sizeof tables, wanted.read, NULL, 0);
        return;
    }
    /* the tables are the payload of the blocks, without their padding */
    for (i = 0; i < blocks; i++)
        memcpy(tables + PAYLOAD_BYTES * i, bundle + BLOCK_BYTES * i + 2, PAYLOAD_BYTES);
    need = need_of(tables);
    try_read(sizeof tables, wanted.read, tables, need);
    if (wanted.read.number != CHUKELOWA_DONE) {
        try_read(0, wanted.read, NULL, 0);
        try_write(tables, need, bundle_bytes, wanted.read);
        try_write(tables, need, 0, wanted.read);
        return;
    }
    try_read(need, wanted.read, tables, need);
    try_read(need - 1, only(CHUKELOWA_ROOM), NULL, 0);
    try_read(0, only(CHUKELOWA_ROOM), NULL, 0);
    try_write(tables, need, bundle_bytes, wanted.read);
    try_write(tables, PAYLOAD_BYTES * blocks, bundle_bytes + 1, wanted.read);
    try_write(tables, need, bundle_bytes - 1, only(CHUKELOWA_ROOM));
    try_write(tables, need, 0, only(CHUKELOWA_ROOM));
    try_write(tables, need - 1, bundle_bytes, only(CHUKELOWA_SHAPE));
    try_write(tables, 0, bundle_bytes, only(CHUKELOWA_SHAPE));
}

/* fit: every type row, and rows that are none */
static void try_fits(void)
{
    chukelowa_reply none = wanted.read.number != CHUKELOWA_DONE ? wanted.read : only(CHUKELOWA_SHAPE);
    size_t row;
    for (row = 1; row <= wanted.types; row++)
        try_fit(row, wanted.fits[row]);
    try_fit(0, none);
    try_fit(wanted.types + 1, none);
    try_fit(65536 + 1, none);
    try_fit((size_t)-1, none);
}

/* the bundle of the case, in memory that ends where it does */
static void load(const char *folder)
{
    static unsigned char bytes[CHUKELOWA_BUNDLE_BYTES + BLOCK_BYTES];
    char path[512];
    FILE *file;
    sprintf(path, "%.400s/%s", folder, wanted.file);
    file = fopen(path, "rb");
    if (file == NULL) {
        perror(path);
        exit(2);
    }
    bundle_bytes = fread(bytes, 1, sizeof bytes, file);
    fclose(file);
    bundle = memory_of(bundle_bytes);
    memcpy(bundle, bytes, bundle_bytes);
}

static void try_case(const char *folder)
{
    unsigned char *before;
    size_t extra, work, result;
    load(folder);
    before = memory_of(bundle_bytes);
    memcpy(before, bundle, bundle_bytes);
    if (wanted.read.number != CHUKELOWA_DONE)
        wanted.check = wanted.run = wanted.apply = wanted.read;
    try_copies();
    try_fits();
    /* whole rows only count: what is lent past them changes no answer */
    for (extra = 0; extra < CHUKELOWA_ROW_BYTES; extra += 7) {
        work = CHUKELOWA_ROW_BYTES * wanted.work_rows + extra;
        result = CHUKELOWA_ROW_BYTES * wanted.result_rows + extra;
        try_check(work);
        try_edit("run", chukelowa_run, wanted.run, work, result);
        try_edit("apply", chukelowa_apply, wanted.apply, work, result);
    }
    if (memcmp(before, bundle, bundle_bytes) != 0)
        differs("a call", "its bundle", -1, 1, 0);
    free(before);
    free(bundle);
    cases++;
}

/* ---- what is wanted */

static size_t number(void)
{
    unsigned long it;
    if (scanf("%lu", &it) != 1) {
        fprintf(stderr, "answers: %s: a number is missing\n", wanted.file);
        exit(2);
    }
    return it;
}

static void start_case(void)
{
    memset(&wanted, 0, sizeof wanted);
    if (scanf("%63s", wanted.file) != 1)
        exit(2);
    wanted.work_rows = number();
    wanted.result_rows = number();
}

static void add_row(void)
{
    size_t i, it;
    for (i = 0; i < 4; i++) {
        it = number();
        wanted.rows[wanted.rows_bytes++] = it % 256;
        wanted.rows[wanted.rows_bytes++] = it / 256;
    }
}

static void add_line(const char *first)
{
    chukelowa_reply it = {0, 0, 0, 0, 0, 0};
    if (strcmp(first, "read") == 0) {
        wanted.read.number = number();
    } else if (strcmp(first, "check") == 0) {
        it.number = number(), it.check_units = number(), it.a = number(), it.b = number();
        wanted.check = it;
    } else if (strcmp(first, "fit") == 0) {
        wanted.types = number();
        it.number = number(), it.a = number(), it.b = number();
        wanted.fits[wanted.types] = it;
    } else if (strcmp(first, "run") == 0) {
        it.number = number(), it.run_units = number(), it.a = number(), it.b = number(), it.root = number();
        wanted.run = it;
    } else if (strcmp(first, "apply") == 0) {
        it.number = number(), it.check_units = number(), it.run_units = number(), it.a = number(), it.b = number(), it.root = number();
        wanted.apply = it;
    } else {
        add_row();
    }
}

int main(int count, char **words)
{
    char first[16];
    if (count != 3) {
        fprintf(stderr, "usage: answers FOLDER GUARD < WANTED\n");
        return 2;
    }
    guard = strtoul(words[2], NULL, 10);
    while (scanf("%15s", first) == 1) {
        if (strcmp(first, "case") == 0) {
            if (wanted.file[0] != 0)
                try_case(words[1]);
            start_case();
        } else {
            add_line(first);
        }
    }
    if (wanted.file[0] != 0)
        try_case(words[1]);
    printf("%lu cases, %lu calls, %lu differences\n", (unsigned long)cases, (unsigned long)calls, (unsigned long)differences);
    return cases == 0 ? 2 : differences != 0;
}
