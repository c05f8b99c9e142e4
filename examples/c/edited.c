/* Loads a bundle from a file, has its script checked from A to B, its forest fitted to A and the script run (apply), walks
 * the result's rows and prints the edited description in the notation of docs/NOTATION.md.
 *
 *     edited FILE [NAME..]
 *
 * A bundle has no names: the words after the file are those of labels 1, 2, 3 and so on; any other label, 9, is l9.
 * Exits with 0 if it is done, 1 if a call refused, 2 if the file could not be read.
 */
#include <stdio.h>

#include "chukelowa.h"

/* one byte more than any bundle has, so that a longer file is refused as one */
static unsigned char bundle[CHUKELOWA_BUNDLE_BYTES + 1];
static unsigned char tables[CHUKELOWA_TABLES_BYTES];
static unsigned char work[CHUKELOWA_WORK_BYTES];
static unsigned char result[CHUKELOWA_RESULT_BYTES];

static char **label_names;
static size_t named;

static size_t word(const unsigned char *bytes, size_t place)
{
    return bytes[2 * place] + 256u * bytes[2 * place + 1];
}

/* a result row: its words are kind, p, q, next */
static const unsigned char *row_at(size_t row)
{
    return result + CHUKELOWA_ROW_BYTES * (row - 1);
}

/* where the pool begins in the tables */
static const unsigned char *pool(void)
{
    size_t words = 13 + word(tables, CHUKELOWA_NAMES) + 3 * word(tables, CHUKELOWA_TYPES)
        + 4 * word(tables, CHUKELOWA_QUERIES) + 4 * word(tables, CHUKELOWA_STATEMENTS)
        + 5 * word(tables, CHUKELOWA_PROCEDURES) + 4 * word(tables, CHUKELOWA_FOREST_ROWS);
    return tables + 2 * words;
}

static void print_text(size_t offset, size_t length)
{
    const unsigned char *text = pool() + offset;
    size_t i;
    putchar('"');
    for (i = 0; i < length; i++) {
        if (text[i] == '"' || text[i] == '\\')
            printf("\\%c", text[i]);
        else if (text[i] < 32 || text[i] > 126)
            printf("\\x%02x", text[i]);
        else
            putchar(text[i]);
    }
    putchar('"');
}

static void print_label(size_t label)
{
    if (label >= 1 && label <= named)
        printf("%s", label_names[label - 1]);
    else
        printf("l%lu", (unsigned long)label);
}

/* how many labels stand in each other, from these trees down */
static size_t height(size_t row)
{
    size_t most = 0, one;
    for (; row != 0; row = word(row_at(row), 3)) {
        one = word(row_at(row), 0) == CHUKELOWA_LABEL ? 1 + height(word(row_at(row), 2)) : 0;
        if (one > most)
            most = one;
    }
    return most;
}

static void new_line(size_t indent)
{
    putchar('\n');
    while (indent-- > 0)
        printf("  ");
}

/* the trees from a row on: siblings in a loop, children by a call; a line for each where there is much in them */
static void print_trees(size_t row, size_t indent, int lines)
{
    const unsigned char *at;
    int inner;
    for (; row != 0; row = word(at, 3)) {
        at = row_at(row);
        switch (word(at, 0)) {
        case CHUKELOWA_TEXT:
            print_text(word(at, 1), word(at, 2));
            break;
        case CHUKELOWA_FALSE:
            printf("false");
            break;
        case CHUKELOWA_TRUE:
            printf("true");
            break;
        case CHUKELOWA_LABEL:
            inner = height(word(at, 2)) > 1;
            print_label(word(at, 1));
            putchar('[');
            if (inner)
                new_line(indent + 1);
            print_trees(word(at, 2), indent + 1, inner);
            if (inner)
                new_line(indent);
            putchar(']');
            break;
        }
        if (word(at, 3) != 0) {
            putchar(',');
            if (lines)
                new_line(indent);
            else
                putchar(' ');
        }
    }
}

/* whether a call is done; what it says if it is not goes to standard error */
static int is_done(const char *call, chukelowa_reply reply)
{
    static const char *const names[] = {
        "done", "Block", "Shape", "Barren", "Tie", "Fuel", "Depth",
        "Wide", "Mismatch", "Not included", "Unfit", "Stuck", "Scratch", "Room",
    };
    if (reply.number == CHUKELOWA_DONE)
        return 1;
    fprintf(stderr, "%s: refused with %lu (%s), %lu %lu, after %lu units of the check and %lu of the run\n", call,
            (unsigned long)reply.number, names[reply.number], (unsigned long)reply.a, (unsigned long)reply.b,
            (unsigned long)reply.check_units, (unsigned long)reply.run_units);
    return 0;
}

/* the file's bytes in `bundle`; 0 if they could not be read */
static int load(const char *name, size_t *bytes)
{
    FILE *file = fopen(name, "rb");
    int loaded = 0;
    if (file != NULL) {
        *bytes = fread(bundle, 1, sizeof bundle, file);
        loaded = !ferror(file);
    }
    if (!loaded)
        perror(name);
    if (file != NULL)
        fclose(file);
    return loaded;
}

int main(int count, char **words)
{
    chukelowa_reply edited;
    size_t bytes;
    if (count < 2) {
        fprintf(stderr, "usage: edited FILE [NAME..]\n");
        return 2;
    }
    label_names = words + 2;
    named = (size_t)count - 2;
    if (!load(words[1], &bytes))
        return 2;
    /* the tables are for the texts of the result, which stand in the pool */
    if (!is_done("read", chukelowa_read(bundle, bytes, tables, sizeof tables)))
        return 1;
    edited = chukelowa_apply(bundle, bytes, work, sizeof work, result, sizeof result);
    if (!is_done("apply", edited))
        return 1;
    print_trees(edited.root, 0, 1);
    putchar('\n');
    return 0;
}
