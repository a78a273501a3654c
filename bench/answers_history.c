/* Answers requests from standard input, for compare_history.py.
 *
 * A request (requests.h) is the seven tables of panheron_history in their
 * order, entries low byte first.  The answer is one line: number, tree and
 * place, and behind a semicolon each all entries of places, labels and counts
 * as they are afterwards.
 *
 * Compiled as it is, it asks history.c; with -DASK_PANHERON it asks the archive.
 */
#include <inttypes.h>
#include <string.h>

#include "requests.h"

#ifdef ASK_PANHERON
#include "panheron.h"
#define CALL(rest) panheron_history##rest
#else
#include "history.h"
#define CALL(rest) plain_history##rest
#endif

_Static_assert(__BYTE_ORDER__ == __ORDER_LITTLE_ENDIAN__,
               "entries are read as they lie, low byte first");

enum { READ = 4, TABLES = 7 };

static const size_t widths[TABLES] = {2, 4, 2, 4, 2, 2, 8};

static void answer(const struct slice *t)
{
    size_t n[TABLES];
    uint32_t number, tree, place;
    for (size_t i = 0; i < TABLES; i++) {
        if (t[i].length % widths[i] != 0)
            stop("a table ends within an entry");
        n[i] = t[i].length / widths[i];
    }
#define FOUR                                                                 \
    (const uint16_t *)(const void *)t[0].bytes, n[0],                        \
        (const uint32_t *)(const void *)t[1].bytes, n[1],                    \
        (const uint16_t *)(const void *)t[2].bytes, n[2],                    \
        (const uint32_t *)(const void *)t[3].bytes, n[3]
    number = CALL()(FOUR, (uint16_t *)(void *)t[4].bytes, n[4],
                    (uint16_t *)(void *)t[5].bytes, n[5],
                    (uint64_t *)(void *)t[6].bytes, n[6]);
    tree = CALL(_tree)(FOUR);
    place = CALL(_place)(FOUR);
    printf("%u %u %u", (unsigned)number, (unsigned)tree, (unsigned)place);
}

static void print_table(const struct slice *table, size_t width)
{
    putchar(';');
    for (size_t at = 0; at < table->length; at += width) {
        uint64_t entry = 0;
        memcpy(&entry, table->bytes + at, width);
        printf(" %" PRIu64, entry);
    }
}

/* The tables that are only read stay as they were. */
static void copy_read(const struct slice *tables, uint8_t **copies)
{
    for (size_t i = 0; i < READ; i++) {
        copies[i] = malloc(tables[i].length + 1);
        if (copies[i] == NULL)
            stop("no memory");
        memcpy(copies[i], tables[i].bytes, tables[i].length);
    }
}

static void compare_read(const struct slice *tables, uint8_t **copies)
{
    for (size_t i = 0; i < READ; i++) {
        if (memcmp(copies[i], tables[i].bytes, tables[i].length) != 0)
            stop("a call wrote into a table that it was given to read");
        free(copies[i]);
    }
}

int main(void)
{
    struct slice tables[TABLES];
    uint8_t *copies[READ];
    while (next_request(tables, TABLES)) {
        copy_read(tables, copies);
        answer(tables);
        compare_read(tables, copies);
        for (size_t i = READ; i < TABLES; i++)
            print_table(&tables[i], widths[i]);
        putchar('\n');
        free_request(tables, TABLES);
    }
    return fflush(stdout) == 0 ? 0 : 2;
}
