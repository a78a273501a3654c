/* What answers.c and answers_history.c share: requests from standard input.
 *
 * A request is the lengths of its slices, each as 4 bytes low byte first, and
 * then the bytes of all of them.
 */
#ifndef REQUESTS_H
#define REQUESTS_H

#include <stdbool.h>
#include <stddef.h>
#include <stdint.h>
#include <stdio.h>
#include <stdlib.h>

enum { MOST_SLICES = 8, MOST_BYTES = 1 << 20 };

/* Bytes on the heap, exactly as many as asked for, so that valgrind or a
 * sanitizer sees every step beyond them. */
struct slice {
    uint8_t *bytes;
    size_t length;
};

static void stop(const char *why)
{
    fprintf(stderr, "answers: %s\n", why);
    exit(2);
}

static size_t length_in(const uint8_t *bytes)
{
    size_t length = bytes[0] | (size_t)bytes[1] << 8 | (size_t)bytes[2] << 16
                    | (size_t)bytes[3] << 24;
    if (length > MOST_BYTES)
        stop("a length is over 1 MiB");
    return length;
}

static void read_slice(struct slice *slice)
{
    /* an empty slice still needs a pointer that is not null */
    slice->bytes = malloc(slice->length > 0 ? slice->length : 1);
    if (slice->bytes == NULL)
        stop("no memory");
    if (fread(slice->bytes, 1, slice->length, stdin) != slice->length)
        stop("the request is cut short");
}

/* Reads the next request; false at the end of the input. */
static bool next_request(struct slice *slices, size_t count)
{
    uint8_t head[4 * MOST_SLICES];
    size_t got = fread(head, 1, 4 * count, stdin);
    if (got == 0)
        return false;
    if (got != 4 * count)
        stop("the request is cut short");
    for (size_t i = 0; i < count; i++)
        slices[i].length = length_in(head + 4 * i);
    for (size_t i = 0; i < count; i++)
        read_slice(&slices[i]);
    return true;
}

static void free_request(struct slice *slices, size_t count)
{
    for (size_t i = 0; i < count; i++)
        free(slices[i].bytes);
}

#endif
