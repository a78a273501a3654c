/* Memory that ends with a page that can be neither read nor written. */
#ifndef FENCE_H
#define FENCE_H

#include <stdint.h>
#include <stdio.h>
#include <stdlib.h>
#include <sys/mman.h>
#include <unistd.h>

/* Where such memory of at least so many bytes ends. */
static uint8_t *fenced_end(size_t length)
{
    size_t page = (size_t)sysconf(_SC_PAGESIZE);
    size_t room = (length + page - 1) / page * page;
    uint8_t *start = mmap(NULL, room + page, PROT_READ | PROT_WRITE,
                          MAP_PRIVATE | MAP_ANONYMOUS, -1, 0);
    if (start == MAP_FAILED || mprotect(start + room, page, PROT_NONE) != 0) {
        fputs("no memory with a fence\n", stderr);
        exit(2);
    }
    return start + room;
}

#endif
