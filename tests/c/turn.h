/* The same tree, numbered the other way round: children come before parents. */
#ifndef TURN_H
#define TURN_H

#include <stddef.h>
#include <stdint.h>

static void turn_round(uint16_t *parents, uint32_t *taxa, size_t count)
{
    for (size_t i = 0; i < count; i++)
        if (parents[i] != 65535)
            parents[i] = (uint16_t)(count - 1 - parents[i]);
    for (size_t low = 0, high = count - 1; low < high; low++, high--) {
        uint16_t parent = parents[low];
        uint32_t taxon = taxa[low];
        parents[low] = parents[high];
        taxa[low] = taxa[high];
        parents[high] = parent;
        taxa[high] = taxon;
    }
}

#endif
