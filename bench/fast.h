/* The answers of panheron.h by C that was written for speed alone and that
 * nobody proved: the measure that Panheron is held to.
 *
 * The parameters are those of panheron.h: an image, and the rack's two species
 * tables as bytes.
 */
#ifndef FAST_H
#define FAST_H

#include <stddef.h>
#include <stdint.h>

struct fast_answer {
    uint32_t refusal; /* 0 if the image is accepted */
    uint32_t tree;
    uint32_t place;
    uint32_t duplications; /* 0 if refused, and so are the losses */
    uint32_t losses;
};

/* The refusal number alone: what is measured. */
uint32_t fast_refusal(const uint8_t *image, size_t image_len,
                      const uint8_t *parents, size_t parents_len,
                      const uint8_t *taxa, size_t taxa_len);

/* The same, but with the check of a block as 01 writes it, a byte at a time:
 * it shows how much of the speed comes from checking sixteen bytes at once. */
uint32_t fast_refusal_bytewise(const uint8_t *image, size_t image_len,
                               const uint8_t *parents, size_t parents_len,
                               const uint8_t *taxa, size_t taxa_len);

/* All that the five calls of panheron.h answer. */
struct fast_answer fast_answer(const uint8_t *image, size_t image_len,
                               const uint8_t *parents, size_t parents_len,
                               const uint8_t *taxa, size_t taxa_len);

#endif
