/* panheron_history and its two companions by plain C that nobody proved, in
 * the same three kilobytes of stack: the measure that Panheron is held to.
 *
 * Parameters and answers are those of panheron.h.
 */
#ifndef HISTORY_H
#define HISTORY_H

#include <stddef.h>
#include <stdint.h>

uint32_t plain_history(const uint16_t *species_parents,
                       size_t species_parents_count,
                       const uint32_t *species_taxa, size_t species_taxa_count,
                       const uint16_t *gene_parents, size_t gene_parents_count,
                       const uint32_t *gene_taxa, size_t gene_taxa_count,
                       uint16_t *places, size_t places_count, uint16_t *labels,
                       size_t labels_count, uint64_t *counts,
                       size_t counts_count);

uint32_t plain_history_tree(const uint16_t *species_parents,
                            size_t species_parents_count,
                            const uint32_t *species_taxa,
                            size_t species_taxa_count,
                            const uint16_t *gene_parents,
                            size_t gene_parents_count,
                            const uint32_t *gene_taxa, size_t gene_taxa_count);

uint32_t plain_history_place(const uint16_t *species_parents,
                             size_t species_parents_count,
                             const uint32_t *species_taxa,
                             size_t species_taxa_count,
                             const uint16_t *gene_parents,
                             size_t gene_parents_count,
                             const uint32_t *gene_taxa,
                             size_t gene_taxa_count);

#endif
