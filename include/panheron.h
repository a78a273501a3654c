/* Panheron for C: judges stored images of gene histories against a release, and
 * works out the least history of a gene tree.
 *
 * Link target/staticlib/libcollector.a (x86-64 Linux, for processors of x86-64-v2,
 * as all have been since about 2013; tools/archive builds it).  The archive needs
 * at most memcpy and memset from outside.
 *
 * Nothing has to be tested before a call: any bytes and entries, of any length,
 * are safe, and each fault is refused by its number.  What a call is given to
 * read it reads during the call and never writes.  The calls keep no memory,
 * allocate none and have no state: all they use is stack, and they may run on
 * several threads at once.
 *
 * An empty slice or table needs a pointer too: any that is not null.  Nothing is
 * read or written through it.
 *
 * There are two kinds of calls:
 *
 *                                      given                       stack
 *   about a stored image               three slices of bytes       60,000 bytes
 *   panheron_history, _tree, _place    tables of numbers           3,072 bytes
 *
 * The stack is the most that the machine code can use: the return address and
 * all that is called are in it, arguments that the caller puts there are not.
 * Where a program's stack is that small, link it with -static or -Wl,-z,now:
 * bound lazily, the first call of memset takes the dynamic linker's stack too,
 * some 3,000 bytes.
 */
#ifndef PANHERON_H
#define PANHERON_H

#include <stddef.h>
#include <stdint.h>

#ifdef __cplusplus
extern "C" {
#endif

/* The refusal numbers, with the place that panheron_place or
 * panheron_history_place gives and, in brackets, the tree that panheron_tree or
 * panheron_history_tree gives.  A number is found over the whole table or image
 * before the next is looked for.
 *
 *   about an image    1, 2, 38, 3, 4 and 5 in the rack's tables, then 13 to 18,
 *                     then 2, 38, 3, 4, 6 and 8 to 11 in the gene tree of the
 *                     image
 *   panheron_history  1, 2, 38, 3, 4 and 5 in the species tables, then 1, 2, 38,
 *                     3, 4 and 6 in the gene tables, then 7 */
enum panheron_number {
    PANHERON_ACCEPTED = 0,          /* none: place 0 [0] */
    PANHERON_TABLE_SIZE = 1,        /* a table is empty or over 2,047 nodes, or
                                       the two of a tree differ in length:
                                       0 [1, 2] */
    PANHERON_PARENT_ORDER = 2,      /* a parent that is no node, or a second
                                       65,535: node; else no 65,535 at all:
                                       65,535 [1, 2] */
    PANHERON_CHILD_COUNT = 3,       /* a node has neither no children nor two:
                                       node [1, 2] */
    PANHERON_TAXON_KIND = 4,        /* a leaf has taxon 0, or an inner node
                                       another: node [1, 2] */
    PANHERON_TAXON_REPEATED = 5,    /* a species leaf's taxon stands at a leaf
                                       of a lower number too: node [1] */
    PANHERON_TAXON_UNKNOWN = 6,     /* a gene leaf's taxon is no species taxon:
                                       node [2] */
    PANHERON_LENT_TABLE_SHORT = 7,  /* places or labels have fewer entries than
                                       the gene tree has nodes, or counts fewer
                                       than four; given by panheron_history
                                       alone: 0 [0] */
    PANHERON_PLACE_OR_LABEL = 8,    /* a place is no species node, or a label is
                                       of the wrong kind: node [2] */
    PANHERON_LEAF_MISPLACED = 9,    /* a gene leaf is not at its species:
                                       node [2] */
    PANHERON_CHILD_ABOVE = 10,      /* a gene node is not at or below its
                                       parent's place: node, the child [2] */
    PANHERON_FALSE_SPECIATION = 11, /* a speciation has not one child on either
                                       side of its place: node [2] */
    PANHERON_LENT_IMAGE_SHORT = 12, /* never given by these calls */
    PANHERON_IMAGE_LENGTH = 13,     /* the image is empty, no whole number of
                                       512-byte blocks, or over 65: 0 [0] */
    PANHERON_BLOCK_CHECK = 14,      /* a block's check differs: block [0] */
    PANHERON_BLOCK_NUMBER = 15,     /* a block's number differs: block [0] */
    PANHERON_FORM = 16,             /* the form is not 1: 0 [0] */
    PANHERON_COUNTS = 17,           /* a count is 0 or over 2,047, or doesn't
                                       fit the number of blocks, or the filling
                                       is not zero: 0 [0] */
    PANHERON_OTHER_RELEASE = 18,    /* the image's species tables aren't the
                                       rack's: the lowest node that differs, or
                                       65,535 if the counts differ [1] */
    PANHERON_ROOT_UNREACHED = 38    /* going up from a node never leads to the
                                       root: node [1, 2] */
};

/* The place of number 18 for another number of species nodes. */
#define PANHERON_COUNTS_DIFFER 65535

/* The place of number 2 for a tree without a root. */
#define PANHERON_NO_ROOT 65535

/* Calls about a stored image.  Each is given the same three slices, a pointer
 * and a length in bytes:
 *
 *   image    one stored image, form 1, whole: what lies behind it counts too
 *   parents  the rack's species parents, 2 bytes a node, low byte first
 *   taxa     the rack's species taxa, 4 bytes a node, low byte first
 *
 * Lengths that don't make two equal tables of 1 to 2,047 nodes are refused by
 * number 1. */

/* The number by which the image is refused, or 0 if it is accepted. */
uint32_t panheron_refusal(const uint8_t *image, size_t image_len,
                          const uint8_t *parents, size_t parents_len,
                          const uint8_t *taxa, size_t taxa_len);

/* The tree that the refusal is about: 1 the species tree, 2 the gene tree, 0
 * neither or not refused.  Tells in which counting the place is a node. */
uint32_t panheron_tree(const uint8_t *image, size_t image_len,
                       const uint8_t *parents, size_t parents_len,
                       const uint8_t *taxa, size_t taxa_len);

/* The place of the refusal: the lowest node or block at fault, or 65,535, as
 * listed above.  0 if there is none or not refused. */
uint32_t panheron_place(const uint8_t *image, size_t image_len,
                        const uint8_t *parents, size_t parents_len,
                        const uint8_t *taxa, size_t taxa_len);

/* The duplications of the history stored in the image: at most 1,023.  0 if
 * refused; but 0 is also a real count, so ask for the refusal. */
uint32_t panheron_duplications(const uint8_t *image, size_t image_len,
                               const uint8_t *parents, size_t parents_len,
                               const uint8_t *taxa, size_t taxa_len);

/* The losses of the history stored in the image: at most 2,093,058.  0 if
 * refused; but 0 is also a real count, so ask for the refusal. */
uint32_t panheron_losses(const uint8_t *image, size_t image_len,
                         const uint8_t *parents, size_t parents_len,
                         const uint8_t *taxa, size_t taxa_len);

/* The least history of a gene tree on a species tree.
 *
 * Each table is a pointer and its number of entries: of entries, not of bytes.
 * A tree comes as two tables with one entry a node, the nodes numbered from 0
 * in any order:
 *
 *   parents  65,535 for the root; for every other node the number of its parent
 *   taxa     the taxon of a leaf, never 0; 0 for an inner node
 *
 * Species nodes and gene nodes are counted apart, each from 0.  A species parent
 * is a species node, a gene parent a gene node.  Both tables of a tree have the
 * same number of entries, 1 to 2,047; q is that of the gene tree.
 *
 * Three tables are lent to be written, with room for at least
 *
 *   places   q entries: by gene node, the species node that it sits at
 *   labels   q entries: by gene node, one of panheron_label
 *   counts   4 entries: duplications, losses, speciations and climbs
 *
 * Answers 0 and fills the first q entries of places and labels and the first
 * four of counts; or answers the number of the refusal (1 to 7, 38), and then
 * all three are as they were.  Entries behind the q-th and the fourth are never
 * written, and what the lent tables hold before the call doesn't matter.  They
 * may overlap neither one another nor the four tables that are read. */
enum panheron_label {
    PANHERON_LEAF = 0,
    PANHERON_SPECIATION = 1,
    PANHERON_DUPLICATION = 2
};

uint32_t panheron_history(
    const uint16_t *species_parents, size_t species_parents_count,
    const uint32_t *species_taxa, size_t species_taxa_count,
    const uint16_t *gene_parents, size_t gene_parents_count,
    const uint32_t *gene_taxa, size_t gene_taxa_count,
    uint16_t *places, size_t places_count,
    uint16_t *labels, size_t labels_count,
    uint64_t *counts, size_t counts_count);

/* The tree that panheron_history's refusal of these four tables is about: 1 the
 * species tree, 2 the gene tree.  0 if the tables are sound, also where
 * panheron_history refuses by 7. */
uint32_t panheron_history_tree(
    const uint16_t *species_parents, size_t species_parents_count,
    const uint32_t *species_taxa, size_t species_taxa_count,
    const uint16_t *gene_parents, size_t gene_parents_count,
    const uint32_t *gene_taxa, size_t gene_taxa_count);

/* The place of the same refusal: the lowest node at fault, a species node where
 * panheron_history_tree gives 1 and a gene node where it gives 2.  0 for number
 * 1, which is about no node, and if the tables are sound; PANHERON_NO_ROOT for
 * number 2 where there is no root. */
uint32_t panheron_history_place(
    const uint16_t *species_parents, size_t species_parents_count,
    const uint32_t *species_taxa, size_t species_taxa_count,
    const uint16_t *gene_parents, size_t gene_parents_count,
    const uint32_t *gene_taxa, size_t gene_taxa_count);

#ifdef __cplusplus
}
#endif

#endif
