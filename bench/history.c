/* The least history of a gene tree in plain C, with two kilobytes of memory.
 *
 * Each rule is a pass of its own, in 01's order.  Taxa are looked up in rounds:
 * 512 species leaves at a time go into a table of 1,024 hints, and then every
 * leaf that is sought asks the table.  A hint is a node's number plus one, at
 * its hashed taxon or the next free entry; it counts only if the taxon there is
 * the one sought.
 *
 * Nodes may be numbered in any order.  Where parents come first in both trees,
 * which one quick pass over each tells, the numbers themselves say which of two
 * species nodes climbs and in which order gene nodes come.  Else depths do, and
 * gene nodes come when their children have; the depth of a child that waits at
 * its parent stands in the lent labels.
 *
 * Lent tables are written when both trees are known to be sound and the room is
 * known to be enough.
 */
#include "history.h"

#include <stdbool.h>
#include <string.h>

enum {
    MOST_NODES = 2047,
    NO_PARENT = 65535,
    NO_ROOT = 65535,
    NO_PLACE = 65535, /* of an inner gene node none of whose children is done */
    HINTS = 1024,
    HINT_BITS = 10,
    LEAVES_IN_ROUND = HINTS / 2,
    COUNTS = 4
};

enum { NO_TREE = 0, SPECIES = 1, GENE = 2 };
enum { LEAF = 0, SPECIATION = 1, DUPLICATION = 2 };

/* A refusal; number 0 is none. */
struct verdict {
    uint32_t number, tree, place;
};

/* A tree as its two tables. */
struct tables {
    const uint16_t *parents;
    size_t parents_count;
    const uint32_t *taxa;
    size_t taxa_count;
};

/* The two kilobytes: each use is over before the next begins. */
union work {
    bool reaching[MOST_NODES];    /* the root */
    uint8_t children[MOST_NODES]; /* 3 is three or more */
    uint16_t hints[HINTS];        /* 0 is an empty entry */
};

static struct verdict refused(uint32_t number, uint32_t tree, size_t place)
{
    struct verdict v = {number, tree, (uint32_t)place};
    return v;
}

/* One tree: refusals 1, 2, 38, 3 and 4 */

static bool size_holds(struct tables t)
{
    return t.parents_count == t.taxa_count && t.parents_count > 0
           && t.parents_count <= MOST_NODES;
}

/* Whether parents come first. */
static bool parents_first(struct tables t)
{
    size_t i = 1;
    if (t.parents[0] != NO_PARENT)
        return false;
    while (i < t.parents_count && t.parents[i] < i)
        i++;
    return i == t.parents_count;
}

/* Refusal 2, or none and the root. */
static struct verdict root_fault(struct tables t, uint32_t tree, size_t *root)
{
    bool found = false;
    for (size_t i = 0; i < t.parents_count; i++) {
        if (t.parents[i] < t.parents_count)
            continue;
        if (found || t.parents[i] != NO_PARENT)
            return refused(2, tree, i);
        *root = i;
        found = true;
    }
    return found ? refused(0, NO_TREE, 0) : refused(2, tree, NO_ROOT);
}

/* The lowest node that never reaches the root, or the count.  From each node
 * one walks up to one that is known to reach it, and then all that was passed
 * does too; who has walked for longer than there are nodes goes round. */
static size_t lost_node(union work *w, struct tables t, size_t root)
{
    memset(w->reaching, 0, t.parents_count);
    w->reaching[root] = true;
    for (size_t i = 0; i < t.parents_count; i++) {
        size_t at = i, steps = 0;
        for (; !w->reaching[at]; at = t.parents[at])
            if (steps++ == t.parents_count)
                return i;
        for (at = i; !w->reaching[at]; at = t.parents[at])
            w->reaching[at] = true;
    }
    return t.parents_count;
}

static void count_children(union work *w, struct tables t, size_t from,
                           size_t to)
{
    for (size_t i = from; i < to; i++) {
        uint8_t *children = &w->children[t.parents[i]];
        *children = (uint8_t)(*children + (*children < 3));
    }
}

static void count_all_children(union work *w, struct tables t, size_t root)
{
    memset(w->children, 0, t.parents_count);
    count_children(w, t, 0, root);
    count_children(w, t, root + 1, t.parents_count);
}

/* The lowest node with neither no children nor two, or the count. */
static size_t misshapen(const union work *w, struct tables t)
{
    size_t i = 0;
    while (i < t.parents_count && (w->children[i] & 1) == 0)
        i++;
    return i;
}

/* The lowest node whose taxon is of the wrong kind, or the count. */
static size_t miskinded(const union work *w, struct tables t)
{
    size_t i = 0;
    while (i < t.taxa_count && (w->children[i] == 0) == (t.taxa[i] != 0))
        i++;
    return i;
}

static struct verdict tree_fault(union work *w, struct tables t, uint32_t tree)
{
    struct verdict v = refused(0, NO_TREE, 0);
    size_t at, root = 0;
    if (!size_holds(t))
        return refused(1, tree, 0);
    if (!parents_first(t)) {
        v = root_fault(t, tree, &root);
        if (v.number != 0)
            return v;
        if ((at = lost_node(w, t, root)) < t.parents_count)
            return refused(38, tree, at);
    }
    count_all_children(w, t, root);
    if ((at = misshapen(w, t)) < t.parents_count)
        return refused(3, tree, at);
    if ((at = miskinded(w, t)) < t.parents_count)
        return refused(4, tree, at);
    return v;
}

/* Look-ups */

/* The entry that holds a taxon's hint, or the empty one where it would go. */
static inline size_t entry_of(const union work *w, const uint32_t *taxa,
                              uint32_t sought)
{
    size_t entry = sought * 0x9E3779B1u >> (32 - HINT_BITS);
    while (w->hints[entry] != 0 && taxa[w->hints[entry] - 1] != sought)
        entry = (entry + 1) % HINTS;
    return entry;
}

/* Enters the next leaves from `node` on; gives the node behind the last one.
 * A leaf whose taxon is there already lowers `repeated` to its number. */
static size_t begin_round(union work *w, struct tables species, size_t node,
                          size_t *repeated)
{
    size_t entered = 0;
    memset(w->hints, 0, sizeof w->hints);
    for (; node < species.taxa_count && entered < LEAVES_IN_ROUND; node++) {
        size_t entry;
        if (species.taxa[node] == 0)
            continue;
        entry = entry_of(w, species.taxa, species.taxa[node]);
        if (w->hints[entry] == 0)
            w->hints[entry] = (uint16_t)(node + 1);
        else if (node < *repeated)
            *repeated = node;
        entered++;
    }
    return node;
}

/* The lowest leaf whose taxon stands at a lower one too, or the count. */
static size_t repeated_leaf(union work *w, struct tables species)
{
    size_t repeated = species.taxa_count, next = 0;
    while (next < species.taxa_count) {
        next = begin_round(w, species, next, &repeated);
        for (size_t i = next; i < repeated; i++)
            if (species.taxa[i] != 0
                && w->hints[entry_of(w, species.taxa, species.taxa[i])] != 0)
                repeated = i;
    }
    return repeated;
}

/* How many gene leaves are found; every species taxon stands once. */
static size_t leaves_found(union work *w, struct tables species,
                           struct tables genes)
{
    size_t found = 0, next = 0, none = species.taxa_count;
    while (next < species.taxa_count) {
        next = begin_round(w, species, next, &none);
        for (size_t i = 0; i < genes.taxa_count; i++)
            if (genes.taxa[i] != 0
                && w->hints[entry_of(w, species.taxa, genes.taxa[i])] != 0)
                found++;
    }
    return found;
}

static bool stands_in(struct tables species, uint32_t taxon)
{
    size_t i = 0;
    while (i < species.taxa_count && species.taxa[i] != taxon)
        i++;
    return i < species.taxa_count;
}

/* The lowest gene leaf of no species, or the count. */
static size_t unknown_leaf(union work *w, struct tables species,
                           struct tables genes)
{
    size_t i = 0;
    if (leaves_found(w, species, genes) == (genes.taxa_count + 1) / 2)
        return genes.taxa_count;
    while (genes.taxa[i] == 0 || stands_in(species, genes.taxa[i]))
        i++;
    return i;
}

static struct verdict fault(union work *w, struct tables species,
                            struct tables genes)
{
    struct verdict v = tree_fault(w, species, SPECIES);
    size_t at;
    if (v.number != 0)
        return v;
    if ((at = repeated_leaf(w, species)) < species.taxa_count)
        return refused(5, SPECIES, at);
    v = tree_fault(w, genes, GENE);
    if (v.number != 0)
        return v;
    if ((at = unknown_leaf(w, species, genes)) < genes.taxa_count)
        return refused(6, GENE, at);
    return v;
}

/* The history of two sound trees */

static void place_leaves(union work *w, struct tables species,
                         struct tables genes, uint16_t *places,
                         uint16_t *labels)
{
    size_t next = 0, none = species.taxa_count;
    for (size_t i = 0; i < genes.taxa_count; i++) {
        places[i] = NO_PLACE;
        labels[i] = LEAF;
    }
    while (next < species.taxa_count) {
        next = begin_round(w, species, next, &none);
        for (size_t i = 0; i < genes.taxa_count; i++)
            if (genes.taxa[i] != 0 && places[i] == NO_PLACE)
                /* an empty entry gives NO_PLACE */
                places[i] = (uint16_t)(
                    w->hints[entry_of(w, species.taxa, genes.taxa[i])] - 1);
    }
}

/* A place on its way up.  Its rank falls with every step: the place's own number
 * where parents come first, else its depth. */
struct climber {
    uint16_t place, rank;
};

static inline struct climber step_up(struct tables species, struct climber c,
                                     bool straight)
{
    c.place = species.parents[c.place];
    c.rank = straight ? c.place : (uint16_t)(c.rank - 1);
    return c;
}

static uint16_t depth_of(struct tables species, size_t node)
{
    uint16_t depth = 0;
    for (; species.parents[node] != NO_PARENT; node = species.parents[node])
        depth++;
    return depth;
}

/* The history so far. */
struct history {
    uint16_t *places, *labels;
    uint64_t duplications, climbs;
};

/* A child comes to its parent.  The first one leaves its place there, and false
 * is given; when the second one comes, both climb to where they meet, and it is
 * the parent's turn to go on from there. */
static inline bool arrive(struct history *h, struct tables species,
                          size_t above, struct climber *child, bool straight)
{
    struct climber one = {h->places[above],
                          straight ? h->places[above] : h->labels[above]};
    struct climber other = *child;
    uint64_t climbs = 0;
    bool shared;
    if (one.place == NO_PLACE) {
        h->places[above] = other.place;
        if (!straight)
            h->labels[above] = other.rank;
        return false;
    }
    while (one.place != other.place) {
        if (one.rank > other.rank)
            one = step_up(species, one, straight);
        else
            other = step_up(species, other, straight);
        climbs++;
    }
    shared = one.place == h->places[above] || one.place == child->place;
    h->places[above] = one.place;
    h->labels[above] = shared ? DUPLICATION : SPECIATION;
    h->duplications += shared;
    h->climbs += climbs;
    *child = one;
    return true;
}

/* Parents come first in both trees: the numbers, from the highest down. */
static void climb_straight(struct history *h, struct tables species,
                           struct tables genes)
{
    for (size_t i = genes.parents_count - 1; i > 0; i--) {
        struct climber child = {h->places[i], h->places[i]};
        arrive(h, species, genes.parents[i], &child, true);
    }
}

/* Any numbering: from each leaf up, as far as both children have come. */
static void climb_from_leaves(struct history *h, struct tables species,
                              struct tables genes)
{
    for (size_t i = 0; i < genes.parents_count; i++) {
        struct climber child = {h->places[i], 0};
        size_t above = genes.parents[i];
        if (genes.taxa[i] == 0)
            continue;
        child.rank = depth_of(species, child.place);
        while (above != NO_PARENT && arrive(h, species, above, &child, false))
            above = genes.parents[above];
    }
}

static void climb(struct tables species, struct tables genes, uint16_t *places,
                  uint16_t *labels, uint64_t *counts)
{
    struct history h = {places, labels, 0, 0};
    uint64_t speciations;
    if (parents_first(species) && parents_first(genes))
        climb_straight(&h, species, genes);
    else
        climb_from_leaves(&h, species, genes);
    speciations = genes.parents_count / 2 - h.duplications;
    counts[0] = h.duplications;
    counts[1] = h.climbs - 2 * speciations;
    counts[2] = speciations;
    counts[3] = h.climbs;
}

/* The calls */

/* The parameters of each as two trees. */
#define TREES                                                              \
    tables_of(species_parents, species_parents_count, species_taxa,        \
              species_taxa_count),                                         \
        tables_of(gene_parents, gene_parents_count, gene_taxa,             \
                  gene_taxa_count)

static struct tables tables_of(const uint16_t *parents, size_t parents_count,
                               const uint32_t *taxa, size_t taxa_count)
{
    struct tables t = {parents, parents_count, taxa, taxa_count};
    return t;
}

uint32_t plain_history(const uint16_t *species_parents,
                       size_t species_parents_count,
                       const uint32_t *species_taxa, size_t species_taxa_count,
                       const uint16_t *gene_parents, size_t gene_parents_count,
                       const uint32_t *gene_taxa, size_t gene_taxa_count,
                       uint16_t *places, size_t places_count, uint16_t *labels,
                       size_t labels_count, uint64_t *counts,
                       size_t counts_count)
{
    union work w;
    struct verdict v = fault(&w, TREES);
    if (v.number != 0)
        return v.number;
    if (places_count < gene_taxa_count || labels_count < gene_taxa_count
        || counts_count < COUNTS)
        return 7;
    place_leaves(&w, TREES, places, labels);
    climb(TREES, places, labels, counts);
    return 0;
}

static struct verdict fault_alone(struct tables species, struct tables genes)
{
    union work w;
    return fault(&w, species, genes);
}

uint32_t plain_history_tree(const uint16_t *species_parents,
                            size_t species_parents_count,
                            const uint32_t *species_taxa,
                            size_t species_taxa_count,
                            const uint16_t *gene_parents,
                            size_t gene_parents_count,
                            const uint32_t *gene_taxa, size_t gene_taxa_count)
{
    return fault_alone(TREES).tree;
}

uint32_t plain_history_place(const uint16_t *species_parents,
                             size_t species_parents_count,
                             const uint32_t *species_taxa,
                             size_t species_taxa_count,
                             const uint16_t *gene_parents,
                             size_t gene_parents_count,
                             const uint32_t *gene_taxa,
                             size_t gene_taxa_count)
{
    return fault_alone(TREES).place;
}
