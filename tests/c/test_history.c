/* Tests panheron_history, panheron_history_tree and panheron_history_place as a
 * C program links them.
 *
 * Tables and what is expected are typed in by hand, mostly 01's small release
 * and its cases.  Every table is handed over so that it ends where readable
 * memory ends.  Lent tables are filled before the call with entries that no
 * answer has, and so is the memory in front of them; after the call everything
 * but the entries that a history fills has to be as it was.
 *
 * An empty table is handed over with a pointer that is not null, as panheron.h
 * asks: one that nothing can be read through.
 *
 * Prints each failure and `N passed, M failed`; the exit status is 1 if any
 * test failed.
 */
#define _DEFAULT_SOURCE

#include <stdbool.h>
#include <stdint.h>
#include <stdio.h>
#include <stdlib.h>
#include <string.h>

#include "fence.h"
#include "panheron.h"
#include "turn.h"

enum {
    MOST_ENTRIES = 2100,
    LARGEST = 2047,
    COUNTS = 4,
    GUARD_BYTES = 256 /* in front of each lent table */
};

static unsigned passed, failed;

/* What is asked and expected */

struct tree {
    size_t count, taxa_count; /* unequal only where a test wants them so */
    uint16_t parents[MOST_ENTRIES];
    uint32_t taxa[MOST_ENTRIES];
};

/* The numbers of entries that are lent. */
struct room {
    size_t places, labels, counts;
};

struct history {
    uint16_t places[MOST_ENTRIES], labels[MOST_ENTRIES];
    uint64_t counts[COUNTS]; /* duplications, losses, speciations, climbs */
};

struct refusal {
    uint32_t number, tree, place;
};

/* A lent table in bytes: where it lies, and what it held before. */
struct lent {
    uint8_t *end, *bytes;
    size_t length;
    uint8_t before[GUARD_BYTES + sizeof(uint64_t) * MOST_ENTRIES];
};

/* Asking */

static const void *handed(uint8_t **end, const void *table, size_t length)
{
    if (*end == NULL)
        *end = fenced_end(sizeof(uint32_t) * MOST_ENTRIES);
    return memcpy(*end - length, table, length);
}

/* Lends a table whose bytes, and those in front of it, are all high: no place,
 * label or count has such an entry. */
static void lend(struct lent *lent, size_t length)
{
    if (lent->end == NULL)
        lent->end = fenced_end(sizeof lent->before);
    lent->length = length;
    lent->bytes = lent->end - length;
    for (size_t i = 0; i < GUARD_BYTES + length; i++)
        lent->before[i] = (uint8_t)(160 + i % 90);
    memcpy(lent->bytes - GUARD_BYTES, lent->before, GUARD_BYTES + length);
}

/* Whether a lent table starts with these bytes and all else is as it was. */
static bool filled(const struct lent *lent, const void *with, size_t length)
{
    return memcmp(lent->bytes - GUARD_BYTES, lent->before, GUARD_BYTES) == 0
           && memcmp(lent->bytes, with, length) == 0
           && memcmp(lent->bytes + length, lent->before + GUARD_BYTES + length,
                     lent->length - length) == 0;
}

static struct lent places, labels, counts;

/* Makes the three calls; false if one wrote to what it was given to read. */
static bool ask(const struct tree *species, const struct tree *genes,
                struct room room, struct refusal *came)
{
    static uint8_t *ends[4];
    const struct tree *trees[2] = {species, genes};
    const void *at[4];
    bool kept = true;
    for (int i = 0; i < 2; i++) {
        at[2 * i] = handed(&ends[2 * i], trees[i]->parents,
                           sizeof(uint16_t) * trees[i]->count);
        at[2 * i + 1] = handed(&ends[2 * i + 1], trees[i]->taxa,
                               sizeof(uint32_t) * trees[i]->taxa_count);
    }
    lend(&places, sizeof(uint16_t) * room.places);
    lend(&labels, sizeof(uint16_t) * room.labels);
    lend(&counts, sizeof(uint64_t) * room.counts);
#define FOUR                                                              \
    at[0], species->count, at[1], species->taxa_count, at[2], genes->count,  \
        at[3], genes->taxa_count
    came->tree = panheron_history_tree(FOUR);
    came->place = panheron_history_place(FOUR);
    came->number = panheron_history(
        FOUR, (void *)places.bytes, room.places, (void *)labels.bytes,
        room.labels, (void *)counts.bytes, room.counts);
    for (int i = 0; i < 2; i++)
        kept = kept
               && memcmp(at[2 * i], trees[i]->parents,
                         sizeof(uint16_t) * trees[i]->count) == 0
               && memcmp(at[2 * i + 1], trees[i]->taxa,
                         sizeof(uint32_t) * trees[i]->taxa_count) == 0;
    return kept;
}

static void judge(const char *name, size_t at, bool right, const char *what,
                  struct refusal came)
{
    if (right) {
        passed++;
        return;
    }
    failed++;
    printf("%s, %zu: %s; number %u, tree %u, place %u\n", name, at, what,
           (unsigned)came.number, (unsigned)came.tree, (unsigned)came.place);
}

/* Both the answer and the lent tables. */
static void refuses(const char *name, size_t at, const struct tree *species,
                    const struct tree *genes, struct room room,
                    struct refusal expected)
{
    struct refusal came;
    bool kept = ask(species, genes, room, &came);
    judge(name, at, kept, "a table that is only read was written", came);
    judge(name, at, memcmp(&came, &expected, sizeof came) == 0,
          "another refusal was expected", came);
    judge(name, at,
          filled(&places, "", 0) && filled(&labels, "", 0)
              && filled(&counts, "", 0),
          "a lent table was written in spite of the refusal", came);
}

static void fills(const char *name, size_t at, const struct tree *species,
                  const struct tree *genes, struct room room,
                  const struct history *expected)
{
    static const struct refusal none;
    size_t length = sizeof(uint16_t) * genes->count;
    struct refusal came;
    bool kept = ask(species, genes, room, &came);
    judge(name, at, kept, "a table that is only read was written", came);
    judge(name, at, memcmp(&came, &none, sizeof came) == 0, "it was refused",
          came);
    judge(name, at, filled(&places, expected->places, length),
          "other places, or a write beside them", came);
    judge(name, at, filled(&labels, expected->labels, length),
          "other labels, or a write beside them", came);
    judge(name, at, filled(&counts, expected->counts, sizeof expected->counts),
          "other counts, or a write beside them", came);
}

static struct room exactly(const struct tree *genes)
{
    struct room room = {genes->count, genes->count, COUNTS};
    return room;
}

/* Tables */

static const struct tree release = {
    5, 5, {65535, 0, 1, 1, 0}, {0, 0, 11, 12, 13}};

/* 01's first six gene trees */
static const struct {
    struct tree genes;
    struct history expected;
} cases[] = {
    {{5, 5, {65535, 0, 1, 1, 0}, {0, 0, 11, 12, 13}},
     {{0, 1, 2, 3, 4}, {1, 1, 0, 0, 0}, {0, 0, 2, 4}}},
    {{5, 5, {65535, 0, 1, 1, 0}, {0, 0, 11, 13, 12}},
     {{0, 0, 2, 4, 3}, {2, 1, 0, 0, 0}, {1, 3, 1, 5}}},
    {{3, 3, {65535, 0, 0}, {0, 11, 11}}, {{2, 2, 2}, {2, 0, 0}, {1, 0, 0, 0}}},
    {{5, 5, {65535, 0, 0, 2, 2}, {0, 11, 0, 11, 12}},
     {{1, 2, 1, 2, 3}, {2, 0, 1, 0, 0}, {1, 1, 1, 3}}},
    {{5, 5, {65535, 0, 1, 1, 0}, {0, 0, 11, 11, 13}},
     {{0, 2, 2, 2, 4}, {1, 2, 0, 0, 0}, {1, 1, 1, 3}}},
    {{1, 1, {65535}, {11}}, {{2}, {0}, {0, 0, 0, 0}}},
};
enum { CASES = sizeof cases / sizeof cases[0] };

/* The small release and 01's second and fifth gene trees, in any order: children
 * before parents, or the root in the middle. */
static const struct tree upward = {
    5, 5, {4, 3, 3, 4, 65535}, {13, 12, 11, 0, 0}};
static const struct tree middle = {
    5, 5, {3, 3, 65535, 2, 2}, {11, 12, 0, 0, 13}};
static const struct tree second_upward = {
    5, 5, {4, 3, 3, 4, 65535}, {12, 13, 11, 0, 0}};
static const struct tree fifth_middle = {
    5, 5, {3, 2, 65535, 2, 3}, {11, 13, 0, 0, 11}};

/* A caterpillar: inner node 2k, k steps below the root, has the leaf 2k + 1 and
 * the inner node 2k + 2; the last of these, 2,046, is a leaf too. */
static bool is_leaf(size_t node, size_t count)
{
    return node % 2 == 1 || node + 1 >= count;
}

static void make_caterpillar(struct tree *t, size_t count)
{
    t->count = t->taxa_count = count;
    for (size_t i = 0; i < count; i++) {
        t->parents[i] = (uint16_t)(i % 2 == 1 ? i - 1 : i - 2);
        t->taxa[i] = is_leaf(i, count) ? (uint32_t)(70000 + i) : 0;
    }
    t->parents[0] = 65535;
}

/* The children of node k are 2k + 1 and 2k + 2. */
static void make_balanced(struct tree *t, size_t count)
{
    t->count = t->taxa_count = count;
    for (size_t i = 0; i < count; i++) {
        t->parents[i] = (uint16_t)((i - 1) / 2);
        t->taxa[i] = i >= count / 2 ? (uint32_t)(70000 + i) : 0;
    }
    t->parents[0] = 65535;
}

typedef void make(struct tree *t, size_t count);

static void make_caterpillar_upward(struct tree *t, size_t count)
{
    make_caterpillar(t, count);
    turn_round(t->parents, t->taxa, count);
}

/* Tests */

static void test_cases_of_01(void)
{
    static const struct room more[] = {
        {0, 0, 0}, {1, 0, 0}, {0, 1, 0}, {0, 0, 1}, {7, 3, 4}, {2000, 90, 60}};
    for (size_t i = 0; i < CASES; i++)
        for (size_t k = 0; k < sizeof more / sizeof more[0]; k++) {
            struct room room = exactly(&cases[i].genes);
            room.places += more[k].places;
            room.labels += more[k].labels;
            room.counts += more[k].counts;
            fills("a case of 01", i + 1, &release, &cases[i].genes, room,
                  &cases[i].expected);
        }
}

static void test_any_order(void)
{
    static const struct {
        const struct tree *species, *genes;
        struct history expected;
    } turned[] = {
        {&release, &second_upward,
         {{3, 4, 2, 0, 0}, {0, 0, 0, 1, 2}, {1, 3, 1, 5}}},
        {&upward, &cases[1].genes,
         {{4, 4, 2, 0, 1}, {2, 1, 0, 0, 0}, {1, 3, 1, 5}}},
        {&upward, &second_upward,
         {{1, 0, 2, 4, 4}, {0, 0, 0, 1, 2}, {1, 3, 1, 5}}},
        {&middle, &second_upward,
         {{1, 4, 0, 2, 2}, {0, 0, 0, 1, 2}, {1, 3, 1, 5}}},
        {&middle, &fifth_middle,
         {{0, 4, 2, 0, 0}, {0, 0, 1, 2, 0}, {1, 1, 1, 3}}},
        {&upward, &fifth_middle,
         {{2, 0, 4, 2, 2}, {0, 0, 1, 2, 0}, {1, 1, 1, 3}}},
    };
    for (size_t i = 0; i < sizeof turned / sizeof turned[0]; i++)
        fills("any order", i, turned[i].species, turned[i].genes,
              exactly(turned[i].genes), &turned[i].expected);
}

/* Taxa that differ in their higher half alone. */
static void test_high_taxa(void)
{
    for (size_t i = 0; i < CASES; i++) {
        static struct tree high[2];
        high[0] = release;
        high[1] = cases[i].genes;
        for (int k = 0; k < 2; k++)
            for (size_t node = 0; node < high[k].count; node++)
                high[k].taxa[node] <<= 16;
        fills("high taxa", i + 1, &high[0], &high[1], exactly(&high[1]),
              &cases[i].expected);
    }
}

static void test_short_room(void)
{
    static const struct refusal seventh = {7, 0, 0};
    for (size_t i = 0; i < CASES; i++) {
        const struct tree *genes = &cases[i].genes;
        for (size_t left = 0; left < genes->count; left++) {
            struct room room = exactly(genes);
            room.places = left;
            refuses("short places", i + 1, &release, genes, room, seventh);
            room.labels = left;
            refuses("short tables", i + 1, &release, genes, room, seventh);
            room.places = 2000;
            refuses("short labels", i + 1, &release, genes, room, seventh);
        }
        for (size_t left = 0; left < COUNTS; left++) {
            struct room room = exactly(genes);
            room.counts = left;
            refuses("short counts", i + 1, &release, genes, room, seventh);
        }
    }
}

/* Trees of which each is refused whatever the other is. */
static const struct {
    struct tree tree;
    uint32_t number, place;
} broken[] = {
    {{1, 1, {0}, {11}}, 2, 65535},
    {{1, 1, {1}, {11}}, 2, 0},
    {{1, 1, {65534}, {11}}, 2, 0},
    {{3, 3, {1, 2, 0}, {0, 11, 12}}, 2, 65535},
    {{3, 3, {65535, 65535, 0}, {0, 11, 12}}, 2, 1},
    {{3, 3, {1, 65535, 65535}, {11, 0, 12}}, 2, 2},
    {{3, 3, {2, 2, 3}, {11, 12, 0}}, 2, 2},
    {{5, 5, {65535, 0, 1, 1, 5}, {0, 0, 11, 12, 13}}, 2, 4},
    /* a node that is its own parent, two that go round, and one below them */
    {{3, 3, {65535, 0, 2}, {0, 11, 12}}, 38, 2},
    {{3, 3, {0, 2, 65535}, {11, 12, 0}}, 38, 0},
    {{3, 3, {65535, 2, 1}, {0, 11, 12}}, 38, 1},
    {{5, 5, {1, 2, 1, 65535, 3}, {11, 0, 0, 0, 12}}, 38, 0},
    {{7, 7, {65535, 0, 0, 4, 5, 5, 2}, {0, 11, 0, 12, 0, 0, 13}}, 38, 3},
    {{2, 2, {65535, 0}, {0, 11}}, 3, 0},
    {{4, 4, {3, 0, 3, 65535}, {0, 11, 12, 0}}, 3, 0},
    {{4, 4, {65535, 0, 0, 0}, {0, 11, 12, 13}}, 3, 0},
    {{6, 6, {65535, 0, 0, 0, 0, 0}, {0, 11, 12, 13, 14, 15}}, 3, 0},
    {{6, 6, {65535, 0, 1, 1, 0, 4}, {0, 0, 11, 12, 0, 13}}, 3, 4},
    {{3, 3, {65535, 0, 0}, {0, 0, 12}}, 4, 1},
    {{3, 3, {65535, 0, 0}, {9, 11, 12}}, 4, 0},
    {{5, 5, {65535, 0, 1, 1, 0}, {0, 0, 11, 12, 0}}, 4, 4},
    {{1, 1, {65535}, {0}}, 4, 0},
    {{3, 3, {2, 2, 65535}, {11, 0, 0}}, 4, 1},
    /* several faults: the lower number, wherever it is */
    {{5, 5, {65535, 0, 1, 5, 0}, {1, 0, 7, 7, 7}}, 2, 3},
    {{5, 5, {1, 0, 65535, 9, 65535}, {1, 0, 7, 7, 7}}, 2, 3},
    {{5, 5, {1, 0, 65535, 65535, 9}, {1, 0, 7, 7, 7}}, 2, 3},
    {{4, 4, {1, 0, 3, 3}, {1, 0, 7, 7}}, 2, 65535},
    {{5, 5, {65535, 0, 0, 0, 4}, {1, 0, 7, 7, 7}}, 38, 4},
    {{6, 6, {65535, 0, 1, 1, 0, 4}, {1, 0, 7, 7, 7, 7}}, 3, 4},
    {{5, 5, {65535, 0, 1, 1, 0}, {0, 7, 7, 7, 99}}, 4, 1},
};
enum { BROKEN = sizeof broken / sizeof broken[0] };

static void test_broken_trees(void)
{
    static const struct tree nothing;
    static const struct room none;
    for (size_t i = 0; i < BROKEN; i++) {
        struct refusal species = {broken[i].number, 1, broken[i].place};
        struct refusal genes = {broken[i].number, 2, broken[i].place};
        const struct tree *tree = &broken[i].tree;
        refuses("broken species", i, tree, &cases[0].genes,
                exactly(&cases[0].genes), species);
        refuses("broken species, no genes", i, tree, &nothing, none, species);
        refuses("broken species and genes", i, tree, &broken[0].tree, none,
                species);
        refuses("broken genes", i, &release, tree, exactly(tree), genes);
        refuses("broken genes, no room", i, &release, tree, none, genes);
    }
}

/* A root with many children: a small counter comes round to two or none. */
static void test_many_children(void)
{
    static const size_t children[] = {4, 6, 8, 256, 258, 512, 514, 2046};
    for (size_t i = 0; i < sizeof children / sizeof children[0]; i++) {
        static struct tree t;
        t.count = t.taxa_count = children[i] + 1;
        for (size_t node = 1; node < t.count; node++)
            t.taxa[node] = 11;
        t.parents[0] = 65535;
        refuses("children of a species", children[i], &t, &cases[0].genes,
                exactly(&cases[0].genes), (struct refusal){3, 1, 0});
        refuses("children of a gene", children[i], &release, &t, exactly(&t),
                (struct refusal){3, 2, 0});
    }
}

static void test_repeated_taxa(void)
{
    static const struct {
        struct tree species;
        uint32_t place;
    } repeats[] = {
        {{3, 3, {65535, 0, 0}, {0, 11, 11}}, 2},
        {{5, 5, {65535, 0, 1, 1, 0}, {0, 0, 7, 8, 7}}, 4},
        {{5, 5, {65535, 0, 1, 1, 0}, {0, 0, 7, 7, 7}}, 3},
        {{5, 5, {65535, 0, 1, 1, 0}, {0, 0, 8, 7, 7}}, 4},
        {{7, 7, {65535, 0, 0, 1, 1, 2, 2}, {0, 0, 0, 9, 8, 8, 9}}, 5},
        {{3, 3, {2, 2, 65535}, {11, 11, 0}}, 1},
        {{5, 5, {3, 3, 65535, 2, 2}, {7, 8, 0, 0, 7}}, 4},
    };
    for (size_t i = 0; i < sizeof repeats / sizeof repeats[0]; i++) {
        struct refusal expected = {5, 1, repeats[i].place};
        refuses("repeated taxon", i, &repeats[i].species, &cases[2].genes,
                exactly(&cases[2].genes), expected);
        /* before anything of the genes */
        refuses("repeated taxon, broken genes", i, &repeats[i].species,
                &broken[0].tree, exactly(&broken[0].tree), expected);
    }
}

static void test_unknown_taxa(void)
{
    static const struct {
        struct tree genes;
        uint32_t place;
    } unknown[] = {
        {{1, 1, {65535}, {14}}, 0},
        {{3, 3, {65535, 0, 0}, {0, 11, 14}}, 2},
        {{3, 3, {65535, 0, 0}, {0, 65547, 11}}, 1},
        {{3, 3, {65535, 0, 0}, {0, 720896, 11}}, 1},
        {{3, 3, {65535, 0, 0}, {0, 11, 4294967295}}, 2},
        {{5, 5, {65535, 0, 1, 1, 0}, {0, 0, 12, 10, 1}}, 3},
        {{3, 3, {2, 2, 65535}, {14, 15, 0}}, 0},
    };
    static const struct room none;
    for (size_t i = 0; i < sizeof unknown / sizeof unknown[0]; i++) {
        struct refusal expected = {6, 2, unknown[i].place};
        refuses("unknown taxon", i, &release, &unknown[i].genes,
                exactly(&unknown[i].genes), expected);
        refuses("unknown taxon, no room", i, &release, &unknown[i].genes, none,
                expected);
    }
}

/* The first so many parents and taxa of the release, as either tree. */
static void test_sizes(void)
{
    static const struct { size_t parents, taxa; } sizes[] = {
        {0, 0}, {0, 5}, {5, 0}, {4, 5}, {5, 4}, {5, 6}, {6, 5},
        {2048, 2048}, {2047, 2048}, {2048, 2047}, {5, 2048}, {2048, 5}};
    static const struct refusal species_size = {1, 1, 0};
    static const struct refusal gene_size = {1, 2, 0};
    static const struct room none;
    for (size_t i = 0; i < sizeof sizes / sizeof sizes[0]; i++) {
        static struct tree t;
        struct room room = {sizes[i].parents, sizes[i].parents, COUNTS};
        t = release;
        t.count = sizes[i].parents;
        t.taxa_count = sizes[i].taxa;
        refuses("species tables' sizes", i, &t, &cases[0].genes, room,
                species_size);
        refuses("both trees' sizes", i, &t, &t, none, species_size);
        refuses("gene tables' sizes", i, &release, &t, room, gene_size);
        refuses("gene tables' sizes, no room", i, &release, &t, none,
                gene_size);
    }
}

static struct tree species, genes;
static struct history expected;

static void set_counts(uint64_t duplications, uint64_t losses,
                       uint64_t speciations, uint64_t climbs)
{
    uint64_t all[COUNTS] = {duplications, losses, speciations, climbs};
    memcpy(expected.counts, all, sizeof all);
}

/* Both trees are the same: every node is at its own, and each edge one step. */
static void test_largest_alike(make *make_tree)
{
    make_tree(&species, LARGEST);
    genes = species;
    for (size_t i = 0; i < LARGEST; i++) {
        expected.places[i] = (uint16_t)i;
        expected.labels[i] = species.taxa[i] != 0 ? 0 : 1;
    }
    set_counts(0, 0, 1023, 2046);
    fills("largest, alike", 0, &species, &genes, exactly(&genes), &expected);
    fills("largest, alike, more room", 0, &species, &genes,
          (struct room){MOST_ENTRIES, 2048, 6}, &expected);
    refuses("largest, short places", 0, &species, &genes,
            (struct room){2046, 2047, 4}, (struct refusal){7, 0, 0});
    refuses("largest, short labels", 0, &species, &genes,
            (struct room){2047, 2046, 4}, (struct refusal){7, 0, 0});
}

/* All leaves of the deepest species, 1,023 steps below the root: every inner
 * node is there too. */
static void test_largest_at_one_leaf(void)
{
    make_caterpillar(&species, LARGEST);
    genes = species;
    for (size_t i = 0; i < LARGEST; i++) {
        if (genes.taxa[i] != 0)
            genes.taxa[i] = 70000 + 2046;
        expected.places[i] = 2046;
        expected.labels[i] = is_leaf(i, LARGEST) ? 0 : 2;
    }
    set_counts(1023, 0, 0, 0);
    fills("largest, one leaf", 0, &species, &genes, exactly(&genes), &expected);
}

/* Numbers one tree the other way round, and what is expected with it. */

static void turn_species_round(void)
{
    turn_round(species.parents, species.taxa, species.count);
    for (size_t i = 0; i < genes.count; i++)
        expected.places[i] = (uint16_t)(species.count - 1 - expected.places[i]);
}

static void turn_genes_round(void)
{
    static struct history was;
    was = expected;
    turn_round(genes.parents, genes.taxa, genes.count);
    for (size_t i = 0; i < genes.count; i++) {
        expected.places[i] = was.places[genes.count - 1 - i];
        expected.labels[i] = was.labels[genes.count - 1 - i];
    }
}

/* Leaves the other way round: the two lowest of the gene tree, 2,045 and 2,046,
 * are of the two uppermost species leaves, 3 and 1, and meet at the root, a
 * speciation.  All the other inner nodes are at the root with a child, and their
 * leaves climb there from depths 3 to 1,023 and 1,023: with the first two leaves'
 * 2 and 1 that is 1,023 * 1,024 / 2 + 1,023 = 524,799 steps. */
static void test_largest_climb(void)
{
    make_caterpillar(&species, LARGEST);
    make_caterpillar(&genes, LARGEST);
    for (size_t i = 0; i < LARGEST; i++) {
        size_t home = i == 2046 ? 1 : i == 1 ? 2046 : 2048 - i;
        bool leaf = is_leaf(i, LARGEST);
        genes.taxa[i] = leaf ? (uint32_t)(70000 + home) : 0;
        expected.places[i] = (uint16_t)(leaf ? home : 0);
        expected.labels[i] = leaf ? 0 : i == 2044 ? 1 : 2;
    }
    set_counts(1022, 524797, 1, 524799);
    fills("largest, climb", 0, &species, &genes, exactly(&genes), &expected);
    turn_species_round();
    fills("largest, climb, species upward", 0, &species, &genes,
          exactly(&genes), &expected);
    turn_genes_round();
    fills("largest, climb, both upward", 0, &species, &genes, exactly(&genes),
          &expected);
    turn_species_round();
    fills("largest, climb, genes upward", 0, &species, &genes, exactly(&genes),
          &expected);
}

/* A caterpillar in which a node hangs below the last one, 2,046, which it is
 * above: all from that node on are lost.  Upward the last node is the first. */
static void test_largest_round(void)
{
    static const uint32_t nodes[] = {2, 4, 1000, 2044, 2046};
    make_caterpillar(&species, LARGEST);
    for (size_t i = 0; i < sizeof nodes / sizeof nodes[0]; i++) {
        genes = species;
        genes.parents[nodes[i]] = 2046;
        refuses("largest, round", i, &species, &genes, exactly(&genes),
                (struct refusal){38, 2, nodes[i]});
        turn_round(genes.parents, genes.taxa, genes.count);
        refuses("largest, round and upward", i, &genes, &species,
                exactly(&species), (struct refusal){38, 1, 0});
    }
}

/* Faults at some of the 1,024 leaves. */
static void test_largest_faults(make *make_tree)
{
    size_t first = 0;
    make_tree(&species, LARGEST);
    genes = species;
    while (species.taxa[first] == 0)
        first++;
    for (size_t i = first; i < LARGEST - 1; i += 31) {
        uint32_t was = species.taxa[i];
        if (was == 0 || i == first)
            continue;
        species.taxa[i] = species.taxa[first];
        refuses("largest, repeated", i, &species, &genes, exactly(&genes),
                (struct refusal){5, 1, (uint32_t)i});
        species.taxa[i] = was;
        species.taxa[LARGEST - 1] = was;
        refuses("largest, repeated by the last", i, &species, &genes,
                exactly(&genes), (struct refusal){5, 1, LARGEST - 1});
        species.taxa[LARGEST - 1] = 70000 + LARGEST - 1;
        genes.taxa[i] = 7;
        refuses("largest, unknown", i, &species, &genes, exactly(&genes),
                (struct refusal){6, 2, (uint32_t)i});
        genes.taxa[i] = was;
    }
}

/* 2,048 nodes are too many; 2,046 are an even number, so that the last inner
 * node has one child. */
static void test_largest_counts(void)
{
    make_caterpillar(&species, LARGEST);
    make_caterpillar(&genes, 2048);
    refuses("2,048 genes", 0, &species, &genes, exactly(&genes),
            (struct refusal){1, 2, 0});
    refuses("2,048 species", 0, &genes, &species, exactly(&species),
            (struct refusal){1, 1, 0});
    make_caterpillar(&genes, 2046);
    refuses("2,046 genes", 0, &species, &genes, exactly(&genes),
            (struct refusal){3, 2, 2044});
    refuses("2,046 species", 0, &genes, &species, exactly(&species),
            (struct refusal){3, 1, 2044});
}

int main(void)
{
    /* what failed is shown even if a later call steps on a fence */
    setvbuf(stdout, NULL, _IOLBF, 0);
    test_cases_of_01();
    test_any_order();
    test_high_taxa();
    test_short_room();
    test_broken_trees();
    test_many_children();
    test_repeated_taxa();
    test_unknown_taxa();
    test_sizes();
    test_largest_alike(make_caterpillar);
    test_largest_alike(make_balanced);
    test_largest_alike(make_caterpillar_upward);
    test_largest_at_one_leaf();
    test_largest_climb();
    test_largest_round();
    test_largest_faults(make_caterpillar);
    test_largest_faults(make_balanced);
    test_largest_counts();
    printf("%u passed, %u failed\n", passed, failed);
    return failed == 0 ? 0 : 1;
}
