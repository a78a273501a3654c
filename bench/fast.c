/* The refusal of an image, as fast as we could write it in C (GCC or Clang).
 *
 * Most images are sound.  So each part is first gone through by a pass that
 * finds out whether anything at all is wrong, and not what.  Only where
 * something is, slower passes look for it in 01's order.  All passes are
 * linear; the hash table is so for taxa that nobody chose to defeat it.
 *
 *   order      Nodes may be numbered in any order.  Where parents come first,
 *              which one quick pass tells, nodes are gone through from the
 *              highest number down.  Else each node is come to from the leaves,
 *              when both of its children are done: if all are, no way goes
 *              round.
 *   positions  Every species node has one, so that a node and all below it
 *              are a run: "at or below" is one subtraction and one test.
 *   slots      A hash table of the species leaves by taxon.
 *   no look-up A gene leaf is at its species if the taxon at its place is its
 *              own, since no taxon stands twice.  The hash table is asked only
 *              to tell refusal 6 from 9.
 *
 * Tables stay the bytes that they came as.  Nothing is allocated.
 */
#include "fast.h"

#include <stdbool.h>
#include <string.h>

enum {
    MOST_NODES = 2047,
    NO_PARENT = 65535,
    NO_ROOT = 65535,
    MOST_SLOTS = 4096,
    EMPTY_SLOT = 65535,

    BLOCK_BYTES = 512,
    CHECKED_BYTES = 508,
    CONTENT_BYTES = 506,
    CONTENT_WORDS = 253,
    MOST_BLOCKS = 65,
    FORM = 1,
    COUNTS_DIFFER = 65535
};

enum { NO_TREE = 0, SPECIES = 1, GENE = 2 };
enum { LEAF = 0, SPECIATION = 1, DUPLICATION = 2 };

/* A refusal; number 0 is none. */
struct verdict {
    uint32_t number, tree, place;
};

/* A tree as its two tables in bytes. */
struct tables {
    const uint8_t *parents, *taxa;
    size_t count;
};

/* What an image holds about the genes, in bytes. */
struct record {
    struct tables gene;
    const uint8_t *places, *labels;
};

/* All that is worked out on the way.  A node's run of positions starts with
 * its own; then come its second child's run and its first child's. */
struct work {
    uint16_t position[MOST_NODES]; /* by species node, from 1 */
    uint16_t run[MOST_NODES];      /* by species node: the nodes at or below */
    uint16_t turn[MOST_NODES];     /* by species node: how far from its position
                                      its first child's run starts; 0 at a leaf */
    uint16_t near[MOST_NODES];     /* by gene node: its first child's position, */
    uint16_t far[MOST_NODES];      /* and its second child's; 0 for no child */
    uint16_t slots[MOST_SLOTS];    /* species leaves */
    unsigned shift;                /* from a hashed taxon to a slot */
    uint8_t words[MOST_BLOCKS * CONTENT_BYTES];
};

typedef bool block_check(const uint8_t *block);

/* Eight entries at once. */
typedef uint16_t lanes __attribute__((vector_size(16)));

_Static_assert(__BYTE_ORDER__ == __ORDER_LITTLE_ENDIAN__,
               "entries are read as they lie, low byte first");

static inline uint16_t word(const uint8_t *table, size_t at)
{
    uint16_t entry;
    memcpy(&entry, table + 2 * at, sizeof entry);
    return entry;
}

static inline uint32_t taxon(const uint8_t *table, size_t at)
{
    uint32_t entry;
    memcpy(&entry, table + 4 * at, sizeof entry);
    return entry;
}

/* Whether each entry is below its bound: `bound` for the first one, and `step`
 * more for each one after it. */
static bool all_below(const uint8_t *table, size_t count, uint16_t bound,
                      uint16_t step)
{
    const lanes place = {0, 1, 2, 3, 4, 5, 6, 7};
    lanes bounds = place * step + bound, wrong = {0};
    uint64_t found[2];
    size_t i = 0;
    for (; i + 8 <= count; i += 8) {
        lanes row;
        memcpy(&row, table + 2 * i, sizeof row);
        wrong |= (lanes)(row >= bounds);
        bounds += (uint16_t)(8 * step);
    }
    for (; i < count; i++)
        if (word(table, i) >= bound + i * step)
            return false;
    memcpy(found, &wrong, sizeof found);
    return (found[0] | found[1]) == 0;
}

static struct verdict refused(uint32_t number, uint32_t tree, size_t place)
{
    struct verdict v = {number, tree, (uint32_t)place};
    return v;
}

/* The hash table */

static inline size_t slot_of(const struct work *w, uint32_t sought)
{
    return sought * 0x9E3779B1u >> w->shift;
}

static inline size_t next_slot(const struct work *w, size_t slot)
{
    return (slot + 1) & (0xFFFFFFFFu >> w->shift);
}

static void clear_slots(struct work *w, size_t nodes)
{
    unsigned bits = 2;
    while ((size_t)1 << bits < 2 * nodes)
        bits++;
    w->shift = 32 - bits;
    memset(w->slots, 255, sizeof w->slots[0] << bits);
}

/* Puts a leaf into the hash table; false if its taxon is there already. */
static inline bool enter_leaf(struct work *w, const uint8_t *taxa, size_t leaf,
                              uint32_t own)
{
    size_t slot = slot_of(w, own);
    while (w->slots[slot] != EMPTY_SLOT) {
        if (taxon(taxa, w->slots[slot]) == own)
            return false;
        slot = next_slot(w, slot);
    }
    w->slots[slot] = (uint16_t)leaf;
    return true;
}

/* The species leaf of a taxon, or the number of nodes if there is none. */
static size_t leaf_of(const struct work *w, struct tables species,
                      uint32_t sought)
{
    size_t slot = slot_of(w, sought);
    while (w->slots[slot] != EMPTY_SLOT) {
        if (taxon(species.taxa, w->slots[slot]) == sought)
            return w->slots[slot];
        slot = next_slot(w, slot);
    }
    return species.count;
}

/* Trees: refusals 2, 38 and 3 to 6 */

static bool parents_first(struct tables t)
{
    return word(t.parents, 0) == NO_PARENT
           && all_below(t.parents + 2, t.count - 1, 1, 1);
}

/* Gives each species node its position, from 1.  Up to then `position` holds
 * how far the node's run starts from its parent's position. */
static void lay_out_downward(struct work *w, struct tables t)
{
    memset(w->turn, 0, t.count * sizeof w->turn[0]);
    for (size_t i = 0; i < t.count; i++)
        w->run[i] = 1;
    for (size_t i = t.count - 1; i > 0; i--) {
        size_t above = word(t.parents, i);
        uint16_t so_far = w->run[above];
        w->position[i] = so_far;
        w->turn[above] = so_far;
        w->run[above] = (uint16_t)(so_far + w->run[i]);
    }
    w->position[0] = 1;
    for (size_t i = 1; i < t.count; i++)
        w->position[i] = (uint16_t)(w->position[i]
                                    + w->position[word(t.parents, i)]);
}

/* A species node whose run is known comes to its parent; gives whether that
 * makes the parent's known, which two children do. */
static inline bool joins(struct work *w, size_t node, size_t above)
{
    bool second = w->turn[above] != 0;
    uint16_t so_far = second ? w->run[above] : 1;
    w->position[node] = w->turn[above] = so_far;
    w->run[above] = (uint16_t)(so_far + w->run[node]);
    return second;
}

/* The same for any numbering, if every node reaches one root; false if not, or
 * if a node has three children or a taxon and a child.  `near` holds the nodes
 * in the order in which they were done, so that the root is the last. */
static bool lay_out_from_leaves(struct work *w, struct tables t)
{
    size_t done = 0, roots = 0;
    memset(w->turn, 0, t.count * sizeof w->turn[0]);
    for (size_t i = 0; i < t.count; i++) {
        size_t at = i, above;
        if (taxon(t.taxa, i) == 0)
            continue;
        w->run[i] = 1;
        for (;; at = above) {
            w->near[done++] = (uint16_t)at;
            above = word(t.parents, at);
            if (above >= t.count) {
                if (above != NO_PARENT || roots++ > 0)
                    return false;
                break;
            }
            if (w->turn[above] > 1 || taxon(t.taxa, above) != 0)
                return false;
            if (!joins(w, at, above))
                break;
        }
    }
    if (done != t.count || roots != 1)
        return false;
    w->position[w->near[done - 1]] = 1;
    for (size_t k = done - 1; k-- > 0;) {
        size_t i = w->near[k];
        w->position[i] = (uint16_t)(w->position[i]
                                    + w->position[word(t.parents, i)]);
    }
    return true;
}

static bool lay_out(struct work *w, struct tables t)
{
    if (!parents_first(t))
        return lay_out_from_leaves(w, t);
    lay_out_downward(w, t);
    return true;
}

/* Whether the taxa are as 3, 4 and 5 ask, after `lay_out`.  A node of two
 * children or more has a turn of 2 or more, and if there are half as many such
 * nodes as children, each has two. */
static bool enter_leaves(struct work *w, struct tables t)
{
    size_t inner = 0;
    for (size_t i = 0; i < t.count; i++) {
        uint32_t own = taxon(t.taxa, i);
        if (own == 0) {
            if (w->turn[i] < 2)
                return false;
            inner++;
        } else if (w->turn[i] != 0 || !enter_leaf(w, t.taxa, i, own)) {
            return false;
        }
    }
    return 2 * inner == t.count - 1;
}

static bool species_holds(struct work *w, struct tables t)
{
    if (!lay_out(w, t))
        return false;
    clear_slots(w, t.count);
    return enter_leaves(w, t);
}

/* Refusal 2, or none and the root. */
static struct verdict root_fault(struct tables t, uint32_t tree, size_t *root)
{
    bool found = false;
    for (size_t i = 0; i < t.count; i++) {
        uint16_t parent = word(t.parents, i);
        if (parent < t.count)
            continue;
        if (found || parent != NO_PARENT)
            return refused(2, tree, i);
        *root = i;
        found = true;
    }
    return found ? refused(0, NO_TREE, 0) : refused(2, tree, NO_ROOT);
}

/* The lowest node that never reaches the root, or the count.  From each node
 * one walks up to one that was passed already; `passed` holds from which node,
 * plus 1, and who meets the same walk again goes round. */
static size_t lost_node(uint16_t *passed, struct tables t, size_t root)
{
    memset(passed, 0, t.count * sizeof passed[0]);
    passed[root] = NO_PARENT;
    for (size_t i = 0; i < t.count; i++) {
        size_t at = i;
        for (; passed[at] == 0; at = word(t.parents, at))
            passed[at] = (uint16_t)(i + 1);
        if (passed[at] == i + 1)
            return i;
    }
    return t.count;
}

static void count_children(uint16_t *children, struct tables t)
{
    memset(children, 0, t.count * sizeof children[0]);
    for (size_t i = 0; i < t.count; i++)
        if (word(t.parents, i) != NO_PARENT)
            children[word(t.parents, i)]++;
}

/* Refusals 2, 38, 3 and 4. */
static struct verdict tree_fault(struct tables t, uint32_t tree)
{
    uint16_t children[MOST_NODES];
    size_t root = 0, lost;
    struct verdict v = root_fault(t, tree, &root);
    if (v.number != 0)
        return v;
    lost = lost_node(children, t, root);
    if (lost < t.count)
        return refused(38, tree, lost);
    count_children(children, t);
    for (size_t i = 0; i < t.count; i++)
        if (children[i] != 0 && children[i] != 2)
            return refused(3, tree, i);
    for (size_t i = 0; i < t.count; i++)
        if ((children[i] == 0) == (taxon(t.taxa, i) == 0))
            return refused(4, tree, i);
    return v;
}

static struct verdict species_fault(struct work *w, struct tables t)
{
    struct verdict v = tree_fault(t, SPECIES);
    if (v.number != 0)
        return v;
    clear_slots(w, t.count);
    for (size_t i = 0; i < t.count; i++) {
        uint32_t own = taxon(t.taxa, i);
        if (own != 0 && !enter_leaf(w, t.taxa, i, own))
            return refused(5, SPECIES, i);
    }
    return v;
}

/* Blocks: refusals 14 and 15 */

/* The check as 01 writes it. */
static bool check_bytewise(const uint8_t *block)
{
    uint32_t a = 0, b = 0;
    for (size_t i = 0; i < CHECKED_BYTES; i += 4) {
        a += block[i];
        b += a;
        a += block[i + 1];
        b += a;
        a += block[i + 2];
        b += a;
        a += block[i + 3];
        b += a;
    }
    return (uint16_t)a == word(block, 254) && (uint16_t)b == word(block, 255);
}

/* The same check, sixteen bytes at a time.  Four zeros in front, which leave
 * both sums at 0, make the bytes 32 rows of 16.  Of the rows, as 8 words each,
 * `a` and `b` are the two sums of each column of words, and `odd_a` and `odd_b`
 * those of the words' high bytes alone.  A byte in column c of row r counts
 * 16 * (32 - r) - c times in the whole B. */
static bool check_wide(const uint8_t *block)
{
    const lanes column = {0, 2, 4, 6, 8, 10, 12, 14};
    uint8_t start[16] = {0};
    uint16_t sum_a = 0, sum_b = 0;
    lanes row, a, b, odd_a, odd_b;

    memcpy(start + 4, block, 12);
    memcpy(&row, start, 16);
    a = b = row;
    odd_a = odd_b = row >> 8;
    for (size_t i = 12; i < CHECKED_BYTES; i += 16) {
        memcpy(&row, block + i, 16);
        a += row;
        b += a;
        odd_a += row >> 8;
        odd_b += odd_a;
    }
    /* from words to bytes: the low bytes are what the high ones leave */
    a += odd_a - (odd_a << 8);
    b += odd_b - (odd_b << 8);
    b = (b << 4) - column * a - odd_a;
    for (int i = 0; i < 8; i++) {
        sum_a = (uint16_t)(sum_a + a[i]);
        sum_b = (uint16_t)(sum_b + b[i]);
    }
    return sum_a == word(block, 254) && sum_b == word(block, 255);
}

/* Copies the content of all blocks; false if a check or a number differs. */
static bool blocks_hold(struct work *w, const uint8_t *image, size_t blocks,
                        block_check *check)
{
    for (size_t k = 0; k < blocks; k++) {
        const uint8_t *block = image + k * BLOCK_BYTES;
        if (!check(block) || word(block, 0) != k)
            return false;
        memcpy(w->words + k * CONTENT_BYTES, block + 2, CONTENT_BYTES);
    }
    return true;
}

static struct verdict block_fault(const uint8_t *image, size_t blocks,
                                  block_check *check)
{
    for (size_t k = 0; k < blocks; k++)
        if (!check(image + k * BLOCK_BYTES))
            return refused(14, NO_TREE, k);
    for (size_t k = 0; k < blocks; k++)
        if (word(image + k * BLOCK_BYTES, 0) != k)
            return refused(15, NO_TREE, k);
    return refused(0, NO_TREE, 0);
}

/* The words: refusals 16 to 18 */

static bool counts_and_filling_hold(const uint8_t *words, size_t blocks)
{
    size_t p = word(words, 1), q = word(words, 2);
    size_t used = 3 + 3 * p + 5 * q;
    uint8_t filling = 0;
    if (p == 0 || p > MOST_NODES || q == 0 || q > MOST_NODES)
        return false;
    if (blocks != (used + CONTENT_WORDS - 1) / CONTENT_WORDS)
        return false;
    for (size_t i = 2 * used; i < blocks * CONTENT_BYTES; i++)
        filling |= words[i];
    return filling == 0;
}

static struct verdict release_fault(const uint8_t *words, struct tables rack)
{
    size_t p = rack.count;
    const uint8_t *parents = words + 2 * 3, *taxa = parents + 2 * p;
    if (word(words, 1) != p)
        return refused(18, SPECIES, COUNTS_DIFFER);
    if (memcmp(parents, rack.parents, 2 * p) == 0
        && memcmp(taxa, rack.taxa, 4 * p) == 0)
        return refused(0, NO_TREE, 0);
    for (size_t i = 0; i < p; i++)
        if (word(parents, i) != word(rack.parents, i)
            || taxon(taxa, i) != taxon(rack.taxa, i))
            return refused(18, SPECIES, i);
    return refused(0, NO_TREE, 0);
}

static struct record record_in(const uint8_t *words)
{
    size_t p = word(words, 1), q = word(words, 2);
    struct record r;
    r.gene.count = q;
    r.gene.parents = words + 2 * (3 + 3 * p);
    r.gene.taxa = r.gene.parents + 2 * q;
    r.places = r.gene.taxa + 4 * q;
    r.labels = r.places + 2 * q;
    return r;
}

/* Genes: refusals 2, 38, 3, 4, 6 and 8 to 11 */

/* Whether an inner gene node at a place may have this label and children at
 * two positions.  Position 0, of a child that is missing, is in no run. */
static inline bool descent_holds(const struct work *w, size_t place,
                                 uint16_t label, uint16_t near, uint16_t far)
{
    uint16_t own = w->position[place], run = w->run[place];
    uint16_t one = (uint16_t)(near - own), other = (uint16_t)(far - own);
    if (one >= run || other >= run)
        return false;
    if (label == SPECIATION)
        return one != 0 && other != 0
               && (one < w->turn[place]) != (other < w->turn[place]);
    return label == DUPLICATION;
}

/* Whether a gene node is right by itself and with its children; counts it if
 * it is an inner one. */
static inline bool node_holds(const struct work *w, struct tables species,
                              const struct record *r, size_t node,
                              size_t *inner)
{
    uint32_t own = taxon(r->gene.taxa, node);
    size_t place = word(r->places, node);
    uint16_t label = word(r->labels, node);
    if (own != 0)
        return own == taxon(species.taxa, place) && label == LEAF
               && w->near[node] == 0;
    ++*inner;
    return descent_holds(w, place, label, w->near[node], w->far[node]);
}

/* Children come before their parents here, and each tells its parent where it
 * is.  As for the species, every inner node has two children if each has two
 * or more and there are half as many of them as children. */
static bool genes_hold_downward(struct work *w, struct tables species,
                                const struct record *r)
{
    size_t q = r->gene.count, inner = 0;
    for (size_t i = q - 1; i > 0; i--) {
        size_t above = word(r->gene.parents, i);
        if (!node_holds(w, species, r, i, &inner))
            return false;
        w->far[above] = w->near[above];
        w->near[above] = w->position[word(r->places, i)];
    }
    return node_holds(w, species, r, 0, &inner) && 2 * inner == q - 1;
}

/* The same for any numbering.  An inner node is done with its second child; a
 * third is a fault.  If all nodes are done, one of them is the root and there
 * are half as many inner ones as children, no leaf has a child. */
static bool genes_hold_from_leaves(struct work *w, struct tables species,
                                   const struct record *r)
{
    size_t q = r->gene.count, inner = 0, leaves = 0, roots = 0;
    for (size_t i = 0; i < q; i++) {
        size_t at = i, above;
        if (taxon(r->gene.taxa, i) == 0)
            continue;
        leaves++;
        do {
            if (!node_holds(w, species, r, at, &inner))
                return false;
            above = word(r->gene.parents, at);
            if (above >= q) {
                if (above != NO_PARENT || roots++ > 0)
                    return false;
                break;
            }
            if (w->far[above] != 0)
                return false;
            w->far[above] = w->near[above];
            w->near[above] = w->position[word(r->places, at)];
            at = above;
        } while (w->far[above] != 0);
    }
    return roots == 1 && leaves + inner == q && 2 * inner == q - 1;
}

static bool genes_hold(struct work *w, struct tables species,
                       const struct record *r)
{
    size_t q = r->gene.count;
    if (!all_below(r->places, q, (uint16_t)species.count, 0))
        return false;
    memset(w->near, 0, q * sizeof w->near[0]);
    memset(w->far, 0, q * sizeof w->far[0]);
    return parents_first(r->gene) ? genes_hold_downward(w, species, r)
                                  : genes_hold_from_leaves(w, species, r);
}

/* Refusals 6, 8 and 9: what concerns a node alone. */
static struct verdict node_fault(const struct work *w, struct tables species,
                                 const struct record *r)
{
    size_t q = r->gene.count;
    for (size_t i = 0; i < q; i++) {
        uint32_t own = taxon(r->gene.taxa, i);
        if (own != 0 && leaf_of(w, species, own) == species.count)
            return refused(6, GENE, i);
    }
    for (size_t i = 0; i < q; i++) {
        uint16_t label = word(r->labels, i);
        bool leaf = taxon(r->gene.taxa, i) != 0;
        if (word(r->places, i) >= species.count || label > DUPLICATION
            || leaf != (label == LEAF))
            return refused(8, GENE, i);
    }
    for (size_t i = 0; i < q; i++) {
        uint32_t own = taxon(r->gene.taxa, i);
        if (own != 0 && word(r->places, i) != leaf_of(w, species, own))
            return refused(9, GENE, i);
    }
    return refused(0, NO_TREE, 0);
}

/* Refusals 10 and 11: what concerns a node and its children. */
static struct verdict descent_fault(struct work *w, const struct record *r)
{
    size_t q = r->gene.count;
    memset(w->near, 0, q * sizeof w->near[0]);
    memset(w->far, 0, q * sizeof w->far[0]);
    for (size_t i = 0; i < q; i++) {
        size_t above = word(r->gene.parents, i), place;
        uint16_t at = w->position[word(r->places, i)];
        if (above == NO_PARENT)
            continue;
        place = word(r->places, above);
        if ((uint16_t)(at - w->position[place]) >= w->run[place])
            return refused(10, GENE, i);
        w->far[above] = w->near[above];
        w->near[above] = at;
    }
    for (size_t i = 0; i < q; i++)
        if (word(r->labels, i) == SPECIATION
            && !descent_holds(w, word(r->places, i), SPECIATION, w->near[i],
                              w->far[i]))
            return refused(11, GENE, i);
    return refused(0, NO_TREE, 0);
}

static struct verdict gene_fault(struct work *w, struct tables species,
                                 const struct record *r)
{
    struct verdict v = tree_fault(r->gene, GENE);
    if (v.number == 0)
        v = node_fault(w, species, r);
    if (v.number == 0)
        v = descent_fault(w, r);
    return v;
}

/* The whole */

static struct verdict judge_words(struct work *w, size_t blocks,
                                  struct tables rack)
{
    struct record r;
    struct verdict v;
    if (word(w->words, 0) != FORM)
        return refused(16, NO_TREE, 0);
    if (!counts_and_filling_hold(w->words, blocks))
        return refused(17, NO_TREE, 0);
    v = release_fault(w->words, rack);
    if (v.number != 0)
        return v;
    r = record_in(w->words);
    return genes_hold(w, rack, &r) ? v : gene_fault(w, rack, &r);
}

static struct verdict judge(struct work *w, const uint8_t *image,
                            size_t image_len, struct tables rack,
                            block_check *check)
{
    size_t blocks = image_len / BLOCK_BYTES;
    if (!species_holds(w, rack))
        return species_fault(w, rack);
    if (image_len % BLOCK_BYTES != 0 || blocks == 0 || blocks > MOST_BLOCKS)
        return refused(13, NO_TREE, 0);
    if (!blocks_hold(w, image, blocks, check))
        return block_fault(image, blocks, check);
    return judge_words(w, blocks, rack);
}

static bool sizes_hold(size_t parents_len, size_t taxa_len)
{
    return parents_len % 2 == 0 && taxa_len % 4 == 0
           && parents_len / 2 == taxa_len / 4 && parents_len > 0
           && parents_len / 2 <= MOST_NODES;
}

uint32_t fast_refusal(const uint8_t *image, size_t image_len,
                      const uint8_t *parents, size_t parents_len,
                      const uint8_t *taxa, size_t taxa_len)
{
    struct tables rack = {parents, taxa, parents_len / 2};
    struct work w;
    if (!sizes_hold(parents_len, taxa_len))
        return 1;
    return judge(&w, image, image_len, rack, check_wide).number;
}

uint32_t fast_refusal_bytewise(const uint8_t *image, size_t image_len,
                               const uint8_t *parents, size_t parents_len,
                               const uint8_t *taxa, size_t taxa_len)
{
    struct tables rack = {parents, taxa, parents_len / 2};
    struct work w;
    if (!sizes_hold(parents_len, taxa_len))
        return 1;
    return judge(&w, image, image_len, rack, check_bytewise).number;
}

/* The steps from a species node up to another above it. */
static uint32_t steps_up(struct tables rack, size_t from, size_t to)
{
    uint32_t steps = 0;
    for (; from != to; from = word(rack.parents, from))
        steps++;
    return steps;
}

/* The duplications and losses of an accepted image. */
static void count(struct fast_answer *answer, const struct work *w,
                  struct tables rack)
{
    struct record r = record_in(w->words);
    for (size_t i = 0; i < r.gene.count; i++) {
        size_t above = word(r.gene.parents, i);
        if (word(r.labels, i) == DUPLICATION)
            answer->duplications++;
        if (above == NO_PARENT)
            continue;
        answer->losses += steps_up(rack, word(r.places, i),
                                   word(r.places, above));
        answer->losses -= word(r.labels, above) == SPECIATION;
    }
}

struct fast_answer fast_answer(const uint8_t *image, size_t image_len,
                               const uint8_t *parents, size_t parents_len,
                               const uint8_t *taxa, size_t taxa_len)
{
    struct tables rack = {parents, taxa, parents_len / 2};
    struct fast_answer answer = {1, SPECIES, 0, 0, 0};
    struct work w;
    struct verdict v;
    if (!sizes_hold(parents_len, taxa_len))
        return answer;
    v = judge(&w, image, image_len, rack, check_wide);
    answer.refusal = v.number;
    answer.tree = v.tree;
    answer.place = v.place;
    if (v.number == 0)
        count(&answer, &w, rack);
    return answer;
}
