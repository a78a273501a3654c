/* Runs a call a given number of times, so that its instructions can be counted
 * from outside, and measures the stack that the calls need.
 *
 *     bench CALL SHAPE P Q TIMES   runs one of the calls listed below
 *     bench stack SHAPE P Q        prints, for each call, its name and the
 *                                  bytes of stack that it wrote to
 *
 * SHAPE is balanced, random or caterpillar, for both trees; P and Q are their
 * numbers of nodes.  Their nodes are numbered with parents first; with -shuffled
 * behind the shape the same trees and their history are numbered at random.  A
 * call is given the two trees, or the image that holds them with the least
 * history.  The same words always make the same trees.  Exit status 1: a call
 * refused them.
 */
#include <stdbool.h>
#include <stdint.h>
#include <stdio.h>
#include <stdlib.h>
#include <string.h>
#include <ucontext.h>

#include "fast.h"
#include "history.h"
#include "panheron.h"

enum {
    MOST_NODES = 2047,
    NO_PARENT = 65535,
    MOST_TAXON = 3000000,
    BLOCK_BYTES = 512,
    CHECKED_BYTES = 508,
    CONTENT_WORDS = 253,
    MOST_BLOCKS = 65,
    STACK_BYTES = 1 << 20,
    PAINT = 0xA5
};

struct tree {
    size_t count;
    uint16_t parents[MOST_NODES];
    uint32_t taxa[MOST_NODES];
};

/* What the calls are given. */
static struct tree species, genes;
static uint16_t places[MOST_NODES], labels[MOST_NODES];
static uint64_t counts[4];
static uint8_t image[MOST_BLOCKS * BLOCK_BYTES];
static uint8_t parents_bytes[2 * MOST_NODES];
static uint8_t taxa_bytes[4 * MOST_NODES];
static size_t image_len, parents_len, taxa_len;

static void stop(const char *why)
{
    fprintf(stderr, "bench: %s\n", why);
    exit(2);
}

/* Random numbers: Marsaglia's xorshift with shifts 13, 17 and 5. */
static uint32_t random_below(uint32_t limit)
{
    static uint32_t state = 2463534242u;
    state ^= state << 13;
    state ^= state >> 17;
    state ^= state << 5;
    return state % limit;
}

/* Trees */

static void make_balanced(struct tree *t)
{
    for (size_t i = 1; i < t->count; i++)
        t->parents[i] = (uint16_t)((i - 1) / 2);
}

/* Every inner node has a leaf and the next inner node. */
static void make_caterpillar(struct tree *t)
{
    for (size_t i = 1; i < t->count; i++)
        t->parents[i] = (uint16_t)(i % 2 == 1 ? i - 1 : i - 2);
}

/* A random leaf is split again and again. */
static void make_random(struct tree *t)
{
    uint16_t leaves[MOST_NODES] = {0};
    uint32_t count = 1;
    for (size_t i = 1; i < t->count; i += 2) {
        uint32_t at = random_below(count);
        t->parents[i] = t->parents[i + 1] = leaves[at];
        leaves[at] = (uint16_t)i;
        leaves[count++] = (uint16_t)(i + 1);
    }
}

/* The shapes, and what stands behind one whose nodes are shuffled. */
static const struct {
    const char *name;
    void (*make)(struct tree *);
} shapes[] = {{"balanced", make_balanced},
              {"random", make_random},
              {"caterpillar", make_caterpillar}};
static const char shuffled[] = "-shuffled";

/* Makes both trees; gives whether their nodes are to be shuffled. */
static bool make_shapes(const char *words, size_t p, size_t q)
{
    species.count = p;
    genes.count = q;
    species.parents[0] = genes.parents[0] = NO_PARENT;
    for (size_t i = 0; i < sizeof shapes / sizeof shapes[0]; i++) {
        size_t length = strlen(shapes[i].name);
        const char *behind = words + length;
        if (strncmp(words, shapes[i].name, length) != 0
            || (*behind != '\0' && strcmp(behind, shuffled) != 0))
            continue;
        shapes[i].make(&species);
        shapes[i].make(&genes);
        return *behind != '\0';
    }
    stop("the shape is balanced, random or caterpillar, or one with -shuffled");
    return false;
}

static void mark_leaves(const struct tree *t, bool *leaf)
{
    for (size_t i = 0; i < t->count; i++)
        leaf[i] = true;
    for (size_t i = 0; i < t->count; i++)
        if (t->parents[i] != NO_PARENT)
            leaf[t->parents[i]] = false;
}

/* Different numbers of up to seven digits, as taxonomies give them. */
static void name_species(struct tree *t)
{
    static bool used[MOST_TAXON + 1];
    bool leaf[MOST_NODES];
    mark_leaves(t, leaf);
    for (size_t i = 0; i < t->count; i++) {
        uint32_t taxon = 0;
        while (leaf[i] && (taxon == 0 || used[taxon]))
            taxon = 1 + random_below(MOST_TAXON);
        used[taxon] = true;
        t->taxa[i] = taxon;
    }
}

static void name_genes(void)
{
    bool leaf[MOST_NODES];
    mark_leaves(&genes, leaf);
    for (size_t i = 0; i < genes.count; i++) {
        genes.taxa[i] = 0;
        while (leaf[i] && genes.taxa[i] == 0)
            genes.taxa[i] = species.taxa[random_below((uint32_t)species.count)];
    }
}

/* The least history */

static uint16_t leaf_of(uint32_t taxon)
{
    uint16_t i = 0;
    while (species.taxa[i] != taxon)
        i++;
    return i;
}

static size_t depth_of(uint16_t node)
{
    size_t depth = 0;
    for (; species.parents[node] != NO_PARENT; node = species.parents[node])
        depth++;
    return depth;
}

static uint16_t common_ancestor(uint16_t a, uint16_t b)
{
    size_t above_a = depth_of(a), above_b = depth_of(b);
    for (; above_a > above_b; above_a--)
        a = species.parents[a];
    for (; above_b > above_a; above_b--)
        b = species.parents[b];
    while (a != b) {
        a = species.parents[a];
        b = species.parents[b];
    }
    return a;
}

/* From each leaf up: the first child that comes to a node leaves its place there,
 * and with the second the node itself is placed. */
static void make_history(void)
{
    bool visited[MOST_NODES] = {false};
    memset(labels, 0, sizeof labels);
    for (size_t i = 0; i < genes.count; i++) {
        uint16_t at = (uint16_t)i, above = genes.parents[i];
        if (genes.taxa[i] == 0)
            continue;
        places[i] = leaf_of(genes.taxa[i]);
        for (; above != NO_PARENT && visited[above];
             at = above, above = genes.parents[at]) {
            uint16_t one = places[above];
            places[above] = common_ancestor(one, places[at]);
            labels[above] = places[above] == one || places[above] == places[at]
                                ? 2 : 1;
        }
        if (above != NO_PARENT) {
            visited[above] = true;
            places[above] = places[at];
        }
    }
}

/* Numbering anew */

static void draw_numbers(uint16_t *numbers, size_t count)
{
    for (size_t i = 0; i < count; i++) {
        size_t at = random_below((uint32_t)i + 1);
        numbers[i] = numbers[at];
        numbers[at] = (uint16_t)i;
    }
}

static void renumber(struct tree *t, const uint16_t *numbers)
{
    static struct tree was;
    was = *t;
    for (size_t i = 0; i < t->count; i++) {
        uint16_t parent = was.parents[i];
        t->parents[numbers[i]] = parent == NO_PARENT ? parent : numbers[parent];
        t->taxa[numbers[i]] = was.taxa[i];
    }
}

static void shuffle(void)
{
    static uint16_t of_species[MOST_NODES], of_genes[MOST_NODES];
    static uint16_t old_places[MOST_NODES], old_labels[MOST_NODES];
    draw_numbers(of_species, species.count);
    draw_numbers(of_genes, genes.count);
    renumber(&species, of_species);
    renumber(&genes, of_genes);
    memcpy(old_places, places, sizeof places);
    memcpy(old_labels, labels, sizeof labels);
    for (size_t i = 0; i < genes.count; i++) {
        places[of_genes[i]] = of_species[old_places[i]];
        labels[of_genes[i]] = old_labels[i];
    }
}

/* The image */

static void put_word(uint8_t *bytes, uint32_t word)
{
    bytes[0] = (uint8_t)(word & 255);
    bytes[1] = (uint8_t)(word >> 8 & 255);
}

/* Puts the next word of the image. */
static void add_word(size_t *words, uint32_t word)
{
    size_t block = *words / CONTENT_WORDS, at = *words % CONTENT_WORDS;
    put_word(image + block * BLOCK_BYTES + 2 + 2 * at, word);
    (*words)++;
}

static void add_tree(size_t *words, const struct tree *t)
{
    for (size_t i = 0; i < t->count; i++)
        add_word(words, t->parents[i]);
    for (size_t i = 0; i < t->count; i++) {
        add_word(words, t->taxa[i] & 65535);
        add_word(words, t->taxa[i] >> 16);
    }
}

static void seal(uint8_t *block, size_t number)
{
    uint32_t a = 0, b = 0;
    put_word(block, (uint32_t)number);
    for (size_t i = 0; i < CHECKED_BYTES; i++) {
        a += block[i];
        b += a;
    }
    put_word(block + 508, a);
    put_word(block + 510, b);
}

static void make_image(void)
{
    size_t words = 0;
    add_word(&words, 1);
    add_word(&words, (uint32_t)species.count);
    add_word(&words, (uint32_t)genes.count);
    add_tree(&words, &species);
    add_tree(&words, &genes);
    for (size_t i = 0; i < genes.count; i++)
        add_word(&words, places[i]);
    for (size_t i = 0; i < genes.count; i++)
        add_word(&words, labels[i]);
    for (size_t k = 0; k * CONTENT_WORDS < words; k++) {
        seal(image + k * BLOCK_BYTES, k);
        image_len += BLOCK_BYTES;
    }
}

static void make_rack(void)
{
    for (size_t i = 0; i < species.count; i++) {
        put_word(parents_bytes + 2 * i, species.parents[i]);
        put_word(taxa_bytes + 4 * i, species.taxa[i] & 65535);
        put_word(taxa_bytes + 4 * i + 2, species.taxa[i] >> 16);
    }
    parents_len = 2 * species.count;
    taxa_len = 4 * species.count;
}

static size_t count_in(const char *text)
{
    unsigned long count = strtoul(text, NULL, 10);
    if (count == 0 || count > MOST_NODES || count % 2 == 0)
        stop("P and Q are odd numbers from 1 to 2047");
    return count;
}

static void make_inputs(char **words)
{
    bool in_any_order = make_shapes(words[0], count_in(words[1]),
                                    count_in(words[2]));
    name_species(&species);
    name_genes();
    make_history();
    if (in_any_order)
        shuffle();
    make_rack();
    make_image();
}

/* The calls: about an image, or about the two trees.  A null one is neither. */

typedef uint32_t image_call(const uint8_t *, size_t, const uint8_t *, size_t,
                            const uint8_t *, size_t);
typedef uint32_t history_call(const uint16_t *, size_t, const uint32_t *,
                              size_t, const uint16_t *, size_t,
                              const uint32_t *, size_t, uint16_t *, size_t,
                              uint16_t *, size_t, uint64_t *, size_t);

struct call {
    const char *name;
    image_call *of_image;
    history_call *of_trees;
};

static const struct call calls[] = {
    {"panheron_refusal", panheron_refusal, NULL},
    {"panheron_tree", panheron_tree, NULL},
    {"panheron_place", panheron_place, NULL},
    {"panheron_duplications", panheron_duplications, NULL},
    {"panheron_losses", panheron_losses, NULL},
    {"fast_refusal", fast_refusal, NULL},
    {"fast_refusal_bytewise", fast_refusal_bytewise, NULL},
    {"panheron_history", NULL, panheron_history},
    {"plain_history", NULL, plain_history},
};
enum { CALLS = sizeof calls / sizeof calls[0] };

static uint32_t ask(const struct call *call)
{
    if (call->of_image != NULL)
        return call->of_image(image, image_len, parents_bytes, parents_len,
                              taxa_bytes, taxa_len);
    return call->of_trees(species.parents, species.count, species.taxa,
                          species.count, genes.parents, genes.count,
                          genes.taxa, genes.count, places, genes.count, labels,
                          genes.count, counts, 4);
}

static int run_many(const char *name, const char *times)
{
    unsigned long left = strtoul(times, NULL, 10);
    for (size_t i = 0; i < CALLS; i++) {
        if (strcmp(name, calls[i].name) != 0)
            continue;
        while (left-- > 0)
            if (ask(&calls[i]) != 0)
                return 1;
        return 0;
    }
    stop("there is no such call");
    return 2;
}

/* Stack: the call runs on a stack of its own that was painted before.  What
 * running nothing leaves there is taken off. */

static uint32_t no_image(const uint8_t *i, size_t i_len, const uint8_t *p,
                         size_t p_len, const uint8_t *t, size_t t_len)
{
    (void)i, (void)i_len, (void)p, (void)p_len, (void)t, (void)t_len;
    return 0;
}

static uint32_t no_history(const uint16_t *sp, size_t sp_count,
                           const uint32_t *st, size_t st_count,
                           const uint16_t *gp, size_t gp_count,
                           const uint32_t *gt, size_t gt_count, uint16_t *p,
                           size_t p_count, uint16_t *l, size_t l_count,
                           uint64_t *c, size_t c_count)
{
    (void)sp, (void)sp_count, (void)st, (void)st_count, (void)gp;
    (void)gp_count, (void)gt, (void)gt_count, (void)p, (void)p_count;
    (void)l, (void)l_count, (void)c, (void)c_count;
    return 0;
}

static ucontext_t outside, inside;
static const struct call *measured;

static void run_inside(void)
{
    ask(measured);
}

static size_t stack_of(const struct call *call)
{
    static uint8_t stack[STACK_BYTES];
    size_t untouched = 0;
    memset(stack, PAINT, sizeof stack);
    measured = call;
    if (getcontext(&inside) != 0)
        stop("no context");
    inside.uc_stack.ss_sp = stack;
    inside.uc_stack.ss_size = sizeof stack;
    inside.uc_link = &outside;
    makecontext(&inside, run_inside, 0);
    if (swapcontext(&outside, &inside) != 0)
        stop("no context");
    while (untouched < sizeof stack && stack[untouched] == PAINT)
        untouched++;
    return sizeof stack - untouched;
}

static int print_stacks(void)
{
    static const struct call nothing[] = {{"", no_image, NULL},
                                          {"", NULL, no_history}};
    for (size_t i = 0; i < CALLS; i++) {
        bool of_image = calls[i].of_image != NULL;
        size_t base = stack_of(&nothing[of_image ? 0 : 1]);
        printf("%s %zu\n", calls[i].name, stack_of(&calls[i]) - base);
    }
    return 0;
}

int main(int argc, char **argv)
{
    if (argc == 5 && strcmp(argv[1], "stack") == 0) {
        make_inputs(argv + 2);
        return print_stacks();
    }
    if (argc != 6)
        stop("usage: bench CALL SHAPE P Q TIMES, or bench stack SHAPE P Q");
    make_inputs(argv + 2);
    return run_many(argv[1], argv[5]);
}
