/* Tests the five calls of panheron.h as a C program links them.
 *
 * The tables are typed in by hand, mostly 01's small release and its cases,
 * and a small writer of this file's own makes the images.  What is expected is
 * typed in too.  Every slice is handed over so that it ends where readable
 * memory ends, and is compared with its copy after the call.
 *
 * An empty slice is handed over with a pointer that is not null, as panheron.h
 * asks.  A null pointer is never passed: a Rattle slice is a reference, and
 * nothing says that a reference may be null.
 *
 * Prints each failure and `N passed, M failed`; the exit status is 1 if any
 * test failed.  With a number as its argument it tries so many random images
 * more than it usually does.
 */
#define _DEFAULT_SOURCE

#include <stdbool.h>
#include <stdint.h>
#include <stdio.h>
#include <stdlib.h>
#include <string.h>

#include "fence.h"
#include "panheron.h"
#include "turn.h"

enum {
    MOST_NODES = 2048, /* one more than a tree may have */
    MOST_BLOCKS = 70,
    BLOCK_BYTES = 512,
    CHECKED_BYTES = 508,
    CONTENT_WORDS = 253,
    RANDOM_IMAGES = 2000
};

static unsigned passed, failed;

/* What is stored, and the bytes that are handed over */

struct tree {
    size_t count;
    uint16_t parents[MOST_NODES];
    uint32_t taxa[MOST_NODES];
};

struct family {
    struct tree genes;
    uint16_t places[MOST_NODES], labels[MOST_NODES];
};

struct bytes {
    size_t length;
    uint8_t at[MOST_BLOCKS * BLOCK_BYTES];
};

struct question {
    struct bytes image, parents, taxa;
};

struct answer {
    uint32_t refusal, tree, place, duplications, losses;
};

/* The writer */

static void put(struct bytes *b, uint32_t word)
{
    b->at[b->length++] = (uint8_t)(word & 255);
    b->at[b->length++] = (uint8_t)(word >> 8 & 255);
}

static void put_taxon(struct bytes *b, uint32_t taxon)
{
    put(b, taxon & 65535);
    put(b, taxon >> 16);
}

/* The check of a block whose other bytes are there. */
static void seal(uint8_t *block)
{
    uint16_t a = 0, b = 0;
    for (int i = 0; i < CHECKED_BYTES; i++) {
        a = (uint16_t)(a + block[i]);
        b = (uint16_t)(b + a);
    }
    block[508] = (uint8_t)(a & 255);
    block[509] = (uint8_t)(a >> 8);
    block[510] = (uint8_t)(b & 255);
    block[511] = (uint8_t)(b >> 8);
}

/* Cuts words, given as bytes, into sealed blocks. */
static void cut(struct bytes *image, const struct bytes *words)
{
    memset(image, 0, sizeof *image);
    for (size_t done = 0; done < words->length; done += 2 * CONTENT_WORDS) {
        uint8_t *block = image->at + image->length;
        size_t left = words->length - done, number = image->length / BLOCK_BYTES;
        block[0] = (uint8_t)number;
        memcpy(block + 2, words->at + done,
               left < 2 * CONTENT_WORDS ? left : 2 * CONTENT_WORDS);
        seal(block);
        image->length += BLOCK_BYTES;
    }
}

static void put_tree(struct bytes *words, const struct tree *t)
{
    for (size_t i = 0; i < t->count; i++)
        put(words, t->parents[i]);
    for (size_t i = 0; i < t->count; i++)
        put_taxon(words, t->taxa[i]);
}

static void write_image(struct bytes *image, const struct tree *species,
                        const struct family *family)
{
    static struct bytes words;
    words.length = 0;
    put(&words, 1);
    put(&words, (uint32_t)species->count);
    put(&words, (uint32_t)family->genes.count);
    put_tree(&words, species);
    put_tree(&words, &family->genes);
    for (size_t i = 0; i < family->genes.count; i++)
        put(&words, family->places[i]);
    for (size_t i = 0; i < family->genes.count; i++)
        put(&words, family->labels[i]);
    cut(image, &words);
}

static void write_rack(struct question *q, const struct tree *species)
{
    q->parents.length = q->taxa.length = 0;
    for (size_t i = 0; i < species->count; i++) {
        put(&q->parents, species->parents[i]);
        put_taxon(&q->taxa, species->taxa[i]);
    }
}

/* One word of the first block, from 0: the form, p, q, .. */
static void change_word(struct bytes *image, size_t word, uint32_t value)
{
    image->at[2 + 2 * word] = (uint8_t)(value & 255);
    image->at[3 + 2 * word] = (uint8_t)(value >> 8);
    seal(image->at);
}

static void add_block(struct bytes *image, uint32_t number)
{
    uint8_t *block = image->at + image->length;
    memset(block, 0, BLOCK_BYTES);
    block[0] = (uint8_t)number;
    seal(block);
    image->length += BLOCK_BYTES;
}

/* Asking */

static struct answer ask(const struct question *q)
{
    static uint8_t *ends[3];
    const struct bytes *slices[3] = {&q->image, &q->parents, &q->taxa};
    const uint8_t *at[3];
    struct answer answer;
    for (int i = 0; i < 3; i++) {
        if (ends[i] == NULL)
            ends[i] = fenced_end(sizeof slices[i]->at);
        at[i] = memcpy(ends[i] - slices[i]->length, slices[i]->at,
                       slices[i]->length);
    }
#define ASK(call)                                                      \
    call(at[0], q->image.length, at[1], q->parents.length, at[2],      \
         q->taxa.length)
    answer.refusal = ASK(panheron_refusal);
    answer.tree = ASK(panheron_tree);
    answer.place = ASK(panheron_place);
    answer.duplications = ASK(panheron_duplications);
    answer.losses = ASK(panheron_losses);
    for (int i = 0; i < 3; i++)
        if (memcmp(at[i], slices[i]->at, slices[i]->length) != 0) {
            puts("a call wrote into a slice");
            failed++;
        }
    return answer;
}

static void show(const char *word, struct answer a)
{
    printf(" %s %u %u %u, %u %u", word, (unsigned)a.refusal, (unsigned)a.tree,
           (unsigned)a.place, (unsigned)a.duplications, (unsigned)a.losses);
}

static void expect(const char *name, size_t at, const struct question *q,
                   struct answer expected)
{
    struct answer came = ask(q);
    if (memcmp(&came, &expected, sizeof came) == 0) {
        passed++;
        return;
    }
    failed++;
    printf("%s, %zu:", name, at);
    show("expected", expected);
    show("came", came);
    putchar('\n');
}

static void accepts(const char *name, size_t at, const struct question *q,
                    uint32_t duplications, uint32_t losses)
{
    struct answer a = {0, 0, 0, duplications, losses};
    expect(name, at, q, a);
}

static void refuses(const char *name, size_t at, const struct question *q,
                    uint32_t number, uint32_t tree, size_t place)
{
    struct answer a = {number, tree, (uint32_t)place, 0, 0};
    expect(name, at, q, a);
}

/* Tables */

static const struct tree release = {5, {65535, 0, 1, 1, 0}, {0, 0, 11, 12, 13}};

/* A question about one family on a release. */
static struct question *about_on(const struct tree *species,
                                 const struct family *family)
{
    static struct question q;
    write_rack(&q, species);
    write_image(&q.image, species, family);
    return &q;
}

static struct question *about(const struct family *family)
{
    return about_on(&release, family);
}

/* 01's gene trees with their least histories */
static const struct family first = {
    {5, {65535, 0, 1, 1, 0}, {0, 0, 11, 12, 13}},
    {0, 1, 2, 3, 4}, {1, 1, 0, 0, 0}};
static const struct family second = {
    {5, {65535, 0, 1, 1, 0}, {0, 0, 11, 13, 12}},
    {0, 0, 2, 4, 3}, {2, 1, 0, 0, 0}};
static const struct family third = {
    {3, {65535, 0, 0}, {0, 11, 11}}, {2, 2, 2}, {2, 0, 0}};
static const struct family fourth = {
    {5, {65535, 0, 0, 2, 2}, {0, 11, 0, 11, 12}},
    {1, 2, 1, 2, 3}, {2, 0, 1, 0, 0}};
static const struct family fifth = {
    {5, {65535, 0, 1, 1, 0}, {0, 0, 11, 11, 13}},
    {0, 2, 2, 2, 4}, {1, 2, 0, 0, 0}};
static const struct family sixth = {{1, {65535}, {11}}, {2}, {0}};

/* A caterpillar: each inner node has a leaf and the next inner node.  All its
 * leaves are of one taxon, so every inner node is a duplication there. */
static void make_caterpillar(struct family *f, size_t count, uint32_t taxon,
                             uint16_t place)
{
    f->genes.count = count;
    for (size_t i = 0; i < count; i++) {
        bool inner = i % 2 == 0 && i + 1 < count;
        f->genes.parents[i] = (uint16_t)(i % 2 == 1 ? i - 1 : i - 2);
        f->genes.taxa[i] = inner ? 0 : taxon;
        f->places[i] = place;
        f->labels[i] = inner ? 2 : 0;
    }
    f->genes.parents[0] = 65535;
}

/* A caterpillar of 2,047 species; the taxon of leaf i is 70,000 + i. */
static void make_largest_release(struct tree *species)
{
    static struct family f;
    make_caterpillar(&f, 2047, 1, 0);
    *species = f.genes;
    for (size_t i = 0; i < 2047; i++)
        if (species->taxa[i] != 0)
            species->taxa[i] = (uint32_t)(70000 + i);
}

/* Tables in any order: the small release and the second gene tree with children
 * before parents, and the release and the fifth with the root in the middle */
static const struct tree upward = {5, {4, 3, 3, 4, 65535}, {13, 12, 11, 0, 0}};
static const struct family second_upward = {
    {5, {4, 3, 3, 4, 65535}, {12, 13, 11, 0, 0}},
    {1, 0, 2, 4, 4}, {0, 0, 0, 1, 2}};
static const struct tree middle = {5, {3, 3, 65535, 2, 2}, {11, 12, 0, 0, 13}};
static const struct family fifth_middle = {
    {5, {3, 2, 65535, 2, 3}, {11, 13, 0, 0, 11}},
    {0, 4, 2, 0, 0}, {0, 0, 1, 2, 0}};

/* Tests */

static void test_cases_of_01(void)
{
    static const char name[] = "a case of 01";
    struct family f;
    accepts(name, 1, about(&first), 0, 0);
    accepts(name, 2, about(&second), 1, 3);
    accepts(name, 3, about(&third), 1, 0);
    accepts(name, 4, about(&fourth), 1, 1);
    accepts(name, 5, about(&fifth), 1, 1);
    accepts(name, 6, about(&sixth), 0, 0);
    f = first;
    f.labels[0] = 2;
    accepts(name, 7, about(&f), 1, 2);
    f = third;
    f.places[0] = 1;
    accepts(name, 8, about(&f), 1, 2);
    f = second;
    f.labels[0] = 1;
    refuses(name, 9, about(&f), 11, 2, 0);
    f = first;
    f.places[0] = 1;
    refuses(name, 10, about(&f), 10, 2, 4);
}

static void test_any_order(void)
{
    static const char name[] = "any order";
    static const struct {
        uint16_t places[5], labels[5];
        uint32_t number, place;
    } refused[] = {{{1, 0, 2, 4, 4}, {0, 0, 0, 1, 1}, 11, 4},
                   {{1, 0, 2, 3, 4}, {0, 0, 0, 2, 2}, 10, 1},
                   {{1, 0, 2, 4, 3}, {0, 0, 0, 2, 2}, 10, 3},
                   {{1, 0, 3, 4, 4}, {0, 0, 0, 1, 2}, 9, 2},
                   {{1, 0, 2, 5, 4}, {0, 0, 0, 1, 0}, 8, 3}};
    struct family f = second_upward;
    struct question *q = about_on(&upward, &f);
    accepts(name, 1, q, 1, 3);
    write_rack(q, &release);
    refuses(name, 2, q, 18, 1, 0);
    accepts(name, 3, about_on(&middle, &fifth_middle), 1, 1);
    f.labels[3] = 2;
    accepts(name, 4, about_on(&upward, &f), 2, 5);
    for (size_t i = 0; i < sizeof refused / sizeof refused[0]; i++) {
        memcpy(f.places, refused[i].places, sizeof refused[i].places);
        memcpy(f.labels, refused[i].labels, sizeof refused[i].labels);
        refuses(name, 5 + i, about_on(&upward, &f), refused[i].number, 2,
                refused[i].place);
    }
}

/* The largest trees with the root as their last node: every gene leaf is of the
 * deepest species leaf, now node 0, and every inner node is there too. */
static void test_largest_upward(void)
{
    static struct family f;
    static struct tree species;
    make_largest_release(&species);
    make_caterpillar(&f, 2047, 72046, 0);
    turn_round(species.parents, species.taxa, 2047);
    turn_round(f.genes.parents, f.genes.taxa, 2047);
    for (size_t i = 0; i < 2047; i++)
        f.labels[i] = f.genes.taxa[i] == 0 ? 2 : 0;
    accepts("largest, upward", 0, about_on(&species, &f), 1023, 0);
    f.genes.parents[2044] = 0;
    refuses("largest, upward and round", 0, about_on(&species, &f), 38, 2, 0);
}

static void test_block_counts(void)
{
    static struct family f;
    static const struct { size_t q, blocks; } cases[] = {{47, 1}, {49, 2}};
    for (size_t i = 0; i < 2; i++) {
        struct question *q;
        make_caterpillar(&f, cases[i].q, 11, 2);
        q = about(&f);
        if (q->image.length == cases[i].blocks * BLOCK_BYTES) {
            passed++;
        } else {
            failed++;
            printf("this test's own writer is wrong for q = %zu\n", cases[i].q);
        }
        accepts("block counts, q", cases[i].q, q,
                (uint32_t)(cases[i].q - 1) / 2, 0);
    }
}

/* The largest trees, on a rack that is a caterpillar too: the deepest species
 * leaves, 2045 and 2046, are 1,023 steps below the root. */
static void test_largest(void)
{
    static struct family f;
    static struct tree species;
    static struct question q;
    make_largest_release(&species);
    make_caterpillar(&f, 2047, 72046, 2046);
    write_rack(&q, &species);
    write_image(&q.image, &species, &f);
    accepts("largest, blocks", q.image.length / BLOCK_BYTES, &q, 1023, 0);

    /* all inner nodes at the species root: each leaf counts 1,023 losses */
    for (size_t i = 0; i < 2047; i++)
        if (f.genes.taxa[i] == 0)
            f.places[i] = 0;
    write_image(&q.image, &species, &f);
    accepts("largest, lifted", 0, &q, 1023, 1024 * 1023);

    /* the same image on a rack that calls its last species otherwise */
    q.taxa.at[4 * 2046] ^= 1;
    refuses("largest, last taxon", 0, &q, 18, 1, 2046);
    q.parents.length += 2;
    q.taxa.length += 4;
    refuses("2,048 nodes", 0, &q, 1, 1, 0);
}

static void test_damage(void)
{
    static struct family f;
    struct question *q;
    make_caterpillar(&f, 49, 11, 2);
    q = about(&f);
    for (size_t at = 0; at < 2 * BLOCK_BYTES; at++) {
        uint8_t was = q->image.at[at];
        for (int bit = 0; bit < 8; bit++) {
            q->image.at[at] = (uint8_t)(was ^ 1 << bit);
            refuses("one bit changed, byte", at, q, 14, 0, at / BLOCK_BYTES);
        }
        q->image.at[at] = (uint8_t)~was;
        refuses("one byte turned, byte", at, q, 14, 0, at / BLOCK_BYTES);
        q->image.at[at] = was;
    }
    accepts("repaired", 0, q, 24, 0);
}

/* Every other value of some bytes: number, form, middle, filling, check. */
static void test_every_value(void)
{
    static const size_t places[] = {0, 1, 2, 300, 507, 508, 509, 510, 511, 512,
                                    513, 900, 1020, 1023};
    static struct family f;
    struct question *q;
    make_caterpillar(&f, 49, 11, 2);
    q = about(&f);
    for (size_t i = 0; i < sizeof places / sizeof places[0]; i++) {
        uint8_t *byte = &q->image.at[places[i]], was = *byte;
        for (int step = 1; step < 256; step++) {
            *byte = (uint8_t)(was + step);
            refuses("any other value, byte", places[i], q, 14, 0,
                    places[i] / BLOCK_BYTES);
        }
        *byte = was;
    }
}

static void test_lengths(void)
{
    static struct family f;
    struct question *q;
    size_t whole = 2 * BLOCK_BYTES;
    make_caterpillar(&f, 49, 11, 2);
    q = about(&f);
    for (size_t length = 0; length < whole + BLOCK_BYTES; length++) {
        q->image.length = length;
        if (length == whole)
            accepts("length", length, q, 24, 0);
        else if (length == BLOCK_BYTES)
            refuses("length", length, q, 17, 0, 0);
        else
            refuses("length", length, q, 13, 0, 0);
    }
    q->image.length = whole;
    memset(q->image.at + whole, 0, sizeof q->image.at - whole);
    q->image.length += BLOCK_BYTES;
    refuses("zeros behind, block", 2, q, 15, 0, 2);
    q->image.length = whole;
    for (uint32_t number = 2; number < MOST_BLOCKS; number++) {
        add_block(&q->image, number);
        refuses("sealed blocks behind, block", number, q,
                number < 65 ? 17 : 13, 0, 0);
    }
}

static void test_blocks(void)
{
    static struct family f;
    static struct question other;
    struct question *q;
    make_caterpillar(&f, 49, 11, 2);
    q = about(&f);
    other = *q;
    memcpy(other.image.at, q->image.at + BLOCK_BYTES, BLOCK_BYTES);
    memcpy(other.image.at + BLOCK_BYTES, q->image.at, BLOCK_BYTES);
    refuses("exchanged blocks", 0, &other, 15, 0, 0);
    other.image.at[700] ^= 1;
    refuses("exchanged and damaged", 0, &other, 14, 0, 1);
    other = *q;
    other.image.at[BLOCK_BYTES + 1] = 1;
    seal(other.image.at + BLOCK_BYTES);
    refuses("block number 257", 0, &other, 15, 0, 1);
    memset(other.image.at, 0, 2 * BLOCK_BYTES);
    refuses("zeros, block number", 0, &other, 15, 0, 1);
    other.image.length = BLOCK_BYTES;
    refuses("zeros, form", 0, &other, 16, 0, 0);
}

static void test_words(void)
{
    static const uint32_t forms[] = {0, 2, 257, 65535};
    static const uint32_t counts[] = {0, 2048, 65535, 2047};
    static struct question q;
    for (size_t i = 0; i < 4; i++) {
        q = *about(&first);
        change_word(&q.image, 0, forms[i]);
        refuses("form", forms[i], &q, 16, 0, 0);
        q = *about(&first);
        change_word(&q.image, 1, counts[i]);
        refuses("p", counts[i], &q, 17, 0, 0);
        q = *about(&first);
        change_word(&q.image, 2, counts[i]);
        refuses("q", counts[i], &q, 17, 0, 0);
    }
    /* p = q = 5 use words 0 to 42 */
    q = *about(&first);
    change_word(&q.image, 43, 1);
    refuses("filling, word", 43, &q, 17, 0, 0);
    q = *about(&first);
    change_word(&q.image, 252, 256);
    refuses("filling, word", 252, &q, 17, 0, 0);
}

/* Counts that are out of range, in as many blocks as they ask for. */
static void test_counts_that_fit(void)
{
    static const struct { uint32_t p, q; } cases[] = {
        {0, 0}, {0, 1}, {5, 0}, {2048, 1}, {1, 2048}, {2047, 2048}};
    static struct bytes words;
    static struct question q;
    for (size_t i = 0; i < sizeof cases / sizeof cases[0]; i++) {
        memset(&words, 0, sizeof words);
        put(&words, 1);
        put(&words, cases[i].p);
        put(&words, cases[i].q);
        words.length = 2 * (3 + 3 * cases[i].p + 5 * cases[i].q);
        q = *about(&first);
        cut(&q.image, &words);
        refuses("counts that fit", i, &q, 17, 0, 0);
    }
}

static void test_release(void)
{
    static const struct tree shape = {5, {65535, 0, 1, 0, 1},
                                      {0, 0, 11, 12, 13}};
    static struct question q;
    struct tree other = release;
    q = *about(&first);
    other.taxa[2] = 12;
    other.taxa[3] = 11;
    write_rack(&q, &other);
    refuses("taxa exchanged", 0, &q, 18, 1, 2);
    other = release;
    other.taxa[4] = 13 + 65536;
    write_rack(&q, &other);
    refuses("high half of a taxon", 0, &q, 18, 1, 4);
    other.count = 1;
    other.taxa[0] = 11;
    write_rack(&q, &other);
    refuses("another count", 0, &q, 18, 1, 65535);
    write_rack(&q, &shape);
    refuses("another shape", 0, &q, 18, 1, 3);
    other = shape;
    other.taxa[2] = 14;
    write_rack(&q, &other);
    refuses("another shape and a taxon below", 0, &q, 18, 1, 2);
}

static void test_unsound_rack(void)
{
    static const struct {
        struct tree rack;
        uint32_t number, place;
    } cases[] = {
        {{1, {0}, {11}}, 2, 65535},
        {{1, {5}, {11}}, 2, 0},
        {{3, {1, 2, 0}, {0, 11, 12}}, 2, 65535},
        {{3, {65535, 65535, 0}, {0, 11, 12}}, 2, 1},
        {{3, {2, 2, 3}, {11, 12, 0}}, 2, 2},
        {{3, {65535, 0, 2}, {0, 11, 12}}, 38, 2},
        {{3, {65535, 2, 1}, {0, 11, 12}}, 38, 1},
        /* a node below two that go round, and before them */
        {{5, {1, 2, 1, 65535, 3}, {11, 0, 0, 0, 12}}, 38, 0},
        {{2, {65535, 0}, {0, 11}}, 3, 0},
        {{4, {65535, 0, 0, 0}, {0, 11, 12, 13}}, 3, 0},
        {{3, {65535, 0, 0}, {0, 0, 12}}, 4, 1},
        {{3, {65535, 0, 0}, {9, 11, 12}}, 4, 0},
        {{1, {65535}, {0}}, 4, 0},
        {{3, {65535, 0, 0}, {0, 11, 11}}, 5, 2},
        {{5, {65535, 0, 1, 1, 0}, {0, 0, 7, 8, 7}}, 5, 4},
        /* several faults: the lower number, wherever it is */
        {{5, {65535, 0, 1, 5, 0}, {1, 0, 7, 7, 7}}, 2, 3},
        {{5, {1, 0, 65535, 9, 65535}, {1, 0, 7, 7, 7}}, 2, 3},
        {{5, {1, 0, 65535, 65535, 9}, {1, 0, 7, 7, 7}}, 2, 3},
        {{4, {1, 0, 3, 3}, {1, 0, 7, 7}}, 2, 65535},
        {{5, {65535, 0, 0, 0, 4}, {1, 0, 7, 7, 7}}, 38, 4},
        {{6, {65535, 0, 1, 1, 0, 4}, {1, 0, 7, 7, 7, 7}}, 3, 4},
    };
    static struct question q;
    for (size_t i = 0; i < sizeof cases / sizeof cases[0]; i++) {
        q = *about(&first);
        write_rack(&q, &cases[i].rack);
        refuses("unsound rack", i, &q, cases[i].number, 1, cases[i].place);
        q.image.length = 0;
        refuses("unsound rack, no image", i, &q, cases[i].number, 1,
                cases[i].place);
    }
}

static void test_unequal_tables(void)
{
    static const struct { size_t parents, taxa; } cases[] = {
        {0, 0}, {0, 20}, {10, 0}, {9, 20}, {11, 20}, {10, 19}, {10, 21},
        {10, 16}, {8, 20}, {5, 8}, {3, 4}, {2, 6}, {1, 0}, {0, 1}, {1, 3}};
    static struct question q;
    for (size_t i = 0; i < sizeof cases / sizeof cases[0]; i++) {
        q = *about(&first);
        q.parents.length = cases[i].parents;
        q.taxa.length = cases[i].taxa;
        refuses("unequal tables", i, &q, 1, 1, 0);
        q.image.length = 0;
        refuses("unequal tables, no image", i, &q, 1, 1, 0);
    }
    q = *about(&first);
    q.image.length = 0;
    refuses("no image", 0, &q, 13, 0, 0);
}

static void test_gene_faults(void)
{
    static const struct {
        struct family family;
        uint32_t number, place;
    } cases[] = {
        {{{3, {0, 0, 0}, {0, 11, 11}}, {2, 2, 2}, {2, 0, 0}}, 2, 65535},
        {{{3, {65535, 0, 3}, {0, 11, 11}}, {2, 2, 2}, {2, 0, 0}}, 2, 2},
        {{{3, {65535, 0, 65535}, {0, 11, 11}}, {2, 2, 2}, {2, 0, 0}}, 2, 2},
        {{{3, {65535, 0, 2}, {0, 11, 11}}, {2, 2, 2}, {2, 0, 0}}, 38, 2},
        {{{3, {1, 0, 65535}, {0, 11, 11}}, {2, 2, 2}, {2, 0, 0}}, 38, 0},
        {{{5, {2, 2, 1, 65535, 3}, {11, 0, 0, 0, 11}}, {2, 2, 2, 2, 2},
          {0, 2, 2, 2, 0}}, 38, 0},
        {{{2, {65535, 0}, {0, 11}}, {2, 2}, {2, 0}}, 3, 0},
        {{{4, {65535, 0, 0, 0}, {0, 11, 11, 11}}, {2, 2, 2, 2}, {2, 0, 0, 0}},
         3, 0},
        {{{3, {65535, 0, 0}, {0, 0, 11}}, {2, 2, 2}, {2, 0, 0}}, 4, 1},
        {{{3, {65535, 0, 0}, {11, 11, 11}}, {2, 2, 2}, {2, 0, 0}}, 4, 0},
        {{{3, {65535, 0, 0}, {0, 11, 14}}, {2, 2, 2}, {2, 0, 0}}, 6, 2},
        {{{3, {65535, 0, 0}, {0, 65547, 11}}, {2, 2, 2}, {2, 0, 0}}, 6, 1},
        {{{3, {65535, 0, 0}, {0, 11, 11}}, {5, 2, 2}, {2, 0, 0}}, 8, 0},
        {{{3, {65535, 0, 0}, {0, 11, 11}}, {2, 2, 65535}, {2, 0, 0}}, 8, 2},
        {{{3, {65535, 0, 0}, {0, 11, 11}}, {2, 2, 2}, {0, 0, 0}}, 8, 0},
        {{{3, {65535, 0, 0}, {0, 11, 11}}, {2, 2, 2}, {3, 0, 0}}, 8, 0},
        {{{3, {65535, 0, 0}, {0, 11, 11}}, {2, 2, 2}, {258, 0, 0}}, 8, 0},
        {{{3, {65535, 0, 0}, {0, 11, 11}}, {2, 2, 9}, {2, 1, 0}}, 8, 1},
        {{{3, {65535, 0, 0}, {0, 11, 12}}, {1, 2, 2}, {2, 0, 0}}, 9, 2},
        {{{3, {65535, 0, 0}, {0, 11, 12}}, {1, 1, 3}, {2, 0, 0}}, 9, 1},
        {{{3, {65535, 0, 0}, {0, 11, 12}}, {2, 2, 3}, {2, 0, 0}}, 10, 2},
        {{{3, {65535, 0, 0}, {0, 11, 12}}, {4, 2, 3}, {1, 0, 0}}, 10, 1},
        {{{3, {65535, 0, 0}, {0, 11, 11}}, {2, 2, 2}, {1, 0, 0}}, 11, 0},
        {{{3, {65535, 0, 0}, {0, 11, 12}}, {0, 2, 3}, {1, 0, 0}}, 11, 0},
        /* several faults: the lower number, wherever it is */
        {{{4, {65535, 0, 0, 7}, {9, 0, 14, 0}}, {9, 9, 9, 9}, {9, 9, 9, 9}},
         2, 3},
        {{{4, {65535, 0, 0, 3}, {9, 0, 14, 0}}, {9, 9, 9, 9}, {9, 9, 9, 9}},
         38, 3},
        {{{3, {65535, 0, 0}, {0, 12, 11}}, {2, 2, 2}, {1, 0, 7}}, 8, 2},
    };
    for (size_t i = 0; i < sizeof cases / sizeof cases[0]; i++)
        refuses("gene fault", i, about(&cases[i].family), cases[i].number, 2,
                cases[i].place);
}

/* Any bytes are safe, sealed or not, on a sound rack or on any bytes too; and
 * what is refused has no counts. */
static void test_random_bytes(unsigned long times)
{
    static struct question q;
    uint32_t state = 1;
    for (unsigned long i = 0; i < times; i++) {
        struct answer a;
        q = *about(&second);
        for (size_t at = 0; at < 4 * BLOCK_BYTES; at++) {
            state = state * 1664525u + 1013904223u;
            /* a sealed image keeps its form, p, q and species tables */
            if (i % 3 != 1 || (at >= 38 && at < 88))
                q.image.at[at] = (uint8_t)(state >> 24 & (i % 2 ? 255 : 3));
        }
        q.image.length = i % 3 == 1 ? BLOCK_BYTES : state >> 16 & 2047;
        if (i % 3 == 1)
            seal(q.image.at);
        if (i % 5 == 0)
            memcpy(q.parents.at, q.image.at, q.parents.length);
        a = ask(&q);
        if ((a.refusal <= 18 || a.refusal == 38)
            && (a.refusal == 0 || (a.duplications == 0 && a.losses == 0))) {
            passed++;
        } else {
            failed++;
            printf("random bytes, %lu:", i);
            show("came", a);
            putchar('\n');
        }
    }
}

int main(int argc, char **argv)
{
    unsigned long more = argc > 1 ? strtoul(argv[1], NULL, 10) : 0;
    test_cases_of_01();
    test_any_order();
    test_block_counts();
    test_largest();
    test_largest_upward();
    test_damage();
    test_every_value();
    test_lengths();
    test_blocks();
    test_words();
    test_counts_that_fit();
    test_release();
    test_unsound_rack();
    test_unequal_tables();
    test_gene_faults();
    test_random_bytes(RANDOM_IMAGES + more);
    printf("%u passed, %u failed\n", passed, failed);
    return failed == 0 ? 0 : 1;
}
