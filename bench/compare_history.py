"""Compares panheron_history and its two companions with the Python reference.

    python3 compare_history.py [--cases N] [--large K] [--seed S] [PROGRAM ..]

PROGRAM runs answers_history.c in its compiled form, which asks history.c or
the archive.  Without one it is compiled here, over history.c.

Each case is a pair of trees, sound or broken, and three lent tables, sometimes
too short and often longer than needed.  The first cases are the least histories
among the driver's first requests from the same seed (tests/reference/drive.py);
the others are drawn for this comparison.  K more have a hundred to 1,024 species
leaves, mostly numbers at the edges of powers of two, where looking taxa up some
hundred at a time comes out even or just doesn't.
Compared are the number, the tree, the place and every entry of the three lent
tables.  The exit status is 0 if all agreed and every number that the call can
give has occurred, 1 after a difference, 2 if a number never occurred.
"""

import functools
import random
import sys

import compare
import generate
import generate_trees as trees
import panheron_reference as reference

# What the gate's driver makes from its fixed seed, and replay's code for a least
# history.
DRIVER_REQUESTS = 6000
LEAST_HISTORY = 3

LENT_COUNTS = 4
MOST_64 = 2 ** 64 - 1
WIDTHS = (2, 4, 2, 4, 2, 2, 8)
SPECIES_LEAVES = (100, 127, 128, 129, 255, 256, 257, 258, 300, 511, 512, 513,
                  767, 768, 769, 1000, 1023, 1024, 1024, 1024)
GENE_LEAVES = (1, 2, 16, 16, 100, 256, 257, 300, 512, 1024)


# Cases


def large_pair(rng):
    """A sound pair with many species, and few or many genes."""
    species = trees.species_tree(rng, rng.choice(SPECIES_LEAVES))
    return species, trees.gene_tree(rng, species, rng.choice(GENE_LEAVES))


def moved_up(rng, pair):
    """The pair with all taxa moved to higher bits, as far as they fit: what
    is hashed by the lower bits alone then falls together."""
    room = 32 - max(pair[0].taxa).bit_length()
    bits = rng.choice((0, 0, room, rng.randint(0, room)))
    return [trees.Tables(tables.parents, [taxon << bits
                                          for taxon in tables.taxa])
            for tables in pair]


def lent_counts(rng):
    """A table of counts with what it holds before the call."""
    few = rng.random() < 0.06
    length = rng.randrange(LENT_COUNTS) if few \
        else LENT_COUNTS + rng.choice((0, 0, 1, 4))
    return [rng.randint(0, MOST_64) for _ in range(length)]


@functools.lru_cache(maxsize=None)
def driver_indices(seed):
    """Which of the driver's first requests ask for a least history.  The code
    is the first thing that a request draws."""
    codes, weights = zip(*sorted(generate.CODE_WEIGHTS.items()))
    return [index for index in range(DRIVER_REQUESTS)
            if generate.generator_for("request", seed, index).choices(
                codes, weights)[0] == LEAST_HISTORY]


def driver_tables(seed, index):
    """Six tables of one of the driver's requests."""
    request = generate.request(seed, index)
    assert request.code == LEAST_HISTORY
    return request.values[:6]


def large_broken(rng, pair):
    """The pair, or a copy with faults, mostly of those that looking taxa up
    finds."""
    species, gene = map(trees.copied, pair)
    kind = rng.random()
    if kind < 0.25:
        trees.repeated_taxon(rng, species)
    elif kind < 0.4:
        trees.unknown_taxon(rng, gene)
    elif kind < 0.5:
        return trees.broken_pair(rng, species, gene)
    return species, gene


def drawn_tables(rng, large):
    """Six tables that are drawn here; half of the pairs are broken."""
    if large:
        pair = large_broken(rng, moved_up(rng, large_pair(rng)))
    else:
        pair = moved_up(rng, trees.sound_pair(rng))
        pair = generate.maybe_broken(rng, pair, 0.5)
    q = generate.gene_entries(pair)
    return [*pair[0], *pair[1], generate.lent_table(rng, q),
            generate.lent_table(rng, q)]


def case_of(seed, index, large):
    """The seven tables of one case."""
    rng = random.Random("compare history %s %s %s" % (seed, index, large))
    of_driver = [] if large else driver_indices(seed)
    six = driver_tables(seed, of_driver[index]) if index < len(of_driver) \
        else drawn_tables(rng, large)
    return six + [lent_counts(rng)]


def slices_of(case):
    """The tables as bytes, low byte first."""
    return [b"".join(entry.to_bytes(width, "little") for entry in table)
            for table, width in zip(case, WIDTHS)]


# What the reference answers


def history(four, places, labels, counts):
    """The call, on top of the reference's least history: 7 also for a table
    of counts that is too short."""
    _, gene = reference.judge_pair(*four)
    reference.judge_room((places, labels), gene.count)
    reference.judge_room((counts,), LENT_COUNTS)
    answer = reference.least_history(*four, places, labels, 0, 0)
    counts[:LENT_COUNTS] = [answer.duplications, answer.losses,
                            answer.speciations, answer.climbs]


def line_of(case):
    """The line that the reference answers."""
    four, lent = case[:4], [list(table) for table in case[4:]]
    triple = (0, reference.NO_TREE, 0)
    try:
        history(four, *lent)
    except reference.Refusal as refusal:
        triple = refusal.triple
    return ";".join([" ".join(map(str, triple))]
                    + ["".join(" %d" % entry for entry in table)
                       for table in lent])


HISTORIES = compare.Subject(__doc__, case_of, slices_of, line_of,
                            (*range(8), 38),
                            ["answers_history.c", "history.c"])


if __name__ == "__main__":
    sys.exit(compare.main(HISTORIES))
