"""Pairs of trees, and the same pairs with their nodes numbered anew.

Tables may be numbered in any order (request W8), so a pair and the same pair
numbered anew have the same history: equal counts, and places, labels and dates
at the new numbers.  Here is what is asked about both, and what the answers
about one of them say about the other.
"""

from collections import namedtuple

import generate
import generate_histories as histories
import generate_images as images
import generate_trees as trees
import panheron_reference as reference
from protocol import Request

LEAST_HISTORY, OFFERED, DATING = 3, 4, 5

# Every so many pairs there is one with trees of 2,047 nodes.
LARGE_EVERY = 60

# The new numbers of the species nodes and of the gene nodes.
Numbers = namedtuple("Numbers", "species genes")

# What is asked: the requests about a pair and, in the same order, those about
# the pair numbered anew.
Twice = namedtuple("Twice", "numbers before after")


def new_numbers(rng, count):
    """A number for each node: any, or all the other way round."""
    numbers = list(range(count))
    if rng.random() < 0.25:
        return numbers[::-1]
    return rng.sample(numbers, count)


def moved(entries, numbers):
    """A table with one entry a node, at the new numbers."""
    table = list(entries)
    for entry, number in zip(entries, numbers):
        table[number] = entry
    return table


def moved_places(places, numbers):
    """The same for a table whose entries are species nodes."""
    return moved([numbers.species[place] for place in places], numbers.genes)


def requests_about(pair, history, node):
    """The least history, an offered one, and the date of a gene node."""
    four = [*pair[0], *pair[1]]
    room = [0] * len(pair[1].parents)
    return [Request(LEAST_HISTORY, four + [room, room, 3, 2]),
            Request(OFFERED, four + [*history]),
            Request(DATING, four + [node])]


def pair(seed, index):
    """One pair with a legal history and a node to date, asked about twice."""
    rng = generate.generator_for("pair", seed, index)
    large = index % LARGE_EVERY == LARGE_EVERY - 1
    species, gene = trees.sound_pair(rng, large)
    history = histories.legal_history(rng, *images.judged((species, gene)))
    node = generate.draw_known_node(rng, (species, gene))
    numbers = Numbers(new_numbers(rng, len(species.parents)),
                      new_numbers(rng, len(gene.parents)))
    anew = (trees.renumbered(species, numbers.species),
            trees.renumbered(gene, numbers.genes))
    return Twice(numbers, requests_about((species, gene), history, node),
                 requests_about(
                     anew, reference.History(
                         moved_places(history.places, numbers),
                         moved(history.labels, numbers.genes)),
                     numbers.genes[node]))


# Answers, as lines


def words(numbers):
    return " ".join(map(str, numbers))


def carried_tables(lines, numbers):
    """Lines of places and labels at the new numbers."""
    places, labels = ([int(word) for word in line.split(" ")]
                      for line in lines)
    return [words(moved_places(places, numbers)),
            words(moved(labels, numbers.genes))]


def carried_date(line, numbers):
    """A date whose bounds are species nodes under their new numbers."""
    ok, kind, *bounds = line.split(" ")
    return words([ok, kind] + [numbers.species[int(bound)]
                               for bound in bounds])


def carried(code, lines, numbers):
    """What the answer about a pair says about the pair numbered anew.  Raises
    ValueError or IndexError for lines that are no such answer."""
    if code == DATING:
        return [carried_date(line, numbers) for line in lines]
    return lines[:1] + (carried_tables(lines[1:], numbers)
                        if code == LEAST_HISTORY else [])
