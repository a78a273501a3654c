"""Unit tests of the reference.

The cases of the scope paper (01), of request W8 (02) and of the readings are
typed in by hand and never computed.  The cross-checks at the end compare the
reference with other, slower ways to the same answers that are written here
separately: climbing for M(g), lists of ancestors for the judge, a growing set
of nodes for 38, and all legal histories of all small pairs of trees for the
third demand.

    python3 test_reference.py
"""

import itertools
import random
import unittest
from collections import Counter

import generate_histories as histories
import generate_images as images
import generate_trees as trees
import panheron_reference as reference
from panheron_reference import Refusal

TOP = 65535

# The small release of the paper, and its gene trees in the paper's order.
R_PARENTS = [TOP, 0, 1, 1, 0]
R_TAXA = [0, 0, 11, 12, 13]
R = (R_PARENTS, R_TAXA)
T1 = ([TOP, 0, 1, 1, 0], [0, 0, 11, 12, 13])
T2 = ([TOP, 0, 1, 1, 0], [0, 0, 11, 13, 12])
T3 = ([TOP, 0, 0], [0, 11, 11])
T4 = ([TOP, 0, 0, 2, 2], [0, 11, 0, 11, 12])
T5 = ([TOP, 0, 1, 1, 0], [0, 0, 11, 11, 13])
T6 = ([TOP], [11])


def refusal_of(call, *values):
    """The triple that a call is refused with, or None."""
    try:
        call(*values)
    except Refusal as refusal:
        return refusal.triple
    return None


def least(species, gene, dw=1, lw=1):
    """Places, labels and counts of the least history."""
    q = len(gene[0])
    places, labels = [777] * q, [777] * q
    answer = reference.least_history(*species, *gene, places, labels, dw, lw)
    return places, labels, answer


def offered(gene, places, labels, species=R):
    """The counts of an offered history."""
    return reference.judge_offered(*species, *gene, places, labels)


def offered_refusal(gene, places, labels, species=R):
    return refusal_of(reference.judge_offered, *species, *gene, places, labels)


def written(gene, places, labels, species=R):
    """The image of a history."""
    buffer = [0] * (512 * 65)
    size = reference.write_image(*species, *gene, places, labels, buffer)
    return bytes(buffer[:size])


def least_image(gene, species=R):
    places, labels, _ = least(species, gene)
    return written(gene, places, labels, species)


def lent_four(length):
    """Four tables to lend, each with other values in it."""
    return [[start + i for i in range(length)]
            for start in (1000, 2000, 3000, 4000)]


def load_refusal(image, species=R, lent=None):
    lent = lent_four(60) if lent is None else lent
    return refusal_of(reference.load_image, *species, image, *lent)


def reseal(image, change):
    """The image with its words changed by a function and sealed again."""
    words = reference.content_words(reference.blocks_of(image))
    change(words)
    return reference.image_of_words(words)


def with_word(image, at, value):
    def change(words):
        words[at] = value
    return reseal(image, change)


def printed(text):
    return reference.history_program(text).decode("ascii")


def comb(nodes):
    """A caterpillar: node 2k is inner and has 2k + 1 and 2k + 2 below it."""
    return [TOP] + [(node - 1) // 2 * 2 for node in range(1, nodes)]


def comb_taxa(nodes, taxon):
    """Taxa for a comb: a leaf has the taxon that the function gives."""
    return [taxon(node) if node % 2 or node == nodes - 1 else 0
            for node in range(nodes)]


class CasesOfThePaper(unittest.TestCase):
    """The table of cases, starred or not, and the printed example."""

    def test_first_tree(self):
        places, labels, answer = least(R, T1)
        self.assertEqual(places, [0, 1, 2, 3, 4])
        self.assertEqual(labels, [1, 1, 0, 0, 0])
        self.assertEqual(answer.losses, 0)
        self.assertEqual(answer.climbs, 4)

    def test_second_tree(self):
        places, labels, answer = least(R, T2)
        self.assertEqual(places, [0, 0, 2, 4, 3])
        self.assertEqual(labels, [2, 1, 0, 0, 0])
        self.assertEqual(answer, (1, 3, 1, 5, 4))

    def test_third_tree(self):
        places, _, answer = least(R, T3)
        self.assertEqual(places, [2, 2, 2])
        self.assertEqual(answer.duplications, 1)
        self.assertEqual(answer.losses, 0)

    def test_fourth_tree(self):
        places, labels, answer = least(R, T4)
        self.assertEqual(places, [1, 2, 1, 2, 3])
        self.assertEqual(labels, [2, 0, 1, 0, 0])
        self.assertEqual(answer.losses, 1)
        self.assertEqual(answer.climbs, 3)

    def test_fifth_tree(self):
        _, _, answer = least(R, T5)
        self.assertEqual(answer.losses, 1)
        self.assertEqual(answer.climbs, 3)
        self.assertEqual(reference.dating(*R, *T5, 1), (2, 2, 0))

    def test_sixth_tree(self):
        places, labels, answer = least(R, T6)
        self.assertEqual(places, [2])
        self.assertEqual(labels, [0])
        self.assertEqual(answer, (0, 0, 0, 0, 0))

    def test_first_tree_with_a_duplication(self):
        counts = offered(T1, [0, 1, 2, 3, 4], [2, 1, 0, 0, 0])
        self.assertEqual(counts.losses, 2)

    def test_third_tree_lifted(self):
        counts = offered(T3, [1, 2, 2], [2, 0, 0])
        self.assertEqual(counts.losses, 2)

    def test_second_tree_called_speciation(self):
        self.assertEqual(
            offered_refusal(T2, [0, 0, 2, 4, 3], [1, 1, 0, 0, 0]), (11, 2, 0))

    def test_first_tree_child_outside(self):
        self.assertEqual(
            offered_refusal(T1, [1, 1, 2, 3, 4], [1, 1, 0, 0, 0]), (10, 2, 4))

    def test_blocks(self):
        self.assertEqual(reference.block_count(5, 47), 1)
        self.assertEqual(reference.block_count(5, 49), 2)
        for nodes, size in ((47, 512), (49, 1024)):
            gene = (comb(nodes), comb_taxa(nodes, lambda node: 12))
            self.assertEqual(len(least_image(gene)), size)

    def test_sizes(self):
        sound = (comb(2047), comb_taxa(2047, lambda node: node + 1))
        self.assertIsNone(refusal_of(reference.judge_species, *sound))
        over = (comb(2047) + [0], comb_taxa(2047, lambda node: node + 1) + [1])
        self.assertEqual(refusal_of(reference.judge_species, *over), (1, 1, 0))

    def test_printed_example(self):
        self.assertEqual(
            printed(b"5 5 65535 0 1 1 0 0 0 11 12 13 "
                    b"65535 0 1 1 0 0 0 11 13 12"),
            "0 0 D\n1 0 S\n2 2 L\n3 4 L\n4 3 L\n1 3 1 5 4\n")

    def test_most_blocks(self):
        self.assertEqual(reference.block_count(2047, 2047), 65)


class TreeRules(unittest.TestCase):
    """Refusals 1 to 6, with the readings' examples (points 1 to 8)."""

    def species(self, parents, taxa):
        return refusal_of(reference.judge_species, parents, taxa)

    def gene(self, parents, taxa, species=R):
        return refusal_of(reference.judge_pair, *species, parents, taxa)

    def test_repeated_taxon(self):
        self.assertEqual(self.species(R_PARENTS, [0, 0, 7, 7, 8]), (5, 1, 3))
        self.assertEqual(self.species(R_PARENTS, [0, 0, 7, 8, 7]), (5, 1, 4))
        self.assertEqual(self.species(R_PARENTS, [0, 0, 7, 7, 7]), (5, 1, 3))

    def test_repeats_are_fine_in_the_gene_tree(self):
        self.assertIsNone(self.gene(*T3))

    def test_sizes(self):
        for parents, taxa in (([], []), ([TOP], []), ([], [7]),
                              ([TOP], [7, 7]), ([TOP, 0, 0], [0, 7]),
                              ([TOP] * 2048, [7]), ([TOP], [7] * 2048)):
            self.assertEqual(self.species(parents, taxa), (1, 1, 0))
            self.assertEqual(self.gene(parents, taxa), (1, 2, 0))

    def test_even_counts(self):
        self.assertEqual(self.species([TOP, 0], [0, 7]), (3, 1, 0))
        self.assertEqual(self.species([TOP, TOP], [7, 8]), (2, 1, 1))
        self.assertEqual(self.species([1, TOP], [7, 0]), (3, 1, 1))
        self.assertEqual(self.species([1, 0], [7, 8]), (2, 1, 65535))
        even = comb(2047)[:2046]
        self.assertEqual(
            self.species(even, [0] * 2046), (3, 1, 2044))

    def test_single_entry(self):
        for entry, place in ((0, 65535), (1, 0), (5, 0), (65534, 0)):
            self.assertEqual(self.species([entry], [7]), (2, 1, place))
            self.assertEqual(self.gene([entry], [11]), (2, 2, place))

    def test_children(self):
        self.assertEqual(self.species([TOP, 0, 0, 0], [0, 7, 8, 9]), (3, 1, 0))
        self.assertEqual(
            self.species([TOP, 0, 0, 2], [0, 7, 0, 9]), (3, 1, 2))

    def test_taxa(self):
        self.assertEqual(self.species([TOP], [0]), (4, 1, 0))
        self.assertEqual(self.species(R_PARENTS, [5, 0, 7, 8, 9]), (4, 1, 0))
        self.assertEqual(self.species(R_PARENTS, [0, 5, 0, 8, 9]), (4, 1, 1))
        self.assertEqual(self.species(R_PARENTS, [0, 0, 7, 0, 9]), (4, 1, 3))

    def test_unknown_taxon(self):
        self.assertEqual(self.gene([TOP, 0, 0], [0, 11, 14]), (6, 2, 2))
        self.assertEqual(self.gene([TOP, 0, 0], [0, 65547, 14]), (6, 2, 1))

    def test_a_number_over_the_whole_table_first(self):
        parents = [TOP, 0, 0, 1, 1, 2, 2, 5]
        self.assertEqual(
            self.species(parents, [0, 5, 0, 7, 8, 0, 9, 10]), (3, 1, 5))
        self.assertEqual(
            self.gene(parents, [0, 5, 0, 11, 99, 0, 12, 13]), (3, 2, 5))

    def test_species_before_gene(self):
        self.assertEqual(
            self.gene([], [], (R_PARENTS, [0, 0, 7, 7, 8])), (5, 1, 3))
        self.assertEqual(
            self.gene([0], [11], ([TOP, 0, 2], [0, 7, 8])), (38, 1, 2))


class AnyOrder(unittest.TestCase):
    """Request W8: refusals 2 and 38, and answers under any numbering (points
    94 to 98)."""

    # The small release and its second and fifth trees: the other way round,
    # children before parents, and with the root in the middle.
    REVERSED = ([4, 3, 3, 4, TOP], [13, 12, 11, 0, 0])
    MIDDLE = ([3, 3, TOP, 2, 2], [11, 12, 0, 0, 13])
    T2_REVERSED = ([4, 3, 3, 4, TOP], [12, 13, 11, 0, 0])
    T5_MIDDLE = ([3, 2, TOP, 2, 3], [11, 13, 0, 0, 11])

    def expect(self, number, answers):
        """The place of a refusal for each parents table, as either tree."""
        for parents, place in answers:
            taxa = [11] * len(parents)
            self.assertEqual(
                refusal_of(reference.judge_species, parents, taxa),
                (number, 1, place), parents)
            self.assertEqual(
                refusal_of(reference.judge_pair, *R, parents, taxa),
                (number, 2, place), parents)

    def test_parents(self):
        self.expect(2, (
            # a second root
            ([TOP, TOP, 0], 1), ([TOP, 0, TOP], 2), ([1, TOP, TOP], 2),
            ([TOP, TOP, TOP], 1),
            # a parent that is not under n
            ([TOP, 0, 3], 2), ([TOP, 3, 0], 1), ([3, TOP, 1], 0),
            ([65534, 0, TOP], 0),
            # both: the lower node, whichever it is
            ([TOP, 3, TOP], 1), ([TOP, TOP, 3], 1), ([3, TOP, TOP], 0),
            # no root, or a parent not under n before it
            ([1, 2, 0], 65535), ([0, 0, 0], 65535), ([0, 1, 2], 65535),
            ([1, 2, 3], 2), ([1, 0, 1, 4], 3)))

    def test_reach(self):
        self.expect(38, (
            # own parents, at and beside the lowest number
            ([TOP, 1, 0], 1), ([TOP, 0, 2], 2), ([0, TOP, 1], 0),
            ([TOP, 1, 2], 1),
            # round by two and by three
            ([TOP, 2, 1], 1), ([1, 0, TOP], 0), ([TOP, 2, 3, 1], 1),
            ([3, TOP, 0, 2, 1], 0),
            # below what goes round, with a lower number than all that does
            ([1, 2, 1, TOP, 3], 0), ([TOP, 2, 3, 4, 3], 1),
            ([4, TOP, 4, 1, 4], 0), ([TOP, 0, 0, 4, 5, 5, 2], 3),
            # beside a node that is misshapen
            ([TOP, 0, 3, 2], 2)))

    def test_two_before_thirty_eight_before_three(self):
        self.expect(2, (([1, 0, TOP, 9], 3), ([1, 0, TOP, TOP], 3),
                        ([1, 0, 3, 3], 65535)))
        self.expect(38, (([TOP, 0, 0, 0, 4], 4), ([TOP, 0, 2, 2, 2], 2)))
        self.assertEqual(
            refusal_of(reference.judge_species, [2, 2, TOP, 2], [7, 7, 0, 0]),
            (3, 1, 2))

    def test_lowest_is_the_lowest_number(self):
        def species(parents, taxa):
            return refusal_of(reference.judge_species, parents, taxa)
        self.assertEqual(
            species([3, 0, 3, TOP], [0, 8, 9, 0]), (3, 1, 0))
        self.assertEqual(species([2, 2, TOP], [7, 0, 9]), (4, 1, 1))
        self.assertEqual(species([2, 2, TOP], [7, 7, 0]), (5, 1, 1))
        self.assertEqual(
            species([3, 3, TOP, 2, 2], [7, 8, 0, 0, 7]), (5, 1, 4))
        self.assertEqual(
            refusal_of(reference.judge_pair, *R, [2, 2, TOP], [14, 15, 0]),
            (6, 2, 0))

    def test_sound(self):
        for tree in (self.REVERSED, self.MIDDLE):
            self.assertIsNone(refusal_of(reference.judge_species, *tree))
            for gene in (R, self.REVERSED, self.MIDDLE, T3):
                self.assertIsNone(
                    refusal_of(reference.judge_pair, *tree, *gene))

    def test_first_child_is_the_lower_number(self):
        self.assertEqual(reference.children_of(self.REVERSED[0]),
                         [[], [], [], [1, 2], [0, 3]])

    def test_climb_of_003_would_leave_the_tree(self):
        self.assertEqual(least(([1, TOP, 1], [7, 0, 8]),
                               ([2, 2, TOP], [8, 7, 0])),
                         ([2, 0, 1], [0, 0, 1], (0, 0, 1, 2, 0)))

    def test_least_histories(self):
        second, fifth = (1, 3, 1, 5, 4), (1, 1, 1, 3, 2)
        for species, gene, places, labels, answer in (
                (R, self.T2_REVERSED, [3, 4, 2, 0, 0], [0, 0, 0, 1, 2],
                 second),
                (self.REVERSED, T2, [4, 4, 2, 0, 1], [2, 1, 0, 0, 0], second),
                (self.REVERSED, self.T2_REVERSED, [1, 0, 2, 4, 4],
                 [0, 0, 0, 1, 2], second),
                (self.MIDDLE, T2, [2, 2, 0, 4, 1], [2, 1, 0, 0, 0], second),
                (self.MIDDLE, self.T5_MIDDLE, [0, 4, 2, 0, 0],
                 [0, 0, 1, 2, 0], fifth),
                (self.REVERSED, self.T5_MIDDLE, [2, 0, 4, 2, 2],
                 [0, 0, 1, 2, 0], fifth)):
            self.assertEqual(least(species, gene), (places, labels, answer))

    def test_dating(self):
        self.assertEqual(
            reference.dating(*self.REVERSED, *self.T5_MIDDLE, 3), (2, 2, 4))
        self.assertEqual(
            reference.dating(*self.MIDDLE, *self.T5_MIDDLE, 3), (2, 0, 2))
        self.assertEqual(
            reference.dating(*self.MIDDLE, *self.T2_REVERSED, 4), (1, 2))
        self.assertEqual(
            reference.dating(*self.MIDDLE, *self.T2_REVERSED, 3), (0,))

    def test_offers(self):
        gene, species = self.T2_REVERSED, self.REVERSED
        places = [1, 0, 2, 4, 4]
        self.assertEqual(
            offered(gene, places, [0, 0, 0, 2, 2], species), (2, 5, 0))
        self.assertEqual(
            offered_refusal(gene, places, [0, 0, 0, 1, 1], species),
            (11, 2, 4))
        self.assertEqual(
            offered_refusal(gene, [1, 0, 2, 3, 4], [0, 0, 0, 2, 2], species),
            (10, 2, 1))
        self.assertEqual(
            offered_refusal(gene, [1, 0, 2, 4, 3], [0, 0, 0, 2, 2], species),
            (10, 2, 3))
        self.assertEqual(
            offered_refusal(gene, [1, 0, 3, 4, 4], [0, 0, 0, 1, 2], species),
            (9, 2, 2))

    def test_images_keep_the_numbers(self):
        for species, gene in ((self.REVERSED, self.T2_REVERSED),
                              (self.MIDDLE, self.T5_MIDDLE)):
            places, labels, answer = least(species, gene)
            image = written(gene, places, labels, species)
            lent = lent_four(5)
            self.assertEqual(
                reference.load_image(*species, image, *lent),
                (5, 5, answer.duplications, answer.losses))
            self.assertEqual(lent, [*gene, places, labels])
            # a tree numbered otherwise is another release's
            self.assertEqual(load_refusal(image), (18, 1, 0))

    def test_printed(self):
        numbers = [5, 5, *self.MIDDLE[0], *self.MIDDLE[1],
                   *self.T2_REVERSED[0], *self.T2_REVERSED[1]]
        self.assertEqual(
            printed(" ".join(map(str, numbers)).encode("ascii")),
            "0 1 L\n1 4 L\n2 0 L\n3 2 S\n4 2 D\n1 3 1 5 4\n")

    def test_comb_the_other_way_round(self):
        """A caterpillar whose root is the last of 2,047 nodes, and one that
        goes round at its lower end."""
        nodes = 2047
        parents = [nodes - 1 - parent for parent in comb(nodes)[:0:-1]] + [TOP]
        taxa = comb_taxa(nodes, lambda node: node + 1)[::-1]
        places, _, answer = least((parents, taxa), (parents, taxa))
        self.assertEqual(places, list(range(nodes)))
        self.assertEqual(answer, (0, 0, 1023, 2046, 0))
        parents[2044] = 0
        self.assertEqual(
            refusal_of(reference.judge_species, parents, taxa), (38, 1, 0))


class LeastHistory(unittest.TestCase):
    """The least history, cost and dating (points 9 to 15)."""

    def call(self, places, labels, gene=T2, species=R):
        return refusal_of(reference.least_history, *species, *gene,
                          places, labels, 1, 1)

    def test_short_tables(self):
        for places, labels in (([9] * 4, [9] * 5), ([9] * 5, [9] * 4),
                               ([], [9] * 5)):
            kept = (list(places), list(labels))
            self.assertEqual(self.call(places, labels), (7, 0, 0))
            self.assertEqual((places, labels), kept)

    def test_longer_tables(self):
        places, labels = [9] * 7, [8] * 6
        self.assertIsNone(self.call(places, labels))
        self.assertEqual(places, [0, 0, 2, 4, 3, 9, 9])
        self.assertEqual(labels, [2, 1, 0, 0, 0, 8])

    def test_refused_leaves_tables(self):
        places, labels = [9] * 3, [8] * 3
        self.assertEqual(
            self.call(places, labels, ([TOP, 0, 0], [0, 11, 14])), (6, 2, 2))
        self.assertEqual((places, labels), ([9] * 3, [8] * 3))

    def test_trees_before_short_tables(self):
        self.assertEqual(
            self.call([], [], ([TOP, 0, 0], [0, 11, 14])), (6, 2, 2))

    def test_cost(self):
        self.assertEqual(least(R, T2, 65535, 65535)[2].cost, 4 * 65535)
        self.assertEqual(least(R, T2, 10, 100)[2].cost, 310)
        self.assertEqual(least(R, T2, 0, 0)[2].cost, 0)

    def test_cost_of_a_lifted_duplication(self):
        _, _, answer = least(R, T3)
        lifted = offered(T3, [1, 2, 2], [2, 0, 0])
        self.assertEqual(reference.cost_of(answer, 1, 0), 1)
        self.assertEqual(reference.cost_of(lifted, 1, 0), 1)
        self.assertEqual(reference.cost_of(lifted, 1, 1), 3)

    def test_dating_kinds(self):
        self.assertEqual(reference.dating(*R, *T2, 0), (1, 0))
        self.assertEqual(reference.dating(*R, *T2, 1), (0,))
        self.assertEqual(reference.dating(*R, *T2, 2), (0,))
        self.assertEqual(reference.dating(*R, *T6, 0), (0,))
        self.assertEqual(reference.dating(*R, *T4, 0), (1, 1))

    def test_dating_passes_over_duplications(self):
        gene = ([TOP, 0, 0, 1, 1, 3, 3], [0, 0, 13, 0, 11, 11, 11])
        self.assertEqual(reference.dating(*R, *gene, 3), (2, 2, 0))
        self.assertEqual(reference.dating(*R, *gene, 1), (2, 2, 0))

    def test_dating_out_of_range(self):
        for node in (5, 6, 65535):
            self.assertEqual(
                refusal_of(reference.dating, *R, *T2, node), (19, 2, 0))

    def test_most_losses(self):
        nodes = 2047
        species = (comb(nodes), comb_taxa(nodes, lambda node: node))
        gene = (comb(nodes), comb_taxa(nodes, lambda node: nodes - 1))
        inner = [node % 2 == 0 and node < nodes - 1 for node in range(nodes)]
        places = [0 if one else nodes - 1 for one in inner]
        labels = [2 if one else 0 for one in inner]
        self.assertEqual(offered(gene, places, labels, species),
                         (1023, 1047552, 0))


class OfferedHistories(unittest.TestCase):
    """Refusals 7 to 11 (points 16 to 22)."""

    def test_place_and_label_are_one_test(self):
        self.assertEqual(
            offered_refusal(T1, [0, 1, 2, 5, 4], [1, 0, 0, 0, 0]), (8, 2, 1))
        self.assertEqual(
            offered_refusal(T1, [0, 1, 2, 5, 4], [1, 1, 0, 0, 0]), (8, 2, 3))

    def test_wrong_kinds(self):
        self.assertEqual(
            offered_refusal(T1, [0, 1, 2, 3, 4], [3, 1, 0, 0, 0]), (8, 2, 0))
        self.assertEqual(
            offered_refusal(T1, [0, 1, 2, 3, 4], [1, 1, 0, 2, 0]), (8, 2, 3))
        self.assertEqual(
            offered_refusal(T1, [0, 1, 2, 3, 4], [1, 1, 1, 0, 0]), (8, 2, 2))

    def test_entries_behind_q(self):
        self.assertEqual(
            offered(T3, [2, 2, 2, 999], [2, 0, 0, 7, 7]), (1, 0, 0))

    def test_short_tables(self):
        self.assertEqual(offered_refusal(T3, [2, 2], [2, 0, 0]), (7, 0, 0))
        self.assertEqual(offered_refusal(T3, [2, 2, 2], [2, 0]), (7, 0, 0))

    def test_speciation_at_a_species_leaf(self):
        self.assertEqual(
            offered_refusal(T3, [2, 2, 2], [1, 0, 0]), (11, 2, 0))

    def test_lowest_child_over_the_whole_table(self):
        self.assertEqual(
            offered_refusal(T1, [1, 3, 2, 3, 4], [2, 2, 0, 0, 0]), (10, 2, 2))

    def test_ten_over_the_whole_table_before_eleven(self):
        self.assertEqual(
            offered_refusal(T1, [0, 2, 2, 3, 4], [1, 1, 0, 0, 0]), (10, 2, 3))

    def test_leaf_at_an_ancestor(self):
        self.assertEqual(
            offered_refusal(T1, [0, 1, 1, 3, 4], [1, 1, 0, 0, 0]), (9, 2, 2))

    def test_both_children_on_one_side(self):
        gene = ([TOP, 0, 0], [0, 11, 12])
        self.assertEqual(
            offered_refusal(gene, [0, 2, 3], [1, 0, 0]), (11, 2, 0))
        self.assertEqual(offered(gene, [0, 2, 3], [2, 0, 0]), (1, 4, 0))
        self.assertEqual(offered(gene, [1, 2, 3], [1, 0, 0]), (0, 0, 1))

    def test_sides_in_either_order(self):
        gene = ([TOP, 0, 0], [0, 13, 11])
        self.assertEqual(offered(gene, [0, 4, 2], [1, 0, 0]), (0, 1, 1))

    def test_counts(self):
        self.assertEqual(
            offered(T2, [0, 0, 2, 4, 3], [2, 1, 0, 0, 0]), (1, 3, 1))


class Images(unittest.TestCase):
    """Writing and loading (points 23 to 34)."""

    def test_bytes_of_a_small_image(self):
        image = least_image(T6)
        head = [0, 0, 1, 0, 5, 0, 1, 0,
                255, 255, 0, 0, 1, 0, 1, 0, 0, 0,
                0, 0, 0, 0, 0, 0, 0, 0, 11, 0, 0, 0, 12, 0, 0, 0, 13, 0, 0, 0,
                255, 255, 11, 0, 0, 0, 2, 0, 0, 0]
        self.assertEqual(
            list(image), head + [0] * (508 - len(head)) + [54, 4, 0, 247])

    def test_check_by_another_formula(self):
        rng = random.Random(1)
        for highest in (1, 255):
            block = bytes(rng.randint(0, highest) for _ in range(512))
            a = sum(block[:508]) % 65536
            b = sum((508 - i) * block[i] for i in range(508)) % 65536
            self.assertEqual(reference.check_sums(block), (a, b))

    def test_wide_taxa(self):
        species = ([TOP], [0xA1B2C3D4])
        image = least_image(species, species)
        self.assertEqual(list(image[10:14]), [0xD4, 0xC3, 0xB2, 0xA1])
        lent = lent_four(1)
        reference.load_image(*species, image, *lent)
        self.assertEqual(lent, [[TOP], [0xA1B2C3D4], [0], [0]])

    def test_buffer(self):
        for length, refused in ((511, (12, 0, 0)), (0, (12, 0, 0)),
                                (512, None), (515, None)):
            buffer = [9] * length
            self.assertEqual(
                refusal_of(reference.write_image, *R, *T6, [2], [0], buffer),
                refused)
            expected = ([9] * length if refused
                        else list(least_image(T6)) + [9] * (length - 512))
            self.assertEqual(buffer, expected)

    def test_short_buffer_comes_last(self):
        self.assertEqual(
            refusal_of(reference.write_image, *R, *T6, [1], [0], []),
            (9, 2, 0))
        self.assertEqual(
            refusal_of(reference.write_image, *R, *T6, [], [0], []),
            (7, 0, 0))

    def test_any_legal_history_is_written(self):
        image = written(T3, [1, 2, 2], [2, 0, 0])
        lent = lent_four(5)
        self.assertEqual(reference.load_image(*R, image, *lent), (5, 3, 1, 2))
        self.assertEqual(lent, [[TOP, 0, 0, 1003, 1004],
                                [0, 11, 11, 2003, 2004],
                                [1, 2, 2, 3003, 3004],
                                [2, 0, 0, 4003, 4004]])

    def test_lengths(self):
        image = least_image(T2)
        for wrong in (b"", image[:511], image + b"\0", bytes(512 * 66)):
            self.assertEqual(load_refusal(wrong), (13, 0, 0))
        self.assertEqual(load_refusal(bytes(512 * 65)), (15, 0, 1))

    def test_checks_before_numbers(self):
        gene = (comb(49), comb_taxa(49, lambda node: 12))
        first, second = reference.blocks_of(least_image(gene))
        renumbered = reference.sealed_block(
            7, reference.words_from(first[2:508]))
        damaged = bytes([second[0] ^ 1]) + second[1:]
        self.assertEqual(load_refusal(renumbered + damaged), (14, 0, 1))
        self.assertEqual(load_refusal(renumbered + second), (15, 0, 0))
        self.assertEqual(load_refusal(second + first), (15, 0, 0))
        self.assertEqual(load_refusal(first + first), (15, 0, 1))

    def test_zero_blocks(self):
        self.assertEqual(load_refusal(bytes(512)), (16, 0, 0))
        self.assertEqual(
            load_refusal(least_image(T2) + bytes(512)), (15, 0, 1))

    def test_form(self):
        for form in (0, 2, 257, 65535):
            self.assertEqual(
                load_refusal(with_word(least_image(T2), 0, form)), (16, 0, 0))

    def test_counts_in_the_image(self):
        image = least_image(T2)
        for at in (1, 2):
            for count in (0, 2048, 65535, 2047, 200):
                self.assertEqual(
                    load_refusal(with_word(image, at, count)), (17, 0, 0))

    def test_block_count(self):
        sealed = reference.sealed_block(1, [])
        self.assertEqual(load_refusal(least_image(T2) + sealed), (17, 0, 0))
        gene = (comb(49), comb_taxa(49, lambda node: 12))
        self.assertEqual(load_refusal(least_image(gene)[:512]), (17, 0, 0))

    def test_filling(self):
        image = least_image(T2)
        used = 3 + 15 + 25
        self.assertEqual(load_refusal(with_word(image, used, 1)), (17, 0, 0))
        self.assertEqual(load_refusal(with_word(image, 252, 256)), (17, 0, 0))

    def test_release(self):
        image = least_image(T2)
        self.assertEqual(
            load_refusal(image, (R_PARENTS, [0, 0, 12, 11, 13])), (18, 1, 2))
        self.assertEqual(
            load_refusal(image, (R_PARENTS, [0, 0, 11, 12, 65549])),
            (18, 1, 4))
        self.assertEqual(
            load_refusal(image, ([TOP, 0, 0, 1, 1], [0, 0, 11, 12, 13])),
            (18, 1, 2))
        self.assertEqual(
            load_refusal(image, ([TOP, 0, 0], [0, 11, 12])), (18, 1, 65535))
        self.assertEqual(load_refusal(image, ([TOP], [99])), (18, 1, 65535))

    def test_lowest_node_over_both_species_tables(self):
        def change(words):
            words[3 + 3] = 0
            words[3 + 5 + 2 * 1] = 7
        image = reseal(least_image(T2), change)
        self.assertEqual(load_refusal(image), (18, 1, 1))

    def test_release_before_short_tables(self):
        image = least_image(T2)
        self.assertEqual(
            load_refusal(image, (R_PARENTS, [0, 0, 12, 11, 13]),
                         lent_four(0)), (18, 1, 2))

    def test_short_tables(self):
        image = least_image(T2)
        for at in range(4):
            lent = lent_four(6)
            lent[at] = lent[at][:4]
            kept = [list(table) for table in lent]
            self.assertEqual(load_refusal(image, R, lent), (7, 0, 0))
            self.assertEqual(lent, kept)

    def test_rack_first(self):
        self.assertEqual(
            load_refusal(b"", (R_PARENTS, [0, 0, 7, 7, 8])), (5, 1, 3))
        self.assertEqual(load_refusal(b"", ([], [])), (1, 1, 0))

    def check_zeroed(self, image, refused):
        """The refusal, and zeros in the first 5 entries only."""
        lent = lent_four(7)
        self.assertEqual(load_refusal(image, R, lent), refused)
        self.assertEqual(
            lent, [[0] * 5 + table[5:] for table in lent_four(7)])

    def test_gene_tree_in_the_image(self):
        image = least_image(T2)
        parents, taxa = 18, 23
        self.check_zeroed(with_word(image, parents, 0), (2, 2, 65535))
        self.check_zeroed(with_word(image, parents + 2, TOP), (2, 2, 2))
        self.check_zeroed(with_word(image, parents + 4, 5), (2, 2, 4))
        self.check_zeroed(with_word(image, parents + 1, 3), (38, 2, 1))
        self.check_zeroed(with_word(image, parents + 4, 4), (38, 2, 4))
        self.check_zeroed(with_word(image, parents + 4, 1), (3, 2, 0))
        self.check_zeroed(with_word(image, taxa + 4, 0), (4, 2, 2))
        self.check_zeroed(with_word(image, taxa + 1, 1), (4, 2, 0))
        self.check_zeroed(with_word(image, taxa + 4, 14), (6, 2, 2))
        self.check_zeroed(with_word(image, taxa + 5, 1), (6, 2, 2))

    def test_history_in_the_image(self):
        image = least_image(T2)
        places, labels = 33, 38
        self.check_zeroed(with_word(image, places, 5), (8, 2, 0))
        self.check_zeroed(with_word(image, labels + 4, 1), (8, 2, 4))
        self.check_zeroed(with_word(image, places + 3, 3), (9, 2, 3))
        self.check_zeroed(with_word(image, places, 1), (10, 2, 1))
        self.check_zeroed(with_word(image, labels, 1), (11, 2, 0))

    def test_other_refusals_leave_the_tables(self):
        image = least_image(T2)
        for wrong in (b"", image[:-1] + b"\x01", with_word(image, 0, 2),
                      with_word(image, 1, 0), with_word(image, 3 + 4, 1)):
            lent = lent_four(7)
            self.assertIsNotNone(load_refusal(wrong, R, lent))
            self.assertEqual(lent, lent_four(7))

    def test_one_changed_byte(self):
        gene = (comb(49), comb_taxa(49, lambda node: 11 + node % 3))
        image = least_image(gene)
        self.assertEqual(len(image), 1024)
        for at in range(len(image)):
            for change in (1, 128, 255):
                damaged = bytearray(image)
                damaged[at] ^= change
                self.assertEqual(load_refusal(damaged), (14, 0, at // 512))


class Host(unittest.TestCase):
    """The collector's numbers (points 35 to 37)."""

    PARENTS = bytes([255, 255, 0, 0, 1, 0, 1, 0, 0, 0])
    TAXA = bytes([0, 0, 0, 0, 0, 0, 0, 0,
                  11, 0, 0, 0, 12, 0, 0, 0, 13, 0, 0, 0])

    def ask(self, image, parents=PARENTS, taxa=TAXA):
        return tuple(reference.host_answer(image, parents, taxa))

    def test_accepted(self):
        self.assertEqual(self.ask(least_image(T2)), (0, 0, 0, 1, 3))
        self.assertEqual(self.ask(least_image(T6)), (0, 0, 0, 0, 0))
        self.assertEqual(
            self.ask(written(T3, [1, 2, 2], [2, 0, 0])), (0, 0, 0, 1, 2))

    def test_lengths(self):
        image = least_image(T2)
        for parents, taxa in ((self.PARENTS[:5], self.TAXA[:8]),
                              (self.PARENTS[:-1], self.TAXA),
                              (self.PARENTS, self.TAXA[:-1]),
                              (self.PARENTS[:-2], self.TAXA),
                              (self.PARENTS, self.TAXA[:-4]),
                              (b"", b""), (b"", self.TAXA),
                              (self.PARENTS, b""),
                              (bytes(2 * 2048), bytes(4 * 2048))):
            self.assertEqual(self.ask(image, parents, taxa), (1, 1, 0, 0, 0))

    def test_refused(self):
        image = least_image(T2)
        self.assertEqual(self.ask(b""), (13, 0, 0, 0, 0))
        self.assertEqual(self.ask(image[:-1] + b"\x01"), (14, 0, 0, 0, 0))
        self.assertEqual(self.ask(with_word(image, 38, 1)), (11, 2, 0, 0, 0))
        other = self.TAXA[:-4] + bytes([13, 0, 1, 0])
        self.assertEqual(self.ask(image, self.PARENTS, other),
                         (18, 1, 4, 0, 0))


class Texts(unittest.TestCase):
    """The program `history` (points 38 to 47)."""

    SMALL = b"5 5 65535 0 1 1 0 0 0 11 12 13 65535 0 1 1 0 0 0 11 13 12"
    ANSWER = "0 0 D\n1 0 S\n2 2 L\n3 4 L\n4 3 L\n1 3 1 5 4\n"

    def expect(self, answers):
        for text, answer in answers.items():
            self.assertEqual(printed(text), "refused %s\n" % answer, text)

    def test_counts(self):
        self.expect({
            b"": "20 0 0", b" \n": "20 0 0", b"0": "20 0 0",
            b"0 x": "20 0 0", b"0 5 x": "1 1 0", b"5 0 x": "1 2 0",
            b"0 0": "1 1 0", b"2048 5": "1 1 0", b"5 2048": "1 2 0",
            b"4294967295 5": "1 1 0", b"4294967296 5": "20 0 0",
            b"5 4294967296": "20 0 0", b"0 4294967296": "20 0 0",
            b"0 4294967295": "1 1 0", b"0 00000000005": "20 0 0",
            b"x 0": "20 0 0", b"0 5\t": "20 0 0", b"0 5x": "20 0 0",
            b"5 0,": "20 0 0", b"5 0 ,": "1 2 0", b"2047 2047": "20 0 0",
        })

    def test_digits(self):
        tail = self.SMALL[1:]
        self.assertEqual(printed(b"0000000005" + tail), self.ANSWER)
        self.expect({b"00000000005" + tail: "20 0 0",
                     b"-5" + tail: "20 0 0", b"+5" + tail: "20 0 0"})

    def test_widths(self):
        self.expect({
            b"1 1 65536 7 65535 7": "20 0 0",
            b"1 1 65534 7 65535 7": "2 1 0",
            b"1 1 65535 4294967296 65535 7": "20 0 0",
            b"1 1 65535 4294967295 65535 7": "6 2 0",
            b"1 1 65535 7 65536 7": "20 0 0",
            b"1 1 65535 7 65535 4294967296": "20 0 0",
            b"1 1 0 7 65535 9999999999": "20 0 0",
        })
        self.assertEqual(printed(b"1 1 65535 4294967295 65535 4294967295"),
                         "0 0 L\n0 0 0 0 0\n")

    def test_separators(self):
        spread = b"\n \n" + self.SMALL.replace(b" ", b" \n\n ") + b"\n\n "
        self.assertEqual(printed(spread), self.ANSWER)
        self.assertEqual(printed(self.SMALL + b"\n"), self.ANSWER)
        for byte in (b"\t", b"\r", b"\f", b"\v", b"\0", b"x", b"\xa0"):
            self.expect({self.SMALL + byte: "20 0 0",
                         self.SMALL + b" " + byte: "20 0 0",
                         byte + self.SMALL: "20 0 0",
                         self.SMALL.replace(b" ", byte): "20 0 0"})
        self.expect({self.SMALL.replace(b" ", b"\r\n"): "20 0 0"})

    def test_how_many(self):
        self.expect({self.SMALL + b" 0": "20 0 0",
                     self.SMALL[:-3]: "20 0 0",
                     self.SMALL[:-1] + b" 2": "20 0 0",
                     b"0" + self.SMALL[1:] + b" 7 7": "1 1 0"})

    def test_length(self):
        room = 49152 - len(self.SMALL)
        self.assertEqual(printed(self.SMALL + b" " * room), self.ANSWER)
        self.assertEqual(printed(b"\n" * room + self.SMALL), self.ANSWER)
        self.expect({self.SMALL + b" " * (room + 1): "20 0 0",
                     b"0 0" + b" " * 49149: "1 1 0",
                     b"0 0" + b" " * 49150: "20 0 0",
                     b" " * 49153: "20 0 0", b" " * 49152: "20 0 0"})

    def test_tree_rules(self):
        self.expect({
            b"1 1 0 7 0 7": "2 1 65535",
            b"1 1 1 7 0 7": "2 1 0",
            b"3 1 2 2 1 7 8 0 65535 7": "2 1 65535",
            b"3 1 65535 2 1 0 7 8 65535 7": "38 1 1",
            b"3 3 65535 0 0 0 7 8 0 2 65535 7 8 0": "38 2 0",
            b"2 1 65535 0 0 7 65535 7": "3 1 0",
            b"1 1 65535 0 65535 7": "4 1 0",
            b"3 1 65535 0 0 0 7 7 65535 7": "5 1 2",
            b"1 1 65535 7 0 7": "2 2 65535",
            b"1 3 65535 7 65535 0 0 0 7 8": "6 2 2",
        })

    def test_any_sound_pair_fits(self):
        nodes = 2047
        parents = [TOP] + [(node - 1) // 2 for node in range(1, nodes)]
        upward = [nodes - 1 - parent for parent in parents[:0:-1]] + [TOP]
        for table in (parents, comb(nodes), upward):
            inner = set(table)
            taxa = [0 if node in inner else 4294967295 - node
                    for node in range(nodes)]
            numbers = [nodes, nodes] + (table + taxa) * 2
            text = " ".join(map(str, numbers)).encode("ascii")
            self.assertLessEqual(len(text), 47102)
            self.assertEqual(reference.read_tables(text),
                             (table, taxa, table, taxa))
            lines = printed(text).split("\n")
            self.assertEqual(lines[2047], "0 0 1023 2046 0")
        self.assertEqual(len(text), 47101)


# Cross-checks: other ways to the same answers


def ancestors(parents, node):
    """The node and all above it, from below."""
    line = []
    while node != TOP:
        line.append(node)
        node = parents[node]
    return line


def climbed(parents, one, other):
    """Where two species nodes meet, and the steps that climbing takes: the
    deeper one goes up."""
    depths = [len(ancestors(parents, node)) for node in range(len(parents))]
    steps = 0
    while one != other:
        if depths[one] > depths[other]:
            one = parents[one]
        else:
            other = parents[other]
        steps += 1
    return one, steps


def climbing_history(species, gene):
    """Places, labels and climbs of the least history by climbing."""
    (species_parents, species_taxa), (parents, taxa) = species, gene
    places = [None] * len(parents)
    labels = [0] * len(parents)
    climbs = 0
    for node in sorted(range(len(parents)), reverse=True,
                       key=lambda one: len(ancestors(parents, one))):
        below = [child for child, parent in enumerate(parents)
                 if parent == node]
        if not below:
            places[node] = species_taxa.index(taxa[node])
            continue
        first, second = (places[child] for child in below)
        places[node], steps = climbed(species_parents, first, second)
        labels[node] = 2 if places[node] in (first, second) else 1
        climbs += steps
    return places, labels, climbs


def naive_order(parents):
    """What 2 and 38 say of a parents table, as (number, place) or None: what
    reaches the root is a set that grows from it."""
    n = len(parents)
    roots = [node for node in range(n) if parents[node] == TOP]
    wrong = roots[1:] + [node for node in range(n)
                         if n <= parents[node] < TOP]
    if wrong or not roots:
        return (2, min(wrong, default=65535))
    reached = set(roots)
    for _ in range(n):
        reached |= {node for node in range(n) if parents[node] in reached}
    return next(((38, node) for node in range(n) if node not in reached),
                None)


def naive_judgement(species, gene, places, labels):
    """What the rules of descent say, with lists of ancestors."""
    (species_parents, species_taxa), (parents, taxa) = species, gene
    p, q = len(species_parents), len(parents)
    below = {node: [child for child in range(q) if parents[child] == node]
             for node in range(q)}
    for node in range(q):
        kinds = (1, 2) if below[node] else (0,)
        if places[node] not in range(p) or labels[node] not in kinds:
            return (8, 2, node)
    for node in range(q):
        if not below[node] and species_taxa[places[node]] != taxa[node]:
            return (9, 2, node)
    lines = [ancestors(species_parents, place) for place in places]
    for node in range(q):
        if parents[node] != TOP and places[parents[node]] not in lines[node]:
            return (10, 2, node)
    for node in range(q):
        if labels[node] == 1:
            sides = [child for child in range(p)
                     if species_parents[child] == places[node]]
            on = [[side for side in sides if side in lines[child]]
                  for child in below[node]]
            if [] in on or on[0] == on[1]:
                return (11, 2, node)
    return None


def sound_parents(nodes):
    """All sound parents tables of so many nodes in which parents come
    first."""
    found = []
    for rest in itertools.product(*[range(node) for node in range(1, nodes)]):
        if all(rest.count(node) in (0, 2) for node in range(nodes)):
            found.append([TOP] + list(rest))
    return found


def any_sound_parents(nodes):
    """All sound parents tables of so many nodes, in any order."""
    return [list(table)
            for table in itertools.product((TOP, *range(nodes)), repeat=nodes)
            if naive_order(table) is None
            and all(table.count(node) in (0, 2) for node in range(nodes))]


def leaves_in(parents):
    return [node for node in range(len(parents)) if node not in parents]


def taxa_table(parents, leaf_taxa):
    taxa = [0] * len(parents)
    for leaf, taxon in zip(leaves_in(parents), leaf_taxa):
        taxa[leaf] = taxon
    return taxa


def all_species(nodes, tables):
    """All species trees of so many nodes, taxa 1, 2, 3 and so on."""
    for parents in tables(nodes):
        yield parents, taxa_table(parents, itertools.count(1))


def all_genes(nodes, taxa, tables):
    """All gene trees of so many nodes on so many taxa."""
    for parents in tables(nodes):
        leaves = len(leaves_in(parents))
        for drawn in itertools.product(range(1, taxa + 1), repeat=leaves):
            yield parents, taxa_table(parents, drawn)


def all_pairs(species_nodes, gene_nodes, tables=sound_parents):
    genes = list(all_genes(gene_nodes, (species_nodes + 1) // 2, tables))
    return itertools.product(all_species(species_nodes, tables), genes)


def all_placements(species, gene):
    """All places in which leaves sit at their species and each child is at
    or below its parent."""
    (species_parents, species_taxa), (parents, taxa) = species, gene
    p = len(species_parents)
    lines = [set(ancestors(species_parents, node)) for node in range(p)]

    downward = sorted(range(len(parents)),
                      key=lambda node: len(ancestors(parents, node)))

    def extend(places):
        if len(places) == len(parents):
            yield [places[node] for node in range(len(parents))]
            return
        node = downward[len(places)]
        parent = parents[node]
        choices = ([species_taxa.index(taxa[node])] if taxa[node]
                   else range(p))
        for place in choices:
            if parent == TOP or places[parent] in lines[place]:
                yield from extend({**places, node: place})

    return extend({})


def all_legal_histories(species, gene):
    """Every legal history of a pair, found by trying."""
    taxa = gene[1]
    for places in all_placements(species, gene):
        for labels in itertools.product(*[(0,) if taxon else (1, 2)
                                          for taxon in taxa]):
            if naive_judgement(species, gene, places, labels) is None:
                yield places, list(labels)


class CrossChecks(unittest.TestCase):
    """The reference against other ways to the same answers."""

    def check_least(self, species, gene):
        places, labels, answer = least(species, gene)
        self.assertEqual((places, labels, answer.climbs),
                         climbing_history(species, gene))
        self.assertEqual(answer.losses,
                         answer.climbs - 2 * answer.speciations)

    def test_sets_against_climbing(self):
        rng = random.Random(2)
        for _ in range(600):
            self.check_least(*trees.sound_pair(rng))

    def test_sets_against_climbing_at_full_size(self):
        rng = random.Random(3)
        self.check_least(*trees.sound_pair(rng, large=True))

    def test_climbing_on_all_small_pairs(self):
        for sizes in itertools.product((1, 3, 5), (1, 3, 5)):
            for species, gene in all_pairs(*sizes):
                self.check_least(species, gene)

    def test_climbing_on_all_small_pairs_in_any_order(self):
        for sizes in ((1, 3), (3, 1), (3, 3), (3, 5), (5, 3)):
            for species, gene in all_pairs(*sizes, any_sound_parents):
                self.check_least(species, gene)

    def test_all_small_tables(self):
        """Every table of up to five parents, as either tree."""
        seen = Counter()
        for nodes in range(1, 6):
            for parents in itertools.product((TOP, *range(nodes + 1)),
                                             repeat=nodes):
                came = refusal_of(reference.judge_species, parents,
                                  [9] * nodes)
                genes = refusal_of(reference.judge_pair, *R, parents,
                                   [9] * nodes)
                expected = naive_order(parents)
                seen[expected and expected[0]] += 1
                if expected is None:
                    self.assertIn((came or (5,))[0], (3, 4, 5), parents)
                    self.assertIn(genes[0], (3, 4, 6), parents)
                else:
                    number, place = expected
                    self.assertEqual(came, (number, 1, place), parents)
                    self.assertEqual(genes, (number, 2, place), parents)
        self.assertEqual(set(seen), {None, 2, 38})

    def test_judge_on_all_small_offers(self):
        """Every table of places and labels for pairs of three nodes; one in
        four of them where the trees are numbered in any order."""
        rng = random.Random(8)
        for tables, share in ((sound_parents, 1), (any_sound_parents, 0.25)):
            for (species, gene), places, labels in itertools.product(
                    all_pairs(3, 3, tables),
                    itertools.product(range(4), repeat=3),
                    itertools.product(range(4), repeat=3)):
                if rng.random() < share:
                    self.assertEqual(
                        offered_refusal(gene, places, labels, species),
                        naive_judgement(species, gene, places, labels))

    def test_judge_on_random_offers(self):
        rng = random.Random(4)
        seen = set()
        for _ in range(1500):
            pair = trees.sound_pair(rng)
            history = histories.offered_history(rng, *images.judged(pair))
            species, gene = pair
            expected = naive_judgement(species, gene, *history)
            self.assertEqual(
                offered_refusal(gene, *history, species), expected)
            seen.add(expected and expected[0])
        self.assertEqual(seen, {None, 8, 9, 10, 11})

    def check_third_demand(self, species, gene):
        """The least history is legal, and no legal one is better."""
        places, labels, answer = least(species, gene)
        found = False
        for history in all_legal_histories(species, gene):
            counts = offered(gene, *history, species)
            for node, label in enumerate(labels):
                if label == 2:
                    self.assertEqual(history[1][node], 2)
            self.assertGreaterEqual(counts.losses, answer.losses)
            is_least = history == (places, labels)
            self.assertEqual(counts.losses == answer.losses, is_least)
            found = found or is_least
        self.assertTrue(found)

    def test_third_demand_on_all_small_pairs(self):
        """All pairs with up to 7 nodes in one tree and 5 in the other."""
        for sizes in itertools.product((1, 3, 5, 7), repeat=2):
            if sizes != (7, 7):
                for species, gene in all_pairs(*sizes):
                    self.check_third_demand(species, gene)

    def test_third_demand_on_all_small_pairs_in_any_order(self):
        for sizes in ((3, 3), (3, 5), (5, 3)):
            for species, gene in all_pairs(*sizes, any_sound_parents):
                self.check_third_demand(species, gene)

    def test_third_demand_on_some_larger_pairs(self):
        """One in a hundred of the pairs with 7 nodes in each tree."""
        rng = random.Random(5)
        for species, gene in all_pairs(7, 7):
            if rng.random() < 0.01:
                self.check_third_demand(species, gene)

    def test_images_come_back(self):
        rng = random.Random(6)
        for _ in range(300):
            stored = images.legal_record(rng)
            species = (stored.species_parents, stored.species_taxa)
            image = written(stored[2:4], stored.places, stored.labels, species)
            q = len(stored.gene_parents)
            lent = lent_four(q)
            reference.load_image(*species, image, *lent)
            self.assertEqual(lent, list(stored[2:]))

    def test_full_size_image(self):
        rng = random.Random(7)
        species, gene = trees.sound_pair(rng, large=True)
        image = least_image(gene, species)
        self.assertEqual(len(image), 65 * 512)
        lent = lent_four(2047)
        loaded = reference.load_image(*species, image, *lent)
        _, _, answer = least(species, gene)
        self.assertEqual(loaded, (2047, 2047, answer.duplications,
                                  answer.losses))
        self.assertEqual((lent[0], lent[1]), gene)


if __name__ == "__main__":
    unittest.main()
