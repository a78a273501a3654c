"""Tests of the generator and the driver, with the stand-in for the programs.

They make sure that each kind of fault really is one, that every refusal number
is drawn often, that trees come numbered in every way, that requests survive
being sent, and that the driver finds an answer that was spoiled or that leans
on the numbering.

    python3 test_driver.py
"""

import contextlib
import io
import itertools
import os
import random
import re
import shlex
import sys
import tempfile
import unittest
from collections import Counter

import drive
import generate
import generate_histories as histories
import generate_images as images
import generate_trees as trees
import panheron_reference as reference
import protocol
import renumberings
from panheron_reference import NO_PARENT, Refusal

FAKE = "%s %s" % (shlex.quote(sys.executable), shlex.quote(os.path.join(
    os.path.dirname(os.path.abspath(__file__)), "fake_replay.py")))


def number_of(call, *values):
    """The number that a call is refused with, 0 if it isn't."""
    try:
        call(*values)
    except Refusal as refusal:
        return refusal.number
    return 0


def case_number(case):
    """The number that an image is refused with on its rack."""
    return number_of(reference.load_image, *case.rack, case.image,
                     *[[0] * 2047 for _ in range(4)])


class Numberings(unittest.TestCase):
    """The ways in which trees are numbered."""

    def way(self, tables):
        """Whether parents come first, children do, or neither."""
        steps = {parent < node for node, parent in enumerate(tables.parents)
                 if parent != NO_PARENT}
        return {(True,): "down", (False,): "up"}.get(tuple(steps), "mixed")

    def check_all_ways(self, draw):
        """Each way for either tree, whatever the other's is."""
        rng = random.Random(7)
        drawn = Counter(tuple(map(self.way, draw(rng))) for _ in range(400))
        for ways in itertools.product(("down", "up", "mixed"), repeat=2):
            self.assertGreater(drawn[ways], 8, ways)

    def test_pairs(self):
        self.check_all_ways(trees.sound_pair)

    def test_stored_pairs(self):
        self.check_all_ways(lambda rng: images.draw_pair(rng, False))

    def test_genes_like_the_species(self):
        rng, anew = random.Random(8), 0
        for _ in range(100):
            species = trees.species_tree(rng, 9)
            gene = trees.species_like_gene(rng, species)
            anew += gene.parents != species.parents
        self.assertGreater(anew, 40)
        self.assertLess(anew, 80)

    def test_renumbered(self):
        tables = trees.Tables([NO_PARENT, 0, 1, 1, 0], [0, 0, 11, 12, 13])
        self.assertEqual(trees.renumbered(tables, [3, 0, 4, 1, 2]),
                         ([3, 0, 3, NO_PARENT, 0], [0, 12, 13, 0, 11]))

    def test_carried_answers(self):
        numbers = renumberings.Numbers([3, 0, 4, 1, 2], [1, 2, 0])
        self.assertEqual(
            renumberings.carried(3, ["ok 1 2 0 2 7", "1 2 2", "2 0 0"],
                                 numbers),
            ["ok 1 2 0 2 7", "4 0 4", "0 2 0"])
        self.assertEqual(
            renumberings.carried(4, ["ok 1 2 0"], numbers), ["ok 1 2 0"])
        for line, expected in (("ok 0", "ok 0"), ("ok 1 2", "ok 1 4"),
                               ("ok 2 2 0", "ok 2 4 3")):
            self.assertEqual(
                renumberings.carried(5, [line], numbers), [expected])


class Faults(unittest.TestCase):
    """Each kind of fault gives its own number."""

    def check(self, draw, number, least_share):
        """Draws many numbers: all 0 or the one, and the one often enough."""
        rng = random.Random(number)
        drawn = Counter(draw(rng) for _ in range(150))
        self.assertLessEqual(set(drawn), {0, number}, draw)
        self.assertGreaterEqual(drawn[number], 150 * least_share, draw)

    def test_sound_trees(self):
        rng = random.Random(0)
        for _ in range(300):
            species, gene = trees.sound_pair(rng)
            self.assertEqual(
                number_of(reference.judge_pair, *species, *gene), 0)

    def test_species_faults(self):
        for number, fault in trees.SPECIES_FAULTS.items():
            def draw(rng, fault=fault):
                species = trees.species_tree(rng, rng.randint(3, 13))
                fault(rng, species)
                return number_of(reference.judge_species, *species)
            self.check(draw, number, 0.7)

    def test_gene_faults(self):
        for number, fault in trees.GENE_FAULTS.items():
            def draw(rng, fault=fault):
                species = trees.species_tree(rng, rng.randint(3, 13))
                gene = trees.scattered_gene(rng, species, rng.randint(3, 13))
                fault(rng, gene)
                return number_of(reference.judge_pair, *species, *gene)
            self.check(draw, number, 0.5)

    def test_places_of_two_and_thirty_eight(self):
        """Each way to break 2 and 38, on a tree whose root is node 3."""
        for fault, number, places in (
                (trees.wrong_parent, 2, {0, 1, 2, 3, 4}),
                (trees.second_root, 2, {3, 4}),
                (trees.no_root, 2, {65535}),
                (trees.own_parent, 38, {0, 1, 2, 4}),
                (trees.circle, 38, {0, 1, 2, 4})):
            rng, drawn = random.Random(number), set()
            for _ in range(200):
                tree = trees.Tables([3, 0, 3, NO_PARENT, 0],
                                    [0, 12, 13, 0, 11])
                fault(rng, tree)
                with self.assertRaises(Refusal) as refused:
                    reference.judge_species(*tree)
                self.assertEqual(refused.exception.number, number)
                drawn.add(refused.exception.place)
            self.assertEqual(drawn, places, fault)

    def test_legal_histories(self):
        rng = random.Random(1)
        higher = 0
        for _ in range(500):
            pair = images.judged(trees.sound_pair(rng))
            history = histories.legal_history(rng, *pair)
            self.assertEqual(
                number_of(reference.judge_history, *pair, *history), 0)
            higher += history != reference.least_history_of(*pair)
        self.assertGreater(higher, 150)

    def test_illegal_histories(self):
        for number, faults in histories.FAULTS.items():
            for fault in faults:
                drawn = Counter()
                rng = random.Random(number)
                for _ in range(200):
                    pair = images.judged(trees.sound_pair(rng))
                    history = histories.legal_history(rng, *pair)
                    fault(rng, *pair, history)
                    drawn[number_of(
                        reference.judge_history, *pair, *history)] += 1
                self.assertGreater(drawn[number], 40, fault)

    def test_damage(self):
        expected = {
            images.one_byte: {14}, images.some_bytes: {0, 14},
            images.truncated: {13, 17}, images.over_long: {13, 15},
            images.over_many_blocks: {13}, images.sealed_tail: {17},
            images.exchanged_blocks: {0, 15},
            images.renumbered_block: {0, 15},
            images.number_and_check: {14}, images.zero_image: {15, 16},
            images.other_form: {16}, images.other_filling: {17, 0},
            images.exchanged_taxa: {0, 18}, images.renamed_taxon: {0, 5, 18},
            images.other_parent: {0, 18}, images.other_species_taxon: {18},
            images.parent_and_taxon: {18}, images.other_rack: {0, 18},
            images.unsound_rack: {0, 1, 2, 38, 3, 4, 5, 18},
        }
        rng = random.Random(2)
        for damage, numbers in expected.items():
            drawn = {case_number(damage(rng, images.good(rng)))
                     for _ in range(60)}
            self.assertLessEqual(drawn, numbers, damage)
            self.assertTrue(drawn - {0}, damage)

    def test_sealed_faults(self):
        rng = random.Random(3)
        drawn = {case_number(images.unsound_gene(rng)) for _ in range(100)}
        self.assertLessEqual({2, 38, 3, 4, 6}, drawn)
        drawn = {case_number(images.unlawful_history(rng)) for _ in range(100)}
        self.assertLessEqual({8, 9, 10, 11}, drawn)


class Requests(unittest.TestCase):
    """What is drawn and what is sent."""

    def test_every_number_occurs_often(self):
        drawn = Counter(protocol.answer_to(generate.request(5, index)).refusal
                        for index in range(3000))
        for number in (*range(20), 38):
            self.assertGreater(drawn[number], 20, number)

    def test_twenty_occurs_often(self):
        drawn = Counter(drive.refusal_printed(reference.history_program(
            generate.text(5, index)))[0] for index in range(300))
        self.assertGreater(drawn[0], 40)
        self.assertGreater(drawn[20], 60)
        self.assertGreater(drawn[1], 15)

    def test_same_seed_same_request(self):
        for index in range(100):
            self.assertEqual(generate.request("a", index),
                             generate.request("a", index))
            self.assertEqual(generate.text("a", index),
                             generate.text("a", index))
        self.assertNotEqual([generate.request("a", i) for i in range(5)],
                            [generate.request("b", i) for i in range(5)])

    def test_sending(self):
        sent = [generate.request(6, index) for index in range(300)]
        text = "".join(map(protocol.request_text, sent))
        self.assertEqual(list(protocol.requests_in(text)), sent)

    def test_answering_leaves_the_request(self):
        for index in range(100):
            request = generate.request(7, index)
            protocol.answer_to(request)
            self.assertEqual(request, generate.request(7, index))

    def test_large_requests_are_within_limits(self):
        for index in range(14):
            request = generate.large_request(8, index)
            text = protocol.request_text(request)
            self.assertLess(len(text), drive.MOST_RUN_BYTES)
            self.assertEqual(list(protocol.requests_in(text)), [request])

    def test_lines(self):
        small = [[65535], [7]]
        self.assertEqual(
            protocol.answer_to(protocol.Request(1, small)).lines, ["ok"])
        self.assertEqual(
            protocol.answer_to(protocol.Request(
                3, small * 2 + [[9, 9], [], 1, 1])).lines,
            ["refused 7 0 0", "9 9", ""])
        self.assertEqual(
            protocol.answer_to(protocol.Request(8, [[], [], []])),
            (1, 1, ["ok 1 0 0"]))

    def test_bad_requests(self):
        for text in ("0", "9", "x", "1", "1 1 65536 1 7", "1 1 65535 1",
                     "1 2101", "7\t", "5 1 65535 1 7 1 65535 1 7 65536"):
            with self.assertRaises(protocol.BadRequest, msg=text):
                list(protocol.requests_in(text))


class Seeds(unittest.TestCase):
    """Which requests and texts the seeds make."""

    def made(self, *words):
        """The kind, seed and index of everything that is asked for."""
        arguments = drive.parse_arguments(
            ["--replay", "r", "--history", "h", "--requests", "901",
             "--texts", "50", "--large", "5", "--pairs", "61", *words])
        return [(task.maker, task.seed, index)
                for task in drive.all_tasks(arguments)
                for index in range(task.first, task.first + task.count)]

    def test_one_seed(self):
        made = self.made("--seed", "1")
        self.assertEqual(Counter(kind for kind, _, _ in made), {
            "request": 901, "large request": 5, "text": 50, "large text": 5,
            "pair": 61})
        self.assertEqual({seed for _, seed, _ in made}, {"1"})

    def test_the_fixed_half_is_the_first_of_the_old(self):
        old = self.made("--seed", "1")
        made = self.made("--seed", "1", "--fresh", "77")
        for kind, fixed, fresh in (("request", 451, 450), ("text", 25, 25),
                                   ("large request", 3, 2),
                                   ("large text", 3, 2), ("pair", 31, 30)):
            ours = [one for one in made if one[0] == kind]
            self.assertEqual(
                ours[:fixed], [one for one in old if one[0] == kind][:fixed])
            self.assertEqual(
                ours[fixed:], [(kind, "77", index) for index in range(fresh)])

    def test_fresh_seeds_differ(self):
        drawn = {drive.parse_arguments(["--replay", "r", "--fresh"]).fresh
                 for _ in range(20)}
        self.assertGreater(len(drawn), 15)


class Driving(unittest.TestCase):
    """The driver with the stand-in."""

    def setUp(self):
        """What the driver saves of long differences goes with the test."""
        folder = tempfile.TemporaryDirectory()
        self.addCleanup(folder.cleanup)
        self.addCleanup(setattr, tempfile, "tempdir", tempfile.tempdir)
        tempfile.tempdir = folder.name

    def drive(self, *arguments):
        """The exit status and what was printed; pairs only if asked for."""
        out = io.StringIO()
        with contextlib.redirect_stdout(out):
            status = drive.main(["--pairs", "0", *arguments])
        return status, out.getvalue()

    def test_agreement(self):
        status, printed = self.drive(
            "--replay", FAKE, "--history", FAKE + " --history",
            "--requests", "2000", "--texts", "24", "--large", "1",
            "--pairs", "60", "--all-numbers")
        self.assertEqual(status, 0, printed)
        self.assertIn("agreed: 2000 requests, 1 large requests, 60 pairs, "
                      "24 texts, 1 large texts", printed)

    def test_spoiled_answers(self):
        status, printed = self.drive(
            "--replay", FAKE + " --spoil 150", "--requests", "400")
        self.assertEqual(status, 1)
        self.assertIn("difference 1: request 149, code", printed)

    def test_spoiled_pairs(self):
        """Of a pair's six answers the last three are about the pair numbered
        anew."""
        for spoiled, code in ((4, renumberings.LEAST_HISTORY),
                              (5, renumberings.OFFERED),
                              (6, renumberings.DATING)):
            status, printed = self.drive(
                "--replay", "%s --spoil %d" % (FAKE, spoiled), "--requests",
                "0", "--pairs", "1")
            self.assertEqual(status, 1)
            self.assertIn("difference 1: pair 0, code %d\n" % code, printed)

    def test_answers_that_lean_on_the_numbering(self):
        status, printed = self.drive(
            "--replay", FAKE + " --lean", "--requests", "0", "--pairs", "20",
            "--differences", "1")
        self.assertEqual(status, 1)
        self.assertRegex(printed, r"difference 1: pair \d+, code 3\n")

    def test_lines_after_the_last_pair(self):
        status, printed = self.drive(
            "--replay", "sh -c %s" % shlex.quote(FAKE + "; echo more"),
            "--requests", "0", "--pairs", "2")
        self.assertEqual(status, 1)
        self.assertIn("difference 1: after pair 1", printed)

    def test_spoiled_texts(self):
        status, printed = self.drive(
            "--history", FAKE + " --history --spoil 1", "--texts", "2")
        self.assertEqual(status, 1)
        self.assertIn("difference 1: text 0", printed)

    def test_fresh_seed_is_printed(self):
        words = ["--replay", FAKE, "--requests", "6", "--fresh"]
        status, printed = self.drive(*words)
        self.assertEqual(status, 0, printed)
        seed = re.match(r"seed 1 makes one half and seed (\d+) the other; to "
                        r"make the same again: --seed 1 --fresh \1\n",
                        printed).group(1)
        _, again = self.drive(*words, seed)
        self.assertEqual(again.split("\n")[0], printed.split("\n")[0])

    def test_differences_can_be_made_again(self):
        for words, kinds in (
                (["--replay", FAKE + " --spoil 5"], ["--pairs", "2"]),
                (["--replay", FAKE + " --spoil 1"], ["--requests", "2"]),
                (["--history", FAKE + " --history --spoil 1"], [])):
            for large in ("0", "1"):
                large = "0" if "--pairs" in kinds else large
                status, printed = self.drive(
                    *words, "--requests", "0", "--texts", "2", *kinds,
                    "--large", large, "--fresh", "77", "--differences", "9")
                self.assertEqual(status, 1)
                commands = re.findall(r"^again: python3 \S*drive.py (.*)$",
                                      printed, re.MULTILINE)
                self.assertEqual(len(commands), 2 + int(large))
                self.assertIn("--seed 77 --first 0", "\n".join(commands))
                for command in commands:
                    status, alone = self.drive(*shlex.split(command))
                    self.assertEqual(status, 1, command)
                    self.assertEqual(alone.count("difference 1: "), 1)
                    self.assertIn("again: python3", alone)
                    self.assertIn(command, alone)

    def test_missing_numbers(self):
        status, printed = self.drive(
            "--replay", FAKE, "--requests", "5", "--all-numbers")
        self.assertEqual(status, 2)
        self.assertIn("never occurred: ", printed)
        self.assertIn(", 38 in tree 2 of history\n", printed)

    def test_program_that_prints_nothing(self):
        status, printed = self.drive("--replay", "true", "--requests", "5")
        self.assertEqual(status, 1)
        self.assertIn("difference 1: request 0, code", printed)

    def test_program_that_is_not_there(self):
        status, printed = self.drive(
            "--replay", "/no/such/program", "--requests", "5")
        self.assertEqual(status, 1)
        self.assertIn("could not be run", printed)


if __name__ == "__main__":
    unittest.main()
