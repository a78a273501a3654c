"""Makes a folder for the test of rackcheck, with what rackcheck should print.

    python3 rack_folder.py FOLDER

In FOLDER: the release's `parents` and `taxa`, some unusable tables beside
them, the images `good-*`, and the images of `images.txt`: accepted, of other
releases, damaged, against the rules, and such that can't be read.  The report
expected for them is `report.txt`, that for the good ones alone `good.txt`, and
that for `good-00` given so many times `times-N.txt`.  `parents-turned` and
`taxa-turned` are the same release numbered the other way round, `turned-*`
images of its own, and `turned.txt` the report on those.

Numbers come from the Python reference; the words are typed in here.
"""

import os
import random
import sys

HERE = os.path.dirname(os.path.abspath(__file__))
sys.path.insert(0, os.path.join(HERE, "..", "reference"))

import generate_histories as histories  # noqa: E402
import generate_images as images  # noqa: E402
import generate_trees as trees  # noqa: E402
import panheron_reference as reference  # noqa: E402

GOOD = 12
TURNED = 4
NO_ROOT = 65535
TIMES = (2, 3, 70)
MOST_BYTES = 1 << 20

SPECIES_WORDS = "species tables are another release's: "
WORDS = {
    2: "the parent of gene node %d is no node of the tree, or a second root's "
       "65535",
    3: "gene node %d has neither two children nor none",
    4: "gene node %d is a leaf without a taxon, or an inner node with one",
    6: "gene node %d has a taxon that is not in this release",
    8: "gene node %d has a place that is no species node, or a label of the "
       "wrong kind",
    9: "gene node %d is a leaf, and not placed at the species of its taxon",
    10: "gene node %d is not placed at or below its parent's place",
    11: "gene node %d is called a speciation, but its children are not on two "
        "sides",
    14: "block %d is damaged: its check differs",
    15: "block %d has another number: blocks are missing, repeated or out of "
        "order",
    16: "not an image of form 1: from a newer program, or no image",
    17: "its counts don't fit its length, or its filling is not zero",
    18: SPECIES_WORDS + "first difference at species node %d",
    38: "going up from gene node %d never leads to the root",
}
TOPICS = {2: "gene tree unsound", 3: "gene tree unsound",
          4: "gene tree unsound", 6: "gene tree unsound",
          8: "history not legal", 9: "history not legal",
          10: "history not legal", 11: "history not legal",
          13: "wrong length", 14: "damaged", 15: "blocks in disorder",
          16: "another form", 17: "counts or filling wrong",
          18: "another release", 38: "gene tree unsound"}


# The images


def release_of(rng):
    """A release whose root is not its first node and whose last node is a
    leaf."""
    while True:
        release = trees.species_tree(rng, 16)
        if release.parents[0] != reference.NO_PARENT and release.taxa[-1]:
            return release


def turned(release):
    """The same release, numbered the other way round."""
    count = len(release.parents)
    return trees.renumbered(release, range(count - 1, -1, -1))


def family(rng, release, leaves=30):
    """The tables of an image with a legal history: two blocks or more."""
    pair = images.judged((release, trees.scattered_gene(rng, release, leaves)))
    return images.stored_with(*pair, histories.legal_history(rng, *pair))


def other_releases(rng, release):
    """Images that an older release accepts."""
    case = images.Case(release, b"")
    yield "taxa", images.exchanged_taxa(rng, case).rack
    yield "renamed", images.renamed_taxon(rng, case).rack
    yield "count", trees.species_tree(rng, 15)
    yield "shape", trees.species_tree(rng, 16)
    yield "numbers", turned(release)


def damaged(rng, image):
    """Damage to the bytes of an image, or another file in its place."""
    blocks = reference.blocks_of(image)
    flipped = bytearray(image)
    flipped[600] ^= 64
    yield "byte", bytes(flipped)
    yield "check", image[:-1] + bytes([image[-1] ^ 255])
    yield "short", image[:-1]
    yield "long", image + b"\n"
    yield "empty", b""
    yield "many", b"".join(reference.sealed_block(k, []) for k in range(66))
    yield "huge", bytes(MOST_BYTES + 70000)
    yield "block-lost", blocks[0]
    yield "block-first-lost", b"".join(blocks[1:])
    yield "zeros", bytes(512)
    yield "form", images.resealed(
        images.Case(None, image),
        [2] + images.all_words(images.Case(None, image))[1:]).image
    yield "tail", image + reference.sealed_block(len(blocks), [])


def until(wanted, make):
    """Draws images until one is refused by the wanted number."""
    while True:
        case = make()
        answer = reference.host_answer(case.image, *tables_as_bytes(case.rack))
        if answer.refusal == wanted:
            return case.image


def against_rules(rng, release):
    """Images for each of the gene tree's numbers, on this release."""
    faults = ((2, "parent", trees.wrong_parent),
              (2, "second-root", trees.second_root),
              (2, "no-root", trees.no_root), (38, "circle", trees.circle),
              (38, "own-parent", trees.own_parent),
              (3, "shape", trees.wrong_shape),
              (4, "kind", trees.wrong_kind_of_taxon),
              (6, "unknown", trees.unknown_taxon))

    def unsound(fault):
        stored = family(rng, release, 10)
        tables = trees.Tables(stored.gene_parents, stored.gene_taxa)
        fault(rng, tables)
        count = len(tables.parents)
        return images.Case(release, images.image_of(stored._replace(
            places=(stored.places + [0, 0])[:count],
            labels=(stored.labels + [0, 0])[:count])))

    def unlawful(number):
        pair = images.judged(
            (release, trees.scattered_gene(rng, release, 10)))
        history = histories.legal_history(rng, *pair)
        rng.choice(histories.FAULTS[number])(rng, *pair, history)
        return images.Case(release, images.image_of(
            images.stored_with(*pair, history)))

    for number, name, fault in faults:
        yield "%d-%s" % (number, name), until(number, lambda: unsound(fault))
    for number in (8, 9, 10, 11):
        yield str(number), until(number, lambda: unlawful(number))


def all_images(rng, release):
    """The names and bytes of all images but the good ones."""
    for name, old in other_releases(rng, release):
        yield "stale-" + name, images.image_of(family(rng, old))
    for name, image in damaged(rng, images.image_of(family(rng, release))):
        yield "damaged-" + name, image
    for name, image in against_rules(rng, release):
        yield "rule-" + name, image


# The report


def length_words(image):
    if not image:
        return "the file is empty"
    if len(image) > MOST_BYTES:
        return "over 1048576 bytes are far too long"
    if len(image) % 512:
        return ("%d bytes are not whole blocks of 512: cut short, or something "
                "was added" % len(image))
    return "%d blocks are more than any image has" % (len(image) // 512)


def why(answer, image):
    if answer.refusal == 13:
        return length_words(image)
    if answer.refusal == 18 and answer.place == 65535:
        return SPECIES_WORDS + "another number of species nodes"
    if answer.refusal == 2 and answer.place == NO_ROOT:
        return "the gene tree has no root: no parent is 65535"
    words = WORDS[answer.refusal]
    return words % answer.place if "%" in words else words


class Report:
    """The lines that rackcheck should print."""

    def __init__(self, release):
        self.tables = tables_as_bytes(release)
        self.lines = []
        self.accepted = self.duplications = self.losses = self.unreadable = 0
        self.numbers = {}

    def add(self, name, image):
        answer = reference.host_answer(image, *self.tables)
        if answer.refusal == 0:
            self.accepted += 1
            self.duplications += answer.duplications
            self.losses += answer.losses
            return
        self.numbers[answer.refusal] = self.numbers.get(answer.refusal, 0) + 1
        self.lines.append("%s: refused %d %d %d: %s" % (
            name, *answer[:3], why(answer, image)))

    def add_unreadable(self, name, words):
        self.unreadable += 1
        self.lines.append("%s: can't be read: %s" % (name, words))

    def text(self):
        totals = ["accepted: %d, with %d duplications and %d losses" % (
                      self.accepted, self.duplications, self.losses),
                  "refused: %d" % sum(self.numbers.values())]
        totals += ["  by %d: %d (%s)" % (number, self.numbers[number],
                                         TOPICS[number])
                   for number in sorted(self.numbers)]
        totals.append("unreadable: %d" % self.unreadable)
        return "".join(line + "\n" for line in self.lines + totals)


# The folder


def tables_as_bytes(tables):
    return (reference.low_byte_first(tables.parents),
            reference.low_byte_first(reference.halves(tables.taxa)))


def save(folder, name, data):
    with open(os.path.join(folder, name), "wb") as file:
        file.write(data)


def save_tables(folder, release):
    """The release, and tables that no image can be judged by."""
    parents, taxa = tables_as_bytes(release)
    save(folder, "parents", parents)
    save(folder, "taxa", taxa)
    for name, table in zip(("parents-turned", "taxa-turned"),
                           tables_as_bytes(turned(release))):
        save(folder, name, table)
    save(folder, "parents-short", parents[:-2])
    save(folder, "parents-odd", parents + b"\0")
    save(folder, "parents-empty", b"")
    save(folder, "parents-outside", parents[:6] + parents_bytes(31)
         + parents[8:])
    save(folder, "parents-two-roots", parents[:-2] + parents_bytes(65535))
    save(folder, "parents-rootless", parents.replace(
        parents_bytes(65535), parents_bytes(0)))
    save(folder, "parents-round", parents_bytes(0) + parents[2:])
    save(folder, "taxa-repeated", taxa[:-4] + taxa_of_a_leaf(release))


def parents_bytes(*entries):
    return reference.low_byte_first(entries)


def taxa_of_a_leaf(release):
    """The taxon of the first leaf, for the last node, a leaf as well."""
    taxon = next(taxon for taxon in release.taxa if taxon)
    return reference.low_byte_first(reference.halves([taxon]))


def save_report(folder, name, report):
    save(folder, name, report.text().encode("ascii"))


def report_on(release, named_images):
    report = Report(release)
    for name, image in named_images:
        report.add(name, image)
    return report


def main():
    folder = sys.argv[1]
    rng = random.Random("rack folder")
    release = release_of(rng)
    save_tables(folder, release)
    good = [("good-%02d" % k, images.image_of(family(rng, release)))
            for k in range(GOOD)]
    everything = sorted(good + list(all_images(rng, release)))
    own = [("turned-%02d" % k, images.image_of(family(rng, turned(release))))
           for k in range(TURNED)]
    for name, image in everything + own:
        save(folder, name, image)
    os.mkdir(os.path.join(folder, "a-folder"))
    report = report_on(release, everything)
    report.add_unreadable("a-folder", "Is a directory")
    report.add_unreadable("missing", "No such file or directory")
    names = [name for name, _ in everything] + ["a-folder", "missing"]
    save(folder, "images.txt", "\n".join(names).encode("ascii"))
    save_report(folder, "report.txt", report)
    save_report(folder, "good.txt", report_on(release, good))
    save_report(folder, "turned.txt", report_on(turned(release), own))
    for times in TIMES:
        save_report(folder, "times-%d.txt" % times,
                    report_on(release, good[:1] * times))


if __name__ == "__main__":
    main()
