"""Random stored images and the racks they are loaded on.

A `Case` is a rack's species tables and an image.  Good images are sealed by
the reference.  Bad ones are damaged in their bytes (13, 14, 15), or in their
words and then sealed again, so that what stands behind the check is reached
(16, 17, 18, the gene tree's numbers and 8 to 11).
"""

from collections import namedtuple

import generate_histories as histories
import generate_trees as trees
import panheron_reference as reference
from panheron_reference import BLOCK_BYTES, MOST_BLOCKS, Stored
from protocol import MOST_IMAGE_BYTES

Case = namedtuple("Case", "rack image")


# What is stored


def stored_with(species, gene, history):
    return Stored(list(species.parents), list(species.taxa),
                  list(gene.parents), list(gene.taxa),
                  list(history.places), list(history.labels))


def image_of(stored):
    return reference.image_of_words(reference.image_words(stored))


def draw_pair(rng, large):
    """A sound pair; every third time one that needs several blocks."""
    if large or rng.random() < 0.7:
        return trees.sound_pair(rng, large)
    species = trees.species_tree(rng, rng.randint(8, 40))
    return species, trees.scattered_gene(rng, species, rng.randint(20, 60))


def judged(pair):
    species, gene = pair
    return reference.judge_pair(*species, *gene)


def legal_record(rng, large=False):
    """The tables of an image with a legal history."""
    pair = judged(draw_pair(rng, large))
    return stored_with(*pair, histories.legal_history(rng, *pair))


def rack_of(stored):
    return trees.Tables(list(stored.species_parents),
                        list(stored.species_taxa))


def good(rng, large=False):
    stored = legal_record(rng, large)
    return Case(rack_of(stored), image_of(stored))


# Damage to the bytes


def one_byte(rng, case):
    image = bytearray(case.image)
    at = rng.choice((rng.randrange(len(image)),
                     len(image) - rng.randint(1, 6),
                     rng.randrange(4)))
    image[at] ^= rng.choice((1, 128, 255, rng.randint(1, 255)))
    return case._replace(image=bytes(image))


def some_bytes(rng, case):
    for _ in range(rng.randint(2, 5)):
        case = one_byte(rng, case)
    return case


def truncated(rng, case):
    cut = rng.choice((1, 2, 256, 511, BLOCK_BYTES, rng.randint(1, 600),
                      len(case.image)))
    return case._replace(image=case.image[:max(0, len(case.image) - cut)])


def over_long(rng, case):
    tail = rng.choice((1, 2, 511, BLOCK_BYTES, 2 * BLOCK_BYTES))
    return case._replace(image=case.image + bytes(tail))


def sealed_tail(rng, case):
    """One block more, empty and sealed with the right number."""
    number = len(case.image) // BLOCK_BYTES
    return case._replace(image=case.image + reference.sealed_block(number, []))


def over_many_blocks(rng, case):
    """66 blocks or more, each as right as it can be."""
    size = rng.randint(MOST_BLOCKS + 1, MOST_IMAGE_BYTES // BLOCK_BYTES)
    number = len(case.image) // BLOCK_BYTES
    tail = [reference.sealed_block(k, []) for k in range(number, size)]
    return case._replace(image=case.image + b"".join(tail))


def wrong_length(rng, case):
    rare = rng.random() < 0.06
    fault = over_many_blocks if rare else rng.choice((truncated, over_long))
    return fault(rng, case)


def exchanged_blocks(rng, case):
    blocks = reference.blocks_of(case.image)
    rng.shuffle(blocks)
    return case._replace(image=b"".join(blocks))


def renumbered_block(rng, case):
    """A block with another number under a right check."""
    blocks = reference.blocks_of(case.image)
    at = rng.randrange(len(blocks))
    words = reference.words_from(blocks[at][2:508])
    number = rng.choice((at + 1, at ^ 256, 65535, rng.randint(0, 65535)))
    blocks[at] = reference.sealed_block(number, words)
    return case._replace(image=b"".join(blocks))


def number_and_check(rng, case):
    """A wrong number in one place and a wrong check in another."""
    return one_byte(rng, rng.choice((exchanged_blocks, renumbered_block))(
        rng, case))


def zero_image(rng, case):
    return case._replace(image=bytes(BLOCK_BYTES * rng.randint(1, 3)))


def noise_image(rng, case):
    return case._replace(
        image=bytes(rng.randrange(256) for _ in range(rng.choice((511, 512)))))


# Damage to the words, sealed again


def all_words(case):
    """The content of the image with its filling."""
    return reference.content_words(reference.blocks_of(case.image))


def resealed(case, words):
    return case._replace(image=reference.image_of_words(words))


def other_form(rng, case):
    words = all_words(case)
    words[0] = rng.choice((0, 2, 257, 65535))
    return resealed(case, words)


def other_count(rng, case):
    """Another p or q than what is stored."""
    words = all_words(case)
    at = rng.choice((1, 2))
    words[at] = rng.choice(
        (0, 2047, 2048, 65535, words[at] + 1, words[at] + 2,
         max(0, words[at] - 1), max(0, words[at] - 2), rng.randint(0, 65535)))
    words[at] %= 65536
    return resealed(case, words)


def other_filling(rng, case):
    words = all_words(case)
    used = reference.word_count(words[1], words[2])
    if used < len(words):
        last = len(words) - 1
        at = rng.choice((used, last, rng.randint(used, last)))
        words[at] = rng.choice((1, 256, rng.randint(1, 65535)))
    return resealed(case, words)


def other_word(rng, case):
    """Any one word changed, sealed again."""
    words = all_words(case)
    words[rng.randrange(len(words))] = rng.choice((0, 1, 2, 65535))
    return resealed(case, words)


def noise_words(rng, case):
    words = [rng.choice((0, 1, rng.randint(0, 65535))) for _ in range(253)]
    return resealed(case, [1] + words[1:])


# Another release on the rack


def exchanged_taxa(rng, case):
    """The same shape with two taxa exchanged, if there are two."""
    rack = trees.copied(case.rack)
    leaves = [node for node, taxon in enumerate(rack.taxa) if taxon]
    if len(leaves) > 1:
        one, other = rng.sample(leaves, 2)
        rack.taxa[one], rack.taxa[other] = rack.taxa[other], rack.taxa[one]
    return case._replace(rack=rack)


def renamed_taxon(rng, case):
    """The same shape with a new taxon."""
    rack = trees.copied(case.rack)
    trees.unknown_taxon(rng, rack)
    return case._replace(rack=rack)


def species_count_in(words):
    """The p that stands in the words, as far as they have room for it."""
    return max(1, min(words[1], (len(words) - 3) // 3))


def other_parent(rng, case):
    """One species parent changed in the image."""
    words = all_words(case)
    p = species_count_in(words)
    words[3 + rng.randrange(p)] = rng.choice(
        (0, 65535, rng.randrange(p), rng.randint(0, 65535)))
    return resealed(case, words)


def other_species_taxon(rng, case):
    """One half of a species taxon changed in the image."""
    words = all_words(case)
    p = species_count_in(words)
    at = 3 + p + rng.randrange(2 * p)
    words[at] ^= rng.choice((1, 256, rng.randint(1, 65535)))
    return resealed(case, words)


def parent_and_taxon(rng, case):
    """A parent and a taxon changed, at two nodes as a rule."""
    return other_parent(rng, other_species_taxon(rng, case))


def other_rack(rng, case):
    """A rack of another tree, as a rule of another count."""
    return case._replace(
        rack=trees.species_tree(rng, trees.draw_leaves(rng)))


def unsound_rack(rng, case):
    return case._replace(rack=trees.broken_species(rng, case.rack))


# A gene tree or a history that breaks the rules, under a right seal


def unsound_gene(rng, large=False):
    """An image whose gene tree breaks 2, 38, 3, 4 or 6, or several."""
    species, gene = judged(draw_pair(rng, large))
    tables = trees.Tables(gene.parents, gene.taxa)
    faults = {number: fault for number, fault in trees.GENE_FAULTS.items()
              if number != 1}
    trees.break_tree(rng, tables, faults, trees.draw_fault_count(rng))
    places = [rng.randrange(species.count) for _ in tables.parents]
    labels = [rng.randrange(3) for _ in tables.parents]
    stored = Stored(species.parents, species.taxa, *tables, places, labels)
    return Case(rack_of(stored), image_of(stored))


def unlawful_history(rng, large=False):
    """An image whose history breaks 8 to 11."""
    pair = judged(draw_pair(rng, large))
    stored = stored_with(*pair, histories.illegal_history(rng, *pair))
    return Case(rack_of(stored), image_of(stored))


# All kinds together: how often each is drawn, and what is done to a good case

STARTS = ((good, 8), (unsound_gene, 2), (unlawful_history, 3))
DAMAGES = ((one_byte, 3), (some_bytes, 1), (wrong_length, 3), (sealed_tail, 1),
           (exchanged_blocks, 2), (renumbered_block, 2), (number_and_check, 1),
           (zero_image, 1), (noise_image, 1), (other_form, 2),
           (other_count, 3), (other_filling, 2), (other_word, 2),
           (noise_words, 1), (exchanged_taxa, 2), (renamed_taxon, 1),
           (other_parent, 2), (other_species_taxon, 1), (parent_and_taxon, 1),
           (other_rack, 2), (unsound_rack, 4))


def weighted(rng, choices):
    makers, weights = zip(*choices)
    return rng.choices(makers, weights)[0]


def in_blocks(image):
    """Whether the image is made of 1 to 65 whole blocks."""
    return (len(image) % BLOCK_BYTES == 0
            and 1 <= len(image) // BLOCK_BYTES <= MOST_BLOCKS)


def damaged(rng, case):
    """The case with one damage, now and then with two."""
    case = weighted(rng, DAMAGES)(rng, case)
    if rng.random() < 0.15 and in_blocks(case.image):
        case = weighted(rng, DAMAGES)(rng, case)
    return case


def draw_case(rng, large=False):
    """A rack and an image, good or bad."""
    start = weighted(rng, STARTS)
    case = start(rng, large)
    undamaged = 0.35 if start is good else 0.85
    return case if rng.random() < undamaged else damaged(rng, case)


def gene_count_in(image):
    """The q that stands in the image, as far as there is one."""
    if len(image) < 8:
        return 1
    return min(reference.words_from(image[6:8])[0], reference.MOST_NODES)
