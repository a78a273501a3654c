"""Random requests for every code of `replay`, and random texts for `history`.

    request(seed, index)        one request, small as a rule
    large_request(seed, index)  one request with trees of 2,047 nodes
    text(seed, index)           one text, small as a rule
    large_text(seed, index)     one text with trees of 2,047 nodes

The same seed and index always give the same request or text, so one that
failed can be made again alone.  Called as a program it prints some of them:

    python3 generate.py --seed 1 --requests 5
    python3 generate.py --seed 1 --texts 5
"""

import argparse
import random
import sys

import generate_histories as histories
import generate_images as images
import generate_trees as trees
import panheron_reference as reference
from panheron_reference import MOST_16, MOST_32, MOST_TEXT_BYTES
from protocol import MOST_ENTRIES, MOST_IMAGE_BYTES, Request, request_text

CODE_WEIGHTS = {1: 5, 2: 8, 3: 14, 4: 16, 5: 10, 6: 12, 7: 20, 8: 12}
CODES_WITH_GENES = (2, 3, 4, 5, 6, 7, 8)


# Lent tables


def lent_length(rng, q, likely_short):
    """A length that is short, exact or longer."""
    if q and rng.random() < likely_short:
        return rng.choice((0, q - 1, rng.randrange(q)))
    return min(q + rng.choice((0, 0, 0, 1, 2, 7)), MOST_ENTRIES)


def lent_table(rng, q, highest=MOST_16, likely_short=0.06):
    """A lent table with what it holds before the call."""
    return [rng.randint(0, highest)
            for _ in range(lent_length(rng, q, likely_short))]


def offered_table(rng, entries, likely_short=0.05):
    """An offered table: its entries, sometimes cut short, sometimes with
    others behind them."""
    if rng.random() < likely_short:
        return entries[:rng.choice((0, len(entries) - 1))]
    behind = rng.choice((0, 0, 0, 1, 4))
    more = [rng.randint(0, MOST_16) for _ in range(behind)]
    return (entries + more)[:MOST_ENTRIES]


# Requests


def maybe_broken(rng, pair, likely):
    """The pair, or the pair with faults."""
    return trees.broken_pair(rng, *pair) if rng.random() < likely else pair


def gene_entries(pair):
    """How many entries the gene tables have, as a caller would count."""
    return len(pair[1].parents)


def judge_species_request(rng, large):
    species, _ = trees.sound_pair(rng, large)
    if rng.random() < 0.7:
        species = trees.broken_species(rng, species)
    return [*species]


def judge_pair_request(rng, large):
    species, gene = maybe_broken(rng, trees.sound_pair(rng, large), 0.7)
    return [*species, *gene]


def draw_weight(rng):
    return rng.choice((0, 1, 2, 65535, rng.randint(0, MOST_16)))


def least_history_request(rng, large):
    pair = maybe_broken(rng, trees.sound_pair(rng, large), 0.2)
    q = gene_entries(pair)
    return [*pair[0], *pair[1], lent_table(rng, q), lent_table(rng, q),
            draw_weight(rng), draw_weight(rng)]


def offered_values(rng, large):
    """The four tables and an offered history."""
    pair = trees.sound_pair(rng, large)
    history = histories.offered_history(rng, *images.judged(pair))
    species, gene = maybe_broken(rng, pair, 0.2)
    return [*species, *gene, offered_table(rng, history.places),
            offered_table(rng, history.labels)]


def nodes_by_kind(pair):
    """The gene nodes by label; of the duplications, those that have a
    speciation above them apart.  Only kinds of which there are some."""
    species, gene = images.judged(pair)
    labels = reference.least_history_of(species, gene).labels
    kinds = {}
    for node, label in enumerate(labels):
        above = reference.nearest_speciation_above(gene, labels, node)
        bounded = label == reference.DUPLICATION and above is not None
        kinds.setdefault((label, bounded), []).append(node)
    return [kinds[kind] for kind in sorted(kinds)]


def draw_known_node(rng, pair):
    """A gene node, often of a rarer kind."""
    kinds = nodes_by_kind(pair)
    return rng.choice(rng.choices(kinds, range(1, len(kinds) + 1))[0])


def draw_node(rng, pair):
    """A gene node, or a number that is too high."""
    q = gene_entries(pair)
    if rng.random() < 0.2:
        return rng.choice((q, q + 1, MOST_16, rng.randint(q, MOST_16)))
    return draw_known_node(rng, pair)


def dating_request(rng, large):
    pair = trees.sound_pair(rng, large)
    node = draw_node(rng, pair)
    species, gene = maybe_broken(rng, pair, 0.2)
    return [*species, *gene, node]


def image_buffer(rng, p, q):
    """A buffer that is too short, exact or longer than the image."""
    need = 512 * reference.block_count(p, q)
    if rng.random() < 0.25:
        length = rng.choice((0, need - 1, need - 512, rng.randrange(need)))
    else:
        length = need + rng.choice((0, 0, 1, 2, 511, 512))
    return [rng.randrange(256) for _ in range(min(length, MOST_IMAGE_BYTES))]


def legal_values(rng, large):
    """The four tables and a legal history."""
    pair = trees.sound_pair(rng, large)
    history = histories.legal_history(rng, *images.judged(pair))
    return [*pair[0], *pair[1], history.places, history.labels]


def writing_request(rng, large):
    values = rng.choice((offered_values, legal_values))(rng, large)
    return values + [image_buffer(rng, len(values[0]), len(values[2]))]


def loading_request(rng, large):
    case = images.draw_case(rng, large)
    q = images.gene_count_in(case.image)
    lent = [lent_table(rng, q, highest, 0.02)
            for highest in (MOST_16, MOST_32, MOST_16, MOST_16)]
    return [*case.rack, list(case.image), *lent]


def parents_as_bytes(parents):
    return reference.low_byte_first(parents)


def taxa_as_bytes(taxa):
    return reference.low_byte_first(reference.halves(taxa))


def wrong_bytes(rng, data):
    """Bytes of another length."""
    return rng.choice((data[:-1], data + b"\0", data[:-2], data + bytes(2),
                       data + bytes(3), b"", data + bytes(4)))


def host_tables(rng, rack):
    """The rack's tables as bytes, sometimes of lengths that don't agree."""
    parents, taxa = parents_as_bytes(rack.parents), taxa_as_bytes(rack.taxa)
    kind = rng.random()
    if kind < 0.04:
        return rng.choice(((parents[:5], taxa[:8]), (parents[:3], taxa[:4]),
                           (b"", b""), (parents[:2], taxa[:6])))
    if kind < 0.08:
        return wrong_bytes(rng, parents), taxa
    if kind < 0.12:
        return parents, wrong_bytes(rng, taxa)
    return parents, taxa


def host_request(rng, large):
    case = images.draw_case(rng, large)
    parents, taxa = host_tables(rng, case.rack)
    return [list(case.image), list(parents), list(taxa)]


MAKERS = {1: judge_species_request, 2: judge_pair_request,
          3: least_history_request, 4: offered_values, 5: dating_request,
          6: writing_request, 7: loading_request, 8: host_request}


def generator_for(kind, seed, index):
    """Random numbers of their own for each request and text."""
    return random.Random("%s %s %s" % (kind, seed, index))


def request(seed, index):
    """One request."""
    rng = generator_for("request", seed, index)
    codes, weights = zip(*sorted(CODE_WEIGHTS.items()))
    code = rng.choices(codes, weights)[0]
    return Request(code, MAKERS[code](rng, False))


def large_request(seed, index):
    """One request with trees of 2,047 nodes, the codes in turn."""
    rng = generator_for("large request", seed, index)
    code = CODES_WITH_GENES[index % len(CODES_WITH_GENES)]
    return Request(code, MAKERS[code](rng, True))


# Texts.  Each maker gives the pieces of a text, or its bytes.


def pieces_of(species, gene):
    """The numbers of a pair, in the order in which they are read."""
    numbers = [len(species.parents), len(gene.parents), *species.parents,
               *species.taxa, *gene.parents, *gene.taxa]
    return [b"%d" % number for number in numbers]


def canonical(pieces):
    """Without leading zeros and with single separators."""
    return b" ".join(pieces)


def blanks(rng, fewest):
    """A run of spaces and line feeds."""
    return bytes(rng.choices(b" \n", k=rng.choice((fewest, 1, 2, 5))))


def spread(rng, pieces):
    """The pieces with runs of blanks between them and at the ends."""
    middle = b"".join(piece + blanks(rng, 1) for piece in pieces[:-1])
    return blanks(rng, 0) + middle + pieces[-1] + blanks(rng, 0)


def change_piece(rng, pieces, piece):
    """The pieces with one of them, often one of the counts, put in place."""
    at = rng.choice((0, 1, rng.randrange(len(pieces)), len(pieces) - 1))
    return pieces[:at] + [piece(pieces[at])] + pieces[at + 1:]


def plain_text(rng, pieces):
    return canonical(pieces)


def spread_text(rng, pieces):
    return spread(rng, pieces)


def zeros_text(rng, pieces):
    """Leading zeros within ten digits."""
    return spread(rng, [piece.rjust(rng.randint(1, 10), b"0")
                        for piece in pieces])


def eleven_digits_text(rng, pieces):
    return canonical(change_piece(rng, pieces,
                                  lambda piece: piece.rjust(11, b"0")))


def too_wide_text(rng, pieces):
    """A number over its table's width, or just within."""
    number = rng.choice((65535, 65536, 99999, MOST_32, MOST_32 + 1,
                         9999999999, 10 ** 10))
    return canonical(change_piece(rng, pieces, lambda piece: b"%d" % number))


def foreign_byte_text(rng, pieces):
    """A byte somewhere that is neither a digit nor a blank."""
    text = spread(rng, pieces)
    at = rng.choice((0, rng.randint(0, min(4, len(text))), len(text),
                     rng.randint(0, len(text))))
    byte = rng.choice((b"\t", b"\r", b"\0", b"\f", b"\v", b"x", b"-", b"+",
                       b".", b",", b"/", b":", b"\x1f", b"!", b"\x80",
                       b"\xa0", b"\xff", b"_", b"e1"))
    return text[:at] + byte + text[at + rng.choice((0, 0, 1)):]


def crlf_text(rng, pieces):
    return b"\r\n".join(pieces) + rng.choice((b"", b"\r\n"))


def missing_text(rng, pieces):
    return canonical(pieces[:rng.choice((0, 1, 2, len(pieces) - 1,
                                         rng.randrange(len(pieces))))])


def surplus_text(rng, pieces):
    return spread(rng, pieces + rng.choice(([b"0"], [b"1", b"2"], [b"x"])))


def bad_count_text(rng, pieces):
    """A count of 0 or over 2,047, with the rest, without it or spoiled."""
    at = rng.choice((0, 1))
    count = rng.choice((b"0", b"0", b"2048", b"65535", b"4294967295",
                        b"0000000000"))
    pieces = pieces[:at] + [count] + pieces[at + 1:]
    if rng.random() < 0.2:
        pieces[1 - at] = rng.choice((b"0", b"2048", b"x", b"4294967296"))
    tail = rng.choice((pieces[2:], [], [b"x"], pieces[2:] + [b"\t"]))
    return spread(rng, pieces[:2] + tail)


def other_count_text(rng, pieces):
    """A count that is sound, but not that of the tables."""
    at = rng.choice((0, 1))
    count = max(1, int(pieces[at]) + rng.choice((-2, -1, 1, 2)))
    return canonical(pieces[:at] + [b"%d" % count] + pieces[at + 1:])


def padded_text(rng, pieces):
    """Blanks up to the limit exactly, or one or more over it."""
    text = canonical(pieces)
    size = MOST_TEXT_BYTES + rng.choice((-1, 0, 0, 1, 1, 100))
    pad = bytes(rng.choices(b" \n", k=size - len(text)))
    at = rng.choice((0, len(pad), rng.randint(0, len(pad))))
    return pad[:at] + text + pad[at:]


def nothing_text(rng, pieces):
    return blanks(rng, 0) * rng.choice((0, 1, 20))


def soup_text(rng, pieces):
    """A few pieces of any kind."""
    some = rng.choices((b"0", b"1", b"5", b"x", b"2047", b"2048", b"65535",
                        b"4294967295", b"4294967296", b"-1", b"1\t", b"\t",
                        b"\r", b"00000000001", b"0000000001"),
                       k=rng.randint(1, 5))
    return spread(rng, some)


def tiny_text(rng, pieces):
    """One node in either tree, sound or not."""
    taxon = rng.choice((b"7", b"4294967295", b"0", b"7"))
    other = rng.choice((taxon, b"8"))
    root = rng.choice((b"65535", b"65535", b"65534", b"0"))
    return spread(rng, [b"1", b"1", root, taxon, b"65535", other])


SOUND_TEXTS = ((plain_text, 15), (spread_text, 8), (zeros_text, 5))
ODD_TEXTS = ((eleven_digits_text, 1), (too_wide_text, 3),
             (foreign_byte_text, 4), (crlf_text, 1), (missing_text, 2),
             (surplus_text, 2), (bad_count_text, 4), (other_count_text, 2),
             (padded_text, 1), (nothing_text, 1), (soup_text, 2),
             (tiny_text, 2))


def text(seed, index):
    """One text."""
    rng = generator_for("text", seed, index)
    pair = maybe_broken(rng, trees.sound_pair(rng), 0.5)
    pieces = pieces_of(*pair)
    return images.weighted(rng, SOUND_TEXTS + ODD_TEXTS)(rng, pieces)


def large_text(seed, index):
    """One text with trees of 2,047 nodes."""
    rng = generator_for("large text", seed, index)
    pair = maybe_broken(rng, trees.sound_pair(rng, large=True), 0.2)
    return canonical(pieces_of(*pair)) + rng.choice((b"", b"\n", b" \n"))


# As a program


def main():
    parser = argparse.ArgumentParser(description=__doc__.split("\n\n")[0])
    parser.add_argument("--seed", default="1")
    parser.add_argument("--first", type=int, default=0, metavar="I")
    parser.add_argument("--requests", type=int, default=0, metavar="N")
    parser.add_argument("--texts", type=int, default=0, metavar="M")
    arguments = parser.parse_args()
    for index in range(arguments.first, arguments.first + arguments.requests):
        sys.stdout.write(request_text(request(arguments.seed, index)))
    for index in range(arguments.first, arguments.first + arguments.texts):
        print(text(arguments.seed, index))


if __name__ == "__main__":
    main()
