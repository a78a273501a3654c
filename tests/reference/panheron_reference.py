"""The reference model of Panheron, written from the scope paper (01) and
request W8 of the paper of changes (02) alone.

It holds every call of the base: judging species and gene tables, the least
history, judging an offered history, dating, writing and loading the stored
image of form 1, the host's numbers, and the text program `history`.

It is meant to be read next to the papers.  Nothing here is clever: M(g) is
found by sets of taxa (Python numbers used as bit sets), never by climbing, and
every refusal is looked for in the order in which the papers list it.  Nodes
may be numbered in any order: what is above a node is found by walking up.

A refused call raises `Refusal`.  Lent tables are Python lists (or byte arrays)
that a call changes in place, exactly as far as the paper allows.
"""

import re
from collections import namedtuple

MOST_NODES = 2047
NO_PARENT = 65535

NO_TREE, SPECIES, GENE = 0, 1, 2
LEAF, SPECIATION, DUPLICATION = 0, 1, 2

BLOCK_BYTES = 512
CHECKED_BYTES = 508
WORDS_IN_BLOCK = 253
MOST_BLOCKS = 65
FORM = 1
COUNTS_DIFFER = 65535
NO_ROOT = 65535

MOST_TEXT_BYTES = 49152
MOST_16 = 2 ** 16 - 1
MOST_32 = 2 ** 32 - 1

Counts = namedtuple("Counts", "duplications losses speciations")
History = namedtuple("History", "places labels")
LeastAnswer = namedtuple(
    "LeastAnswer", "duplications losses speciations climbs cost")
LoadAnswer = namedtuple("LoadAnswer", "p q duplications losses")
HostAnswer = namedtuple("HostAnswer", "refusal tree place duplications losses")
Stored = namedtuple(
    "Stored",
    "species_parents species_taxa gene_parents gene_taxa places labels")


class Refusal(Exception):
    """A refusal: its number, the tree (0 none, 1 species, 2 gene), a place."""

    def __init__(self, number, tree=NO_TREE, place=0):
        super().__init__(number, tree, place)
        self.number = number
        self.tree = tree
        self.place = place

    @property
    def triple(self):
        """The three values together, in the paper's order."""
        return (self.number, self.tree, self.place)


def refuse_lowest(number, tree, faulty):
    """Refuses at the first of the faulty nodes (given in rising order)."""
    for node in faulty:
        raise Refusal(number, tree, node)


# Trees


def children_of(parents):
    """For each node the list of its children, the lower number first."""
    children = [[] for _ in parents]
    for node, parent in enumerate(parents):
        if parent != NO_PARENT:
            children[parent].append(node)
    return children


def line_up(parents, node):
    """The node and all above it, from below."""
    line = [node]
    while parents[node] != NO_PARENT:
        node = parents[node]
        line.append(node)
    return line


class Tree:
    """A tree whose tables were found sound."""

    def __init__(self, parents, taxa):
        self.parents = list(parents)
        self.taxa = list(taxa)
        self.count = len(self.parents)
        self.root = self.parents.index(NO_PARENT)
        self.children = children_of(self.parents)
        self.lines = [line_up(self.parents, node)
                      for node in range(self.count)]

    def is_leaf(self, node):
        return not self.children[node]

    def leaves(self):
        return [node for node in range(self.count) if self.is_leaf(node)]

    def inner_nodes(self):
        return [node for node in range(self.count) if not self.is_leaf(node)]

    def taxa_below(self, bit_of_taxon):
        """For each node the set of the taxa of the leaves at or below it."""
        sets = [0] * self.count
        for leaf in self.leaves():
            for node in self.lines[leaf]:
                sets[node] |= bit_of_taxon[self.taxa[leaf]]
        return sets


class SpeciesTree(Tree):
    """A sound species tree, with the sets that places are found by."""

    def __init__(self, parents, taxa):
        super().__init__(parents, taxa)
        self.depths = [len(line) - 1 for line in self.lines]
        self.leaf_of_taxon = {self.taxa[leaf]: leaf for leaf in self.leaves()}
        self.bit_of_taxon = {self.taxa[leaf]: 1 << k
                             for k, leaf in enumerate(self.leaves())}
        self.held_taxa = self.taxa_below(self.bit_of_taxon)
        self.smallest_first = sorted(
            range(self.count),
            key=lambda node: bin(self.held_taxa[node]).count("1"))

    def lowest_holding(self, taxa):
        """The lowest node whose subtree holds every one of the taxa.

        The nodes that hold a given non-empty set lie on one line of descent,
        and of two nodes on a line the lower one holds fewer taxa.
        """
        for node in self.smallest_first:
            if taxa & self.held_taxa[node] == taxa:
                return node
        raise ValueError("a taxon that is not in the species tree")

    def at_or_below(self, lower, upper):
        """Whether `lower` is `upper` or stands somewhere below it."""
        return upper in self.lines[lower]


# Judging tables: refusals 1, 2, 38 and 3 to 6


def judge_size(tree, parents, taxa):
    """Refusal 1: empty, over 2,047, or of two lengths."""
    empty = len(parents) == 0 or len(taxa) == 0
    over = len(parents) > MOST_NODES or len(taxa) > MOST_NODES
    if empty or over or len(parents) != len(taxa):
        raise Refusal(1, tree, 0)


def wrong_parents(parents):
    """The nodes with a parent not under n, and the roots after the first."""
    roots = 0
    for node, parent in enumerate(parents):
        if parent == NO_PARENT:
            roots += 1
            if roots > 1:
                yield node
        elif parent >= len(parents):
            yield node


def judge_parents(tree, parents):
    """Refusal 2: a parent not under n or a second root, else no root."""
    refuse_lowest(2, tree, wrong_parents(parents))
    if NO_PARENT not in parents:
        raise Refusal(2, tree, NO_ROOT)


def reaches_root(parents, node):
    """Whether walking up from the node comes to the root.  A walk that visits
    no node twice has visited all after n nodes."""
    for _ in parents:
        if parents[node] == NO_PARENT:
            return True
        node = parents[node]
    return False


def judge_reach(tree, parents):
    """Refusal 38: a node that never reaches the root."""
    refuse_lowest(38, tree, (node for node in range(len(parents))
                             if not reaches_root(parents, node)))


def judge_children(tree, parents):
    """Refusal 3: a node with neither no children nor two."""
    refuse_lowest(3, tree, (node for node, children
                            in enumerate(children_of(parents))
                            if len(children) not in (0, 2)))


def judge_taxa(tree, parents, taxa):
    """Refusal 4: a leaf with taxon 0, or an inner node with another."""
    refuse_lowest(4, tree, (node for node, children
                            in enumerate(children_of(parents))
                            if (taxa[node] == 0) != bool(children)))


def judge_shape_and_taxa(tree, parents, taxa):
    """Refusals 2, 38, 3 and 4, each over the whole table before the next."""
    judge_parents(tree, parents)
    judge_reach(tree, parents)
    judge_children(tree, parents)
    judge_taxa(tree, parents, taxa)


def repeated_leaves(tree):
    """The leaves whose taxon stands at a leaf of a lower number too."""
    seen = set()
    for leaf in tree.leaves():
        if tree.taxa[leaf] in seen:
            yield leaf
        seen.add(tree.taxa[leaf])


def judge_species(parents, taxa):
    """Refusals 1, 2, 38, 3, 4 and 5 of a species tree; gives the tree if it is
    sound."""
    judge_size(SPECIES, parents, taxa)
    judge_shape_and_taxa(SPECIES, parents, taxa)
    refuse_lowest(5, SPECIES, repeated_leaves(Tree(parents, taxa)))
    return SpeciesTree(parents, taxa)


def judge_gene_entries(parents, taxa, species):
    """Refusals 2, 38, 3, 4 and 6 of a gene tree; gives the tree if it is
    sound."""
    judge_shape_and_taxa(GENE, parents, taxa)
    gene = Tree(parents, taxa)
    refuse_lowest(6, GENE, (leaf for leaf in gene.leaves()
                            if gene.taxa[leaf] not in species.leaf_of_taxon))
    return gene


def judge_gene(parents, taxa, species):
    """Refusals 1, 2, 38, 3, 4 and 6 of a gene tree."""
    judge_size(GENE, parents, taxa)
    return judge_gene_entries(parents, taxa, species)


def judge_pair(species_parents, species_taxa, gene_parents, gene_taxa):
    """Species 1, 2, 38, 3, 4, 5, then gene 1, 2, 38, 3, 4, 6; gives both
    trees."""
    species = judge_species(species_parents, species_taxa)
    return species, judge_gene(gene_parents, gene_taxa, species)


def judge_room(tables, q):
    """Refusal 7: a lent table with under q entries."""
    if any(len(table) < q for table in tables):
        raise Refusal(7, NO_TREE, 0)


# The least history and the counts


def least_places(species, gene):
    """A leaf at the species leaf of its taxon, an inner node g at M(g)."""
    sets = gene.taxa_below(species.bit_of_taxon)
    return [species.leaf_of_taxon[gene.taxa[node]] if gene.is_leaf(node)
            else species.lowest_holding(sets[node])
            for node in range(gene.count)]


def least_label(gene, places, node):
    """A duplication exactly if the node shares its place with a child."""
    if gene.is_leaf(node):
        return LEAF
    if any(places[child] == places[node] for child in gene.children[node]):
        return DUPLICATION
    return SPECIATION


def least_history_of(species, gene):
    """The least history of a sound pair."""
    places = least_places(species, gene)
    labels = [least_label(gene, places, node) for node in range(gene.count)]
    return History(places, labels)


def edge_losses(species, history, node, child):
    """The losses of one edge from an inner node down to its child."""
    steps = (species.depths[history.places[child]]
             - species.depths[history.places[node]])
    return steps - 1 if history.labels[node] == SPECIATION else steps


def losses_of(species, gene, history):
    """The sum of the losses over all edges; none above the gene root."""
    return sum(edge_losses(species, history, node, child)
               for node in gene.inner_nodes()
               for child in gene.children[node])


def climbs_of(species, gene, places):
    """The steps from both children's places up to the place, over all inner
    nodes."""
    return sum(species.depths[places[child]] - species.depths[places[node]]
               for node in gene.inner_nodes()
               for child in gene.children[node])


def counts_of(species, gene, history):
    """Duplications, losses and speciations of a history."""
    labels = history.labels[:gene.count]
    return Counts(labels.count(DUPLICATION),
                  losses_of(species, gene, history),
                  labels.count(SPECIATION))


def cost_of(counts, dw, lw):
    """Duplications and losses by their weights."""
    return dw * counts.duplications + lw * counts.losses


def least_history(species_parents, species_taxa, gene_parents, gene_taxa,
                  places, labels, dw, lw):
    """The call: fills the lent places and labels and gives the counts."""
    species, gene = judge_pair(
        species_parents, species_taxa, gene_parents, gene_taxa)
    judge_room((places, labels), gene.count)
    history = least_history_of(species, gene)
    counts = counts_of(species, gene, history)
    places[:gene.count] = history.places
    labels[:gene.count] = history.labels
    return LeastAnswer(*counts, climbs_of(species, gene, history.places),
                       cost_of(counts, dw, lw))


# Offered histories: refusals 8 to 11


def right_kind(gene, node, label):
    """Leaves have label 0, inner nodes 1 or 2."""
    if gene.is_leaf(node):
        return label == LEAF
    return label in (SPECIATION, DUPLICATION)


def children_on_both_sides(species, gene, places, node):
    """Whether one child is on one side of the node's place and the other on
    the other.  A species leaf has no sides."""
    sides = species.children[places[node]]
    if not sides:
        return False
    one, other = (places[child] for child in gene.children[node])
    return any(species.at_or_below(one, side)
               and species.at_or_below(other, far_side)
               for side, far_side in (sides, reversed(sides)))


def judge_history(species, gene, places, labels):
    """Refusals 8 to 11 over the first q entries of an offered history."""
    nodes = range(gene.count)
    refuse_lowest(8, GENE, (
        node for node in nodes
        if places[node] >= species.count
        or not right_kind(gene, node, labels[node])))
    refuse_lowest(9, GENE, (
        leaf for leaf in gene.leaves()
        if places[leaf] != species.leaf_of_taxon[gene.taxa[leaf]]))
    refuse_lowest(10, GENE, (
        child for child in nodes
        if child != gene.root
        and not species.at_or_below(places[child],
                                    places[gene.parents[child]])))
    refuse_lowest(11, GENE, (
        node for node in nodes
        if labels[node] == SPECIATION
        and not children_on_both_sides(species, gene, places, node)))


def offered_counts(species, gene, places, labels):
    """Judges an offered history and gives its counts if it is legal."""
    judge_history(species, gene, places, labels)
    history = History(list(places[:gene.count]), list(labels[:gene.count]))
    return counts_of(species, gene, history)


def judge_offered(species_parents, species_taxa, gene_parents, gene_taxa,
                  places, labels):
    """The call: refusals in order, or the counts of the offered history."""
    species, gene = judge_pair(
        species_parents, species_taxa, gene_parents, gene_taxa)
    judge_room((places, labels), gene.count)
    return offered_counts(species, gene, places, labels)


# Dating


def nearest_speciation_above(gene, labels, node):
    """The nearest proper ancestor that is a speciation, or None."""
    for above in gene.lines[node][1:]:
        if labels[above] == SPECIATION:
            return above
    return None


def dating(species_parents, species_taxa, gene_parents, gene_taxa, node):
    """The call: (0,) not a duplication; (1, lower); (2, lower, upper)."""
    species, gene = judge_pair(
        species_parents, species_taxa, gene_parents, gene_taxa)
    if node >= gene.count:
        raise Refusal(19, GENE, 0)
    history = least_history_of(species, gene)
    if history.labels[node] != DUPLICATION:
        return (0,)
    above = nearest_speciation_above(gene, history.labels, node)
    if above is None:
        return (1, history.places[node])
    return (2, history.places[node], history.places[above])


# The stored image, form 1


def word_count(p, q):
    """The words of an image: form, two counts, 3 a species, 5 a gene node."""
    return 3 + 3 * p + 5 * q


def block_count(p, q):
    """The fewest blocks that hold the words."""
    return -(-word_count(p, q) // WORDS_IN_BLOCK)


def halves(taxa):
    """Each taxon as two words, the low one first."""
    return [half for taxon in taxa for half in (taxon & 0xFFFF, taxon >> 16)]


def joined(words):
    """The taxa that pairs of words stand for, the low one first."""
    return [low | high << 16 for low, high in zip(words[::2], words[1::2])]


def image_words(stored):
    """The words of an image in order, without filling."""
    return ([FORM, len(stored.species_parents), len(stored.gene_parents)]
            + list(stored.species_parents) + halves(stored.species_taxa)
            + list(stored.gene_parents) + halves(stored.gene_taxa)
            + list(stored.places) + list(stored.labels))


def check_sums(block):
    """The sums A and B over the first 508 bytes of a block."""
    a = b = 0
    for byte in block[:CHECKED_BYTES]:
        a = (a + byte) % 65536
        b = (b + a) % 65536
    return a, b


def low_byte_first(words):
    """Words of 16 bits as bytes."""
    return b"".join(word.to_bytes(2, "little") for word in words)


def words_from(data):
    """The words of 16 bits that the bytes stand for."""
    return [data[i] | data[i + 1] << 8 for i in range(0, len(data), 2)]


def sealed_block(number, words):
    """A block of this number and content, filled with zeros and checked."""
    content = list(words) + [0] * (WORDS_IN_BLOCK - len(words))
    body = low_byte_first([number] + content)
    return body + low_byte_first(check_sums(body))


def image_of_words(words):
    """The words in the fewest blocks that hold them."""
    return b"".join(
        sealed_block(number, words[start:start + WORDS_IN_BLOCK])
        for number, start in enumerate(range(0, len(words), WORDS_IN_BLOCK)))


def write_image(species_parents, species_taxa, gene_parents, gene_taxa,
                places, labels, buffer):
    """The call: writes an offered history's image, gives the bytes written."""
    species, gene = judge_pair(
        species_parents, species_taxa, gene_parents, gene_taxa)
    judge_room((places, labels), gene.count)
    judge_history(species, gene, places, labels)
    stored = Stored(species_parents, species_taxa, gene_parents, gene_taxa,
                    places[:gene.count], labels[:gene.count])
    image = image_of_words(image_words(stored))
    if len(buffer) < len(image):
        raise Refusal(12, NO_TREE, 0)
    buffer[:len(image)] = image
    return len(image)


def blocks_of(image):
    """The image cut into its blocks."""
    return [image[start:start + BLOCK_BYTES]
            for start in range(0, len(image), BLOCK_BYTES)]


def judge_length(image):
    """Refusal 13: length 0, no multiple of 512, or over 65 blocks."""
    if (len(image) == 0 or len(image) % BLOCK_BYTES != 0
            or len(image) > MOST_BLOCKS * BLOCK_BYTES):
        raise Refusal(13, NO_TREE, 0)


def judge_checks(blocks):
    """Refusal 14: a block whose check differs."""
    refuse_lowest(14, NO_TREE, (
        number for number, block in enumerate(blocks)
        if tuple(words_from(block[CHECKED_BYTES:])) != check_sums(block)))


def judge_block_numbers(blocks):
    """Refusal 15: a block whose number differs."""
    refuse_lowest(15, NO_TREE, (
        number for number, block in enumerate(blocks)
        if words_from(block[:2]) != [number]))


def content_words(blocks):
    """The content of all blocks in order."""
    return [word for block in blocks
            for word in words_from(block[2:CHECKED_BYTES])]


def judge_counts_and_filling(words, blocks):
    """Refusal 17: a count out of range, too many or too few blocks, or
    filling that is not zero."""
    p, q = words[1], words[2]
    if not (1 <= p <= MOST_NODES and 1 <= q <= MOST_NODES):
        raise Refusal(17, NO_TREE, 0)
    if len(blocks) != block_count(p, q):
        raise Refusal(17, NO_TREE, 0)
    if any(words[word_count(p, q):]):
        raise Refusal(17, NO_TREE, 0)


def stored_in(words):
    """The six tables that the words of an image hold."""
    p, q = words[1], words[2]
    rest = iter(words[3:])

    def take(count):
        return [next(rest) for _ in range(count)]

    return Stored(take(p), joined(take(2 * p)), take(q), joined(take(2 * q)),
                  take(q), take(q))


def judge_release(stored, rack):
    """Refusal 18: the species tables aren't the rack's."""
    if len(stored.species_parents) != rack.count:
        raise Refusal(18, SPECIES, COUNTS_DIFFER)
    refuse_lowest(18, SPECIES, (
        node for node in range(rack.count)
        if stored.species_parents[node] != rack.parents[node]
        or stored.species_taxa[node] != rack.taxa[node]))


def open_image(image, rack):
    """Refusals 13 to 18 of an image on a sound rack; gives what it holds."""
    judge_length(image)
    blocks = blocks_of(bytes(image))
    judge_checks(blocks)
    judge_block_numbers(blocks)
    words = content_words(blocks)
    if words[0] != FORM:
        raise Refusal(16, NO_TREE, 0)
    judge_counts_and_filling(words, blocks)
    stored = stored_in(words)
    judge_release(stored, rack)
    return stored


def stored_counts(stored, rack):
    """Gene 2, 38, 3, 4, 6 and 8 to 11 of what an image holds; gives the
    counts."""
    gene = judge_gene_entries(stored.gene_parents, stored.gene_taxa, rack)
    return offered_counts(rack, gene, stored.places, stored.labels)


def load_image(rack_parents, rack_taxa, image,
               gene_parents, gene_taxa, places, labels):
    """The call: loads an image into four lent tables.

    A refusal leaves them as they were, except one by the gene tree's 2, 38, 3,
    4, 6 or 8 to 11, which leaves the first q entries of each zero.
    """
    rack = judge_species(rack_parents, rack_taxa)
    stored = open_image(image, rack)
    q = len(stored.gene_parents)
    lent = (gene_parents, gene_taxa, places, labels)
    judge_room(lent, q)
    try:
        counts = stored_counts(stored, rack)
    except Refusal:
        for table in lent:
            table[:q] = [0] * q
        raise
    for table, entries in zip(lent, stored[2:]):
        table[:q] = entries
    return LoadAnswer(rack.count, q, counts.duplications, counts.losses)


# The host


def tables_from_bytes(parents_bytes, taxa_bytes):
    """The two tables that the bytes make, or refusal 1."""
    if len(parents_bytes) % 2 or len(taxa_bytes) % 4:
        raise Refusal(1, SPECIES, 0)
    parents = words_from(bytes(parents_bytes))
    taxa = joined(words_from(bytes(taxa_bytes)))
    if len(parents) != len(taxa):
        raise Refusal(1, SPECIES, 0)
    return parents, taxa


def host_answer(image, parents_bytes, taxa_bytes):
    """What the C calls answer: the refusal (0 if none) with its tree and
    place, and the duplications and losses of the stored history (0 if
    refused)."""
    try:
        parents, taxa = tables_from_bytes(parents_bytes, taxa_bytes)
        rack = judge_species(parents, taxa)
        counts = stored_counts(open_image(image, rack), rack)
    except Refusal as refusal:
        return HostAnswer(*refusal.triple, 0, 0)
    return HostAnswer(0, 0, 0, counts.duplications, counts.losses)


# The program `history`


def text_pieces(text):
    """What stands between the runs of spaces and line feeds."""
    return [piece for piece in re.split(rb"[ \n]+", text) if piece]


def number_in(piece, most):
    """The number that a piece of text is: 1 to 10 digits, at most `most`."""
    if not re.fullmatch(rb"[0-9]{1,10}", piece) or int(piece) > most:
        raise Refusal(20, NO_TREE, 0)
    return int(piece)


def read_counts(pieces):
    """Both counts, then p, then q of 0 or over 2,047."""
    if len(pieces) < 2:
        raise Refusal(20, NO_TREE, 0)
    p, q = (number_in(piece, MOST_32) for piece in pieces[:2])
    for tree, count in ((SPECIES, p), (GENE, q)):
        if not 1 <= count <= MOST_NODES:
            raise Refusal(1, tree, 0)
    return p, q


def read_tables(text):
    """The four tables of a text, or refusal 20, or 1 for a count."""
    if len(text) > MOST_TEXT_BYTES:
        raise Refusal(20, NO_TREE, 0)
    pieces = text_pieces(text)
    p, q = read_counts(pieces)
    widths = [MOST_16] * p + [MOST_32] * p + [MOST_16] * q + [MOST_32] * q
    rest = pieces[2:]
    if len(rest) != len(widths):
        raise Refusal(20, NO_TREE, 0)
    numbers = [number_in(piece, most) for piece, most in zip(rest, widths)]
    return (numbers[:p], numbers[p:2 * p],
            numbers[2 * p:2 * p + q], numbers[2 * p + q:])


def history_lines(species, gene):
    """The lines that are printed for a sound pair."""
    history = least_history_of(species, gene)
    for node in range(gene.count):
        yield "%d %d %s" % (node, history.places[node],
                            "LSD"[history.labels[node]])
    counts = counts_of(species, gene, history)
    yield "%d %d %d %d %d" % (*counts,
                              climbs_of(species, gene, history.places),
                              cost_of(counts, 1, 1))


def history_program(text):
    """What the program prints for the bytes of its standard input."""
    try:
        species, gene = judge_pair(*read_tables(text))
    except Refusal as refusal:
        return b"refused %d %d %d\n" % refusal.triple
    return "".join(line + "\n"
                   for line in history_lines(species, gene)).encode("ascii")
