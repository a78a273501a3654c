"""Random trees: sound species and gene tables, and every way to break them.

A tree is a pair of lists, `Tables(parents, taxa)`.  Sound trees are drawn in
three steps: a shape, a numbering (parents first, children first or any), and
taxa.  The faults of refusals 1 to 6 and 38 change such tables in place.
"""

from collections import namedtuple

from panheron_reference import (
    MOST_16, MOST_32, MOST_NODES, NO_PARENT, children_of)
from protocol import MOST_ENTRIES

Tables = namedtuple("Tables", "parents taxa")

SHAPES = ("balanced", "uneven", "grown", "caterpillar")
ORDERS = ("any", "any", "deep", "wide")
TURNS = ("kept", "kept", "reversed", "shuffled", "shuffled")
MOST_LEAVES = (MOST_NODES + 1) // 2


def copied(tables):
    return Tables(list(tables.parents), list(tables.taxa))


# Shapes: for each node the pair of its children, or nothing


def split_sizes(rng, leaves, kind):
    """How many of the leaves go to either child."""
    if kind == "balanced":
        first = leaves // 2
    elif kind == "caterpillar":
        first = 1
    else:
        first = rng.randint(1, leaves - 1)
    return first, leaves - first


def split_shape(rng, leaves, kind):
    """A shape made from the root down, by splitting the number of leaves."""
    children = [()]
    waiting = [(0, leaves)]
    while waiting:
        node, size = waiting.pop()
        if size > 1:
            pair = (len(children), len(children) + 1)
            children[node] = pair
            children += [(), ()]
            waiting += zip(pair, split_sizes(rng, size, kind))
    return children


def grown_shape(rng, leaves):
    """A shape made by splitting a random leaf again and again."""
    children = [()]
    tips = [0]
    while len(tips) < leaves:
        at = rng.randrange(len(tips))
        pair = (len(children), len(children) + 1)
        children[tips[at]] = pair
        children += [(), ()]
        tips[at:at + 1] = pair
    return children


def random_shape(rng, leaves):
    kind = rng.choice(SHAPES)
    if kind == "grown":
        return grown_shape(rng, leaves)
    return split_shape(rng, leaves, kind)


# Numberings: the shape's nodes in the order of their numbers


def next_from(rng, open_nodes, order):
    """Takes out the open node that gets the next number."""
    if order == "wide":
        return open_nodes.pop(0)
    if order == "any":
        at = rng.randrange(len(open_nodes))
        open_nodes[at], open_nodes[-1] = open_nodes[-1], open_nodes[at]
    return open_nodes.pop()


def parents_first(rng, children):
    """The nodes of a shape, every parent before its children."""
    order = rng.choice(ORDERS)
    nodes, open_nodes = [], [0]
    while open_nodes:
        node = next_from(rng, open_nodes, order)
        nodes.append(node)
        open_nodes += rng.sample(children[node], len(children[node]))
    return nodes


def turned(rng, nodes):
    """The nodes in this order, the other way round, or in any."""
    turn = rng.choice(TURNS)
    if turn == "reversed":
        return nodes[::-1]
    return rng.sample(nodes, len(nodes)) if turn == "shuffled" else nodes


def numbered(rng, children):
    """Numbers a shape: the parents table, and the shape's nodes in order."""
    nodes = turned(rng, parents_first(rng, children))
    number = {node: place for place, node in enumerate(nodes)}
    parents = [NO_PARENT] * len(nodes)
    for node, pair in enumerate(children):
        for child in pair:
            parents[number[child]] = number[node]
    return parents, nodes


def renumbered(tables, numbers):
    """The same tree; `numbers` has each node's new number."""
    parents, taxa = list(tables.parents), list(tables.taxa)
    for node, number in enumerate(numbers):
        parent = tables.parents[node]
        parents[number] = NO_PARENT if parent == NO_PARENT else numbers[parent]
        taxa[number] = tables.taxa[node]
    return Tables(parents, taxa)


# Sizes and taxa


def draw_leaves(rng, large=False):
    """How many leaves: mostly few, now and then 25 to 65."""
    if large:
        return MOST_LEAVES
    if rng.random() < 0.08:
        return rng.randint(25, 65)
    return rng.choice((1, 2, 3, 4, 5, 6, 7, 8, 9, 10, 11, 12, 13))


def draw_taxon(rng):
    """A full 32-bit taxon, often one that shares a half with others."""
    low = rng.choice((0, 1, 65535, rng.randint(0, MOST_16)))
    high = rng.choice((0, 1, 65535, rng.randint(0, MOST_16)))
    return low | high << 16 or 1


def distinct_taxa(rng, count):
    """So many taxa, all different and none of them 0."""
    if rng.random() < 0.5:
        return rng.sample(range(1, 3 * count + 10), count)
    taxa = set()
    while len(taxa) < count:
        taxa.add(draw_taxon(rng))
    return rng.sample(sorted(taxa), count)


def species_tree(rng, leaves):
    """A sound species tree."""
    children = random_shape(rng, leaves)
    parents, nodes = numbered(rng, children)
    taxa = iter(distinct_taxa(rng, leaves))
    return Tables(parents, [0 if children[node] else next(taxa)
                            for node in nodes])


# Gene trees


def leaf_taxa(tables):
    """The taxa that stand in a table."""
    return [taxon for taxon in tables.taxa if taxon]


def scattered_gene(rng, species, leaves):
    """A gene tree of any shape whose taxa are drawn from a few species."""
    known = leaf_taxa(species)
    pool = rng.sample(known, rng.randint(1, len(known)))
    children = random_shape(rng, leaves)
    parents, nodes = numbered(rng, children)
    return Tables(parents, [0 if children[node] else rng.choice(pool)
                            for node in nodes])


class Evolution:
    """A gene tree that grows down a species tree, with duplications and
    losses, so that speciations are common in it."""

    def __init__(self, rng, species, most_leaves):
        self.rng = rng
        self.species = species
        self.room = most_leaves - 1
        self.below = children_of(species.parents)
        self.children = [()]
        self.taxon_of = {}
        self.waiting = [(0, self.start())]
        self.duplicating = rng.choice((0.05, 0.2, 0.4))
        self.losing = rng.choice((0.0, 0.1, 0.3))

    def start(self):
        if self.rng.random() < 0.7:
            return self.species.parents.index(NO_PARENT)
        return self.rng.randrange(len(self.species.parents))

    def split(self, node, places):
        """Gives a gene node two children that sit at the two places."""
        pair = (len(self.children), len(self.children) + 1)
        self.children[node] = pair
        self.children += [(), ()]
        self.waiting += zip(pair, places)
        self.room -= 1

    def step(self, node, place):
        """One event of one gene node."""
        sides = self.below[place]
        if self.room and self.rng.random() < self.duplicating:
            self.split(node, (place, place))
        elif not sides:
            self.taxon_of[node] = self.species.taxa[place]
        elif self.room and self.rng.random() >= self.losing:
            self.split(node, sides)
        else:
            self.waiting.append((node, self.rng.choice(sides)))

    def run(self):
        while self.waiting:
            at = self.rng.randrange(len(self.waiting))
            self.step(*self.waiting.pop(at))
        parents, nodes = numbered(self.rng, self.children)
        return Tables(parents, [self.taxon_of.get(node, 0) for node in nodes])


def species_like_gene(rng, species):
    """The species tree itself, numbered anew, now and then with two taxa
    exchanged."""
    gene = renumbered(species, turned(rng, list(range(len(species.parents)))))
    leaves = [node for node, taxon in enumerate(gene.taxa) if taxon]
    if len(leaves) > 1 and rng.random() < 0.7:
        one, other = rng.sample(leaves, 2)
        gene.taxa[one], gene.taxa[other] = gene.taxa[other], gene.taxa[one]
    return gene


def gene_tree(rng, species, leaves):
    """A sound gene tree on the species."""
    kind = rng.random()
    if kind < 0.4:
        return scattered_gene(rng, species, leaves)
    if kind < 0.9:
        return Evolution(rng, species, leaves).run()
    return species_like_gene(rng, species)


def full_gene(rng, species):
    """A gene tree of exactly 2,047 nodes, on a species tree of as many."""
    if rng.random() < 0.5:
        return scattered_gene(rng, species, MOST_LEAVES)
    return species_like_gene(rng, species)


def sound_pair(rng, large=False):
    """A sound species tree and a sound gene tree on it."""
    species = species_tree(rng, draw_leaves(rng, large))
    if large:
        return species, full_gene(rng, species)
    return species, gene_tree(rng, species, draw_leaves(rng))


# Faults.  Each changes the tables in place, or does nothing where a tree has
# no node for it.


def any_entry(rng):
    return rng.choice((0, 1, NO_PARENT, rng.randint(0, MOST_16)))


def empty_tables(rng, tables):
    for table in rng.choice(((0,), (1,), (0, 1))):
        tables[table].clear()


def unequal_lengths(rng, tables):
    table = rng.choice(tables)
    if table and rng.random() < 0.5:
        table.pop()
    else:
        table.append(any_entry(rng))


def over_large(rng, tables):
    size = rng.choice((2048, 2049, 2100))
    for table in rng.choice(((0,), (1,), (0, 1), (0, 1))):
        tables[table].extend([0] * (size - len(tables[table])))


def wrong_size(rng, tables):
    rare = rng.random() < 0.04
    fault = over_large if rare else rng.choice((empty_tables, unequal_lengths))
    fault(rng, tables)


def below_another(tables):
    """The nodes that are no roots."""
    return [node for node, parent in enumerate(tables.parents)
            if parent != NO_PARENT]


def wrong_parent(rng, tables):
    """A parent that is not under n."""
    count = len(tables.parents)
    if count:
        tables.parents[rng.randrange(count)] = rng.choice(
            (count, count + 1, 65534, rng.randint(count, 65534)))


def second_root(rng, tables):
    nodes = below_another(tables)
    if nodes:
        tables.parents[rng.choice(nodes)] = NO_PARENT


def no_root(rng, tables):
    count = len(tables.parents)
    tables.parents[:] = [rng.randrange(count) if parent == NO_PARENT
                         else parent for parent in tables.parents]


def wrong_root_or_parent(rng, tables):
    rng.choice((wrong_parent, second_root, no_root))(rng, tables)


def walk_up(parents, node):
    """The node and what is above it, as far as one can walk: broken tables
    lead out of the tree or round."""
    line = []
    while node < len(parents) and len(line) < len(parents):
        line.append(node)
        node = parents[node]
    return line


def circle(rng, tables):
    """A node gets a parent below itself: what stands between them goes round,
    and what hangs there never reaches the root either."""
    nodes = below_another(tables)
    if nodes:
        line = walk_up(tables.parents, rng.choice(nodes))
        tables.parents[rng.choice(line[:-1] or line)] = line[0]


def own_parent(rng, tables):
    nodes = below_another(tables)
    if nodes:
        node = rng.choice(nodes)
        tables.parents[node] = node


def cut_off(rng, tables):
    rng.choice((circle, circle, own_parent))(rng, tables)


def append_leaf(rng, tables, parent):
    tables.parents.append(parent)
    tables.taxa.append(rng.choice(leaf_taxa(tables) or [1]))


def childless(tables):
    parents = set(tables.parents)
    return [node for node in range(len(tables.parents))
            if node not in parents]


def only_child(rng, tables):
    append_leaf(rng, tables, rng.choice(childless(tables) or [0]))


def third_child(rng, tables):
    inner = sorted(set(tables.parents) - {NO_PARENT})
    append_leaf(rng, tables, rng.choice(inner or [0]))


def lost_leaf(rng, tables):
    """A leaf is taken out; the nodes after it get the number before theirs."""
    leaves = childless(tables)
    if leaves and len(tables.parents) > 1 and len(tables.taxa) > 1:
        leaf = rng.choice(leaves)
        del tables.parents[leaf], tables.taxa[leaf:leaf + 1]
        tables.parents[:] = [parent - 1 if leaf < parent < NO_PARENT
                             else parent for parent in tables.parents]


def moved_child(rng, tables):
    """A child goes to another parent, but to none below itself."""
    nodes = below_another(tables)
    if nodes:
        node = rng.choice(nodes)
        parent = rng.randrange(len(tables.parents))
        if node not in walk_up(tables.parents, parent):
            tables.parents[node] = parent


def wrong_shape(rng, tables):
    rng.choice((only_child, third_child, lost_leaf, moved_child))(rng, tables)


def wrong_kind_of_taxon(rng, tables):
    """Taxon 0 at a leaf, or a taxon at an inner node."""
    if tables.taxa:
        node = rng.randrange(len(tables.taxa))
        at_leaf = tables.taxa[node] != 0
        tables.taxa[node] = 0 if at_leaf else rng.choice(
            leaf_taxa(tables) + [draw_taxon(rng)])


def repeated_taxon(rng, tables):
    leaves = [node for node, taxon in enumerate(tables.taxa) if taxon]
    if len(leaves) > 1:
        some = rng.sample(leaves, rng.choice((2, min(3, len(leaves)))))
        for node in some[1:]:
            tables.taxa[node] = tables.taxa[some[0]]


def unknown_taxon(rng, tables):
    """Another number at a leaf, sometimes a known one with halves changed."""
    leaves = [node for node, taxon in enumerate(tables.taxa) if taxon]
    if leaves:
        node = rng.choice(leaves)
        taxon = tables.taxa[node]
        tables.taxa[node] = rng.choice(
            (taxon ^ 0x10000, taxon ^ 1, draw_taxon(rng),
             (taxon >> 16 | taxon << 16) & MOST_32, MOST_32)) or 1


SPECIES_FAULTS = {1: wrong_size, 2: wrong_root_or_parent, 38: cut_off,
                  3: wrong_shape, 4: wrong_kind_of_taxon, 5: repeated_taxon}
GENE_FAULTS = {1: wrong_size, 2: wrong_root_or_parent, 38: cut_off,
               3: wrong_shape, 4: wrong_kind_of_taxon, 6: unknown_taxon}
FAULT_WEIGHTS = {1: 2, 2: 4, 38: 5, 3: 4, 4: 3, 5: 6, 6: 6}


def draw_fault_count(rng):
    return rng.choice((1, 1, 1, 1, 2, 3, 4))


def break_tree(rng, tables, faults, count):
    """Puts so many faults into one tree, within what `replay` can read."""
    numbers = sorted(faults)
    weights = [FAULT_WEIGHTS[number] for number in numbers]
    for number in rng.choices(numbers, weights, k=count):
        faults[number](rng, tables)
    for table in tables:
        del table[MOST_ENTRIES:]


def broken_species(rng, species):
    """A copy of a species tree with faults."""
    tables = copied(species)
    break_tree(rng, tables, SPECIES_FAULTS, draw_fault_count(rng))
    return tables


def broken_pair(rng, species, gene):
    """Copies of both trees with faults in one of them or in both."""
    species, gene = copied(species), copied(gene)
    hit = rng.random()
    if hit < 0.45:
        break_tree(rng, species, SPECIES_FAULTS, draw_fault_count(rng))
    if hit > 0.25:
        break_tree(rng, gene, GENE_FAULTS, draw_fault_count(rng))
    return species, gene
