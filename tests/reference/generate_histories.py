"""Random histories for a sound pair: the least one, legal ones that sit
higher, and illegal ones by each of refusals 8 to 11.

The trees given here are those that the reference's judges return.
"""

import panheron_reference as reference
from panheron_reference import DUPLICATION, LEAF, SPECIATION, History


def line_between(species, node, top):
    """The nodes from `node` up to `top`, both included."""
    line = species.lines[node]
    return line[:line.index(top) + 1]


def parents_first(gene):
    """The inner nodes, each after those above it."""
    return sorted(gene.inner_nodes(), key=lambda node: len(gene.lines[node]))


def copied(history):
    return History(list(history.places), list(history.labels))


# Legal histories


def side_towards(species, place, node):
    """The child of `place` that `node` is at or below."""
    return next(side for side in species.children[place]
                if species.at_or_below(node, side))


class Lifting:
    """Draws a legal history from the gene root down.

    A node may sit anywhere between its least place and a ceiling: its
    parent's place, or below a speciation the side it lies on.  A node that
    is a speciation in the least history may keep this label only at its least
    place.
    """

    def __init__(self, rng, species, gene):
        self.rng = rng
        self.species = species
        self.gene = gene
        self.least = reference.least_history_of(species, gene)
        self.drawn = copied(self.least)
        self.eager = rng.choice((0.2, 0.5, 0.9))

    def ceiling(self, node):
        """The highest place that the node may take."""
        if node == self.gene.root:
            return self.species.root
        parent = self.gene.parents[node]
        place = self.drawn.places[parent]
        if self.drawn.labels[parent] == SPECIATION:
            return side_towards(self.species, place, self.least.places[node])
        return place

    def lift(self, node):
        """Draws the place and the label of one inner node."""
        line = line_between(self.species, self.least.places[node],
                            self.ceiling(node))
        if self.rng.random() < self.eager:
            self.drawn.places[node] = self.rng.choice(line)
            self.drawn.labels[node] = DUPLICATION
        lifted = self.drawn.places[node] != self.least.places[node]
        if not lifted and self.rng.random() < 0.5:
            self.drawn.labels[node] = self.least.labels[node]

    def run(self):
        for node in parents_first(self.gene):
            self.lift(node)
        return self.drawn


def legal_history(rng, species, gene):
    """A legal history, often higher than the least one."""
    return Lifting(rng, species, gene).run()


# Illegal histories.  Each fault changes a history in place, or does nothing
# where there is no node for it.


def bad_place(rng, species, gene, history):
    node = rng.randrange(gene.count)
    history.places[node] = rng.choice(
        (species.count, species.count + 1, 65535,
         rng.randint(species.count, 65535)))


def bad_label(rng, species, gene, history):
    node = rng.randrange(gene.count)
    allowed = (LEAF,) if gene.is_leaf(node) else (SPECIATION, DUPLICATION)
    history.labels[node] = rng.choice(
        [label for label in (0, 1, 2, 3, 256, 257, 65535)
         if label not in allowed])


def misplaced_leaf(rng, species, gene, history):
    """A leaf at its species' parent, at any other node or at the root."""
    leaf = rng.choice(gene.leaves())
    place = species.leaf_of_taxon[gene.taxa[leaf]]
    history.places[leaf] = rng.choice(
        (species.lines[place][:2][-1], species.root,
         rng.randrange(species.count), rng.choice(species.leaves())))


def child_elsewhere(rng, species, gene, history):
    """An inner child at a place that is not under its parent's."""
    inner = [node for node in gene.inner_nodes() if node != gene.root]
    if inner:
        child = rng.choice(inner)
        top = history.places[gene.parents[child]]
        outside = [place for place in range(species.count)
                   if top < species.count
                   and not species.at_or_below(place, top)]
        if outside:
            history.places[child] = rng.choice(outside)


def parent_too_low(rng, species, gene, history):
    """An inner node at a place that is not above a child's."""
    inner = gene.inner_nodes()
    if inner:
        node = rng.choice(inner)
        child = rng.choice(gene.children[node])
        low = [place for place in range(species.count)
               if history.places[child] < species.count
               and not species.at_or_below(history.places[child], place)]
        if low:
            history.places[node] = rng.choice(low)


def false_speciation(rng, species, gene, history):
    """A duplication that is called a speciation."""
    false = [node for node in gene.inner_nodes()
             if history.labels[node] == DUPLICATION]
    if false:
        history.labels[rng.choice(false)] = SPECIATION


def lifted_speciation(rng, species, gene, history):
    """A speciation moved up, and all above it, so that 10 is kept: both of
    its children then lie on one side."""
    inner = gene.inner_nodes()
    if not inner:
        return
    node = rng.choice(inner)
    place = history.places[node]
    if place >= species.count or place == species.root:
        return
    history.labels[node] = SPECIATION
    goal = species.parents[place]
    history.places[node] = goal
    for above in gene.lines[node][1:]:
        if history.places[above] >= species.count:
            return
        if not species.at_or_below(goal, history.places[above]):
            history.places[above] = goal
            history.labels[above] = DUPLICATION


FAULTS = {8: (bad_place, bad_label),
          9: (misplaced_leaf,),
          10: (child_elsewhere, parent_too_low),
          11: (false_speciation, lifted_speciation)}
FAULT_WEIGHTS = {8: 2, 9: 2, 10: 4, 11: 5}


def break_history(rng, species, gene, history, count):
    """Puts so many faults into a history."""
    numbers = sorted(FAULTS)
    weights = [FAULT_WEIGHTS[number] for number in numbers]
    for number in rng.choices(numbers, weights, k=count):
        rng.choice(FAULTS[number])(rng, species, gene, history)


def illegal_history(rng, species, gene):
    """A history with one fault or several."""
    history = legal_history(rng, species, gene)
    break_history(rng, species, gene, history, rng.choice((1, 1, 1, 2, 3)))
    return history


def noise_history(rng, species, gene):
    """Any small numbers at all."""
    return History([rng.randrange(species.count) for _ in range(gene.count)],
                   [rng.randrange(3) for _ in range(gene.count)])


def offered_history(rng, species, gene):
    """A history that someone might offer."""
    kind = rng.random()
    if kind < 0.08:
        return copied(reference.least_history_of(species, gene))
    if kind < 0.42:
        return legal_history(rng, species, gene)
    if kind < 0.98:
        return illegal_history(rng, species, gene)
    return noise_history(rng, species, gene)
