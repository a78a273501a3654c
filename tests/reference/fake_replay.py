"""A stand-in for the programs `replay` and `history`, answered by the
reference itself, so that the driver can be tried without the real ones.

    python3 fake_replay.py < requests            answers the replay protocol
    python3 fake_replay.py --history < text      answers as `history`
    python3 fake_replay.py --spoil 7 < requests  spoils every 7th answer
    python3 fake_replay.py --lean < requests     leans on the numbering

Spoiled answers are there to see the driver find them.  With --history every
text whose length is divisible by the given number is answered wrongly.  With
--lean two species nodes are taken to meet where the climb of document 003 ends,
in which the higher number goes up: right only if parents come first.
"""

import argparse
import sys

import panheron_reference as reference
import protocol


def parse_arguments():
    parser = argparse.ArgumentParser(description=__doc__.split("\n\n")[0])
    parser.add_argument("--history", action="store_true")
    parser.add_argument("--spoil", type=int, default=0, metavar="N")
    parser.add_argument("--lean", action="store_true")
    return parser.parse_args()


def climbed(species, one, other):
    """Where two species nodes meet by the climb of document 003; the root, if
    that leads out of the tree."""
    while one != other:
        one, other = min(one, other), species.parents[max(one, other)]
        if other == reference.NO_PARENT:
            return species.root
    return one


def climbed_places(species, gene):
    """The least places by that climb, children before their parents."""
    places = [species.leaf_of_taxon.get(taxon) for taxon in gene.taxa]
    for node in sorted(gene.inner_nodes(), reverse=True,
                       key=lambda inner: len(gene.lines[inner])):
        places[node] = climbed(species, *(places[child] for child
                                          in gene.children[node]))
    return places


def spoiled(lines):
    """The lines with the last digit of them all changed."""
    text = "\n".join(lines)
    for at in reversed(range(len(text))):
        if text[at].isdigit():
            digit = str((int(text[at]) + 1) % 10)
            return (text[:at] + digit + text[at + 1:]).split("\n")
    return ["ok 0"] + lines[1:]


def answer_requests(text, spoil, out):
    """Prints the lines of every request, or `bad request` and no more."""
    try:
        for index, request in enumerate(protocol.requests_in(text), 1):
            lines = protocol.answer_to(request).lines
            if spoil and index % spoil == 0:
                lines = spoiled(lines)
            out.write("".join(line + "\n" for line in lines))
    except protocol.BadRequest:
        out.write("bad request\n")


def answer_history(text, spoil, out):
    """Prints what `history` prints."""
    printed = reference.history_program(text)
    if spoil and len(text) % spoil == 0:
        printed += b"\n"
    out.write(printed)


def main():
    arguments = parse_arguments()
    text = sys.stdin.buffer.read()
    if arguments.lean:
        reference.least_places = climbed_places
    if arguments.history:
        answer_history(text, arguments.spoil, sys.stdout.buffer)
    else:
        answer_requests(text.decode("latin-1"), arguments.spoil, sys.stdout)


if __name__ == "__main__":
    main()
