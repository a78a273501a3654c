"""The protocol of the program `replay`: requests in, lines out.

It holds the layout of every request (its code and parameters), the text that
a request is sent as, the reading of such text, and the lines that the
reference answers.  A later call adds one entry to LAYOUT and one to CALLS.
"""

from collections import namedtuple

import panheron_reference as reference
from panheron_reference import Refusal

MOST_ENTRIES = 2100
MOST_IMAGE_BYTES = 74 * 512

# A parameter: its name, whether it is a table, the highest number it may
# hold, the most entries a table may have, and whether it is lent for writing.
Parameter = namedtuple("Parameter", "name is_table highest most_entries lent")

# A request: its code and its parameters' values, tables as lists.
Request = namedtuple("Request", "code values")

# An answer: the refusal number (0 if none), its tree, and the lines that are
# printed.
Answer = namedtuple("Answer", "refusal tree lines")


class BadRequest(Exception):
    """Text that is no request."""


def table(name, highest, lent=False, most_entries=MOST_ENTRIES):
    return Parameter(name, True, highest, most_entries, lent)


def number(name, highest):
    return Parameter(name, False, highest, 0, False)


SPECIES_TABLES = (table("species parents", reference.MOST_16),
                  table("species taxa", reference.MOST_32))
GENE_TABLES = (table("gene parents", reference.MOST_16),
               table("gene taxa", reference.MOST_32))
FOUR_TABLES = SPECIES_TABLES + GENE_TABLES
OFFERED = (table("places", reference.MOST_16),
           table("labels", reference.MOST_16))
LENT_HISTORY = (table("places", reference.MOST_16, lent=True),
                table("labels", reference.MOST_16, lent=True))
LENT_GENE = (table("gene parents", reference.MOST_16, lent=True),
             table("gene taxa", reference.MOST_32, lent=True))
IMAGE = table("image", 255, most_entries=MOST_IMAGE_BYTES)
LENT_IMAGE = table("image buffer", 255, lent=True,
                   most_entries=MOST_IMAGE_BYTES)
HOST_TABLES = (table("parents as bytes", 255, most_entries=2 * MOST_ENTRIES),
               table("taxa as bytes", 255, most_entries=4 * MOST_ENTRIES))

LAYOUT = {
    1: SPECIES_TABLES,
    2: FOUR_TABLES,
    3: FOUR_TABLES + LENT_HISTORY + (number("dw", reference.MOST_16),
                                     number("lw", reference.MOST_16)),
    4: FOUR_TABLES + OFFERED,
    5: FOUR_TABLES + (number("gene node", reference.MOST_16),),
    6: FOUR_TABLES + OFFERED + (LENT_IMAGE,),
    7: SPECIES_TABLES + (IMAGE,) + LENT_GENE + LENT_HISTORY,
    8: (IMAGE,) + HOST_TABLES,
}


# Requests as text


def numbers_of(request):
    """All the numbers of a request in the order in which they are sent."""
    numbers = [request.code]
    for parameter, value in zip(LAYOUT[request.code], request.values):
        if parameter.is_table:
            numbers.append(len(value))
            numbers.extend(value)
        else:
            numbers.append(value)
    return numbers


def request_text(request):
    """The line that a request is sent as."""
    return " ".join(map(str, numbers_of(request))) + "\n"


def next_number(pieces, highest):
    """The next number of the text, if it is one and not too high."""
    piece = next(pieces, None)
    if piece is None or not piece.isascii() or not piece.isdigit():
        raise BadRequest
    if int(piece) > highest:
        raise BadRequest
    return int(piece)


def next_value(pieces, parameter):
    """The next parameter's value."""
    if not parameter.is_table:
        return next_number(pieces, parameter.highest)
    length = next_number(pieces, parameter.most_entries)
    return [next_number(pieces, parameter.highest) for _ in range(length)]


def requests_in(text):
    """Reads the requests of a run one after the other."""
    pieces = iter([piece for piece in text.replace("\n", " ").split(" ")
                   if piece])
    for first in pieces:
        code = next_number(iter([first]), max(LAYOUT))
        if code not in LAYOUT:
            raise BadRequest
        yield Request(code, [next_value(pieces, parameter)
                             for parameter in LAYOUT[code]])


# The reference's answers


def judge_species(*values):
    reference.judge_species(*values)
    return ()


def judge_pair(*values):
    reference.judge_pair(*values)
    return ()


def write_image(*values):
    return (reference.write_image(*values),)


CALLS = {
    1: judge_species,
    2: judge_pair,
    3: reference.least_history,
    4: reference.judge_offered,
    5: reference.dating,
    6: write_image,
    7: reference.load_image,
    8: reference.host_answer,
}


def spaced(numbers):
    return " ".join(map(str, numbers))


def first_line(request, values):
    """The refusal number, its tree and the first line; changes the lent
    values.  The host's calls give a refusal as a number of the answer."""
    try:
        numbers = CALLS[request.code](*values)
    except Refusal as refusal:
        return (refusal.number, refusal.tree,
                "refused " + spaced(refusal.triple))
    if request.code == 8:
        return numbers.refusal, numbers.tree, "ok " + spaced(
            (numbers.refusal, numbers.duplications, numbers.losses))
    return 0, 0, " ".join(["ok"] + [str(entry) for entry in numbers])


def answer_to(request):
    """What the reference answers; the request itself stays as it is."""
    values = [list(value) if isinstance(value, list) else value
              for value in request.values]
    refused, tree, line = first_line(request, values)
    lent = [spaced(value)
            for parameter, value in zip(LAYOUT[request.code], values)
            if parameter.lent]
    return Answer(refused, tree, [line] + lent)
