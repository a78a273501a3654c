"""Compares the five answers about an image with the Python reference.

    python3 compare.py [--cases N] [--large K] [--seed S] [PROGRAM ..]

PROGRAM runs answers.c in its compiled form, which asks fast.c or the archive.
Without one it is compiled here, over fast.c.

Each case is a rack and an image, sound or damaged, as the reference's
generator makes them for the collector's calls; K of them more have trees of
2,047 nodes.  Every number is compared: refusal, tree, place, duplications,
losses.  The exit status is 0 if all agreed and every number that these calls
can give has occurred, 1 after a difference, 2 if a number never occurred.

compare_history.py compares another subject by the same functions.
"""

import argparse
import os
import random
import subprocess
import sys
import tempfile
from collections import Counter, namedtuple
from concurrent.futures import ProcessPoolExecutor

HERE = os.path.dirname(os.path.abspath(__file__))
sys.path.insert(0, os.path.join(HERE, "..", "tests", "reference"))

import generate  # noqa: E402
import panheron_reference as reference  # noqa: E402

CASES_IN_TASK = 500
LARGE_IN_TASK = 10
MOST_SHOWN = 5
MOST_WIDTH = 200
# as run.sh compiles plain C
COMPILE = ["-std=c11", "-Wall", "-Wextra", "-Wpedantic", "-Wconversion", "-O3",
           "-funroll-loops"]


# What is compared: the text of its help, how a case is made from a seed, an
# index and whether it is large, the slices that it is sent as, the line that
# the reference answers (its first number is the refusal), the numbers that have
# to occur, and the C that answers if no program is named.
Subject = namedtuple("Subject", "help case slices line numbers sources")


def request_of(slices):
    """The bytes that a case is sent as."""
    lengths = b"".join(len(part).to_bytes(4, "little") for part in slices)
    return lengths + b"".join(slices)


def shortened(line):
    return line if len(line) <= MOST_WIDTH else line[:MOST_WIDTH] + " .."


def compare(task):
    """One task: how often each number occurred, and what differed."""
    subject, program, seed, indices, large = task
    cases = [subject.case(seed, index, large) for index in indices]
    sent = b"".join(request_of(subject.slices(case)) for case in cases)
    run = subprocess.run(program, input=sent, stdout=subprocess.PIPE,
                         check=False)
    came = run.stdout.decode("ascii", "replace").splitlines()
    came += ["nothing"] * (len(cases) - len(came))
    occurred, differences = Counter(), []
    for index, case, line in zip(indices, cases, came):
        expected = subject.line(case)
        occurred[int(expected.split()[0])] += 1
        if line != expected:
            differences.append("case %d%s: expected %s, came %s" % (
                index, " (large)" if large else "", shortened(expected),
                shortened(line)))
    if run.returncode != 0:
        differences.append("cases %d to %d: the program ended with status %d"
                           % (indices[0], indices[-1], run.returncode))
    return occurred, differences


def tasks_of(subject, program, arguments):
    """All the cases, cut into tasks; the slow ones first."""
    for total, size, large in ((arguments.large, LARGE_IN_TASK, True),
                               (arguments.cases, CASES_IN_TASK, False)):
        for start in range(0, total, size):
            indices = range(start, min(start + size, total))
            yield subject, program, arguments.seed, indices, large


def compiled(subject, folder):
    """The program over plain C."""
    program = os.path.join(folder, "answers")
    sources = [os.path.join(HERE, source) for source in subject.sources]
    subprocess.run([os.environ.get("CC", "cc"), *COMPILE, "-o", program,
                    *sources], check=True)
    return [program]


def parse_arguments(subject):
    parser = argparse.ArgumentParser(
        description=subject.help,
        formatter_class=argparse.RawTextHelpFormatter)
    parser.add_argument("--cases", type=int, default=20000, metavar="N")
    parser.add_argument("--large", type=int, default=40, metavar="K")
    parser.add_argument("--seed", default="1", metavar="S")
    parser.add_argument("--workers", type=int, default=2)
    parser.add_argument("program", nargs="*", metavar="PROGRAM")
    return parser.parse_args()


def run_all(subject, program, arguments):
    """All tasks together."""
    occurred, differences = Counter(), []
    with ProcessPoolExecutor(max_workers=arguments.workers) as workers:
        for some, different in workers.map(
                compare, tasks_of(subject, program, arguments)):
            occurred.update(some)
            differences += different
    return occurred, differences


def main(subject):
    """Compares, prints how often each number occurred, gives the status."""
    arguments = parse_arguments(subject)
    with tempfile.TemporaryDirectory() as folder:
        program = arguments.program or compiled(subject, folder)
        occurred, differences = run_all(subject, program, arguments)
    for difference in differences[:MOST_SHOWN]:
        print(difference)
    print("refusal  times")
    for number in sorted(set(subject.numbers) | set(occurred)):
        print("%7d %6d" % (number, occurred[number]))
    print("%d cases, %d differences" % (sum(occurred.values()),
                                        len(differences)))
    if differences:
        return 1
    return 0 if all(occurred[number] for number in subject.numbers) else 2


# The calls about images


def image_case(seed, index, large):
    """The three byte strings of one case."""
    rng = random.Random("compare %s %s %s" % (seed, index, large))
    return [bytes(part) for part in generate.host_request(rng, large)]


def image_slices(case):
    return case


def image_line(case):
    """The line that the reference answers."""
    return " ".join(map(str, reference.host_answer(*case)))


# 7 and 12 are about lent memory, and these calls are lent none.
IMAGES = Subject(
    __doc__, image_case, image_slices, image_line,
    [number for number in (*range(19), 38) if number not in (7, 12)],
    ["answers.c", "fast.c"])


if __name__ == "__main__":
    sys.exit(main(IMAGES))
