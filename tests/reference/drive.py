"""The driver: compares `replay` and `history` with the reference.

    python3 drive.py --replay CMD --history CMD --requests N --texts M --seed S

It makes N requests and M texts from the seed, feeds the requests to the
replay command in runs of at most about 900 KiB and each text to a run of the
history command, and compares every printed number and every lent entry with
what the reference answers.  It also makes pairs of trees, asks the replay
command about each pair and about the same pair with its nodes numbered anew,
and compares these answers with one another (renumberings.py).  It stops at the
first few differences and prints each with the request, what was expected and
what came.

With --fresh the seed makes one half of each kind, always the same, and a seed
that is drawn anew makes the other half.  Both are printed, and --fresh NUMBER
takes a drawn seed again.

At the end it prints how often each refusal number occurred.  The exit status
is 0 if everything agreed, 1 after a difference, and 2 if nothing differed but
--all-numbers was given and some number never occurred: one of 1 to 20 and 38
at all, or 38 in one of the calls and of the trees that can have it.

With each difference it prints how to make that request, text or pair again
alone.
"""

import argparse
import os
import random
import shlex
import subprocess
import sys
import tempfile
import time
from collections import Counter, namedtuple
from concurrent.futures import FIRST_COMPLETED, ProcessPoolExecutor, wait

import generate
import panheron_reference as reference
import protocol
import renumberings

MOST_RUN_BYTES = 900 * 1024
REQUESTS_IN_TASK = 400
LARGE_IN_TASK = 2
TEXTS_IN_TASK = 20
PAIRS_IN_TASK = renumberings.LARGE_EVERY
LONGEST_SHOWN = 3000
ALL_NUMBERS = (*range(1, 21), 38)
# A node that never reaches the root is to occur in every tree that is judged.
NEVER_REACHES = 38
JUDGED = [("code 1", reference.SPECIES)] + [
    (source, tree)
    for source in (*("code %d" % code for code in range(2, 9)), "history")
    for tree in (reference.SPECIES, reference.GENE)]

# What one worker does at a time: a maker from MAKERS, and which of its things.
Task = namedtuple("Task", "maker command seed first count timeout")

# What a maker's task is done by: the work, the function that makes one thing,
# how many of them a task has, and the words that make one alone.
Maker = namedtuple("Maker", "work make in_task alone")

# A difference: how to make what was asked again, and what was asked, what was
# expected and what came, as text.
Difference = namedtuple("Difference", "title again asked expected came")

# What a program did: its standard output, and words on an unusual end.
Outcome = namedtuple("Outcome", "output trouble")

# A request with all that is known about it before the run.
Prepared = namedtuple("Prepared", "index request text answer")


class Report:
    """What was found: how many answers agreed, how often each (refusal
    number, source, tree) occurred among them, and the differences."""

    def __init__(self):
        self.agreed = 0
        self.occurred = Counter()
        self.differences = []

    def note(self, refusal, source, tree):
        """Notes an answer that agreed."""
        self.agreed += 1
        if refusal:
            self.occurred[refusal, source, tree] += 1


# Running a program


def trouble_of(finished):
    """Words on a run that was killed, or nothing.  An ordinary exit status
    is not judged, since no paper says what it should be."""
    words = ""
    if finished.returncode < 0 or finished.returncode >= 128:
        words = "ended with status %d" % finished.returncode
    complaint = finished.stderr.decode("latin-1").strip()
    if words and complaint:
        words += ": " + complaint[-1000:]
    return words


def run_program(command, data, timeout):
    """Feeds the bytes to the command and waits for it."""
    try:
        finished = subprocess.run(
            shlex.split(command), input=data, stdout=subprocess.PIPE,
            stderr=subprocess.PIPE, timeout=timeout, check=False)
    except subprocess.TimeoutExpired:
        return Outcome(b"", "did not end within %d seconds" % timeout)
    except OSError as error:
        return Outcome(b"", "could not be run: %s" % error)
    return Outcome(finished.stdout, trouble_of(finished))


# Requests


def prepared_requests(task):
    """The requests of a task with their texts and expected answers."""
    for index in range(task.first, task.first + task.count):
        request = MAKERS[task.maker].make(task.seed, index)
        yield Prepared(index, request, protocol.request_text(request),
                       protocol.answer_to(request))


def packed(prepared):
    """Groups requests into runs of at most about 900 KiB."""
    run, size = [], 0
    for one in prepared:
        if run and size + len(one.text) > MOST_RUN_BYTES:
            yield run
            run, size = [], 0
        run.append(one)
        size += len(one.text)
    if run:
        yield run


def lines_of(output):
    """The lines of an output; a last line without a line feed shows it."""
    lines = output.decode("latin-1").split("\n")
    last = lines.pop()
    return lines + [last + "(no line feed)"] if last else lines


def again(task, index):
    """The command that makes one thing of a task again, alone."""
    return "python3 %s %s --seed %s --first %d" % (
        os.path.relpath(__file__),
        MAKERS[task.maker].alone % shlex.quote(task.command),
        shlex.quote(task.seed), index)


def request_difference(title, task, one, expected, came, trouble):
    """What is printed about a request whose answer differs."""
    shown = [trouble] if trouble else []
    return Difference("%s %d, code %d" % (title, one.index, one.request.code),
                      again(task, one.index), one.text, "\n".join(expected),
                      "\n".join(came + shown) or "(nothing)")


def compare_run(task, run, outcome, report):
    """Compares the lines of one run, up to its first difference."""
    lines = lines_of(outcome.output)
    at = 0
    for one in run:
        expected = one.answer.lines
        came = lines[at:at + len(expected)]
        if came != expected:
            report.differences.append(request_difference(
                task.maker, task, one, expected, came, outcome.trouble))
            return
        at += len(expected)
        report.note(one.answer.refusal, "code %d" % one.request.code,
                    one.answer.tree)
    if at != len(lines) or outcome.trouble:
        report.differences.append(request_difference(
            "after " + task.maker, task, run[-1], ["(the end of the run)"],
            lines[at:], outcome.trouble))


def do_requests(task):
    """One task of requests."""
    report = Report()
    for run in packed(prepared_requests(task)):
        data = "".join(one.text for one in run).encode("ascii")
        outcome = run_program(task.command, data, task.timeout)
        compare_run(task, run, outcome, report)
        if report.differences:
            break
    return report


# Texts


def refusal_printed(output):
    """The refusal number of a printed answer and its tree, 0 if there is
    none."""
    if not output.startswith(b"refused "):
        return 0, 0
    return tuple(int(word) for word in output.split()[1:3])


def text_difference(task, index, text, expected, outcome):
    """What is printed about a text whose answer differs."""
    came = outcome.output.decode("latin-1")
    if outcome.trouble:
        came += "\n" + outcome.trouble
    return Difference("%s %d, as a Python literal" % (task.maker, index),
                      again(task, index), repr(text),
                      expected.decode("latin-1"), came or "(nothing)")


def compare_text(task, index, report):
    """Runs the program on one text and compares what it prints."""
    text = MAKERS[task.maker].make(task.seed, index)
    expected = reference.history_program(text)
    outcome = run_program(task.command, text, task.timeout)
    if outcome.output != expected or outcome.trouble:
        report.differences.append(
            text_difference(task, index, text, expected, outcome))
        return
    number, tree = refusal_printed(expected)
    report.note(number, "history", tree)


def do_texts(task):
    """One task of texts."""
    report = Report()
    for index in range(task.first, task.first + task.count):
        compare_text(task, index, report)
        if report.differences:
            break
    return report


# Pairs


def lines_for(requests, lines):
    """Takes the lines of each request's answer from all that are left."""
    return [[next(lines, "(nothing)")
             for parameter in (None, *protocol.LAYOUT[request.code])
             if parameter is None or parameter.lent]
            for request in requests]


def carried_lines(code, lines, numbers):
    """The lines that are expected for the pair numbered anew."""
    try:
        return renumberings.carried(code, lines, numbers)
    except (ValueError, IndexError):
        return ["(an answer about the pair itself; it was)"] + lines


def asked(requests):
    return "".join(map(protocol.request_text, requests))


def compare_pair(task, index, twice, lines, report):
    """Compares the answers about one pair with those about it anew."""
    before = lines_for(twice.before, lines)
    after = lines_for(twice.after, lines)
    for at, request in enumerate(twice.before):
        expected = carried_lines(request.code, before[at], twice.numbers)
        if after[at] != expected:
            report.differences.append(Difference(
                "%s %d, code %d" % (task.maker, index, request.code),
                again(task, index), asked((request, twice.after[at])),
                "\n".join(expected), "\n".join(after[at])))
            return
    report.note(0, task.maker, 0)


def compare_pairs(task, pairs, lines, report):
    """Compares all pairs of a run, up to the first difference, and its end."""
    for index, twice in pairs.items():
        compare_pair(task, index, twice, lines, report)
        if report.differences:
            return
    left = list(lines)
    if left:
        report.differences.append(Difference(
            "after %s %d" % (task.maker, index), again(task, index),
            asked(twice.before + twice.after), "(the end of the run)",
            "\n".join(left)))


def do_pairs(task):
    """One task of pairs, in one run."""
    report = Report()
    pairs = {index: MAKERS[task.maker].make(task.seed, index)
             for index in range(task.first, task.first + task.count)}
    data = "".join(asked(twice.before + twice.after)
                   for twice in pairs.values())
    outcome = run_program(task.command, data.encode("ascii"), task.timeout)
    trouble = [outcome.trouble] if outcome.trouble else []
    compare_pairs(task, pairs, iter(lines_of(outcome.output) + trouble),
                  report)
    return report


# Tasks

MAKERS = {
    "request": Maker(do_requests, generate.request, REQUESTS_IN_TASK,
                     "--replay %s --requests 1 --pairs 0"),
    "large request": Maker(do_requests, generate.large_request, LARGE_IN_TASK,
                           "--replay %s --requests 0 --pairs 0 --large 1"),
    "pair": Maker(do_pairs, renumberings.pair, PAIRS_IN_TASK,
                  "--replay %s --requests 0 --pairs 1"),
    "text": Maker(do_texts, generate.text, TEXTS_IN_TASK,
                  "--history %s --texts 1"),
    "large text": Maker(do_texts, generate.large_text, LARGE_IN_TASK,
                        "--history %s --texts 0 --large 1"),
}


def do_task(task):
    """What a worker process does with one task."""
    return task, MAKERS[task.maker].work(task)


def seeds_of(arguments, total):
    """Each seed, with how many of so many things it makes."""
    fresh = total // 2 if arguments.fresh else 0
    return [(arguments.seed, total - fresh), (arguments.fresh, fresh)]


def cut_into_tasks(maker, command, arguments, total):
    """Tasks for so many things of one kind."""
    size = MAKERS[maker].in_task
    return [Task(maker, command, seed, start,
                 min(size, arguments.first + share - start),
                 arguments.timeout)
            for seed, share in seeds_of(arguments, total)
            for start in range(arguments.first, arguments.first + share, size)]


def all_tasks(arguments):
    """Everything that was asked for, the slow things first."""
    wanted = []
    if arguments.replay:
        wanted += [("large request", arguments.replay, arguments.large),
                   ("pair", arguments.replay, arguments.pairs),
                   ("request", arguments.replay, arguments.requests)]
    if arguments.history:
        wanted += [("large text", arguments.history, arguments.large),
                   ("text", arguments.history, arguments.texts)]
    return [task for maker, command, total in wanted
            for task in cut_into_tasks(maker, command, arguments, total)]


# The whole


class Totals:
    """What all tasks together found."""

    def __init__(self):
        self.agreed = Counter()
        self.occurred = Counter()
        self.differences = []

    def add(self, task, report):
        self.agreed[task.maker] += report.agreed
        self.occurred.update(report.occurred)
        self.differences += report.differences

    def missing_numbers(self):
        """What never occurred, in words."""
        seen = {number for number, _, _ in self.occurred}
        return [str(number) for number in ALL_NUMBERS
                if number not in seen] + [
            "%d in tree %d of %s" % (NEVER_REACHES, tree, source)
            for source, tree in JUDGED
            if (NEVER_REACHES, source, tree) not in self.occurred]


def show_progress(totals):
    """Says how far it is, if someone is looking."""
    if sys.stderr.isatty():
        sys.stderr.write("\r%d agreed" % sum(totals.agreed.values()))
        sys.stderr.flush()


def run_all(tasks, arguments):
    """Runs the tasks on a few workers, up to the first few differences."""
    totals = Totals()
    waiting = list(reversed(tasks))
    with ProcessPoolExecutor(max_workers=arguments.workers) as workers:
        running = set()
        while waiting or running:
            while (waiting and len(running) < 2 * arguments.workers
                   and len(totals.differences) < arguments.differences):
                running.add(workers.submit(do_task, waiting.pop()))
            if not running:
                break
            done, running = wait(running, return_when=FIRST_COMPLETED)
            for future in done:
                totals.add(*future.result())
            show_progress(totals)
    if sys.stderr.isatty():
        sys.stderr.write("\n")
    return totals


# What is printed


def print_seeds(arguments):
    """From which seeds everything is made, before it is."""
    print("seed %s" % arguments.seed, end="")
    if arguments.fresh:
        print(" makes one half and seed %s the other; to make the same again: "
              "--seed %s --fresh %s" % (
                  arguments.fresh, shlex.quote(arguments.seed),
                  shlex.quote(arguments.fresh)), end="")
    print(flush=True)


def shortened(text, folder, name):
    """The text, or where the whole of it was saved if it is long."""
    if len(text) <= LONGEST_SHOWN:
        return text.rstrip("\n")
    path = os.path.join(folder, name)
    with open(path, "w", encoding="latin-1") as file:
        file.write(text)
    return "%s ... (whole in %s)" % (text[:200].rstrip("\n"), path)


def first_unequal(ones, others):
    """The first index at which two lists differ."""
    for index, (one, other) in enumerate(zip(ones, others)):
        if one != other:
            return index
    return min(len(ones), len(others))


def item(items, index):
    return items[index] if index < len(items) else "nothing"


def where_to_look(difference):
    """The first line of the answer that differs, and the number in it."""
    expected = difference.expected.split("\n")
    came = difference.came.split("\n")
    line = first_unequal(expected, came)
    expected = item(expected, line).split(" ")
    came = item(came, line).split(" ")
    word = first_unequal(expected, came)
    return "line %d, word %d: expected %s, came %s" % (
        line + 1, word + 1, item(expected, word), item(came, word))


def print_difference(number, difference, folder):
    """Prints one difference, long parts saved in the folder."""
    print("difference %d: %s" % (number, difference.title))
    print("again: %s" % difference.again)
    print("first difference: %s" % where_to_look(difference))
    for part in ("asked", "expected", "came"):
        name = "%d-%s.txt" % (number, part)
        print("%s:" % part)
        print(shortened(getattr(difference, part), folder, name))
    print()


def print_differences(differences, most):
    """Prints the first differences."""
    if differences:
        folder = tempfile.mkdtemp(prefix="panheron-differences-")
        for number, difference in enumerate(differences[:most], 1):
            print_difference(number, difference, folder)


def print_occurrences(totals):
    """How often each refusal number occurred, and where."""
    print("refusal  times  where")
    for number in ALL_NUMBERS:
        sources = Counter()
        for (one, source, _), times in sorted(totals.occurred.items()):
            if one == number:
                sources[source] += times
        where = ", ".join("%s %d" % item for item in sources.items())
        print("%7d %6d  %s" % (number, sum(sources.values()), where))


def print_summary(totals, seconds):
    """The last lines."""
    agreed = ", ".join("%d %ss" % (totals.agreed[maker], maker)
                       for maker in MAKERS)
    print("agreed: %s, in %.0f seconds" % (agreed, seconds))
    print("differences: %d" % len(totals.differences))


def drawn_seed():
    """A seed that nobody chose."""
    return str(random.SystemRandom().randrange(1, 10 ** 9))


def parse_arguments(given=None):
    parser = argparse.ArgumentParser(
        description=__doc__, formatter_class=argparse.RawTextHelpFormatter)
    parser.add_argument("--replay", metavar="CMD",
                        help="the command that answers requests")
    parser.add_argument("--history", metavar="CMD",
                        help="the command that answers texts")
    parser.add_argument("--requests", type=int, default=5000, metavar="N")
    parser.add_argument("--texts", type=int, default=300, metavar="M")
    parser.add_argument("--large", type=int, default=0, metavar="K",
                        help="so many requests and texts of 2,047 nodes more")
    parser.add_argument("--pairs", type=int, default=300, metavar="P",
                        help="so many pairs of trees, each asked about twice")
    parser.add_argument("--seed", default="1", metavar="S")
    parser.add_argument("--fresh", nargs="?", const=drawn_seed(),
                        metavar="NUMBER",
                        help="make half of each kind from another seed: a new "
                        "one, or NUMBER")
    parser.add_argument("--first", type=int, default=0, metavar="INDEX",
                        help="the index to begin with")
    parser.add_argument("--workers", type=int, default=2)
    parser.add_argument("--differences", type=int, default=3, metavar="D",
                        help="stop after about so many differences")
    parser.add_argument("--timeout", type=int, default=600, metavar="SECONDS",
                        help="the longest that one run may take")
    parser.add_argument("--all-numbers", action="store_true",
                        help="fail if a number never occurred")
    arguments = parser.parse_args(given)
    if not arguments.replay and not arguments.history:
        parser.error("give --replay, --history or both")
    return arguments


def exit_status(totals, arguments):
    """0 if all agreed, 1 after a difference, 2 if a number is missing."""
    if totals.differences:
        return 1
    missing = totals.missing_numbers()
    if arguments.all_numbers and missing:
        print("never occurred: %s" % ", ".join(missing))
        return 2
    return 0


def main(given=None):
    arguments = parse_arguments(given)
    start = time.time()
    print_seeds(arguments)
    totals = run_all(all_tasks(arguments), arguments)
    print_differences(totals.differences, arguments.differences)
    print_occurrences(totals)
    print_summary(totals, time.time() - start)
    return exit_status(totals, arguments)


if __name__ == "__main__":
    sys.exit(main())
