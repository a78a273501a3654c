"""Tests of tools/dearest, and of .ci/run with a stand-in for rt and for every
test step: what it prints last, what it says of its cost, and when it fails.

    python3 tests/scripts/test_gate.py

gate.log is a log as .ci/run keeps it, much shortened.
"""

import os
import re
import shutil
import subprocess
import sys
import tempfile
import unittest

from stand_in import write

HERE = os.path.dirname(os.path.abspath(__file__))
ROOT = os.path.dirname(os.path.dirname(HERE))
LOG = os.path.join(HERE, "gate.log")
VERDICT = "15 passed, 0 failed"

DEAREST = """\
processor time: 2373 s (user 2283, system 90)
the dearest of 11 parts, in seconds by the clock:
   812  rt ci
   140  tools/archive
    31  tests/c/run.sh
    25  tests/reference/drive.py
    12  tests/scripts/test_programs.py
     7  tests/reference/test_reference.py
     4  tests/reference/test_driver.py
     3  tests/scripts/test_gate.py
     2  bench/stack.sh
     1  bench/test_stack.py
"""

# `rt ci` runs work.py, as a grandchild of the gate, prints ci.txt and ends
# with the status in ci.status; each call is noted in `calls`.
RT = """\
#!/bin/sh
echo "$*" >>calls
[ "$*" = ci ] || exit 1
python3 work.py
cat ci.txt
exit "$(cat ci.status)"
"""

TWO_SECONDS = "import time\nwhile time.process_time() < 2: pass\n"


class Dearest(unittest.TestCase):
    """tools/dearest on a stored log."""

    def dearest(self, log):
        return subprocess.run(
            [sys.executable, os.path.join(ROOT, "tools", "dearest"), log],
            capture_output=True, text=True, check=False)

    def test_stored_log(self):
        run = self.dearest(LOG)
        self.assertEqual((run.returncode, run.stdout, run.stderr),
                         (0, DEAREST, ""))

    def test_log_without_parts(self):
        run = self.dearest(os.devnull)
        self.assertEqual(run.returncode, 1)
        self.assertIn("no part with its time", run.stderr)


class Gate(unittest.TestCase):
    """.ci/run in a folder of its own."""

    def setUp(self):
        self.folder = tempfile.mkdtemp()
        self.addCleanup(shutil.rmtree, self.folder)
        for name in (".ci/run", "tools/dearest"):
            os.makedirs(os.path.dirname(self.path(name)))
            shutil.copy(os.path.join(ROOT, name), self.path(name))
        with open(self.path(".ci/run"), encoding="utf-8") as file:
            self.steps = re.findall(r"^step (?:python3 )?(\S+)", file.read(),
                                    re.MULTILINE)
        for name in self.steps:
            shell = "" if name.endswith(".py") else "#!/bin/sh\n"
            write(self.path(name), shell)
        for name in ("gcc", "x86_64-linux-gnu-gcc", "qemu-x86_64"):
            write(self.path("stubs/" + name), "#!/bin/sh\n")
        write(self.path("stubs/rt"), RT)
        self.rt_says(VERDICT, 0)
        write(self.path("work.py"), "")

    def path(self, name):
        return os.path.join(self.folder, name)

    def rt_says(self, verdict, status, edits="5 refused"):
        with open(LOG, encoding="utf-8") as file:
            printed = file.read().split(VERDICT)[0]
        printed = printed.replace("edits: 5 refused", "edits: " + edits)
        write(self.path("ci.txt"), printed + verdict + "\n")
        write(self.path("ci.status"), "%d\n" % status)

    def gate(self):
        """The exit status and the lines of standard output."""
        run = subprocess.run(
            [self.path(".ci/run")], capture_output=True, text=True,
            check=False, env=dict(os.environ, PATH="%s:%s" % (
                self.path("stubs"), os.environ["PATH"])))
        return run.returncode, run.stdout.split("\n")

    def fails(self):
        status, lines = self.gate()
        self.assertNotEqual(status, 0)
        self.assertFalse(lines[-2].endswith(" 0 failed"), lines)

    def test_passes(self):
        write(self.path("work.py"), TWO_SECONDS)
        status, lines = self.gate()
        self.assertEqual(status, 0, lines)
        self.assertEqual(lines[-2:], [VERDICT, ""])
        for name in self.steps:
            self.assertTrue([line for line in lines
                             if line.startswith("== passed: ")
                             and name in line], name)
        cost = re.fullmatch(
            r"processor time: (\d+) s \(user \d+, system \d+\)", lines[-14])
        self.assertGreaterEqual(int(cost[1]), 2)
        self.assertRegex(lines[-13], "the dearest of %d parts"
                         % (1 + len(self.steps)))
        self.assertRegex(lines[-12], r" +[2-9]  rt ci")

    def test_rt_is_asked_once_for_everything(self):
        self.gate()
        with open(self.path("calls"), encoding="utf-8") as file:
            self.assertEqual(file.read(), "ci\n")

    def test_a_step_fails(self):
        write(self.path(self.steps[-1]), "raise SystemExit(1)\n")
        self.fails()

    def test_rt_counts_a_failure(self):
        self.rt_says("14 passed, 1 failed", 1)
        self.fails()

    def test_rt_counts_a_failure_and_ends_well(self):
        self.rt_says("14 passed, 1 failed", 0)
        self.fails()

    def test_rt_ends_badly(self):
        self.rt_says(VERDICT, 1)
        self.fails()

    def test_edits_that_only_a_limit_refuses(self):
        self.rt_says(VERDICT, 0, "5 refused, 1 of them only by a limit")
        self.assertEqual(self.gate()[0], 0)

    def test_bad_edits(self):
        for edits in ("4 refused, 1 bad", "0 refused, 12 bad",
                      "5 refused, 1 of them only by a limit, 2 bad"):
            self.rt_says(VERDICT, 0, edits)
            self.fails()

    def test_rt_counts_no_edits(self):
        write(self.path("ci.txt"), "rt: trees proved\n" + VERDICT + "\n")
        self.fails()


if __name__ == "__main__":
    unittest.main()
