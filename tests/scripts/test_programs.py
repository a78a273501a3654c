"""Tests of bin/history, bin/replay and bin/rackcheck as scripts: what they say
before and while they build, where they look for the kit, what they do without
it, how they end, and that a program's output passes through them unchanged.

    python3 tests/scripts/test_programs.py

They run in a folder of their own, with stand-ins for the kit, the C compiler
and the emulator and a PATH that leads to nothing else of the kind; so nothing
is proved, and no program that is built is Panheron's.
"""

import os
import pty
import shutil
import signal
import subprocess
import tempfile
import time
import unittest

from stand_in import write

ROOT = os.path.dirname(os.path.dirname(os.path.dirname(
    os.path.abspath(__file__))))
COPIED = ("bin", "tools", "collector", "include")
COMMANDS = ("bash", "cat", "chmod", "cp", "dirname", "env", "find", "flock",
            "head", "mkdir", "mv", "readlink", "rm", "sed", "sh", "sleep",
            "sort", "tee", "touch")
NO_KIT = "no Rattle kit (rt is neither on the PATH nor in /opt/rattle/bin)"

# A kit that proves two crates and builds the program in the file `program`, in
# the crate's folder; `run` also runs it.  It notes each call in `calls`, with
# the folder, and fails or waits if a file says so.
RT = """\
#!/bin/sh
name=${PWD##*/}
cd ../.. || exit 1
echo "$* in $name" >>calls
prove() {
    echo "crate $1: modules loaded=0 checked=2"
    echo "logic=proved functions=1 statements=trusted"
}
prove trees >&2
[ ! -e rt-fails ] || { echo "logic=not-proved" >&2; exit 1; }
waited=0
while [ -e rt-waits ]; do
    sleep 0.05
    waited=$((waited + 1))
    [ "$waited" -lt 200 ] || { echo "rt: waited in vain"; exit 1; }
done
prove "$name" >&2
out=crates/$name/out
mkdir -p "$out"
case $1 in
run)
    cat program >"$out/$name"
    chmod +x "$out/$name"
    echo "rt: running out/$name" >&2
    "$out/$name"
    ;;
lib) echo >"$out/lib$name.a" ;;
esac
"""

# A C compiler that makes the program in the file `program` of anything.
CC = """\
#!/bin/sh
case $* in *-print-file-name*) echo /libc.a; exit ;; esac
for output; do :; done
cat program >"$output"
chmod +x "$output"
"""

LOADER = '#!/bin/sh\nshift 2\nexport LOADER=kit\nexec "$@"\n'
EMULATOR = '#!/bin/sh\n[ "$1" != -L ] || shift 2\nexec "$@"\n'
SHOWS_INPUT = "#!/bin/sh\nexec cat\n"
SHOWS_WORDS = '#!/bin/sh\nprintf "%s\\n" "$@"\n'


class Case(unittest.TestCase):
    """A folder with the scripts, and stand-ins beside it."""

    machine = "x86_64"
    filters = {"history": 4, "replay": 6}

    def setUp(self):
        self.folder = tempfile.mkdtemp()
        self.addCleanup(shutil.rmtree, self.folder)
        for name in COPIED:
            shutil.copytree(os.path.join(ROOT, name), self.path(name))
        self.write("crates/trees/src/lib.rt", "")
        for name in ("collector_c", "history", "replay"):
            self.write("crates/%s/src/main.rt" % name, "")
        self.write("crates.txt", "trees:\n")
        self.write("program", SHOWS_INPUT)
        self.make_commands()
        self.make_kit()

    def make_commands(self):
        os.mkdir(self.path("path"))
        for name in COMMANDS:
            found = shutil.which(name)
            if found:
                os.symlink(found, self.path("path/" + name))
        self.write("path/uname", "#!/bin/sh\necho %s\n" % self.machine)
        self.write("path/qemu-x86_64", EMULATOR)
        for name in ("cc", "x86_64-linux-gnu-gcc"):
            self.write("path/" + name, CC)

    def make_kit(self):
        self.write("kit/bin/rt", RT)
        self.write("kit/toolchain/lib/ld-linux-x86-64.so.2", LOADER)

    def path(self, name):
        return os.path.join(self.folder, name)

    def write(self, name, text):
        write(self.path(name), text)

    def environment(self):
        """The PATH without a kit; it may be in its folder all the same."""
        return {"PATH": self.path("path"), "RATTLE_HOME": self.path("kit")}

    def run_script(self, name, *words, text="", **more):
        more.setdefault("env", self.environment())
        more.setdefault("stdout", subprocess.PIPE)
        return subprocess.run(
            [self.path("bin/" + name), *words], input=text, text=True,
            stderr=subprocess.PIPE, check=False, timeout=60, **more)

    def calls(self):
        """What the kit was asked."""
        try:
            with open(self.path("calls"), encoding="utf-8") as file:
                return file.read().splitlines()
        except FileNotFoundError:
            return []

    def expect(self, run, status, out, err):
        """Compares a whole run; the lines of standard error are a list."""
        self.assertEqual((run.returncode, run.stdout, run.stderr.splitlines()),
                         (status, out, err))

    def remove_kit(self):
        shutil.rmtree(self.path("kit"))

    def remove_built(self):
        """All that was built, by rt too."""
        for name in ("target", "crates/history/out", "crates/replay/out"):
            shutil.rmtree(self.path(name), ignore_errors=True)

    def change_sources(self):
        """A source that is newer than all that was built."""
        later = time.time() + 2
        os.utime(self.path("crates/trees/src/lib.rt"), (later, later))


class Usage(Case):
    """What is answered before anything is built."""

    def tearDown(self):
        self.assertEqual(self.calls(), [])
        self.assertFalse(os.path.exists(self.path("target")))

    def test_help(self):
        for name, statuses in (("history", "02345"), ("replay", "02345"),
                               ("rackcheck", "01234")):
            run = self.run_script(name, "--help")
            self.assertEqual((run.returncode, run.stderr), (0, ""))
            self.assertTrue(run.stdout.startswith("usage: %s " % name))
            about = run.stdout[run.stdout.index("Exit status: 0 "):]
            for status in statuses:
                self.assertRegex(about, r"(: |; )%s [a-z]" % status)
            self.assertIn("above 128 a signal", about)

    def test_help_of_rackcheck_is_all_of_the_programs_own(self):
        with open(self.path("collector/rackcheck.c"),
                  encoding="utf-8") as file:
            source = file.read().split("static const char usage[] =\n")[1]
        lines = source.split(";\n\n")[0].split("\n")
        own = "".join(line.strip()[1:-3] + "\n" for line in lines)
        self.assertTrue(
            self.run_script("rackcheck", "--help").stdout.startswith(own))

    def test_help_that_cannot_be_written(self):
        for name, status in (("history", 5), ("replay", 5), ("rackcheck", 2)):
            with open("/dev/full", "w", encoding="utf-8") as full:
                run = self.run_script(name, "--help", stdout=full)
            self.assertEqual(run.returncode, status, run.stderr)

    def test_help_of_which_one_line_is_read(self):
        for name in ("history", "replay", "rackcheck"):
            with subprocess.Popen(
                    [self.path("bin/" + name), "--help"],
                    env=self.environment(), stdout=subprocess.PIPE,
                    stderr=subprocess.PIPE) as run:
                run.stdout.close()
                self.assertEqual((run.wait(60), run.stderr.read()), (0, b""))

    def test_arguments(self):
        for name, what in (("history", "TEXT"), ("replay", "REQUESTS")):
            for words in (["examples/small.txt"], ["--help", "more"], [""]):
                self.expect(self.run_script(name, *words), 2, "", [
                    "usage: %s < %s    (no arguments; %s --help says more)"
                    % (name, what, name)])

    def test_too_few_words(self):
        usage = self.run_script("rackcheck", "--help").stdout
        for words in ([], ["parents"], ["parents", "taxa"]):
            run = self.run_script("rackcheck", *words)
            self.expect(run, 2, "", [
                "rackcheck: two tables and at least one image are needed", "",
                *usage.splitlines()])

    def test_no_kit_and_no_program(self):
        self.remove_kit()
        for product, words in (("bin/history", []), ("bin/replay", []),
                               ("built/rackcheck", ["a", "b", "c"])):
            name = os.path.basename(product)
            self.expect(self.run_script(name, *words), 4, "", [
                "%s: %s, and target/%s was not built before"
                % (name, NO_KIT, product)])


class Building(Case):
    """What is said while something is built, and where the kit is found."""

    def test_first_and_second_run(self):
        for name, minutes in self.filters.items():
            self.remove_built()
            self.expect(self.run_script(name, text="1 2\n"), 0, "1 2\n", [
                "%s: proving and building Panheron: about %d minutes, once"
                % (name, minutes),
                "%s: trees proved" % name, "%s: %s proved" % (name, name)])
            self.expect(self.run_script(name, text="3\n"), 0, "3\n", [])
        self.assertEqual(self.calls(), ["run in history", "run in replay"])

    def test_rackcheck(self):
        self.write("program", SHOWS_WORDS)
        for said in ([
                "rackcheck: proving and building Panheron: about 6 minutes, "
                "once", "rackcheck: trees proved",
                "rackcheck: collector_c proved"], []):
            self.expect(self.run_script("rackcheck", "a", "b", "c d"),
                        0, "a\nb\nc d\n", said)
        self.assertEqual(self.calls(), ["lib in collector_c"])

    def test_changed_sources(self):
        self.run_script("history")
        self.change_sources()
        run = self.run_script("history")
        self.assertEqual(run.stderr.splitlines()[0],
                         "history: proving and building what is not proved "
                         "yet of Panheron: up to 4 minutes")
        self.assertEqual(self.calls(), 2 * ["run in history"])

    def test_source_that_is_gone_or_new(self):
        self.write("crates/trees/proofs/gone/Answers.antt", "")
        self.run_script("history")
        shutil.rmtree(self.path("crates/trees/proofs"))
        self.run_script("history")
        self.write("crates/trees/new", "")
        os.utime(self.path("crates/trees/new"), (0, 0))
        self.run_script("history")
        self.assertEqual(self.calls(), 3 * ["run in history"])

    def test_what_rt_makes_is_no_source(self):
        self.write("crates/trees/proofs/out/Answers.antt", "")
        self.run_script("history")
        later = time.time() + 2
        self.write("crates/trees/out/rlib/new", "")
        os.utime(self.path("crates/trees/out/rlib/new"), (later, later))
        os.utime(self.path("crates/trees"), (later, later))
        self.run_script("history")
        self.assertEqual(self.calls(), ["run in history"])
        os.utime(self.path("crates/trees/proofs/out/Answers.antt"),
                 (later, later))
        self.run_script("history")
        self.assertEqual(self.calls(), 2 * ["run in history"])

    def test_what_rt_made_of_other_sources_is_not_run(self):
        self.write("crates/history/out/history", SHOWS_WORDS)
        self.expect(self.run_script("history", text="1\n"), 0, "1\n", [
            "history: proving and building what is not proved yet of "
            "Panheron: up to 4 minutes",
            "history: trees proved", "history: history proved"])

    def test_progress_comes_while_it_builds(self):
        self.write("rt-waits", "")
        with subprocess.Popen(
                [self.path("bin/history")], env=self.environment(), text=True,
                stdin=subprocess.DEVNULL, stdout=subprocess.DEVNULL,
                stderr=subprocess.PIPE) as run:
            lines = [run.stderr.readline() for _ in range(2)]
            os.remove(self.path("rt-waits"))
            lines += run.stderr.readlines()
        self.assertEqual(lines[1:], ["history: trees proved\n",
                                     "history: history proved\n"])
        self.assertEqual(run.returncode, 0)

    def test_runs_at_the_same_time_build_once(self):
        if not shutil.which("flock"):
            self.skipTest("no flock")
        self.write("rt-waits", "")
        runs = [subprocess.Popen(
            [self.path("bin/history")], env=self.environment(), text=True,
            stdin=subprocess.DEVNULL, stdout=subprocess.DEVNULL,
            stderr=subprocess.PIPE) for _ in range(2)]
        time.sleep(0.5)
        os.remove(self.path("rt-waits"))
        said = sorted(run.communicate()[1].splitlines()[0] for run in runs)
        self.assertEqual(said, [
            "history: another run is building: waiting for it",
            "history: proving and building Panheron: about 4 minutes, once"])
        self.assertEqual([run.returncode for run in runs], [0, 0])
        self.assertEqual(self.calls(), ["run in history"])

    def test_what_is_not_proved_is_shown(self):
        self.write("rt-fails", "")
        run = self.run_script("replay")
        self.assertEqual((run.returncode, run.stdout), (3, ""))
        self.assertIn("logic=not-proved\nreplay: "
                      "target/bin/replay could not be built\n", run.stderr)
        os.remove(self.path("rt-fails"))
        self.assertEqual(self.run_script("replay").returncode, 0)

    def test_what_was_proved_before_is_not_run(self):
        self.run_script("history")
        self.change_sources()
        self.write("rt-fails", "")
        run = self.run_script("history", text="1\n")
        self.assertEqual((run.returncode, run.stdout), (3, ""))
        self.assertIn("could not be built", run.stderr)

    def test_nothing_made(self):
        self.write("kit/bin/rt", "#!/bin/sh\n")
        run = self.run_script("history")
        self.assertEqual(run.returncode, 3)
        self.assertIn("could not be built", run.stderr)

    def test_no_compiler(self):
        for name in ("cc", "x86_64-linux-gnu-gcc"):
            os.remove(self.path("path/" + name))
        run = self.run_script("rackcheck", "a", "b", "c")
        self.assertEqual(run.returncode, 3)
        self.assertIn("no C compiler", run.stderr)
        self.assertEqual(self.calls(), [])

    def test_kit_on_the_path(self):
        env = {"PATH": self.path("path") + ":" + self.path("kit/bin")}
        run = self.run_script("history", text="1\n", env=env)
        self.assertEqual((run.returncode, run.stdout), (0, "1\n"))


class Archive(Case):
    """tools/archive, for C programs."""

    def test_archive(self):
        path = self.path("target/staticlib/libcollector.a")
        for said in (["archive: proving and building Panheron: about 6 "
                      "minutes, once", "archive: trees proved",
                      "archive: collector_c proved"], []):
            self.expect(self.run_script("../tools/archive"), 0, path + "\n",
                        said)
        with open(path, encoding="utf-8") as file:
            self.assertEqual(file.read(), "\n")
        self.assertEqual(self.calls(), ["lib in collector_c"])


class Taken(Case):
    """tools/take-proved, behind `rt ci`."""

    def setUp(self):
        super().setUp()
        self.write("begun", "")
        for name in self.filters:
            self.write("crates/%s/out/%s" % (name, name), SHOWS_INPUT)

    def take(self):
        return self.run_script("../tools/take-proved", self.path("begun"))

    def test_programs_are_not_proved_again(self):
        self.expect(self.take(), 0, "", [])
        for name in self.filters:
            self.expect(self.run_script(name, text="1\n"), 0, "1\n", [])
        self.assertEqual(self.calls(), [])

    def test_source_that_changed_during_the_run(self):
        self.change_sources()
        self.take()
        self.run_script("history")
        self.assertEqual(self.calls(), ["run in history"])

    def test_nothing_left(self):
        os.remove(self.path("crates/replay/out/replay"))
        run = self.take()
        self.assertEqual(run.returncode, 3)
        self.assertIn("rt ci left no replay", run.stderr)


class WithoutKit(Case):
    """A program was built while there was a kit, and now there is none."""

    def test_current_program(self):
        for name in self.filters:
            self.run_script(name)
        self.run_script("rackcheck", "a", "b", "c")
        self.remove_kit()
        for name in self.filters:
            self.expect(self.run_script(name, text="1\n"), 0, "1\n", [])
        self.expect(self.run_script("rackcheck", "a", "b", "c"), 0, "", [])

    def test_older_program(self):
        for name in self.filters:
            self.run_script(name)
        self.run_script("rackcheck", "a", "b", "c")
        self.remove_kit()
        self.change_sources()
        said = ("%s: %s: running target/%s as it is, though the sources are "
                "newer")
        for name in self.filters:
            self.expect(self.run_script(name, text="1\n"), 0, "1\n",
                        [said % (name, NO_KIT, "bin/" + name)])
        self.expect(self.run_script("rackcheck", "a", "b", "c"), 0, "",
                    [said % ("rackcheck", NO_KIT, "built/rackcheck")])

    def test_program_of_unknown_age(self):
        self.run_script("history")
        self.remove_kit()
        os.remove(self.path("target/built/history.stamp"))
        self.expect(self.run_script("history", text="1\n"), 0, "1\n", [
            "history: %s: running target/bin/history as it is, though the "
            "sources may be newer" % NO_KIT])


class Running(Case):
    """What passes through a script, and how it ends."""

    def setUp(self):
        super().setUp()
        for name in self.filters:
            self.run_script(name)

    def becomes(self, script):
        for name in self.filters:
            self.write("target/bin/" + name, "#!/bin/sh\n" + script)

    def test_loader_is_the_kits(self):
        self.becomes("echo ${LOADER-none}\n")
        self.assertEqual(self.run_script("history").stdout, "kit\n")
        self.remove_kit()
        self.expect(self.run_script("history"), 0, "none\n", [])

    def test_bytes_pass_unchanged(self):
        data = bytes(range(256)) * 20000 + b"no line feed"
        for name in self.filters:
            run = subprocess.run(
                [self.path("bin/" + name)], env=self.environment(), input=data,
                capture_output=True, check=False)
            self.assertEqual((run.returncode, run.stderr), (0, b""))
            self.assertTrue(run.stdout == data)

    def test_output_comes_before_the_input_ends(self):
        with subprocess.Popen(
                [self.path("bin/replay")], env=self.environment(),
                stdin=subprocess.PIPE, stdout=subprocess.PIPE) as run:
            for line in (b"first\n", b"second\n"):
                run.stdin.write(line)
                run.stdin.flush()
                self.assertEqual(run.stdout.readline(), line)
            run.stdin.close()
            self.assertEqual(run.stdout.read(), b"")

    def test_output_that_cannot_be_written(self):
        for name in self.filters:
            for text in ("1\n", 100000 * "12345678\n"):
                with open("/dev/full", "w", encoding="utf-8") as full:
                    run = self.run_script(name, text=text, stdout=full)
                self.assertEqual(run.returncode, 5)
                self.assertEqual(run.stderr.splitlines()[-1],
                                 "%s: the output can't be written" % name)

    def test_nothing_to_write(self):
        with open("/dev/full", "w", encoding="utf-8") as full:
            run = self.run_script("history", stdout=full)
        self.assertEqual((run.returncode, run.stderr), (0, ""))

    def test_reader_that_has_enough(self):
        self.becomes("while :; do echo 1; done\n")
        with subprocess.Popen(
                [self.path("bin/history")], env=self.environment(),
                stdin=subprocess.DEVNULL, stdout=subprocess.PIPE,
                stderr=subprocess.PIPE) as run:
            self.assertEqual(run.stdout.readline(), b"1\n")
            run.stdout.close()
            self.assertEqual((run.wait(60), run.stderr.read()), (141, b""))

    def test_program_that_breaks_down(self):
        self.becomes("echo 1\nkill -9 $$\n")
        run = self.run_script("history")
        self.assertEqual((run.returncode, run.stdout), (137, "1\n"))

    def test_terminal(self):
        for name, what in (
                ("history", "the numbers of two trees (history --help says "
                            "which)"),
                ("replay", "requests (docs/REPLAY.md says of what numbers)")):
            keyboard, terminal = pty.openpty()
            os.write(keyboard, b"1 2\n\4")
            run = subprocess.run(
                [self.path("bin/" + name)], env=self.environment(),
                stdin=terminal, capture_output=True, text=True, check=False,
                timeout=60)
            os.close(terminal)
            os.close(keyboard)
            self.expect(run, 0, "1 2\n", [
                "%s: waiting for %s on standard input; Ctrl-D ends it"
                % (name, what)])

    def test_link_and_other_folder(self):
        self.write("program", SHOWS_WORDS)
        elsewhere = self.path("some where")
        os.mkdir(elsewhere)
        os.symlink("../bin", os.path.join(elsewhere, "bin"))
        os.symlink("bin/rackcheck", os.path.join(elsewhere, "link"))
        os.symlink("link", os.path.join(elsewhere, "check"))
        for command in ("./check", "bin/rackcheck",
                        os.path.join(elsewhere, "link")):
            run = subprocess.run(
                [command, "a", "../b", "c d"], cwd=elsewhere, text=True,
                env=self.environment(), capture_output=True, check=False)
            self.assertEqual((run.returncode, run.stdout),
                             (0, "a\n../b\nc d\n"), run.stderr)
        self.assertEqual(os.listdir(elsewhere).count("target"), 0)


class UsageOnArm(Usage):
    machine = "aarch64"


class BuildingOnArm(Building):
    machine = "aarch64"


class WithoutKitOnArm(WithoutKit):
    machine = "aarch64"


class RunningOnArm(Running):
    machine = "aarch64"


if __name__ == "__main__":
    signal.alarm(120)  # a run that waits for ever is a failure
    unittest.main()
