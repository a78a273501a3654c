#!/bin/sh
# Tests rackcheck on a folder of accepted, stale and damaged images.
#
#   tests/c/test_rackcheck.sh [COMMAND..]
#
# COMMAND runs rackcheck, which has to be built; without one it is built and run
# as bin/rackcheck.  The images and the reports expected for them are made by
# rack_folder.py from the Python reference; all else that is expected is typed in
# here.  Whole outputs and exit statuses are compared.  Prints `N passed, M
# failed`.
set -u
here=$(dirname "$(readlink -f "$0")")
if [ $# -eq 0 ]; then
    root=$(dirname "$(dirname "$here")")
    . "$root/tools/common.sh"
    ensure_rackcheck
    set -- "$root/bin/rackcheck"
fi

work=$(mktemp -d) || exit 2
trap 'rm -rf "$work"' EXIT
mkdir "$work/rack"
python3 "$here/rack_folder.py" "$work/rack" || exit 2
cd "$work/rack" || exit 2

passed=0 failed=0

note() { # NAME, after a test that sets $?
    if [ "$?" -eq 0 ]; then
        passed=$((passed + 1))
    else
        failed=$((failed + 1))
        echo "FAILED: $1"
    fi
}

# Compares a run that ended with $status and wrote ../out and ../err.
expect() { # NAME STATUS OUT ERR: two files
    [ "$status" -eq "$2" ]
    note "$1: status $status, expected $2"
    diff -u "$3" ../out
    note "$1: standard output"
    diff -u "$4" ../err
    note "$1: standard error"
}

# Expects one line on standard error, no report, and status 2.
expect_unusable() { # NAME LINE
    printf '%s\n' "$2" >../line
    expect "$1" 2 /dev/null ../line
}

# images: every kind at once
# shellcheck disable=SC2046
"$@" parents taxa $(cat images.txt) >../out 2>../err
status=$?
expect "all images" 1 report.txt /dev/null

"$@" parents taxa good-* >../out 2>../err
status=$?
expect "good images" 0 good.txt /dev/null

# the same release numbered the other way round, with images of its own
"$@" parents-turned taxa-turned turned-* >../out 2>../err
status=$?
expect "a release in any order" 0 turned.txt /dev/null

"$@" parents taxa missing >../out 2>../err
status=$?
cat >../report <<'END'
missing: can't be read: No such file or directory
accepted: 0, with 0 duplications and 0 losses
refused: 0
unreadable: 1
END
expect "a missing image" 1 ../report /dev/null

# names that could be taken for something else
cp good-00 -- --help
cp good-00 'two words'
"$@" parents taxa --help 'two words' >../out 2>../err
status=$?
rm -- --help
expect "odd names" 0 times-2.txt /dev/null

"$@" parents taxa good-00 good-00 good-00 >../out 2>../err
status=$?
expect "one image three times" 0 times-3.txt /dev/null

# a release that can't be used is named once, and no image is judged
for table in parents-short parents-odd parents-empty; do
    "$@" "$table" taxa good-* missing >../out 2>../err
    status=$?
    bytes=$(($(wc -c <"$table")))
    expect_unusable "$table" "rackcheck: the release itself: refused 1 1 0: $bytes bytes of parents and 124 of taxa are not 2 and 4 for each of 1 to 2047 species nodes; no image was judged"
done
"$@" parents-outside taxa good-* >../out 2>../err
status=$?
expect_unusable "a parent that is no node" "rackcheck: the release itself: refused 2 1 3: the parent of species node 3 is no node of the tree, or a second root's 65535; no image was judged"
"$@" parents-two-roots taxa good-* >../out 2>../err
status=$?
expect_unusable "two roots" "rackcheck: the release itself: refused 2 1 30: the parent of species node 30 is no node of the tree, or a second root's 65535; no image was judged"
"$@" parents-rootless taxa good-* >../out 2>../err
status=$?
expect_unusable "no root" "rackcheck: the release itself: refused 2 1 65535: the species tree has no root: no parent is 65535; no image was judged"
"$@" parents-round taxa good-* >../out 2>../err
status=$?
expect_unusable "a node that is its own parent" "rackcheck: the release itself: refused 38 1 0: going up from species node 0 never leads to the root; no image was judged"
"$@" parents taxa-repeated good-* >../out 2>../err
status=$?
expect_unusable "a repeated taxon" "rackcheck: the release itself: refused 5 1 30: species node 30 repeats the taxon of a leaf before it; no image was judged"
"$@" missing taxa good-* >../out 2>../err
status=$?
expect_unusable "no parents" "rackcheck: missing: can't be read: No such file or directory"
"$@" parents a-folder good-* >../out 2>../err
status=$?
expect_unusable "taxa in a folder" "rackcheck: a-folder: can't be read: Is a directory"

# usage
"$@" --help >../help 2>../err
status=$?
[ "$status" -eq 0 ] && [ ! -s ../err ] && grep -q '^usage: rackcheck PARENTS TAXA IMAGE' ../help
note "--help"
{
    printf "rackcheck: two tables and at least one image are needed\n\n"
    cat ../help
} >../usage
"$@" >../out 2>../err
status=$?
expect "no words" 2 /dev/null ../usage
"$@" parents taxa >../out 2>../err
status=$?
expect "no images" 2 /dev/null ../usage

# a report that can't be written
if [ -w /dev/full ]; then
    "$@" parents taxa good-00 >/dev/full 2>../err
    status=$?
    : >../out
    expect_unusable "a full disk" "rackcheck: the report can't be written"
fi

# progress: on a terminal alone, and never in the report
python3 - "$@" >../out 2>../err <<'END'
import os, pty, subprocess, sys
reader, writer = pty.openpty()
command = sys.argv[1:] + ["parents", "taxa"] + 70 * ["good-00"]
run = subprocess.run(command, stdout=subprocess.PIPE, stderr=writer)
os.write(writer, b"end")  # so that there is something to read
shown = os.read(reader, 4096)
sys.stdout.buffer.write(run.stdout)
sys.exit(run.returncode if b"64 of 70 images" in shown else 9)
END
status=$?
expect "progress" 0 times-70.txt /dev/null

echo "$passed passed, $failed failed"
[ "$failed" -eq 0 ]
