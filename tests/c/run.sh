#!/bin/sh
# Tests the archive and rackcheck from C.
#
#   tests/c/run.sh [ARCHIVE]
#
# Without ARCHIVE it is built first, and rackcheck is run as bin/rackcheck; with
# one, all tests are linked with it.  The last tests compare the calls with the
# Python reference.  The exit status is 0 if all passed.
set -u
root=$(dirname "$(dirname "$(dirname "$(readlink -f "$0")")")")
. "$root/tools/common.sh"

find_compiler
find_emulator
work=$(mktemp -d) || exit 3
trap 'rm -rf "$work"' EXIT

if [ $# -gt 0 ]; then
    archive=$1
    compile "$work/rackcheck" "$root/collector/rackcheck.c" "$archive" || exit 3
    set -- ${emulator:+"$emulator"} "$work/rackcheck"
else
    ensure_archive
    archive=$root/$archive
    set -- "$root/bin/rackcheck"
fi
compile "$work/test_collector" "$root/tests/c/test_collector.c" "$archive" || exit 3
compile "$work/test_history" "$root/tests/c/test_history.c" "$archive" || exit 3
compile "$work/answers" -DASK_PANHERON "$root/bench/answers.c" "$archive" || exit 3
compile "$work/answers_history" -DASK_PANHERON "$root/bench/answers_history.c" "$archive" || exit 3

status=0
echo "test_collector:"
${emulator:+"$emulator"} "$work/test_collector" || status=1
echo "test_history:"
${emulator:+"$emulator"} "$work/test_history" || status=1
echo "test_rackcheck:"
"$root/tests/c/test_rackcheck.sh" "$@" || status=1
echo "images, compared with the reference:"
python3 "$root/bench/compare.py" --cases 4000 --large 4 ${emulator:+"$emulator"} "$work/answers" || status=1
echo "histories, compared with the reference:"
python3 "$root/bench/compare_history.py" --cases 4000 --large 120 ${emulator:+"$emulator"} "$work/answers_history" \
    || status=1
exit $status
