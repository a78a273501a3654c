#!/bin/sh
# The deepest stack that each call of the archive can need, from its machine code.
#
#   bench/stack.sh [--check] [ARCHIVE]
#
# Without ARCHIVE it is built first.  stack.py reads the disassembly and says what
# it counts.  With --check a call that needs more than its limit there, or is
# missing, is an error.  The exit status is 0 if every call could be followed.
set -u
root=$(dirname "$(dirname "$(readlink -f "$0")")")
. "$root/tools/common.sh"

check=
if [ "${1:-}" = --check ]; then
    check=--check
    shift
fi
if [ $# -gt 0 ]; then
    archive=$1
else
    ensure_archive
    archive=$root/$archive
fi

objdump=x86_64-linux-gnu-objdump
command -v "$objdump" >/dev/null || [ "$machine" != x86_64 ] || objdump=objdump
command -v "$objdump" >/dev/null \
    || fail "no objdump for x86-64: install the Debian package binutils (x86-64) or binutils-x86-64-linux-gnu"

work=$(mktemp -d) || exit 3
trap 'rm -rf "$work"' EXIT
"$objdump" -dr --no-show-raw-insn "$archive" >"$work/code" || fail "$archive can't be disassembled"
python3 "$root/bench/stack.py" $check <"$work/code"
