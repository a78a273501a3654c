#!/bin/sh
# Measures panheron_refusal and panheron_history against C: executed instructions,
# and stack.
#
#   bench/run.sh [ARCHIVE]
#
# Without ARCHIVE it is built first.  fast C is fast.c; bytewise C is the same
# with the check of a block as 01 writes it, a byte at a time; plain C is
# history.c, in two kilobytes.  Instructions are those of one call: the difference of
# two runs that differ in the number of calls alone, by valgrind or, where there
# is none, by qemu and icount.c.  They vary by some ten from run to run, with where
# the stack begins.  Of the stack it is the bytes down to the lowest that a call
# writes to, the most over all rows, and then what stack.sh reads from the code.
set -u
root=$(dirname "$(dirname "$(readlink -f "$0")")")
. "$root/tools/common.sh"

calls=10
shapes='balanced random caterpillar balanced-shuffled random-shuffled caterpillar-shuffled'
sizes='15,15 255,255 2047,2047 2047,31'

# The C library's copying by one instruction that repeats itself would be counted
# a byte at a time: have it done in steps.
steps=glibc.cpu.x86_rep_movsb_threshold=1000000000
steps=$steps:glibc.cpu.x86_rep_stosb_threshold=1000000000

find_compiler
find_emulator
work=$(mktemp -d) || exit 3
trap 'rm -rf "$work"' EXIT

if [ $# -gt 0 ]; then
    archive=$1
else
    ensure_archive
    archive=$root/$archive
fi

link=-static
here=$root/bench
compile "$work/fast.o" -O3 -funroll-loops -c "$here/fast.c" || exit 3
compile "$work/bench" -I "$here" "$here/bench.c" "$here/history.c" "$work/fast.o" "$archive" || exit 3

# ---- counting

find_counter() {
    counter=valgrind
    [ "$machine" = x86_64 ] && command -v valgrind >/dev/null && return
    counter=qemu
    command -v qemu-x86_64 >/dev/null \
        || fail "nothing counts instructions: install the Debian package valgrind (x86-64) or qemu-user"
    cc -shared -fPIC -O2 -o "$work/icount.so" "$here/icount.c" || fail "icount.c could not be built"
}

# The instructions of a whole run of bench.
count() { # WORDS..
    if [ "$counter" = valgrind ]; then
        GLIBC_TUNABLES=$steps valgrind --tool=callgrind --callgrind-out-file=/dev/null "$work/bench" "$@" 2>&1 \
            | sed -n 's/.*Collected *: *//p'
    else
        GLIBC_TUNABLES=$steps qemu-x86_64 -plugin "$work/icount.so" "$work/bench" "$@" 2>&1 \
            | sed -n 's/^instructions //p'
    fi
}

# The instructions of one call, which has to accept what it is given.
instructions() { # CALL SHAPE P Q
    ${emulator:+"$emulator"} "$work/bench" "$@" 1 || fail "refused: $*"
    once=$(count "$@" "$calls")
    twice=$(count "$@" $((2 * calls)))
    case :$once:$twice: in *::*) fail "no count of: $*" ;; esac
    echo $(((twice - once) / calls))
}

ratio() { awk -v a="$1" -v b="$2" 'BEGIN { printf "%.2f", a / b }'; }

# ---- the tables

find_counter
printf '%-20s %5s %5s %12s %12s %6s %12s %6s\n' refusal p q Panheron 'fast C' ratio 'bytewise C' ratio
for size in $sizes; do
    p=${size%,*} q=${size#*,}
    for shape in $shapes; do
        panheron=$(instructions panheron_refusal "$shape" "$p" "$q") || exit 3
        fast=$(instructions fast_refusal "$shape" "$p" "$q") || exit 3
        bytewise=$(instructions fast_refusal_bytewise "$shape" "$p" "$q") || exit 3
        printf '%-20s %5d %5d %12d %12d %6s %12d %6s\n' "$shape" "$p" "$q" "$panheron" \
            "$fast" "$(ratio "$panheron" "$fast")" "$bytewise" "$(ratio "$panheron" "$bytewise")"
    done
done

printf '\n%-20s %5s %5s %12s %12s %6s\n' history p q Panheron 'plain C' ratio
for size in $sizes; do
    p=${size%,*} q=${size#*,}
    for shape in $shapes; do
        panheron=$(instructions panheron_history "$shape" "$p" "$q") || exit 3
        plain=$(instructions plain_history "$shape" "$p" "$q") || exit 3
        printf '%-20s %5d %5d %12d %12d %6s\n' "$shape" "$p" "$q" "$panheron" \
            "$plain" "$(ratio "$panheron" "$plain")"
    done
done

printf '\n%-24s %s\n' call 'bytes written'
for size in $sizes; do
    for shape in $shapes; do
        ${emulator:+"$emulator"} "$work/bench" stack "$shape" "${size%,*}" "${size#*,}"
    done
done | awk '
    !($1 in most) { order[++n] = $1 }
    $2 > most[$1] { most[$1] = $2 }
    END { for (i = 1; i <= n; i++) printf "%-24s %d\n", order[i], most[order[i]] }'

echo
"$here/stack.sh" "$archive"
