# What bin/history and bin/replay share: they read standard input, take no
# arguments, and run a program that has no exit status of its own.
#
# A script reads tools/common.sh before this file, and has a variable `usage` and
# a function `help`.
#
# shellcheck shell=bash
# shellcheck disable=SC2154 # root and usage are set by the script

unwritten=5 # the exit status if the output can't be written

# Answers --help, and all other arguments by the usage line.
read_arguments() { # ARGUMENTS..
    [ $# -gt 0 ] || return 0
    [ "$*" != --help ] || show_help "$unwritten"
    printf '%s\n' "$usage" >&2
    exit 2
}

# The program does not say whether its output could be written; cat does.
run_filter() { # NAME WHAT-IT-READS
    [ ! -t 0 ] || say "waiting for $2 on standard input; Ctrl-D ends it"
    run_linked "$root/target/bin/$1" | cat
    local ended=("${PIPESTATUS[@]}")
    case ${ended[1]} in
    0) exit "${ended[0]}" ;;
    141) exit 141 ;; # the reader had enough, as `head` has
    esac
    say "the output can't be written"
    exit "$unwritten"
}
