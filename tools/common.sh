# What the scripts of bin/, bench/ and tests/ share: building what is missing or
# out of date, and running x86-64 programs on x86-64 and on Arm.
#
# A script sets `root` to the top folder of the repository and then reads this
# file.  What is built lies in target/; rt itself builds in crates/NAME/out, and
# what it made there is copied from it.
#
# shellcheck shell=sh
# shellcheck disable=SC2154 # root is set by the script

built=$root/target/built
machine=$(uname -m)

# The kit is on the PATH, or in its folder where the PATH is as short as cron's.
command -v rt >/dev/null || PATH=$PATH:${RATTLE_HOME:-/opt/rattle}/bin
has_kit() { command -v rt >/dev/null; }

say() { printf '%s: %s\n' "${0##*/}" "$*" >&2; }

fail() {
    say "$@"
    exit 3
}

# Answers --help by the script's `help`.  A reader that had enough, as `head`
# has, is no error.
show_help() { # STATUS: if it can't be written
    help
    case $? in
    0 | 141) exit 0 ;;
    esac
    say "the help can't be written"
    exit "$1"
}

# What --help says of a program's building, and the exit statuses that come of it.
help_on_building() { # MINUTES
    cat <<END

The program is proved and built before its first run, in about $1 minutes, and
again after a change of its sources.  That needs the Rattle kit, on the PATH or
in /opt/rattle/bin.  Where there is none, a program built before is run as it is.

More exit statuses: 3 the program could not be built, or nothing here can run
it; 4 there is neither the kit nor a program built before; above 128 a signal
ended the program.
END
}

# ---- building

# The files that a product is made of, but for those that rt makes.
list_sources() { # SOURCES TEST..: names without spaces, below the root; a test of find
    sources=$1
    shift
    # shellcheck disable=SC2086
    (cd "$root" && find $sources -path 'crates/*/out' ! -path 'crates/*/*/*' -prune \
        -o ! -type d "$@" -print | LC_ALL=C sort)
}

# Whether a product is there, and its sources are those that its stamp lists, none
# changed since its building began.
is_current() { # PRODUCT SOURCES
    stamp=$built/${1##*/}.stamp
    [ -e "$root/$1" ] && [ -e "$stamp" ] || return 1
    [ "$(list_sources "$2")" = "$(cat "$stamp")" ] && [ -z "$(list_sources "$2" -newer "$stamp")" ]
}

# Shows what a builder announces, and each crate that rt has proved, as it comes.
show_progress() {
    while IFS= read -r line; do
        case $line in
        'announced: '*) say "${line#announced: }" ;;
        'crate '*': modules '*) crate=${line#crate } ;;
        'logic=proved '*) say "${crate%%:*} proved" ;;
        esac
    done
}

# Builds a product; all that the builder says is shown only if it fails.
build() { # PRODUCT SOURCES COMMAND..
    product=$1
    base=$built/${1##*/}
    rm -f "$base.ended"
    list_sources "$2" >"$base.begun"
    shift 2
    { (cd "$root" && "$@") </dev/null 2>&1 && mv "$base.begun" "$base.ended"; } \
        | tee "$base.log" | show_progress
    if [ ! -e "$base.ended" ] || [ ! -e "$root/$product" ]; then
        cat "$base.log" >&2
        fail "$product could not be built"
    fi
    mv "$base.ended" "$base.stamp"
}

take_turn() {
    command -v flock >/dev/null || return 0
    flock -n 9 && return
    say "another run is building: waiting for it"
    flock 9
}

# Builds a product unless it is current.  Runs at the same time take turns.
ensure() { # PRODUCT SOURCES COMMAND..
    ! is_current "$1" "$2" || return 0
    mkdir -p "$built" || fail "no folder $built"
    [ -w "$built" ] || fail "nothing can be built: $built can't be written to"
    (
        take_turn
        is_current "$1" "$2" && exit
        build "$@"
    ) 9>"$built/lock" || exit 3
}

# Without a kit, a program that was built before has to do.
use_old() { # PROGRAM
    no_kit='no Rattle kit (rt is neither on the PATH nor in /opt/rattle/bin)'
    if [ ! -e "$root/$1" ]; then
        say "$no_kit, and $1 was not built before"
        exit 4
    fi
    newer='are newer'
    [ -e "$built/${1##*/}.stamp" ] || newer='may be newer'
    say "$no_kit: running $1 as it is, though the sources $newer"
}

# Minutes are those of two cores, from nothing.
announce() { # MINUTES
    for out in crates/*/out; do
        if [ -e "$out" ]; then
            echo "announced: proving and building what is not proved yet of Panheron: up to $1 minutes"
            return
        fi
    done
    echo "announced: proving and building Panheron: about $1 minutes, once"
}

# A copy takes its place in one step: the one before may be running.
take() { # FILE PRODUCT: below the root
    mkdir -p "${2%/*}" && cp "$1" "$2.new" && mv "$2.new" "$2"
}

# rt builds no program without running it: on an empty input, with status 0.
prove_program() { # NAME MINUTES
    announce "$2"
    (cd "crates/$1" && rt run >/dev/null) && take "crates/$1/out/$1" "target/bin/$1"
}

prove_archive() {
    announce 6
    (cd crates/collector_c && rt lib) && take crates/collector_c/out/libcollector_c.a "$archive"
}

crates='crates crates.txt'
archive=target/staticlib/libcollector.a

ensure_program() { # NAME MINUTES
    if has_kit; then
        ensure "target/bin/$1" "$crates" prove_program "$@"
    elif ! is_current "target/bin/$1" "$crates"; then
        use_old "target/bin/$1"
    fi
}

ensure_archive() {
    has_kit || is_current "$archive" "$crates" || fail "no Rattle kit to build $archive with"
    ensure "$archive" "$crates" prove_archive
}

# ---- C for x86-64

strict='-std=c11 -Wall -Wextra -Wpedantic -Wconversion'

# Sets `cc`, and `link` to what it needs to link a program that runs here.
find_compiler() {
    if [ "$machine" = x86_64 ]; then
        cc=${CC:-cc} link=
        command -v "$cc" >/dev/null || fail "no C compiler: install the Debian packages gcc libc6-dev"
        return
    fi
    cc=x86_64-linux-gnu-gcc link=-static missing=
    command -v "$cc" >/dev/null || missing=' gcc-x86-64-linux-gnu'
    case $("$cc" -print-file-name=libc.a 2>/dev/null) in
    /*) ;;
    *) missing="$missing libc6-dev-amd64-cross" ;;
    esac
    [ -z "$missing" ] || fail "no C compiler for x86-64: install the Debian packages$missing"
}

compile() { # OUTPUT WORDS..
    output=$1
    shift
    # shellcheck disable=SC2086
    "$cc" $strict -O2 -I "$root/include" "$@" $link -o "$output"
}

compile_rackcheck() { compile target/built/rackcheck collector/rackcheck.c "$archive"; }

ensure_rackcheck() {
    if ! has_kit && ! is_current "$archive" "$crates"; then
        use_old target/built/rackcheck
        return
    fi
    # rather no compiler now than after minutes of proving
    [ -e "$built/rackcheck" ] || find_compiler
    ensure_archive
    is_current target/built/rackcheck "collector include $archive" || find_compiler
    ensure target/built/rackcheck "collector include $archive" compile_rackcheck
}

# ---- running

# Sets `tools` to the kit's folder with a loader and a C library, if there is a kit.
find_kit() {
    home=${RATTLE_HOME:-}
    if [ -z "$home" ] && has_kit; then
        home=$(dirname "$(dirname "$(readlink -f "$(command -v rt)")")")
    fi
    tools=$home/toolchain
}

# Sets `emulator`, empty on x86-64.
find_emulator() {
    emulator=
    [ "$machine" != x86_64 ] || return 0
    emulator=$(command -v qemu-x86_64) || fail "no emulator for x86-64: install the Debian package qemu-user"
}

# Becomes a program of C.
run_static() { # PROGRAM ARGUMENTS..
    find_emulator
    exec ${emulator:+"$emulator"} "$@"
}

# Becomes a program that rt linked, run by the kit's own loader and C library,
# which it was linked with.  Without a kit those of the machine must do.
run_linked() { # PROGRAM ARGUMENTS..
    find_emulator
    find_kit
    loader=$tools/lib/ld-linux-x86-64.so.2
    if [ -x "$loader" ]; then
        exec ${emulator:+"$emulator"} "$loader" --library-path "$tools/lib" "$@"
    fi
    exec ${emulator:+"$emulator" -L /usr/x86_64-linux-gnu} "$@"
}
