# shellcheck shell=bash
# Sourced by every script that builds. The script has set `tool`, its name in messages, and -euo pipefail.
#
# `rt` keeps its state in each crate's out/, and the tools keep what they build in target/. One caller builds at a time, so that the others take what
# it has built. Beside a file that was built stands what it was made of, as a sum of the crates' files. Where these are still the same, it is taken
# as it stands, and `rt` is not needed.

root=$(cd "$(dirname "$(readlink -f "${BASH_SOURCE[0]}")")/.." && pwd)
built=$root/target/tools
library=$root/target/staticlib/libtushalets.a
exports=tushalets_c # the crate that is the library

fail() {
    printf '%s: %s\n' "${tool:?}" "$1" >&2
    exit 2
}

# For a script without arguments: only --help is taken.
no_arguments() {
    case $#:${1-} in
        0:) ;;
        *:-h | *:--help)
            usage
            exit 0
            ;;
        *)
            usage >&2
            exit 2
            ;;
    esac
}

# A name as an error line shows it: quoted where it has to be, and cut where it is long.
quoted() {
    local most=80
    if [ "${#1}" -le "$most" ]; then
        printf '%q' "$1"
    else
        printf '%q... (%d characters)' "${1:0:most}" "${#1}"
    fi
}

# The lock is on the checkout's folder. `rt` inherits it, so an `rt` that outlived its tool still keeps others out.
lock() {
    exec 9< "$root"
    flock --nonblock 9 && return
    echo "$tool: another build runs in this checkout; waiting for it" >&2
    flock 9
}

unlock() {
    exec 9<&-
}

# A sum of all files that a build depends on; not of what `rt` leaves in out/.
sum_of_crates() {
    (cd "$root" && find crates.txt crates -type d \( -name must-fail -o -name out \) -prune -o -type f -print0 | sort -z | xargs -0 sha256sum | sha256sum)
}

is_current() {
    [ -f "$1" ] && [ -f "$1.made-of" ] && [ "$(< "$1.made-of")" = "$(sum_of_crates)" ]
}

# keep FILE AS: FILE becomes AS, made of what the crates were when the build began. A crate that was changed meanwhile differs.
keep() {
    rm -f "$2.made-of"
    mv "$1" "$2"
    mv "$built/made-of" "$2.made-of"
}

# Ends all that the running `rt` has started, and this script with the status $1.
stop_rt() {
    local groups
    trap '' HUP INT TERM
    groups=$(jobs -p | sed 's/^/-/')
    for signal in TERM TERM TERM TERM TERM KILL; do
        # shellcheck disable=SC2086
        kill -s "$signal" -- $groups 2> /dev/null || exit "$1"
        sleep 0.3
    done
    exit "$1"
}

# Of what `rt` prints, a line for each crate that it has proved. The verdict stands behind the line that names the crate.
show_proved() {
    sed -nu -e '/^crate \([a-z0-9_]*\): modules .*/{s//\1/;h;}' -e "/^logic=proved /{x;s|.*|$tool: & proved|p}"
}

# run_rt FOLDER COMMAND..: runs `rt` in this folder of the checkout, in a process group of its own, and shows a line for each crate as it is proved.
# All that it prints is in `log`.
run_rt() {
    local status=0 folder=$root/$1
    shift
    log=$built/rt.log
    trap 'stop_rt 129' HUP
    trap 'stop_rt 130' INT
    trap 'stop_rt 143' TERM
    set -m
    (
        set +m
        trap - HUP INT TERM
        cd "$folder" || exit
        rt "$@" < /dev/null 2>&1 | tee "$log" | show_proved >&2
    ) &
    set +m
    wait "$!" || status=$?
    trap - HUP INT TERM
    return "$status"
}

# The same, where nothing else makes sense if it fails. The first errors are shown too, since the last lines can be those of other crates.
build() {
    run_rt "$@" || {
        { tail -n +21 <(tac "$log") | tac | grep -m 10 ': error' || true; } >&2
        tail -n 20 "$log" >&2
        fail "rt ${*:2} failed in $1"
    }
}

# Called under the lock, before the first `rt`.
begin_build() {
    command -v rt > /dev/null || fail "the Rattle toolchain (rt) is not on the path"
    mkdir -p "$built"
    sum_of_crates > "$built/made-of"
}

# Proves and links a program of the checkout. `program` is then its path.
build_program() {
    program=$built/$1
    is_current "$program" && return
    lock
    if ! is_current "$program"; then
        begin_build
        echo "$tool: proving and building the program $1; from nothing this takes some minutes" >&2
        build "crates/$1" run
        cp "$root/crates/$1/out/$1" "$program.new"
        keep "$program.new" "$program"
    fi
    unlock
}

# Proves the exported functions and builds `library`, for Rust, C and C++ to link.
build_library() {
    is_current "$library" && return
    lock
    if ! is_current "$library"; then
        begin_build
        echo "$tool: proving and building the library; from nothing this takes some minutes" >&2
        build "crates/$exports" lib
        mkdir -p "${library%/*}"
        cp "$root/crates/$exports/out/lib$exports.a" "$built/library.new"
        keep "$built/library.new" "$library"
    fi
    unlock
}

# The library for what is linked next: of the folder that TUSHALETS_LIB_DIR names, or of this checkout, built where it has changed.
use_library() {
    local folder
    if [ -z "${TUSHALETS_LIB_DIR-}" ]; then
        unset TUSHALETS_LIB_DIR
        build_library
        return
    fi
    folder=$(realpath -e -- "$TUSHALETS_LIB_DIR" 2> /dev/null) || fail "TUSHALETS_LIB_DIR names no folder: $(quoted "$TUSHALETS_LIB_DIR")"
    library=$folder/${library##*/}
    [ -f "$library" ] || fail "there is no $(quoted "$library")"
    export TUSHALETS_LIB_DIR=$folder
}
