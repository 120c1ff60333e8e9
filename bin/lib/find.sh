# shellcheck shell=sh disable=SC2034,SC2154
# Finds a program of this repository. `intern`, `dictcol` and `install` read this file once they have set `root` to the top of the
# repository.
set -eu

. "$root/bin/lib/stamp.sh"

# Whether there is a program in a folder, named from the top, and no source of it is newer.
is_built() {
    [ -x "$root/$1/out/$2" ] && is_current "$1/out/bin-$2.stamp"
}

# Whether this command, `rt` or cargo, can build in this folder.
can_build() {
    [ -w "$root/$2" ] && "has_$1"
}

# Sets `program` to the path of a program that is not older than its sources, by the crate's name, and an argument with which, and
# with no input, it ends well. If there is none, bin/build makes one: with `rt`, and by cargo on a machine without it. Where nothing
# can be built, in a folder that cannot be written, too, it is the program that is there.
find_program() {
    proved=crates/$1 compiled=clients/programs
    built_in=$proved
    if is_built "$proved" "$1"; then
        :
    elif can_build rt "$proved"; then
        "$root/bin/build" "$1" "$2"
    elif is_built "$compiled" "$1"; then
        built_in=$compiled
    elif can_build cargo "$compiled"; then
        "$root/bin/build" --cargo "$1"
        built_in=$compiled
    else
        [ -x "$root/$proved/out/$1" ] || built_in=$compiled
        if [ ! -x "$root/$built_in/out/$1" ]; then
            echo "$1: the program is not built, and cannot be built here: that takes rt, the Rattle toolchain, or cargo and a C compiler, and a folder that can be written" >&2
            exit 1
        fi
        echo "$1: this program may be older than its sources, and cannot be built here" >&2
    fi
    program=$root/$built_in/out/$1
}
