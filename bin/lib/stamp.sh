# shellcheck shell=sh disable=SC2154
# Functions of bin/lib/find.sh, bin/lib/prove.sh, clients/build and tools/release.

# Whether this machine has the toolchain. Other programs have the name of its command, too.
#
# bin/lib/find.sh calls this at each start of a program that cargo built, so without `rt` it starts no process.
has_rt() {
    command -v rt > /dev/null || return 1
    case $(rt version 2> /dev/null < /dev/null) in
        *' logic '*) ;;
        *) return 1 ;;
    esac
}

# Whether it has cargo.
has_cargo() {
    command -v cargo > /dev/null
}

# Prints a sum over the names of files and what they hold. A folder stands for all files in it.
sum_of() {
    find "$@" -type f -exec sha256sum {} + | LC_ALL=C sort | sha256sum
}

# Prints a stamp of sources, at the top of the repository: a line with them, and one with their sum.
stamp_of() {
    echo "$*"
    sum_of "$@"
}

# Whether no source is newer than a stamp, which is named from the top of the repository, $root. Its time is that of the build's
# start: what is edited while a build runs is newer. A source that is gone counts as newer, too. If a source has an older time and
# came or was linked here since, the sum decides whether it changed.
#
# bin/lib/find.sh calls this at each start, so it starts one process, `find`, and no other, unless there is such a source.
# shellcheck disable=SC2086
is_current() {
    [ -e "$root/$1" ] || return 1
    { read -r sources; read -r sum || sum=; } < "$root/$1"
    found=$(cd -P "$root" && find $sources \( -newer "$1" -printf n -quit \) -o \( -cnewer "$1" -printf c \) 2>&1)
    case $found in
        '') ;;
        *[!c]*) return 1 ;;
        *) [ "$(cd -P "$root" && sum_of $sources)" = "$sum" ] ;;
    esac
}
