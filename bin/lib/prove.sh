# shellcheck shell=bash disable=SC2154
# Functions of bin/build and clients/build, which run at the top of the repository and set
#
#   name       what is built, as messages name it
#   log        a file of theirs, for what the prover prints
#   started    a file of theirs that is as old as the build
#
# `check` calls `prove_all` with the first of them.

. "${BASH_SOURCE[0]%/*}/stamp.sh"

# Prints the crates of this repository that a crate stands on, each before those that use it, and itself last.
crates_of() {
    local crate
    {
        # shellcheck disable=SC2013
        for crate in $(sed -n "s/^$1\( staticlib\)\{0,1\}: *//p" crates.txt); do
            [ ! -d "crates/$crate" ] || crates_of "$crate"
        done
        echo "$1"
    } | awk '!seen[$0]++'
}

# Prints a stamp of the folders and files of which a crate is built. Further ones follow its name.
sources_of() {
    local crate folder
    local -a sources=(crates.txt "${@:2}")
    for crate in $(crates_of "$1"); do
        for folder in src specs proofs; do
            if [ -d "crates/$crate/$folder" ]; then
                sources+=("crates/$crate/$folder")
            fi
        done
    done
    stamp_of "${sources[@]}"
}

# Prints how many functions of a crate have been proved since the build began.
count_proved() {
    find "crates/$1/out/incremental" -name '*.Proof.oantt' ! -name '*.TheImpl.Proof.oantt' -newer "$started" 2>/dev/null | wc -l
}

# Hands on what `prove` and `rt` print, and says on standard error how far they are, and the time so far: which crate is being
# proved, and how many of its functions are, or, of as many crates as are named, how many are proved. On a terminal it says so on one
# line that is rewritten each second and erased at the end, and elsewhere in a line each minute. Says, too, if `rt` waits for
# another. It stops if the script was killed.
show_progress() {
    local line rest='' crates=${1:-} proved=0 crate='' of='' functions='' status told=0 is_terminal=
    ! [ -t 2 ] || [ "${TERM:-dumb}" = dumb ] || is_terminal=yes
    while kill -0 $$ 2>/dev/null; do
        if [ -n "$crates$crate" ] && { [ -n "$is_terminal" ] || [ $((SECONDS / 60)) != "$told" ]; }; then
            told=$((SECONDS / 60))
            line="$proved of $crates crates are proved"
            [ -n "$crates" ] || line="proving $crate$of, $(count_proved "$crate")$functions functions"
            line="$name: $line, $told min $((SECONDS % 60)) s"
            if [ -n "$is_terminal" ]; then
                printf '\r%s\e[K' "$line" >&2
            else
                echo "$line" >&2
            fi
        fi
        status=0
        IFS= read -r -t 1 line || status=$?
        line=$rest$line rest=''
        # Above 128 if the second is over, perhaps within a line; 1 at the end of the output.
        [ "$status" -le 128 ] || { rest=$line; continue; }
        [ "$status" -ne 1 ] || { printf %s "$line"; break; }
        printf '%s\n' "$line"
        case $line in
            'crate '*' of '*': '*) crate=${line##*: } of=" (${line%%:*})" functions='' ;;
            'so far: '*' of '*' functions checked'*) functions=${line%% functions*} functions=" of ${functions##* }" ;;
            'rt: '*': its tests are proved') ;;
            'rt: '*' proved' | 'rt: '*' is kept: '*) proved=$((proved + 1)) ;;
            'rt: waiting for another rt to finish in '*)
                [ -z "$is_terminal" ] || printf '\r\e[K' >&2
                echo "$name: waiting for another run in ${line##* in }" >&2 ;;
        esac
    done
    [ -z "$is_terminal" ] || printf '\r\e[K' >&2
}

# Builds the libraries below a crate, each by itself, and then runs a command of `rt` in the crate's folder. (That command would build
# them, too, but first it would read all sources once more.)
prove_each() {
    local crate number=0
    local -a crates
    mapfile -t crates < <(crates_of "$1")
    for crate in "${crates[@]}"; do
        number=$((number + 1))
        echo "crate $number of ${#crates[@]}: $crate"
        if [ "$crate" = "$1" ]; then
            (cd "crates/$crate" && "${@:2}")
        else
            (cd "crates/$crate" && rt lib) || return
        fi
    done
}

# Runs `rt ci`. Crates that are named are proved ahead, each by a run of its own, which gives them more processors; `rt ci` takes what
# they prove, and it alone judges. A run that has proved the crates below goes on before another run can take these. So the first
# proves the library, and the others begin then, and `rt ci` last.
run_ci() {
    local it status=0 first=${1:-}
    for it; do
        rt ci "$it" > "ahead-$it.log" 2>&1 &
        while [ "$it" = "$first" ] && kill -0 $! 2>/dev/null; do
            ! grep -Eqs '^rt: string_interner (proved|is kept)' "ahead-$it.log" || break
            sleep 1
        done
    done
    [ $# = 0 ] || sleep "${ahead_seconds:-5}"
    rt ci || status=$?
    wait
    return "$status"
}

# Proves all crates of the tree at hand, those that are named ahead of the others, and shows how far it is.
prove_all() {
    local it status=0 crates=(crates/*)
    run_ci "$@" </dev/null 2>&1 | show_progress "${#crates[@]}" || status=$?
    for it; do
        cat "ahead-$it.log"
    done
    return "$status"
}

# The same as `prove_each`. Shows how far it is, and prints what was said if it fails.
prove() {
    if prove_each "$@" </dev/null 2>&1 | show_progress > "$log"; then
        return
    fi
    cat "$log" >&2
    return 1
}

# Builds a crate from the records of its proof, and returns whether they fit. The script ends where one is damaged.
build_from_records() {
    local status=0
    python3 tools/records.py build "$1" || status=$?
    [ "$status" = 0 ] || [ "$status" = 3 ] || exit "$status"
    [ "$status" = 0 ]
}
