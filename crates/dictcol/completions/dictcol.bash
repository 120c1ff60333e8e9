# Completes the words of dictcol in bash: what `dictcol --help` names, and files.
_dictcol() {
    local word=${COMP_WORDS[COMP_CWORD]} before=${COMP_WORDS[COMP_CWORD - 1]} help commands offered
    help=$("${COMP_WORDS[0]}" --help 2>/dev/null) || return
    # `--backend=string` is three words here.
    [ "$word" != = ] || word=
    [ "$before" != = ] || before=${COMP_WORDS[COMP_CWORD - 2]}
    commands=$(sed -nE 's/^(usage:|      ) dictcol ([a-z]+) .*/\2/p' <<<"$help")
    # The line of an option names its values behind a colon.
    offered=$(awk -v option="$before" '/^  / && $1 == option && sub(/.*: /, "") { gsub(/,| or/, ""); print }' <<<"$help")
    if [ -z "$offered" ] && [[ $word == -* ]]; then
        offered=$(grep -oE '(^|[^a-z-])--?[a-z][a-z0-9-]*' <<<"$help" | tr -d '[ ')
    elif [ -z "$offered" ] && ! printf '%s\n' "${COMP_WORDS[@]:1:COMP_CWORD-1}" | grep -qxF "$commands"; then
        offered=$commands
    fi
    mapfile -t COMPREPLY < <(compgen -W "$offered" -- "$word")
}
complete -o bashdefault -o default -F _dictcol dictcol
