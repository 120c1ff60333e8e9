# Completes the words of dictcol in fish: what `dictcol --help` names, and files.
function __dictcol_commands
    dictcol --help | sed -nE 's/^(usage:|      ) dictcol ([a-z]+) .*/\2/p'
end

function __dictcol_options
    dictcol --help | grep -oE '(^|[^a-z-])--?[a-z][a-z0-9-]*' | tr -d '[ ' | sort -u
end

# The line of an option names its values behind a colon.
function __dictcol_values
    set -l before (commandline -poc)[-1]
    dictcol --help | awk -v option="$before" '/^  / && $1 == option && sub(/.*: /, "") { gsub(/,| or/, ""); gsub(/ /, "\n"); print }'
end

complete -c dictcol -n 'not __fish_seen_subcommand_from (__dictcol_commands)' -fa '(__dictcol_commands)'
complete -c dictcol -n 'string match -q -- "-*" (commandline -ct)' -a '(__dictcol_options)'
complete -c dictcol -n 'test -n "$(__dictcol_values)"' -fa '(__dictcol_values)'
