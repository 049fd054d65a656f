# shellcheck shell=bash
# Completions of cvwatch and its scripts for bash. What they offer is read from the pages that --help prints.

# the lines on the commands, as `serve [--workers N]`
_cvwatch_commands() { cvwatch --help 2>&1 >/dev/null | sed -n 's/^  cvwatch //p'; }

_cvwatch() {
    local word=${COMP_WORDS[COMP_CWORD]} line offered=
    if [ "$COMP_CWORD" = 1 ]; then
        offered=$(_cvwatch_commands | sed 's/ .*//')
    elif [ "${COMP_WORDS[COMP_CWORD - 1]}" = --workers ]; then
        offered='1 2 3 4 5 6 7 8'
    else
        line=$(_cvwatch_commands | grep "^${COMP_WORDS[1]} ")
        offered=$(grep -oE -e '--[a-z-]+' <<<"$line")
        if [ "$COMP_CWORD" = 2 ]; then
            offered+=" $(grep -oE '[a-z]+(\|[a-z]+)+' <<<"$line" | tr '|' ' ')"
        fi
    fi
    mapfile -t COMPREPLY < <(compgen -W "$offered" -- "$word")
}

# the options of a script, and files
_cvwatch_script() {
    local word=${COMP_WORDS[COMP_CWORD]}
    if [[ $word == -* ]]; then
        mapfile -t COMPREPLY < <(compgen -W "--help $("$1" --help 2>/dev/null | grep -E '^(usage:|  --)' | grep -oE -e '--[a-z-]+')" -- "$word")
    else
        compopt -o filenames
        mapfile -t COMPREPLY < <(compgen -f -- "$word")
    fi
}

complete -F _cvwatch cvwatch
complete -F _cvwatch_script cvwatch-image-to-layers cvwatch-feed-to-lines cvwatch-scan-one cvwatch-scan-many cvwatch-findings-table cvwatch-layer-seal cvwatch-deliver-hooks
