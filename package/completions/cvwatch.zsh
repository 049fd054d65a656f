#compdef cvwatch cvwatch-image-to-layers cvwatch-feed-to-lines cvwatch-scan-one cvwatch-scan-many cvwatch-findings-table cvwatch-layer-seal cvwatch-deliver-hooks
# Completions of cvwatch and its scripts for zsh. What they offer is read from the pages that --help prints.

# the lines on the commands, as `serve [--workers N]`
local -a commands options
local line
if [[ $service == cvwatch ]]; then
    commands=(${(f)"$(cvwatch --help 2>&1 >/dev/null | sed -n 's/^  cvwatch //p')"})
    if (( CURRENT == 2 )); then
        compadd -- ${commands%% *}
    elif [[ $words[CURRENT-1] == --workers ]]; then
        compadd -- {1..8}
    else
        line=${commands[(r)$words[2] *]}
        options=(${(f)"$(grep -oE -e '--[a-z-]+' <<<$line)"})
        if (( CURRENT == 3 )); then
            options+=(${(s:|:)"$(grep -oE '[a-z]+(\|[a-z]+)+' <<<$line)"})
        fi
        compadd -- $options
    fi
elif [[ $words[CURRENT] == -* ]]; then
    options=(--help ${(f)"$($service --help 2>/dev/null | grep -E '^(usage:|  --)' | grep -oE -e '--[a-z-]+')"})
    compadd -- ${(u)options}
else
    _files
fi
