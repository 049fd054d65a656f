# Completions of cvwatch and its scripts for fish. What they offer is read from the pages that --help prints.

# the lines on the commands, as `serve [--workers N]`
function __cvwatch_commands
    cvwatch --help 2>&1 >/dev/null | string replace -rf '^  cvwatch (.*)' '$1'
end

# what may stand after a command
function __cvwatch_arguments
    set -l words (commandline -opc)
    if test $words[-1] = --workers
        seq 8
        return
    end
    set -l line (__cvwatch_commands | string match -r "^$words[2] .*")
    string match -ra -- '--[a-z-]+' $line
    if test (count $words) = 2
        string match -r '[a-z]+(?:\|[a-z]+)+' $line | string split '|'
    end
end

# the options of a script
function __cvwatch_options
    set -l words (commandline -opc)
    echo --help
    $words[1] --help 2>/dev/null | string match -r '^(?:usage:|  --).*' | string match -ra -- '--[a-z-]+'
end

complete -c cvwatch -f
complete -c cvwatch -n __fish_use_subcommand -a '(__cvwatch_commands | string split -f 1 " ")'
complete -c cvwatch -n 'not __fish_use_subcommand' -a '(__cvwatch_arguments)'
for script in image-to-layers feed-to-lines scan-one scan-many findings-table layer-seal deliver-hooks
    complete -c cvwatch-$script -n 'string match -q -- "-*" (commandline -ct)' -a '(__cvwatch_options)'
end
