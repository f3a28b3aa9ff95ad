# Completion of vcdedit and its tools for fish: their options, as --help lists them, names of signals and files.
# `make install` puts it where fish looks for each command.
# The names of the signals of the first capture on the line, if they are there within half a second.
function __vcdedit_names
    set -l words (commandline -opc) (commandline -ct)
    for path in $words[2..]
        test -f $path; or continue
        timeout 0.5 (string replace -r -- '-[a-z]+$' '' $words[1]) -i $path 2>/dev/null |
            string replace -rf '^@\d+ \d+ \S+ ' ''
        return
    end
end

set -l tool (basename (status filename) .fish)
for row in ($tool --help 2>/dev/null | string match -r -- '^ +(?:-\w(?: \S+)?, )?--[a-z-]+.*')
    set -l option (string match -r -- '--([a-z-]+)(?: <?([A-Z=]+)>?)?' $row)
    set -l about (string match -r -- '--[a-z-]+(?: [<A-Z=> ]+)?  +(\S.*)$' $row)[2]
    set -l words -c $tool -l $option[2] -d "$about" (string replace -rf -- '^ +-(\w).*' '-s$1' $row)
    switch "$option[3]"
        case PATTERN OLD=NEW
            complete $words -x -a '(__vcdedit_names)'
        case ''
            complete $words
        case '*'
            complete $words -r -F
    end
end
