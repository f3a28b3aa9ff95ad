# Completion of vcdedit and its tools for bash: their options, as --help lists them, and names of signals. Files are left
# to bash. `make install` puts it where bash looks for each command.
_vcdedit() {
    local word=${COMP_WORDS[COMP_CWORD]} prefix=
    COMPREPLY=()
    case ${COMP_WORDS[COMP_CWORD - 1]} in
        --keep | --remove | --map)
            # A `:` of a range parts words, and what is before it stays.
            [[ $COMP_WORDBREAKS == *:* && $word == *:* ]] && prefix=${word%"${word##*:}"}
            mapfile -t COMPREPLY < <(_vcdedit_names "${1%-*}" | grep -F -- "$word" | while IFS= read -r name; do
                [[ $name == "$word"* ]] && printf '%q\n' "${name#"$prefix"}"
            done)
            ;;
        *)
            [[ $word != -* ]] || mapfile -t COMPREPLY < <(compgen -W "$("$1" --help 2> /dev/null |
                sed -nE 's/^ +(-[a-zA-Z])?( [A-Z]+)?(, )?(--[a-z-]+).*/\1 \4/p')" -- "$word")
            ;;
    esac
}

# The names of the signals of the first capture on the line, if they are there within half a second.
_vcdedit_names() { # PROGRAM
    local path
    for path in "${COMP_WORDS[@]:1}"; do
        [[ -f $path ]] || continue
        timeout 0.5 "$1" -i "$path" 2> /dev/null | sed -n 's/^@[0-9]* [0-9]* [^ ]* //p'
        return
    done
}
complete -o default -F _vcdedit vcdedit vcdedit-amend vcdedit-apply vcdedit-compare vcdedit-table vcdedit-view
