# What ./vcdedit and ./first-look share, up to the program that they run: each says $me, $crate, $program and $log, and
# reads $top.

# Says one line on standard error.
say() {
    echo "$me: $*" >&2
}

# Says what was asked for where the answer needs no program: help and the version are files here, each shown by a case.
answer_from_the_tree() { # PROGRAM WORD
    local answer
    case "$2" in
        -h | --help) answer=help ;;
        -V | --version) answer=version ;;
        *) return ;;
    esac
    if ! cat "$top/launch/$1-$answer.txt" 2>/dev/null; then
        echo "$1: replies: write fault" >&2
        exit 4
    fi
    exit 0
}

# Puts the program's crate, and those that it stands on by crates.txt, into $crates.
find_crates() {
    local name names at
    local -A below
    while IFS=: read -r name names; do
        [[ -z "$name" ]] || below[$name]=$names
    done < "$top/crates.txt"
    crates=("$crate")
    for ((at = 0; at < ${#crates[@]}; at++)); do
        for name in ${below[${crates[at]}]-}; do
            [[ ! -d "$top/crates/$name" || " ${crates[*]} " == *" $name "* ]] || crates+=("$name")
        done
    done
}

# Whether the program is missing, or older than a source of its crates.
is_old() {
    [[ ! -x "$program" || -n "$(cd "$top/crates" && find ../crates.txt "${crates[@]}" -name out -prune -o \
        \( -name '*.rt' -o -name '*.antt' -o -name crates.txt \) -newer "$program" -print -quit)" ]]
}

# Ends where the toolchain is not there.
want_rt() {
    if ! command -v rt > /dev/null; then
        say "rt is not on the path: the Rattle kit has it in bin/; begin with START-HERE.md, the kit's first page" \
            "(README.md names the kit's version)"
        exit 70
    fi
}

# Runs MAKER where the program is old; of several calls at once the first does.
make_once() { # MAKER
    local lock
    mkdir -p "$(dirname "$program")"
    exec {lock}> "$program.lock"
    flock "$lock"
    if is_old; then
        "$1" {lock}>&-
    fi
    exec {lock}>&-
}

# Starts a command in a process group of its own, whose number is $started: it ends with this script.
start() { # COMMAND..
    begun=$(date +%s.%N)
    SECONDS=0
    set -m
    "$@" > "$log" 2>&1 &
    started=$!
    set +m
    trap 'kill -- "-$started" 2>/dev/null; wait "$started"; exit 130' INT TERM HUP
}

# Waits for what was started; a terminal shows meanwhile how long it runs, and how far it is. Ends if it failed.
finish() {
    local status=0
    while [[ -t 2 ]] && kill -0 "$started" 2>/dev/null; do
        printf '\r\e[K%s: %s%s' "$me" "$(duration)" "$(progress)" >&2
        sleep 1
    done
    [[ ! -t 2 ]] || printf '\r\e[K' >&2
    wait "$started" || status=$?
    trap - INT TERM HUP
    if ((status != 0)); then
        tail -n 20 "$log" >&2
        say "the build failed after $(duration)"
        exit 70
    fi
    # a source that was changed since the start is newer
    touch -d "@$begun" "$program"
}

# How long the build has taken.
duration() {
    echo "$((SECONDS / 60)) min $((SECONDS % 60)) s"
}

# What is being proved, or how far the prover is in the crate that it works on, by its log.
progress() {
    local line
    line=$(grep -aE '^(proving|so far:) ' "$log" 2>/dev/null | tail -n 1)
    echo "${line:+, ${line%%;*}}"
}
