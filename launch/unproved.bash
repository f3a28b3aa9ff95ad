# Builds programs without a proof, for ./first-look and checks/quick. They say $me, and read $top.
. "$top/launch/building.bash"

# Builds the program of a crate where it is missing or old.
build_unproved() { # CRATE
    crate=$1
    program="$top/out/first_look/${crate//_/-}"
    log="$program.txt"
    find_crates
    ! is_old || make_once try
}

try() {
    want_rt
    work="$(mktemp -d)"
    trap 'rm -rf "$work"' EXIT
    start compile
    finish
    rm -rf "$work"
}

# `rt try` keeps no program. So it gets a folder of ours to work in, and the program is copied while it runs there: on a
# capture that takes it some seconds, with the words of its crate, or on two of these.
compile() {
    local words=() running
    cd "$top/crates/$crate" || exit
    [[ ! -e args ]] || mapfile -t words < args
    [[ ! -e data ]] || words=("$work/capture" "$work/capture")
    { echo '$var wire 1 ! x $end $enddefinitions $end #0 0!' && seq -f '#%.0f 1!' 1 100000; } > "$work/capture"
    TMPDIR="$work" rt try -- "${words[@]}" < "$work/capture" &
    while kill -0 "$!" 2> /dev/null; do
        running="$(find /proc/[0-9]*/cwd -lname "$work/*" -printf '%l/program' -quit 2> /dev/null)"
        if [[ -f "$running" ]] && cp "$running" "$program.new"; then
            kill "$!"
            mv "$program.new" "$program"
            exit
        fi
        sleep 0.1
    done
    echo "no program came of rt try"
    exit 1
}
