# The end of ./vcdedit and of the scripts that `make install` makes: runs $program with the words given.

# The memory in KiB that the machine, and each control group of this process, can still give, without swap. Kernels
# before 3.14 do not say what they can give: then it is the machine's memory. With less than 40 MiB no program begins.
memory_in_kib() {
    while read -r name size _; do
        case $name in
            MemTotal:) least=$size ;;
            MemAvailable:) least=$size && break ;;
        esac
    done < /proc/meminfo
    while IFS=: read -r _ controllers group; do
        case ",$controllers," in
            ,,) lower_to_limits "/sys/fs/cgroup$group" memory.max memory.current ;;
            *,memory,*) lower_to_limits "/sys/fs/cgroup/memory$group" memory.limit_in_bytes memory.usage_in_bytes ;;
        esac
    done < /proc/self/cgroup
    [ "$least" -ge 40960 ] || least=40960
    echo "$least"
}

# Takes the least that a group and those above it can still give. A limit is in bytes, or `max`.
lower_to_limits() { # FOLDER LIMIT HELD
    folder=$1
    while [ "$folder" != /sys/fs ]; do
        if [ -r "$folder/$2" ] && read -r bytes < "$folder/$2" && [ "$bytes" != max ]; then
            left=$(((bytes - $(held_bytes "$folder" "$3")) / 1024))
            [ "$left" -ge "$least" ] || least=$left
        fi
        folder=${folder%/*}
    done
}

# The bytes that a group holds, without those of files, which the system can drop.
held_bytes() { # FOLDER HELD
    held=0
    if [ -r "$1/$2" ] && [ -r "$1/memory.stat" ]; then
        read -r held < "$1/$2"
        while read -r name size; do
            case $name in active_file | inactive_file) held=$((held - size)) ;; esac
        done < "$1/memory.stat"
    fi
    echo "$held"
}

# A growth past this memory is refused, and the run ends with status 5, before the system would end it.
if [ "$(ulimit -v)" = unlimited ] && [ -r /proc/meminfo ] && [ -r /proc/self/cgroup ]; then
    ulimit -S -v "$(memory_in_kib)" 2> /dev/null
fi

# Large pages, where the C library knows them (glibc 2.35): a large capture takes up to a third less time.
export GLIBC_TUNABLES="${GLIBC_TUNABLES-glibc.malloc.hugetlb=1}"

# The folder in which vcdedit-amend writes the output that these words name: beside it, or beside what it leads to.
folder_of_output() { # WORD..
    before='' output=''
    for word; do
        case $before=$word in
            -o=* | --output-file=*) output=$word ;;
            *=--output-file=*) output=${word#*=} ;;
            *=-o?*) output=${word#-o} ;;
        esac
        before=$word
    done
    [ -n "$output" ] && output=$(readlink -f -- "$output") && echo "${output%/*}/.${output##*/}.vcdedit"
}

# Runs the program to its end, also where that is a signal, and ends with its status. The program has a lock on the
# folder while it runs, so a folder that nobody has locked then is left over, and is removed. What was standard input
# is 9: a shell has none for what it runs beside itself.
run_with_output() { # FOLDER WORD..
    folder=$1
    shift
    "$program" "$@" <&9 9<&- &
    trap 'kill "$!"' HUP INT TERM
    status=0
    wait "$!" 2> /dev/null || status=$?
    while kill -0 "$!" 2> /dev/null; do
        wait "$!" 2> /dev/null || status=$?
    done
    if [ "$status" -gt 128 ] && [ -d "$folder" ]; then
        flock -n "$folder" rm -rf "$folder" 2> /dev/null
    fi
    exit "$status"
}

case $program in
    *vcdedit?amend)
        if folder=$(folder_of_output "$@") && (: 9<&0) 2> /dev/null && ! (: <&9) 2> /dev/null; then
            run_with_output "$folder" "$@" 9<&0
        fi
        ;;
esac
exec "$program" "$@"
