# Runs parts of the tests on the built program side by side (tests/parts.sh), each with folders and ports of its own. ./test sources this file; its variables
# scratch, quick, passed and failed are used here.

# the parts that run, each with its process; how each that ended did so
declare -A running=() ended=()

# as many parts at once as processors, and no more than there is memory for
parts_at_once() {
    local most memory
    most=$(nproc)
    memory=$(awk -v each="$MEMORY_OF_PART" '/^MemAvailable:/ { print int($2 / 1024 / each) }' /proc/meminfo)
    if [ "${memory:-$most}" -lt "$most" ]; then most=$memory; fi
    echo $((most > 1 ? most : 1))
}

# longest_first NAME..: these parts, the longest first
longest_first() {
    local name
    for name in "$@"; do echo "$(seconds_of "$name") $name"; done | sort -s -k1,1nr | cut -d ' ' -f 2
}

# limit_of NAME: after how many seconds the part is broken off
limit_of() { echo $(($(seconds_of "$1") * 10 + 300)); }

# begin_part NAME PORT
begin_part() {
    local name=$1
    mkdir -p -- "$scratch/$name" "$quick/$name"
    # (it is the first of a group of processes, all of which end with it)
    timeout -k 20 "$(limit_of "$name")" tests/part "$name" "$scratch/$name" "$quick/$name" "$2" > "$scratch/$name.told" 2>&1 < /dev/null &
    running[$name]=$!
}

# end_parts: takes away those that have ended
end_parts() {
    local name
    for name in "${!running[@]}"; do
        if kill -0 "${running[$name]}" 2> /dev/null; then continue; fi
        wait "${running[$name]}"
        ended[$name]=$?
        kill -KILL -- "-${running[$name]}" 2> /dev/null
        unset "running[$name]"
        rm -rf -- "${scratch:?}/$name" "${quick:?}/$name"
        echo "test: ${#ended[@]} of $count parts ended after $((SECONDS - began)) seconds, $name with status ${ended[$name]}; at work: ${!running[*]}" >&2
    done
}

stop_parts() {
    local name
    for name in "${!running[@]}"; do kill -- "${running[$name]}" 2> /dev/null; done
    wait
}

# show_part NAME: what it printed, and its counts
show_part() {
    local name=$1 status=${ended[$1]}
    cat -- "$scratch/$name.told"
    sed -n 's/^skipped: //p' "$scratch/$name.told" >> "$scratch/skipped"
    case $status in
        0 | 1) count_of "the part $name" "$scratch/$name.told" "$name: " ;;
        124)
            echo "FAILED: the part $name was broken off after $(limit_of "$name") seconds"
            failed=$((failed + 1))
            ;;
        *)
            echo "FAILED: the part $name ended with status $status"
            failed=$((failed + 1))
            ;;
    esac
}

# show_skipped: how much was skipped, and what, in one line
show_skipped() {
    awk '{ names = names (count++ ? "; " : ": ") $0 } END { print count + 0 " skipped" names }' "$scratch/skipped"
}

# run_parts NAME..: what they print is shown whole, in this order
run_parts() {
    local -a waiting shown=("$@")
    local at_once began=$SECONDS count=$# port=$FIRST_PORT
    : > "$scratch/skipped"
    at_once=$(parts_at_once)
    mapfile -t waiting < <(longest_first "$@")
    trap 'stop_parts; exit 130' INT TERM
    while [ ${#shown[@]} -gt 0 ]; do
        while [ ${#waiting[@]} -gt 0 ] && [ ${#running[@]} -lt "$at_once" ]; do
            begin_part "${waiting[0]}" "$port"
            waiting=("${waiting[@]:1}")
            port=$((port + PORTS_OF_PART))
            if [ "$port" -gt $((20000 - PORTS_OF_PART)) ]; then port=$FIRST_PORT; fi
        done
        sleep 0.2
        end_parts
        while [ ${#shown[@]} -gt 0 ] && [ -n "${ended[${shown[0]}]-}" ]; do
            show_part "${shown[0]}"
            shown=("${shown[@]:1}")
        done
    done
    trap - INT TERM
}
