# What the tests of this folder have in common. The variables passed, failed and deploy_scratch (a folder) are used here, and by what
# serves also program (a path), serving and ports.

# held NAME COMMAND..: the command ends with status 0
held() {
    local name=$1
    shift
    if "$@" > "$deploy_scratch/held" 2>&1; then
        passed=$((passed + 1))
    else
        echo "FAILED: $name:"
        head -c 2000 -- "$deploy_scratch/held"
        failed=$((failed + 1))
    fi
}

# is NAME TEXT TEXT: the two are the same
is() {
    if [ "$2" = "$3" ]; then
        passed=$((passed + 1))
    else
        printf 'FAILED: %s: %s, wanted %s\n' "$1" "$2" "$3"
        failed=$((failed + 1))
    fi
}

# reached NAME SECONDS COMMAND..: the command ends with status 0 before long; a failure is counted
reached() {
    if ! until_held "${@:2}"; then
        echo "FAILED: $1"
        failed=$((failed + 1))
    fi
}

# missing NAME COMMAND..: reports that this is skipped where one of the commands is not there
missing() {
    local name=$1 word
    shift
    for word in "$@"; do
        if ! command -v "$word" > /dev/null; then
            echo "skipped: $name (no $word)"
            return 0
        fi
    done
    return 1
}

# until_held SECONDS COMMAND..: the command ends with status 0 before long: in so many seconds, or in five times as many on a busy machine
until_held() {
    local end=$((SECONDS + 5 * $1))
    shift
    until "$@" > /dev/null 2>&1; do
        if [ "$SECONDS" -ge "$end" ]; then return 1; fi
        sleep 0.1
    done
}

taken() { (exec 3<> "/dev/tcp/127.0.0.1/$1") 2> /dev/null; }

# ended PID..: none of these processes is there
ended() {
    local it
    for it in "$@"; do
        if [ -e "/proc/$it" ]; then return 1; fi
    done
}

# ten ports that nobody serves, from $ports on; of those of this part of the tests (tests/part), where it is one
free_ports() {
    local n
    for _ in 1 2 3 4 5 6 7 8 9; do
        ports=$((${ROOMS_PORTS:-10000} + RANDOM % (${PORTS_OF_PART:-10000} / 10) * 10))
        for n in 0 1 2 3 4 5 6 7 8 9; do
            if taken $((ports + n)); then continue 2; fi
        done
        return
    done
}

# serve_at DB PORT: a process that serves it; its id is added to $serving
serve_at() {
    "$program" serve "$1" "$2" 100000 > "$1.served" 2>&1 < /dev/null &
    serving+=($!)
    reached "nothing serves $1" 20 grep -q '^serving ' "$1.served"
}

stop_serving() {
    local id
    for id in ${serving[@]+"${serving[@]}"}; do
        kill "$id" 2> /dev/null
        wait "$id" 2> /dev/null
    done
    serving=()
}
