# Strangers and faults, on the built program. tests/part sources this file; the functions of tests/lib.sh and the variables of tests/part
# are used here.

# tried NAME WORD..: a test in Python ended well; what it skipped and its last line are shown, and all of its lines where it failed
tried() {
    local name=$1
    shift
    if PYTHONDONTWRITEBYTECODE=1 python3 "$@" > "$scratch/out" 2> "$scratch/err"; then
        passed=$((passed + 1))
        grep '^skipped: ' "$scratch/out"
        printf '%s: %s\n' "$name" "$(tail -n 1 -- "$scratch/out")"
    else
        echo "FAILED: $name:"
        head -c 20000 -- "$scratch/out"
        tail -n 5 -- "$scratch/err"
        failed=$((failed + 1))
    fi
}

# turned batches and positions for 90 seconds of processor time each of up to four processes; the seed is printed with a failure
run_turned() {
    if ! command -v python3 > /dev/null; then
        echo 'skipped: turned batches (no python3)'
        return
    fi
    tried 'turned batches and positions' tests/hostile/hostile.py "$program" "$quick/turned" 90
}

# requests of strangers for 20 seconds of processor time each
run_strangers() {
    if ! command -v python3 > /dev/null; then
        echo 'skipped: strange requests (no python3)'
        return
    fi
    tried 'requests of strangers' tests/hostile/strangers/run.py "$program" "$quick/strangers" 20
}

run_hostile_hands() {
    if ! command -v python3 > /dev/null; then
        echo 'skipped: broken peers, slow callers and peers, stopped programs (no python3)'
        return
    fi
    tried 'peers and clients that break off' tests/hostile/peers.py "$program" "$quick/peers"
    tried 'callers who are silent or slow' tests/hostile/patience.py "$program" "$quick/patience"
    tried 'peers who are silent or slow' tests/hostile/slow_peers.py "$program" "$quick/slow_peers"
    tried 'programs with sockets that are stopped and go on' tests/hostile/continued.py "$program" "$quick/continued"
}

# where it is listened at, and callers who take no reply
run_sockets() {
    if ! command -v python3 > /dev/null; then
        echo 'skipped: where databases are listened at, callers who take no reply (no python3)'
        return
    fi
    tried 'where databases are listened at' tests/hostile/listening.py "$program" "$quick/listening"
    tried 'callers who take no reply, or take it slowly' tests/hostile/takers.py "$program" "$quick/takers"
}

run_faults() {
    if ! command -v python3 > /dev/null; then
        echo 'skipped: killed commands, limited files (no python3)'
        return
    fi
    tried 'killed commands, limited files, closed outputs' tests/faults/faults.py "$program" "$quick/faults" 200 1
}

run_failed_disk() {
    if ! command -v python3 > /dev/null; then
        echo 'skipped: failing disks, no descriptors (no python3)'
        return
    fi
    tried 'a served database whose disk fails' tests/faults/failed_disk.py "$program" "$quick/failed_disk"
    tried 'a served database whose process may open no more files' tests/faults/descriptors.py "$program" "$quick/descriptors"
}

run_questions() {
    if ! command -v python3 > /dev/null; then
        echo 'skipped: questions that write nothing (no python3)'
        return
    fi
    tried 'questions that write nothing' tests/files/questions.py "$program" "$quick/questions"
    tried 'questions by trees and by SQL' tests/files/trees.py "$program" "$quick/trees"
}

# refusing PROGRAM SERVED ASKED: memory is refused to these (tests/faults/refused_memory.py)
refusing() {
    if ! command -v python3 > /dev/null; then
        echo 'skipped: memory that is refused (no python3)'
        return
    fi
    if ! command -v cc > /dev/null && ! command -v gcc > /dev/null && ! command -v clang > /dev/null; then
        echo 'skipped: memory that is refused (no C compiler)'
        return
    fi
    tried 'memory that is refused' tests/faults/refused_memory.py "$@" "$quick/memory" tests/scripts/equal_times.script examples/commit_reorders.script tests/scripts/chain.script \
        tests/scripts/dropped_commits.script tests/scripts/cancel_of_moved.script tests/scripts/cancel_and_rebook.script
}

# each allocation of scripts, and of requests to a server, and many of commands on databases, is refused
run_refused_memory() {
    refusing "$program" - -
}

# the same of what is asked over lists and over databases in memory, in built tests
run_refused_memory_of_tests() {
    if not_gated 'memory that is refused to built tests'; then return; fi
    refusing - crates/mr_web_tests/out/mr_web_tests_tests crates/mr_sql_tests/out/mr_sql_tests_tests
}
