# Generated worlds (tests/oracle/worlds), and a large replica. tests/part sources this file; the functions of tests/lib.sh and the variables of tests/part are used here.

# a hundred thousand replies in each of three ways (as scripts, as commands on databases, over HTTP), each compared with a plain form's
run_worlds() {
    if ! command -v python3 > /dev/null; then
        echo 'skipped: generated worlds (no python3)'
        return
    fi
    PYTHONDONTWRITEBYTECODE=1 python3 tests/oracle/worlds/run.py "$program" "$quick/worlds" 100000 2>&1 | tee "$scratch/out"
    count_of 'tests/oracle/worlds' "$scratch/out"
}

# a replica with more than 12,000 writes, as a script and on databases: nothing is refused for want of memory at such a size
run_large() {
    if ! command -v python3 > /dev/null; then
        echo 'skipped: a large replica (no python3)'
        return
    fi
    PYTHONDONTWRITEBYTECODE=1 python3 tests/oracle/large.py "$program" "$quick/large" 2>&1 | tee "$scratch/out"
    count_of 'tests/oracle/large.py' "$scratch/out"
}
