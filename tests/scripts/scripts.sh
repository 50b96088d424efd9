# Scripts that the program rehearses: those that are kept, each beside what it prints, generated ones, and some that break off. tests/part sources this file; the functions of tests/lib.sh and the variables of tests/part are used here.

# a batch of two writes, cut after each of its bytes, is delivered to replicas that know nothing: 97 get it, and the last ten lengths go to those that had the
# shortest, and nothing by them
run_cut_deliveries() {
    local size writes
    {
        printf 'replica %s\n' {1..99}
        printf 'room 1 oak\nroom 2 oak\nbook 1 oak 60 1995-12-18 14:00 0 Alpha\nbook 2 oak 60 1995-12-18 13:30 1 1995-12-18 15:00 Beta\n'
        printf 'batch 2 1 10\ndeliver 1 1 all\nbatch 1 3 10\n'
        for ((size = 0; size <= 106; size++)); do printf 'deliver 2 %s %s\n' $((size % 97 + 3)) "$size"; done
        printf 'sheet 12 oak 1995-12-18\n'
    } > "$scratch/cut.script"
    {
        printf 'ok\n%.0s' {1..101}
        printf '1-1 T 1995-12-18 14:00-15:00\n2-1 T 1995-12-18 13:30-14:30\nbatch 1 66 bytes\ntook 1 writes 0 commits\nbatch 2 106 bytes\n'
        for ((size = 0; size <= 106; size++)); do
            writes=$(((size >= 48) + (size >= 104)))
            echo "took $writes writes 0 commits"
        done
        printf 'oak 1995-12-18 Monday\n14:00-15:00 T 1-1 Alpha\n15:00-16:00 T 2-1 Beta\n'
    } > "$scratch/cut.expected"
    expect 'a batch that is cut after each of its bytes' 0 "$scratch/cut.expected" rehearse "$scratch/cut.script"
}

run_examples() {
    local script
    for script in examples/*.script tests/scripts/*.script; do
        expect "$script" 0 "${script%.script}.expected" rehearse "$script"
        ./rooms < "$script" > "$scratch/out" 2> "$scratch/err"
        told "$script on standard input" $? 0 "${script%.script}.expected"
    done
    (cd examples && ../rooms rehearse one_booking.script) > "$scratch/out" 2> "$scratch/err"
    told 'a path from the folder of the caller' $? 0 examples/one_booking.expected
    run_cut_deliveries
}

# generated scripts: the program prints what tests/oracle/oracle.py computes
run_generated() {
    local seed
    if ! command -v python3 > /dev/null; then
        echo 'skipped: generated scripts (no python3)'
        return
    fi
    for seed in 1 2 3 4 5 6 7 8; do
        if ! python3 tests/oracle/oracle.py "$seed" 1000 $((seed % 4 + 1)) "$scratch/made.script" "$scratch/made.expected"; then
            echo "FAILED: tests/oracle/oracle.py on seed $seed"
            failed=$((failed + 1))
            continue
        fi
        expect "the generated script $seed" 0 "$scratch/made.expected" rehearse "$scratch/made.script"
    done
}

# scripts from an input that fails after each byte, and to an output that takes only some
run_streams() {
    if ! command -v python3 > /dev/null; then
        echo 'skipped: tests/scripts/streams.py (no python3)'
        return
    fi
    mkdir "$scratch/streams"
    python3 tests/scripts/streams.py "$program" "$scratch/streams" 2>&1 | tee "$scratch/out"
    count_of 'tests/scripts/streams.py' "$scratch/out"
}
