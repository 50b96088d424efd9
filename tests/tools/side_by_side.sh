# How ./test runs parts side by side (tests/side_by_side.sh), on parts that pass, fail, die, say nothing and hang. tests/part sources this file; the
# functions of tests/lib.sh and the variables of tests/part are used here.

# pretended_parts FOLDER: five parts there, and what ./test has to say of them
pretended_parts() {
    mkdir -p "$1/tests"
    cat > "$1/tests/part" <<'PART'
#!/bin/sh
case $1 in
    well) sleep 1000 & echo $! >> "$2/../left"; sleep 1; echo 'well: 3 passed, 0 failed' ;;
    bad) echo 'FAILED: that'; echo 'bad: 1 passed, 2 failed'; exit 1 ;;
    dies) echo 'dies: 5 passed, 0 failed'; kill -9 $$ ;;
    quiet) echo '7 passed, 0 failed' ;;
    hangs) sleep 1000 & echo $! >> "$2/../left"; echo "$4" > "$2/../port"; sleep 1000 ;;
esac
PART
    chmod +x "$1/tests/part"
    cat > "$scratch/wanted" <<'TEXT'
well: 3 passed, 0 failed
FAILED: that
bad: 1 passed, 2 failed
dies: 5 passed, 0 failed
FAILED: the part dies ended with status 137
7 passed, 0 failed
FAILED: the part quiet printed no result
FAILED: the part hangs was broken off after 2 seconds
4 passed, 5 failed
TEXT
}

# run_pretended: what ./test prints of them
run_pretended() {
    local scratch=$1/scratch quick=$1/quick passed=0 failed=0 root=$PWD
    mkdir "$scratch" "$quick"
    cd "$1" || return
    . "$root/tests/side_by_side.sh"
    seconds_of() { case $1 in hangs) echo 9 ;; *) echo 1 ;; esac }
    limit_of() { case $1 in hangs) echo 2 ;; *) echo 100 ;; esac }
    parts_at_once() { echo 3; }
    run_parts well bad dies quiet hangs
    echo "$passed passed, $failed failed"
}

# functions_twice FILE..: the functions that these define more than once, a line each; what stands within a function isn't looked at
functions_twice() {
    grep -hoE '^[a-zA-Z_][a-zA-Z_0-9]* *\(\)' -- "$@" | sort | uniq -d
}

# the scripts of a part share one name space
run_functions() {
    local files
    printf '%s\n' 'one() { :; }' 'two() { :; }' > "$scratch/first.sh"
    printf '%s\n' 'two() { :; }' 'three() { two() { :; }; }' > "$scratch/second.sh"
    echo 'two()' > "$scratch/wanted"
    functions_twice "$scratch/first.sh" "$scratch/second.sh" > "$scratch/out"
    told 'a function of two scripts is found' 0 0 "$scratch/wanted"
    mapfile -t files < <(find tests deploy/tests -name '*.sh')
    functions_twice "${files[@]}" > "$scratch/out"
    told 'each function of the tests stands in one script' 0 0 "$scratch/empty"
}

run_side_by_side() {
    local folder=$scratch/parts process words
    pretended_parts "$folder"
    (run_pretended "$folder") > "$scratch/out" 2> "$scratch/err"
    told 'parts that pass, fail, die, say nothing and hang' $? 0 "$scratch/wanted"
    while read -r process; do
        for _ in $(seq 50); do
            kill -0 "$process" 2> /dev/null || break
            sleep 0.1
        done
        if kill -0 "$process" 2> /dev/null; then echo "$process is left" > "$scratch/left"; fi
    done < "$folder/scratch/left"
    gone 'what a part leaves' "$scratch/left"
    gone 'the folder of a part' "$folder/scratch/well"
    printf '%s\n' "$FIRST_PORT" > "$scratch/wanted"
    cp -- "$folder/scratch/port" "$scratch/out"
    told 'the longest begins first' 0 0 "$scratch/wanted"
    for words in nothing 'program nothing'; do
        # shellcheck disable=SC2086
        ./test $words > "$scratch/out" 2> "$scratch/err" < /dev/null
        told "test $words" $? 2 "$scratch/empty"
    done
    run_functions
}
