# Command lines, the files that they name, and outputs that take nothing. tests/part sources this file; the functions of tests/lib.sh and the variables of tests/part are used here.

# command lines with their status and what they print, and lines of scripts that are not of the table
run_lines() {
    if ! command -v python3 > /dev/null; then
        echo 'skipped: tests/lines (no python3)'
        return
    fi
    mkdir "$scratch/lines"
    python3 tests/lines/lines.py "$program" "$scratch/lines" 2>&1 | tee "$scratch/out"
    count_of 'tests/lines/lines.py' "$scratch/out"
}

run_words() {
    expect_line 'an unknown word' 2 'bad command line' nothing
    # `./rooms` helps people; the program by itself has no help
    printf 'bad command line\n' > "$scratch/wanted"
    "$program" --help > "$scratch/out" 2> "$scratch/err" < /dev/null
    told 'help of the program itself' $? 2 "$scratch/wanted"
    ./rooms --help > "$scratch/out" 2> "$scratch/err" < /dev/null
    helped 'help' $?
    expect_line 'an empty word' 2 'bad command line' ''
    expect_line 'no script' 2 'bad command line' rehearse
    expect_line 'a word too many' 2 'bad command line' rehearse examples/one_booking.script examples/one_booking.script
    expect_line 'a cancel of nothing' 2 'bad command line' cancel "$scratch/absent.db" oak
}

run_files() {
    printf 'replica 1\nroom 1\n' > "$scratch/bad.script"
    expect_line 'a bad line' 1 'bad script line 2' rehearse "$scratch/bad.script"
    printf 'replica 1\nroom 1 oak\ncancel 1 oak\n' > "$scratch/bad.script"
    expect_line 'a cancel with a word too few' 1 'bad script line 3' rehearse "$scratch/bad.script"
    printf 'replica 1\nroom 1 oak\ncancel 1 oak 1-1 now\n' > "$scratch/bad.script"
    expect_line 'a cancel with a word too many' 1 'bad script line 3' rehearse "$scratch/bad.script"
    expect_line 'a file that is not there' 3 'fault file' rehearse "$scratch/absent.script"
    expect_line 'a folder' 3 'fault file' rehearse "$scratch"
    expect_line 'no name' 3 'fault file' rehearse ''
    : > "$scratch/empty"
    expect 'an empty script' 0 "$scratch/empty" rehearse "$scratch/empty"
    head -c 16777216 /dev/zero | tr '\0' '#' > "$scratch/great.script"
    expect 'a script of 16 MiB' 0 "$scratch/empty" rehearse "$scratch/great.script"
    printf '#' >> "$scratch/great.script"
    expect_line 'a script of 16 MiB and one byte' 3 'fault file' rehearse "$scratch/great.script"
    ./rooms < "$scratch/great.script" > "$scratch/out" 2> "$scratch/err"
    told 'the same on standard input' $? 3 "$scratch/wanted"
    if [ "$(id -u)" != 0 ]; then
        printf 'replica 1\n' > "$scratch/closed.script"
        chmod 000 "$scratch/closed.script"
        expect_line 'a file that may not be read' 3 'fault file' rehearse "$scratch/closed.script"
    fi
}

# an output that takes no line is status 3
run_outputs() {
    : > "$scratch/out"
    ./rooms rehearse examples/one_booking.script > /dev/full 2> "$scratch/err"
    told 'a full output' $? 3 "$scratch/empty"
    ./rooms rehearse examples/one_booking.script >&- 2> "$scratch/err"
    told 'a closed output' $? 3 "$scratch/empty"
    mkfifo "$scratch/pipe"
    (exec 3< "$scratch/pipe"; sleep 1) &
    exec 4> "$scratch/pipe"
    wait $!
    ./rooms rehearse examples/one_booking.script >&4 2> "$scratch/err"
    told 'a pipe that nobody reads' $? 3 "$scratch/empty"
    exec 4>&-
    ./rooms nothing > /dev/full 2> "$scratch/err"
    told 'a full output and bad words' $? 3 "$scratch/empty"
    ./rooms init "$scratch/outputs.db" 1 1 > /dev/full 2> "$scratch/err"
    told 'a full output and an init' $? 3 "$scratch/empty"
    ./rooms add-room "$scratch/outputs.db" oak > /dev/full 2> "$scratch/err"
    told 'a full output and a reply' $? 3 "$scratch/empty"
    ./rooms sheet "$scratch/outputs.db" oak 1995-12-32 > /dev/full 2> "$scratch/err"
    told 'a full output and a refusal' $? 3 "$scratch/empty"
    ./rooms sheet "$scratch/absent.db" oak 1995-12-18 > /dev/full 2> "$scratch/err"
    told 'a full output and no database' $? 3 "$scratch/empty"
    ./rooms position "$scratch/outputs.db" > "$scratch/position" 2> "$scratch/err"
    ./rooms export "$scratch/outputs.db" "$scratch/position" "$scratch/batch" 10 > /dev/full 2> "$scratch/err"
    told 'a full output and an export' $? 3 "$scratch/empty"
    ./rooms exchange "$scratch/outputs.db" nowhere > /dev/full 2> "$scratch/err"
    told 'a full output and a bad address' $? 3 "$scratch/empty"
}
