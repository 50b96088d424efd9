# What the files of tests share: each function but `minutes` runs the program, or compares what it printed or wrote, and counts the result
# in $passed or $failed. tests/part sources this file, and sets $program (the built program), $scratch (a folder for files), $quick
# (another, in memory where there is such a place), $passed and $failed before.

# count_of NAME FILE [WORD]: adds the counts in the last line of a tool's output, of those that begin with the word where one is given
count_of() {
    local line
    line=$(grep -E "^${3:-}[0-9]+ passed, [0-9]+ failed" "$2" | tail -n 1)
    line=${line#"${3:-}"}
    if [[ $line =~ ^([0-9]+)\ passed,\ ([0-9]+)\ failed ]]; then
        passed=$((passed + BASH_REMATCH[1]))
        failed=$((failed + BASH_REMATCH[2]))
    else
        echo "FAILED: $1 printed no result"
        failed=$((failed + 1))
    fi
}

# not_gated NAME: reports that this is skipped where no gate ran just before, which alone makes what it needs
not_gated() {
    if [ -n "${ROOMS_GATED-}" ]; then return 1; fi
    echo "skipped: $1 (the gate makes it)"
}

# told NAME STATUS WANTED_STATUS FILE: the status is the wanted one, and $scratch/out has the bytes of this file
told() {
    local name=$1 status=$2 wanted_status=$3 wanted=$4
    if [ "$status" = "$wanted_status" ] && cmp -s -- "$scratch/out" "$wanted"; then
        passed=$((passed + 1))
    else
        echo "FAILED: $name: status $status, wanted $wanted_status; printed:"
        head -c 2000 -- "$scratch/out"
        failed=$((failed + 1))
    fi
}

# expect NAME STATUS FILE WORD..: the program with these words prints this file's bytes
expect() {
    local name=$1 wanted_status=$2 wanted=$3
    shift 3
    ./rooms "$@" > "$scratch/out" 2> "$scratch/err" < /dev/null
    told "$name" $? "$wanted_status" "$wanted"
}

# expect_line NAME STATUS LINE WORD..: the program with these words prints this line alone
expect_line() {
    local name=$1 wanted_status=$2
    printf '%s\n' "$3" > "$scratch/wanted"
    shift 3
    expect "$name" "$wanted_status" "$scratch/wanted" "$@"
}

# helped NAME STATUS: the status is 0, and what was asked for stands on standard output alone
helped() {
    if [ "$2" = 0 ] && grep -qE '^rooms |^  sheet' "$scratch/out" && [ ! -s "$scratch/err" ]; then
        passed=$((passed + 1))
    else
        echo "FAILED: $1: status $2; printed:"
        head -c 2000 -- "$scratch/out" "$scratch/err"
        failed=$((failed + 1))
    fi
}

# same NAME FILE FILE: the two have the same bytes
same() {
    if cmp -s -- "$2" "$3"; then
        passed=$((passed + 1))
    else
        echo "FAILED: $1: $2 differs from $3"
        failed=$((failed + 1))
    fi
}

# gone NAME FILE: there is no such file
gone() {
    if [ ! -e "$2" ]; then
        passed=$((passed + 1))
    else
        echo "FAILED: $1: there is $2"
        failed=$((failed + 1))
    fi
}

# damaged FILE REFUSAL: each command on this file is refused so, and the file stays as it is
damaged() {
    local file=$1 refusal=$2
    cp -- "$file" "$scratch/before"
    expect_line "sheet of $file" 1 "$refusal" sheet "$file" oak 1995-12-18
    same "$file after sheet" "$file" "$scratch/before"
    expect_line "book in $file" 1 "$refusal" book "$file" oak 60 1995-12-18 14:00 Alpha
    same "$file after book" "$file" "$scratch/before"
    expect_line "import into $file" 1 "$refusal" import "$file" "$scratch/databases/out"
    same "$file after import" "$file" "$scratch/before"
}

# minutes SERVER FIRST LAST: the lines of these writes of a server, each for the next minute of oak
minutes() {
    local n
    for ((n = $2; n <= $3; n++)); do
        printf 'W %s %s %s oak 1 1995-12-18 %02d:%02d 0 x\n' "$1" "$n" "$n" $(((n - 1) / 60)) $(((n - 1) % 60))
    done
}

# turn FILE PLACE: turns the lowest bit of the byte at this place
turn() {
    local byte
    byte=$(od -An -tu1 -j "$2" -N 1 -- "$1" | tr -d ' ')
    printf "\\x$(printf '%02x' $((byte ^ 1)))" | dd of="$1" bs=1 seek="$2" conv=notrunc status=none
}
