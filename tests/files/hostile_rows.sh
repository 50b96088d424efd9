# Batches at the edges of what is a batch, worked by hand, each brought to a replica that knows nothing. tests/part sources this file; the
# functions of tests/lib.sh and tests/files/commands.sh and the variables of tests/part are used here.

slot='oak 30 1995-12-18 09:00'

# bad NAME LINE: after a header the line is none
bad() {
    hostile "$1" 'refused 15 BadLine 2' 'mr1 1 1' "$2"
}

run_bad_lines() {
    local more=' 1995-12-18 10:00' title
    title=$(printf 'y%.0s' $(seq 61))
    bad 'a count of ten digits' "W 1 1000000000 1 $slot 0 Alpha"
    bad 'the time 0' "W 1 1 0 $slot 0 Alpha"
    bad 'the commit 0' 'C 0 1 1'
    bad 'an empty line' ''
    bad 'a line with CR' "W 1 1 1 $slot 0 Alpha"$'\r'
    bad 'an empty title' "W 1 1 1 $slot 0 "
    bad 'a title with a space behind it' "W 1 1 1 $slot 0 Alpha "
    bad 'a title of 61 bytes' "W 1 1 1 $slot 0 $title"
    bad 'a room of 17 bytes' 'W 1 1 1 aaaaaaaaaaaaaaaaa 30 1995-12-18 09:00 0 Alpha'
    bad 'nine alternatives' "W 1 1 1 $slot 9$more$more$more$more$more$more$more$more$more Alpha"
    bad 'a cancel in the first exchange text' 'X 1 1 1 oak 2 1'
    bad 'a meeting past midnight' 'W 1 1 1 oak 2 1995-12-18 23:59 0 Late'
    bad 'a day that is none' 'W 1 1 1 oak 30 2023-02-29 09:00 0 Leap'
    hostile 'a server of three digits' 'refused 15 BadLine 1' 'mr1 100 1'
    hostile 'a header with CR' 'refused 15 BadLine 1' $'mr1 1 1\r'
    hostile 'a bad line under another primary' 'refused 15 BadLine 2' 'mr1 1 3' 'Z'
    hostile 'a last line twice' 'refused 15 BadLine 3' 'mr1 1 1' 'E'
}

# bad_second NAME LINE: after a header of the second version the line is none
bad_second() {
    hostile "$1" 'refused 15 BadLine 2' 'mr2 1 1' "$2"
}

# what the second version of the exchange text has besides
run_second_lines() {
    local more=' 1995-12-18 10:00' sixteen=
    sixteen=$(printf "$more%.0s" $(seq 16))
    bad_second 'a cancel with a target too few' 'X 1 1 1 oak 2'
    bad_second 'a cancel of an id in one word' 'X 1 1 1 oak 2-1'
    bad_second 'a cancel with a word too many' 'X 1 1 1 oak 2 1 Alpha'
    bad_second 'a cancel with a number too many' 'X 1 1 1 oak 2 1 1'
    bad_second 'a cancel with a space behind it' 'X 1 1 1 oak 2 1 '
    bad_second 'a cancel of server 0' 'X 1 1 1 oak 0 1'
    bad_second 'a cancel of server 100' 'X 1 1 1 oak 100 1'
    bad_second 'a cancel of the request 0' 'X 1 1 1 oak 2 0'
    bad_second 'a cancel of a count of ten digits' 'X 1 1 1 oak 2 1000000000'
    bad_second 'a cancel with a leading zero' 'X 1 1 1 oak 02 1'
    bad_second 'a cancel in no room' 'X 1 1 1 Oak 2 1'
    bad_second 'a cancel at the time 0' 'X 1 1 0 oak 2 1'
    bad_second 'a cancel in small letters' 'x 1 1 1 oak 2 1'
    bad_second 'a cancel with CR' $'X 1 1 1 oak 2 1\r'
    bad_second 'seventeen alternatives' "W 1 1 1 $slot 17$sixteen$more Alpha"
    hostile 'a third version' 'refused 15 BadLine 1' 'mr3 1 1'
    hostile 'a second version of another primary' 'refused 16 WrongPrimary' 'mr2 1 3'
    hostile 'a cancel in its own name' 'refused 20 OwnWrite 2' 'mr2 1 1' 'X 2 1 1 oak 1 1'
    hostile 'a gap before a cancel' 'refused 17 Gap 2' 'mr2 1 1' 'X 1 2 5 oak 1 1'
    hostile 'a cancel at the time of its request' 'refused 18 OutOfOrder 3' 'mr2 1 1' "W 1 1 1 $slot 0 Alpha" 'X 1 2 1 oak 1 1'
    hostile 'a request and a cancel under one id' 'refused 19 Forged 3' 'mr2 1 1' "W 1 1 1 $slot 0 Alpha" 'X 1 1 1 oak 1 1'
    hostile 'a cancel and a request under one id' 'refused 19 Forged 3' 'mr2 1 1' 'X 1 1 1 oak 1 1' "W 1 1 1 $slot 0 Alpha"
    hostile 'a cancel committed before its request' 'refused 18 OutOfOrder 4' 'mr2 1 1' "W 1 1 1 $slot 0 Alpha" 'X 1 2 2 oak 1 1' 'C 1 1 2'
    blank 2 1
    brings 'nine alternatives in the second version' 0 'took 1 writes 0 commits' 'mr2 1 1' "W 1 1 1 $slot 9${sixteen:0:9 * ${#more}} Alpha" 'E'
    has 'the sheet of nine alternatives' 'sheet oak 1995-12-18' 'oak 1995-12-18 Monday' '09:00-09:30 T 1-1 Alpha'
    blank 2 1
    brings 'sixteen alternatives' 0 'took 1 writes 0 commits' 'mr2 1 1' "W 1 1 1 $slot 16$sixteen Alpha" 'E'
    gives 'sixteen alternatives in the first version' 1 'refused 27 NeedsVersion2' 10 -- 'mp1 9 1' 'K 0' 'E'
    blank 2 1
    brings 'a cancel of the greatest id' 0 'took 1 writes 0 commits' 'mr2 1 1' 'X 1 1 1 oak 99 999999999' 'E'
    has 'it is void' 'errors oak' 'oak errors' 'T 1-1 cancel 99-999999999'
    blank 2 1
    brings 'a cancel of itself' 0 'took 1 writes 0 commits' 'mr2 1 1' 'X 1 1 1 oak 1 1' 'E'
    has 'it is void too' 'outcome oak 1-1' '1-1 T void 1-1'
    has 'the sheet of a void cancel' 'sheet oak 1995-12-18' 'oak 1995-12-18 Monday' '(no bookings)'
}

run_edge_lines() {
    local last=999999999999
    hostile 'the greatest count' 'refused 17 Gap 2' 'mr1 1 1' "W 1 999999999 1 $slot 0 Far"
    hostile 'the greatest commit' 'refused 17 Gap 2' 'mr1 1 1' "C $last 1 1"
    hostile 'no time after the greatest' 'refused 18 OutOfOrder 3' 'mr1 1 1' "W 1 1 $last $slot 0 Last" "W 1 2 $last $slot 0 More"
    hostile 'a write twice, with two titles' 'refused 19 Forged 3' 'mr1 1 1' "W 1 1 1 $slot 0 Alpha" "W 1 1 1 $slot 0 Other"
    blank 2 1
    brings 'a title that looks like a slot' 0 'took 1 writes 0 commits' 'mr1 1 1' "W 1 1 1 $slot 0 1995-12-18 10:00 x" 'E'
    has 'the sheet of that title' 'sheet oak 1995-12-18' 'oak 1995-12-18 Monday' '09:00-09:30 T 1-1 1995-12-18 10:00 x'
    blank 2 1
    brings 'a commit twice' 0 'took 1 writes 1 commits' 'mr1 1 1' "W 1 1 1 $slot 0 Alpha" 'C 1 1 1' 'C 1 1 1' 'E'
    has 'the sheet of a commit twice' 'sheet oak 1995-12-18' 'oak 1995-12-18 Monday' '09:00-09:30 C 1-1 Alpha'
}

# a batch of two writes, cut after each of its bytes: the writes whose lines are whole are known, and no others
run_cut_batch() {
    local size writes
    blank 9 1
    cp -- "$database" "$scratch/commands/blank.db"
    printf '%s\n' "${two[@]}" > "$scratch/commands/whole"
    for ((size = 0; size <= 106; size++)); do
        writes=$(((size >= 48) + (size >= 104)))
        rm -f -- "$database"-*
        cp -- "$scratch/commands/blank.db" "$database"
        head -c "$size" -- "$scratch/commands/whole" > "$scratch/commands/torn"
        expect_line "a batch cut after $size bytes" 0 "took $writes writes 0 commits" import "$database" "$scratch/commands/torn"
        has "the position after $size bytes" position "${position_of_two[@]:0:2 + writes}" 'E'
    done
    has 'the sheet of the whole batch' 'sheet oak 1995-12-18' "${sheet_of_two[@]}"
}

# the largest batch that is read, and one byte more
run_great_batch() {
    local great=$scratch/commands/great
    blank 9 1
    { printf 'mr1 2 1\nW 2 1 1 oak 30 1995-12-18 09:00 0 Last\n'; head -c 16777169 /dev/zero; } > "$great"
    printf 'y' >> "$great"
    expect_line 'a batch of 16 MiB and one byte' 3 'fault file' import "$database" "$great"
    has 'nothing is known after it' position 'mp2 9 1' 'K 0' 'E'
    expect_line 'no room after it' 1 'refused 7 UnknownRoom' sheet "$database" oak 1995-12-18
    truncate -s 16777216 "$great"
    expect_line 'a batch of 16 MiB' 0 'took 1 writes 0 commits' import "$database" "$great"
    rm -- "$great"
}

run_hostile_rows() {
    mkdir -p "$scratch/commands"
    run_bad_lines
    run_second_lines
    run_edge_lines
    run_cut_batch
    run_great_batch
}
