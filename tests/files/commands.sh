# What a replica in a database replies to batches from other hands, worked by hand, and scripts whose lines are commands on
# databases. tests/part sources this file; the functions of tests/lib.sh and the variables of tests/part are used here.

# blank SERVER PRIMARY: $database is a replica that knows nothing
blank() {
    database=$scratch/commands/$1-$2.db
    rm -f -- "$database" "$database"-*
    expect_line "a replica $1 of primary $2" 0 'ok' init "$database" "$1" "$2"
}

# brings NAME STATUS REPLY LINE..: a batch of these lines is imported, with this reply
brings() {
    local name=$1 status=$2 reply=$3
    shift 3
    printf '%s\n' "$@" > "$scratch/commands/batch"
    expect_line "$name" "$status" "$reply" import "$database" "$scratch/commands/batch"
}

# has NAME WORD LINE..: the command of this word, with what the lines begin with, prints these lines
has() {
    local name=$1
    local -a words=($2)
    shift 2
    printf '%s\n' "$@" > "$scratch/commands/wanted"
    expect "$name" 0 "$scratch/commands/wanted" "${words[0]}" "$database" "${words[@]:1}"
}

alpha='W 1 1 1 oak 30 1995-12-18 09:00 0 Alpha'
two=('mr1 1 1' 'W 1 1 1 oak 60 1995-12-18 14:00 0 Alpha' 'W 2 1 1 oak 60 1995-12-18 13:30 1 1995-12-18 15:00 Beta' 'E')
sheet_of_two=('oak 1995-12-18 Monday' '14:00-15:00 T 1-1 Alpha' '15:00-16:00 T 2-1 Beta')
position_of_two=('mp2 9 1' 'K 0' 'V 1 1' 'V 2 1' 'E')

run_repeats() {
    blank 9 1
    brings 'two writes' 0 'took 2 writes 0 commits' "${two[@]}"
    has 'their sheet' 'sheet oak 1995-12-18' "${sheet_of_two[@]}"
    has 'their position' position "${position_of_two[@]}"
    brings 'the two writes again' 0 'took 0 writes 0 commits' "${two[@]}"
    has 'the sheet after a repeat' 'sheet oak 1995-12-18' "${sheet_of_two[@]}"
    has 'the position after a repeat' position "${position_of_two[@]}"
    blank 9 1
    printf '%s\n' "${two[@]}" | head -c 102 > "$scratch/commands/torn"
    expect_line 'a batch torn in its second write' 0 'took 1 writes 0 commits' import "$database" "$scratch/commands/torn"
    brings 'the whole batch after it' 0 'took 1 writes 0 commits' "${two[@]}"
    has 'the sheet after a torn batch' 'sheet oak 1995-12-18' "${sheet_of_two[@]}"
}

# fifty writes of another room, committed and dropped: the sheet of this room is the same, byte for byte
run_isolated() {
    local i
    local -a elm=('mr1 3 1')
    for ((i = 1; i <= 50; i++)); do elm+=("W 3 $i $i elm 15 1995-12-18 09:00 0 Elm" "C $i 3 $i"); done
    blank 9 1
    brings 'fifty writes of elm' 0 'took 50 writes 50 commits' "${elm[@]}" 'E'
    expect_line 'fifty commits are dropped' 0 'dropped 50' truncate "$database" 50
    brings 'two writes of oak' 0 'took 2 writes 0 commits' "${two[@]}"
    brings 'two writes of oak again' 0 'took 0 writes 0 commits' "${two[@]}"
    has 'the sheet of oak beside elm' 'sheet oak 1995-12-18' "${sheet_of_two[@]}"
    has 'the sheet of elm' 'sheet elm 1995-12-18' 'elm 1995-12-18 Monday' '09:00-09:15 C 3-1 Elm'
}

run_forged() {
    blank 9 1
    brings 'a write' 0 'took 1 writes 0 commits' 'mr1 1 1' "$alpha" 'E'
    brings 'the write with another title' 1 'refused 19 Forged 2' 'mr1 1 1' "${alpha/Alpha/Other}" 'E'
    brings 'its commit' 0 'took 0 writes 1 commits' 'mr1 1 1' 'C 1 1 1' 'E'
    expect_line 'its commit is dropped' 0 'dropped 1' truncate "$database" 1
    brings 'another title of what was dropped' 0 'took 0 writes 0 commits' 'mr1 1 1' "${alpha/Alpha/Other}" 'E'
    has 'the sheet keeps the title' 'sheet oak 1995-12-18' 'oak 1995-12-18 Monday' '09:00-09:30 C 1-1 Alpha'
}

# hostile NAME REPLY LINE..: replica 2 refuses the batch before it knows anything, and knows nothing afterwards, not even the room
hostile() {
    local name=$1 reply=$2
    shift 2
    blank 2 1
    brings "$name" 1 "$reply" "$@" 'E'
    has "nothing is known after $name" position 'mp2 2 1' 'K 0' 'E'
    expect_line "no room after $name" 1 'refused 7 UnknownRoom' sheet "$database" oak 1995-12-18
}

run_hostile() {
    hostile 'a gap' 'refused 17 Gap 2' 'mr1 1 1' 'W 1 2 5 oak 30 1995-12-18 09:00 0 Beta'
    hostile 'a write in its own name' 'refused 20 OwnWrite 2' 'mr1 1 1' 'W 2 1 1 oak 30 1995-12-18 09:00 0 Own'
    hostile 'a commit out of order' 'refused 18 OutOfOrder 4' \
        'mr1 1 1' "$alpha" 'W 1 2 2 oak 30 1995-12-18 10:00 0 Beta' 'C 1 1 2'
    hostile 'a commit above the list' 'refused 17 Gap 2' 'mr1 1 1' 'C 2 1 1'
    hostile 'another primary' 'refused 16 WrongPrimary' 'mr1 1 3'
    hostile 'a leading zero' 'refused 15 BadLine 2' 'mr1 1 1' "${alpha/1 1 1/1 01 1}"
    blank 2 1
    brings 'a write at the greatest time' 0 'took 1 writes 0 commits' \
        'mr1 1 1' 'W 1 1 999999999999 oak 30 1995-12-18 09:00 0 Last' 'E'
    expect_line 'no time is left' 1 'refused 13 ClockExhausted' book "$database" oak 30 1995-12-18 09:00 Next
    has 'the sheet at the greatest time' 'sheet oak 1995-12-18' 'oak 1995-12-18 Monday' '09:00-09:30 T 1-1 Last'
}

run_primary() {
    local version
    blank 1 1
    expect_line 'a room' 0 'ok' add-room "$database" oak
    expect_line 'a booking' 0 '1-1 T 1995-12-18 09:00-09:30' book "$database" oak 30 1995-12-18 09:00 Alpha
    brings 'a commit brought to the primary' 1 'refused 21 PrimaryOnly 2' 'mr1 1 1' 'C 1 1 1' 'E'
    expect_line 'the primary drops nothing' 1 'refused 11 PrimaryKeepsAll' truncate "$database" 1
    expect_line 'the primary commits' 0 'committed 1' commit "$database" 5
    for version in 1 2; do
        gives "a write and its commit, in version $version" 0 'wrote 58 bytes' 10 \
            "mr$version 1 1" "$alpha" 'C 1 1 1' 'E' -- "mp$version 9 1" 'K 0' 'E'
        gives "a commit alone, in version $version" 0 'wrote 18 bytes' 10 \
            "mr$version 1 1" 'C 1 1 1' 'E' -- "mp$version 9 1" 'K 0' 'V 1 1' 'E'
    done
    blank 2 1
    expect_line 'another commits nothing' 1 'refused 10 NotPrimary' commit "$database" 1
    expect_line 'a room of its own' 0 'ok' add-room "$database" oak
    expect_line 'the room again' 1 'refused 8 RoomThere' add-room "$database" oak
    gives 'a position that ends early' 1 'refused 23 BadPosition' 10 -- 'mp1 9 1'
    expect_line 'no commit is dropped' 0 'dropped 0' truncate "$database" 0
    expect_line 'there is none to drop' 1 'refused 12 BeyondCommitted' truncate "$database" 1
    has 'the sheet after all that is refused' 'sheet oak 1995-12-18' 'oak 1995-12-18 Monday' '(no bookings)'
    has 'the position after it' position 'mp2 2 1' 'K 0' 'E'
}

# gives NAME STATUS REPLY LINES WANTED.. -- CLAIM..: for a position of the lines behind the hyphens a batch of at most LINES lines is made,
# which has the wanted lines; or none, where the status isn't 0
gives() {
    local name=$1 status=$2 reply=$3 lines=$4
    shift 4
    : > "$scratch/commands/wanted"
    while [ "$1" != -- ]; do
        printf '%s\n' "$1" >> "$scratch/commands/wanted"
        shift
    done
    shift
    printf '%s\n' "$@" > "$scratch/commands/claim"
    rm -f -- "$scratch/commands/made"
    expect_line "$name" "$status" "$reply" export "$database" "$scratch/commands/claim" "$scratch/commands/made" "$lines"
    if [ "$status" = 0 ]; then
        same "the batch of $name" "$scratch/commands/made" "$scratch/commands/wanted"
    else
        gone "no batch of $name" "$scratch/commands/made"
    fi
}

# what each version of the exchange text can say
run_versions() {
    local gamma='W 1 4 4 oak 60 1995-12-18 09:00 0 Gamma' beta='W 1 2 2 oak 60 1995-12-18 09:00 1 1995-12-18 10:00 Beta'
    local first='W 1 1 1 oak 60 1995-12-18 09:00 0 Alpha' took
    blank 1 1
    expect_line 'a room that is rebooked' 0 'ok' add-room "$database" oak
    expect_line 'Alpha' 0 '1-1 T 1995-12-18 09:00-10:00' book "$database" oak 60 1995-12-18 09:00 Alpha
    expect_line 'Beta' 0 '1-2 T 1995-12-18 10:00-11:00' book "$database" oak 60 1995-12-18 09:00 Beta 1995-12-18T10:00
    expect_line 'Alpha is committed' 0 'committed 1' commit "$database" 1
    expect_line 'Alpha is cancelled' 0 '1-3 T cancels 1-1' cancel "$database" oak 1-1
    expect_line 'Gamma' 0 '1-4 T 1995-12-18 09:00-10:00' book "$database" oak 60 1995-12-18 09:00 Gamma
    expect_line 'Alpha is cancelled again' 0 '1-5 T void 1-1' cancel "$database" oak 1-1
    gives 'a batch in the second version' 0 'wrote 186 bytes' 10 \
        'mr2 1 1' "$first" 'C 1 1 1' "$beta" 'X 1 3 3 oak 1 1' "$gamma" 'X 1 5 5 oak 1 1' 'E' -- 'mp2 2 1' 'K 0' 'E'
    gives 'a batch of the last cancel alone' 0 'wrote 26 bytes' 10 'mr2 1 1' 'X 1 5 5 oak 1 1' 'E' -- 'mp2 9 1' 'K 1' 'V 1 4' 'E'
    gives 'a batch in the first version, cut before a cancel' 0 'wrote 114 bytes' 3 \
        'mr1 1 1' "$first" 'C 1 1 1' "$beta" 'M' -- 'mp1 9 1' 'K 0' 'E'
    gives 'a batch in the first version, with a cancel' 1 'refused 27 NeedsVersion2' 4 -- 'mp1 9 1' 'K 0' 'E'
    gives 'another primary before that' 1 'refused 16 WrongPrimary' 4 -- 'mp1 9 2' 'K 0' 'E'
    gives 'a third version' 1 'refused 23 BadPosition' 4 -- 'mp3 9 1' 'K 0' 'E'
    blank 2 1
    for took in 'took 5 writes 1 commits' 'took 0 writes 0 commits'; do
        brings "$took of all of it" 0 "$took" 'mr2 1 1' "$first" 'C 1 1 1' "$beta" 'X 1 3 3 oak 1 1' "$gamma" 'X 1 5 5 oak 1 1' 'E'
        has "the position, $took" position 'mp2 2 1' 'K 1' 'V 1 5' 'E'
        has "the sheet, $took" 'sheet oak 1995-12-18' 'oak 1995-12-18 Monday' '09:00-10:00 T 1-4 Gamma' '10:00-11:00 T 1-2 Beta'
        has "what is cancelled, $took" 'outcome oak 1-1' '1-1 C cancelled T 1-3'
        has "what is void, $took" 'errors oak' 'oak errors' 'T 1-5 cancel 1-1'
    done
    blank 2 1
    brings 'a batch of the second version' 0 'took 2 writes 1 commits' 'mr2 1 1' "$first" 'C 1 1 1' "$beta" 'E'
    expect_line 'a commit is dropped' 0 'dropped 1' truncate "$database" 1
    brings 'a cancel of what was dropped' 0 'took 1 writes 0 commits' 'mr2 1 1' 'X 1 3 3 oak 1 1' 'E'
    has 'it is cancelled' 'outcome oak 1-1' '1-1 C cancelled T 1-3'
    has 'it stays committed' 'calendar oak committed' 'oak committed' '1995-12-18 09:00-10:00 C 1-1 Alpha'
    gives 'what was dropped comes before the version' 1 'refused 22 Truncated' 4 -- 'mp1 9 1' 'K 0' 'E'
}

# a cancel comes alone: void, and void for good where its request comes behind it, done where the request comes before it
run_lone_cancels() {
    blank 9 1
    brings 'a cancel of nothing' 0 'took 1 writes 0 commits' 'mr2 1 1' 'X 1 1 1 oak 2 1' 'E'
    has 'it is in the error log' 'errors oak' 'oak errors' 'T 1-1 cancel 2-1'
    brings 'a request behind it' 0 'took 1 writes 0 commits' 'mr1 1 1' 'W 2 1 2 oak 30 1995-12-18 09:00 0 Late' 'E'
    has 'the request has its slot' 'sheet oak 1995-12-18' 'oak 1995-12-18 Monday' '09:00-09:30 T 2-1 Late'
    has 'the cancel stays void' 'outcome oak 1-1' '1-1 T void 2-1'
    brings 'a request under the id of the cancel' 1 'refused 19 Forged 2' 'mr2 1 1' "$alpha" 'E'
    gives 'a position that has the cancel, in the first version' 0 'wrote 49 bytes' 10 \
        'mr1 9 1' 'W 2 1 2 oak 30 1995-12-18 09:00 0 Late' 'E' -- 'mp1 8 1' 'K 0' 'V 1 1' 'E'
    blank 9 1
    brings 'a later cancel of nothing' 0 'took 1 writes 0 commits' 'mr2 1 1' 'X 1 1 5 oak 2 1' 'E'
    brings 'a request before it' 0 'took 1 writes 0 commits' 'mr1 2 1' 'W 2 1 2 oak 30 1995-12-18 09:00 0 Early' 'E'
    has 'the request is cancelled' 'outcome oak 2-1' '2-1 T cancelled T 1-1'
    has 'the cancel is done' 'outcome oak 1-1' '1-1 T cancels 2-1'
    has 'the error log is empty again' 'errors oak' 'oak errors' '(no errors)'
    brings 'a cancel from another room' 0 'took 1 writes 0 commits' 'mr2 1 1' 'X 1 2 6 elm 2 1' 'E'
    has 'it finds nothing there' 'outcome elm 1-2' '1-2 T void 2-1'
    expect_line 'one of its own is refused' 1 'refused 9 NoSuchRequest' cancel "$database" elm 2-1
    brings 'the cancel again' 0 'took 0 writes 0 commits' 'mr2 1 1' 'X 1 2 6 elm 2 1' 'E'
    brings 'the cancel with another target' 1 'refused 19 Forged 2' 'mr2 1 1' 'X 1 2 6 elm 2 2' 'E'
    brings 'a request in its place' 1 'refused 19 Forged 2' 'mr2 1 1' 'W 1 2 6 elm 30 1995-12-18 09:00 0 Other' 'E'
}

# size LINE..: how many bytes these lines have
size() {
    printf '%s\n' "$@" | wc -c
}

# requests with 0 to 9 alternatives, all of which but the last are taken, in the first version, which has eight at most, and in the second
run_alternatives() {
    local k others='' taken='1995-12-18 00:00'
    local -a lines=("W 1 1 1 oak 1440 $taken 0 Closed") sheet=('oak 1995-12-19 Tuesday')
    for ((k = 1; k <= 9; k++)); do
        lines+=("W 1 $((k + 1)) $((k + 1)) oak 30 $taken $k ${others}1995-12-19 0$k:00 Last of $k")
        sheet+=("0$k:00-0$k:30 T 1-$((k + 1)) Last of $k")
        others+="$taken "
    done
    blank 9 1
    brings 'nine alternatives in the first version' 1 'refused 15 BadLine 11' 'mr1 1 1' "${lines[@]}" 'E'
    brings 'up to eight in the first version' 0 'took 9 writes 0 commits' 'mr1 1 1' "${lines[@]:0:9}" 'E'
    has 'the places of up to eight' 'sheet oak 1995-12-19' "${sheet[@]:0:9}"
    gives 'up to eight in the first version' 0 "wrote $(size 'mr1 9 1' "${lines[@]:0:9}" 'E') bytes" 100 \
        'mr1 9 1' "${lines[@]:0:9}" 'E' -- 'mp1 8 1' 'K 0' 'E'
    brings 'up to nine in the second version' 0 'took 1 writes 0 commits' 'mr2 1 1' "${lines[@]}" 'E'
    has 'the places of up to nine' 'sheet oak 1995-12-19' "${sheet[@]}"
    gives 'nine in the first version' 1 'refused 27 NeedsVersion2' 10 -- 'mp1 8 1' 'K 0' 'E'
    gives 'what comes before nine' 0 "wrote $(size 'mr1 9 1' "${lines[@]:0:9}" 'M') bytes" 9 \
        'mr1 9 1' "${lines[@]:0:9}" 'M' -- 'mp1 8 1' 'K 0' 'E'
    gives 'up to nine in the second version' 0 "wrote $(size 'mr2 9 1' "${lines[@]}" 'E') bytes" 10 \
        'mr2 9 1' "${lines[@]}" 'E' -- 'mp2 8 1' 'K 0' 'E'
}

# standing MARK FIRST LAST: these of the bookings that server 3 has by them, as a calendar shows them
standing() {
    local n
    for ((n = $2; n <= $3; n++)); do
        printf '1995-12-18 %02d:%02d-%02d:%02d %s 3-%s x\n' $(((n - 1) / 60)) $(((n - 1) % 60)) $((n / 60)) $((n % 60)) "$1" "$n"
    done
}

# gives_each HAS LINE..: for a position with these writes of server 3 there are these lines, and at most 1, 63, 64 or 65 of them are given
gives_each() {
    local has=$1 asked ending
    local -a given
    shift
    for asked in 1 63 64 65; do
        given=('mr2 9 1' "${@:1:asked}" E)
        if [ "$asked" -lt $# ]; then given[-1]=M; fi
        gives "$asked of $# lines" 0 "wrote $(size "${given[@]}") bytes" "$asked" "${given[@]}" -- 'mp2 8 1' 'K 0' ${has:+"$has"} 'E'
    done
}

# batches of 0, 1, 63, 64 and 65 lines: what is received, and what is given of them, first writes and then cancels of these
run_counted_lines() {
    local count n
    local -a writes cancels=()
    mapfile -t writes < <(minutes 3 1 65)
    for ((n = 1; n <= 65; n++)); do cancels+=("X 4 $n $((100 + n)) oak 3 $n"); done
    for count in 0 1 63 64 65; do
        blank 9 1
        brings "$count writes" 0 "took $count writes 0 commits" 'mr2 3 1' "${writes[@]:0:count}" 'E'
        gives_each '' "${writes[@]:0:count}"
        brings "all writes after $count" 0 "took $((65 - count)) writes 0 commits" 'mr2 3 1' "${writes[@]}" 'E'
        brings "$count cancels" 0 "took $count writes 0 commits" 'mr2 4 1' "${cancels[@]:0:count}" 'E'
        gives_each 'V 3 65' "${cancels[@]:0:count}"
    done
}

# shows_from FIRST LAST: the committed calendar has these bookings
shows_from() {
    local -a rows
    mapfile -t rows < <(standing C "$1" "$2")
    has "the committed calendar from $1 to $2" 'calendar oak committed' 'oak committed' "${rows[@]:-(no bookings)}"
}

# commits of 0, 1, 63, 64 and 65 of many writes: of bookings that tentative cancels took back, and then of the cancels
run_counted_commits() {
    local count n all=$scratch/commands/all.db
    local -a writes cancels=()
    mapfile -t writes < <(minutes 3 1 1056)
    for ((n = 1; n <= 65; n++)); do cancels+=("X 4 $n $((100 + n)) oak 3 $n"); done
    blank 1 1
    brings '65 writes and their cancels' 0 'took 130 writes 0 commits' 'mr2 3 1' "${writes[@]:0:65}" "${cancels[@]}" 'E'
    cp -- "$database" "$all"
    for count in 0 1 63 64 65; do
        rm -f -- "$database"-*
        cp -- "$all" "$database"
        expect_line "a commit of $count" 0 "committed $count" commit "$database" "$count"
        shows_from 1 "$count"
        has "the position after $count" position 'mp2 1 1' "K $count" 'V 3 65' 'V 4 65' 'E'
        expect_line "the cancels of $count" 0 'committed 65' commit "$database" 65
        shows_from $((count + 1)) 65
        has "the calendar after $count" 'calendar oak full' 'oak full' '(no bookings)'
    done
    # a sixteenth of the tentative writes, and one more than that
    blank 1 1
    brings '1,056 writes' 0 'took 1056 writes 0 commits' 'mr2 3 1' "${writes[@]}" 'E'
    expect_line 'a commit of 65 of 1,056' 0 'committed 65' commit "$database" 65
    shows_from 1 65
    blank 1 1
    brings '1,055 writes' 0 'took 1055 writes 0 commits' 'mr2 3 1' "${writes[@]:0:1055}" 'E'
    expect_line 'a commit of 65 of 1,055' 0 'committed 65' commit "$database" 65
    shows_from 1 65
}

# strange NAME STATUS LINE SQL: the stock sqlite3 ran this text in the database of a replica, which then answers so
strange() {
    blank 1 1
    if ! sqlite3 "$database" "$4" > "$scratch/out" 2>&1; then
        echo "FAILED: sqlite3 takes $4"
        failed=$((failed + 1))
    fi
    expect_line "$1" "$2" "$3" sheet "$database" oak 1995-12-18
}

# strange_write NAME VALUES: the log has a write with these values from its kind to its place, which no write has
strange_write() {
    strange "$1" 1 'refused 25 Store' "INSERT INTO log VALUES (1, 1, 1, 'oak', $2, 0)"
}

run_strange() {
    if ! command -v sqlite3 > /dev/null; then
        echo 'skipped: rows that the stock sqlite3 wrote (no sqlite3)'
        return
    fi
    strange 'a room of another hand' 1 'refused 7 UnknownRoom' "INSERT INTO room VALUES ('elm')"
    strange 'a room with a blank' 1 'refused 25 Store' "INSERT INTO room VALUES ('Oak tree')"
    strange 'a title of 60 bytes' 1 'refused 7 UnknownRoom' \
        "INSERT INTO booking VALUES ('elm', '1995-12-18', 540, 600, 1, 1, '$(printf 'y%.0s' $(seq 60))', 0)"
    strange 'a title of 61 bytes' 1 'refused 25 Store' \
        "INSERT INTO booking VALUES ('elm', '1995-12-18', 540, 600, 1, 1, '$(printf 'y%.0s' $(seq 61))', 0)"
    strange 'a slot of one minute' 1 'refused 7 UnknownRoom' "INSERT INTO booking VALUES ('elm', '1995-12-18', 1439, 1440, 1, 1, 'Alpha', 0)"
    strange 'a slot that ends as it begins' 1 'refused 25 Store' "INSERT INTO booking VALUES ('elm', '1995-12-18', 540, 540, 1, 1, 'Alpha', 0)"
    strange 'a slot that ends on the next day' 1 'refused 25 Store' "INSERT INTO booking VALUES ('elm', '1995-12-18', 1439, 1441, 1, 1, 'Alpha', 0)"
    strange 'a write at time 0' 1 'refused 25 Store' "INSERT INTO cancel VALUES (1, 2, 'oak', 1, 1, 0, 0, 0)"
    strange 'a commit beyond all' 1 'refused 25 Store' "INSERT INTO cancel VALUES (1, 2, 'oak', 1, 1, 0, 1, 1000000000000)"
    strange 'the number of the first schema on these tables' 1 'refused 26 NotAReplica' 'UPDATE meta SET schema = 1'
    strange 'the number of a schema to come' 1 'refused 26 NotAReplica' 'UPDATE meta SET schema = 3'
    strange 'the number of the second schema, negative' 1 'refused 26 NotAReplica' 'UPDATE meta SET schema = -2'
    strange 'a second number of the one row' 1 'refused 25 Store' 'UPDATE meta SET one = 2'
    strange 'a place in the undo rows of the first schema' 1 'refused 25 Store' 'INSERT INTO undo VALUES (1, 1, 0)'
    strange 'a write in the log of the first schema' 1 'refused 25 Store' \
        "INSERT INTO write_log VALUES (1, 1, 1, 'oak', 60, '1995-12-18 09:00', 'Alpha', 0)"
    strange_write 'a choice that is no time' "0, 60, '1995-12-18 9h', 'Alpha', 0, 0, 0"
    strange_write 'a space behind the choices' "0, 60, '1995-12-18 09:00 ', 'Alpha', 0, 0, 0"
    strange_write 'a choice that ends on the next day' "0, 60, '1995-12-18 09:00 1995-12-18 23:01', 'Alpha', 0, 0, 0"
    strange_write 'a meeting of no length' "0, 0, '1995-12-18 09:00', 'Alpha', 0, 0, 0"
    strange_write 'a place of no choice' "0, 60, '1995-12-18 09:00', 'Alpha', 0, 0, 17"
    strange_write 'a place below all' "1, 0, '', '', 1, 1, -4"
    strange_write 'a place that a cancel has' "0, 60, '1995-12-18 09:00', 'Alpha', 0, 0, -2"
    strange_write 'a cancel that is booked' "1, 0, '', '', 1, 1, 0"
    strange_write 'a cancel with a length' "1, 60, '', '', 1, 1, -3"
    strange_write 'a cancel with a title' "1, 0, '', 'Alpha', 1, 1, -3"
    strange_write 'a booking with a target' "0, 60, '1995-12-18 09:00', 'Alpha', 1, 1, 0"
    strange_write 'neither a booking nor a cancel' "2, 0, '', '', 1, 1, -3"
    strange 'a cancel that is half done' 1 'refused 25 Store' "INSERT INTO cancel VALUES (1, 2, 'oak', 1, 1, 2, 2, 0)"
    strange 'no row of the replica' 1 'refused 26 NotAReplica' 'DELETE FROM meta'
    strange 'a table too many' 1 'refused 26 NotAReplica' 'CREATE TABLE other (a INTEGER) STRICT'
    strange 'a table too few' 1 'refused 26 NotAReplica' 'DROP TABLE errorlog'
}

# an export that is refused, or whose batch would be longer than 16 MiB, leaves the file that was there
run_kept_files() {
    local folder=$scratch/commands
    blank 1 1
    printf 'mr2 1 1\nE\n' > "$folder/earlier"
    cp -- "$folder/earlier" "$folder/kept"
    printf 'mp2 9 2\nK 0\nE\n' > "$folder/position"
    expect_line 'an export for another primary' 1 'refused 16 WrongPrimary' export "$database" "$folder/position" "$folder/kept" 10
    same 'the file of a refused export' "$folder/kept" "$folder/earlier"
    if ! command -v sqlite3 > /dev/null; then
        echo 'skipped: a batch of more than 16 MiB (no sqlite3)'
        return
    fi
    expect_line 'a room of many requests' 0 'ok' add-room "$database" oak
    expect_line 'a whole day' 0 '1-1 T 1995-12-18 00:00-24:00' book "$database" oak 1440 1995-12-18 00:00 Closed
    expect_line 'a request that finds no slot' 0 '1-2 T logged' book "$database" oak 60 1995-12-18 13:30 Late \
        $(printf '1995-12-18T13:30 %.0s' $(seq 16))
    # as many like it as make 16 MiB of lines, each of more than 300 bytes
    sqlite3 "$database" 2> "$scratch/err" <<'SQL'
begin;
with recursive w (n) as (select 3 union all select n + 1 from w where n < 56000)
insert into log select server, w.n, w.n, room, kind, length, choices, title, tserver, tn, place, seq from w, log where log.n = 2;
insert into errorlog select e.room, e.day, e.start, e.stop, e.server, log.n, e.title, log.tm, e.seq from log, errorlog e where e.n = 2 and log.n > 2;
update vector set n = 56000, tm = 56000;
update meta set clock = 56000;
commit;
SQL
    printf 'mp2 9 1\nK 0\nE\n' > "$folder/position"
    expect_line 'a batch of more than 16 MiB' 3 'fault file' export "$database" "$folder/position" "$folder/kept" 60000
    same 'the file of a batch that is too long' "$folder/kept" "$folder/earlier"
    # 310 bytes a line and the figures of a count twice; one line of 43, a head of 8 and an end of 2
    expect_line 'a batch of fewer lines' 0 'wrote 3177209 bytes' export "$database" "$folder/position" "$folder/kept" 9999
}

# on_databases NAME SCRIPT EXPECTED: the script, each line a command on a database, is replied as it is over lists
on_databases() {
    local folder
    folder=$(mktemp -d "$scratch/commands/XXXXXX")
    python3 tests/files/on_databases.py "$program" "$2" "$folder" "$scratch/out"
    told "$1" $? 0 "$3"
}

run_commands() {
    local script seed
    mkdir -p "$scratch/commands"
    run_repeats
    run_isolated
    run_forged
    run_hostile
    run_primary
    run_versions
    run_lone_cancels
    run_alternatives
    run_counted_lines
    run_counted_commits
    run_strange
    run_kept_files
    if ! command -v python3 > /dev/null; then
        echo 'skipped: scripts on databases (no python3)'
        return
    fi
    for script in examples/*.script tests/scripts/*.script; do
        on_databases "$script on databases" "$script" "${script%.script}.expected"
    done
    for seed in 21 22 23 24; do
        python3 tests/oracle/oracle.py "$seed" 300 $((seed % 4 + 1)) "$scratch/made.script" "$scratch/made.expected" || continue
        on_databases "the generated script $seed on databases" "$scratch/made.script" "$scratch/made.expected"
    done
}
