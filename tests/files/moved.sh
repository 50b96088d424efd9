# Databases of the first schema, which the program moves up to the second one when it opens them: their rows, what is cancelled then, and what
# isn't moved. tests/part sources this file; the functions of tests/lib.sh and tests/hostile/hostile.sh and the variables of tests/part are used here.
# What is wanted of the kept database (tests/files/kept.sh) is worked by hand.

y60=$(printf 'y%.0s' $(seq 60))

# first_tables NAME: $database is a copy of the kept one
first_tables() {
    database=$scratch/kept/$1.db
    rm -f -- "$database" "$database"-*
    cp -- tests/files/kept/first.sqlite "$database"
}

# rows NAME SQL LINE..: the stock sqlite3 reads these rows
rows() {
    local name=$1 query=$2
    shift 2
    sqlite3 "$database" "$query" > "$scratch/out" 2>&1
    : > "$scratch/wanted"
    if [ $# -gt 0 ]; then printf '%s\n' "$@" > "$scratch/wanted"; fi
    told "$name" $? 0 "$scratch/wanted"
}

# replies NAME COMMAND LINE..: the command of these words prints these lines
replies() {
    local name=$1
    local -a words=($2)
    shift 2
    printf '%s\n' "$@" > "$scratch/kept/lines"
    expect "$name" 0 "$scratch/kept/lines" "${words[0]}" "$database" "${words[@]:1}"
}

# the rows after the first command, which only asks
run_moved_rows() {
    local twelve='2099-12-31 12:00' nine
    if ! command -v sqlite3 > /dev/null; then
        echo 'skipped: the rows of tables that moved up (no sqlite3)'
        return
    fi
    nine=$(printf "$twelve %.0s" $(seq 8))$twelve
    first_tables rows
    replies 'moved: the first command' 'errors unused' 'unused errors' '(no errors)'
    rows 'moved: the row of the replica' 'SELECT one, schema, server, prim, commits, dropped, clock FROM meta' '1|2|7|3|6|4|6'
    rows 'moved: the log' 'SELECT server, n, tm, room, kind, length, choices, title, tserver, tn, place, seq FROM log ORDER BY server, n' \
        "3|3|3|oak|0|30|2024-02-29 09:15 2024-02-29 09:30 2099-12-31 23:30|$y60|0|0|2|5" \
        "7|3|3|a-room-of-16-byt|0|15|$nine|Eight others|0|0|0|6" "7|4|4|a-room-of-16-byt|0|15|$nine|Eight in vain|0|0|-1|0" \
        '7|5|5|oak|0|90|2024-02-29 10:30 2024-02-29 14:00|Gamma|0|0|1|0' '7|6|6|oak|0|240|2024-02-29 08:00 2024-02-29 13:00|Delta|0|0|-1|0'
    rows 'moved: the old tables have no rows' 'SELECT server FROM write_log UNION ALL SELECT server FROM undo'
    rows 'moved: nothing is cancelled' 'SELECT n FROM cancelled UNION ALL SELECT n FROM cancel'
    rows 'moved: the bookings, dropped ones too' 'SELECT room, day, start, stop, server, n, title, committed FROM booking ORDER BY server, n' \
        'oak|2024-02-29|540|600|3|1|Alpha|1' 'elm-2|1990-01-01|0|1440|3|2|Closed|1' "oak|2099-12-31|1410|1440|3|3|$y60|1" \
        'oak|2024-02-29|600|660|7|1|Beta|1' 'a-room-of-16-byt|2099-12-31|720|735|7|3|Eight others|1' 'oak|2024-02-29|840|930|7|5|Gamma|0'
    rows 'moved: the error log, dropped ones too' 'SELECT room, day, start, stop, server, n, title, tm, seq FROM errorlog ORDER BY n' \
        'elm-2|1990-01-01|1439|1440|7|2|"quoted" ~ text|2|4' 'a-room-of-16-byt|2099-12-31|720|735|7|4|Eight in vain|4|0' \
        'oak|2024-02-29|480|720|7|6|Delta|6|0'
    rows 'moved: it is whole' 'PRAGMA integrity_check' ok
}

# a booking and a request without a slot that were dropped before the move are cancelled after it
run_moved_cancels() {
    first_tables cancels
    replies 'moved: a dropped booking is cancelled' 'cancel oak 3-1' '7-7 T cancels 3-1'
    replies 'moved: its outcome' 'outcome oak 3-1' '3-1 C cancelled T 7-7'
    replies 'moved: it has left the sheet' 'sheet oak 2024-02-29' 'oak 2024-02-29 Thursday' '10:00-11:00 C 7-1 Beta' '14:00-15:30 T 7-5 Gamma'
    replies 'moved: it stays committed' 'calendar oak committed' 'oak committed' '2024-02-29 09:00-10:00 C 3-1 Alpha' \
        '2024-02-29 10:00-11:00 C 7-1 Beta' "2099-12-31 23:30-24:00 C 3-3 $y60"
    replies 'moved: its slot is free' 'book oak 60 2024-02-29 09:00 Again' '7-8 T 2024-02-29 09:00-10:00'
    replies 'moved: a dropped request without a slot' 'cancel elm-2 7-2' '7-9 T void 7-2'
    replies 'moved: the error log has both' 'errors elm-2' 'elm-2 errors' 'C 7-2 1990-01-01 23:59-24:00 "quoted" ~ text' 'T 7-9 cancel 7-2'
}

# first_command STATUS LINE WORD..: the first command on first tables is of these words, with the database in place of @, and prints this
# line; whatever it replies, they are moved up
first_command() {
    local status=$1 reply=$2
    local -a words=("${@:3}")
    first_tables command
    expect_line "moved: $3 first" "$status" "$reply" "${words[@]//@/$database}"
    if command -v sqlite3 > /dev/null; then
        rows "moved: the schema after $3" 'SELECT schema, (SELECT count(*) FROM write_log) + (SELECT count(*) FROM undo) FROM meta' '2|0'
    fi
}

run_moved_commands() {
    local port=$((ROOMS_PORTS + PORTS_OF_PART - 1))
    first_command 0 ok add-room @ new
    first_command 1 'refused 8 RoomThere' add-room @ unused
    first_command 0 '7-7 T 2099-12-31 09:00-10:00' book @ oak 60 2099-12-31 09:00 New
    first_command 0 '7-7 T cancels 7-5' cancel @ oak 7-5
    first_command 1 'refused 9 NoSuchRequest' cancel @ oak 7-7
    first_command 0 '7-5 T 2024-02-29 14:00-15:30' outcome @ oak 7-5
    first_command 1 'refused 10 NotPrimary' commit @ 1
    first_command 0 'dropped 6' truncate @ 6
    first_command 0 'took 2 writes 3 commits' import @ tests/files/kept/first.next
    first_command 0 "wrote $(wc -c < tests/files/kept/first.batch) bytes" export @ tests/files/kept/first.position "$scratch/kept/made" 100000
    first_command 0 "serving 127.0.0.1:$port" serve @ "$port" 0
    first_tables client
    cp -- tests/files/kept/first.sqlite "$scratch/kept/server.db"
    printf 'pulled 0 writes 0 commits\npushed 0 writes 0 commits\n' > "$scratch/kept/lines"
    expect 'moved: a bridge of two' 0 "$scratch/kept/lines" bridge "$database" "$scratch/kept/server.db"
}

# brought NAME REPLY LINE..: a batch of these lines is taken
brought() {
    printf '%s\n' "${@:3}" > "$scratch/kept/batch"
    expect_line "late: $1" 0 "$2" import "$database" "$scratch/kept/batch"
}

# handed NAME LINES STATUS REPLY LINE..: the batch of so many lines for what the late office has, in the first version; these are its lines
handed() {
    printf '%s\n' 'mp1 7 3' 'K 6' 'V 3 3' 'V 7 6' 'E' > "$scratch/kept/late.position"
    rm -f -- "$scratch/kept/out"
    expect_line "late: $1" "$3" "$4" export "$database" "$scratch/kept/late.position" "$scratch/kept/out" "$2"
    if [ "$3" = 0 ]; then
        printf '%s\n' "${@:5}" > "$scratch/kept/lines"
        same "late: $1, its lines" "$scratch/kept/out" "$scratch/kept/lines"
    fi
}

# both NAME COMMAND LINE..: both offices print these lines
both() {
    database=$primary replies "late: $1 at the primary" "${@:2}"
    database=$late replies "late: $1 at the late office" "${@:2}"
}

# late_primary: $database is the primary of the kept one, with all that the kept one has but its last two requests
late_primary() {
    local noon='2099-12-31 12:00' nine
    nine=$(printf " $noon%.0s" $(seq 8))
    rm -f -- "$database" "$database"-*
    expect_line 'late: the primary' 0 ok init "$database" 3 3
    expect_line 'late: its first room' 0 ok add-room "$database" oak
    expect_line 'late: its second room' 0 ok add-room "$database" elm-2
    expect_line 'late: 3-1' 0 "3-1 T $day 09:00-10:00" book "$database" oak 60 "$day" 09:00 Alpha
    expect_line 'late: 3-2' 0 '3-2 T 1990-01-01 00:00-24:00' book "$database" elm-2 1440 1990-01-01 00:00 Closed
    expect_line 'late: 3-3' 0 "3-3 T 2099-12-31 23:30-24:00" book "$database" oak 30 2099-12-31 23:30 "$y60"
    brought 'four requests of office 7' 'took 4 writes 0 commits' 'mr1 7 3' "W 7 1 1 oak 60 $day 09:30 1 $day 10:00 Beta" \
        'W 7 2 2 elm-2 1 1990-01-01 23:59 0 "quoted" ~ text' "W 7 3 3 a-room-of-16-byt 15 $noon 8$nine Eight others" \
        "W 7 4 4 a-room-of-16-byt 15 $noon 8$nine Eight in vain" E
    expect_line 'late: six are committed' 0 'committed 6' commit "$database" 6
}

# The primary goes over before office 7, whose database is the kept one. What office 7 has comes by its older batches, what it lacks goes there
# until a cancel is among it; once it goes over too, an exchange brings all.
run_moved_late() {
    local late primary=$scratch/kept/primary.db day=2024-02-29
    database=$primary
    late_primary
    brought 'a request that office 7 makes late' 'took 1 writes 0 commits' 'mr1 7 3' "W 7 5 5 oak 90 $day 10:30 1 $day 14:00 Gamma" M
    expect_line 'late: a request' 0 "3-4 T $day 16:00-16:30" book "$database" oak 30 "$day" 16:00 Before
    handed 'a batch without a cancel' 10 0 'wrote 51 bytes' 'mr1 3 3' "W 3 4 6 oak 30 $day 16:00 0 Before" E
    expect_line 'late: a cancel' 0 '3-5 T cancels 7-1' cancel "$database" oak 7-1
    handed 'a batch with a cancel' 10 1 'refused 27 NeedsVersion2'
    handed 'what stands before the cancel' 1 0 'wrote 51 bytes' 'mr1 3 3' "W 3 4 6 oak 30 $day 16:00 0 Before" M
    expect_line 'late: nine alternatives' 0 "3-6 T $day 10:00-10:30" book "$database" oak 30 "$day" 10:00 Nine "$day"T1{1..9}:00
    expect_line 'late: five are committed' 0 'committed 5' commit "$database" 100
    handed 'commits behind which a cancel stands' 10 1 'refused 27 NeedsVersion2'
    first_tables late
    late=$database
    printf 'pulled 3 writes 5 commits\npushed 1 writes 0 commits\n' > "$scratch/kept/lines"
    expect 'late: it goes over' 0 "$scratch/kept/lines" bridge "$late" "$primary"
    expect_line 'late: its last request is committed' 0 'committed 1' commit "$primary" 100
    printf 'pulled 0 writes 1 commits\npushed 0 writes 0 commits\n' > "$scratch/kept/lines"
    expect 'late: both have all' 0 "$scratch/kept/lines" bridge "$late" "$primary"
    both 'the sheet' "sheet oak $day" "oak $day Thursday" '09:00-10:00 C 3-1 Alpha' '10:00-10:30 C 3-6 Nine' '14:00-15:30 C 7-5 Gamma' \
        '16:00-16:30 C 3-4 Before'
    both 'the calendar' 'calendar oak committed' 'oak committed' "$day 09:00-10:00 C 3-1 Alpha" "$day 10:00-10:30 C 3-6 Nine" \
        "$day 14:00-15:30 C 7-5 Gamma" "$day 16:00-16:30 C 3-4 Before" "2099-12-31 23:30-24:00 C 3-3 $y60"
    both 'the error log' 'errors oak' 'oak errors' "C 7-6 $day 08:00-12:00 Delta"
    both 'what was cancelled' 'outcome oak 7-1' '7-1 C cancelled C 3-5'
}

# refused_move NAME REFUSAL SQL: the stock sqlite3 ran this text in the first tables; they stay as they are
refused_move() {
    first_tables refused
    sqlite3 "$database" "$3" > "$scratch/out" 2>&1
    cp -- "$database" "$scratch/kept/before"
    expect_line "$1" 1 "$2" sheet "$database" oak 2024-02-29
    same "$1: the database" "$database" "$scratch/kept/before"
}

run_moved_inits() {
    local number
    first_tables init
    expect_line 'moved: init of another server' 1 'refused 26 NotAReplica' init "$database" 8 3
    expect_line 'moved: init of another primary' 1 'refused 26 NotAReplica' init "$database" 7 1
    same 'moved: the first tables after init of another' "$database" tests/files/kept/first.sqlite
    expect_line 'moved: init of the same' 0 'ok' init "$database" 7 3
    if ! command -v sqlite3 > /dev/null; then
        echo 'skipped: first tables that stand for no replica (no sqlite3)'
        return
    fi
    rows 'moved: the schema and the tables after init' "SELECT schema, (SELECT count(*) FROM sqlite_schema WHERE type = 'table') FROM meta" '2|10'
    for number in 3 0 -1 4294967297; do
        refused_move "moved: a schema $number" 'refused 26 NotAReplica' "UPDATE meta SET schema = $number"
    done
    refused_move 'moved: the number of the second schema on the first tables' 'refused 26 NotAReplica' 'UPDATE meta SET schema = 2'
    refused_move 'moved: a write without a place' 'refused 25 Store' 'DELETE FROM undo WHERE n = 5'
    refused_move 'moved: a place without a write' 'refused 25 Store' 'INSERT INTO undo VALUES (9, 9, 0)'
    refused_move 'moved: a place of no choice' 'refused 25 Store' 'UPDATE undo SET place = -2 WHERE n = 6'
    refused_move 'moved: the place of a ninth alternative' 'refused 25 Store' 'UPDATE undo SET place = 9 WHERE server = 7 AND n = 3'
    # rows that contradict each other
    refused_move 'moved: a place that the sheet lacks' 'refused 25 Store' 'UPDATE undo SET place = -1 WHERE server = 7 AND n = 3'
    refused_move 'moved: a clock that is too late' 'refused 25 Store' 'UPDATE meta SET clock = clock + 1'
    refused_move 'moved: a request without a row' 'refused 25 Store' 'DELETE FROM errorlog'
    refused_move 'moved: a write too few is counted' 'refused 25 Store' 'UPDATE vector SET n = n - 1 WHERE server = 7'
    # its choices are of one slot
    first_tables eighth
    sqlite3 "$database" 'UPDATE undo SET place = 8 WHERE server = 7 AND n = 3'
    replies 'moved: the eighth alternative' 'outcome a-room-of-16-byt 7-3' '7-3 C 2099-12-31 12:00-12:15'
    rows 'moved: its place' 'SELECT place FROM log WHERE server = 7 AND n = 3' 8
}

run_moved() {
    local database
    mkdir -p "$scratch/kept"
    run_moved_rows
    run_moved_cancels
    run_moved_commands
    run_moved_inits
    run_moved_late
    if ! command -v python3 > /dev/null; then
        echo 'skipped: first tables of many replicas, killed while they move up (no python3)'
        return
    fi
    tried 'first tables of many replicas' tests/files/moved.py "$program" "$quick/moved" 30
    if ! command -v cc > /dev/null && ! command -v gcc > /dev/null && ! command -v clang > /dev/null; then
        echo 'skipped: a move that is stopped at each call of the disk (no C compiler)'
        return
    fi
    tried 'a move that is stopped at each call of the disk' tests/faults/stopped.py "$program" "$quick/stopped"
}
