# Rows that contradict each other: the stock sqlite3 turned a number in a database, and each command that would change it, exchange it or
# serve it is refused; where `meta` and `vector` contradict each other, each question is, too.
# tests/part sources this file; the functions of tests/lib.sh and tests/files/commands.sh and the variables of tests/part are used here.

# turned NAME SQL: the stock sqlite3 ran this text in a database with five writes: three bookings, one of which is taken back by the
# fourth write, and a request that found no free slot
turned() {
    rm -f -- "$database"-*
    cp -- "$scratch/commands/five.db" "$database"
    if ! sqlite3 "$database" "$2" > "$scratch/out" 2>&1; then
        echo "FAILED: $1: sqlite3 takes $2"
        failed=$((failed + 1))
    fi
    sqlite3 "$database" .dump > "$scratch/rows"
}

# refused_so NAME WORD..: the command of these words is refused with 25, and the rows stay as they were
refused_so() {
    local name=$1
    shift
    expect_line "$name" 1 'refused 25 Store' "$@"
    sqlite3 "$database" .dump > "$scratch/rows_after"
    same "the rows after it: $name" "$scratch/rows_after" "$scratch/rows"
}

# refused_changes NAME: each command that would change, exchange or serve the database that was turned is refused, and changes nothing
refused_changes() {
    refused_so "$1: a booking in oak" book "$database" oak 30 1995-12-18 18:00 Next
    refused_so "$1: a booking in elm" book "$database" elm 30 1995-12-18 18:00 Next
    refused_so "$1: a cancel" cancel "$database" oak 1-1
    refused_so "$1: a room" add-room "$database" ash
    refused_so "$1: a commit" commit "$database" 1
    refused_so "$1: a truncation" truncate "$database" 1
    refused_so "$1: a batch" import "$database" "$scratch/commands/batch"
    refused_so "$1: init" init "$database" 1 1
    refused_so "$1: a server" serve "$database" 20123 1
    refused_so "$1: an exchange" exchange "$database" http://127.0.0.1:20123/
    refused_so "$1: a bridge" bridge "$database" "$scratch/commands/other.db"
}

# contradicts NAME SQL: only rows of several tables show it together, so that a question doesn't
contradicts() {
    turned "$1" "$2"
    refused_changes "$1"
}

# numbers_contradict NAME SQL: `meta` and `vector` show it, so that each question is refused, too
numbers_contradict() {
    contradicts "$1" "$2"
    refused_so "$1: a position" position "$database"
    refused_so "$1: a sheet" sheet "$database" oak 1995-12-18
    refused_so "$1: a calendar" calendar "$database" oak full
    refused_so "$1: an outcome" outcome "$database" oak 1-1
    refused_so "$1: an error log" errors "$database" oak
    refused_so "$1: a batch for a position" export "$database" "$scratch/commands/known" "$scratch/commands/made" 10
}

run_contradicting() {
    mkdir -p "$scratch/commands"
    if ! command -v sqlite3 > /dev/null; then
        echo 'skipped: rows that contradict each other (no sqlite3)'
        return
    fi
    blank 1 1
    expect_line 'oak' 0 'ok' add-room "$database" oak
    expect_line 'elm' 0 'ok' add-room "$database" elm
    expect_line 'Alpha' 0 '1-1 T 1995-12-18 09:00-10:00' book "$database" oak 60 1995-12-18 09:00 Alpha
    expect_line 'Beta' 0 '1-2 T 1995-12-18 09:00-10:00' book "$database" elm 60 1995-12-18 09:00 Beta
    expect_line 'Gamma' 0 '1-3 T 1995-12-18 11:00-12:00' book "$database" oak 60 1995-12-18 11:00 Gamma
    expect_line 'Gamma is cancelled' 0 '1-4 T cancels 1-3' cancel "$database" oak 1-3
    expect_line 'Delta' 0 '1-5 T logged' book "$database" oak 60 1995-12-18 09:00 Delta
    expect_line 'Alpha is committed' 0 'committed 1' commit "$database" 1
    cp -- "$database" "$scratch/commands/five.db"
    printf '%s\n' 'mr1 3 1' 'W 3 1 1 oak 30 1995-12-18 16:00 0 Other' 'E' > "$scratch/commands/batch"
    printf '%s\n' 'mp2 2 1' 'K 0' 'E' > "$scratch/commands/known"
    rm -f -- "$scratch/commands/other.db"
    expect_line 'another office' 0 'ok' init "$scratch/commands/other.db" 2 1

    # the next id is that of a write that is there: in two tables, and in each alone
    contradicts 'four of five are counted' 'UPDATE vector SET n = 4'
    contradicts 'three of five are counted' 'UPDATE vector SET n = 3'
    contradicts 'two of five are counted' 'UPDATE vector SET n = 2'
    contradicts 'one of five is counted' 'UPDATE vector SET n = 1'
    contradicts 'the next id in errorlog alone' 'UPDATE vector SET n = 4; DELETE FROM log WHERE n = 5'
    contradicts 'the next id in cancel alone' 'UPDATE vector SET n = 3; DELETE FROM log WHERE n = 4'
    contradicts 'the next id in cancelled alone' 'UPDATE vector SET n = 2; DELETE FROM log WHERE n = 3'
    contradicts 'the next id in booking alone' 'UPDATE vector SET n = 1; DELETE FROM log WHERE n = 2'
    contradicts 'the next id in log alone' 'UPDATE vector SET n = 1; DELETE FROM booking WHERE n = 2'
    turned 'all five are counted' 'UPDATE vector SET n = 5'
    expect_line 'a booking behind all five' 0 '1-6 T 1995-12-18 18:00-18:30' book "$database" oak 30 1995-12-18 18:00 Next

    # meta and vector contradict each other
    numbers_contradict 'a server without writes' 'UPDATE vector SET n = 0'
    numbers_contradict 'more committed writes than writes' 'UPDATE vector SET n = 1, committed = 2; UPDATE meta SET commits = 2'
    numbers_contradict 'no clock' 'UPDATE meta SET clock = 0'
    numbers_contradict 'a clock that is too late' 'UPDATE meta SET clock = 6'
    numbers_contradict 'a last time that is too late' 'UPDATE vector SET tm = 6'
    numbers_contradict 'no commit' 'UPDATE meta SET commits = 0'
    numbers_contradict 'a commit too many' 'UPDATE meta SET commits = 2'
    numbers_contradict 'no committed write' 'UPDATE vector SET committed = 0'
    numbers_contradict 'a dropped commit at the primary' 'UPDATE meta SET dropped = 1'
    numbers_contradict 'no row of a server' 'DELETE FROM vector'

    # what only rows of several tables show together
    contradicts 'a booking at another slot than its place in the log' "UPDATE booking SET start = 600, stop = 660 WHERE n = 1"
    contradicts 'two bookings that overlap' "UPDATE booking SET room = 'oak' WHERE n = 2; UPDATE log SET room = 'oak' WHERE n = 2"
    contradicts 'a request that has two rows' "INSERT INTO errorlog SELECT room, day, start, stop, server, n, title, 1, 0 FROM booking WHERE n = 2"
    contradicts 'a request without a row' 'DELETE FROM errorlog'
    contradicts 'a tentative write that the log lacks' 'DELETE FROM log WHERE n = 5'
    contradicts 'a committed booking without its mark' 'UPDATE booking SET committed = 0 WHERE n = 1'
    contradicts 'a room that is not known' "UPDATE booking SET room = 'ash' WHERE n = 2"
    contradicts 'a cancelled booking whose cancel is void' 'UPDATE cancel SET done = 0'
    contradicts 'an earlier write at the last time' 'UPDATE log SET tm = 5 WHERE n = 2'
    contradicts 'a slot that ends before it begins' 'UPDATE booking SET stop = 500 WHERE n = 1'
}
