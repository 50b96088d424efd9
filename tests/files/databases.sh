# Two replicas that meet by files, what the stock sqlite3 says of their databases, and databases that are damaged. tests/part sources this file; the functions of tests/lib.sh and the variables of tests/part are used here.

# two replicas that meet by files, as commands on real databases
run_two_replicas() {
    local folder=$scratch/databases
    mkdir "$folder"
    printf 'mr1 2 1\nW 2 1 1 oak 60 1995-12-18 13:30 1 1995-12-18 15:00 Beta\nE\n' > "$folder/beta"
    printf 'mp1 9 1\nK 0\nE\n' > "$folder/pos"
    {
        printf 'mr1 1 1\nW 1 1 1 oak 60 1995-12-18 14:00 0 Alpha\n'
        printf 'W 2 1 1 oak 60 1995-12-18 13:30 1 1995-12-18 15:00 Beta\nE\n'
    } > "$folder/batch"
    printf 'oak 1995-12-18 Monday\n14:00-15:00 T 1-1 Alpha\n15:00-16:00 T 2-1 Beta\n' > "$folder/sheet"
    expect_line 'init' 0 'ok' init "$folder/a.db" 1 1
    expect_line 'add-room' 0 'ok' add-room "$folder/a.db" oak
    expect_line 'book' 0 '1-1 T 1995-12-18 14:00-15:00' book "$folder/a.db" oak 60 1995-12-18 14:00 Alpha
    expect_line 'import' 0 'took 1 writes 0 commits' import "$folder/a.db" "$folder/beta"
    expect_line 'export' 0 'wrote 106 bytes' export "$folder/a.db" "$folder/pos" "$folder/out" 10
    same 'the exported batch' "$folder/out" "$folder/batch"
    expect_line 'another init' 0 'ok' init "$folder/b.db" 9 1
    expect_line 'import of the export' 0 'took 2 writes 0 commits' import "$folder/b.db" "$folder/out"
    expect_line 'import once more' 0 'took 0 writes 0 commits' import "$folder/b.db" "$folder/out"
    expect_line 'init for another primary' 1 'refused 26 NotAReplica' init "$folder/b.db" 9 2
    expect_line 'init of a folder' 1 'refused 25 Store' init "$folder" 1 1
    expect_line 'no database' 1 'refused 26 NotAReplica' sheet "$folder/c.db" oak 1995-12-18
    expect_line 'no database for a cancel' 1 'refused 26 NotAReplica' cancel "$folder/c.db" oak 1-1
    gone 'no database is made' "$folder/c.db"
    expect 'the sheet of one' 0 "$folder/sheet" sheet "$folder/a.db" oak 1995-12-18
    expect 'the sheet of the other' 0 "$folder/sheet" sheet "$folder/b.db" oak 1995-12-18
    expect_line 'a refused export' 1 'refused 23 BadPosition' export "$folder/a.db" "$folder/beta" "$folder/none" 10
    gone 'a refused export writes no file' "$folder/none"
    expect_line 'an export to a folder' 3 'fault file' export "$folder/a.db" "$folder/pos" "$folder" 10
    expect_line 'an export to a full disk' 3 'fault file' export "$folder/a.db" "$folder/pos" /dev/full 10
    expect_line 'an import that is not there' 3 'fault file' import "$folder/a.db" "$folder/none"
    : > "$scratch/out"
    ./rooms sheet "$folder/a.db" oak 1995-12-18 > /dev/full 2> "$scratch/err"
    told 'a sheet to a full output' $? 3 "$scratch/empty"
}

# what the program wrote is a database for the stock sqlite3, and still one for the program afterwards
run_sqlite3() {
    local folder=$scratch/databases
    if ! command -v sqlite3 > /dev/null; then
        echo 'skipped: the stock sqlite3 on the databases (no sqlite3)'
        return
    fi
    sqlite3 "$folder/a.db" 'pragma integrity_check' > "$scratch/out" 2>&1
    printf 'ok\n' > "$scratch/wanted"
    told 'integrity_check of sqlite3' $? 0 "$scratch/wanted"
    sqlite3 "$folder/a.db" 'select room, day, start, stop, server, n, title, committed from booking order by server' \
        > "$scratch/out" 2>&1
    printf 'oak|1995-12-18|840|900|1|1|Alpha|0\noak|1995-12-18|900|960|2|1|Beta|0\n' > "$scratch/wanted"
    told 'the bookings as sqlite3 reads them' $? 0 "$scratch/wanted"
    expect 'the sheet after sqlite3' 0 "$folder/sheet" sheet "$folder/a.db" oak 1995-12-18
}

run_damaged() {
    local folder=$scratch/damaged database=$scratch/databases/b.db size
    mkdir "$folder"
    seq 1 2000 > "$folder/text.db"
    damaged "$folder/text.db" 'refused 25 Store'
    expect_line 'init of a text' 1 'refused 25 Store' init "$folder/text.db" 9 1
    same 'a text after init' "$folder/text.db" "$scratch/before"
    : > "$folder/empty.db"
    expect_line 'sheet of an empty file' 1 'refused 26 NotAReplica' sheet "$folder/empty.db" oak 1995-12-18
    expect_line 'init of an empty file' 0 'ok' init "$folder/empty.db" 9 1
    size=$(wc -c < "$database")
    head -c $((size / 2)) -- "$database" > "$folder/half.db"
    damaged "$folder/half.db" 'refused 25 Store'
    if command -v sqlite3 > /dev/null; then
        sqlite3 "$folder/other.db" 'create table note (id integer primary key, title text); insert into note values (1, 2)'
        sqlite3 "$folder/other.db" .dump > "$scratch/before"
        expect_line 'sheet of another database' 1 'refused 26 NotAReplica' sheet "$folder/other.db" oak 1995-12-18
        expect_line 'init of another database' 1 'refused 26 NotAReplica' init "$folder/other.db" 9 1
        sqlite3 "$folder/other.db" .dump > "$scratch/after"
        same 'another database' "$scratch/after" "$scratch/before"
    fi
    run_turned_bits "$database" "$folder/turned.db" "$size"
}

# one bit turned: the program answers or refuses, a refusal leaves the file as it is, and the sheet is back with the bit
run_turned_bits() {
    local database=$1 file=$2 size=$3 at status
    cp -- "$database" "$file"
    turn "$file" 3
    damaged "$file" 'refused 25 Store'
    cp -- "$database" "$file"
    for ((at = 0; at < size; at += size / 97 + 1)); do
        turn "$file" "$at"
        cp -- "$file" "$scratch/before"
        "$program" sheet "$file" oak 1995-12-18 > "$scratch/out" 2> "$scratch/err" < /dev/null
        status=$?
        if [ "$status" = 0 ] || [ "$status" = 1 ]; then
            passed=$((passed + 1))
        else
            echo "FAILED: a bit turned at $at: status $status"
            failed=$((failed + 1))
        fi
        if [ "$status" = 1 ]; then
            same "a bit turned at $at" "$file" "$scratch/before"
        fi
        turn "$file" "$at"
    done
    expect 'the sheet with all bits turned back' 0 "$scratch/databases/sheet" sheet "$file" oak 1995-12-18
}

# cells that the stock sqlite3 turned, rows that it left out or put twice: every command refuses, or what it read stands for a replica
run_turned_cells() {
    if ! command -v python3 > /dev/null; then
        echo 'skipped: turned cells of databases (no python3)'
        return
    fi
    PYTHONDONTWRITEBYTECODE=1 python3 tests/files/damaged/run.py "$program" "$quick/damaged" 2>&1 | tee "$scratch/out"
    count_of 'tests/files/damaged' "$scratch/out"
}

run_databases() {
    run_two_replicas
    run_sqlite3
    run_damaged
}
