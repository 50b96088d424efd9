# A database of the first schema that is kept, with batches and a position of the first version of the exchange text, and what it must show
# once the program has moved it up. tests/part sources this file; the functions of tests/lib.sh and tests/http/http.sh and the variables of tests/part are
# used here. tests/files/kept/make.py made the files, once, with a program of the first schema; the store's log beside the database had no rows
# and isn't kept.

# shows DATABASE FILE: each line `$ <command> <word>..` of the file is a command on the database, and what follows is its reply
shows() {
    local database=$1 file=$2 line words=()
    : > "$scratch/kept/wanted"
    while IFS= read -r line; do
        if [ "${line:0:2}" = '$ ' ]; then
            if [ ${#words[@]} -gt 0 ]; then
                expect "kept: ${words[*]}" 0 "$scratch/kept/wanted" "${words[0]}" "$database" "${words[@]:1}"
            fi
            read -r -a words <<< "${line:2}"
            : > "$scratch/kept/wanted"
        else
            printf '%s\n' "$line" >> "$scratch/kept/wanted"
        fi
    done < "$file"
    expect "kept: ${words[*]}" 0 "$scratch/kept/wanted" "${words[0]}" "$database" "${words[@]:1}"
}

# in_present_version FILE: its batches and positions in the version of the exchange text that replicas write by the present rules
in_present_version() {
    local version=1
    if [ "$ROOMS_RULES" = second ]; then version=2; fi
    sed "s/^m\([pr]\)1 /m\1$version /" "$1"
}

# it is served: who asks by the kept position, of the first version, is handed the kept batch, and the kept batch of another office is taken;
# a cancel is handed to positions of the second version alone
run_kept_served() {
    local database=$scratch/kept/served.sqlite folder=$scratch/kept line=$'\n'
    if ! command -v curl > /dev/null; then
        echo 'skipped: the kept database over HTTP (no curl)'
        return
    fi
    cp -- tests/files/kept/first.sqlite "$database"
    printf 'mp1 9 3\nK 9\nV 3 5\nV 7 6\nE\n' > "$folder/lacks"
    printf 'mp1 9 3\nK 9\nV 3 5\nV 7 7\nE\n' > "$folder/has"
    serve "$database" 9
    asked 'kept: a pull by the kept position' 200 "$(cat tests/files/kept/first.batch)$line" /pull --data-binary @tests/files/kept/first.position
    asked 'kept: a pull in the present version' 200 "$(cat "$folder/batch")$line" /pull --data-binary "@$folder/position"
    asked 'kept: a push of the kept batch' 200 "took 2 writes 3 commits$line" /push --data-binary @tests/files/kept/first.next
    asked 'kept: a push of it again' 200 "took 0 writes 0 commits$line" /push --data-binary @tests/files/kept/first.next
    asked 'kept: a cancel' 200 '{"id":"7-7","mark":"T","state":"cancels","target":"3-4"}' /cancel --data-binary '{"id":"3-4","room":"oak"}'
    asked 'kept: a pull by the kept position after it' 409 '{"name":"NeedsVersion2","refusal":27}' /pull --data-binary @tests/files/kept/first.position
    asked 'kept: a pull that lacks the cancel alone' 409 '{"name":"NeedsVersion2","refusal":27}' /pull --data-binary "@$folder/lacks"
    asked 'kept: a pull that lacks nothing' 200 "mr1 7 3${line}E${line}" /pull --data-binary "@$folder/has"
    sed -i 's/^mp1 /mp2 /' "$folder/lacks"
    asked 'kept: the same lack in the second version' 200 "mr2 7 3${line}X 7 7 7 oak 3 4${line}E${line}" /pull --data-binary "@$folder/lacks"
    served 'the lines of the kept database' 200 200 200 200 200 409 409 200 200
}

# what the kept database has to show, in the present version
kept_files() {
    local file
    mkdir -p "$scratch/kept"
    for file in replies after position batch; do
        in_present_version "tests/files/kept/first.$file" > "$scratch/kept/$file"
    done
}

# it is moved up with the first command, and shows what it showed before; it goes on to receive, undo and execute again as it did
run_kept() {
    local database=$scratch/kept/first.sqlite
    kept_files
    cp -- tests/files/kept/first.sqlite "$database"
    shows "$database" "$scratch/kept/replies"
    expect_line 'kept: a batch for a position' 0 "wrote $(wc -c < tests/files/kept/first.batch) bytes" \
        export "$database" tests/files/kept/first.position "$scratch/kept/made" 100000
    same 'kept: the batch' "$scratch/kept/made" tests/files/kept/first.batch
    expect_line 'kept: a batch for a position of the present version' 0 "wrote $(wc -c < tests/files/kept/first.batch) bytes" \
        export "$database" "$scratch/kept/position" "$scratch/kept/made" 100000
    same 'kept: the batch of the present version' "$scratch/kept/made" "$scratch/kept/batch"
    shows "$database" "$scratch/kept/after"
    run_kept_served
}
