# What an old database has is asked for again, and offices begin anew with another primary. Read by deploy.sh, and run by
# offices.sh, whose functions and variables are used here: the office west is the primary, server 1.

rooms() { "$ROOMS_PROGRAM" "$@" > /dev/null; }

# the old database of office 2: 2-1 came to west and is committed, 2-5 was cancelled, the others were handed to nobody; rooms whose names
# begin with digits, and one that nobody else has; a title that begins with a hyphen
old_database() {
    local day=2030-03-04
    rooms init "$old" 2 1
    for room in 101 2nd attic; do rooms add-room "$old" "$room"; done
    rooms book "$old" 101 60 $day 10:00 'Known at west'
    rooms bridge "$old" "$west"
    rooms commit "$west" 100
    rooms book "$old" 101 60 $day 11:00 'Budget; "1" \ 2'
    rooms book "$old" 2nd 60 $day 09:00 'Taken at west'
    rooms book -- "$old" attic 30 $day 23:30 '-late-'
    rooms book "$old" 101 15 $day 15:00 'Cancelled'
    rooms cancel "$old" 101 2-5
    rooms book "$west" 2nd 60 $day 09:30 'Of west'
    rooms commit "$west" 100
}

asked_again='asked again: 101 2030-03-04 11:00-12:00 Budget; "1" \ 2 (it was 2-2; now 7-1)
NO ROOM: 2nd 2030-03-04 09:00-10:00 Taken at west (it was 2-3; now 7-2)
asked again: attic 2030-03-04 23:30-24:00 -late- (it was 2-4; now 7-3)'

rescued_office() {
    local port=$1 south=$ROOMS_STATE/south/rooms.db before
    held 'a new office' "$office" make south 7 1 "$port" $((port + 1)) 101 2nd
    rooms bridge "$south" "$west"
    before=$("$ROOMS_PROGRAM" position "$south")
    is 'a trial says what will be' "$("$office" rescue south "$old" --dry-run)" "$asked_again
trial, nothing was done: 4 bookings in $old: 3 asked again, of which 1 found no room; 1 were here; 0 were asked before"
    is 'and does nothing' "$("$ROOMS_PROGRAM" position "$south") $("$office" rooms south | wc -l)" "$before 2"
    is 'an old database is asked for again' "$("$office" rescue south "$old" | grep -v ^added)" "$asked_again
4 bookings in $old: 3 asked again, of which 1 found no room; 1 were here; 0 were asked before"
    is 'what came of it' "$("$ROOMS_PROGRAM" calendar "$south" 101 full)" '101 full
2030-03-04 10:00-11:00 C 2-1 Known at west
2030-03-04 11:00-12:00 T 7-1 Budget; "1" \ 2'
    is 'its room is on the page' "$("$office" rooms south | tail -n 1)" 'attic            attic'
    is 'nothing is asked twice' "$("$office" rescue south "$old")" \
        "4 bookings in $old: 0 asked again, of which 0 found no room; 1 were here; 3 were asked before"
    rm "$ROOMS_STATE/south/rescued"
    is 'nor where nobody wrote it down' "$("$office" rescue south "$old")" \
        "4 bookings in $old: 0 asked again, of which 0 found no room; 4 were here; 0 were asked before"
    refuses 'a database that is not there' 1 "there is no $folder/none that can be read" rescue south "$folder/none"
    refuses 'a word too many' 2 'the words are: rescue NAME OLD.db [--dry-run] (rooms-office --help has them all)' rescue south "$old" really
}

# both offices begin anew with the primary 11; each booking of theirs is asked for once, at whichever office it stood
begun_anew() {
    local said first second
    refuses 'a primary whose number is taken' 1 "the number 7 is in $ROOMS_ETC/south.conf: the primary needs one that no office ever had" anew 7 south=7
    refuses 'a number twice' 1 'the number 12 stands there twice' anew 11 west=12 south=12
    refuses 'an office that is not there' 1 "there is no $ROOMS_ETC/none.conf that can be read" anew 11 west=11 none=12
    echo desk:hash > "$ROOMS_ETC/south.readers"
    said=$("$office" anew 11 west=11 south=12)
    first=$(sed -n 's/^west is server 11 of primary 11 now; its old database is //p' <<< "$said")
    second=$(sed -n 's/^south is server 12 of primary 11 now; its old database is //p' <<< "$said")
    is 'new databases' "$("$ROOMS_PROGRAM" position "$west" | head -n 1) $("$ROOMS_PROGRAM" position "$ROOMS_STATE/south/rooms.db" | head -n 1)" \
        'mp2 11 11 mp2 12 11'
    is 'the users stay, and the settings but for the numbers' \
        "$(cat "$ROOMS_ETC/south.readers") $(diff "${second%/state/rooms.db}/settings/south.conf" "$ROOMS_ETC/south.conf" | grep '^>' | tr '\n' ' ')" \
        'desk:hash > SERVER=12 > PRIMARY=11 '
    is 'the rooms stay' "$("$office" rooms south | wc -l)" 3
    is 'one office is rescued' "$("$office" rescue west "$first" | tail -n 1)" \
        "2 bookings in $first: 2 asked again, of which 0 found no room; 0 were here; 0 were asked before"
    rooms bridge "$ROOMS_STATE/south/rooms.db" "$west"
    is 'and another then' "$("$office" rescue south "$second" | tail -n 1)" \
        "4 bookings in $second: 2 asked again, of which 0 found no room; 2 were here; 0 were asked before"
}

rescued_offices() {
    local port=$1 folder=$folder/rescue room
    local -x ROOMS_ETC=$folder/etc ROOMS_STATE=$folder/state
    local old=$folder/old.db west=$ROOMS_STATE/west/rooms.db
    mkdir -p "$ROOMS_ETC" "$ROOMS_STATE"
    held 'the primary' "$office" make west 1 1 $((port + 4)) $((port + 5)) 101 2nd
    old_database
    rescued_office "$((port + 6))"
    begun_anew
}
