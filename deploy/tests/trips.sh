# Exchanges by stick: rooms-office pack and unpack, while an office is served and while none is; files that are damaged, for another office or
# late; a stick that is full. Read by deploy.sh, and run by offices.sh, whose functions and variables are used here.

# all that an office has, by its number
position_of() { "$ROOMS_PROGRAM" position "$ROOMS_STATE/$1/rooms.db" | tail -n +2 | tr '\n' ' '; }

# unpacked NAME FILE: what it says it took, without the time
unpacked() { "$office" unpack "$@" 2>&1 | sed 's/, packed at .*//'; }

packed() { "$office" pack "$@" 2>&1 | sed 's/ into .*//'; }

# leaves NAME TEXT FILE: unpack at the island refuses this file, and nothing changes
leaves() {
    local before
    before=$(position_of island)
    is "$1" "$("$office" unpack island "$3" 2>&1)" "rooms-office: $2"
    is "nothing changed: $1" "$(position_of island)" "$before"
}

is_committed() { [ "$(curl -s "http://127.0.0.1:$port/position" | sed -n 's/^K //p')" = "$1" ]; }

# there and back, and there again with what was committed meanwhile; the primary is served, the island is not
there_and_back() {
    is 'a first file' "$(packed west 3 "$stick/1")" 'packed 200 writes 0 commits for 3'
    is 'all of it is new' "$(unpacked island "$stick/1")" 'took 200 writes 0 commits from west (server 1)'
    is 'it may come twice' "$(unpacked island "$stick/1")" 'took 0 writes 0 commits from west (server 1)'
    "$ROOMS_PROGRAM" book "$ROOMS_STATE/island/rooms.db" oak 60 2030-03-04 10:00 Review > /dev/null
    is 'the way back has what west lacks' "$(packed island 1 "$stick/2")" 'packed 1 writes 0 commits for 1'
    is 'it is taken while west serves' "$(unpacked west "$stick/2")" 'took 1 writes 0 commits from island (server 3)'
    kill -USR1 "$(cat -- "$ROOMS_STATE/west/pid")"
    held 'west commits' until_held 30 is_committed 201
    is 'the next file has the commits' "$(packed west 3 "$stick/3")" 'packed 0 writes 201 commits for 3'
    is 'which are new' "$(unpacked island "$stick/3")" 'took 0 writes 201 commits from west (server 1)'
    is 'an earlier file that comes late' "$(unpacked island "$stick/1")" 'took 0 writes 0 commits from west (server 1)'
    is 'what is known of west stays' "$(sed -n 2p "$ROOMS_STATE/island/known/1")" 'K 201'
    is 'both have the same' "$(position_of island)" 'K 201 V 3 1 V 7 200 E '
    is 'a file for whoever it may be' "$(packed island any "$stick/any")" 'packed 201 writes 201 commits for any office'
    is 'is taken by a new office' "$(unpacked fresh "$stick/any")" 'took 201 writes 201 commits from island (server 3)'
}

damaged_files() {
    local size cut
    size=$(stat -c %s "$stick/any")
    for cut in 0 10 $((size / 2)) $((size - 1)); do
        head -c "$cut" "$stick/any" > "$stick/cut"
        leaves "a file of $cut bytes" "$stick/cut is no file of rooms-office pack, or it is damaged: have it packed anew" "$stick/cut"
    done
    gzip -dc "$stick/any" | sed 's/Review/Rewiev/' | gzip > "$stick/changed"
    leaves 'a file that was changed' "$stick/changed is damaged: have it packed anew" "$stick/changed"
    echo text > "$stick/text"
    leaves 'a file of another kind' "$stick/text is no file of rooms-office pack, or it is damaged: have it packed anew" "$stick/text"
    leaves 'a file for another office' "$stick/2 was packed at island itself: it is for the office 1" "$stick/2"
    is 'a file for another office, elsewhere' "$("$office" unpack fresh "$stick/1" 2>&1)" \
        "rooms-office: $stick/1 is for the office of server 3, and fresh is server 4"
    held 'offices of another primary' "$office" make other 9 9 $((port + 6)) $((port + 7)) oak
    is 'a file for them' "$(packed other any "$stick/other")" 'packed 0 writes 0 commits for any office'
    leaves 'a file of theirs' "$stick/other is of offices whose primary is 9, and that of island is 1" "$stick/other"
    is 'no peer' "$("$office" pack island me "$stick/4" 2>&1)" "rooms-office: an office to pack for (if not any) is a number from 1 to 99, not 'me'"
    is 'itself' "$("$office" pack island 3 "$stick/4" 2>&1)" 'rooms-office: island is server 3 itself'
    is 'a stick that is not there' "$("$office" pack island 1 "$stick/none/4" 2>&1)" "rooms-office: $stick/none/4 can't be written: No such file or directory"
    is 'what was dropped' "$("$ROOMS_PROGRAM" truncate "$ROOMS_STATE/island/rooms.db" 201; "$office" pack island any "$stick/4" 2>&1)" \
        "dropped 201
rooms-office: island has dropped what a new office lacks (TRUNCATE=yes): the primary's office has it still"
    is 'none of these left a file' "$(find "$stick" -name '4*' -o -name '*.part')" ''
}

# a stick with room for less than the file
pulled_out() {
    if ! unshare -m mount -t tmpfs none "$stick" 2> /dev/null; then
        echo 'skipped: a stick that is full (no right to mount)'
        return
    fi
    is 'a stick that is full' "$(unshare -m sh -c 'mount -t tmpfs -o size=4k none "$1" && head -c 2000 /dev/urandom > "$1/1" && "$2" pack west any "$1/5" 2>&1; ls "$1"' sh "$stick" "$office")" \
        "rooms-office: $stick/5 can't be written: No space left on device
1"
}

trips() {
    local port=$1 folder=$folder/trips stick
    local -x ROOMS_ETC=$folder/etc ROOMS_STATE=$folder/state
    stick=$folder/stick
    mkdir -p "$ROOMS_ETC" "$ROOMS_STATE" "$stick"
    held 'the primary' "$office" make west 1 1 "$port" $((port + 1)) oak
    held 'an island' "$office" make island 3 1 $((port + 2)) $((port + 3)) oak
    held 'a new office' "$office" make fresh 4 1 $((port + 4)) $((port + 5)) oak
    batch_of 7 oak 200 > "$folder/batch"
    "$ROOMS_PROGRAM" import "$ROOMS_STATE/west/rooms.db" "$folder/batch" > /dev/null
    # its stretch is long, so that it commits when it is told to end it
    sed -i 's/^STRETCH=.*/STRETCH=600/' "$ROOMS_ETC/west.conf"
    "$office" serve west > "$folder/served" 2>&1 &
    serving+=($!)
    reached 'west is not served' 20 taken "$port"
    there_and_back
    damaged_files
    pulled_out
    stop_serving
}
