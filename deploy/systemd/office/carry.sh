# rooms-office carry: the courier to each peer of the settings. Read by rooms-office, whose functions and variables are used here.

# note_peer URL STATUS WORDS: how the courier fared with this peer, at once; the others' lines stay
note_peer() {
    (
        flock 8
        {
            if [ -e "$state/carried" ]; then grep -vF " $1 " -- "$state/carried"; fi
            echo "$(date +%s) $2 $1 $3"
        } > "$state/carried.new"
        mv -- "$state/carried.new" "$state/carried"
    ) 8>> "$state/carried.lock"
}

# keep_known FILE: the position of a replica that was met, by the number of its server
keep_known() {
    local server
    server=$(sed -n '1s/^mp[12] \([0-9]*\) .*/\1/p' "$1")
    if [ -n "$server" ]; then mv -- "$1" "$state/known/$server"; else rm -f -- "$1"; fi
}

# name_rooms NUMBER URL [OPTIONS]: once an hour, and where the rooms of the page changed, the peer is given these, and its own come here: a room
# that one office added is known to the other before anybody booked it. A peer without a proxy has none.
name_rooms() {
    local theirs=$state/known/rooms.$1 ours=$etc/$name.rooms.json
    local -a ask=(curl --silent --fail --http1.1 --connect-timeout 10 --speed-limit 20 --speed-time "${ROOMS_SILENCE:-60}" --max-filesize 100000
        ${3:+--config "$3"})
    if [ ! -r "$ours" ] || { [ -n "$(find "$theirs" -mmin -50 2> /dev/null)" ] && [ ! "$ours" -nt "$theirs" ]; }; then return; fi
    touch -- "$theirs"
    "${ask[@]}" --output /dev/null --upload-file "$ours" "$2/exchange/rooms-of"
    if "${ask[@]}" --output "$theirs.new" "$2/exchange/rooms"; then mv -- "$theirs.new" "$theirs"; else rm -f -- "$theirs.new"; fi
}

# carry_to NUMBER URL [OPTIONS]: once; what the courier printed last is the line of this peer
carry_to() {
    local number=$1 url=$2 options=${3-} line status=1
    line=$(timeout "${ROOMS_LONGEST:-3600}" "${ROOMS_COURIER:-rooms-courier}" ${options:+-2 "$options"} -p "$state/known/new.$number" \
        "http://127.0.0.1:$PORT" "$url" | tail -n 1)
    case $line in
        done:*) status=0 ;;
        failed:*) ;;
        *) line="failed: $url took longer than ${ROOMS_LONGEST:-3600} seconds; what was carried before stays, and the courier may run again" ;;
    esac
    echo "$url $line"
    note_peer "$url" "$status" "$line"
    if [ -e "$state/known/new.$number" ]; then keep_known "$state/known/new.$number"; fi
    if [ "$status" = 0 ]; then name_rooms "$number" "$url" "$options"; fi
    return "$status"
}

# ---- a peer that has the same

# stay_with URL [OPTIONS]: the peer's position is asked for again and again over one connection, which is far cheaper than a new one each
# time, for an hour, or until it has something else than this office
stay_with() {
    local url=$1 options=${2-} every=${ROOMS_EVERY:-116} line position='' peer_positions asking
    exec {peer_positions}< <(exec curl --silent --no-buffer --fail --fail-early --http1.1 --connect-timeout 10 --speed-limit 20 \
        --speed-time "${ROOMS_SILENCE:-60}" --user-agent '' --header 'Accept:' ${options:+--config "$options"} \
        --rate "$((3600 / every))/h" "$url/position#[1-$((3600 / every))]" 2> /dev/null)
    asking=$!
    while IFS= read -r -u "$peer_positions" line; do
        position+=$line$'\n'
        if [ "$line" != E ]; then continue; fi
        if [ "$(own_position)" != "$(tail -n +2 <<< "${position%$'\n'}")" ]; then break; fi
        note_peer "$url" 0 'done: 0 writes 0 commits there, 0 writes 0 commits back'
        position=''
    done
    kill "$asking" 2> /dev/null
    exec {peer_positions}<&-
}

own_position() { curl --silent --max-time 60 --retry 5 --retry-delay 1 --retry-connrefused "http://127.0.0.1:$PORT/position" | tail -n +2; }

# ---- all peers

# visit NUMBER URL [OPTIONS]: the courier once; then, where it is to stay, each time that one of the two has something new, until it fails
visit() {
    local status=0
    while :; do
        carry_to "$@" || status=$?
        echo "$status" > "$state/known/status.$1"
        if [ -z "$stay" ] || [ "$status" != 0 ]; then return "$status"; fi
        sleep "${ROOMS_EVERY:-116}"
        stay_with "${@:2}"
    done
}

# note_tried NUMBER: this peer has been tried once; after the last one what started the unit goes on
note_tried() {
    if [ -n "${tried[$1]-}" ]; then return; fi
    tried[$1]=yes
    untried=$((untried - 1))
    if [ "$untried" = 0 ] && [ -n "$stay" ]; then
        pause=5
        if [ -n "${NOTIFY_SOCKET-}" ]; then systemd-notify --ready; fi
    fi
}

# Each peer has a process of its own, so that none waits for another. Until the last has been tried, or for good where it is to stay, the
# others are met again when it is time.
carry() {
    local number url options stay=${1-} worst=0 untried=${#PEERS[@]} pause=0.2
    local -a running=() ended=() tried=()
    if [ "$untried" = 0 ]; then stay=''; fi
    if [ "$untried" = 0 ] && [ -n "${NOTIFY_SOCKET-}" ]; then systemd-notify --ready; fi
    mkdir -p -- "$state/known" || exit 1
    rm -f -- "$state"/known/status.*
    touch -- "$state/known/began"
    while [ "$untried" != 0 ] || [ ${#running[@]} != 0 ] || [ -n "$stay" ]; do
        for number in "${!PEERS[@]}"; do
            if [ "$untried$stay" = 0 ] || [ -n "${running[number]-}" ]; then continue; fi
            if [ -n "${ended[number]-}" ] && [ $((SECONDS - ended[number])) -lt "${ROOMS_EVERY:-116}" ]; then continue; fi
            split_peer "${PEERS[number]}"
            visit "$number" "$url" "$options" &
            running[number]=$!
        done
        for number in "${!running[@]}"; do
            if [ -e "$state/known/status.$number" ]; then note_tried "$number"; fi
            if kill -0 "${running[number]}" 2> /dev/null; then continue; fi
            if ! wait "${running[number]}"; then worst=1; fi
            note_tried "$number"
            unset 'running[number]'
            ended[number]=$SECONDS
        done
        # it begins anew with other settings or rooms
        if [ -n "$stay" ] && { [ "$etc/$name.conf" -nt "$state/known/began" ] || [ "$etc/$name.rooms.json" -nt "$state/known/began" ]; }; then break; fi
        sleep "$pause"
    done
    if [ ${#running[@]} != 0 ]; then kill "${running[@]}"; fi
    exit "$worst"
}
