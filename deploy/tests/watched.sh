# What is told of an office, and its copies at a second place. Read by deploy.sh, and run by offices.sh, whose functions and variables are
# used here.

# round_tells NAME WANTED: what the hook got at a round of watching, and nothing else
round_tells() {
    : > "$folder/told"
    "$office" watch west > "$folder/said" 2>&1
    is "$1" "$(cat -- "$folder/told")" "$2"
}

# carried WORDS: how the courier fared with the one peer; without words it met it
carried() { echo "$(date +%s) $([ -z "$1" ] && echo 0 || echo 1) https://east.example:8442 ${1:-done: 0 writes}" > "$ROOMS_STATE/west/carried"; }

told_once() {
    local dead="trouble: REPLICA at port $port DOES NOT ANSWER" peer='PEER https://east.example:8442: failed: east.example'
    round_tells 'what is wrong is told' "rooms west: $dead
$dead"
    round_tells 'once' ''
    serve_at "$ROOMS_STATE/west/rooms.db" "$port"
    round_tells 'and when it is well' "rooms west: well again: ${dead#*: }
well again: ${dead#*: }"
    round_tells 'once too' ''
    echo "PEERS=('https://east.example:8442 $folder/options')" >> "$ROOMS_ETC/west.conf"
    carried 'failed: east.example was silent; what was carried before stays'
    round_tells 'a peer' "rooms west: trouble: $peer was silent
trouble: $peer was silent"
    carried 'failed: east.example refused the password (401); what was carried before stays'
    round_tells 'another fault of it' "rooms west: trouble: $peer refused the password (401)
trouble: $peer refused the password (401)"
    carried 'failed: east.example was silent; what was carried before stays'
    round_tells 'the first again, which was told' ''
    carried ''
    round_tells 'it is met' "rooms west: well again: ${peer%%: *}
well again: ${peer%%: *}"
    carried 'failed: east.example was silent; what was carried before stays'
    ROOMS_AFTER=100 round_tells 'what may pass' ''
    carried ''
    round_tells 'has passed' ''
}

other_ways() {
    local text='trouble: NO COPY AT '$folder'/second YET'
    printf '#!/bin/sh\nexit 1\n' > "$ROOMS_ETC/west.tell"
    echo "BACKUP_TO=$folder/second" >> "$ROOMS_ETC/west.conf"
    is 'a hook that fails' "$("$office" watch west 2>&1)" "$text
rooms-office: nobody could be told: $text"
    rm "$ROOMS_ETC/west.tell"
    printf '#!/bin/sh\ncat > "%s/mail"\n' "$folder" > "$folder/bin/sendmail"
    chmod +x "$folder/bin/sendmail"
    is 'it is told again, in the journal' "$(PATH=$folder/bin:$PATH "$office" watch west 2>&1)" "$text"
    is 'and by mail' "$(cat -- "$folder/mail")" "To: root
Subject: rooms west: $text
Auto-Submitted: auto-generated
Content-Type: text/plain; charset=utf-8

$text"
}

second_places() {
    local line
    line=$("$office" backup west 2>&1)
    is 'a second place that is not there' "$? $(tail -n 1 <<< "$line")" \
        "1 rooms-office: no copy to $folder/second: there is no such folder: is the disk there?"
    held 'the check names it' eval '"$check" west | grep -qF "NO COPY AT $folder/second: there is no such folder"'
    mkdir "$folder/second"
    for _ in 1 2 3; do
        line=$("$office" backup west 2>&1)
        is 'a second place' "$? $(tail -n 1 <<< "$line")" "0 copied to $folder/second"
        sleep 1
    done
    line=$(find "$folder/second/west" -name rooms.db | sort | tail -n 1)
    is 'the copy there is read' "$("$ROOMS_PROGRAM" position "$line")" "$("$ROOMS_PROGRAM" position "$ROOMS_STATE/west/rooms.db")"
    is 'it keeps as many' "$(find "$folder/second/west" -mindepth 1 -maxdepth 1 | wc -l)" 2
    is 'the check' "$("$check" west | grep -o "copy at $folder/second [0-9]* s ago" | sed 's/[0-9]* s/N s/')" "copy at $folder/second N s ago"
    if missing 'a second place by rsync' rsync; then return; fi
    printf 'use chroot = no\npid file = %s/pid\n[far]\npath = %s/far\nread only = no\n' "$folder" "$folder" > "$folder/rsyncd.conf"
    mkdir "$folder/far"
    if [ "$(id -u)" = 0 ]; then printf 'uid = root\ngid = root\n' >> "$folder/rsyncd.conf"; fi
    rsync --daemon --no-detach --address=127.0.0.1 --port=$((port + 3)) --config="$folder/rsyncd.conf" > "$folder/rsyncd" 2>&1 &
    serving+=($!)
    reached 'no rsync' 10 taken $((port + 3))
    echo "BACKUP_TO=rsync://127.0.0.1:$((port + 3))/far" >> "$ROOMS_ETC/west.conf"
    line=$("$office" backup west 2>&1)
    is 'a far place' "$? $(tail -n 1 <<< "$line")" "0 copied to rsync://127.0.0.1:$((port + 3))/far"
    is 'the copy there is read too' "$("$ROOMS_PROGRAM" position "$folder"/far/2*/rooms.db)" "$("$ROOMS_PROGRAM" position "$ROOMS_STATE/west/rooms.db")"
    echo "BACKUP_TO=rsync://127.0.0.1:$((port + 3))/none" >> "$ROOMS_ETC/west.conf"
    "$office" backup west > "$folder/said" 2>&1
    is 'a far place that is none' "$?" 1
    echo 'BACKUP_TO=' >> "$ROOMS_ETC/west.conf"
}

days_and_room() {
    local crt=$ROOMS_ETC/west.crt line
    openssl req -x509 -newkey rsa:2048 -nodes -days 400 -subj /CN=localhost -keyout "$folder/key" -out "$crt" 2> /dev/null
    # the last of the days isn't whole any more
    sleep 2
    held 'a certificate' eval '"$check" west | grep -q "certificate of west ends in 399 days"'
    openssl x509 -in "$crt" -signkey "$folder/key" -days 11 -out "$folder/peer.crt" 2> /dev/null
    openssl x509 -in "$crt" -signkey "$folder/key" -days 0 -out "$folder/new" 2> /dev/null
    mv "$folder/new" "$crt"
    sleep 2
    printf 'user = "a:b"\ncacert = "%s"\n' "$folder/peer.crt" > "$folder/options"
    echo 'DISK_LEFT=99999999' >> "$ROOMS_ETC/west.conf"
    line=$("$check" -t west | sed 's/HAS [0-9]* MB/HAS N MB/')
    is 'what is wrong, a line each' "$line" "THE CERTIFICATE of west RAN OUT ($crt)
THE CERTIFICATE of a peer ENDS IN 10 days ($folder/peer.crt)
DISK HAS N MB LEFT"
}

watched_offices() {
    local port=$1 folder=$folder/watched check=$deploy/check/rooms-check
    local -x ROOMS_ETC=$folder/etc ROOMS_STATE=$folder/state ROOMS_AFTER=0 ROOMS_CHECK=$deploy/check/rooms-check
    mkdir -p "$ROOMS_ETC" "$ROOMS_STATE" "$folder/bin"
    held 'an office' "$office" make west 1 1 "$port" $((port + 1)) oak
    sed -i 's/^KEEP=.*/KEEP=2/' "$ROOMS_ETC/west.conf"
    # shellcheck disable=SC2016
    printf '#!/bin/sh\n{ echo "$1"; cat; } >> "%s/told"\n' "$folder" > "$ROOMS_ETC/west.tell"
    chmod +x "$ROOMS_ETC/west.tell"
    told_once
    other_ways
    stop_serving
    second_places
    serve_at "$ROOMS_STATE/west/rooms.db" "$port"
    if ! missing 'the days of a certificate' openssl; then days_and_room; fi
    stop_serving
}
