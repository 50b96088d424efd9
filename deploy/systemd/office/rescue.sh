# shellcheck disable=SC2153
# rooms-office rescue and anew: what an old database has is asked for again, and offices begin anew with another primary. Read by
# rooms-office, whose functions and variables are used here.

# take_copy DATABASE FOLDER: with its log, so that the old one stays as it is
take_copy() {
    [ -r "$1" ] || fail "there is no $1 that can be read"
    mkdir -p -- "$2" || exit 1
    cp -- "$1" "$2/rooms.db" || exit 1
    if [ -e "$1-wal" ]; then cp -- "$1-wal" "$2/rooms.db-wal" || exit 1; fi
}

# standing CALENDAR: the bookings of a reply to `calendar`, whose first line is its head
standing() { tail -n +2 -- "$1" | grep '^[0-9]\{4\}-'; }

# minutes SLOT: how long 13:30-14:30 is
minutes() {
    local from=${1%-*} to=${1#*-}
    echo $((10#${to%:*} * 60 + 10#${to#*:} - 10#${from%:*} * 60 - 10#${from#*:}))
}

# What the office has of a room: `DAY SLOT ID TITLE` of its bookings, and of its requests without a room with the slots that they wished
read_room() {
    as_user "$program" calendar "$target" "$1" full > "$scratch/calendar" || fail "the room $1 can't be read: $(cat -- "$scratch/calendar")"
    as_user "$program" errors "$target" "$1" > "$scratch/errors" || fail "the room $1 can't be read: $(cat -- "$scratch/errors")"
    {
        standing "$scratch/calendar" | sed 's/^\([^ ]* [^ ]*\) [CT] /\1 /'
        tail -n +2 -- "$scratch/errors" | sed -n 's/^[CT] \([^ ]*\) \([0-9]\{4\}-[^ ]* [^ ]*\) /\2 \1 /p'
    } > "$scratch/here"
}

# is_known ROOM ID TITLE: the office knows this request of the old database, under its id, which means the same to both
is_known() {
    local title
    [ "$same" = yes ] || return 1
    [[ $(as_user "$program" outcome "$target" "$1" "$2") != refused* ]] || return 1
    # an id that was given twice has another title here
    title=$(awk -v id="$2" '$3 == id { sub(/^[^ ]+ [^ ]+ [^ ]+ /, ""); print; exit }' "$scratch/here")
    [ -z "$title" ] || [ "$title" = "$3" ]
}

# is_there DAY SLOT TITLE: the office has such a request, by whatever id, that stands for no other one of the old database
is_there() {
    local id
    while read -r id; do
        if ! grep -q "	$id$" -- "$record"; then return 0; fi
    done < <(title=$3 awk -v day="$1" -v slot="$2" '
        $1 == day && $2 == slot { id = $3; rest = $0; sub(/^[^ ]+ [^ ]+ [^ ]+ /, "", rest); if (rest == ENVIRON["title"]) print id }
    ' "$scratch/here")
    return 1
}

# ask_again ROOM DAY SLOT ID TITLE: the reply is counted and printed
ask_again() {
    local reply
    reply=$(ROOMS_HINTS=0 as_user "$program" book -- "$target" "$1" "$(minutes "$3")" "$2" "${3%-*}" "$5" < /dev/null)
    asked=$((asked + 1))
    case $reply in
        *" logged")
            none=$((none + 1))
            echo "NO ROOM: $1 $2 $3 $5 (it was $4; now ${reply%% *})"
            ;;
        [0-9]*) echo "asked again: $1 $2 $3 $5 (it was $4; now ${reply%% *})" ;;
        *) fail "$1 $2 $3 $5 can't be asked for: $reply" ;;
    esac
    printf '%s %s\t%s\n' "$world" "$4" "${reply%% *}" >> "$record"
}

rescue_room() {
    local room=$1 day slot id title
    "$program" calendar "$scratch/old/rooms.db" "$room" full > "$scratch/old/calendar" || fail "the room $room of $old can't be read"
    read_room "$room"
    while read -r day slot _ id title; do
        all=$((all + 1))
        if grep -q "^$world $id	" -- "$record"; then
            before=$((before + 1))
        elif is_known "$room" "$id" "$title" || is_there "$day" "$slot" "$title"; then
            known=$((known + 1))
        else
            ask_again "$room" "$day" "$slot" "$id" "$title"
        fi
    done < <(standing "$scratch/old/calendar")
}

# name_room ROOM: in the database, and on the page unless this is for trial
name_room() {
    local reply
    if [ "$target" = "$database" ] && ! page_of | cut -f 1 | grep -qx -- "$1"; then
        add_room "$1" "$1"
        return
    fi
    reply=$(ROOMS_HINTS=0 as_user "$program" add-room "$target" "$1")
    case $reply in ok | 'refused 8 '*) ;; *) fail "no room could be named '$1': $reply" ;; esac
}

# rescue OLD [--dry-run]: nothing serves the office meanwhile; for trial all is done in a copy
rescue() {
    local old=$1 target=$database record=$state/rescued same=no world room all=0 asked=0 none=0 before=0 known=0
    local -a rooms
    [ -z "$user" ] || [ "$(id -u)" = 0 ] || fail 'only root can do this: sudo rooms-office rescue ..'
    exec 9>> "$state/lock" || exit 1
    flock -n 9 || fail "$name is served: end that first (sudo systemctl stop rooms-serve@$name)"
    scratch=$(mktemp -d) || exit 1
    trap 'rm -rf -- "$scratch"' EXIT
    take_copy "$old" "$scratch/old"
    world=$("$program" position "$scratch/old/rooms.db" | sed -n '1s/^mp[12] \([0-9]*\) \([0-9]*\)$/\1 \2/p')
    [ -n "$world" ] || fail "$old is no database of an office: $("$program" position "$scratch/old/rooms.db")"
    [ "${world#* }" != "$PRIMARY" ] || same=yes
    if [ -n "${2-}" ]; then
        take_copy "$database" "$scratch/trial"
        target=$scratch/trial/rooms.db
        record=$scratch/trial/rescued
        if [ -e "$state/rescued" ]; then cp -- "$state/rescued" "$record"; fi
        if [ -n "$user" ]; then
            chmod 711 "$scratch" || exit 1
            chown -R "$user:" "$scratch/trial" || exit 1
        fi
    fi
    touch -- "$record" || exit 1
    mapfile -t rooms < <(perl "$share/front/room_names.pl" "$scratch/old/rooms.db")
    [ ${#rooms[@]} != 0 ] || fail "$old has no rooms"
    for room in "${rooms[@]}"; do
        if ! perl "$share/front/room_names.pl" "$target" | grep -qx -- "$room"; then name_room "$room"; fi
        rescue_room "$room"
    done
    echo "${2:+trial, nothing was done: }$all bookings in $old: $asked asked again, of which $none found no room; $known were here; $before were asked before"
}

# ---- another primary

# what `anew` needs to know, before anything is done
test_anew() {
    local primary=$1 file word seen=' '
    shift
    number_word 'a primary' "$primary" 1 99
    for file in "$etc"/*.conf "$base"/removed.*/settings/*.conf; do
        [ -e "$file" ] || continue
        if [ "$(setting "$file" SERVER)" = "$primary" ] || [ "$(setting "$file" PRIMARY)" = "$primary" ]; then
            fail "the number $primary is in $file: the primary needs one that no office ever had"
        fi
    done
    for word in "$@"; do
        [[ $word =~ ^[a-z][a-z0-9]{0,15}=[0-9]+$ ]] || fail "an office and its number are NAME=SERVER, not '$word'"
        number_word 'a server' "${word#*=}" 1 99
        [[ $seen != *" ${word#*=} "* ]] || fail "the number ${word#*=} stands there twice"
        seen+="${word#*=} "
        read_settings "${word%=*}"
        [ -r "$database" ] || fail "there is no $database"
        [ -z "$user" ] || [ "$(id -u)" = 0 ] || fail 'only root can do this: sudo rooms-office anew ..'
    done
}

# the units of the office that are to go on
units_of() {
    local unit
    if [ ! -d /run/systemd/system ] || [ -z "$user" ]; then return; fi
    for unit in serve.service courier.timer backup.timer watch.timer; do
        unit=rooms-${unit%.*}@$name.${unit#*.}
        if systemctl is-enabled --quiet "$unit" 2> /dev/null; then echo "$unit"; fi
    done
}

# begin SERVER PRIMARY: the office has the same rooms, users, ports and peers, and a new database; the old one is put away
begin() {
    local server=$1 primary=$2 folder file linked='' away
    local -a units rooms
    mapfile -t units < <(units_of)
    mapfile -t rooms < <(perl "$share/front/room_names.pl" "$database")
    folder=$(mktemp -d) || exit 1
    # shellcheck disable=SC2064
    trap "rm -rf -- '$folder'" EXIT
    if [ -n "$user" ]; then chown "$user:" "$folder" || exit 1; fi
    make_database "$folder" "$server" "$primary" "${rooms[@]}"
    if [ -L "/etc/nginx/sites-enabled/rooms-$name" ] && [ "$etc" = /etc/rooms ]; then linked=yes; fi
    away=$(remove | sed -n 's/^removed .*: all it had is in \([^ ]*\)\. .*/\1/p')
    [ -n "$away" ] || fail "$name could not be put away"
    for file in "$away/settings"/*; do cp -pPR -- "$file" "$etc" || fail "$file can't be taken back"; done
    sed -i "s/^SERVER=.*/SERVER=$server/; s/^PRIMARY=.*/PRIMARY=$primary/" "$etc/$name.conf" || exit 1
    # shellcheck disable=SC2046
    install -d -m 700 $([ -z "$user" ] || echo "-o $user -g $user") -- "$state" || exit 1
    mv -- "$folder"/rooms.db* "$state" || exit 1
    if [ -n "$linked" ]; then
        ln -sf "$etc/$name.nginx" "/etc/nginx/sites-enabled/rooms-$name"
        if [ -d /run/systemd/system ]; then systemctl reload nginx; fi
    fi
    if [ ${#units[@]} != 0 ]; then systemctl enable --now --quiet "${units[@]}"; fi
    echo "$name is server $server of primary $primary now; its old database is $away/state/rooms.db"
}

# anew PRIMARY NAME=SERVER..
anew() {
    local primary=$1 word
    shift
    test_anew "$primary" "$@"
    for word in "$@"; do
        (
            read_settings "${word%=*}"
            begin "${word#*=}" "$primary"
        ) || exit 1
    done
    echo 'Let one office be rescued now (rooms-office rescue NAME OLD.db), all exchange, and then each other one in turn'
}
