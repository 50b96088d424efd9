# The second place of an office's copies (BACKUP_TO): a folder that is there, as on another disk, or an address of rsync. Read by
# rooms-office, whose functions and variables are used here.

# put_second COPY: the newest KEEP copies of a folder are kept; the last line printed is what went wrong
put_second() {
    local place=$BACKUP_TO/$name old new
    [ -d "$BACKUP_TO" ] || { echo 'there is no such folder: is the disk there?' && return 1; }
    new=$place/${1##*/}
    mkdir -p -- "$place" && rm -rf -- "$place/new" && cp -rp -- "$1" "$place/new" && sync "$place/new"/* && mv -T -- "$place/new" "$new" || return 1
    "$program" position "$new/rooms.db" > "$state/second.position" || return 1
    while IFS= read -r old; do rm -rf -- "${place:?}/$old"; done \
        < <(find "$place" -mindepth 1 -maxdepth 1 -name '2*' -printf '%f\n' | sort -r | tail -n +$((KEEP + 1)))
}

# put_far COPY: to an address of rsync, and brought back from there to be read; it keeps all
put_far() {
    local back=$state/second.back
    rm -rf -- "$back"
    rsync --archive --timeout=60 -- "$1" "$BACKUP_TO/" || return 1
    rsync --archive --timeout=60 -- "$BACKUP_TO/${1##*/}" "$back/" || return 1
    "$program" position "$back/${1##*/}/rooms.db" > "$state/second.position" || return 1
    rm -rf -- "$back"
}

# second_place COPY: also there, tried by reading it there; how it went is in the file `second`, which rooms-check reads
second_place() {
    local how=put_second words
    if [ -z "$BACKUP_TO" ]; then return; fi
    case $BACKUP_TO in /*) ;; *:*) how=put_far ;; esac
    if words=$("$how" "$1" 2>&1) && "$program" position "$1/rooms.db" | cmp -s -- - "$state/second.position"; then
        echo "$(date +%s) 0 $1" > "$state/second"
        echo "copied to $BACKUP_TO"
        return
    fi
    words=${words##*$'\n'}
    echo "$(date +%s) 1 ${words:-the copy there differs}" > "$state/second"
    fail "no copy to $BACKUP_TO: ${words:-the copy there differs}"
}
