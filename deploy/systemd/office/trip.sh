# shellcheck disable=SC2153
# rooms-office pack and unpack: exchanges by stick or by mail, one file a trip. Read by rooms-office, whose functions and variables are
# used here.
#
# A trip's file is a text, packed by gzip: the lines `rooms-trip 1`, `from SERVER NAME`, `to SERVER` (0: whoever it may be),
# `primary SERVER`, `made TIME`; the position of whoever made it; batches, the last of which ends in `E`; and `sha256` with the sum of
# all lines before.

# begin_trip: a folder for it; nobody serves and $served is empty, or its routes are asked
begin_trip() {
    [ -z "$user" ] || [ "$(id -u)" = 0 ] || fail "only root can do this: sudo rooms-office $verb .."
    umask 022
    scratch=$(mktemp -d) || exit 1
    trap 'rm -rf -- "$scratch"' EXIT
    trap 'exit 1' INT TERM
    if [ -n "$user" ]; then chown "$user:" "$scratch" || exit 1; fi
    exec 9>> "$state/lock" || exit 1
    served=yes
    if flock -n 9; then served=''; fi
}

# asked ROUTE FILE: the reply of what serves this office to the file; a pause between two stretches is waited for
asked() {
    curl --silent --max-time 120 --retry 10 --retry-delay 1 --retry-connrefused ${2:+--data-binary "@$2"} "http://127.0.0.1:$PORT/$1"
}

own_position() {
    if [ -n "$served" ]; then asked position; else as_user "$program" position "$database"; fi
}

# batch_for POSITION BATCH: one file for the other, of 64 lines where the office is served
batch_for() {
    if [ -n "$served" ]; then
        asked pull "$1" > "$2"
    else
        as_user "$program" export "$database" "$1" "$2" 100000 > "$scratch/reply" || cp -- "$scratch/reply" "$2"
    fi
}

take_batch() {
    if [ -n "$served" ]; then asked push "$1"; else as_user "$program" import "$database" "$1"; fi
}

# position_behind POSITION BATCH: what has the first has this once it has taken the second
position_behind() {
    awk '
        FNR == NR && FNR == 1 { print; next }
        FNR == NR && $1 == "K" { commits = $2 }
        FNR == NR && $1 == "V" || $1 == "W" || $1 == "X" { if ($3 + 0 > has[$2] + 0) has[$2] = $3 }
        FNR != NR && $1 == "C" && $2 + 0 > commits + 0 { commits = $2 }
        END {
            print "K " commits + 0
            for (server = 1; server <= 99; server++) if (server in has) print "V " server " " has[server]
            print "E"
        }' "$1" "$2"
}

# covers POSITION POSITION: the first has all that the second has
covers() {
    awk '
        FNR == 1 { next }
        FNR == NR { has[$1 ($1 == "V" ? $2 : "")] = $NF; next }
        $1 == "K" || $1 == "V" { if ($NF + 0 > has[$1 ($1 == "V" ? $2 : "")] + 0) less = 1 }
        END { exit less }' "$1" "$2"
}

# all_batches POSITION: one behind the other, from this position on
all_batches() {
    local last=M
    cp -- "$1" "$scratch/position"
    while [ "$last" = M ]; do
        batch_for "$scratch/position" "$scratch/batch"
        last=$(tail -n 1 -- "$scratch/batch")
        case $last in
            E | M) cat -- "$scratch/batch" ;;
            *'22 Truncated'* | *'"refusal":22}'*) fail "$name has dropped what ${peer/any/a new office} lacks (TRUNCATE=yes): the primary's office has it still" ;;
            *) fail "$name gave no batch: $(head -c 200 -- "$scratch/batch")" ;;
        esac
        position_behind "$scratch/position" "$scratch/batch" > "$scratch/behind" || exit 1
        mv -- "$scratch/behind" "$scratch/position" || exit 1
    done
}

# put_down TEXT FILE: whole and read back, or not at all; whatever holds the file may be pulled out meanwhile
put_down() {
    {
        if gzip -9nc -- "$1" > "$2.part" && sync -- "$2.part" && gzip -dc < "$2.part" | cmp -s -- - "$1" && mv -- "$2.part" "$2" && sync -- "$2"; then return; fi
    } 2> "$scratch/why"
    rm -f -- "$2.part" 2> /dev/null
    fail "$2 can't be written: $(sed -n '/[^ ]/ { s/^.*: \(.*\)$/\1/p; q }' "$scratch/why")"
}

# pack PEER FILE
pack() {
    local peer=$1 file=$2 to=$1 text
    if [ "$peer" = any ]; then to=0; else number_word 'an office to pack for (if not any)' "$peer" 1 99; fi
    [ "$peer" != "$SERVER" ] || fail "$name is server $peer itself"
    begin_trip
    text=$scratch/text
    own_position > "$scratch/own"
    [ "$(tail -n 1 -- "$scratch/own")" = E ] || fail "$name gave no position: $(head -c 200 -- "$scratch/own")"
    printf 'mp2 %s %s\nK 0\nE\n' "${peer/any/99}" "$PRIMARY" > "$scratch/known"
    if [ "$to" != 0 ] && [ -e "$state/known/$peer" ]; then cp -- "$state/known/$peer" "$scratch/known"; fi
    (all_batches "$scratch/known") > "$scratch/batches" || exit 1
    {
        printf 'rooms-trip 1\nfrom %s %s\nto %s\nprimary %s\nmade %s\n' "$SERVER" "$name" "$to" "$PRIMARY" "$(date -u +%FT%TZ)"
        cat -- "$scratch/own" "$scratch/batches"
    } > "$text" || exit 1
    echo "sha256 $(sha256sum < "$text" | cut -d ' ' -f 1)" >> "$text" || exit 1
    put_down "$text" "$file"
    echo "packed $(grep -c '^[WX] ' "$scratch/batches") writes $(grep -c '^C ' "$scratch/batches") commits for ${peer/any/any office} into $file, $(stat -c %s -- "$file") bytes"
}

# open_trip FILE: its text, tested whole, before anything of it is taken
open_trip() {
    local to primary
    [ -r "$1" ] || fail "there is no $1 that can be read"
    gzip -dc -- "$1" > "$scratch/text" 2> /dev/null || fail "$1 is no file of rooms-office pack, or it is damaged: have it packed anew"
    [ "$(head -n 1 -- "$scratch/text")" = 'rooms-trip 1' ] || fail "$1 is no file of rooms-office pack"
    [ "$(tail -n 1 -- "$scratch/text")" = "sha256 $(head -n -1 -- "$scratch/text" | sha256sum | cut -d ' ' -f 1)" ] ||
        fail "$1 is damaged: have it packed anew"
    read -r _ from from_name < <(sed -n 2p -- "$scratch/text")
    to=$(sed -n '3s/^to //p' -- "$scratch/text")
    primary=$(sed -n '4s/^primary //p' -- "$scratch/text")
    made=$(sed -n '5s/^made //p' -- "$scratch/text")
    [ "$from" != "$SERVER" ] || fail "$1 was packed at $name itself: it is for the office $to"
    [ "$to" = 0 ] || [ "$to" = "$SERVER" ] || fail "$1 is for the office of server $to, and $name is server $SERVER"
    [ "$primary" = "$PRIMARY" ] || fail "$1 is of offices whose primary is $primary, and that of $name is $PRIMARY"
}

# keep_position: what whoever packed the file has, unless more is known already
keep_position() {
    local known=$state/known/$from
    sed -n '/^mp2 /,/^E$/ { p; /^E$/q }' -- "$scratch/text" > "$scratch/theirs"
    if [ -e "$known" ] && covers "$known" "$scratch/theirs"; then return; fi
    as_user mkdir -p -- "$state/known" || exit 1
    as_user cp -- "$scratch/theirs" "$known.new" || exit 1
    as_user mv -- "$known.new" "$known" || exit 1
}

# unpack FILE
unpack() {
    local file=$1 from from_name made batch reply writes=0 commits=0
    begin_trip
    open_trip "$file"
    # each batch is a file of its own
    awk -v folder="$scratch" '/^mr[12] / { name = sprintf("%s/take.%06d", folder, ++n) } name != "" && !/^sha256 / { print > name; if (/^[EM]$/) close(name) }' \
        "$scratch/text" || exit 1
    for batch in "$scratch"/take.*; do
        reply=$(take_batch "$batch")
        if [[ ! $reply =~ ^took\ ([0-9]+)\ writes\ ([0-9]+)\ commits$ ]]; then
            case $reply in
                'refused 17 '* | *'"refusal":17}') fail "$file was packed for what $name had and has no longer, or hasn't yet: have it packed for 'any'" ;;
                *) fail "$name refused it after $writes writes and $commits commits: $reply" ;;
            esac
        fi
        writes=$((writes + BASH_REMATCH[1]))
        commits=$((commits + BASH_REMATCH[2]))
    done
    keep_position
    echo "took $writes writes $commits commits from $from_name (server $from), packed at $made"
}
