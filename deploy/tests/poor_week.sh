# A week of four offices: west, the primary, meets east over a line that breaks again and again, and far over a slow one on which packets are
# lost; hut has no line, and a stick goes there and back; another peer of west is silent. All book the same hours. Read by deploy.sh, whose
# functions and variables are used here.

week_offices='west east far hut'

port_of() { setting_of "$1" PORT; }

setting_of() { sed -n "s/^$2=//p" "$ROOMS_ETC/$1.conf"; }

# ask_for OFFICE ROOM START: an hour of today's round, over HTTP; a pause between two stretches is waited for
ask_for() {
    curl -s -f -m 20 --retry 10 --retry-delay 1 --retry-connrefused -o /dev/null \
        -d "{\"room\":\"$2\",\"day\":\"2030-03-0$day\",\"start\":\"$3:00\",\"length\":60,\"title\":\"$3 of $1\",\"alternatives\":[{\"day\":\"2030-03-0$day\",\"start\":\"$((10#$3 + 4)):30\"}]}" \
        "http://127.0.0.1:$(port_of "$1")/submit" && asked=$((asked + 1))
}

all_book() {
    local name
    for name in $week_offices; do
        ask_for "$name" oak 10
        ask_for "$name" elm 1$day
    done
}

# what the hook was given so far, and which faults of peers there were at each round of the courier
watch_west() {
    sed -n 's/^[0-9]* 1 \(http[^ ]*\) \([^;]*\).*/trouble: PEER \1: \2/p' "$ROOMS_STATE/west/carried" | sed -E 's/[0-9]+ (s|min|h|MB|days)\b/N \1/g' >> "$folder/faults"
    "$office" watch west > "$folder/said" 2>&1
}

meet() {
    "$office" carry west > "$folder/carried" 2>&1
    watch_west
}

stick() { "$office" pack "$1" "$2" "$folder/stick" && "$office" unpack "$3" "$folder/stick"; }

# the hut's file is on its way while the others meet
week() {
    local day asked=0
    for day in 1 2 3 4 5; do
        all_book
        meet
        case $day in
            2 | 4) held "the stick to the hut, day $day" stick west 4 hut ;;
            3 | 5) held "the stick from the hut, day $day" stick hut 1 west ;;
        esac
    done
    is 'all were asked for' "$asked" 40
}

position_at() { curl -s -m 20 --retry 10 --retry-delay 1 --retry-connrefused "http://127.0.0.1:$(port_of "$1")/position" | tail -n +2 | tr '\n' ' '; }

# commits are what is left to be carried, until all have the same
is_settled() {
    local name all
    kill -USR1 "$(cat -- "$ROOMS_STATE/west/pid")"
    sleep 1
    position_at west > "$folder/said"
    meet
    stick west 4 hut > "$folder/said"
    stick hut 1 west > "$folder/said"
    all=$(position_at west)
    [[ $all == 'K 40 V 1 10 V 2 10 V 3 10 V 4 10 E ' ]] || return 1
    for name in east far hut; do [ "$(position_at "$name")" = "$all" ] || return 1; done
}

calendars_of() { for room in oak elm; do "$ROOMS_PROGRAM" calendar "$ROOMS_STATE/$1/rooms.db" "$room" full && "$ROOMS_PROGRAM" errors "$ROOMS_STATE/$1/rooms.db" "$room"; done; }

# each fault that the courier met was told, once, and nothing else of peers
told_of_peers() {
    grep '^trouble: PEER' "$folder/told" | sort > "$folder/told.peers"
    is 'each fault was told' "$(sort -u "$folder/told.peers")" "$(sort -u "$folder/faults")"
    is 'the silent peer once, in words' "$(grep "127.0.0.1:$((port + 6))" "$folder/told.peers")" \
        "trouble: PEER http://127.0.0.1:$((port + 6)): failed: http://127.0.0.1:$((port + 6)) was silent for 10 seconds"
    is 'nothing but peers' "$(grep -v 'PEER' "$folder/told")" ''
}

week_on_poor_lines() {
    local port=$1 folder=$folder/week name number=0
    local -x ROOMS_ETC=$folder/etc ROOMS_STATE=$folder/state ROOMS_AFTER=0 ROOMS_CHECK=$deploy/check/rooms-check ROOMS_CALENDAR=true \
        ROOMS_SILENCE=10 ROOMS_TRIES=0 ROOMS_COURIER=$deploy/courier/rooms-courier
    mkdir -p "$ROOMS_ETC" "$ROOMS_STATE"
    for name in $week_offices; do
        number=$((number + 1))
        # no proxy runs: its ports are those of the lines, which come later
        held "the office $name" "$office" make "$name" "$number" 1 $((port + number - 1)) $((port + number + 3)) oak elm
        sed -i 's/^STRETCH=.*/STRETCH=600/' "$ROOMS_ETC/$name.conf"
        "$office" serve "$name" > "$folder/$name.log" 2>&1 &
        serving+=($!)
        reached "$name is not served" 30 taken $((port + number - 1))
    done
    line cut $((port + 4)) $((port + 1))
    line slow $((port + 5)) $((port + 2))
    line silent $((port + 6))
    printf "PEERS=('http://127.0.0.1:%s' 'http://127.0.0.1:%s' 'http://127.0.0.1:%s')\n" $((port + 4)) $((port + 5)) $((port + 6)) >> "$ROOMS_ETC/west.conf"
    # shellcheck disable=SC2016
    printf '#!/bin/sh\ncat >> "%s/told"\n' "$folder" > "$ROOMS_ETC/west.tell"
    chmod +x "$ROOMS_ETC/west.tell"
    week
    held 'all is everywhere' until_held 120 is_settled
    stop_serving
    for name in east far hut; do is "$name shows what west shows" "$(calendars_of "$name")" "$(calendars_of west)"; done
    is 'each meeting is there, with or without a room' "$(calendars_of west | grep -c ' of ')" 40
    told_of_peers
}

run_poor_week() {
    local folder office=$deploy/systemd/rooms-office
    deploy_begin
    if missing 'a week on poor lines' curl flock perl python3; then return; fi
    folder=$deploy_scratch/poor_week
    local -x ROOMS_SHARE=$folder/share ROOMS_CALENDARS=$folder/calendars ROOMS_USER='' ROOMS_PROGRAM
    ROOMS_PROGRAM=$(readlink -f -- "$program")
    mkdir -p "$ROOMS_SHARE" "$ROOMS_CALENDARS"
    cp -r "$deploy/page" "$deploy/front" "$deploy/news" "$deploy/proxy/office.conf.in" "$deploy/systemd/office.settings.in" "$deploy/systemd/page_rooms.pl" \
        "$ROOMS_SHARE"
    week_on_poor_lines "$ports"
}
