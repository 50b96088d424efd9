# What a merge, a cancel or a commit did to the requests of an office, as news.pl finds it; how the office stands to the others, as status.pl
# says; the settings of the commit; and what is made beside serving. Read by deploy.sh, whose functions and variables are used here.

# a round of the office `north`, whose database is $north
round() { perl "$deploy/news/news.pl" north "$north" 30; }

# what is listed, a line an item
listed() {
    python3 -c 'import json, sys
slot = lambda it: it and "{day} {start}-{stop}".format(**it) or "-"
for it in json.load(sys.stdin)["items"]:
    print(it["kind"], it["id"], it["room"], it["title"], slot(it["from"]), slot(it["to"]), it["by"] or "-", it["mark"], *[slot(it[word]) for word in it if word == "wish"])' \
        < "$ROOMS_CALENDARS/north/news.json"
}

# takes LINES: a batch of these lines, in one line each
takes() {
    printf '%s\n' 'mr2 1 1' "$@" E > "$folder/batch"
    "$program" import "$north" "$folder/batch" > /dev/null
}

# requests of office 1 that go before those of office 2, worked by hand: 1-1 takes 13:00 from 2-1, by which 2-4 gets room; 1-2 moves 2-3
news_by_hand() {
    local day=2030-03-04 key
    is 'the first round' "$(round; listed)" ''
    "$program" book "$north" oak 60 $day 13:00 'East "supplier" \ 1' > /dev/null
    "$program" book "$north" oak 60 $day 16:00 Stays > /dev/null
    "$program" book "$north" oak 60 $day 17:00 Planning ${day}T18:00 > /dev/null
    "$program" book "$north" oak 60 $day 13:30 Waits > /dev/null
    is 'a new request without a room' "$(round; listed)" "news: 1 without a room
none 2-4 oak Waits - - - T $day 13:30-14:30"
    is 'a round without a change' "$(round; listed | wc -l)" 1
    takes "W 1 1 1 oak 30 $day 13:00 0 Earlier" "W 1 2 2 oak 30 $day 17:30 0 Late"
    is 'a merge' "$(round; listed | tail -n +2)" "news: 1 lost the room, 1 moved, 1 found a room
found 2-4 oak Waits - $day 13:30-14:30 - T
lost 2-1 oak East \"supplier\" \\ 1 $day 13:00-14:00 - - T $day 13:00-14:00
moved 2-3 oak Planning $day 17:00-18:00 $day 18:00-19:00 - T"
    takes 'X 1 3 99 oak 2 4'
    "$program" cancel "$north" oak 2-2 > /dev/null
    is 'cancels' "$(round; listed | tail -n 2)" "news: 2 cancelled
cancelled 2-4 oak Waits $day 13:30-14:30 - 1-3 T
cancelled 2-2 oak Stays $day 16:00-17:00 - 2-5 T"
    takes 'C 1 1 1' 'C 2 2 1' 'C 3 1 2' 'C 4 2 2' 'C 5 2 3' 'C 6 2 4' 'C 7 1 3'
    is 'commits, but for a cancel' "$(round; listed | tail -n +7)" "news: 3 final
final 2-1 oak East \"supplier\" \\ 1 - - - C
final 2-4 oak Waits - - 1-3 C
final 2-3 oak Planning $day 18:00-19:00 $day 18:00-19:00 - C"
    takes 'C 8 2 5'
    is 'the commit of the cancel' "$(round; listed | tail -n +10)" "news: 1 final
final 2-2 oak Stays - - 2-5 C"
    held 'all of it is JSON for the page' grep -q '"office":"north","server":2,"made":"20' "$ROOMS_CALENDARS/north/news.json"
    is 'keys' "$(grep -oE '"key":"[^"]*"' "$ROOMS_CALENDARS/north/news.json" | sort -u | grep -cE '"2-[1-4]\.[0-9]{10}"')" 10
    key=$(sed -n 's/.*"key":"\(2-3\.[0-9]*\)".*"moved".*/\1/p' "$ROOMS_CALENDARS/north/news.json")
    touch "$ROOMS_CALENDARS/north/told/$key" "$ROOMS_CALENDARS/north/told/2-3.1764536710"
    touch "$ROOMS_CALENDARS/north/groups/2020-06-30.abcdefgh" "$ROOMS_CALENDARS/north/groups/2095-06-30.abcdefgh"
    round
    is 'groups stay until long after their last day' "$(ls "$ROOMS_CALENDARS/north/groups")" 2095-06-30.abcdefgh
    is 'marks of what is listed stay' "$(ls "$ROOMS_CALENDARS/north/told")" "$key"
    is 'the check counts them' "$("$deploy/check/rooms-check" north | tr ';' '\n' | grep news)" ' news: 1 lost the room, 1 moved, 1 of these not marked as told'
    sed -i "s/^\(item\t1\t\)[0-9]*\(\t2-[13]\..*\)/\1$(($(date +%s) - 86400 * 31))\2/" "$ROOMS_STATE/north/news"
    is 'what is old goes' "$(round; listed | cut -d ' ' -f 1,2 | tr '\n' ' ')$(ls "$ROOMS_CALENDARS/north/told")" 'none 2-4 found 2-4 cancelled 2-4 cancelled 2-2 final 2-4 final 2-2 '
}

# the hook gets each change once, and again where it fails
news_to_hook() {
    printf '#!/bin/sh\necho "of $1" >> %s\ncat >> %s\n[ -e %s ]\n' "$folder/handed" "$folder/handed" "$folder/well" > "$ROOMS_ETC/north.news"
    chmod +x "$ROOMS_ETC/north.news"
    "$program" book "$north" oak 60 2030-03-06 09:00 Rota > /dev/null
    "$program" book "$north" oak 60 2030-03-06 09:30 'No room' > /dev/null
    is 'a hook that fails' "$(round)" "news: 1 without a room
news: $ROOMS_ETC/north.news failed, and gets the same again"
    touch "$folder/well"
    round
    round
    is 'what the hook gets' "$(sed -E 's/\.[0-9]+\t/.N\t/; s/[0-9-]{10}T[0-9:]{8}Z/TIME/' "$folder/handed")" "of north
2-7.N	none	2-7	oak	T	2030-03-06 09:30-10:30	-	-	TIME	No room
of north
2-7.N	none	2-7	oak	T	2030-03-06 09:30-10:30	-	-	TIME	No room"
    rm "$ROOMS_ETC/north.news"
}

# status: a part of status.json
status() {
    perl "$deploy/news/status.pl" north "$north" 60 'east=https://east:8442' 'south=https://south:8442'
    python3 -c 'import json, sys
print(*[json.load(sys.stdin)[word] for word in sys.argv[1:]])' "$@" < "$ROOMS_CALENDARS/north/status.json"
}

# rooms that the page doesn't show: what the courier brought of a peer's page, and of one that calls; and what the database has
rooms_elsewhere() {
    local json=$ROOMS_ETC/north.rooms.json
    mkdir -p "$ROOMS_STATE/north/known" "$ROOMS_CALENDARS/north/elsewhere"
    printf '{"rooms": [{"name": "oak"}, {"name": "ash", "label": "Ash \\"3\\" \\\\ grün"}]}' > "$ROOMS_STATE/north/known/rooms.0"
    printf '{"rooms": [{"name": "yew", "label": "bad \377"}, {"name": "No"}, {"name": "ash"}]}' > "$ROOMS_CALENDARS/north/elsewhere/west"
    printf 'no list' > "$ROOMS_CALENDARS/north/elsewhere/south"
    is 'a page of no room that can be read says nothing' "$(perl "$deploy/news/status.pl" north "$north" 60 'east=https://east' && grep -o '"elsewhere":.*' "$ROOMS_CALENDARS/north/status.json")" '"elsewhere":[]}'
    printf '{"rooms": [{"name": "elm"}]}' > "$json"
    is 'rooms of other offices' "$(perl "$deploy/news/status.pl" north "$north" 60 'east=https://east' && grep -o '"elsewhere":.*' "$ROOMS_CALENDARS/north/status.json")" \
        '"elsewhere":[{"room":"ash","label":"Ash \"3\" \\ grün","known":false,"office":"east"},{"room":"oak","label":"oak","known":true,"office":"east"},{"room":"yew","label":"bad ?","known":false,"office":"west"}]}'
    held 'it is JSON' python3 -m json.tool "$ROOMS_CALENDARS/north/status.json"
    printf '{"rooms": [{"name": "oak"}, {"name": "ash"}, {"name": "yew"}]}' > "$json"
    is 'none where the page has them all' "$(perl "$deploy/news/status.pl" north "$north" 60 'east=https://east' && grep -o '"elsewhere":.*' "$ROOMS_CALENDARS/north/status.json")" '"elsewhere":[]}'
    rm -r "$json" "$ROOMS_STATE/north/known" "$ROOMS_CALENDARS"/north/elsewhere/*
}

how_others_stand() {
    is 'an office on its own' "$(perl "$deploy/news/status.pl" north "$north" 60 && sed 's/.*"mail/"mail/' "$ROOMS_CALENDARS/north/status.json")" \
        '"mail":false,"red_minutes":60,"peers":[],"callers":[],"elsewhere":[]}'
    is 'one that asks for addresses' "$(perl "$deploy/news/status.pl" north "$north" 60 mail && grep -o '"mail":[a-z]*' "$ROOMS_CALENDARS/north/status.json")" '"mail":true'
    rooms_elsewhere
    # eight writes by hand, all committed, and two since
    is 'what waits to be final' "$(perl "$deploy/news/status.pl" north "$north" 60; grep -oE '"(requests|tentative)":[0-9]*' "$ROOMS_CALENDARS/north/status.json" | tr '\n' ' ')" \
        '"requests":10 "tentative":2 '
    is 'peers that were never met' "$(status peers)" "[{'name': 'east', 'met': None, 'fault': None}, {'name': 'south', 'met': None, 'fault': None}]"
    printf '%s\n' '1764536710 0 https://east:8442 done: 0 writes' '1764536700 3 https://south:8442 failed: no such name; the courier may run again' > "$ROOMS_STATE/north/carried"
    is 'a peer that was met' "$(status peers)" "[{'name': 'east', 'met': '2025-11-30T21:05:10Z', 'fault': None}, {'name': 'south', 'met': None, 'fault': 'no such name'}]"
    echo '1764540000 3 https://east:8442 failed: gone' > "$ROOMS_STATE/north/carried"
    is 'when it was met stays' "$(status peers | cut -d '}' -f 1)" "[{'name': 'east', 'met': '2025-11-30T21:05:10Z', 'fault': 'gone'"
    head -c 70000 /dev/zero > "$ROOMS_CALENDARS/north/callers/west"
    touch -d '2025-11-30 21:05:10Z' "$ROOMS_CALENDARS/north/callers/west"
    is 'a caller' "$(status callers)" "[{'name': 'west', 'met': '2025-11-30T21:05:10Z'}]"
    is 'its lines are dropped, its time stays' "$(status callers) $(stat -c %s "$ROOMS_CALENDARS/north/callers/west")" "[{'name': 'west', 'met': '2025-11-30T21:05:10Z'}] 0"
    held 'the check knows of the caller' eval '"$deploy/check/rooms-check" north | grep -qE "; west CALLED LAST [0-9]+ h ago"'
    touch "$ROOMS_CALENDARS/north/callers/west"
    held 'the check of a caller that came' eval '"$deploy/check/rooms-check" north | grep -qE "; west called [0-9] s ago"'
}

# reply_of PORT PATH WORD..: a reply of the office, whose pauses are waited for
reply_of() {
    local port=$1 path=$2
    shift 2
    curl -s -f --retry 60 --retry-delay 1 --retry-connrefused --retry-all-errors "$@" "http://127.0.0.1:$port$path"
}

# the primary commits only while all others were met; and what is made beside serving holds nobody up, though it takes as long as we want
beside_serving() {
    local port=$1 booking='{"room":"oak","day":"2030-03-04","start":"09:00","length":60,"title":"Rota"}'
    held 'a primary' "$office" make west 1 1 "$port" $((port + 1)) oak
    is 'a commit that is none' "$(sed -i 's/^COMMIT=.*/COMMIT=mett/' "$ROOMS_ETC/west.conf"; "$office" serve west 2>&1)" \
        "rooms-office: COMMIT in $ROOMS_ETC/west.conf is always or met, not 'mett'"
    is 'hours that are none' "$(sed -i 's/^COMMIT=.*/COMMIT=met/; s/^MET_HOURS=.*/MET_HOURS=0/' "$ROOMS_ETC/west.conf"; "$office" serve west 2>&1)" \
        "rooms-office: MET_HOURS in $ROOMS_ETC/west.conf is a number from 1 to 9999, not '0'"
    printf "STRETCH=1\nMET_HOURS=2\nPEERS=('east=https://east:8442')\n" >> "$ROOMS_ETC/west.conf"
    printf '#!/bin/sh\necho begun >> %s\nuntil [ -e %s ]; do sleep 0.2; done\necho made >> %s\n' "$folder/slow" "$folder/go" "$folder/slow" > "$folder/calendar"
    chmod +x "$folder/calendar"
    ROOMS_CALENDAR=$folder/calendar "$office" serve west > "$folder/served" 2>&1 &
    serving+=($!)
    reached 'west is not served' 60 taken "$port"
    held 'a request' reply_of "$port" /submit -d "$booking"
    held 'nothing is committed while east was not met' until_held 60 grep -qx 'nothing is committed until these are met: east' "$folder/served"
    is 'so it says' "$(reply_of "$port" /position | sed -n 2p)" 'K 0'
    echo "$(($(date +%s) - 3000)) 0 https://east:8442 done: 0" > "$ROOMS_STATE/west/carried"
    held 'once it was met it is' until_held 60 eval 'reply_of "$port" /position | grep -qx "K 1"'
    held 'and that is said' grep -qx 'all offices were met: commits go on' "$folder/served"
    is 'all that while the calendars were made' "$(cat "$folder/slow")" begun
    touch "$folder/go"
    held 'until they are there' until_held 60 grep -q made "$folder/slow"
    mkdir -p "$ROOMS_CALENDARS/west/callers"
    touch -d '3 hours ago' "$ROOMS_CALENDARS/west/callers/south"
    held 'a caller that comes no more counts too' until_held 60 grep -qx 'nothing is committed until these are met: south' "$folder/served"
    stop_serving
}

# two offices, 330 requests, cuts: all that changed is in the news, once
week_of_offices() {
    timeout 900 python3 -B "$deploy/tests/week.py" "$office" "$program" "$1" > "$folder/week" 2>&1
    grep -vE ' passed, | rounds, ' "$folder/week"
    if [[ $(tail -n 1 "$folder/week") =~ ^([0-9]+)\ passed,\ ([0-9]+)\ failed$ ]]; then
        passed=$((passed + BASH_REMATCH[1]))
        failed=$((failed + BASH_REMATCH[2]))
    else
        echo 'FAILED: deploy/tests/week.py printed no result'
        failed=$((failed + 1))
    fi
}

deploy_news() {
    local folder=$deploy_scratch/news office=$deploy/systemd/rooms-office
    local ROOMS_ETC=$folder/etc ROOMS_STATE=$folder/state ROOMS_SHARE=$folder/share ROOMS_USER='' ROOMS_PROGRAM
    ROOMS_PROGRAM=$(readlink -f -- "$program")
    export ROOMS_ETC ROOMS_STATE ROOMS_SHARE ROOMS_USER ROOMS_PROGRAM
    local -x LC_ALL=C ROOMS_CALENDAR=$deploy/calendar/rooms-calendar ROOMS_CALENDARS=$folder/calendars north=$folder/state/north/rooms.db
    mkdir -p "$ROOMS_SHARE" "$ROOMS_ETC" "$ROOMS_STATE/north" "$ROOMS_CALENDARS"/north/{told,groups,callers}
    cp -r "$deploy/page" "$deploy/front" "$deploy/news" "$deploy/proxy/office.conf.in" "$deploy/systemd/office.settings.in" "$deploy/systemd/page_rooms.pl" "$ROOMS_SHARE"
    printf 'SERVER=2\nPRIMARY=1\nPORT=1\n' > "$ROOMS_ETC/north.conf"
    "$program" init "$north" 2 1 > /dev/null
    "$program" add-room "$north" oak > /dev/null
    news_by_hand
    news_to_hook
    how_others_stand
    beside_serving "$ports"
    rm -r "$ROOMS_ETC"/west.* "$ROOMS_ETC/north.conf" "$ROOMS_STATE"/{west,north}
    week_of_offices "$ports"
}
