# How offices are made, get rooms and are put away: rooms-office and rooms-check on folders of their own. Read by deploy.sh, whose
# functions and variables are used here.

# everything that lies in the folders of offices, but the lines of a stretch, which may be under way
all_files() { (cd "$folder" && find etc state ! -name stretch -printf '%p %s\n' | sort); }

# refuses NAME STATUS TEXT WORD..: rooms-office with these words says so, and leaves everything as it was
refuses() {
    local name=$1 status=$2 text=$3 before said
    shift 3
    before=$(all_files)
    said=$("$office" "$@" 2>&1)
    is "$name" "$? $said" "$status rooms-office: $text"
    is "nothing is left: $name" "$(all_files)" "$before"
}

# an office can't be made of words that don't fit, or whose number or ports are taken, and nothing of it is left then
refused_offices() {
    local port=$1 long=a-name-of-17-long
    is 'an office is made' "$("$office" make west 1 1 "$port" $((port + 1)) oak elm)" \
        "made west: server 1 of primary 1, port $port, proxy at port $((port + 1)), rooms: oak elm"
    refuses 'the number of another office' 1 \
        "the office west has the number 1 ($ROOMS_ETC/west.conf): a number is an office's own for ever, so take another" \
        make east 1 1 $((port + 2)) $((port + 3)) oak
    refuses 'the port of another office' 1 "the office west has the port $port ($ROOMS_ETC/west.conf): take another" \
        make east 2 1 "$port" $((port + 3)) oak
    refuses "the port of another office's proxy" 1 "the proxy of the office west has the port $((port + 1)): take another" \
        make east 2 1 $((port + 2)) $((port + 1)) oak
    refuses 'a server that is none' 1 "a server is a number from 1 to 99, not '200'" make east 200 1 $((port + 2)) $((port + 3)) oak
    refuses 'a primary that is none' 1 "a primary is a number from 1 to 99, not '0'" make east 2 0 $((port + 2)) $((port + 3)) oak
    refuses 'a port of root' 1 "the port of the program is a number from 1024 to 65535, not '80'" make east 2 1 80 $((port + 3)) oak
    refuses 'a port of another use' 1 "the port of the proxy (if not 443) is a number from 1024 to 65535, not '80'" make east 2 1 $((port + 2)) 80 oak
    refuses 'one port for both' 1 "the program and the proxy can't both have the port $((port + 2))" make east 2 1 $((port + 2)) $((port + 2)) oak
    refuses 'a room that is none' 1 "a room has 1 to 16 letters a to z, digits and hyphens, which 'Oak' hasn't; a label may say more" \
        make east 2 1 $((port + 2)) $((port + 3)) elm Oak
    refuses 'a long room' 1 "a room has 1 to 16 letters a to z, digits and hyphens, which '$long' hasn't; a label may say more" \
        make east 2 1 $((port + 2)) $((port + 3)) "$long"
    refuses 'a room twice' 1 'the room elm stands there twice' make east 2 1 $((port + 2)) $((port + 3)) elm oak elm
    refuses 'a name that is none' 1 "a name is a letter and at most 15 letters and digits, not 'East'" make East 2 1 $((port + 2)) $((port + 3)) oak
    refuses 'too few words' 2 'the words are: make NAME SERVER PRIMARY PORT TLS ROOM.. (rooms-office --help has them all)' make east 2 1
    refuses 'no verb' 2 'the words are: make, rooms, add-room, user, secret, remove, rescue, anew, pack, unpack, serve, backup, mail, carry or watch, and what each needs (rooms-office --help has them all)' other
    python3 -c "import http.server; http.server.HTTPServer(('127.0.0.1', $((port + 2))), http.server.SimpleHTTPRequestHandler).serve_forever()" 2> /dev/null &
    serving+=($!)
    reached 'nothing listens' 10 taken $((port + 2))
    refuses 'a port that is taken' 1 "the port $((port + 2)) is taken by another program: take another" make east 2 1 $((port + 2)) $((port + 3)) oak
    mkdir -p "$folder/nginx/sites-enabled"
    printf 'server {\n\tlisten %s default_server;\n\tlisten [::]:%s default_server;\n}\n' $((port + 2)) $((port + 2)) > "$folder/nginx/sites-enabled/default"
    ROOMS_NGINX=$folder/nginx refuses 'a port that nginx needs' 1 "the port $((port + 2)) is taken by another program, and nginx, which isn't running, is to have it by $folder/nginx/sites-enabled/default: end that program, or take the file out" \
        make east 2 1 $((port + 4)) $((port + 3)) oak
    stop_serving
}

# a program that fails at the second room, and a folder that takes nothing
failing_offices() {
    local port=$1
    printf '#!/bin/sh\nif [ "$1 $3" = "add-room elm" ]; then echo "refused 25 Store"; exit 1; fi\nexec "%s" "$@"\n' "$ROOMS_PROGRAM" > "$folder/failing"
    chmod +x "$folder/failing"
    ROOMS_PROGRAM=$folder/failing refuses 'a database that fails half way' 1 "no room could be named 'elm': refused 25 Store" \
        make east 2 1 $((port + 2)) $((port + 3)) oak elm
    mkdir "$ROOMS_ETC/east.nginx"
    touch "$ROOMS_ETC/east.nginx/full"
    refuses 'settings that fail half way' 1 "$ROOMS_ETC takes no east.nginx: cannot overwrite directory '$ROOMS_ETC/east.nginx' with non-directory" \
        make east 2 1 $((port + 2)) $((port + 3)) oak elm
    rm -r "$ROOMS_ETC/east.nginx"
    mkdir "$ROOMS_STATE/east"
    touch "$ROOMS_STATE/east/rooms.db-wal"
    refuses 'a log without its database' 1 "there is $ROOMS_STATE/east/rooms.db-wal already" make east 2 1 $((port + 2)) $((port + 3)) oak
    rm "$ROOMS_STATE/east/rooms.db-wal"
    held 'an office in an empty folder' "$office" make east 2 1 $((port + 2)) $((port + 3)) oak
}

# rooms in the database and on the page, while nothing serves and while something does
rooms_of_offices() {
    local json=$ROOMS_ETC/west.rooms.json line
    is 'the rooms' "$("$office" rooms west)" 'oak              oak
elm              elm'
    sed -i 's/"label": "oak"/"label": "Oak \\"[2nd]\\" floor"/' "$json"
    is 'a room is added' "$("$office" add-room west ash 'Ash, 3rd floor')" 'added ash (Ash, 3rd floor) to west'
    held 'the page is JSON still' python3 -m json.tool "$json"
    is 'the database has it' "$("$ROOMS_PROGRAM" errors "$ROOMS_STATE/west/rooms.db" ash | head -n 1)" 'ash errors'
    is 'the rooms then' "$("$office" rooms west)" 'oak              Oak "[2nd]" floor
elm              elm
ash              Ash, 3rd floor'
    refuses 'a room that is there' 1 'ash is on the page already: Ash, 3rd floor' add-room west ash Ash
    refuses 'a room that is no name' 1 "a room has 1 to 16 letters a to z, digits and hyphens, which 'Big Room' hasn't; a label may say more" \
        add-room west 'Big Room' x
    refuses 'a room without its label' 2 'the words are: add-room NAME ROOM LABEL, with a label in quotes where it has spaces, then seats and equipment if you like (rooms-office --help has them all)' \
        add-room west yew
    refuses 'seats that are no number' 1 "seats is a number from 1 to 9999, not 'many'" add-room west yew Yew many
    refuses 'equipment with a line' 1 'a piece of equipment has 1 to 40 letters' add-room west yew Yew 8 $'a\nline'
    is 'a room with seats and equipment' "$("$office" add-room west bay 'The bay' 8 screen 'a "white" board')" 'added bay (The bay) to west'
    is 'the page has them' "$(python3 -c 'import json, sys; print(json.load(open(sys.argv[1]))["rooms"][-1])' "$json")" \
        "{'name': 'bay', 'label': 'The bay', 'seats': 8, 'has': ['screen', 'a \"white\" board']}"
    sed -i 's/"label": "The bay",/"door": { "name": "none", "release": 10 }, &/' "$json"
    is 'what a room has in braces is none of its name' "$("$office" rooms west | tail -n 1)" 'bay              The bay'
    refuses 'a room of no office' 1 "there is no $ROOMS_ETC/north.conf that can be read" add-room north yew Yew
    "$ROOMS_PROGRAM" add-room "$ROOMS_STATE/west/rooms.db" fir > /dev/null
    is 'a room that the database alone has' "$("$office" rooms west | tail -n 1)" 'fir              (in the database, and not on the page)'
    sed -i 's/^STRETCH=.*/STRETCH=2/' "$ROOMS_ETC/west.conf"
    sed -i 's/"name": "elm"/"name": "yew"/' "$json"
    # the program is `rooms` on the PATH, as in the package
    mkdir "$folder/bin"
    ln -s "$ROOMS_PROGRAM" "$folder/bin/rooms"
    env -u ROOMS_PROGRAM PATH="$folder/bin:$PATH" "$office" serve west > "$folder/served" 2>&1 &
    serving+=($!)
    reached 'west is not served' 20 taken "$(sed -n 's/^PORT=//p' "$ROOMS_ETC/west.conf")"
    held 'what differs is in the journal' grep -qx 'the page and the database differ: yew: on the page, and not in the database' "$folder/served"
    line=$("$deploy/check/rooms-check" west)
    is 'the check names what differs' "$? $(cut -d ';' -f 2,3 <<< "$line")" '1  ROOM yew IS ON THE PAGE AND NOT IN THE DATABASE; not on the page: elm fir'
    cp "$ROOMS_ETC/west.nginx" "$folder/west.nginx"
    sed -i 's,|words/\[a-z\]+\\.js,,' "$ROOMS_ETC/west.nginx"
    is 'the check names a proxy of an older package' "$("$deploy/check/rooms-check" -t west | grep -F PROXY)" \
        "THE PROXY IS OF AN OLDER PACKAGE: $ROOMS_ETC/west.nginx has no ~ ^/([a-z]+\.(html|css|js)|words/[a-z]+\.js)\$, and is to be written anew (README, 'The package')"
    mv "$folder/west.nginx" "$ROOMS_ETC/west.nginx"
    is 'and no other' "$("$deploy/check/rooms-check" -t west | grep -cF PROXY)" 0
    is 'a room is added while it is served' "$("$office" add-room west box 'The "box"')" 'added box (The "box") to west'
    is 'it can be booked' "$(curl -s "http://127.0.0.1:$(sed -n 's/^PORT=//p' "$ROOMS_ETC/west.conf")/rooms/box/errors" --retry 5 --retry-connrefused | head -n 1)" \
        'box errors'
    is 'the rooms while it is served' "$("$office" rooms west | grep -c .)" 7
    "$ROOMS_PROGRAM" init "$folder/north.db" 9 1 > /dev/null
    sed "s/^SERVER=.*/SERVER=9/" "$ROOMS_ETC/west.conf" > "$ROOMS_ETC/north.conf"
    cp "$json" "$ROOMS_ETC/north.rooms.json"
    mkdir "$ROOMS_STATE/north"
    is 'an office without its database' "$(ROOMS_BINARY=$ROOMS_PROGRAM ROOMS_PROGRAM=$deploy/front/rooms "$office" serve north 2>&1 | tail -n 1)" \
        "rooms-office: nothing is served: refused 26 NotAReplica (status 1): there is no $ROOMS_STATE/north/rooms.db; \`rooms init $ROOMS_STATE/north/rooms.db SERVER PRIMARY\` makes a database"
    mv "$folder/north.db" "$ROOMS_STATE/north/rooms.db"
    is 'an office whose port is taken' "$("$office" serve north 2>&1 | tail -n 1 | sed 's/[0-9]\{5\}/PORT/')" \
        'rooms-office: nothing is served: fault network (status 3): the port PORT is taken by another program'
    rm -r "$ROOMS_ETC"/north.* "$ROOMS_STATE/north" "$ROOMS_CALENDARS/north"
    is 'an office that is served is not removed' "$("$office" remove west 2>&1)" 'rooms-office: west is served: end that first'
    held 'nothing of it is gone' test -e "$ROOMS_ETC/west.conf" -a -e "$ROOMS_STATE/west/rooms.db"
    stop_serving
}

put_away_offices() {
    local port=$1 away
    echo desk:hash > "$ROOMS_ETC/east.readers"
    held 'an office is removed' "$office" remove east
    away=$(find "$ROOMS_STATE" -maxdepth 1 -name 'removed.east.*')
    is 'nothing of it is found' "$(find "$ROOMS_ETC" -name 'east.*'; find "$ROOMS_STATE" -maxdepth 1 -name east)" ''
    held 'its calendars are gone' test ! -e "$ROOMS_CALENDARS/east"
    is 'its users are put away' "$(cat "$away/settings/east.readers")" desk:hash
    is 'its database too' "$("$ROOMS_PROGRAM" position "$away/state/rooms.db" | head -n 1)" 'mp2 2 1'
    refuses 'no office is removed twice' 1 'there is no office east' remove east
    refuses 'its number stays taken' 1 \
        "the office east has the number 2 ($away/settings/east.conf): a number is an office's own for ever, so take another" \
        make east 2 1 $((port + 2)) $((port + 3)) oak
    held 'it is made anew with another number' "$office" make east 3 1 $((port + 2)) $((port + 3)) oak
}

deploy_made_offices() {
    local folder=$deploy_scratch/made office=$deploy/systemd/rooms-office script
    local ROOMS_ETC=$folder/etc ROOMS_STATE=$folder/state ROOMS_SHARE=$folder/share ROOMS_USER='' ROOMS_PROGRAM
    ROOMS_PROGRAM=$(readlink -f -- "$program")
    export ROOMS_ETC ROOMS_STATE ROOMS_SHARE ROOMS_USER ROOMS_PROGRAM
    local -x LC_ALL=C ROOMS_CALENDAR=$deploy/calendar/rooms-calendar ROOMS_CALENDARS=$folder/calendars
    mkdir -p "$ROOMS_SHARE" "$ROOMS_ETC" "$ROOMS_STATE" "$ROOMS_CALENDARS/east"
    cp -r "$deploy/page" "$deploy/front" "$deploy/news" "$deploy/report" "$deploy/proxy/office.conf.in" "$deploy/systemd/office.settings.in" "$deploy/systemd/page_rooms.pl" \
        "$ROOMS_SHARE"
    for script in "$office" "$deploy/courier/rooms-courier" "$deploy/check/rooms-check" "$deploy/calendar/rooms-calendar" "$deploy/report/rooms-report" "$deploy/package/build" "$deploy/tests/alone" \
        "$deploy/tests/under_systemd"; do
        held "${script##*/} --help" eval '[ "$("$script" --help 2>&1 | wc -c)" -gt 70 ] && "$script" -h > /dev/null'
    done
    "$deploy/check/rooms-check" > "$folder/said" 2>&1
    is 'a check of no office' "$?" 2
    refused_offices "$ports"
    failing_offices "$ports"
    rooms_of_offices
    put_away_offices "$ports"
    rescued_offices "$ports"
    trips "$ports"
    watched_offices "$ports"
}
