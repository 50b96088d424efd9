# What stands around the program, tried on the built program: proxy, courier, stretches of serving, units, package and page. Read
# by tests/part (or by deploy/tests/alone), whose variables passed, failed, scratch and program are used here; the last is the path of
# the program. What a missing package would be needed for is skipped by name.

deploy=$(cd -- "$(dirname -- "${BASH_SOURCE[0]}")/.." && pwd)

. "$deploy/tests/helpers.sh"
. "$deploy/tests/offices.sh"
. "$deploy/tests/lines.sh"
. "$deploy/tests/looked.sh"
. "$deploy/tests/rescue.sh"
. "$deploy/tests/trips.sh"
. "$deploy/tests/watched.sh"
. "$deploy/tests/poor_week.sh"
. "$deploy/tests/news.sh"
. "$deploy/tests/together.sh"
. "$deploy/tests/mail.sh"
. "$deploy/tests/many.sh"

# ---- texts that go with the program

deploy_texts() {
    local word
    for word in $(sed -n '/^| `init /,/^$/p' docs/FORMATS.md | cut -d'|' -f2 | grep -oE '`[a-z-]+ ' | tr -d '` '); do
        held "the help has $word" grep -qF "['$word', " "$deploy/front/help.pl"
        held "the man page has $word" grep -qE "^(\.BI $word |\\\\fB$word\\\\fI )" "$deploy/package/rooms.1"
        held "the completion has $word" grep -qE "commands='.*\b$word\b" "$deploy/package/rooms.bash-completion"
    done
    for word in $("$deploy/systemd/rooms-office" --help | sed -n 's/^ *rooms-office \([a-z-]*\) .*/\1/p'); do
        held "the man page of offices has $word" grep -qxF ".B $word" "$deploy/package/rooms-office.8"
        held "the completion of offices has $word" grep -qE "compgen -W '[a-z -]*\b$word\b" "$deploy/package/rooms.bash-completion"
    done
    for word in $(grep -ohE 'ROOMS_(HINTS|WAIT|BINARY)' "$deploy"/front/* | sort -u); do
        held "the man page has $word" grep -qxF ".B $word" "$deploy/package/rooms.1"
    done
    for word in $(sed -n 's/^#     \(-[a-z]\) .*/\1/p' "$deploy/import/rooms-import"); do
        held "the man page of rooms-import has $word" grep -qE "^\.BI? \\\\${word}( |\$)" "$deploy/package/rooms-import.1"
    done
    for word in "$deploy"/import/*; do
        is "the import has no fault: ${word##*/}" "$(perl -Mstrict -wc "$word" 2>&1)" "$word syntax OK"
    done
    is 'a word of help is completed' "$(. "$deploy/package/rooms.bash-completion"
        COMP_WORDS=(rooms help bo) COMP_CWORD=2
        _rooms
        echo "${COMPREPLY[*]}")" 'book'
    while read -r word; do
        held "the man page has the refusal $word" grep -qF "$word" "$deploy/package/rooms.1"
    done < <(sed -n 's/^| \([0-9]*\) | \([A-Z][A-Za-z]*\) | .*/\1|\2|/p' docs/FORMATS.md)
    is 'a command is completed' "$(. "$deploy/package/rooms.bash-completion"
        COMP_WORDS=(rooms ex) COMP_CWORD=1
        _rooms
        echo "${COMPREPLY[*]}")" 'export exchange'
    held 'no file of the page is long' test "$(wc -l "$deploy"/page/*.* | sed '/ total$/d' | sort -n | awk 'END { print $1 }')" -lt 260
    if ! missing 'what the modules of the page import' python3; then
        is 'the modules of the page import what is there' "$("$deploy/tests/modules.py" "$deploy/page" | grep -c FAILED)" 0
        is 'the words of the page are whole in each language' "$("$deploy/tests/words.py" "$deploy/page" 2>&1 | grep -v ' passed, 0 failed$')" ''
    fi
    is 'the page makes no HTML of texts' "$(cat "$deploy"/page/*.js "$deploy"/page/words/*.js | grep -cE 'innerHTML|outerHTML|insertAdjacentHTML|document\.write')" 0
    is 'the page has no code or style within its HTML, and nothing from elsewhere' \
        "$(cat "$deploy"/page/*.html | grep -cE '<style|style=|<script>| on[a-z]+=|https?://')" 0
    if ! missing 'shellcheck of the scripts' shellcheck; then
        held 'shellcheck of the scripts' shellcheck -x "$deploy"/tests/under_systemd "$deploy"/systemd/rooms-office \
            "$deploy"/courier/rooms-courier "$deploy"/check/rooms-check "$deploy"/calendar/rooms-calendar "$deploy"/news/peers.sh "$deploy"/package/build "$deploy"/package/debian/{postinst,prerm,postrm} \
            rooms "$deploy/front/start"
        held 'shellcheck of the parts of rooms-office' shellcheck -s bash -e SC2154 "$deploy"/systemd/office/*.sh
    fi
}

# ---- the front, at a prompt

# The files are where another user reaches them, who is refused there.
deploy_front() {
    local folder file
    for file in "$deploy"/front/rooms "$deploy"/front/*.pl; do
        is "the front has no fault: ${file##*/}" "$(perl -Mstrict -wc "$file" 2>&1)" "$file syntax OK"
    done
    folder=$(mktemp -d)
    chmod 755 "$folder"
    timeout --foreground 900 python3 -B "$deploy/tests/front.py" "$deploy/front/rooms" "$program" "$folder" > "$deploy_scratch/front" 2>&1
    grep -v ' passed, ' "$deploy_scratch/front"
    if [[ $(tail -n 1 "$deploy_scratch/front") =~ ^([0-9]+)\ passed,\ ([0-9]+)\ failed$ ]]; then
        passed=$((passed + BASH_REMATCH[1]))
        failed=$((failed + BASH_REMATCH[2]))
    else
        echo 'FAILED: deploy/tests/front.py printed no result'
        failed=$((failed + 1))
    fi
    rm -rf --one-file-system -- "$folder"
}

# ---- an office, as the operator makes it

# offices: west (the primary) and east, with passwords and a certificate, in folders of their own
deploy_offices() {
    local name list
    export ROOMS_ETC=$deploy_scratch/etc ROOMS_STATE=$deploy_scratch/state ROOMS_SHARE=$deploy_scratch/share ROOMS_USER='' \
        ROOMS_COURIER=$deploy/courier/rooms-courier ROOMS_CALENDAR=$deploy/calendar/rooms-calendar ROOMS_CALENDARS=$deploy_scratch/calendars \
        ROOMS_PROGRAM
    ROOMS_PROGRAM=$(readlink -f -- "$program")
    mkdir -p "$ROOMS_SHARE"
    cp -r "$deploy/page" "$deploy/front" "$deploy/news" "$deploy/report" "$deploy/proxy/office.conf.in" "$deploy/systemd/office.settings.in" "$deploy/systemd/page_rooms.pl" \
        "$ROOMS_SHARE"
    held 'an office is made' "$deploy/systemd/rooms-office" make west 1 1 $((ports)) $((ports + 1)) oak elm
    held 'it names the zone of its clock' grep -qF '"zone": "'"$(readlink -f /etc/localtime | sed -n 's,.*/zoneinfo/,,p')"'"' "$ROOMS_ETC/west.rooms.json"
    held 'another office is made' "$deploy/systemd/rooms-office" make east 2 1 $((ports + 2)) $((ports + 3)) oak
    is 'an office is not made twice' "$("$deploy/systemd/rooms-office" make west 1 1 1 1 oak 2>&1)" \
        "rooms-office: there is $ROOMS_ETC/west.conf already"
    for name in west east; do
        openssl req -x509 -newkey rsa:2048 -nodes -days 60 -subj /CN=localhost -addext subjectAltName=DNS:localhost \
            -keyout "$ROOMS_ETC/$name.key" -out "$ROOMS_ETC/$name.crt" 2> /dev/null
        for list in readers bookers offices; do
            held "a user of $name.$list" "$deploy/systemd/rooms-office" user "$list" "$name.$list" <<< "$list"
        done
        held "the desk of $name" "$deploy/systemd/rooms-office" user desk "$name".{readers,bookers,offices} <<< old
        held "the desk of $name again" "$deploy/systemd/rooms-office" user desk "$name".{readers,bookers,offices} <<< desk
        printf 'user = "offices:offices"\ncacert = "%s"\n' "$ROOMS_ETC/$name.crt" > "$ROOMS_ETC/$name.curl"
    done
    is 'a user is in a list once' "$(grep -c '^desk:' "$ROOMS_ETC/west.bookers") $(wc -l < "$ROOMS_ETC/west.bookers")" '1 2'
    is 'a list that is not there' "$("$deploy/systemd/rooms-office" user desk west.conf <<< desk 2>&1)" \
        "rooms-office: no list is named 'west.conf'"
    sed -i "s,/var/cache/rooms,$ROOMS_CALENDARS,g; s,/var/log/nginx,$deploy_scratch," "$ROOMS_ETC"/*.nginx
    mkdir -p "$ROOMS_CALENDARS"/{west,east}/{told,groups,callers,elsewhere,mail}
    # a machine without IP version 6
    if [ ! -e /proc/net/if_inet6 ]; then sed -i '/listen \[::\]/d' "$ROOMS_ETC"/*.nginx; fi
    mkdir -p "$ROOMS_CALENDARS"/{west,east}/here
    west=$ROOMS_STATE/west/rooms.db
    east=$ROOMS_STATE/east/rooms.db
}

# an office whose database is lost: it is made anew with another number once its settings are put away, and keeps its users
deploy_lost_office() {
    local office=$deploy/systemd/rooms-office database=$ROOMS_STATE/north/rooms.db
    local -a words=(1 $((ports + 6)) $((ports + 7)) oak)
    held 'an office that is lost' "$office" make north 3 "${words[@]}"
    echo desk:hash > "$ROOMS_ETC/north.readers"
    mv "$ROOMS_ETC/north.conf" "$deploy_scratch/north.conf"
    is 'an office is not made over a database' "$("$office" make north 7 "${words[@]}" 2>&1)" "rooms-office: there is $database already"
    rm "$database"*
    mv "$deploy_scratch/north.conf" "$ROOMS_ETC/north.conf"
    is 'an office without its database' "$("$office" serve north 2>&1 | tail -n 1)" \
        'rooms-office: nothing is served: refused 26 NotAReplica (status 1)'
    rm "$ROOMS_ETC/north.conf"
    held 'it is made anew' "$office" make north 7 "${words[@]}"
    is 'with another number' "$("$program" position "$database" | head -n 1)" 'mp2 7 1'
    is 'its users stay' "$(cat "$ROOMS_ETC/north.readers")" desk:hash
    rm "$ROOMS_ETC"/north.*
}

# ---- the proxy

start_nginx() {
    local folder=$deploy_scratch/nginx kind
    mkdir -p "$folder"
    {
        if [ "$(id -u)" = 0 ]; then echo 'user root;'; fi
        echo "worker_processes 1; daemon off; pid $folder/pid; error_log $folder/errors;"
        echo 'events { worker_connections 128; }'
        echo "http { include /etc/nginx/mime.types; access_log $folder/access;"
        for kind in client_body proxy fastcgi uwsgi scgi; do echo "${kind}_temp_path $folder/$kind;"; done
        echo "include $ROOMS_ETC/*.nginx; }"
    } > "$folder/conf"
    held 'nginx takes the configuration' nginx -t -q -c "$folder/conf" -e "$folder/errors"
    nginx -c "$folder/conf" -e "$folder/errors" 2> /dev/null &
    nginx=$!
    reached 'nginx does not listen' 10 taken $((ports + 1))
}

stop_nginx() {
    if [ -n "$nginx" ]; then
        kill "$nginx" 2> /dev/null
        wait "$nginx" 2> /dev/null
        nginx=''
    fi
}

# through NAME WANTED USER PATH WORD..: the status that the proxy of west gives this user, and nobody where there is none
through() {
    local name=$1 wanted=$2 who=$3 path=$4
    shift 4
    [ -z "$who" ] || set -- -u "$who:$who" "$@"
    is "$name" "$(curl -s -m 30 --cacert "$ROOMS_ETC/west.crt" -o "$deploy_scratch/body" -D "$deploy_scratch/head" -w '%{http_code}' "$@" \
        "https://localhost:$((ports + 1))$path")" "$wanted"
}

# body NAME TEXT: what came last
body() { is "$1" "$(cat -- "$deploy_scratch/body")" "$2"; }

# marks that somebody was told, and files that the service makes
deploy_marks() {
    local mark=/told/1-17.1764536710
    echo '{"items":[]}' > "$ROOMS_CALENDARS/west/news.json"
    through 'the news' 200 readers /news.json
    body 'as they are' '{"items":[]}'
    through 'the news without a password' 401 '' /news.json
    through 'a state that is not there yet' 404 readers /status.json
    through 'a mark by a reader' 401 readers "$mark" -X PUT -d ''
    through 'a mark by another site' 403 bookers "$mark" -X PUT -d '' -H 'Sec-Fetch-Site: cross-site'
    through 'a mark' 201 bookers "$mark" -X PUT -d ''
    through 'a mark that is there' 204 bookers "$mark" -X PUT -d ''
    through 'a mark that is none' 404 bookers /told/1-17 -X PUT -d ''
    through 'a mark elsewhere' 404 bookers '/told/..%2f1-17.1764536710' -X PUT -d ''
    through 'a mark with a text' 413 bookers "$mark" -X PUT -d 'a text'
    through 'a mark is not removed' 403 bookers "$mark" -X DELETE
    through 'a mark is not read' 403 bookers "$mark"
    through 'marks without a password' 401 '' /told/
    through 'the marks' 200 readers /told/
    is 'their list' "$(python3 -c 'import json, sys; print([it["name"] for it in json.load(sys.stdin)])' < "$deploy_scratch/body")" "['1-17.1764536710']"
    is 'nothing else was made' "$(find "$ROOMS_CALENDARS/west/told" -type f -printf '%f %s\n')" '1-17.1764536710 0'
    is 'nobody called yet' "$(ls "$ROOMS_CALENDARS/west/callers")" ''
    rm "$ROOMS_CALENDARS/west/news.json"
}

# addresses are taken in, and nobody reads them by the proxy
deploy_addresses() {
    local path=/mail/1-17
    through 'an address by a reader' 401 readers "$path" -X PUT -d anna@localhost
    through 'an address without a password' 401 '' "$path" -X PUT -d anna@localhost
    through 'an address by another site' 403 bookers "$path" -X PUT -d anna@localhost -H 'Sec-Fetch-Site: cross-site'
    through 'an address' 201 bookers "$path" -X PUT -d anna@localhost
    through 'another one in its place' 204 bookers "$path" -X PUT -d bert@localhost
    through 'an address of no request' 404 bookers /mail/1-0 -X PUT -d anna@localhost
    through 'an address elsewhere' 404 bookers '/mail/..%2f1-17' -X PUT -d anna@localhost
    through 'an address that is too long' 413 bookers "$path" -X PUT -d "$(printf 'a%.0s' {1..400})"
    through 'an address is not removed' 403 bookers "$path" -X DELETE
    through 'an address is not read' 403 bookers "$path"
    through 'nor by one who reads' 403 readers "$path"
    through 'nor where they lie' 404 readers /mail/
    through 'nor by another way' 403 readers /told/../mail/1-17 --path-as-is
    through 'nor beside the calendars' 404 readers /mail/1-17.ics
    is 'it is there' "$(cat "$ROOMS_CALENDARS/west/mail/1-17")" bert@localhost
    is 'for the service, whose folder nobody else may read' "$(stat -c %a "$ROOMS_CALENDARS/west/mail/1-17") $(grep -oE '2730 .*/mail$' "$deploy/systemd/rooms-serve@.service")" \
        '604 2730 -o rooms -g www-data /var/cache/rooms/%i/mail'
    is 'no log has it' "$(grep -lE 'anna|bert' "$deploy_scratch/access.log" "$deploy_scratch"/nginx/* 2> /dev/null)" ''
    rm "$ROOMS_CALENDARS/west/mail/1-17"
}

deploy_proxy() {
    local day=/rooms/oak/days/1995-12-18 json='{"room":"oak","day":"1995-12-18","start":"13:30","length":60,"title":"Budget Meeting"}'
    local cancel='{"id":"7-1","room":"oak"}' sheet='oak 1995-12-18 Monday
13:30-14:30 T 1-1 Budget Meeting'
    local -a workers=()
    through 'a request while nothing serves' 502 bookers /submit -d "$json"
    body 'it was not sent' '{"error":"not sent"}'
    serve_at "$west" "$ports"
    through 'the page without a password' 401 '' /
    through 'a sheet without a password' 401 '' "$day"
    through 'a calendar without a password' 401 '' /oak.ics
    through 'a request without a password' 401 '' /submit -d "$json"
    through 'a batch without a password' 401 '' /pull -d x
    through 'the page' 200 readers /
    held 'it runs its own files alone' grep -qi "^content-security-policy: default-src 'none'; script-src 'self'; style-src 'self'; connect-src 'self';" \
        "$deploy_scratch/head"
    is 'and nothing within them' "$(grep -c unsafe "$deploy_scratch/head")" 0
    through 'the display at a door' 200 readers /door.html
    through 'the display without a password' 401 '' /door.html
    through 'the rooms of the office' 200 readers /rooms.json
    deploy_feeds
    through 'a reader who books' 401 readers /submit -d "$json"
    through 'a reader who cancels' 401 readers /cancel -d "$cancel"
    through 'a cancel without a password' 401 '' /cancel -d "$cancel"
    through 'a reader who exchanges' 401 readers /position
    through 'one who books and exchanges' 401 bookers /push -d x
    through 'a request' 200 bookers /submit -d "$json"
    body 'its outcome' '{"day":"1995-12-18","id":"1-1","mark":"T","start":"13:30","state":"booked","stop":"14:30"}'
    through 'a sheet' 200 readers "$day"
    body 'its lines' "$sheet"
    through 'a sheet with a great head' 200 readers "$day" -H "Cookie: $(head -c 6000 /dev/zero | tr '\0' x)"
    through 'a request in chunks' 200 bookers /submit -H 'Transfer-Encoding: chunked' -d "${json/13:30/15:00}"
    through 'a request by another site' 403 bookers /submit -H 'Sec-Fetch-Site: cross-site' -d "$json"
    through 'a cancel of a request that is not there' 404 bookers /cancel -d "$cancel"
    body 'its refusal' '{"name":"NoSuchRequest","refusal":9}'
    through 'a cancel by another site' 403 bookers /cancel -H 'Sec-Fetch-Site: cross-site' -d "$cancel"
    through 'a refusal goes through' 400 bookers /submit -d "${json/13:30/25:00}"
    body 'as it is' '{"name":"BadTime","refusal":2}'
    head -c 1048577 /dev/zero > "$deploy_scratch/large"
    through 'a body that is too large' 413 bookers /submit --data-binary "@$deploy_scratch/large" -H 'Expect:'
    through 'a path that is not served' 404 readers /calendar
    deploy_marks
    deploy_addresses
    deploy_groups
    through 'the position of an office' 200 offices /position
    is 'who called' "$(ls "$ROOMS_CALENDARS/west/callers")" offices
    held 'and in the log of all' grep -q ' offices .*"GET /position HTTP/1.1" 200 ' "$deploy_scratch/access.log"
    is 'no password goes on, and no request twice' "$(grep -c '^200$' "$west.served")" 5
    guessed_passwords
    sed -i 's/auth_basic "west: reading";/auth_basic off;/' "$ROOMS_ETC/west.nginx"
    # the worker of the old configuration may take a connection until it ends
    read -r -a workers < <(cat -- "/proc/$nginx/task/$nginx/children" 2> /dev/null)
    kill -HUP "$nginx"
    reached 'a worker of the old configuration goes on' 30 ended "${workers[@]}"
    reached 'the page is not open to everybody' 10 curl -sf --cacert "$ROOMS_ETC/west.crt" "https://localhost:$((ports + 1))/"
    through 'a sheet where everybody may read' 200 '' "$day"
    through 'a request there' 401 '' /submit -d "$json"
    stop_serving
}

# one address guesses, and a desk there that has the right password isn't slowed
guessed_passwords() {
    local began number
    printf 'url = "https://localhost:%s/rooms.json"\nuser = "desk:guess"\noutput = "/dev/null"\n' $((ports + 1)) > "$deploy_scratch/guess"
    for number in $(seq 13); do
        curl -s -m 120 --cacert "$ROOMS_ETC/west.crt" -K "$deploy_scratch/guess" -w '%{http_code} %{time_starttransfer}\n' > "$deploy_scratch/guess.$number" &
    done
    sleep 1
    began=$SECONDS
    for _ in 1 2 3 4 5; do through 'the right password beside guesses' 200 readers /rooms.json; done
    held 'it is not slowed' test $((SECONDS - began)) -lt 5
    until_held 90 eval '[ "$(cat "$deploy_scratch"/guess.* | grep -c "^401")" = 13 ]'
    is 'guesses are refused as ever' "$(cat "$deploy_scratch"/guess.* | grep -c '^401 ')" 13
    held 'the last comes late' test "$(cat "$deploy_scratch"/guess.* | cut -d ' ' -f 2 | sort -n | tail -n 1 | cut -d . -f 1)" -ge 4
}

# ---- the courier

# batch_of SERVER ROOM COUNT: writes of this server, a minute each
batch_of() {
    local n
    printf 'mr1 %s 1\n' "$1"
    for ((n = 1; n <= $3; n++)); do
        printf 'W %s %s %s %s 1 1995-12-18 %02d:%02d 0 %s of %s\n' "$1" "$n" "$n" "$2" $((8 + n / 60)) $((n % 60)) "$n" "$1"
    done
    printf 'E\n'
}

carry() { "$deploy/courier/rooms-courier" "$@"; }

deploy_courier() {
    local folder=$deploy_scratch/courier a=http://127.0.0.1:$((ports + 4)) b=http://127.0.0.1:$((ports + 5)) n id
    mkdir -p "$folder"
    for n in 1 2; do
        "$program" init "$folder/$n.db" "$n" 1 > /dev/null
        batch_of $((n + 2)) oak 200 > "$folder/batch"
        is "200 writes of office $n" "$("$program" import "$folder/$n.db" "$folder/batch")" 'took 200 writes 0 commits'
    done
    serve_at "$folder/1.db" $((ports + 4))
    serve_at "$folder/2.db" $((ports + 5))
    for n in 1 2 3 4 5 6 7 8; do
        carry "$a" "$b" > "$folder/cut" 2>&1 &
        id=$!
        sleep "0.$((RANDOM % 4))$((RANDOM % 10))"
        kill -9 "$id" 2> /dev/null
        wait "$id" 2> /dev/null
    done
    held 'the courier after it was cut' carry "$a" "$b"
    is 'nothing is left to carry' "$(carry "$a" "$b" | tail -n 1)" 'done: 0 writes 0 commits there, 0 writes 0 commits back'
    stop_serving
    "$program" calendar "$folder/1.db" oak full > "$folder/one"
    "$program" calendar "$folder/2.db" oak full > "$folder/two"
    held 'both offices answer alike' cmp "$folder/one" "$folder/two"
    is 'all writes are there' "$("$program" position "$folder/2.db" | tr '\n' ' ')" 'mp2 2 1 K 0 V 3 200 V 4 200 E '
    ROOMS_TRIES=0 carry "$a" "$b" > "$folder/cut"
    is 'nobody serves' "$?" 3
    carry "$a" > "$folder/cut"
    is 'a word too few' "$?" 2
    "$program" init "$folder/7.db" 7 7 > /dev/null
    serve_at "$folder/1.db" $((ports + 4))
    serve_at "$folder/7.db" $((ports + 5))
    carry "$a" "$b" > "$folder/cut"
    is 'a stranger' "$? $(tail -n 1 "$folder/cut")" "1 failed: $a/pull answered 409 {\"name\":\"WrongPrimary\",\"refusal\":16}; what was carried before stays, and the courier may run again"
    stop_serving
}

# with an office on an older program both ways, until a cancel is among what that one lacks; then the way back alone
deploy_courier_older() {
    local folder=$deploy_scratch/older a=http://127.0.0.1:$((ports + 4)) b=http://127.0.0.1:$((ports + 5)) words
    mkdir -p "$folder"
    "$program" init "$folder/1.db" 1 1 > /dev/null
    "$program" add-room "$folder/1.db" oak > /dev/null
    "$program" book "$folder/1.db" oak 60 1995-12-18 14:00 Alpha > /dev/null
    serve_at "$folder/1.db" $((ports + 4))
    python3 -B "$deploy/tests/older.py" $((ports + 5)) &
    serving+=($!)
    reached 'the older office is not served' 20 taken $((ports + 5))
    held 'a request at the older office' curl -s -f -d x "$b/book"
    carry "$a" "$b" > "$folder/lines"
    is 'the courier with an older program' "$? $(tail -n 1 "$folder/lines")" '0 done: 1 writes 0 commits there, 1 writes 0 commits back'
    held 'a cancel' curl -s -f -d '{"id":"1-1","room":"oak"}' "$a/cancel"
    held 'another request at the older office' curl -s -f -d x "$b/book"
    for words in "$a $b" "$b $a"; do
        # shellcheck disable=SC2086
        carry $words > "$folder/lines"
        is 'the courier with a cancel for an older program' "$? $(tail -n 1 "$folder/lines" | cut -d ';' -f 1)" \
            "1 failed: $a/pull answered 409 {\"name\":\"NeedsVersion2\",\"refusal\":27}"
    done
    is 'what the older office has comes all the same' "$(curl -s "$a/position" | tr '\n' ' ')" 'mp2 1 1 K 0 V 1 2 V 2 2 E '
    is 'and nothing comes there' "$(curl -s "$b/position" | tr '\n' ' ')" 'mp1 2 1 K 0 V 1 1 V 2 2 E '
    stop_serving
}

# through two proxies, with passwords
deploy_courier_through_proxies() {
    local a=https://localhost:$((ports + 1)) b=https://localhost:$((ports + 3))
    serve_at "$west" "$ports"
    serve_at "$east" $((ports + 2))
    held 'the courier through two proxies' carry -1 "$ROOMS_ETC/west.curl" -2 "$ROOMS_ETC/east.curl" "$a" "$b"
    printf 'cacert = "%s"\n' "$ROOMS_ETC/west.crt" > "$deploy_scratch/nobody.curl"
    carry -1 "$deploy_scratch/nobody.curl" -2 "$ROOMS_ETC/east.curl" "$a" "$b" > "$deploy_scratch/cut"
    is 'the courier without a password' "$? $(tail -n 1 "$deploy_scratch/cut")" \
        "1 failed: $a/position refused the password (401); what was carried before stays, and the courier may run again"
    deploy_certificates
    deploy_idle
    deploy_staying
    stop_serving
    is 'what it brought' "$("$program" sheet "$east" oak 1995-12-18 | tail -n 1)" '15:00-16:00 T 1-2 Budget Meeting'
}

# what is wrong with a certificate is said in words; another office's, one for another name, and one that ran out when it was made
deploy_certificates() {
    local folder=$deploy_scratch b=https://localhost:$((ports + 3)) expired=https://localhost:$((ports + 8))
    local -x ROOMS_TRIES=0
    printf 'user = "offices:offices"\ncacert = "%s"\n' "$ROOMS_ETC/west.crt" > "$folder/other.curl"
    is 'a certificate of another' "$(courier_says -2 "$folder/other.curl" "http://127.0.0.1:$ports" "$b")" \
        "3 failed: $b: the certificate isn't one that 'cacert' in the file of options names"
    is 'a certificate for another name' "$(courier_says -2 "$ROOMS_ETC/east.curl" "http://127.0.0.1:$ports" "${b/localhost/127.0.0.1}")" \
        "3 failed: ${b/localhost/127.0.0.1}: the certificate doesn't name 127.0.0.1"
    openssl x509 -in "$ROOMS_ETC/west.crt" -signkey "$ROOMS_ETC/west.key" -days 0 -out "$folder/expired.crt" 2> /dev/null
    openssl s_server -quiet -accept $((ports + 8)) -cert "$folder/expired.crt" -key "$ROOMS_ETC/west.key" -www > /dev/null 2>&1 &
    serving+=($!)
    reached 'nothing serves with a certificate that ran out' 20 taken $((ports + 8))
    printf 'cacert = "%s"\n' "$folder/expired.crt" > "$folder/expired.curl"
    is 'a certificate that ran out' "$(courier_says -2 "$folder/expired.curl" "http://127.0.0.1:$ports" "$expired")" \
        "3 failed: $expired: the certificate ran out"
    printf 'cacert = "%s"\n' "$folder/none" > "$folder/none.curl"
    is 'a certificate that is not there' "$(courier_says -2 "$folder/none.curl" "http://127.0.0.1:$ports" "$b")" \
        "3 failed: a certificate that the file of options $folder/none.curl names can't be read"
}

# where both have the same, one connection is all
deploy_idle() {
    local folder=$deploy_scratch far=https://localhost:$((ports + 9))
    line plain $((ports + 9)) $((ports + 3))
    is 'an idle pair' "$(courier_says -2 "$ROOMS_ETC/east.curl" "http://127.0.0.1:$ports" "$far")" \
        '0 done: 0 writes 0 commits there, 0 writes 0 commits back'
    until_held 5 grep -q '^[1-9]' "$folder/line.$((ports + 9))"
    is 'one connection, of less than 3,000 bytes' "$(awk '$1 > 0 { n++; sum += $1 + $2 } END { print n, sum < 3000 }' "$folder/line.$((ports + 9))")" '1 1'
}

# how often the proxy of east was asked for something by an office
asked_positions() { wc -l < "$ROOMS_CALENDARS/east/callers/offices"; }

has_asked() { [ "$(asked_positions)" -ge "$1" ]; }

# elsewhere_of OFFICE PEER..: what its page is told of rooms that it doesn't show
elsewhere_of() {
    local seen=$deploy_scratch/seen
    rm -rf "$seen"
    mkdir "$seen"
    cp "$ROOMS_STATE/$1"/rooms.db* "$seen"
    perl "$ROOMS_SHARE/news/status.pl" "$1" "$seen/rooms.db" 60 "${@:2}"
    grep -o '"elsewhere":.*' "$ROOMS_CALENDARS/$1/status.json"
}

rooms_for_the_pages() {
    is 'the page is told of the room of the peer' "$(elsewhere_of west east=https://localhost)" '"elsewhere":[{"room":"ash","label":"Ash, 3rd floor","known":false,"office":"east"}]}'
    is 'that of the peer too, by who called' "$(elsewhere_of east)" '"elsewhere":[{"room":"elm","label":"elm","known":false,"office":"offices"}]}'
    is 'whoever reads may read what the proxy wrote' "$(stat -c %a "$ROOMS_CALENDARS/east/elsewhere/offices")" 604
}

# where it stays, one connection is for all that is asked, and few bytes go; what comes up is carried
deploy_staying() {
    local folder=$deploy_scratch file=$deploy_scratch/line.$((ports + 9)) before lines id
    local -x ROOMS_EVERY=1
    before=$(asked_positions)
    lines=$(wc -l < "$file")
    sed -i "s,^PEERS=.*,PEERS=('https://localhost:$((ports + 9)) $ROOMS_ETC/east.curl')," "$ROOMS_ETC/west.conf"
    sed -i 's/"rooms": \[/&{ "name": "ash", "label": "Ash, 3rd floor" },/' "$ROOMS_ETC/east.rooms.json"
    setsid "$deploy/systemd/rooms-office" carry west --stay > "$folder/staying" 2>&1 &
    id=$!
    held 'it goes on to ask' until_held 40 has_asked $((before + 10))
    is 'a connection for the courier, one for the rooms each way, and one is open' "$(($(wc -l < "$file") - lines))" 3
    is 'the check has the rooms of the peer' "$("$deploy/check/rooms-check" west | grep -o 'at another office alone: [^;]*')" 'at another office alone: ash'
    is 'and the check of the peer has ours' "$("$deploy/check/rooms-check" east | grep -o 'at another office alone: [^;]*')" 'at another office alone: elm'
    rooms_for_the_pages
    through 'the rooms are not for everybody' 401 readers /exchange/rooms
    through 'nor may everybody say theirs' 401 readers /exchange/rooms-of -T /dev/null
    held 'a request at the peer' curl -s -f -d '{"room":"oak","day":"1995-12-20","start":"09:00","length":60,"title":"Stay"}' "http://127.0.0.1:$((ports + 2))/submit"
    held 'it is carried' until_held 20 has_line "$ports/rooms/oak/days/1995-12-20" Stay
    kill -- "-$id"
    wait "$id" 2> /dev/null
    # the longest connection had 2,900 bytes for its beginning, and fewer than 600 for each time that it asked
    held 'few bytes for each' test "$(awk -v asked=$(($(asked_positions) - before)) '$1 + $2 > sum { sum = $1 + $2 } END { print (sum > 4000 && sum < 2900 + 600 * asked) }' "$file")" = 1
    sed -i 's/^PEERS=.*/PEERS=()/' "$ROOMS_ETC/west.conf"
    sed -i 's/{ "name": "ash", "label": "Ash, 3rd floor" },//' "$ROOMS_ETC/east.rooms.json"
}

# ---- serving in stretches

has_line() { curl -s -m 10 "http://127.0.0.1:$1" | grep -q -- "$2"; }

deploy_stretches() {
    local name office=$deploy/systemd/rooms-office line
    sed -i 's/^STRETCH=.*/STRETCH=2/' "$ROOMS_ETC/west.conf"
    sed -i "s/^STRETCH=.*/STRETCH=3/; s/^TRUNCATE=.*/TRUNCATE=yes/; s,^PEERS=.*,PEERS=('west=https://localhost:$((ports + 1)) $ROOMS_ETC/west.curl')," \
        "$ROOMS_ETC/east.conf"
    for name in west east; do
        "$office" serve "$name" > "$deploy_scratch/$name.log" 2>&1 &
        serving+=($!)
    done
    reached 'west is not served' 20 taken "$ports"
    reached 'east is not served' 20 taken $((ports + 2))
    held 'a request at east' curl -s -f --retry 5 --retry-delay 1 --retry-connrefused \
        -d '{"room":"oak","day":"1995-12-19","start":"09:00","length":60,"title":"Rota"}' "http://127.0.0.1:$((ports + 2))/submit"
    is 'an office is not served twice' "$("$office" serve west 2>&1)" 'rooms-office: west is served already'
    held 'the courier of east' "$office" carry east
    held 'west commits between two stretches' until_held 30 has_line "$ports/rooms/oak/requests/2-2" '"mark":"C"'
    held 'the courier of east again' "$office" carry east
    held 'a calendar is written between two stretches' until_held 30 grep -q '^UID:2-2@west' "$ROOMS_CALENDARS/west/oak.ics"
    through 'a calendar' 200 readers /oak.ics
    is 'it says what it is' "$(sed -n 's/^content-type: *//Ip' "$deploy_scratch/head" | tr -d '\r')" 'text/calendar; charset=utf-8'
    body 'the file as it was written' "$(cat "$ROOMS_CALENDARS/west/oak.ics")"
    through 'the calendar of all rooms' 200 readers /all_rooms.ics
    body 'as it was written' "$(cat "$ROOMS_CALENDARS/west/all_rooms.ics")"
    through 'a file beside the calendars' 404 readers /.seen
    held 'figures are written there too' until_held 30 grep -q '^oak,' "$ROOMS_CALENDARS/west/figures.csv"
    through 'the figures' 200 readers /figures.csv
    touch -d '3 days ago' "$ROOMS_CALENDARS/west/here/oak.1-1"
    touch "$ROOMS_CALENDARS/west/here/oak.1-2"
    held 'a mark of days ago that somebody checked in goes' until_held 30 test ! -e "$ROOMS_CALENDARS/west/here/oak.1-1"
    held 'and no other' test -e "$ROOMS_CALENDARS/west/here/oak.1-2"
    held 'the called office knows who called' until_held 10 grep -q '"peers":\[\],"callers":\[{"name":"offices","met":"20' "$ROOMS_CALENDARS/west/status.json"
    held 'the calling office knows whom it met' until_held 10 grep -q '"peers":\[{"name":"west","met":"20[^"]*","fault":null}\],"callers":\[' "$ROOMS_CALENDARS/east/status.json"
    through 'how the office stands to the others' 200 readers /status.json
    through 'the news of the office' 200 readers /news.json
    held 'the commit comes to east' until_held 30 has_line "$((ports + 2))/rooms/oak/requests/2-2" '"mark":"C"'
    held 'a copy while it is served' "$office" backup east
    line=$("$deploy/check/rooms-check" east)
    is 'the check of a served office' "$? ${line%%,*}" '0 well: replica 2 has 4 requests'
    held 'east drops what is committed' until_held 30 grep -q '^dropped 4$' "$deploy_scratch/east.log"
    stop_serving
    line=$("$deploy/check/rooms-check" east)
    is 'the check of an office that ended' "$? ${line%%;*}" "1 trouble: REPLICA at port $((ports + 2)) DOES NOT ANSWER"
    held 'a copy while nothing serves' "$office" backup east
    line=$(find "$ROOMS_STATE/east/backups" -name rooms.db | sort | tail -n 1)
    is 'the copy is read' "$("$program" sheet "$line" oak 1995-12-19 2>&1 | tail -n 1)" \
        '09:00-10:00 C 2-2 Rota'
    is 'no connection was cut' "$(grep -c fault "$deploy_scratch/west.log" "$deploy_scratch/east.log" | tr '\n' ' ')" \
        "$deploy_scratch/west.log:0 $deploy_scratch/east.log:0 "
}

# an address without a password, for calendars alone; and what is asked for again costs little
deploy_feeds() {
    local office=$deploy/systemd/rooms-office address old size room
    for room in oak all_rooms; do seq 1000 > "$ROOMS_CALENDARS/west/$room.ics"; done
    through 'a calendar of all rooms' 200 readers /all_rooms.ics
    size=$(wc -c < "$deploy_scratch/body")
    through 'it is not for everybody' 401 '' /all_rooms.ics
    through 'a calendar that is the same' 304 readers /oak.ics -H "If-Modified-Since: $(date -u -r "$ROOMS_CALENDARS/west/oak.ics" +'%a, %d %b %Y %H:%M:%S GMT')"
    is 'brings nothing' "$(find "$deploy_scratch/body" -newer "$deploy_scratch/head" -size +0)" ''
    through 'a calendar that is packed' 200 readers /all_rooms.ics -H 'Accept-Encoding: gzip'
    held 'is smaller' test "$(wc -c < "$deploy_scratch/body")" -lt "$size"
    address=$("$office" secret west | head -n 1)
    old=${address#https://*/}
    held 'a secret address' eval '[[ $address =~ ^https://.*:$((ports + 1))/secret/[0-9a-f]{32}/all_rooms.ics$ ]]'
    is 'it stays the same' "$("$office" secret west | head -n 1)" "$address"
    through 'by it the calendar of all rooms' 200 '' "/$old"
    body 'is there without a password' "$(cat "$ROOMS_CALENDARS/west/all_rooms.ics")"
    through 'and that of a room' 200 '' "/${old%all_rooms.ics}oak.ics"
    through 'and nothing else' 404 '' "/${old%all_rooms.ics}news.json"
    through 'nor what the service keeps there' 404 '' "/${old%all_rooms.ics}.seen"
    through 'nor what lies above' 404 '' "/${old%all_rooms.ics}..%2foak.ics"
    through 'another secret' 404 '' "/secret/$(head -c 32 /dev/zero | tr '\0' 0)/oak.ics"
    is 'it stands in no log' "$(grep -c "${old:7:32}" "$deploy_scratch"/nginx/access "$deploy_scratch"/nginx/errors | sed 's/.*://' | tr '\n' ' ')" '0 0 '
    address=$("$office" secret west new | head -n 1)
    through 'the old address after it was renewed' 404 '' "/$old"
    through 'the new one' 200 '' "/${address#https://*/}"
    is 'an end of it' "$("$office" secret west none)" 'west has no secret address any more'
    through 'the address then' 404 '' "/${address#https://*/}"
    rm "$ROOMS_CALENDARS"/west/*.ics
}

# ---- calendars to subscribe to

# read_as NAME ROOM ZONE LABEL LINES: the calendar of a room of the office `quiet` as an independent parser reads it is this label, the
# reply to `calendar`, and these lines of cancelled and changed ones
read_as() {
    local room=$2
    is "$1" "$("$parser" "$deploy/tests/calendar_read.py" "$ROOMS_CALENDARS/quiet/$room.ics" quiet "$3" 2>&1)" \
        "$4$("$program" calendar "$quiet" "$room" full | sed -n '/^[0-9]/{s/^/\n/;H}; ${x;s/\n\n*/\n/g;p}')${5:+
$5}"
}

calendars() { "$deploy/calendar/rooms-calendar" quiet; }

# settings_of ZONE: rooms.json of the office `quiet`; the label of elm is longer than a line, and has letters of two bytes
settings_of() {
    printf '{"office": "Quiet", "zone": "%s", "door": {"release": 5}, "rooms": [{"seats": 8, "name": "oak", "has": ["name", "label"], "label": "Oak, 2nd floor"},\n {"label": "%s", "door": {"name": "x"}, "name": "elm"}]}\n' \
        "$1" "$long" > "$ROOMS_ETC/quiet.rooms.json"
}

deploy_calendars() {
    local quiet=$ROOMS_STATE/quiet/rooms.db long='Elm: the room with rather a long name; grün, größer, schöner, früher, Überfluß, Säntis' inode
    mkdir -p "$ROOMS_STATE/quiet"
    "$program" init "$quiet" 3 3 > /dev/null
    "$program" add-room "$quiet" oak > /dev/null
    "$program" add-room "$quiet" elm > /dev/null
    settings_of Europe/Berlin
    held 'the calendars of an office without bookings' calendars
    read_as 'a calendar without bookings' oak Europe/Berlin 'Oak, 2nd floor' ''
    "$program" book "$quiet" oak 60 2027-07-12 09:30 Planning 2027-07-12T13:00 > /dev/null
    "$program" book "$quiet" oak 90 2027-01-11 22:30 'Commas, semicolons; and \ in the title of a late meeting' > /dev/null
    "$program" book "$quiet" oak 15 2028-02-29 23:45 'Until midnight' > /dev/null
    "$program" book "$quiet" oak 30 2027-12-31 23:30 'Until the new year' > /dev/null
    "$program" book "$quiet" elm 30 2027-03-28 01:45 'A night with an hour less' > /dev/null
    held 'the calendars of an office' calendars
    read_as 'a calendar' oak Europe/Berlin 'Oak, 2nd floor' ''
    read_as 'a calendar with a long label' elm Europe/Berlin "$long" ''
    is 'a calendar of all rooms' "$("$parser" "$deploy/tests/calendar_read.py" "$ROOMS_CALENDARS/quiet/all_rooms.ics" quiet Europe/Berlin 2>&1)" \
        "Quiet
$(for room in oak elm; do "$program" calendar "$quiet" "$room" full; done | grep '^[0-9]' | sort)"
    is 'each event with its room' "$(tr -d '\r' < "$ROOMS_CALENDARS/quiet/all_rooms.ics" | grep -c '^LOCATION:Oak\\, 2nd floor')" 4
    inode=$(stat -c '%i' "$ROOMS_CALENDARS/quiet/elm.ics")
    "$program" cancel "$quiet" oak 3-3 > /dev/null
    held 'the calendars after a cancel' calendars
    read_as 'what was cancelled stays' oak Europe/Berlin 'Oak, 2nd floor' '3-3 cancelled 1'
    is 'a calendar that is the same is not written' "$(stat -c '%i' "$ROOMS_CALENDARS/quiet/elm.ics")" "$inode"
    # an earlier request of another office moves 3-1 to its alternative, and a cancel of theirs takes 3-4 back
    printf 'mr2 2 3\nW 2 1 1 oak 60 2027-07-12 09:00 0 Earlier\nX 2 2 9 oak 3 4\nE\n' > "$deploy_scratch/batch"
    is 'two writes come' "$("$program" import "$quiet" "$deploy_scratch/batch")" 'took 2 writes 0 commits'
    held 'the calendars after a move' calendars
    read_as 'what moved is the same event' oak Europe/Berlin 'Oak, 2nd floor' $'3-1 changed 1\n3-3 cancelled 1\n3-4 cancelled 1'
    is 'to its alternative' "$("$program" outcome "$quiet" oak 3-1)" '3-1 T 2027-07-12 13:00-14:00'
    is 'all is committed' "$("$program" commit "$quiet" 10)" 'committed 8'
    held 'the calendars after a commit' calendars
    read_as 'what is committed is sure' oak Europe/Berlin 'Oak, 2nd floor' \
        $'2-1 changed 1\n3-1 changed 2\n3-2 changed 1\n3-3 cancelled 1\n3-4 cancelled 1'
    is 'what is sure is so among all rooms' "$("$parser" "$deploy/tests/calendar_read.py" "$ROOMS_CALENDARS/quiet/all_rooms.ics" quiet Europe/Berlin 2>&1 | tail -n 6 | tr '\n' ' ')" \
        '2-1 changed 1 3-1 changed 2 3-2 changed 1 3-3 cancelled 1 3-4 cancelled 1 3-5 changed 1 '
    settings_of ''
    held 'the calendars without a zone' calendars
    read_as 'times without a zone' oak '' 'Oak, 2nd floor' \
        $'2-1 changed 2\n3-1 changed 3\n3-2 changed 2\n3-3 cancelled 2\n3-4 cancelled 2'
    large_calendar
    rm "$ROOMS_ETC/quiet.rooms.json"
    is 'an office without settings' "$(calendars 2>&1 | tail -n 1)" "rooms-calendar: $quiet or $ROOMS_ETC/quiet.rooms.json can't be read"
}

# A room of 3,000 bookings, of which one is new: the work that its calendar, and that of all rooms, take, in seconds of processor time, with much to
# spare for a busy machine; and what goes over the line to a program that asks again.
large_calendar() {
    local times
    {
        echo 'mr2 8 3'
        awk 'BEGIN { for (n = 1; n <= 3000; n++) printf "W 8 %d %d oak 60 %04d-%02d-%02d %02d:00 0 Meeting %d\n", n, 100 + n, 2040 + int(n / 2688), 1 + int(n / 224) % 12, 1 + int(n / 8) % 28, 9 + n % 8, n }'
        echo E
    } > "$deploy_scratch/batch"
    is 'many writes come' "$("$program" import "$quiet" "$deploy_scratch/batch")" 'took 3000 writes 0 commits'
    held 'a large calendar' calendars
    "$program" book "$quiet" oak 60 2039-07-12 09:30 'One more' > /dev/null
    times=$( { TIMEFORMAT='%U %S'; time calendars > /dev/null 2>&1; } 2>&1)
    held "one more in a room of 3,000 bookings takes less than five seconds of work ($times)" awk -v times="$times" 'BEGIN { split(times, part, " "); exit part[1] + part[2] >= 5 }'
    is 'it is there' "$(grep -c '^SUMMARY:One more' "$ROOMS_CALENDARS/quiet/oak.ics" "$ROOMS_CALENDARS/quiet/all_rooms.ics" | sed 's/.*://' | tr '\n' ' ')" '1 1 '
}

# python_with MODULE: sets parser to a Python that has it
python_with() {
    for parser in python3 /usr/bin/python3; do
        if "$parser" -c "import $1" 2> /dev/null; then return 0; fi
    done
    echo "skipped: the calendars (no Python with $1)"
    return 1
}

# ---- units and package

deploy_units() {
    local folder=$deploy_scratch/units name score
    mkdir -p "$folder"
    cp -r "$deploy"/systemd/rooms-*@* "$deploy"/systemd/rooms-.service.d "$folder"
    sed -i "s,/usr/bin/rooms-office,$deploy/systemd/rooms-office," "$folder"/*.service
    for name in serve courier backup watch mail; do cp "$folder/rooms-$name@.service" "$folder/rooms-$name@west.service"; done
    for name in courier backup watch mail; do cp "$folder/rooms-$name@.timer" "$folder/rooms-$name@west.timer"; done
    is 'the units are verified' "$(SYSTEMD_UNIT_PATH=$folder: systemd-analyze verify --man=no --recursive-errors=no \
        "$folder"/rooms-*@west.* 2>&1)" ''
    for name in serve courier backup; do
        score=$(SYSTEMD_UNIT_PATH=$folder: systemd-analyze security --offline=true --threshold=15 --no-pager \
            "rooms-$name@west.service" 2>&1)
        is "the unit $name is closed" "$? $(grep -c 'exposure level' <<< "$score")" '0 1'
    done
}

deploy_package() {
    local folder=$deploy_scratch/package file
    mkdir -p "$folder/tree"
    file=$("$deploy/package/build" "$program" "$folder")
    held 'a package is built' test -s "$file"
    dpkg-deb -x "$file" "$folder/tree"
    is 'the program of the package' "$(unset ROOMS_PROGRAM; "$folder/tree/usr/bin/rooms" init "$folder/a.db" 1 1)" ok
    is 'a locale that is not there' "$(LC_ALL=xx_XX "$folder/tree/usr/bin/rooms" position "$folder/a.db" 2>&1 | tr '\n' ' ')" 'mp2 1 1 K 0 E '
    ln -s "$folder/tree/usr/bin/rooms" "$folder/link"
    is 'the front by a link' "$("$folder/link" position "$folder/a.db" 2>&1 | head -n 1)" 'mp2 1 1'
    is 'the front of the package has the version' "$("$folder/tree/usr/bin/rooms" --version 2>&1)" "rooms $(dpkg-deb -f "$file" Version)"
    is 'the front of the package helps' "$("$folder/tree/usr/bin/rooms" help 2>&1 | wc -l)" "$("$deploy/front/rooms" help 2>&1 | wc -l)"
    is 'rooms-import of the package helps' "$("$folder/tree/usr/bin/rooms-import" --help 2>&1 | grep -c 'a dry run')" 1
    is 'the documents for the operator' "$(cd "$folder/tree/usr/share/doc/rooms" && ls docs | tr '\n' ' ')" 'FORMATS.md OPERATING.md TROUBLE.md '
    is 'links that lead nowhere' "$(cd "$folder/tree/usr/share/doc/rooms" && grep -oHE '\]\([^)#]+' README.md */*.md | while IFS= read -r it; do
        case ${it#*](} in http*) ;; *) [ -e "$(dirname -- "${it%%:*}")/${it#*](}" ] || echo "$it" ;; esac
    done)" ''
    is 'it needs the C library alone' "$(dpkg-deb -f "$file" Depends | sed 's/ ([^)]*)//g')" 'libc6, passwd'
    if ! missing 'lintian of the package' lintian; then
        held 'lintian finds no error and no warning' lintian --allow-root --fail-on error,warning "$file"
    fi
    if ! missing 'the man pages' man; then
        is 'the man pages have no fault' "$(for file in "$deploy"/package/rooms.1 "$deploy"/package/rooms-import.1 "$deploy"/package/rooms-office.8; do
            LC_ALL=C.UTF-8 MANWIDTH=100 man --warnings -E UTF-8 -l -Tutf8 -Z "$file" 2>&1 > /dev/null
        done)" ''
    fi
}

# ---- the page in a browser

# page_test NAME: one of the tests in Python, whose lines are counted, at the page as the user `desk` with this password
page_test() {
    local name=$1 line
    timeout --foreground 1200 python3 -B "$deploy/tests/$name" "$(readlink -f -- "$program")" "$deploy_scratch/page" \
        "https://${desk:-desk:desk}@localhost:$((ports + 1))" "$ports" $((ports + 6)) "${DEPLOY_PICTURES:-$deploy_scratch/page}" \
        "$ROOMS_ETC/west.rooms.json" > "$deploy_scratch/page/lines" 2>&1
    is "the test $name ends" "$?" 0
    while IFS= read -r line; do
        case $line in
            skipped:*) echo "$line" ;;
            ok*) passed=$((passed + 1)) ;;
            *)
                echo "$line"
                failed=$((failed + 1))
                ;;
        esac
    done < "$deploy_scratch/page/lines"
}

deploy_page() {
    local folder=$deploy_scratch/page room
    mkdir -p "$folder"
    "$program" init "$folder/desk.db" 2 1 > /dev/null
    "$program" add-room "$folder/desk.db" oak > /dev/null
    "$program" add-room "$folder/desk.db" elm > /dev/null
    "$program" book "$folder/desk.db" elm 50 2095-12-19 09:10 '<i>Standing meeting</i>' > /dev/null
    "$program" init "$folder/other.db" 1 1 > /dev/null
    "$program" add-room "$folder/other.db" oak > /dev/null
    "$program" book "$folder/other.db" oak 60 2095-12-19 14:00 Earlier > /dev/null
    page_test desk.py
    deploy_rooms "$folder/views.db"
    page_test views.py
    "$program" init "$folder/mine.db" 1 1 > /dev/null
    "$program" init "$folder/news.db" 2 1 > /dev/null
    for room in oak elm; do
        "$program" add-room "$folder/mine.db" "$room" > /dev/null
        "$program" add-room "$folder/news.db" "$room" > /dev/null
    done
    "$program" book "$folder/news.db" oak 90 2095-12-19 09:00 Planning > /dev/null
    "$program" book "$folder/news.db" oak 90 2095-12-19 09:00 'East supplier' > /dev/null
    "$program" book "$folder/news.db" oak 60 2095-12-19 14:00 'All hands' > /dev/null
    page_test mine.py
    page_test news.py
    "$program" init "$folder/mails.db" 2 1 > /dev/null
    "$program" add-room "$folder/mails.db" oak > /dev/null
    page_test mails.py
}

# deploy_rooms DB: a replica with twelve rooms and some bookings, two of them committed
deploy_rooms() {
    local day=2095-12-19 letter
    "$program" init "$1" 1 1 > /dev/null
    for letter in a b c d e f g h i j k l; do "$program" add-room "$1" "room-$letter" > /dev/null; done
    "$program" book "$1" room-a 60 "$day" 09:30 Planning > /dev/null
    "$program" book "$1" room-b 120 "$day" 09:30 Workshop > /dev/null
    "$program" commit "$1" 2 > /dev/null
    "$program" book "$1" room-b 60 2095-12-23 13:00 Retrospective > /dev/null
    "$program" book "$1" room-c 10 "$day" 15:00 Call > /dev/null
    "$program" book "$1" room-c 20 "$day" 15:10 Tea > /dev/null
}

# ---- the parts, each of which tests/part runs in a shell of its own

# deploy_begin: a folder and ports for the part, and no office; no office asks for the ports of this machine's own nginx
deploy_begin() {
    unset ROOMS_ETC ROOMS_STATE ROOMS_SHARE ROOMS_USER ROOMS_COURIER ROOMS_CALENDAR ROOMS_CALENDARS ROOMS_PROGRAM
    deploy_scratch=$(mktemp -d "$scratch/deploy.XXXXXX")
    export ROOMS_NGINX=$deploy_scratch/no-nginx
    nginx='' west='' east='' serving=()
    PATH=$PATH:/usr/sbin:/sbin
    free_ports
}

run_deploy_texts() {
    deploy_begin
    deploy_texts
    if ! missing 'the units' systemd-analyze; then deploy_units; fi
    if ! missing 'the package' dpkg-deb dpkg-shlibdeps strip; then deploy_package; fi
}

run_front() {
    deploy_begin
    if ! missing 'the front' perl python3; then deploy_front; fi
}

run_courier() {
    deploy_begin
    if ! missing 'the courier' curl; then deploy_courier; fi
    if ! missing 'the courier with an older program' curl python3; then deploy_courier_older; fi
}

run_news() {
    deploy_begin
    if ! missing 'news' curl flock perl python3; then deploy_news; fi
}

run_poor_lines() {
    deploy_begin
    if ! missing 'the courier on poor lines' curl flock python3; then deploy_lines; fi
}

run_offices() {
    deploy_begin
    if ! missing 'offices' curl flock perl python3; then deploy_made_offices; fi
}

run_proxy() {
    deploy_begin
    if missing 'proxy and stretches of serving' curl openssl nginx flock; then return; fi
    deploy_offices
    deploy_lost_office
    start_nginx
    deploy_proxy
    deploy_courier_through_proxies
    deploy_stretches
    if ! missing 'the calendars' zdump && python_with icalendar; then deploy_calendars; fi
    stop_nginx
}

run_page() {
    deploy_begin
    if missing 'the page in a browser' curl openssl nginx flock python3 chromium chromedriver; then return; fi
    deploy_offices
    # everybody may read
    sed -i 's/auth_basic "west: reading";/auth_basic off;/' "$ROOMS_ETC/west.nginx"
    start_nginx
    deploy_page
    stop_nginx
}

# all of them, one after the other
run_deploy() {
    run_deploy_texts
    run_front
    run_courier
    run_news
    run_mail
    run_poor_lines
    run_poor_week
    run_offices
    run_proxy
    run_page
    run_doors
    run_anyroom
    run_report
    run_looking
    run_languages
    run_many
    run_told
}
