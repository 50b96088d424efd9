# What a desk, a tablet at a door and a manager look at, each in a browser of its own. Read by deploy.sh, whose functions and variables are used here.

# a page for everybody to read, at the office `west`
begin_looking() {
    deploy_begin
    deploy_offices
    sed -i 's/auth_basic "west: reading";/auth_basic off;/' "$ROOMS_ETC/west.nginx"
    start_nginx
    mkdir -p "$deploy_scratch/page"
}

# what the proxy lets the tablet of oak do, and nobody else
deploy_door_rights() {
    local day=1995-12-20 here
    deploy_offices
    here=$ROOMS_CALENDARS/west/here
    start_nginx
    serve_at "$west" "$ports"
    held 'the tablet of oak' "$deploy/systemd/rooms-office" user oak west.readers west.doors <<< oak
    held 'the tablet of a room whose name begins with a digit' "$deploy/systemd/rooms-office" user 3rd-floor west.doors <<< 3rd-floor
    through 'a tablet reads' 200 oak "/rooms/oak/days/$day"
    through 'a tablet books' 200 oak "/door/oak/book/$day/09:00/30" -X POST -d 'what it sends is nothing to the office'
    body 'for as long as it says' "{\"day\":\"$day\",\"id\":\"1-1\",\"mark\":\"T\",\"start\":\"09:00\",\"state\":\"booked\",\"stop\":\"09:30\"}"
    is 'with the title of all doors' "$(curl -s "http://127.0.0.1:$ports/rooms/oak/days/$day" | tail -n 1)" '09:00-09:30 T 1-1 Booked at the door'
    through 'a tablet marks one as checked in' 201 oak /door/oak/here/1-1 -X PUT -d ''
    through 'a mark that is there' 204 oak /door/oak/here/1-1 -X PUT -d ''
    through 'a mark with a text' 413 oak /door/oak/here/1-1 -X PUT -d 'a text'
    through 'the marks' 200 readers /here/
    is 'a file each' "$(find "$here" -type f -printf '%f %s\n')" 'oak.1-1 0'
    through 'a tablet books for longer' 404 oak "/door/oak/book/$day/10:00/90" -X POST -d ''
    through 'a tablet books a day that is none' 400 oak "/door/oak/book/1995-13-41/10:00/15" -X POST -d ''
    through 'a tablet books another room' 403 oak "/door/elm/book/$day/10:00/15" -X POST -d ''
    through 'a tablet cancels in another room' 403 oak /door/elm/cancel/1-1 -X POST -d ''
    through 'a tablet marks in another room' 403 oak /door/elm/here/1-1 -X PUT -d ''
    through 'a tablet with words of its own' 404 oak "/door/oak/book/$day/10:00/15%22%2C%22title%22:%22x" -X POST -d ''
    through 'a mark elsewhere' 404 oak '/door/oak/here/..%2f..%2f1-1' -X PUT -d ''
    through 'a tablet as a desk' 401 oak /submit -d "{\"room\":\"oak\",\"day\":\"$day\",\"start\":\"11:00\",\"length\":60,\"title\":\"x\"}"
    through 'a tablet cancels as a desk' 401 oak /cancel -d '{"id":"1-1","room":"oak"}'
    through 'a tablet tells nobody' 401 oak /told/1-17.1764536710 -X PUT -d ''
    through 'a tablet exchanges' 401 oak /position
    through 'the tablet by another site' 403 oak "/door/oak/book/$day/10:00/15" -X POST -d '' -H 'Sec-Fetch-Site: cross-site'
    through 'a desk at a door' 403 bookers "/door/oak/book/$day/10:00/15" -X POST -d ''
    through 'nobody at a door' 401 '' "/door/oak/book/$day/10:00/15" -X POST -d ''
    through 'the room without its password' 401 oak "/door/oak/book/$day/10:00/15" -X POST -d '' -u oak:guess
    through 'a look at the path does nothing' 405 oak "/door/oak/book/$day/10:00/15"
    through 'a tablet takes back a request' 200 oak /door/oak/cancel/1-1 -X POST -d ''
    body 'by a cancel' '{"id":"1-2","mark":"T","state":"cancels","target":"1-1"}'
    through 'one that is not there' 404 oak /door/oak/cancel/7-1 -X POST -d ''
    is 'nothing else is booked' "$(curl -s "http://127.0.0.1:$ports/rooms/oak/days/$day" | tail -n 1)" '(no bookings)'
    stop_serving
    stop_nginx
}

run_doors() {
    deploy_begin
    if missing 'tablets at doors' curl openssl nginx flock; then return; fi
    deploy_door_rights
    if missing 'tablets in a browser' python3 chromium chromedriver; then return; fi
    begin_looking
    held 'the tablet of a room' "$deploy/systemd/rooms-office" user room-a west.doors <<< tablet
    deploy_rooms "$deploy_scratch/page/doors.db"
    desk=room-a:tablet page_test doors.py
    stop_nginx
}

run_anyroom() {
    if missing 'any room' curl openssl nginx flock python3 chromium chromedriver; then return; fi
    begin_looking
    deploy_rooms "$deploy_scratch/page/anyroom.db"
    page_test anyroom.py
    stop_nginx
}

# report_db DB: two rooms and what they were used for in two months. In the news two requests were moved by merges, and one lost its room
# (a label with a comma takes two fields of what is cut here)
report_db() {
    local day
    "$program" init "$1" 1 1 > /dev/null
    for room in oak elm; do "$program" add-room "$1" "$room" > /dev/null; done
    "$program" book "$1" oak 60 2027-03-01 09:00 'Within the hours' > /dev/null
    "$program" book "$1" oak 120 2027-03-01 17:00 'Half within them' > /dev/null
    "$program" book "$1" oak 60 2027-03-06 09:00 'On a Saturday' > /dev/null
    "$program" book "$1" oak 60 2027-03-01 09:30 '=cmd|calc' > /dev/null
    "$program" book "$1" oak 60 2027-03-01 09:30 'Withdrawn' > /dev/null
    "$program" cancel "$1" oak 1-5 > /dev/null
    for day in 05 06 07 08 09 12 13 14; do "$program" book "$1" elm 600 "2027-04-$day" 08:00 "Day $day" > /dev/null; done
    news_item() {
        printf '{"key":"1-1.%s","id":"1-1","room":"%s","title":"a \\",\\"kind\\":\\"moved\\"","kind":"%s","from":%s,"to":null,"by":null,"mark":"T","found":"2027-01-01T00:00:00Z"}' "$@"
    }
    {
        echo '{"office":"west","server":1,"made":"2027-01-01T00:00:00Z","items":['
        news_item 1 oak moved '{"day":"2027-03-01","start":"09:00","stop":"10:00"}' && echo ,
        news_item 2 oak moved '{"day":"2027-03-01","start":"09:00","stop":"10:00"}' && echo ,
        news_item 3 elm lost '{"day":"2027-04-06","start":"09:00","stop":"10:00"}' && echo ,
        news_item 4 elm lost null && echo ,
        news_item 5 oak final '{"day":"2027-03-01","start":"09:00","stop":"10:00"}' && echo ']}'
    } > "$ROOMS_CALENDARS/west/news.json"
}

deploy_report() {
    local report=$deploy/report/rooms-report folder=$ROOMS_CALENDARS/west label='=HYPERLINK(\"http://x\",\"Oak\") <img src=x onerror=alert(1)>' times
    rm "$west"*
    report_db "$west"
    printf '{"office": "West", "from": "08:00", "to": "18:00", "door": {"release": 3},\n "rooms": [{"name": "oak", "label": "%s"}, {"seats": 4, "name": "elm"}]}\n' \
        "$label" > "$ROOMS_ETC/west.rooms.json"
    held 'the figures are written' "$report" --write west "$west"
    is 'the head of the table' "$(head -n 1 "$folder/figures.csv" | tr -d '\r')" 'room,label,month,weekday,open,booked,outside,bookings,no_room,moved,lost'
    is 'a line of each room, month and day of the week' "$(grep -c . "$folder/figures.csv")" 29
    is 'what is used' "$(tr -d '\r' < "$folder/figures.csv" | grep -v ',0,0,0,0,0,0$' | sed 1d | cut -d , -f 1,4-)" 'oak,2027-03,Monday,3000,120,60,2,1,2,0
oak,2027-03,Saturday,0,0,60,1,0,0,0
elm,Monday,2400,1200,0,2,0,0,0
elm,Tuesday,2400,1200,0,2,0,0,1
elm,Wednesday,2400,1200,0,2,0,0,0
elm,Thursday,3000,600,0,1,0,0,0
elm,Friday,3000,600,0,1,0,0,0'
    is 'a label is no formula' "$(sed -n 2p "$folder/figures.csv" | cut -d , -f 2)" "\"'=HYPERLINK(\"\"http://x\"\""
    held 'the drawing is well formed, and has nothing to run' python3 -c 'import sys, xml.dom.minidom
names = {each.tagName for each in xml.dom.minidom.parse(sys.argv[1]).getElementsByTagName("*")}
sys.exit(names != {"svg", "rect", "text"})' "$folder/figures.svg"
    times=$(stat -c %i "$folder"/figures.*)
    held 'the figures once more' "$report" --write west "$west"
    is 'what is the same is not written' "$(stat -c %i "$folder"/figures.*)" "$times"
    is 'a month by hand' "$("$report" west 2027-04 2027-04 | grep -c ,2027-04,)" 14
    is 'a room on the page alone' "$(sed -i 's/{"seats": 4,/{"name": "yew"}, &/' "$ROOMS_ETC/west.rooms.json" && "$report" west 2027-03 2027-03 | grep -c '^yew,.*,0,0,0,0,0,0')" 7
    is 'a word that is no month' "$("$report" west 2027-4 x 2>&1; echo $?)" \
        'rooms-report: the words are: NAME [FROM TO], --svg NAME [FROM TO], or --write NAME DATABASE
2'
    is 'help without other files' "$(ROOMS_SHARE=/nowhere "$report" --help 2>&1 | head -n 1)" 'What the rooms of an office were used for, of its calendars alone, as a table or as a drawing:'
    is 'a label with escapes' "$(printf '{"rooms": [{"name": "oak", "label": "Caf\\u00e9 \\ud83c\\udf33 \\"A\\\\B\\"\\n\\ud83c!"}]}' > "$ROOMS_ETC/east.json" && perl "$ROOMS_SHARE/page_rooms.pl" "$ROOMS_ETC/east.json")" \
        "$(printf 'oak\tCaf\303\251 \360\237\214\263 "A\\B" \357\277\275!')"
    is 'an office that is not there' "$("$report" south 2>&1)" "rooms-report: $ROOMS_ETC/south.rooms.json can't be read"
    is 'days that are open' "$(sed -i 's/"from"/"days": ["Saturday"], &/' "$ROOMS_ETC/west.rooms.json" && "$report" west 2027-03 2027-03 | grep -c ',Saturday,2400,')" 3
}

run_report() {
    if missing 'figures' curl openssl nginx flock perl python3; then return; fi
    begin_looking
    deploy_report
    sed -i 's/"days": \["Saturday"\], //; s/{"name": "yew"}, //' "$ROOMS_ETC/west.rooms.json"
    through 'the table' 200 readers /figures.csv
    is 'what it is' "$(sed -n 's/^content-type: *//Ip' "$deploy_scratch/head" | tr -d '\r')" 'text/csv; charset=utf-8'
    through 'the drawing' 200 readers /figures.svg
    is 'what that is' "$(sed -n 's/^content-type: *//Ip' "$deploy_scratch/head" | tr -d '\r')" 'image/svg+xml'
    through 'what the service keeps beside them' 404 readers /.figures
    if ! missing 'figures in a browser' chromium chromedriver; then page_test report.py; fi
    stop_nginx
}

run_looking() {
    if missing 'looking' curl openssl nginx flock python3 chromium chromedriver; then return; fi
    begin_looking
    deploy_rooms "$deploy_scratch/page/looking.db"
    page_test looking.py
    stop_nginx
}

run_languages() {
    if missing 'languages' curl openssl nginx flock python3 chromium chromedriver; then return; fi
    begin_looking
    deploy_rooms "$deploy_scratch/page/languages.db"
    page_test languages.py
    stop_nginx
}
