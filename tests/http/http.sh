# What is asked of the program over HTTP: a served database, and databases that exchange. tests/part sources
# this file; the functions of tests/lib.sh and the variables of tests/part are used here.

# serve DB COUNT: a process that serves so many connections, at a port that it could have
serve() {
    local try
    for try in 1 2 3 4 5 6 7 8; do
        port=$((ROOMS_PORTS + RANDOM % (PORTS_OF_PART - 10)))
        : > "$scratch/served"
        "$program" serve "$1" "$port" "$2" > "$scratch/served" 2> "$scratch/err" < /dev/null &
        server=$!
        for _ in $(seq 400); do
            if grep -q "^serving 127.0.0.1:$port\$" "$scratch/served"; then return; fi
            if ! kill -0 "$server" 2> /dev/null; then break; fi
            sleep 0.05
        done
        kill "$server" 2> /dev/null
        wait "$server"
    done
    echo "FAILED: nothing serves $1"
    failed=$((failed + 1))
}

# served NAME STATUS..: the process that serves has ended, and printed one line for each connection
served() {
    local name=$1 status
    shift
    for _ in $(seq 400); do
        if ! kill -0 "$server" 2> /dev/null; then break; fi
        sleep 0.05
    done
    kill "$server" 2> /dev/null
    wait "$server"
    status=$?
    printf '%s\n' "serving 127.0.0.1:$port" "$@" > "$scratch/wanted"
    cp -- "$scratch/served" "$scratch/out"
    told "$name" "$status" 0 "$scratch/wanted"
}

# asked NAME STATUS BODY PATH WORD..: curl, asked for this path with these words, is answered with this status and body
asked() {
    local name=$1 wanted_status=$2 body=$3 path=$4 status
    shift 4
    printf '%s' "$body" > "$scratch/wanted"
    : > "$scratch/out"
    status=$(curl -s -m 30 -o "$scratch/out" -w '%{http_code}' "$@" "http://127.0.0.1:$port$path" 2> "$scratch/err")
    told "$name" "$status" "$wanted_status" "$scratch/wanted"
}

# submitted NAME STATUS BODY JSON: the submission with this text is answered so
submitted() {
    asked "$1" "$2" "$3" /submit --data-binary "$4"
}

# a database that is asked by curl for all that is served, and what the database holds afterwards
run_served() {
    local folder=$scratch/served.d line=$'\n'
    local sheet="oak 1995-12-18 Monday${line}13:30-14:30 T 1-1 Budget Meeting${line}"
    mkdir "$folder"
    printf 'mp1 9 1\nK 0\nE\n' > "$folder/nothing"
    printf 'mr1 2 1\nW 2 1 1 elm 30 1995-12-18 09:00 0 Beta\nE\n' > "$folder/beta"
    printf 'mr1 2 1\nW 2 01 1 elm 30 1995-12-18 09:00 0 Beta\nE\n' > "$folder/bad"
    expect_line 'init of what is served' 0 'ok' init "$folder/a.db" 1 1
    expect_line 'a room of what is served' 0 'ok' add-room "$folder/a.db" oak
    head -c 1048577 /dev/zero > "$folder/large"
    serve "$folder/a.db" 19
    submitted 'a submission' 200 \
        '{"day":"1995-12-18","id":"1-1","mark":"T","start":"13:30","state":"booked","stop":"14:30"}' \
        '{"day":"1995-12-18","length":60,"room":"oak","start":"13:30","title":"Budget Meeting"}'
    asked 'a request that nobody knows' 404 '{"name":"NoSuchRequest","refusal":9}' /rooms/oak/requests/7-1
    asked 'a body that is too large' 413 '{"error":"too large"}' /submit --data-binary x -H 'Content-Length: 1048577'
    asked 'the same, sent whole' 413 '{"error":"too large"}' /submit --data-binary "@$folder/large" -H 'Expect:'
    asked 'a submission without its length' 400 '{"error":"bad request"}' /submit -X POST -H 'Content-Length:'
    asked 'a question where a submission goes' 405 '{"error":"method not allowed"}' /submit
    asked 'the sheet over HTTP' 200 "$sheet" /rooms/oak/days/1995-12-18
    submitted 'a submission that finds no slot' 200 '{"id":"1-2","mark":"T","state":"logged"}' \
        '{"room":"oak","day":"1995-12-18","start":"14:00","length":15,"title":"Late","alternatives":[]}'
    submitted 'a submission for a room that is not there' 404 '{"name":"UnknownRoom","refusal":7}' \
        '{"day":"1995-12-18","length":60,"room":"ash","start":"13:30","title":"Budget Meeting"}'
    submitted 'a submission with another member' 400 '{"error":"bad request"}' \
        '{"day":"1995-12-18","length":60,"room":"oak","start":"13:30","title":"Budget Meeting","by":"me"}'
    submitted 'a submission of a day that is none' 400 '{"name":"BadDay","refusal":1}' \
        '{"day":"1995-12-32","length":60,"room":"oak","start":"13:30","title":"Budget Meeting"}'
    asked 'an outcome over HTTP' 200 \
        '{"day":"1995-12-18","id":"1-1","mark":"T","start":"13:30","state":"booked","stop":"14:30"}' /rooms/oak/requests/1-1
    asked 'the error log over HTTP' 200 "oak errors${line}T 1-2 1995-12-18 14:00-14:15 Late${line}" /rooms/oak/errors
    asked 'the position over HTTP' 200 "mp2 1 1${line}K 0${line}V 1 2${line}E${line}" /position
    asked 'a batch over HTTP' 200 "mr1 1 1${line}W 1 1 1 oak 60 1995-12-18 13:30 0 Budget Meeting${line}W 1 2 2 oak 15 1995-12-18 14:00 0 Late${line}E${line}" \
        /pull --data-binary "@$folder/nothing"
    asked 'a batch taken over HTTP' 200 "took 1 writes 0 commits${line}" /push --data-binary "@$folder/beta"
    asked 'the same batch again' 200 "took 0 writes 0 commits${line}" /push --data-binary "@$folder/beta"
    asked 'a batch with a bad line' 400 '{"line":2,"name":"BadLine","refusal":15}' /push --data-binary "@$folder/bad"
    asked 'a path that is not served' 404 '{"error":"not found"}' /rooms/oak
    served 'the lines of a served database' 200 404 413 413 400 405 200 200 404 400 400 200 200 200 200 200 200 400 404
    printf '%s' "$sheet" > "$scratch/wanted"
    expect 'the sheet of what was served' 0 "$scratch/wanted" sheet "$folder/a.db" oak 1995-12-18
    expect_line 'serving where no database is' 1 'refused 26 NotAReplica' serve "$folder/none.db" 20000 1
    port=$((ROOMS_PORTS + PORTS_OF_PART - 1))
    expect_line 'serving nobody' 0 "serving 127.0.0.1:$port" serve "$folder/a.db" "$port" 0
    expect_line 'a port that is none' 2 'bad command line' serve "$folder/a.db" 0 1
    # where another process has the port, nothing is printed that says it is served
    expect_line 'init of what finds its port taken' 0 'ok' init "$folder/taken.db" 1 1
    serve "$folder/a.db" 1
    expect_line 'a port that is taken' 3 'fault network' serve "$folder/taken.db" "$port" 1
    asked 'the sheet at the port that is taken' 200 "$sheet" /rooms/oak/days/1995-12-18
    served 'the line at the port that is taken' 200
}

# cancelled NAME STATUS BODY JSON: the cancellation with this text is answered so
cancelled() {
    asked "$1" "$2" "$3" /cancel --data-binary "$4"
}

# a request is cancelled over HTTP
run_cancelled() {
    local folder=$scratch/served.d line=$'\n' gone='{"by":"1-2","bymark":"T","id":"1-1","mark":"T","state":"cancelled"}'
    printf 'mp2 9 1\nK 0\nE\n' > "$folder/second"
    expect_line 'init of what is cancelled' 0 'ok' init "$folder/c.db" 1 1
    expect_line 'a room of what is cancelled' 0 'ok' add-room "$folder/c.db" oak
    serve "$folder/c.db" 20
    submitted 'a submission that is cancelled' 200 \
        '{"day":"1995-12-18","id":"1-1","mark":"T","start":"13:30","state":"booked","stop":"14:30"}' \
        '{"day":"1995-12-18","length":60,"room":"oak","start":"13:30","title":"Budget Meeting"}'
    cancelled 'a cancel' 200 '{"id":"1-2","mark":"T","state":"cancels","target":"1-1"}' '{"id":"1-1","room":"oak"}'
    asked 'the outcome of what was cancelled' 200 "$gone" /rooms/oak/requests/1-1
    asked 'the outcome of a cancel' 200 '{"id":"1-2","mark":"T","state":"cancels","target":"1-1"}' /rooms/oak/requests/1-2
    cancelled 'a cancel of what was cancelled' 200 '{"id":"1-3","mark":"T","state":"void","target":"1-1"}' '{"room":"oak","id":"1-1"}'
    asked 'the error log with a void cancel' 200 "oak errors${line}T 1-3 cancel 1-1${line}" /rooms/oak/errors
    asked 'the sheet without it' 200 "oak 1995-12-18 Monday${line}(no bookings)${line}" /rooms/oak/days/1995-12-18
    cancelled 'a cancel of a cancel' 404 '{"name":"NoSuchRequest","refusal":9}' '{"id":"1-2","room":"oak"}'
    cancelled 'a cancel of no id' 404 '{"name":"NoSuchRequest","refusal":9}' '{"id":"","room":"oak"}'
    cancelled 'a cancel in a room that is not there' 404 '{"name":"UnknownRoom","refusal":7}' '{"id":"1-1","room":"ash"}'
    cancelled 'a cancel in a room that is none' 400 '{"name":"BadRoomName","refusal":4}' '{"id":"1-1","room":"Oak"}'
    cancelled 'a cancellation without its room' 400 '{"error":"bad request"}' '{"id":"1-1"}'
    cancelled 'a cancellation with another member' 400 '{"error":"bad request"}' '{"id":"1-1","room":"oak","by":"me"}'
    cancelled 'a cancellation with a number' 400 '{"error":"bad request"}' '{"id":11,"room":"oak"}'
    cancelled 'a cancellation that is no object' 400 '{"error":"bad request"}' '["1-1","oak"]'
    cancelled 'no cancellation' 400 '{"error":"bad request"}' ''
    asked 'a question where a cancellation goes' 405 '{"error":"method not allowed"}' /cancel
    asked 'a batch with cancels' 200 "mr2 1 1${line}W 1 1 1 oak 60 1995-12-18 13:30 0 Budget Meeting${line}X 1 2 2 oak 1 1${line}X 1 3 3 oak 1 1${line}E${line}" \
        /pull --data-binary "@$folder/second"
    asked 'a batch with cancels in the first version' 409 '{"name":"NeedsVersion2","refusal":27}' /pull --data-binary "@$folder/nothing"
    asked 'the position with cancels' 200 "mp2 1 1${line}K 0${line}V 1 3${line}E${line}" /position
    served 'the lines of cancels' 200 200 200 200 200 200 200 404 404 404 400 400 400 400 400 400 405 200 409 200
}

# submissions with each number of alternatives at which something changes; all choices are taken, but for the last
run_alternatives_over_http() {
    local folder=$scratch/served.d taken='{"day":"1995-12-18","start":"00:00"}' n=1 k count others
    local request='"day":"1995-12-18","length":30,"room":"oak","start":"00:00"'
    expect_line 'init of what has alternatives' 0 'ok' init "$folder/d.db" 1 1
    expect_line 'a room of what has alternatives' 0 'ok' add-room "$folder/d.db" oak
    serve "$folder/d.db" 12
    submitted 'a whole day' 200 '{"day":"1995-12-18","id":"1-1","mark":"T","start":"00:00","state":"booked","stop":"24:00"}' \
        '{"day":"1995-12-18","length":1440,"room":"oak","start":"00:00","title":"Closed","alternatives":[]}'
    for count in 1 2 4 5 6 7 8 9 16 17; do
        others=
        for ((k = 1; k < count; k++)); do others+="$taken,"; done
        printf -v k '%02d' "$count"
        others+="{\"day\":\"1995-12-19\",\"start\":\"$k:00\"}"
        n=$((n + 1))
        if [ "$count" = 17 ]; then
            submitted 'seventeen alternatives over HTTP' 400 '{"name":"TooManyAlternatives","refusal":6}' "{$request,\"title\":\"x\",\"alternatives\":[$others]}"
        else
            submitted "$count alternatives over HTTP" 200 \
                "{\"day\":\"1995-12-19\",\"id\":\"1-$n\",\"mark\":\"T\",\"start\":\"$k:00\",\"state\":\"booked\",\"stop\":\"$k:30\"}" \
                "{$request,\"title\":\"x\",\"alternatives\":[$others]}"
        fi
    done
    submitted 'no alternative over HTTP' 200 '{"id":"1-11","mark":"T","state":"logged"}' "{$request,\"title\":\"x\"}"
    served 'the lines of alternatives' 200 200 200 200 200 200 200 200 200 200 400 200
}

# pushes of 0, 1, 63, 64 and 65 lines, each of a server of its own; and pulls where so many of the last are lacked, of which 64 are given at most
run_counted_requests() {
    local folder=$scratch/served.d line=$'\n' count last ending
    expect_line 'init of what is counted' 0 'ok' init "$folder/e.db" 9 1
    serve "$folder/e.db" 10
    for count in 0 1 63 64 65; do
        { printf 'mr2 3 1\n'; minutes $((count + 1)) 1 "$count"; printf 'E\n'; } > "$folder/counted"
        asked "a push of $count lines" 200 "took $count writes 0 commits$line" /push --data-binary "@$folder/counted"
    done
    for count in 0 1 63 64 65; do
        last=65 ending=E
        if [ "$count" = 65 ]; then last=64 ending=M; fi
        printf 'mp2 8 1\nK 0\nV 2 1\nV 64 63\nV 65 64\n' > "$folder/claim"
        if [ "$count" -lt 65 ]; then printf 'V 66 %s\n' $((65 - count)) >> "$folder/claim"; fi
        printf 'E\n' >> "$folder/claim"
        asked "a pull of $count lines" 200 "$(printf 'mr2 9 1\n'; minutes 66 $((66 - count)) "$last"; printf '%s' "$ending")$line" \
            /pull --data-binary "@$folder/claim"
    done
    served 'the lines of what is counted' 200 200 200 200 200 200 200 200 200 200
}

# raw NAME WANTED TEXT: what is answered to these bytes, with nothing behind them, begins with this line
raw() {
    python3 - "$port" "$3" > "$scratch/out" 2> "$scratch/err" <<'PYTHON'
import socket, sys
s = socket.create_connection(("127.0.0.1", int(sys.argv[1])), 30)
for byte in sys.argv[2].encode().decode("unicode_escape").encode("latin-1"):
    s.sendall(bytes([byte]))
s.shutdown(socket.SHUT_WR)
reply = b""
while True:
    piece = s.recv(4096)
    if not piece:
        break
    reply += piece
print(reply.split(b"\r\n")[0].decode())
PYTHON
    local status=$?
    printf '%s\n' "$2" > "$scratch/wanted"
    told "$1" "$status" 0 "$scratch/wanted"
}

# silent NAME: who falls silent in the middle of a head is given up, without a byte
silent() {
    python3 - "$port" > "$scratch/out" 2> "$scratch/err" <<'PYTHON'
import socket, sys
s = socket.create_connection(("127.0.0.1", int(sys.argv[1])), 60)
s.sendall(b"GET /posi")
print(len(s.recv(4096)))
PYTHON
    local status=$?
    printf '0\n' > "$scratch/wanted"
    told "$1" "$status" 0 "$scratch/wanted"
}

# requests that curl does not make: cut ones, and such as come a byte at a time
run_raw_requests() {
    local folder=$scratch/served.d
    if ! command -v python3 > /dev/null; then
        echo 'skipped: cut requests (no python3)'
        return
    fi
    serve "$folder/a.db" 7
    raw 'a request a byte at a time' 'HTTP/1.1 200 OK' 'GET /position HTTP/1.1\r\n\r\n'
    raw 'a cut head' 'HTTP/1.1 400 Bad Request' 'GET /position HTTP/1.1\r\n'
    raw 'a cut body' 'HTTP/1.1 400 Bad Request' 'POST /push HTTP/1.1\r\nContent-Length: 8\r\n\r\nmr1 2 1'
    raw 'another version' 'HTTP/1.1 400 Bad Request' 'GET /position HTTP/1.0\r\n\r\n'
    raw 'a path that is no UTF-8' 'HTTP/1.1 400 Bad Request' 'GET /rooms/\xff/errors HTTP/1.1\r\n\r\n'
    raw 'no bytes at all' 'HTTP/1.1 400 Bad Request' ''
    silent 'half a head, and then nothing'
    served 'the lines of cut requests' 200 400 400 400 400 400 fault
}

# what was answered is there after the server was killed, and nobody else has its database meanwhile
run_killed() {
    local folder=$scratch/served.d
    serve "$folder/a.db" 9
    expect_line 'a command on a database that is served' 1 'refused 25 Store' add-room "$folder/a.db" ash
    submitted 'a submission to a server that is killed' 200 \
        '{"day":"1996-02-29","id":"1-3","mark":"T","start":"09:00","state":"booked","stop":"10:00"}' \
        '{"day":"1996-02-29","length":60,"room":"oak","start":"09:00","title":"Rota"}'
    kill -9 "$server"
    wait "$server" 2> /dev/null
    printf 'oak 1996-02-29 Thursday\n09:00-10:00 T 1-3 Rota\n' > "$scratch/wanted"
    expect 'the sheet after that' 0 "$scratch/wanted" sheet "$folder/a.db" oak 1996-02-29
}

# two processes, one of which serves, and two databases in one process
run_exchanges() {
    local folder=$scratch/exchanges line=$'\n' n
    mkdir "$folder"
    printf 'oak 1995-12-18 Monday\n14:00-15:00 T 1-1 Alpha\n15:00-16:00 T 2-1 Beta\n' > "$folder/sheet"
    {
        printf 'mr1 3 1\n'
        for n in $(seq 70); do
            printf 'W 3 %s %s elm 1 1995-12-18 %02d:%02d 0 Elm\n' "$n" "$n" $((9 + n / 60)) $((n % 60))
        done
        printf 'E\n'
    } > "$folder/seventy"
    {
        printf 'mr1 4 1\n'
        for n in $(seq 70); do
            printf 'W 4 %s %s ash 1 1995-12-18 %02d:%02d 0 Ash\n' "$n" "$n" $((9 + n / 60)) $((n % 60))
        done
        printf 'E\n'
    } > "$folder/others"
    printf 'pulled 1 writes 0 commits\npushed 1 writes 0 commits\n' > "$folder/one"
    printf 'pulled 0 writes 0 commits\npushed 0 writes 0 commits\n' > "$folder/none"
    printf 'pulled 70 writes 0 commits\npushed 70 writes 0 commits\n' > "$folder/all"
    expect_line 'init of the first office' 0 'ok' init "$folder/one.db" 1 1
    expect_line 'init of the second office' 0 'ok' init "$folder/two.db" 2 1
    expect_line 'a room of the first' 0 'ok' add-room "$folder/one.db" oak
    expect_line 'a room of the second' 0 'ok' add-room "$folder/two.db" oak
    expect_line 'a booking of the first' 0 '1-1 T 1995-12-18 14:00-15:00' book "$folder/one.db" oak 60 1995-12-18 14:00 Alpha
    expect_line 'a booking of the second' 0 '2-1 T 1995-12-18 13:30-14:30' \
        book "$folder/two.db" oak 60 1995-12-18 13:30 Beta 1995-12-18T15:00
    cp -- "$folder/one.db" "$folder/three.db"
    cp -- "$folder/two.db" "$folder/four.db"
    expect 'a bridge' 0 "$folder/one" bridge "$folder/four.db" "$folder/three.db"
    expect 'a bridge again' 0 "$folder/none" bridge "$folder/four.db" "$folder/three.db"
    expect 'the sheet of a bridge' 0 "$folder/sheet" sheet "$folder/three.db" oak 1995-12-18
    expect 'the sheet at its other end' 0 "$folder/sheet" sheet "$folder/four.db" oak 1995-12-18
    # without its log, which was copied into it
    cp -- "$folder/three.db" "$folder/alone.db"
    expect 'the sheet of the file alone' 0 "$folder/sheet" sheet "$folder/alone.db" oak 1995-12-18
    expect_line 'a bridge to nowhere' 1 'refused 26 NotAReplica' bridge "$folder/four.db" "$folder/five.db"

    serve "$folder/one.db" 3
    SECONDS=0
    expect 'an exchange' 0 "$folder/one" exchange "$folder/two.db" "http://127.0.0.1:$port/"
    served 'the lines of an exchange' 200 200 200
    : > "$scratch/out"
    : > "$scratch/wanted"
    told 'no connection of an exchange waits for another' "$((SECONDS >= 9))" 0 "$scratch/wanted"
    expect 'the sheet of the office that served' 0 "$folder/sheet" sheet "$folder/one.db" oak 1995-12-18
    expect 'the sheet of the office that asked' 0 "$folder/sheet" sheet "$folder/two.db" oak 1995-12-18

    expect_line 'seventy writes of a third' 0 'took 70 writes 0 commits' import "$folder/one.db" "$folder/seventy"
    expect_line 'seventy writes of a fourth' 0 'took 70 writes 0 commits' import "$folder/two.db" "$folder/others"
    cp -- "$folder/one.db" "$folder/three.db"
    cp -- "$folder/two.db" "$folder/four.db"
    expect 'a bridge in rounds' 0 "$folder/all" bridge "$folder/four.db" "$folder/three.db"
    serve "$folder/one.db" 6
    expect 'an exchange in rounds of 64 and 6' 0 "$folder/all" exchange "$folder/two.db" "http://localhost:$port"
    served 'the lines of the rounds' 200 200 200 200 200 200
    expect_line 'the commit of the primary' 0 'committed 142' commit "$folder/one.db" 1000
    serve "$folder/one.db" 5
    printf 'pulled 0 writes 142 commits\npushed 0 writes 0 commits\n' > "$scratch/commits"
    expect 'an exchange of commits' 0 "$scratch/commits" exchange "$folder/two.db" "http://127.0.0.1:$port/"
    served 'the lines of the commits' 200 200 200 200 200

    expect_line 'nobody serves' 3 'fault network' exchange "$folder/two.db" "http://127.0.0.1:$port/"
    expect_line 'an address of another kind' 2 'bad address' exchange "$folder/two.db" https://localhost/
    expect_line 'an address with a path' 2 'bad address' exchange "$folder/two.db" http://localhost/x
    expect_line 'an address before a database' 2 'bad address' exchange "$folder/none.db" http://localhost/x
    expect_line 'a database before the network' 1 'refused 26 NotAReplica' exchange "$folder/none.db" http://localhost/
    expect_line 'init of a stranger' 0 'ok' init "$folder/stranger.db" 7 7
    serve "$folder/one.db" 1
    expect_line 'an exchange with a stranger' 1 'peer answered 409' exchange "$folder/stranger.db" "http://127.0.0.1:$port/"
    served 'the line of the stranger' 409
    run_other_family "$folder/two.db"
}

# exchanges where 63, 64 and 65 lines are pulled, and where so many are pushed: a round has 64, and the last one ends it
run_counted_rounds() {
    local folder=$scratch/exchanges count rounds
    local -a statuses=(200 200 200 200 200)
    for count in 63 64 65; do
        rounds=$((count > 64 ? 2 : 1))
        { printf 'mr2 3 1\n'; minutes 3 1 "$count"; printf 'E\n'; } > "$folder/counted"
        printf 'pulled %s writes 0 commits\npushed 0 writes 0 commits\n' "$count" > "$folder/pulled"
        printf 'pulled 0 writes 0 commits\npushed %s writes 0 commits\n' "$count" > "$folder/pushed"
        expect_line "init of an office with $count" 0 'ok' init "$folder/$count.db" 1 1
        expect_line "$count writes of another" 0 "took $count writes 0 commits" import "$folder/$count.db" "$folder/counted"
        expect_line "init of one that pulls $count" 0 'ok' init "$folder/pulls-$count.db" 2 1
        expect_line "init of one that takes $count" 0 'ok' init "$folder/takes-$count.db" 2 1
        serve "$folder/$count.db" $((rounds + 2))
        expect "a pull of $count in rounds" 0 "$folder/pulled" exchange "$folder/pulls-$count.db" "http://127.0.0.1:$port/"
        served "the lines of a pull of $count" "${statuses[@]:0:rounds + 2}"
        serve "$folder/takes-$count.db" $((2 * rounds + 1))
        expect "a push of $count in rounds" 0 "$folder/pushed" exchange "$folder/$count.db" "http://127.0.0.1:$port/"
        served "the lines of a push of $count" "${statuses[@]:0:2 * rounds + 1}"
    done
}

# shows_two NAME LINE..: both offices that exchange cancels print these lines of what is asked by the words in $words
shows_two() {
    local name=$1 office
    shift
    printf '%s\n' "$@" > "$scratch/cancels/wanted"
    for office in one two; do
        expect "$name, office $office" 0 "$scratch/cancels/wanted" "${words[0]}" "$scratch/cancels/$office.db" "${words[@]:1}"
    done
}

# one office cancels a request of the other, which learns of it over HTTP; the primary commits both, and a bridge brings that back
run_exchanged_cancels() {
    local folder=$scratch/cancels
    local -a words
    mkdir "$folder"
    printf 'pulled 1 writes 0 commits\npushed 1 writes 0 commits\n' > "$folder/first"
    printf 'pulled 0 writes 0 commits\npushed 2 writes 0 commits\n' > "$folder/cancels"
    printf 'pulled 1 writes 5 commits\npushed 0 writes 0 commits\n' > "$folder/commits"
    printf 'pulled 4 writes 0 commits\npushed 0 writes 0 commits\n' > "$folder/pulled"
    printf 'pulled 0 writes 0 commits\npushed 0 writes 0 commits\n' > "$folder/nothing"
    expect_line 'init of an office whose request is cancelled' 0 'ok' init "$folder/one.db" 1 1
    expect_line 'init of an office that cancels' 0 'ok' init "$folder/two.db" 2 1
    expect_line 'a room of the first of them' 0 'ok' add-room "$folder/one.db" oak
    expect_line 'a room of the second of them' 0 'ok' add-room "$folder/two.db" oak
    expect_line 'a booking to be cancelled' 0 '1-1 T 1995-12-18 14:00-15:00' book "$folder/one.db" oak 60 1995-12-18 14:00 Alpha
    expect_line 'a booking that stays' 0 '2-1 T 1995-12-18 16:00-17:00' book "$folder/two.db" oak 60 1995-12-18 16:00 Beta
    expect 'a bridge before the cancel' 0 "$folder/first" bridge "$folder/two.db" "$folder/one.db"
    expect_line 'a cancel of a request of another office' 0 '2-2 T cancels 1-1' cancel "$folder/two.db" oak 1-1
    expect_line 'a second cancel of it' 0 '2-3 T void 1-1' cancel "$folder/two.db" oak 1-1
    serve "$folder/one.db" 3
    expect 'an exchange of cancels' 0 "$folder/cancels" exchange "$folder/two.db" "http://127.0.0.1:$port/"
    served 'the lines of that exchange' 200 200 200
    words=(outcome oak 1-1)
    shows_two 'the outcome of what was cancelled' '1-1 T cancelled T 2-2'
    words=(sheet oak 1995-12-18)
    shows_two 'the sheet without it' 'oak 1995-12-18 Monday' '16:00-17:00 T 2-1 Beta'
    words=(errors oak)
    shows_two 'the void cancel' 'oak errors' 'T 2-3 cancel 1-1'
    expect_line 'init of an office that hears of cancels' 0 'ok' init "$folder/three.db" 3 1
    serve "$folder/one.db" 6
    expect 'an exchange that pulls cancels' 0 "$folder/pulled" exchange "$folder/three.db" "http://127.0.0.1:$port/"
    expect 'the same again' 0 "$folder/nothing" exchange "$folder/three.db" "http://127.0.0.1:$port/"
    served 'the lines of both exchanges' 200 200 200 200 200 200
    expect_line 'what was cancelled, once it was pulled' 0 '1-1 T cancelled T 2-2' outcome "$folder/three.db" oak 1-1
    expect_line 'its slot is booked again' 0 '1-2 T 1995-12-18 14:00-15:00' book "$folder/one.db" oak 60 1995-12-18 14:00 Gamma
    expect_line 'the primary commits all of it' 0 'committed 5' commit "$folder/one.db" 10
    expect 'a bridge after that' 0 "$folder/commits" bridge "$folder/two.db" "$folder/one.db"
    words=(outcome oak 1-1)
    shows_two 'the outcome once all is committed' '1-1 C cancelled C 2-2'
    words=(calendar oak committed)
    shows_two 'the committed calendar' 'oak committed' '1995-12-18 14:00-15:00 C 1-2 Gamma' '1995-12-18 16:00-17:00 C 2-1 Beta'
}

# a peer at an address of version 6, which answers 503
run_other_family() {
    if ! command -v python3 > /dev/null; then
        echo 'skipped: an address of version 6 (no python3)'
        return
    fi
    : > "$scratch/port"
    python3 - > "$scratch/port" 2> "$scratch/err" <<'PYTHON' &
import socket
s = socket.socket(socket.AF_INET6)
s.bind(("::1", 0))
s.listen()
s.settimeout(30)
print(s.getsockname()[1], flush=True)
c, _ = s.accept()
c.recv(4096)
c.sendall(b"HTTP/1.1 503 Service Unavailable\r\nContent-Length: 0\r\n\r\n")
c.close()
PYTHON
    server=$!
    for _ in $(seq 100); do
        if [ -s "$scratch/port" ] || ! kill -0 "$server" 2> /dev/null; then break; fi
        sleep 0.05
    done
    if [ -s "$scratch/port" ]; then
        expect_line 'an address of version 6' 1 'peer answered 503' exchange "$1" "http://[::1]:$(cat -- "$scratch/port")/"
    else
        echo 'skipped: an address of version 6 (this machine has none)'
    fi
    kill "$server" 2> /dev/null
    wait "$server" 2> /dev/null
}

# whole replies to the bytes of requests
run_whole_replies() {
    if ! command -v python3 > /dev/null; then
        echo 'skipped: tests/http/replies.py (no python3)'
        return
    fi
    mkdir "$scratch/replies"
    PYTHONDONTWRITEBYTECODE=1 python3 tests/http/replies.py "$program" "$scratch/replies" 2>&1 | tee "$scratch/out"
    count_of 'tests/http/replies.py' "$scratch/out"
}

run_http() {
    run_whole_replies
    if command -v curl > /dev/null; then
        run_served
        run_cancelled
        run_alternatives_over_http
        run_counted_requests
        run_raw_requests
        run_killed
    else
        echo 'skipped: a served database, cut requests, a killed server (no curl)'
    fi
}

# databases that exchange
run_exchanging() {
    run_exchanges
    run_counted_rounds
    run_exchanged_cancels
}
