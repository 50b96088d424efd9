# The courier on poor lines: slow, cut, and with peers that are silent, dripping or lying; and what an idle pair costs. Read by deploy.sh,
# whose functions and variables are used here.

# line KIND PORT [OTHER]: a poor line, which ends with what serves
line() {
    python3 -B "$deploy/tests/line.py" "$@" > "$folder/line.$2" 2> "$folder/line.$2.errors" &
    serving+=($!)
    reached "no line at $2" 10 taken "$2"
}

# the last line of the courier with these words, and its status
courier_says() {
    carry "$@" > "$folder/lines"
    echo "$? $(tail -n 1 "$folder/lines" | sed 's/; what was carried before stays, and the courier may run again$//')"
}

two_of() {
    local n
    for n in 1 2; do
        "$program" init "$folder/$1.$n.db" "$n" 1 > /dev/null
        batch_of $((n + 2)) oak "$2" > "$folder/batch"
        "$program" import "$folder/$1.$n.db" "$folder/batch" > /dev/null
        serve_at "$folder/$1.$n.db" $((ports + 3 + n))
    done
}

# a line of 64 kbit/s with two seconds of delay on which a tenth is lost, and one that breaks again and again: all arrives
poor_lines() {
    local a=http://127.0.0.1:$((ports + 4)) far=http://127.0.0.1:$((ports + 6)) tries
    two_of slow 100
    line slow $((ports + 6)) $((ports + 5))
    is 'a slow line' "$(ROOMS_SILENCE=20 courier_says "$a" "$far")" '0 done: 100 writes 0 commits there, 100 writes 0 commits back'
    stop_serving
    two_of cut 100
    line cut $((ports + 6)) $((ports + 5))
    for tries in $(seq 30); do
        if ROOMS_TRIES=0 carry "$a" "$far" > "$folder/lines"; then break; fi
    done
    is 'a line that breaks' "$(tail -n 1 "$folder/lines" | cut -d ' ' -f 1)" done:
    held 'it did break' test "$tries" -gt 1
    is 'all arrived' "$(curl -s "$a/position" | tail -n +2) $(curl -s "http://127.0.0.1:$((ports + 5))/position" | tail -n +2)" \
        $'K 0\nV 3 100\nV 4 100\nE K 0\nV 3 100\nV 4 100\nE'
    stop_serving
}

# the faults in words, each after one try where time ran out
faults_in_words() {
    local a=http://127.0.0.1:$((ports + 4)) began
    local -x ROOMS_TRIES=0 ROOMS_SILENCE=2
    two_of faults 1
    is 'a name that is not found' "$(courier_says "$a" https://rooms.invalid)" '3 failed: https://rooms.invalid: the name rooms.invalid isn'"'"'t found'
    is 'nobody listens' "$(courier_says "$a" "http://127.0.0.1:$((ports + 6))")" \
        "3 failed: http://127.0.0.1:$((ports + 6)): nothing listens there, or no way leads there"
    is 'a file that is not there' "$(courier_says -2 "$folder/none" "$a" "$a")" "3 failed: the file of options $folder/none can't be read"
    line silent $((ports + 6))
    began=$SECONDS
    is 'a silent peer' "$(ROOMS_TRIES=5 courier_says "$a" "http://127.0.0.1:$((ports + 6))")" \
        "3 failed: http://127.0.0.1:$((ports + 6)) was silent for 2 seconds"
    held 'it is asked once' test $((SECONDS - began)) -lt 6
    line lying $((ports + 8))
    is 'a peer without TLS' "$(courier_says "$a" "https://127.0.0.1:$((ports + 8))")" \
        "3 failed: https://127.0.0.1:$((ports + 8)): no TLS came about: the line broke, or what listens there speaks none that fits"
    line endless $((ports + 7))
    is 'a reply without an end' "$(courier_says "$a" "http://127.0.0.1:$((ports + 7))")" \
        "3 failed: http://127.0.0.1:$((ports + 7)): the reply is none of a replica, or the disk here is full"
    stop_serving
}

# in_carried: which peers have a line in `carried`, by port
in_carried() { grep -c " http://127.0.0.1:$1 " "$ROOMS_STATE/one/carried" 2> /dev/null; }

met_at() { sed -n "s,^\([0-9]*\) 0 http://127.0.0.1:$((ports + 5)) .*,\1,p" "$ROOMS_STATE/one/carried" 2> /dev/null; }

is_met_after() { [ "$(met_at)" -gt "$1" ]; }

# an office whose peers are silent, dripping and lying, and a good one behind them, which is met at once, and again while they go on
three_bad_peers() {
    local first
    local -x ROOMS_ETC=$folder/etc ROOMS_STATE=$folder/state ROOMS_SHARE=$deploy ROOMS_COURIER=$deploy/courier/rooms-courier ROOMS_SILENCE=20 ROOMS_EVERY=1 ROOMS_TRIES=0
    mkdir -p "$ROOMS_ETC" "$ROOMS_STATE/one"
    two_of peers 3
    line silent $((ports + 6))
    line drip $((ports + 7))
    line lying $((ports + 8))
    printf 'SERVER=1\nPRIMARY=1\nPORT=%s\nPEERS=(%s)\n' $((ports + 4)) \
        "$(printf "'http://127.0.0.1:%s' " $((ports + 6)) $((ports + 7)) $((ports + 8)) $((ports + 5)))" > "$ROOMS_ETC/one.conf"
    "$deploy/systemd/rooms-office" carry one > "$folder/carried" 2>&1 &
    first=$!
    reached 'the good peer is not met beside the bad ones' 15 is_met_after 0
        is 'while others are still waited for' "$(in_carried $((ports + 6))) $(in_carried $((ports + 7)))" '0 0'
    held 'the good peer is met again meanwhile' until_held 15 is_met_after "$(met_at)"
    wait "$first"
    is 'the courier with bad peers' "$?" 1
    is 'each is named' "$(cut -d ' ' -f 2- "$ROOMS_STATE/one/carried" | sed 's/;.*//; s,http://127.0.0.1:,,g; s/writes 0 commits there.*//' | sort)" \
        "$(printf '%s\n' "0 $((ports + 5)) done: 0 " \
            "1 $((ports + 6)) failed: $((ports + 6)) was silent for 20 seconds" \
            "1 $((ports + 7)) failed: $((ports + 7)) was silent for 20 seconds" \
            "1 $((ports + 8)) failed: $((ports + 8))/position gave no position: no replica is served there")"
    is 'what was known last of the good one' "$(head -n 1 "$ROOMS_STATE/one/known/2")" 'mp2 2 1'
    stop_serving
}

deploy_lines() {
    local folder=$deploy_scratch/poor
    mkdir -p "$folder"
    poor_lines
    faults_in_words
    three_bad_peers
}
