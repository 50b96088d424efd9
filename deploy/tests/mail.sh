# Mails to those who booked: what mail.pl writes of which change, whenever it is cut; what of an address and of a title may not get into a mail; how
# they are handed to a sendmail, and come through a real MTA. Read by deploy.sh, whose functions and variables are used here.

# mail_round: a round of the office `north`, whose database is $north, as its service makes them
mail_round() {
    "$ROOMS_CALENDAR" north "$north"
    perl "$deploy/news/news.pl" north "$north" 30 > "$folder/said"
    write_mails
}

write_mails() { perl "$deploy/news/mail.pl" north rooms@north.example; }

# address ID TEXT: as the proxy puts it
address() { printf '%s' "$2" > "$ROOMS_CALENDARS/north/mail/$1"; }

# new_mails [-t]: those that wait, which are gone then
new_mails() {
    local waiting=$ROOMS_STATE/north/mail/waiting
    if [ -n "$(ls "$waiting")" ]; then python3 -B "$deploy/tests/mail_read.py" "$@" "$waiting"/*; fi
    rm -f "$waiting"/*
}

# requests of office 1 that go before those of office 2, as in news_by_hand: 1-1 takes 13:00 from 2-1, by which 2-4 gets room; 1-2 moves 2-3
mails_by_hand() {
    local day=2030-03-04 slot='Oak, 2nd floor, Mon 2030-03-04,'
    "$program" book "$north" oak 60 $day 13:00 'East "supplier" \ 1' > /dev/null
    "$program" book "$north" oak 60 $day 16:00 Stays > /dev/null
    "$program" book "$north" oak 60 $day 17:00 Planning ${day}T18:00 > /dev/null
    "$program" book "$north" oak 60 $day 13:30 Waits > /dev/null
    "$program" book "$north" oak 60 $day 13:30 'Believed booked' > /dev/null
    address 2-1 anna@localhost
    address 2-3 "bert@localhost
"
    address 2-4 'cleo@localhost none'
    address 2-5 dora@localhost
    mail_round
    is 'what is new' "$(new_mails)" "anna@localhost: Booked, not final yet: East \"supplier\" \\ 1, $slot 13:00 to 14:00 | PUBLISH TENTATIVE 20300304T130000 0
bert@localhost: Booked, not final yet: Planning, $slot 17:00 to 18:00 | PUBLISH TENTATIVE 20300304T170000 0
dora@localhost: No room any more: Believed booked, $slot 13:30 to 14:30 | -"
    is 'the proxy has no address any more' "$(ls "$ROOMS_CALENDARS/north/mail")" ''
    is 'nobody else reads them' "$(find "$ROOMS_STATE/north/mail" -printf '%m %f\n' | sort | tr '\n' ' ')" '600 records 600 records.lock 700 mail 700 waiting '
    mail_round
    is 'a round without a change' "$(new_mails)" ''
    takes "W 1 1 1 oak 30 $day 13:00 0 Earlier" "W 1 2 2 oak 30 $day 17:30 0 Late"
    mail_round
    is 'a merge' "$(new_mails)" "anna@localhost: No room any more: East \"supplier\" \\ 1, $slot 13:00 to 14:00 | CANCEL CANCELLED 20300304T130000 1
bert@localhost: Moved: Planning, $slot 18:00 to 19:00 | PUBLISH TENTATIVE 20300304T180000 1
cleo@localhost: It has a room: Waits, $slot 13:30 to 14:30 | PUBLISH TENTATIVE 20300304T133000 0"
    takes 'X 1 3 99 oak 2 4'
    mail_round
    is 'a cancel' "$(new_mails)" "cleo@localhost: Cancelled: Waits, $slot 13:30 to 14:30 | CANCEL CANCELLED 20300304T133000 1"
    takes 'C 1 1 1' 'C 2 2 1' 'C 3 1 2' 'C 4 2 2' 'C 5 2 3' 'C 6 2 4' 'C 7 1 3' 'C 8 2 5'
    mail_round
    is 'commits; what was cancelled is not told twice' "$(new_mails)" "anna@localhost: No room, for good: East \"supplier\" \\ 1, $slot 13:00 to 14:00 | CANCEL CANCELLED 20300304T130000 1
bert@localhost: Final: Planning, $slot 18:00 to 19:00 | PUBLISH CONFIRMED 20300304T180000 2
dora@localhost: It has a room: Believed booked, $slot 13:30 to 14:30 | PUBLISH CONFIRMED 20300304T133000 0"
}

# texts_of: the middle lines of the mails that wait, which say what became of it
texts_of() { new_mails -t | sed -n '/^It /p; /^That /p'; }

what_mails_say() {
    local day=2030-03-05
    "$program" book "$north" oak 60 $day 13:00 Review > /dev/null
    "$program" book "$north" oak 60 $day 16:00 Rota ${day}T18:00 > /dev/null
    address 2-6 anna@localhost
    address 2-7 anna@localhost
    mail_round
    is 'the whole of a mail' "$(new_mails -t | sed '/Rota/,$d')" "anna@localhost: Booked, not final yet: Review, Oak, 2nd floor, Tue 2030-03-05, 13:00 to 14:00 | PUBLISH TENTATIVE 20300305T130000 0
Review
Oak, 2nd floor, Tue 2030-03-05, 13:00 to 14:00 (Europe/Berlin)

It is booked. It is not final yet: until the offices have met it may move or lose its room. You get a mail if it does, and one when it is final.

Request 2-6, Offices of the north. This address was given for it, and gets what becomes of it, until its day is over. If you know nothing of it, tell the desk."
    takes "W 1 4 100 oak 30 $day 13:30 0 Earlier" "W 1 5 101 oak 30 $day 16:30 0 Late"
    mail_round
    is 'what they say of a merge' "$(texts_of)" 'It had Tue 2030-03-05, 13:00 to 14:00, and lost it to an earlier request. It may still get a room until the offices have met. If you can do without it, have it withdrawn.
It moved. Before, it had Tue 2030-03-05, 16:00 to 17:00. It is not final yet: until the offices have met it may move or lose its room. You get a mail if it does, and one when it is final.'
    "$program" cancel "$north" oak 2-7 > /dev/null
    mail_round
    is 'what they say of a cancel here' "$(texts_of)" 'It was cancelled at this office (request 2-8). That may still change until the offices have met.'
    address 2-7 bert@localhost
    mail_round
    is 'an address in place of another' "$(new_mails | cut -d ',' -f 1)" 'bert@localhost: Cancelled: Rota'
    address 2-7 bert@localhost
    mail_round
    is 'the same again is nothing new' "$(new_mails)" ''
    takes 'X 1 6 200 oak 2 6' 'C 9 1 4' 'C 10 1 5' 'C 11 2 6' 'C 12 2 7' 'C 13 2 8'
    mail_round
    is 'what they say of the end' "$(texts_of)" 'It gets no room any more. Ask for another time.'
    is 'an address is forgotten when nothing comes any more' "$(cut -f 1,2 "$ROOMS_STATE/north/mail/records" | tr '\t\n' '  ')" 'own 2 to 2-3 to 2-5 '
    sed -i 's/2030-03-04/2020-03-04/g' "$ROOMS_STATE/north/mail/records" "$ROOMS_STATE/north/news"
    write_mails
    is 'or its day is over' "$(cut -f 1,2 "$ROOMS_STATE/north/mail/records" | tr '\t\n' '  ')" 'own 2 '
    "$program" book "$north" oak 60 $day 20:00 'Gone at once' > /dev/null
    "$program" cancel "$north" oak 2-9 > /dev/null
    address 2-9 anna@localhost
    mail_round
    is 'what was cancelled before a round saw it' "$(new_mails -t | sed -n '1,3p')" 'anna@localhost: Cancelled: Oak, 2nd floor | -
Request 2-9
Oak, 2nd floor'
}

# ---- what may not get into a mail

# south: states by hand, as news.pl keeps them, of an office 2 whose rooms.json is what a careless hand wrote
state_of_south() { printf 'own\t2\t1\t300\tx\tx\n' > "$ROOMS_STATE/south/news"; cat >> "$ROOMS_STATE/south/news"; }

mails_of_south() { perl "$deploy/news/mail.pl" south rooms@south.example; }

odd_addresses() {
    local drop=$ROOMS_CALENDARS/south/mail number=0 text wanted='' long
    long=$(printf 'x%.0s' {1..300})
    state_of_south < /dev/null
    for text in '' ' anna@localhost' anna @localhost anna@ 'anna b@localhost' $'anna@localhost\nBcc: eve@localhost' $'anna@localhost\r\n\r\nHello' \
        'anna@localhost, eve@localhost' anna@@localhost '"a|sh"@localhost' '|sh@localhost' -froot@localhost /etc/passwd@localhost 'anna%far@localhost' \
        'anna@-x' 'anna@[127.0.0.1]' 'anna@localhost none none' müller@localhost anna@müller.example '<anna@localhost>' "anna@$long" "$long@localhost"; do
        number=$((number + 1))
        printf '%s' "$text" > "$drop/2-$number"
        wanted+="mail: what came as an address for 2-$number can't be used
"
    done
    printf 'anna@localhost' > "$drop/1-1"
    printf 'anna@localhost' > "$drop/2-1400"
    ln -s "$ROOMS_ETC/south.rooms.json" "$drop/2-30"
    mkfifo "$drop/2-31"
    is 'what is no address' "$(mails_of_south | sort -t - -k 2n)" "$(printf '%smail: what came as an address for 1-1 can'"'"'t be used
mail: what came as an address for 2-30 can'"'"'t be used
mail: what came as an address for 2-31 can'"'"'t be used
mail: what came as an address for 2-1400 can'"'"'t be used' "$wanted" | sort -t - -k 2n)"
    is 'is kept nowhere' "$(ls "$drop"; grep -c @ "$ROOMS_STATE/south/mail/records")" 0
    number=0
    for text in "o'brien+rooms#1@sub.example.org" x@a A_b.c-d@LOCALHOST "${long:0:64}@localhost"; do
        number=$((number + 1))
        printf '%s' "$text" > "$drop/2-$number"
    done
    printf 'x' > "$drop/2-1.0001"
    mails_of_south
    is 'what is one' "$(grep -c @ "$ROOMS_STATE/south/mail/records") $(ls "$drop")" '4 2-1.0001'
    rm "$drop/2-1.0001" "$ROOMS_STATE/south/mail/records"
}

# a request for each, whose receiver is its number
odd_texts() {
    local number=0 title
    printf '{"office": "A \\"room\\" \\u000aBcc: eve@localhost", "rooms": [{"name": "oak", "label": "Büro; grün, \\"2\\"\nBcc: eve@localhost"}]}\n' > "$ROOMS_ETC/south.rooms.json"
    while IFS= read -r title; do
        number=$((number + 1))
        printf 'state\t2-%s\toak\t2030-03-04 13:00-14:00\t-\tT\t-\t%s\n' "$number" "$title"
        printf '%s@localhost' "$number" > "$ROOMS_CALENDARS/south/mail/2-$number"
    done < <(printf '%s\n' . 'From me' '=?utf-8?q?Bcc?= x' 'A title of sixty letters that has no end at all and no middl' "$(printf 'x%.0s' {1..60})" 'Tr,ai;ling \ ' \
        $'bad \xff bytes' 'Säntis 日本語の会議室の予約についての長い題名' $'a\x0dBcc: eve@localhost') | state_of_south
    mails_of_south
    is 'titles and labels as they are read' "$(new_odd)" '1@localhost: Booked, not final yet: ., Büro; grün, "2", Mon 2030-03-04, 13:00 to 14:00 | -
.
2@localhost: Booked, not final yet: From me, Büro; grün, "2", Mon 2030-03-04, 13:00 to 14:00 | -
From me
3@localhost: Booked, not final yet: =?utf-8?q?Bcc?= x, Büro; grün, "2", Mon 2030-03-04, 13:00 to 14:00 | -
=?utf-8?q?Bcc?= x
4@localhost: Booked, not final yet: A title of sixty letters that has no end at all and no middl, Büro; grün, "2", Mon 2030-03-04, 13:00 to 14:00 | -
A title of sixty letters that has no end at all and no middl
5@localhost: Booked, not final yet: xxxxxxxxxxxxxxxxxxxxxxxxxxxxxxxxxxxxxxxxxxxxxxxxxxxxxxxxxxxx, Büro; grün, "2", Mon 2030-03-04, 13:00 to 14:00 | -
xxxxxxxxxxxxxxxxxxxxxxxxxxxxxxxxxxxxxxxxxxxxxxxxxxxxxxxxxxxx
6@localhost: Booked, not final yet: Tr,ai;ling \ , Büro; grün, "2", Mon 2030-03-04, 13:00 to 14:00 | -
Tr,ai;ling \ 
7@localhost: Booked, not final yet: bad ? bytes, Büro; grün, "2", Mon 2030-03-04, 13:00 to 14:00 | -
bad ? bytes
8@localhost: Booked, not final yet: Säntis 日本語の会議室の予約についての長い題名, Büro; grün, "2", Mon 2030-03-04, 13:00 to 14:00 | -
Säntis 日本語の会議室の予約についての長い題名
9@localhost: Booked, not final yet: a?Bcc: eve@localhost, Büro; grün, "2", Mon 2030-03-04, 13:00 to 14:00 | -
a?Bcc: eve@localhost'
}

# new_odd: the mails of south that wait, each with the first line of its text
new_odd() { python3 -B "$deploy/tests/mail_read.py" -t "$ROOMS_STATE"/south/mail/waiting/* | grep -A 1 '@localhost: '| grep -v '^--$'; }

# ---- whenever it is cut

# what the records and the mails that wait hold together: each change of 60 requests is written once, though mail.pl is killed again and again, and
# though what is there is sent meanwhile
mails_that_are_cut() {
    local sent=$folder/sent hour number id other
    mkdir -p "$sent"
    printf '{"rooms": []}\n' > "$ROOMS_ETC/south.rooms.json"
    rm -f "$ROOMS_STATE"/south/mail/waiting/* "$ROOMS_STATE/south/mail/records"
    for number in {1..60}; do printf 'anna@localhost' > "$ROOMS_CALENDARS/south/mail/2-$number"; done
    for hour in 10 11 12 13 14; do
        for number in {1..60}; do printf 'state\t2-%s\toak\t2030-03-04 %s:00-%s:30\t-\tT\t-\tMeeting\n' "$number" "$hour" "$hour"; done | state_of_south
        for number in 1 2 3 4 5 6; do
            # two at once do no harm
            mails_of_south > "$folder/said" 2>&1 &
            other=$!
            perl "$deploy/news/mail.pl" south rooms@south.example > "$folder/said" 2>&1 &
            id=$!
            sleep "0.$(printf %03d $((RANDOM % 250)))"
            kill -9 "$id" 2> /dev/null
            wait "$id" 2> /dev/null
            find "$ROOMS_STATE/south/mail/waiting" -type f ! -name '*.*.*.*' -exec mv --backup=numbered -t "$sent" {} +
        done
        wait "$other"
        mails_of_south
        find "$ROOMS_STATE/south/mail/waiting" -type f ! -name '*.*.*.*' -exec mv --backup=numbered -t "$sent" {} +
    done
    is 'nothing is left half' "$(ls "$ROOMS_STATE/south/mail/waiting")" ''
    is 'each change gives one mail' "$(find "$sent" -type f | wc -l) $(cat "$sent"/* | grep '^Message-ID: ' | sort -u | wc -l)" '300 300'
    is 'and all of them do' "$(cat "$sent"/* | sed -n 's/^Subject: \([A-Z][a-z]*\).*/\1/p' | sort | uniq -c | tr -s ' \n' ' ')" ' 60 Booked 240 Moved '
}

# by hand: cut behind the mail's file, and cut behind the records
mails_half_done() {
    local south=$ROOMS_STATE/south/mail first
    rm -f "$south"/waiting/* "$south/records"
    printf 'state\t2-1\toak\t2030-03-04 10:00-10:30\t-\tT\t-\tMeeting\n' | state_of_south
    printf 'anna@localhost' > "$ROOMS_CALENDARS/south/mail/2-1"
    mails_of_south
    first=$(ls "$south/waiting")
    mv "$south/waiting/$first" "$south/waiting/$first.written"
    mails_of_south
    is 'what the records have is put in its place' "$(ls "$south/waiting")" "$first"
    rm "$south/waiting/$first"
    sed -i 's/ 10:00/ 11:00/' "$ROOMS_STATE/south/news"
    cp "$south/records" "$folder/records"
    mails_of_south
    mv "$south/waiting/${first%1}2" "$folder/second"
    cp "$folder/records" "$south/records"
    cp "$folder/second" "$south/waiting/${first%1}2.written"
    mails_of_south
    is 'what they have not is written again, with the same Message-ID' "$(ls "$south/waiting"; sed -n '/^Message-ID/p' "$south/waiting/"*)" "${first%1}2
$(sed -n '/^Message-ID/p' "$folder/second")"
    printf 'own\t2\t7\t300\tx\tx\n' > "$ROOMS_STATE/south/news"
    mails_of_south
    is 'the requests of another primary are others' "$(ls "$south" | tr '\n' ' ')" 'records.lock waiting '
    rm -f "$south"/waiting/*
}

# ---- handing over

# waits NUMBER ADDRESS: a mail that waits
waits() {
    printf 'To: %s\nSubject: %s\nDate: %s\nMessage-ID: <%s@x>\n\ntext\n' "$2" "$1" "$(date -R)" "$1" > "$ROOMS_STATE/west/mail/waiting/1764536710.1-$1.1"
    chmod 600 "$ROOMS_STATE/west/mail/waiting/1764536710.1-$1.1"
}

# a sendmail that keeps what it gets, takes nothing for `bad`, and for `late` kills who called it
fake_sendmail() {
    cat > "$folder/sendmail" << 'END'
#!/bin/bash
text=$(cat)
to=$(sed -n 's/^To: //p' <<< "$text")
echo "$* $to" >> "$FOLDER/handed"
if [ "$to" = bad@localhost ] && [ ! -e "$FOLDER/good" ]; then echo "sendmail: no way to $to" >&2; exit 75; fi
if [ "$to" = late@localhost ] && [ ! -e "$FOLDER/killed" ]; then touch "$FOLDER/killed"; kill -9 "$(cat "$FOLDER/pid")"; fi
END
    sed -i "s,\$FOLDER,$folder,g" "$folder/sendmail"
    chmod +x "$folder/sendmail"
}

# sends: what rooms-office mail says, and then what the sendmail got
sends() {
    : > "$folder/handed"
    setsid "$office" mail west > "$folder/said" 2>&1 &
    echo $! > "$folder/pid"
    wait $! 2> /dev/null
    cat "$folder/said" "$folder/handed"
}

mails_handed_over() {
    local -x ROOMS_SENDMAIL=$folder/sendmail
    fake_sendmail
    mkdir -p "$ROOMS_STATE/west/mail/waiting"
    waits 1 anna@localhost
    waits 2 bert@localhost
    cp "$ROOMS_STATE/west/mail/waiting/1764536710.1-2.1" "$ROOMS_STATE/west/mail/waiting/1764536710.1-2.2.written"
    is 'mails are handed over' "$(sends)" 'mails sent: 2
-t -i anna@localhost
-t -i bert@localhost'
    is 'once' "$(sends)" ''
    waits 3 bad@localhost
    waits 4 anna@localhost
    is 'one that is refused stays, and the journal has no address' "$(sends)" "a mail about the request 1-3 could not be sent (status 75): sendmail: no way to (an address)
mails sent: 1
-t -i bad@localhost
-t -i anna@localhost"
    held 'the check names it' eval '"$deploy/check/rooms-check" -t west | grep -qx "MAILS COULD NOT BE SENT (journalctl -u rooms-mail@west)"'
    touch "$folder/good"
    is 'it is not tried again at once' "$(sends)" ''
    touch -d '11 minutes ago' "$ROOMS_STATE/west/mail/waiting/1764536710.1-3.1"
    is 'and goes in a later round' "$(sends)" 'mails sent: 1
-t -i bad@localhost'
    rm "$folder/good"
    waits 5 bad@localhost
    sed -i "s/^Date: .*/Date: $(date -R -d '3 days ago')/" "$ROOMS_STATE/west/mail/waiting/1764536710.1-5.1"
    is 'after two days it is given up' "$(sends | sed 1d)" 'it is given up
-t -i bad@localhost'
    for number in 6 7 8 9; do waits "$number" bad@localhost; done
    is 'after three in a row the next round goes on' "$(sends | grep -c '^-t')" 3
    rm "$ROOMS_STATE"/west/mail/waiting/*
    waits 10 late@localhost
    is 'one that was cut when it had been handed over' "$(sends)" '-t -i late@localhost'
    is 'comes once more, with the same Message-ID' "$(sends)" 'mails sent: 1
-t -i late@localhost'
    is 'and no more' "$(sends)" ''
    sed -i 's/^text=/if [ -e "$FOLDER\/slow" ]; then rm "$FOLDER\/slow"; sleep 300 \& echo $! > "$FOLDER\/behind"; fi; &/; s,\$FOLDER,'"$folder,g" "$folder/sendmail"
    touch "$folder/slow"
    waits 11 anna@localhost
    is 'a sendmail that goes on in the background holds up nothing' "$(sends; waits 12 anna@localhost; sends)" 'mails sent: 1
-t -i anna@localhost
mails sent: 1
-t -i anna@localhost'
    kill "$(cat "$folder/behind")"
    waits 13 anna@localhost
    is 'without a sendmail' "$(ROOMS_SENDMAIL=$folder/none "$office" mail west 2>&1)" 'rooms-office: mails wait, and there is no sendmail'
    rm "$ROOMS_STATE"/west/mail/waiting/*
}

# ---- through a real MTA

# exim_conf NAME ROUTER TRANSPORT: a configuration of exim with folders of its own, where its user reaches them
exim_conf() {
    mkdir -p "$post/$1" && chown mail:mail "$post/$1"
    printf '%s\n' 'primary_hostname = localhost' "spool_directory = $post/$1" "log_file_path = $post/$1/%slog" "pid_file_path = $post/$1/pid" \
        'exim_user = mail' 'exim_group = mail' 'keep_environment =' 'local_interfaces = 127.0.0.1' "daemon_smtp_ports = $((ports + 8))" 'acl_smtp_rcpt = accept' 'tls_advertise_hosts =' \
        'begin routers' 'all:' "$2" 'begin transports' 'all:' "$3" 'begin retry' '* * F,1m,1s' > "$post/$1.conf"
}

# an_mta: one exim takes mails by SMTP into a mailbox; another one, which is the sendmail, hands them to it
an_mta() {
    post=$(mktemp -d)
    chmod 755 "$post"
    mkdir -p "$post/box" && chown mail:mail "$post/box"
    exim_conf in '  driver = accept
  transport = all' "  driver = appendfile
  file = $post/box/box
  user = mail
  group = mail
  return_path_add = true"
    exim_conf out '  driver = manualroute
  route_list = * 127.0.0.1 byname
  self = send
  transport = all' "  driver = smtp
  port = $((ports + 8))
  allow_localhost = true"
    printf '#!/bin/sh\nexec exim4 -C %s -odf "$@"\n' "$post/out.conf" > "$post/mta"
    chmod +x "$post/mta"
    exim4 -C "$post/in.conf" -bdf -odf > "$post/exim" 2>&1 &
    serving+=($!)
    reached 'exim does not listen' 20 taken $((ports + 8))
}

# in_the_box LINE: such a one came, once the mails that wait are handed over
in_the_box() {
    "$office" mail west > "$folder/said" 2>&1
    [ -e "$post/box/box" ] && python3 -B "$deploy/tests/mail_read.py" "$post/box/box" | grep -x -- "$1" > /dev/null
}

mails_through_an_mta() {
    local post json='{"room":"oak","day":"2030-03-04","start":"13:30","length":60,"title":"."}' subject='., oak, Mon 2030-03-04, 13:30 to 14:30'
    an_mta
    local -x ROOMS_SENDMAIL=$post/mta
    sed -i 's/^STRETCH=.*/STRETCH=2/; s/^MAIL_FROM=.*/MAIL_FROM=desk@localhost/' "$ROOMS_ETC/west.conf"
    "$office" serve west > "$folder/west.log" 2>&1 &
    serving+=($!)
    held 'the page asks for addresses' until_held 60 grep -q '"mail":true' "$ROOMS_CALENDARS/west/status.json"
    held 'a request' until_held 60 curl -s -f -m 30 --cacert "$ROOMS_ETC/west.crt" -u bookers:bookers -d "$json" "https://localhost:$((ports + 1))/submit"
    through 'an address' 201 bookers /mail/1-1 -T - <<< anna@localhost
    held 'the mail comes' until_held 60 in_the_box "anna@localhost: Final: $subject | PUBLISH CONFIRMED 20300304T133000 [01]"
    held 'a cancel' until_held 60 curl -s -f -m 30 --cacert "$ROOMS_ETC/west.crt" -u bookers:bookers -d '{"room":"oak","id":"1-1"}' "https://localhost:$((ports + 1))/cancel"
    held 'its mail comes' until_held 60 in_the_box "anna@localhost: Cancelled: $subject | CANCEL CANCELLED 20300304T133000 [12]"
    is 'with the text behind a line that is a dot' "$(python3 -B "$deploy/tests/mail_read.py" -t "$post/box/box" | grep -c '^Request 1-1, Rooms of west. .* tell the desk.$')" 2
    is 'from the address of the settings' "$(grep -c '^From: "Rooms of west" <desk@localhost>$' "$post/box/box")" "$(grep -c '^Message-ID: ' "$post/box/box")"
    is 'nothing twice' "$(grep '^Message-ID: ' "$post/box/box" | sort | uniq -d)" ''
    held 'it is forgotten then' until_held 60 eval '! grep -q anna "$ROOMS_STATE/west/mail/records"'
    is 'no log has the address' "$(grep -l anna "$folder/west.log" "$deploy_scratch/access.log" "$deploy_scratch"/nginx/* 2> /dev/null)" ''
    stop_serving
    through 'another address' 201 bookers /mail/1-1 -T - <<< anna@localhost
    sed -i 's/^MAIL=.*/MAIL=maybe/' "$ROOMS_ETC/west.conf"
    is 'a setting that is none' "$("$office" serve west 2>&1)" "rooms-office: MAIL in $ROOMS_ETC/west.conf is yes or no, not 'maybe'"
    sed -i 's/^MAIL=.*/MAIL=no/' "$ROOMS_ETC/west.conf"
    "$office" serve west > "$folder/west.log" 2>&1 &
    serving+=($!)
    held 'an office that wants none does not ask' until_held 60 grep -q '"mail":false' "$ROOMS_CALENDARS/west/status.json"
    is 'and forgets them' "$(find "$ROOMS_STATE/west/mail" "$ROOMS_CALENDARS/west/mail" -type f 2> /dev/null)" ''
    stop_serving
    sed -i 's/^MAIL=.*/MAIL=yes/' "$ROOMS_ETC/west.conf"
    ROOMS_SENDMAIL=$folder/none "$office" serve west > "$folder/west.log" 2>&1 &
    serving+=($!)
    held 'an office without an MTA does not ask either' until_held 60 eval '[ "$ROOMS_CALENDARS/west/status.json" -nt "$ROOMS_ETC/west.conf" ] && grep -q "\"mail\":false" "$ROOMS_CALENDARS/west/status.json"'
    stop_serving
}

run_mail() {
    deploy_begin
    if missing 'mails' curl openssl nginx flock perl python3 zdump; then return; fi
    local folder=$deploy_scratch/mail office=$deploy/systemd/rooms-office north
    deploy_offices
    local -x LC_ALL=C
    north=$ROOMS_STATE/north/rooms.db
    mkdir -p "$folder" "$ROOMS_STATE"/{north,south} "$ROOMS_CALENDARS"/{north,south}/mail
    printf '{"office": "Offices of the north", "zone": "Europe/Berlin", "rooms": [{"name": "oak", "label": "Oak, 2nd floor"}]}\n' > "$ROOMS_ETC/north.rooms.json"
    "$program" init "$north" 2 1 > /dev/null
    "$program" add-room "$north" oak > /dev/null
    mail_round
    mails_by_hand
    what_mails_say
    odd_addresses
    odd_texts
    mails_that_are_cut
    mails_half_done
    mails_handed_over
    if missing 'mails through an MTA' exim4; then return; fi
    if [ "$(id -u)" != 0 ]; then echo 'skipped: mails through an MTA (not root)'; return; fi
    start_nginx
    mails_through_an_mta
    stop_nginx
}
