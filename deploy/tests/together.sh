# Two offices as they are run, with nginx before both, the courier between them and browsers at their pages. Read by deploy.sh, whose functions and
# variables are used here.

# told_offices: west and east in short stretches; east calls west over a line that together.py cuts and heals
told_offices() {
    local name office=$deploy/systemd/rooms-office
    held 'west lets east call' "$office" user east west.offices <<< east
    printf 'user = "east:east"\ncacert = "%s"\n' "$ROOMS_ETC/west.crt" > "$ROOMS_ETC/east.west.curl"
    for name in west east; do sed -i 's/^STRETCH=.*/STRETCH=3/' "$ROOMS_ETC/$name.conf"; done
    sed -i "s,^PEERS=.*,PEERS=('west=https://localhost:$((ports + 4)) $ROOMS_ETC/east.west.curl')," "$ROOMS_ETC/east.conf"
}

told_at_the_desks() {
    local folder=$deploy_scratch/together line
    mkdir -p "$folder"
    timeout --foreground 1500 python3 -B "$deploy/tests/together.py" "$deploy/systemd/rooms-office" "$ports" "$folder" "${DEPLOY_PICTURES:-$folder}" \
        > "$folder/lines" 2>&1
    is 'the test together.py ends' "$?" 0
    while IFS= read -r line; do
        case $line in
            ok*) passed=$((passed + 1)) ;;
            *)
                echo "$line"
                failed=$((failed + 1))
                ;;
        esac
    done < "$folder/lines"
    held 'the check of the called office knows its caller' eval '"$deploy/check/rooms-check" west | grep -qE "; east called [0-9]+ (s|min) ago"'
}

run_told() {
    deploy_begin
    if missing 'two offices and their desks' curl openssl nginx flock perl python3 chromium chromedriver; then return; fi
    deploy_offices
    told_offices
    start_nginx
    told_at_the_desks
    stop_nginx
}
