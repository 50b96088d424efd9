# rooms-office watch: whoever looks after an office is told what went wrong, once, and once more when it is well. Read by rooms-office, whose
# functions and variables are used here.
#
# The file `watched` has a line for each trouble: since when, whether it was told, what it is about, and its words, with tabs between.

# troubles: each that there is now, as what it is about and its words, without numbers that change by themselves
troubles() {
    "${ROOMS_CHECK:-rooms-check}" -t "$name" | sed -E 's/ \([^()]* ago\)$//; s/[0-9]+ (s|min|h|MB|days)\b/N \1/g' |
        sed -E 's/^(PEER [^ ]*):? (.*)$/\1\t\1 \2/; t; s/^(.*)$/\1\t\1/'
}

# tell TEXT: by the hook of the office, or by mail, or in the journal alone
tell() {
    local subject="rooms $name: ${1%%$'\n'*}" sendmail
    echo "$1"
    if [ -x "$etc/$name.tell" ]; then
        timeout 60 "$etc/$name.tell" "$subject" <<< "$1"
        return
    fi
    sendmail=$(mailer) || return 0
    printf 'To: %s\nSubject: %s\nAuto-Submitted: auto-generated\nContent-Type: text/plain; charset=utf-8\n\n%s\n' \
        "$MAIL_TO" "${subject:0:200}" "$1" | timeout 60 "$sendmail" -t
}

# what is to be told, and the lines of `watched` as they are once it has been
compare_troubles() {
    awk -F '\t' -v OFS='\t' -v now="$(date +%s)" -v after="${ROOMS_AFTER:-240}" -v list="$1" '
        FILENAME == ARGV[1] { since[$3 FS $4] = $1; told[$3 FS $4] = $2; if ($2) was[$3] = $4; next }
        { is[$1] = 1; key = $1 FS $2 }
        key in told { if (!told[key] && now - since[key] >= after) { print "trouble: " $2; told[key] = 1 } print since[key], told[key], $1, $2 > list; next }
        after <= 0 { print "trouble: " $2; print now, 1, $1, $2 > list; next }
        { print now, 0, $1, $2 > list }
        END {
            for (about in was) {
                if (!(about in is)) print "well again: " (about ~ /^PEER / ? substr(about, 1, length(about) - 1) : about)
                # what was told of a peer before stays told while anything is wrong with it
                else for (key in told) if (told[key] && index(key, about FS) == 1) print since[key], 1, key > list
            }
        }' "$state/watched" -
}

watch() {
    local text list
    exec 8>> "$state/watched" || exit 1
    flock 8
    list=$(mktemp) || exit 1
    # shellcheck disable=SC2064
    trap "rm -f -- '$list'" EXIT
    text=$(troubles | compare_troubles "$list" | sort -u)
    # where nobody could be told, all is as before, and it is tried again
    if [ -n "$text" ]; then tell "$text" || fail "nobody could be told: $text"; fi
    sort -u -- "$list" > "$state/watched" || exit 1
}
