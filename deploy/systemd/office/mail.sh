# rooms-office mail: the mails that mail.pl wrote are handed to this machine's sendmail. Read by rooms-office, whose functions and variables
# are used here.
#
# A mail is handed over, and then its file goes: where this is cut between the two it is handed over once more, with the same Message-ID. To lose one
# would be worse: somebody would stand before a taken room.

# send_one SENDMAIL FILE: what sendmail says goes to the journal, but for addresses. What it leaves in the background holds nothing of ours.
send_one() {
    local text status
    timeout 60 "$1" -t -i < "$2" > "$said" 2>&1 8<&-
    status=$?
    if [ "$status" = 0 ]; then
        rm -f -- "$2"
        return
    fi
    text=$(head -n 1 -- "$said" | sed -E 's/[^[:space:]<>"]*@[^[:space:]<>"]*/(an address)/g')
    echo "a mail about the request $(cut -d . -f 2 <<< "${2##*/}") could not be sent (status $status)${text:+: $text}"
    return 1
}

# Mails that could not be sent are tried again after ten minutes (by then nobody may write their files: so they are known), and given up after two
# days; after three in a row the next round goes on.
send_mails() {
    local sendmail folder=$state/mail/waiting file said failed=0 sent=0
    if [ -z "$(find "$folder" -maxdepth 1 -type f -print -quit 2> /dev/null)" ]; then return; fi
    # the folder itself is locked, so that root leaves no file behind
    exec 8< "$folder" || exit 1
    flock -n 8 || return 0
    sendmail=$(mailer) || fail "mails wait, and there is no sendmail"
    said=$(mktemp) || exit 1
    # shellcheck disable=SC2064
    trap "rm -f -- '$said'" EXIT
    while read -r _ file; do
        if [ "$failed" = 3 ]; then break; fi
        if send_one "$sendmail" "$folder/$file"; then
            sent=$((sent + 1))
            failed=0
        else
            failed=$((failed + 1))
            give_up "$folder/$file"
        fi
    done < <(find "$folder" -maxdepth 1 -type f ! -name '*.*.*.*' \( -perm 600 -o -mmin +9 \) -printf '%T@ %f\n' | sort -n)
    [ "$sent" = 0 ] || echo "mails sent: $sent"
    [ "$failed" = 0 ]
}

# give_up FILE: its Date says when it was written
give_up() {
    local written
    written=$(date -d "$(sed -n 's/^Date: //p;/^$/q' "$1")" +%s 2> /dev/null) || written=0
    if [ $(($(date +%s) - written)) -gt 172800 ]; then
        echo 'it is given up'
        rm -f -- "$1"
    else
        touch -- "$1"
        chmod 400 -- "$1"
    fi
}
