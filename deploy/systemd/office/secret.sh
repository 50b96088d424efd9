# rooms-office secret: an address of the calendars for programs that can't send a password. Read by rooms-office, whose functions and variables are
# used here.
#
# The secret is the name of a link in /etc/rooms/NAME.feeds to the folder of the calendars: the proxy hands out calendars alone from there, to
# whoever has the address. A new one takes the place of the old one, which leads nowhere from then on.

secret() {
    local feeds=$etc/$name.feeds port old
    [ -w "$etc" ] || fail "you may not write $etc: call this as root"
    case ${1-} in '' | new | none) ;; *) words 'secret NAME, with new to renew it, or none to end it' ;; esac
    old=$(find "$feeds" -mindepth 1 -maxdepth 1 -type l -printf '%f\n' 2> /dev/null | head -n 1)
    if [ -n "${1-}" ]; then rm -rf -- "$feeds"; old=''; fi
    if [ "${1-}" = none ]; then
        echo "$name has no secret address any more"
        return
    fi
    if [ -z "$old" ]; then
        old=$(od -An -N16 -tx1 /dev/urandom | tr -d ' \n')
        [[ $old =~ ^[0-9a-f]{32}$ ]] || fail 'there is no /dev/urandom that can be read'
        install -d -m 750 -- "$feeds" || exit 1
        if getent group www-data > /dev/null && [ "$(id -u)" = 0 ]; then chgrp www-data "$feeds"; fi
        ln -s -- "$cache" "$feeds/$old" || exit 1
    fi
    port=$(sed -n 's/^ *listen \([0-9]*\) ssl;.*/\1/p' "$etc/$name.nginx" 2> /dev/null | head -n 1)
    echo "https://$(hostname):${port:-443}/secret/$old/all_rooms.ics"
    echo "https://$(hostname):${port:-443}/secret/$old/ROOM.ics, with the name of a room"
}
