# shellcheck shell=bash disable=SC2154,SC2034
# The other offices that an office meets: those that its courier calls (PEERS in the settings) and those that call it, of whom the proxy keeps a
# file each. Read by rooms-office and rooms-check, whose variables PEERS, state and cache (folders) are used here.

# split_peer ENTRY: an entry of PEERS, `[NAME=]URL [FILE]`, in $peer (empty where it has no name), $url and $options
split_peer() {
    read -r url options <<< "$1"
    peer=''
    if [[ $url =~ ^([A-Za-z0-9._-]+)=(.*)$ ]]; then
        peer=${BASH_REMATCH[1]}
        url=${BASH_REMATCH[2]}
    fi
}

# host_of URL: with its port where it is on this machine
host_of() {
    local host=${1#*://}
    host=${host%%/*}
    case $host in localhost:* | 127.0.0.1:*) echo "$host" ;; *) echo "${host%%:*}" ;; esac
}

# named_peers: each peer as NAME=URL; one without a name has that of its host
named_peers() {
    local entry peer url options
    for entry in ${PEERS[@]+"${PEERS[@]}"}; do
        split_peer "$entry"
        echo "${peer:-$(host_of "$url")}=$url"
    done
}

# callers: each office that called this one, and when last, in seconds
callers() { find "$cache/callers" -maxdepth 1 -type f -printf '%f %T@\n' 2> /dev/null | sed 's/\.[0-9]*$//' | sort; }

# peer_met URL: when the courier last went through, in seconds, or 0
peer_met() {
    { sed 's/^/met /' "$state/peers.met"; sed 's/^/tried /' "$state/carried"; } 2> /dev/null | awk -v url="$1" '
        $1 == "met" && $2 == url && $3 > at { at = $3 }
        $1 == "tried" && $4 == url && $3 == 0 && $2 > at { at = $2 }
        END { print at + 0 }'
}

# unmet HOURS: the names of the other offices that were not met for so many hours
unmet() {
    local since=$(($(date +%s) - $1 * 3600)) other address at
    named_peers | while IFS='=' read -r other address; do
        if [ "$(peer_met "$address")" -lt "$since" ]; then echo "$other"; fi
    done
    callers | while read -r other at; do
        if [ "$at" -lt "$since" ]; then echo "$other"; fi
    done
}
