# The release on a Debian that has git and nothing else, made by debootstrap: a clone prints its first sheet within five seconds, and the package
# can be installed. ./test sources this file; the functions of tests/lib.sh and the variables of ./test are used here.

# why this can't be tried here; nothing where it can
no_bare_system() {
    if [ ! -f release/release.txt ] || [ "$(sed -n 's/^sources //p' release/release.txt)" != "$(tools/sum_of_sources | cut -c1-64)" ]; then
        echo 'there is no release of these sources'
    elif ! command -v debootstrap > /dev/null; then
        echo 'no debootstrap'
    elif [ "$(id -u)" != 0 ]; then
        echo 'not as root'
    elif ! git rev-parse --git-dir > /dev/null 2>&1 || [ -n "$(git status --porcelain)" ]; then
        echo 'the folder is no clone without changes'
    elif ! debootstrap --variant=minbase --include=git bookworm "$bare" > "$scratch/debootstrap" 2>&1; then
        echo 'debootstrap made no system'
    fi
}

run_bare_system() {
    local bare=$scratch/bare name='the release in a bare system' why began
    why=$(no_bare_system)
    if [ -n "$why" ]; then
        echo "skipped: $name ($why)"
        return
    fi
    git clone --quiet --bare . "$bare/given"
    began=$(date +%s%N)
    chroot "$bare" /bin/sh -c 'git clone --quiet /given /yavrumni && /yavrumni/rooms rehearse /yavrumni/examples/one_booking.script' \
        > "$scratch/out" 2> "$scratch/err"
    told "$name" $? 0 examples/one_booking.expected
    echo "$((($(date +%s%N) - began) / 1000000)) ms from the clone to the sheet in a bare system"
    if [ $((($(date +%s%N) - began) / 1000000000)) -lt 5 ]; then
        passed=$((passed + 1))
    else
        echo "FAILED: $name: five seconds"
        failed=$((failed + 1))
    fi
    chroot "$bare" /bin/sh -c 'apt-get install -y --no-install-recommends /yavrumni/release/rooms_*.deb' > "$scratch/out" 2>&1 || cat -- "$scratch/out"
    chroot "$bare" rooms rehearse /yavrumni/examples/one_booking.script > "$scratch/out" 2> "$scratch/err"
    told 'the package in a bare system' $? 0 examples/one_booking.expected
}
