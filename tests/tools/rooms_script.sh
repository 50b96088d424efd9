# What `./rooms` at the top does before it hands its words on: it runs no program of other sources than those that are there, whatever time a
# changed file shows. tests/part sources this file; the functions of tests/lib.sh and the variables of tests/part are used here.

# small NAME STATUS: `./rooms` of the small repository ends so; where the status is 0, its program ran
small() {
    printf '%s' "$([ "$2" != 0 ] || echo "ran position a.db")" > "$scratch/wanted"
    if [ "$2" = 0 ]; then echo >> "$scratch/wanted"; fi
    # no `rt` is found there, so that nothing is built
    PATH=/usr/bin:/bin "$small/rooms" position a.db > "$scratch/out" 2> "$scratch/err" < /dev/null
    told "$1" $? "$2" "$scratch/wanted"
}

# make_small FOLDER: a small repository with one crate, and no build
make_small() {
    mkdir -p "$1/tools" "$1/deploy" "$1/crates/rooms/src" "$1/crates/rooms/specs" "$1/crates/rooms/proofs"
    cp rooms HANDLES crates.txt "$1"
    cp tools/sum_of_sources "$1/tools"
    cp -r deploy/front "$1/deploy"
    echo one > "$1/crates/rooms/src/main.rt"
}

# a small repository with a program that prints its words
run_rooms_script() {
    local small=$scratch/small file word
    if PATH=/usr/bin:/bin command -v rt > /dev/null; then
        echo 'skipped: ./rooms of a small repository (rt is in /usr/bin)'
        return
    fi
    file=$small/crates/rooms/src/main.rt
    make_small "$small"
    mkdir "$small/crates/rooms/out"
    # shellcheck disable=SC2016
    printf '#!/bin/sh\necho "ran $*"\n' > "$small/crates/rooms/out/rooms"
    chmod +x "$small/crates/rooms/out/rooms"
    small 'no sum of what was built' 4
    for word in --help -h help --version 'sheet --help'; do
        # shellcheck disable=SC2086
        PATH=/usr/bin:/bin "$small/rooms" $word > "$scratch/out" 2> "$scratch/err" < /dev/null
        helped "$word without a build" $?
    done
    cp "$file" "$scratch/main.rt"
    SECONDS=0
    "$small/tools/sum_of_sources" > "$small/crates/rooms/out/rooms.sum"
    small 'a build of these sources' 0
    # (a busy machine may take longer than what counts as just now)
    if [ "$SECONDS" -lt 2 ]; then gone 'what was changed just now is looked at anew' "$small/crates/rooms/out/rooms.seen"; fi
    sleep 3
    small 'the same a little later' 0
    held_file 'what was seen is kept' "$small/crates/rooms/out/rooms.seen"
    small 'the same again' 0
    touch -r "$file" "$scratch/time"
    echo two > "$file"
    touch -r "$scratch/time" "$file"
    small 'a change that has the time of before' 4
    cp -p "$scratch/main.rt" "$file"
    touch -r "$scratch/time" "$file"
    small 'the file as it was' 0
    cp "$file" "$small/crates/rooms/src/more.rt"
    small 'a file more' 4
    rm "$small/crates/rooms/src/more.rt"
    small 'without it' 0
    mv "$file" "$small/crates/rooms/src/other.rt"
    small 'another name' 4
    mv "$small/crates/rooms/src/other.rt" "$file"
    small 'its name again' 0
    sleep 3
    small 'and once it was seen' 0
    rm "$small/crates/rooms/out/rooms.sum"
    small 'no sum' 4
}

# held_file NAME FILE: there is such a file, and it isn't empty
held_file() {
    if [ -s "$2" ]; then
        passed=$((passed + 1))
    else
        echo "FAILED: $1: there is no $2"
        failed=$((failed + 1))
    fi
}
