# What `./rooms` does with a release in release/: it takes the program of these very sources, and of no others, whole and as it was recorded, or else says
# in one line why not, and goes on to build. ./test sources this file; the functions of tests/lib.sh and of rooms_script.sh are used here.

# archive FILE..: the files as an archive of `ar`, in which a Debian package lies
archive() {
    local file
    printf '!<arch>\n'
    for file in "$@"; do
        printf '%-16s%-12s%-6s%-6s%-8s%-10s`\n' "$(basename "$file")" 0 0 0 100644 "$(wc -c < "$file")"
        cat -- "$file"
        if [ $(($(wc -c < "$file") % 2)) = 1 ]; then echo; fi
    done
}

# pack PROGRAM: a package of this program as the release of the small repository, with its facts
pack() {
    local tree=$scratch/pack
    rm -rf -- "$tree" "$small/release"
    mkdir -p "$tree/usr/lib/rooms" "$small/release"
    cp -- "$1" "$tree/usr/lib/rooms/rooms"
    (cd "$tree" && tar -czf data.tar.gz ./usr && echo 'Package: rooms' > control && tar -czf control.tar.gz ./control && echo 2.0 > debian-binary)
    archive "$tree/debian-binary" "$tree/control.tar.gz" "$tree/data.tar.gz" > "$small/release/rooms_1_all.deb"
    {
        echo "sources $("$small/tools/sum_of_sources" | cut -c1-64)"
        echo "machine $(uname -m)"
        echo 'libraries libc6'
        echo "program $(sha256sum < "$1" | cut -c1-64)"
        echo 'package rooms_1_all.deb'
        echo "package-sha256 $(sha256sum < "$small/release/rooms_1_all.deb" | cut -c1-64)"
    } > "$small/release/release.txt"
    rm -rf -- "$small/crates/rooms/out"
}

# record FACT VALUE: as if this had been recorded
record() {
    sed -i "s/^$1 .*/$1 $2/" "$small/release/release.txt"
}

# refused_release NAME WORDS: `./rooms` says these words of the release, runs nothing, and leaves nothing but the lock of builds
refused_release() {
    rm -rf -- "$small/crates/rooms/out"
    small "$1" 4
    said_of_release "$1, told" "$2"
    printf 'build.lock\n' > "$scratch/wanted"
    ls "$small/crates/rooms/out" > "$scratch/out" 2> /dev/null
    told "$1, and nothing is left" 0 0 "$scratch/wanted"
}

# said_of_release NAME WORDS: these words stand in a line on standard error, and the release in no other
said_of_release() {
    if [ "$(grep -c 'release' "$scratch/err")" = 1 ] && grep -q -- "$2" "$scratch/err"; then
        passed=$((passed + 1))
    else
        echo "FAILED: $1:"
        cat -- "$scratch/err"
        failed=$((failed + 1))
    fi
}

# quiet NAME: nothing stands on standard error
quiet() {
    : > "$scratch/wanted"
    same "$1" "$scratch/err" "$scratch/wanted"
}

run_release() {
    local small=$scratch/released kept=$scratch/kept_release tools tool
    if PATH=/usr/bin:/bin command -v rt > /dev/null; then
        echo 'skipped: a release of a small repository (rt is in /usr/bin)'
        return
    fi
    make_small "$small"
    cp tools/take_release "$small/tools"
    # shellcheck disable=SC2016
    printf '#!/bin/sh\nif [ "$1" = - ]; then echo "bad command line"; exit 2; fi\necho "ran $*"\n' > "$scratch/released_program"
    pack "$scratch/released_program"
    small 'a release of these sources' 0
    said_of_release 'what was taken is told' 'taken from release/'
    small 'the same again' 0
    quiet 'what was taken is told once'
    rm -rf -- "$small/crates/rooms/out"
    for tool in one two; do
        PATH=/usr/bin:/bin "$small/rooms" position a.db > "$scratch/$tool.out" 2> "$scratch/$tool.err" < /dev/null &
    done
    wait
    cat "$scratch/one.err" "$scratch/two.err" > "$scratch/err"
    said_of_release 'of two calls at once one takes it' 'taken from release/'
    cat "$scratch/one.out" "$scratch/two.out" > "$scratch/out"
    printf 'ran position a.db\nran position a.db\n' > "$scratch/wanted"
    told 'two calls at once' 0 0 "$scratch/wanted"

    # a folder of few programs, without dpkg-deb
    rm -rf -- "$small/crates/rooms/out"
    tools=$scratch/few
    mkdir "$tools"
    for tool in sh cat chmod cmp cut date dirname env find flock grep gzip head ls mkdir mktemp mv readlink rm sed sha256sum sort tail tar tr uname wc xargs bash perl; do
        if command -v "$tool" > /dev/null; then ln -s "$(command -v "$tool")" "$tools/$tool"; fi
    done
    echo 'ran position a.db' > "$scratch/wanted"
    PATH=$tools "$small/rooms" position a.db > "$scratch/out" 2> "$scratch/err" < /dev/null
    told 'a release without dpkg-deb' $? 0 "$scratch/wanted"

    cp -r "$small/release" "$kept"
    printf 'x' | dd of="$small/release/rooms_1_all.deb" bs=1 seek=200 conv=notrunc 2> /dev/null
    refused_release 'a turned byte in the package' "isn't whole, or another one"
    rm -rf -- "$small/release" && cp -r "$kept" "$small/release"
    record package-sha256 "$(sha256sum < /dev/null | cut -c1-64)"
    refused_release 'another sum of the package' "isn't whole, or another one"
    rm -rf -- "$small/release" && cp -r "$kept" "$small/release"
    record program "$(sha256sum < /dev/null | cut -c1-64)"
    refused_release 'another sum of the program' 'its program is another one'
    rm -rf -- "$small/release" && cp -r "$kept" "$small/release"
    head -c 300 "$kept/rooms_1_all.deb" > "$small/release/rooms_1_all.deb"
    refused_release 'a package that is cut' "isn't whole, or another one"
    record package-sha256 "$(sha256sum < "$small/release/rooms_1_all.deb" | cut -c1-64)"
    refused_release 'one that was recorded cut' 'its package has no program'
    rm -rf -- "$small/release" && cp -r "$kept" "$small/release"
    record machine vax
    refused_release 'another type of machine' 'for a machine of type vax'
    rm -rf -- "$small/release" && cp -r "$kept" "$small/release"
    rm "$small/release/rooms_1_all.deb"
    refused_release 'no package' 'there is no file rooms_1_all.deb'
    printf '#!/bin/sh\nexit 127\n' > "$scratch/released_program"
    pack "$scratch/released_program"
    refused_release 'a program that does not run here' "doesn't run on this machine"
    rm -rf -- "$small/release" && cp -r "$kept" "$small/release"
    echo more > "$small/crates/rooms/src/more.rt"
    small 'a release of other sources' 4
    if grep -q 'release' "$scratch/err"; then
        echo 'FAILED: a release of other sources is passed over'
        failed=$((failed + 1))
    else
        passed=$((passed + 1))
    fi
}

# the program that the gate built is that of the release, byte for byte, where the release is of these sources and the toolchain is the recorded one
run_released() {
    local facts=release/release.txt name='the bytes of the released program'
    if [ ! -f "$facts" ]; then
        echo "skipped: $name (there is no release)"
    elif [ "$(sed -n 's/^sources //p' "$facts")" != "$(tools/sum_of_sources | cut -c1-64)" ]; then
        echo "skipped: $name (the release is of other sources)"
    elif [ "$(sed -n 's/^toolchain //p' "$facts")" != "$(rt version)" ]; then
        echo "skipped: $name (the release was built by another toolchain)"
    else
        sed -n 's/^built //p' "$facts" > "$scratch/wanted"
        sha256sum < "$program" | cut -c1-64 > "$scratch/out"
        told "$name" 0 0 "$scratch/wanted"
    fi
}
