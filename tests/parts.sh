# Which parts the tests on the built program have. Each is a function run_NAME of one of the files that are sourced here; behind the name stands how many
# seconds it takes by itself, about: the longest begins first, and one that takes ten times as long, and five minutes more, is broken off.

PARTS='
examples 10
readme 30
generated 10
worlds 200
large 90
words 2
rooms_script 10
release 10
released 5
bare_system 90
any_kit 20
lanes 15
kept_edits 5
side_by_side 10
lines 10
files 10
outputs 5
streams 10
databases 20
commands 60
hostile_rows 20
contradicting 10
turned_cells 60
kept 5
moved 90
turned 150
strangers 30
hostile_hands 100
sockets 30
faults 150
failed_disk 30
questions 120
refused_memory 200
refused_memory_of_tests 100
http 60
exchanging 30
other_build 20
deploy_texts 60
front 90
courier 20
news 120
mail 120
poor_lines 120
poor_week 100
offices 90
proxy 60
page 150
doors 60
anyroom 45
report 40
looking 40
languages 200
many 180
told 180
'
# how many ports each part has for itself, of those from FIRST_PORT to 20000; from there on worlds has its own
FIRST_PORT=10000
export PORTS_OF_PART=300
# GiB of memory that a part may take, by which fewer run at once
MEMORY_OF_PART=1

source_parts() {
    . tests/lib.sh
    . tests/scripts/scripts.sh
    . tests/lines/lines.sh
    . tests/oracle/worlds.sh
    . tests/http/http.sh
    . tests/documents/readme.sh
    . deploy/tests/deploy.sh
    . tests/files/databases.sh
    . tests/files/commands.sh
    . tests/files/hostile_rows.sh
    . tests/files/contradicting.sh
    . tests/files/kept.sh
    . tests/files/moved.sh
    . tests/hostile/hostile.sh
    . tests/other_build.sh
    . tests/tools/rooms_script.sh
    . tests/tools/release_script.sh
    . tests/tools/bare_system.sh
    . tests/tools/tools.sh
    . tests/tools/side_by_side.sh
}

names_of_parts() { sed -n 's/ [0-9]*$//p' <<< "$PARTS"; }

# seconds_of NAME: how many the part takes; status 1 where there is no such part
seconds_of() { sed -n "s/^$1 \([0-9]*\)\$/\1/p" <<< "$PARTS" | grep .; }
