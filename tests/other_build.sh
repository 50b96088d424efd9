# The program as Rattle's own compiler builds it, which the gate makes beside LLVM's and runs on one script: the scripts whose commands go without
# memory, on databases; a database of the first schema that moves up; and requests over HTTP. tests/part sources this file; the functions of
# tests/lib.sh, tests/http/http.sh, tests/files/commands.sh and tests/files/kept.sh and the variables of tests/part are used here.

# it moves the kept database up, which LLVM's build then finds as it has to be
run_other_kept() {
    local database=$scratch/other/first.sqlite
    cp -- tests/files/kept/first.sqlite "$database"
    "$program" position "$database" > "$scratch/out" 2> "$scratch/err" < /dev/null
    local status=$?
    printf 'mp2 7 3\nK 6\nV 3 3\nV 7 6\nE\n' > "$scratch/wanted"
    told 'the other build moves a database up' "$status" 0 "$scratch/wanted"
    shows "$database" "$scratch/kept/replies"
}

# a submission, what became of it, and the same submission again
run_other_served() {
    local database=$scratch/other/served.db line=$'\n'
    local body='{"day":"1995-12-18","length":60,"room":"oak","start":"13:30","title":"Budget Meeting"}'
    if ! command -v curl > /dev/null; then
        echo 'skipped: the other build over HTTP (no curl)'
        return
    fi
    expect_line 'init for the other build' 0 'ok' init "$database" 1 1
    expect_line 'add-room for the other build' 0 'ok' add-room "$database" oak
    serve "$database" 3
    asked 'the other build: a submission' 200 '{"day":"1995-12-18","id":"1-1","mark":"T","start":"13:30","state":"booked","stop":"14:30"}' \
        /submit --data-binary "$body"
    asked 'the other build: its sheet' 200 "oak 1995-12-18 Monday${line}13:30-14:30 T 1-1 Budget Meeting${line}" /rooms/oak/days/1995-12-18
    asked 'the other build: the submission again' 200 '{"id":"1-2","mark":"T","state":"logged"}' /submit --data-binary "$body"
    served 'the lines of the other build' 200 200 200
}

run_other_build() {
    local program=$program.by-rattle script
    if not_gated 'the program as the other compiler builds it'; then return; fi
    if [ ! -x "$program" ]; then
        echo 'FAILED: there is no program that Rattle'"'"'s own compiler built'
        failed=$((failed + 1))
        return
    fi
    mkdir -p "$scratch/other" "$scratch/commands"
    kept_files
    run_other_kept
    run_other_served
    if ! command -v python3 > /dev/null; then
        echo 'skipped: scripts on databases, by the other build (no python3)'
        return
    fi
    for script in tests/scripts/{equal_times,chain,dropped_commits,cancel_of_moved,cancel_and_rebook}.script examples/commit_reorders.script; do
        on_databases "$script on databases, by the other build" "$script" "${script%.script}.expected"
    done
}
