# The commands of README.md up to 'What is proved', typed in in order in a folder of their own: each prints what stands behind `#`
# beside it and below it; and those of docs/OPERATING.md (tests/documents/documents.py); what
# documents link to, name and count is there (tests/documents/counted.py). tests/part sources this file; the functions of tests/lib.sh and tests/http/http.sh and the variables of tests/part are used here.

# typed FOLDER COMMAND WANTED: the command of the document prints this; another port takes the place of 8080, and what serves goes on behind
typed() {
    local folder=$1 command=$2 wanted=$3 out
    case $command in
        './rooms serve '*)
            read -r -a out <<< "$command"
            serve "$folder/${out[2]}" "${out[4]}"
            return ;;
        './rooms init '*' && ./rooms add-room '*)
            wanted=${wanted:-$'ok\nok'} ;;
        curl\ *)
            command="curl -sS -m 30 ${command#curl }" ;;
    esac
    out=$(cd -- "$folder" && bash -c "${command//:8080/:$port}" 2>&1 < /dev/null)
    if [ "$out" = "$wanted" ]; then
        passed=$((passed + 1))
    else
        printf 'FAILED: README.md: %s\nprinted:\n%s\nwanted:\n%s\n' "$command" "$out" "$wanted"
        failed=$((failed + 1))
    fi
}

run_readme() {
    local folder=$scratch/readme line command='' wanted='' port=8080 count=0
    if ! command -v curl > /dev/null; then
        echo 'skipped: the commands of README.md (no curl)'
        return
    fi
    mkdir "$folder"
    ln -s "$(readlink -f -- "$program")" "$folder/rooms"
    while IFS= read -r line; do
        if [[ $line =~ ^\ *#\ (.*)$ ]]; then
            wanted+=${wanted:+$'\n'}${BASH_REMATCH[1]}
            continue
        fi
        if [ -n "$command" ]; then typed "$folder" "$command" "$wanted"; fi
        command=$line wanted='' count=$((count + 1))
        if [[ $line =~ ^(.*[^\ ])\ +#\ (.*)$ ]]; then
            command=${BASH_REMATCH[1]} wanted=${BASH_REMATCH[2]}
        fi
    done < <(sed -n '1,/^## What is proved/ s/^    //p' README.md; echo true)
    if [ "$count" -lt 15 ] || [ "$(wc -l < README.md)" -gt 140 ]; then
        echo "FAILED: README.md has $count commands and $(wc -l < README.md) lines"
        failed=$((failed + 1))
    fi
    if ! command -v python3 > /dev/null; then
        echo 'skipped: the commands of docs/OPERATING.md (no python3)'
        return
    fi
    python3 -B tests/documents/counted.py 2>&1 | tee "$scratch/out"
    count_of 'tests/documents/counted.py' "$scratch/out"
    python3 -B tests/documents/stated_once.py 2>&1 | tee "$scratch/out"
    count_of 'tests/documents/stated_once.py' "$scratch/out"
    mkdir "$scratch/operating"
    python3 -B tests/documents/documents.py "$program" "$scratch/operating" 2>&1 | tee "$scratch/out"
    count_of 'tests/documents/documents.py' "$scratch/out"
}
