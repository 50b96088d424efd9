# The page with many requests at once, in a browser, and rooms-import. Read by deploy.sh, whose functions are used here.

# groups of requests, at the proxy: files that readers read and bookers write
deploy_groups() {
    local group=/groups/2095-12-20.abcd1234 put=/groups/put/2095-12-20.abcd1234 text='{"title":"Jour fixe","items":[]}'
    through 'a group that is not there' 404 readers "$group"
    through 'a group by a reader' 401 readers "$put" -X PUT -d "$text"
    through 'a group by another site' 403 bookers "$put" -X PUT -d "$text" -H 'Sec-Fetch-Site: cross-site'
    through 'a group' 201 bookers "$put" -X PUT -d "$text"
    through 'a group again' 204 bookers "$put" -X PUT -d "$text"
    through 'a group is read' 200 readers "$group"
    body 'as it was written' "$text"
    through 'a group without a password' 401 '' "$group"
    through 'a group is not removed' 403 bookers "$put" -X DELETE
    through 'a group is not written where it is read' 403 readers "$group" -X PUT -d "$text"
    through 'a group elsewhere' 403 bookers '/groups/put/..%2f2095-12-20.abcd1234' -X PUT -d "$text"
    through 'a group of another name' 404 bookers /groups/put/jour-fixe -X PUT -d "$text"
    head -c 4200000 /dev/zero > "$deploy_scratch/large"
    through 'a group that is too large' 413 bookers "$put" -T "$deploy_scratch/large" -H 'Expect:'
    through 'the groups' 200 readers /groups/
    is 'their list' "$(python3 -c 'import json, sys; print([it["name"] for it in json.load(sys.stdin)])' < "$deploy_scratch/body")" "['2095-12-20.abcd1234']"
}

# many_begin: an office `west` whose page everybody may read, behind nginx; status 1 where something is missing
many_begin() {
    deploy_begin
    if missing 'many requests in a browser' curl openssl nginx flock perl python3 chromium chromedriver; then return 1; fi
    deploy_offices
    sed -i 's/auth_basic "west: reading";/auth_basic off;/' "$ROOMS_ETC/west.nginx"
    start_nginx
    mkdir -p "$deploy_scratch/page"
}

# two_rooms NAME: a replica 1 of primary 1 with the rooms oak and elm, for the test of that name
two_rooms() {
    local room
    "$program" init "$deploy_scratch/page/$1.db" 1 1 > /dev/null
    for room in oak elm; do "$program" add-room "$deploy_scratch/page/$1.db" "$room" > /dev/null; done
}

run_many() {
    many_begin || return 0
    two_rooms many
    page_test many.py
    two_rooms move
    page_test move.py
    two_rooms imports
    page_test imports.py
    two_rooms tool
    page_test import_tool.py
    stop_nginx
}
