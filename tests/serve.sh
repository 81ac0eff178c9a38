#!/bin/bash
# Starts `brokerd serve` and asks it as its users do: by curl, by `client` if it is there, by Python's hvac and by
# Ansible if they are installed, and on one connection 10,000 times; then by wrong command lines, over a file that is
# opened again, by each command of `client` and by scripts that call it, over a file that an earlier program wrote, for
# what changes after a hundred replies, by many peers at once, some of which are idle or slow, by drawn requests on 64
# connections, and on 100,000 connections. It takes some three minutes, and more with Ansible. BROKERD and CLIENT name
# other programs. The last line is 'N passed, M failed'; the status is 0 if nothing failed.
set -u
. "$(dirname "$0")/lib.sh"
make_folder
pid=
trap 'stop; rm -rf "$found"' EXIT

stop() {
    [ -z "$pid" ] && return
    kill "$pid" 2> /dev/null
    wait "$pid" 2> /dev/null
    pid=
}

free_port() { python3 -c 'import sys; sys.path.insert(0, "tests/served"); import broker; print(broker.free_port())'; }

is_listened_on() { (exec 3<> "/dev/tcp/127.0.0.1/$port") 2> /dev/null; }

# Starts the program on a free port, with more arguments: start ARGUMENT.. It takes a connection to find out whether the
# program listens.
start() {
    local attempt turn
    for attempt in 1 2 3 4 5; do
        port=$(free_port)
        "$program" serve --listen "127.0.0.1:$port" "$@" > "$found/served" 2> "$found/served.err" &
        pid=$!
        for turn in $(seq 100); do
            is_listened_on && return
            kill -0 "$pid" 2> /dev/null || break
            sleep 0.05
        done
        stop
    done
    fail "start" "no port can be listened on: $(cat "$found/served.err")"
    finish
}

# Sends a request by curl, and compares the status and a text of the reply: ask NAME STATUS TEXT ARGUMENT..
ask() {
    local name=$1 wanted=$2 text=$3 status
    shift 3
    status=$(curl -s -m 20 -o "$found/body" -w '%{http_code}' -H "X-Vault-Token: $token" "$@")
    if [ "$status" != "$wanted" ]; then
        fail "$name" "status $status in place of $wanted: $(head -c 200 "$found/body")"
    elif [ -n "$text" ] && ! grep -qF -- "$text" "$found/body"; then
        fail "$name" "no $text in $(head -c 200 "$found/body")"
    else
        pass
    fi
}

# Runs the program, and compares its status and its standard error: run NAME STATUS TEXT ARGUMENT..
run() {
    local name=$1 wanted=$2 text=$3 status
    shift 3
    timeout 20 "$program" "$@" > "${output:-$found/out}" 2> "$found/err"
    status=$?
    if [ "$status" != "$wanted" ]; then
        fail "$name" "status $status in place of $wanted"
    elif ! grep -qF -- "$text" "$found/err"; then
        fail "$name" "no $text in $(head -c 200 "$found/err")"
    else
        pass
    fi
}

# Runs a command, and adds its counts. It may take `limit` seconds, or 120.
count() {
    timeout "${limit:-120}" "$@" > "$found/log" 2>&1
    tally "$found/log" "$*"
}

# Does so with several scripts of tests/served, which run at the same time, since most of their time they wait. Each is
# one word with its further arguments.
count_together() {
    local place words running=()
    for place in $(seq $#); do
        read -ra words <<< "${!place}"
        timeout 120 python3 "tests/served/${words[0]}" "$program" "${words[@]:1}" > "$found/log$place" 2>&1 &
        running+=($!)
    done
    wait "${running[@]}"
    for place in $(seq $#); do tally "$found/log$place" "${!place}"; done
}

# The wrapping token of the last reply.
wrapping_token() { sed 's/.*"token":"\([^"]*\)".*/\1/' "$found/body"; }

ask_by_curl() {
    local url=http://127.0.0.1:$port/v1 child wrapping
    ask "write" 200 '"version":1' -d '{"data":{"user":"app"}}' "$url/secret/data/app"
    ask "read" 200 '"data":{"user":"app"}' "$url/secret/data/app"
    ask "list" 200 '"keys":["app"]' -X LIST "$url/secret/metadata"
    ask "list by query" 200 '"keys":["app"]' "$url/secret/metadata?list=true"
    ask "wrapped read" 200 '"creation_path":"secret/data/app"' -H 'X-Vault-Wrap-TTL: 60' "$url/secret/data/app"
    wrapping=$(wrapping_token)
    token=$wrapping ask "look-up of a response" 200 '"creation_ttl":60' -X POST "$url/sys/wrapping/lookup"
    token=$wrapping ask "unwrap" 200 '"data":{"user":"app"}' -X POST "$url/sys/wrapping/unwrap"
    token=$wrapping ask "another unwrap" 400 'wrapping token is not valid' -X POST "$url/sys/wrapping/unwrap"
    ask "delete" 204 '' -X DELETE "$url/secret/data/app"
    ask "read of a deleted version" 404 '"deletion_time"' "$url/secret/data/app"
    ask "no route" 404 '{"errors":[]}' "$url/sys/health"
    ask "policy" 204 '' -d '{"policy":"{\"path\":{\"cubbyhole/*\":{\"capabilities\":[\"read\"]}}}"}' \
        "$url/sys/policies/acl/app"
    ask "token" 200 '"client_token":"hvs.' -d '{"policies":["app"]}' "$url/auth/token/create"
    child=$(sed 's/.*"client_token":"\([^"]*\)".*/\1/' "$found/body")
    ask "look-up" 200 '"policies":["app","default"]' -d "{\"token\":\"$child\"}" "$url/auth/token/lookup"
    ask "revocation" 204 '' -d "{\"token\":\"$child\"}" "$url/auth/token/revoke"
    ask "look-up of a revoked token" 403 'bad token' -d "{\"token\":\"$child\"}" "$url/auth/token/lookup"
    ask "the year of the start" 200 "\"issue_time\":\"$(date -u +%Y)-" "$url/auth/token/lookup-self"
    ask "a token of a second" 200 '"lease_duration":1' -d '{"policies":["app"],"ttl":1}' "$url/auth/token/create"
    child=$(sed 's/.*"client_token":"\([^"]*\)".*/\1/' "$found/body")
    sleep 2
    ask "look-up of a token that expired" 403 'bad token' -d "{\"token\":\"$child\"}" "$url/auth/token/lookup"
    ask "a body that is too long" 413 'errors' -H 'Expect:' --data-binary "@$found/long" "$url/secret/data/app"
    token=hvs.00000000-0000-0000-0000-000000000000 ask "a stranger" 403 'permission denied' "$url/secret/data/app"
}

# A Python that has hvac, if there is one.
python_with_hvac() {
    local python
    for python in python3 /usr/bin/python3; do
        "$python" -c 'import hvac' 2> /dev/null && break
    done
    echo "$python"
}

ask_by_client() {
    local address=127.0.0.1:$port client=${CLIENT:-bin/client} text wrapping
    if [ ! -x "$client" ]; then
        echo "serve: there is no $client: it is skipped"
        return
    fi
    if "$client" --addr "$address" --token "$token" write secret/data/client '{"data":{"user":"app"}}' \
        > "$found/body" && grep -qF '"version":1' "$found/body"; then pass; else fail "client" "write"; fi
    text=$("$client" --addr "$address" --token "$token" read secret/data/client)
    if [ $? -eq 0 ] && [[ $text == *'"data":{"user":"app"}'* ]]; then pass; else fail "client" "read"; fi
    "$client" --addr "$address" --token "$token" read secret/data/absent > "$found/body"
    if [ $? -eq 1 ] && grep -qF '"errors"' "$found/body"; then pass; else fail "client" "read of an absent secret"; fi
    "$client" --addr "$address" --token "$token" --wrap-ttl 60 read secret/data/client > "$found/body"
    wrapping=$(wrapping_token)
    text=$("$client" --addr "$address" --token "$wrapping" unwrap)
    if [ $? -eq 0 ] && [[ $text == *'"data":{"user":"app"}'* ]]; then pass; else fail "client" "unwrap"; fi
    "$client" --addr "$address" --token "$token" unwrap "$wrapping" > "$found/body"
    if [ $? -eq 1 ] && grep -qF 'wrapping token is' "$found/body"; then pass; else fail "client" "another unwrap"; fi
}

# Runs the client with VAULT_ADDR and VAULT_TOKEN, in a home without a token, and compares its status and what it writes
# to a stream: client_says NAME STATUS out|err TEXT ARGUMENT..
client_says() {
    local name=$1 wanted=$2 stream=$3 text=$4 status
    shift 4
    HOME=$found VAULT_TOKEN_FILE='' VAULT_ADDR=$url VAULT_TOKEN=$token \
        timeout 20 "${CLIENT:-bin/client}" "$@" > "$found/out" 2> "$found/err"
    status=$?
    if [ "$status" != "$wanted" ]; then
        fail "client, $name" "status $status in place of $wanted: $(head -c 200 "$found/err")"
    elif ! grep -qF -- "$text" "$found/$stream"; then
        fail "client, $name" "no $text in $(head -c 200 "$found/$stream")"
    else
        pass
    fi
}

# The client takes its server and its token from the environment, and a body from standard input.
ask_by_environment() {
    local url=http://127.0.0.1:$port bad
    [ -x "${CLIENT:-bin/client}" ] || return
    echo '{"data":{"from":"standard input"}}' > "$found/body.json"
    client_says "a body of standard input" 0 out '"version":1' write secret/data/input - < "$found/body.json"
    client_says "what was written" 0 out '"data":{"from":"standard input"}' read secret/data/input
    url=$url/ client_says "a slash at the end" 0 out '"from"' read secret/data/input
    url=http://127.0.0.1:1 client_says "the option for the server" 0 out '"from"' \
        --addr "127.0.0.1:$port" read secret/data/input
    url=http://127.0.0.1:1 client_says "the server of the environment" 1 err 'fault 5' read secret/data/input
    client_says "the option for the token" 1 out 'permission denied' --token=hvs.none read secret/data/input
    token=hvs.none client_says "the token of the environment" 1 out 'permission denied' read secret/data/input
    token=-abc client_says "a token that begins as an option does" 1 out 'permission denied' read secret/data/input
    token=hvs.none client_says "both options" 0 out '"from"' \
        --addr "127.0.0.1:$port" --token "$token" read secret/data/input
    token= client_says "an empty token" 1 out 'permission denied' read secret/data/input
    url='' client_says "no server" 2 err '--addr <ADDR>' read secret/data/input
    url=https://127.0.0.1:$port client_says "TLS" 2 err 'has no TLS' read secret/data/input
    for bad in 127.0.0.1:8200 http://127.0.0.1 http://:8200 http://127.0.0.1:8200/v1 http://127.0.0.1:99999; do
        url=$bad client_says "the server $bad" 2 err 'VAULT_ADDR is not http://HOST:PORT' read secret/data/input
    done
    url=https://nowhere client_says "help" 0 out 'Usage:' --help
    url=https://nowhere client_says "version" 0 out "client " --version
    head -c 1048576 /dev/zero | tr '\0' ' ' > "$found/longest"
    client_says "a body as long as it can be" 1 out 'errors' write secret/data/input - < "$found/longest"
    client_says "a body that is too long" 2 err 'longer than 1048576 bytes' write secret/data/input - < "$found/long"
    printf '\377' > "$found/bytes"
    client_says "a body that is no text" 2 err 'not UTF-8' write secret/data/input - < "$found/bytes"
    echo --help > "$found/bytes"
    client_says "a body that is an option" 2 err 'begins with -' write secret/data/input - < "$found/bytes"
    client_says "a path of -" 1 out '"errors"' read - < "$found/body.json"
}

# Without --connections the program ends after 1,000 connections, and with --until-stopped it does not.
serve_without_an_end() {
    local number status
    start
    for number in $(seq 999); do is_listened_on || break; done
    wait "$pid"
    status=$?
    pid=
    if [ "$status" -eq 0 ] && [ "$number" -eq 999 ]; then
        pass
    else
        fail "1,000 connections" "status $status, after $number"
    fi
    start --until-stopped
    token=$(sed -n 's/^root token: //p' "$found/served")
    for number in $(seq 1500); do is_listened_on || break; done
    ask "after 1,500 connections" 200 '"policies":["root"]' "http://127.0.0.1:$port/v1/auth/token/lookup-self"
    if [ "$number" -eq 1500 ] && kill -0 "$pid" 2> /dev/null; then pass; else fail "--until-stopped" "it has ended"; fi
    stop
}

# A broker in a file: stopped by SIGKILL and started again it is the one that it was, and prints no token.
keep_in_a_file() {
    local file=$found/broker.db url wrapping
    start --until-stopped --db "$file"
    token=$(sed -n 's/^root token: //p' "$found/served")
    url=http://127.0.0.1:$port/v1
    ask "write to a file" 200 '"version":1' -d '{"data":{"user":"app"}}' "$url/secret/data/app"
    ask "wrapped read from a file" 200 '"wrap_info":{' -H 'X-Vault-Wrap-TTL: 1h' "$url/secret/data/app"
    wrapping=$(wrapping_token)
    run "a file that is open" 1 'fault 2' serve --listen 127.0.0.1:0 --db "$file"
    if [ "$(stat -c %a "$file" "$file-wal" | sort -u)" = 600 ]; then pass; else fail "a file" "others may read it"; fi
    kill -9 "$pid"
    stop
    start --until-stopped --db "$file"
    if [ ! -s "$found/served" ]; then pass; else fail "a restart" "it prints $(head -c 200 "$found/served")"; fi
    url=http://127.0.0.1:$port/v1
    ask "read after a restart" 200 '"data":{"user":"app"}' "$url/secret/data/app"
    token=$wrapping ask "unwrap after a restart" 200 '"data":{"user":"app"}' -X POST "$url/sys/wrapping/unwrap"
    token=$wrapping ask "another unwrap after a restart" 400 'wrapping token' -X POST "$url/sys/wrapping/unwrap"
    stop
    python3 -c "
import sqlite3
with sqlite3.connect('$file') as database:
    database.execute(\"UPDATE broker_rows SET body = x'02' WHERE kind = 11\")"
    run "a damaged row" 1 'row 1 of kind mount (secret): it is not in its format' \
        serve --listen 127.0.0.1:0 --db "$file"
    start --until-stopped --unchecked --db "$file"
    curl -s -m 20 -o "$found/body" -H "X-Vault-Token: $token" "http://127.0.0.1:$port/v1/secret/data/app"
    wait "$pid"
    if [ $? -eq 1 ] && [ "$(tail -n 1 "$found/served.err")" = 'fault 3' ]; then
        pass
    else
        fail "a damaged row that is not looked for" "it is served on"
    fi
    pid=
    python3 -c "
import sqlite3
with sqlite3.connect('$file') as database:
    database.execute('DELETE FROM broker_rows WHERE kind = 1')"
    run "a file without the clock" 1 'fault 4' serve --listen 127.0.0.1:0 --db "$file"
    run "a file that is no database" 1 'fault 2' serve --listen 127.0.0.1:0 --db "$found/long"
    run "a folder that is not there" 1 'fault 2' serve --listen 127.0.0.1:0 --db "$found/none/broker.db"
}

need brokerd
head -c 1048577 /dev/zero > "$found/long"

start --until-stopped
token=$(sed -n 's/^root token: \(hvs\.[0-9a-f-]\{36\}\)$/\1/p' "$found/served")
if [ -n "$token" ]; then pass; else fail "root token" "$(head -c 200 "$found/served")"; fi
ask_by_curl
ask_by_client
ask_by_environment
count python3 tests/clients/keep_alive.py "$port" "$token" 10000
count "$(python_with_hvac)" tests/clients/hvac_calls.py "$port" "$token"
count "$(python_with_hvac)" tests/clients/hvac_methods.py "$port" "$token"
count "$(python_with_hvac)" tests/clients/hvac_pool.py "$port" "$token"
count python3 tests/clients/documented.py "$port" "$token"
count python3 tests/clients/vault_requests.py "$port" "$token"
limit=600 count python3 tests/clients/ansible_calls.py "$port" "$token" 5
run "an address that is taken" 1 'fault 5' serve --listen "127.0.0.1:$port"
if kill -0 "$pid" 2> /dev/null && [ ! -s "$found/served.err" ]; then pass; else fail "the program" "it has ended"; fi
stop

run "no command" 2 'Usage:'
run "another command" 2 'Usage:' reply
run "a command with too many words" 2 'Usage:' replay twice
run "lines that cannot be read" 1 'fault 5' replay < tests
output=/dev/full run "replies that cannot be written" 1 'fault 6' replay < tests/rows/good_lines_then_bad.replay
run "no address" 2 '--listen <ADDR>' serve
run "no connections" 2 '--connections <N>' serve --listen 127.0.0.1:0 --connections 0
run "too many connections" 2 '--connections <N>' serve --listen 127.0.0.1:0 --connections 4294967296
run "both a number and no end" 2 'give one of them' serve --listen 127.0.0.1:0 --connections 1 --until-stopped
run "a check and none" 2 'give one of them' serve --listen 127.0.0.1:0 --db "$found/none" --check --unchecked
run "no check without a database" 2 'give --db too' serve --listen 127.0.0.1:0 --unchecked
run "no end with a value" 2 '--until-stopped' serve --listen 127.0.0.1:0 --until-stopped=yes
run "no places" 2 '--at-once <M>' serve --listen 127.0.0.1:0 --at-once 0
run "too many places" 2 '--at-once <M>' serve --listen 127.0.0.1:0 --at-once 10001
run "another machine's address" 1 'fault 5' serve --listen 192.0.2.1:8200
run "no address at all" 1 'fault 5' serve --listen nowhere
output=/dev/full run "a token that cannot be printed" 1 'fault 6' serve --listen 127.0.0.1:0

if [[ $("$program" --version) =~ ^brokerd\ [0-9]+\.[0-9]+\.[0-9]+$ ]]; then pass; else fail "--version" "no version"; fi

first=$token
start --connections 3
token=$(sed -n 's/^root token: //p' "$found/served")
if [ "$token" != "$first" ]; then pass; else fail "root token" "two brokers have the same"; fi
ask "the second of three" 200 '"policies":["root"]' "http://127.0.0.1:$port/v1/auth/token/lookup-self"
ask "the third of three" 200 '"policies":["root"]' "http://127.0.0.1:$port/v1/auth/token/lookup-self"
wait "$pid"
status=$?
pid=
if [ "$status" -eq 0 ] && [ ! -s "$found/served.err" ]; then
    pass
else
    fail "after three connections" "status $status"
fi

serve_without_an_end
keep_in_a_file
if [ -z "${CLIENT:-}" ]; then bin/run-program --build client; fi # before three scripts call it
count_together client_sends.py client_asks.py client_scripts.py
count python3 tests/served/databases.py "$program"
count python3 tests/served/causes.py "$program"
count python3 tests/served/large_files.py "$program"
count python3 tests/served/damaged.py "$program"
limit=300 count python3 tests/served/remembered.py "$program"
count python3 tests/upgrade/opened.py "$program"
count python3 tests/upgrade/rewritten.py "$program"
count python3 tests/upgrade/killed.py "$program" --keys 5000
count_together many_peers.py slow_peers.py "slow_peers.py --alone" scarce_descriptors.py stopping.py signalled.py
count python3 tests/served/logged.py "$program"
count_together status.py scraped.py slow.py
count python3 tests/served/short_lives.py "$program" 4000
count python3 tests/served/fault_at_once.py "$program"
count python3 tests/drawn_at_once.py "$program"
limit=600 count python3 tests/served/closed_connections.py "$program" 100000
finish
