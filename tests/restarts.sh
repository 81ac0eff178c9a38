#!/bin/bash
# Tries restarts, over a disk that mixes old and new bytes, as `brokerd serve --db` supposes, and over one that tears
# writes: every row of tests/rows over files that are closed and opened again after each request, and six of them over
# files that stop, at each call in turn. In one the files stop while a response is unwrapped, and it is unwrapped again
# from what is found. Files whose keys have rows of format 1 stop while they are opened, which rewrites these rows. The
# last line is 'N passed, M failed'; the status is 0 if nothing failed.
set -u
. "$(dirname "$0")/lib.sh"
make_folder

# Stops a run of all events but the last at each call on each file, and sends the last one to the broker that is found.
# There the step that was stopped was taken sometimes, and sometimes not. Without it the reply to the last event has to
# be the last but one of the row, and with it the last one: again ROW DISK
again() {
    tests/trial_restarts again "$2" < "tests/rows/$1.replay" > "$found/out" 2> "$found/err"
    local status=$? times='[1-9][0-9]* times'
    head -n -1 "$found/out" > "$found/replies"
    awk -v events="$(wc -l < "tests/rows/$1.replay")" '/^HTTP\/1.1 / { count += 1 } count > events - 3' \
        "tests/rows/$1.out" > "$found/expected"
    if [ "$status" -ne 0 ] || [ -s "$found/err" ]; then
        fail "again $2, $1" "status $status: $(head -c 200 "$found/err")"
    elif ! [[ $(tail -n 1 "$found/out") =~ ^not\ taken\ $times,\ taken\ $times$ ]]; then
        fail "again $2, $1" "another output: $(tail -n 1 "$found/out" | head -c 200)"
    elif ! cmp -s "$found/replies" "$found/expected"; then
        fail "again $2, $1" "other replies: $(head -c 200 "$found/replies")"
    else
        pass
    fi
}

for disk in mixed torn; do
    count_as "reopened $disk" tests/rows.sh tests/trial_restarts reopened "$disk"
    again wrapped_reply_once "$disk"
done
count_as stopped python3 tests/stopped_runs.py
refuse tests/trial_restarts
refuse tests/trial_restarts stopped
refuse tests/trial_restarts stop torn
refuse tests/trial_restarts reopened mixed torn
refuse tests/trial_restarts upgraded
finish
