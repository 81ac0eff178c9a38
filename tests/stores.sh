#!/bin/bash
# Compares the two stores: every row of tests/rows over each, and 5,000 requests that tests/drawn_requests.py draws by
# the numbers of `trial_stores numbers`. Both stores have to answer these byte for byte as the reference broker does,
# also where calls on the rows fail (tests/failing_calls.py). The last line is 'N passed, M failed'; the status is 0 if
# nothing failed.
set -u
. "$(dirname "$0")/lib.sh"
make_folder

# Runs a task, which has to end with status 0 and nothing on standard error: run TASK INPUT OUTPUT
run() {
    tests/trial_stores "$1" < "$2" > "$3" 2> "$found/err"
    local status=$?
    if [ "$status" -eq 0 ] && [ ! -s "$found/err" ]; then
        pass
    else
        fail "$1" "status $status: $(head -c 200 "$found/err")"
    fi
}

# Passes if the command succeeds: expect NAME COMMAND..
expect() {
    if "${@:2}"; then pass; else fail "$1" "${*:2}"; fi
}

# How many replies to the drawn requests begin so.
replies() {
    grep -ac "^HTTP/1.1 $1" "$found/list"
}

count_as list tests/rows.sh tests/trial_stores list
count_as sql tests/rows.sh tests/trial_stores sql
run numbers /dev/null "$found/numbers"
python3 tests/drawn_requests.py < "$found/numbers" > "$found/drawn"
expect "lines that are drawn" [ "$(wc -l < "$found/drawn")" -eq 5001 ]
run list "$found/drawn" "$found/list"
run sql "$found/drawn" "$found/sql"
expect "both stores" cmp "$found/list" "$found/sql"
expect "replies" [ "$(replies '')" -eq 5000 ]
expect "requests that are served" [ "$(replies '20[04] ')" -ge 2500 ]
expect "replies that are wrapped" [ "$(grep -ac '"wrap_info":{' "$found/list")" -ge 300 ]
python3 tests/reference/reference_broker.py replay < "$found/drawn" > "$found/reference"
expect "the reference broker" cmp "$found/list" "$found/reference"
count_as calls python3 tests/failing_calls.py "$found/drawn"
refuse tests/trial_stores
refuse tests/trial_stores lists
refuse tests/trial_stores list sql
refuse tests/trial_stores retry
refuse tests/trial_stores failing lists
refuse tests/trial_stores faulted list sql
finish
