#!/bin/bash
# Refuses memory to the programs as they are built, one allocation after another: to five rows of tests/rows over each
# of the two stores, to `client`, and to `brokerd serve --db`. tests/hostile says what is right then. It takes some 30
# seconds. tests/refused.sh --all [STEP [OPTION..]] takes all rows, and each allocation, or each STEPth; the options are
# those of refused_rows.py, such as --minutes. The gate does not do it. BROKERD, CLIENT and TRIAL_STORES name other
# programs. The last line is 'N passed, M failed'; the status is 0 if nothing failed.
set -u
. "$(dirname "$0")/lib.sh"
make_folder

# Runs a command, tells what it says while it runs, and adds its counts.
count() {
    "$@" | tee "$found/log" | sed -u '$d'
    add "$(tail -n 1 "$found/log")" || fail "$*" "it did not end"
}

# The line before the counts of the last command.
told() { tail -n 2 "$found/log" | head -n 1; }

need brokerd
brokerd=$program
need client
client=$program
need trial_stores
trial_stores=$program

if [ "${1:-}" = --all ]; then
    count python3 tests/hostile/refused_rows.py --all "${2:-1}" "${@:3}" "$brokerd" "$trial_stores"
    rows=$(told)
    count python3 tests/hostile/refused_client.py "$client"
    count python3 tests/hostile/refused_server.py "$brokerd" "${2:-1}"
    echo "$rows; $(told)"
else
    count python3 tests/hostile/refused_rows.py "$brokerd" "$trial_stores"
    count python3 tests/hostile/refused_client.py "$client"
    count python3 tests/hostile/refused_server.py "$brokerd" 20
fi
finish
