#!/bin/bash
# What the scripts of this folder share. Each of them begins with it:
#
#     . "$(dirname "$0")/lib.sh"
#
# From then on the script is at the top of the checkout, and counts what has passed and failed.
cd "$(dirname "${BASH_SOURCE[0]}")/.." || exit 1

title=$(basename "$0" .sh)
passed=0
failed=0

pass() { passed=$((passed + 1)); }

# Tells what has failed, and why: fail WHAT WHY
fail() { echo "$title, $1: $2"; failed=$((failed + 1)); }

# Ends the script: by the line that every script ends with, and by a status that is 0 if nothing failed.
finish() {
    echo "$passed passed, $failed failed"
    [ "$failed" -eq 0 ]
    exit
}

# Makes the temporary folder `found`, which is removed at the end.
make_folder() {
    found=$(mktemp -d) || exit 1
    trap 'rm -rf "$found"' EXIT
}

# Puts the path of a program into `program`: the one that its variable names, as BROKERD does for brokerd; or that of
# the release, or one that is built, which is put in its place. Without it the script ends: need NAME
need() {
    local variable=${1^^}
    program=${!variable:-}
    if [ -z "$program" ]; then
        program=crates/$1/out/$1
        if ! bin/run-program --build "$1"; then
            fail "$1" "it cannot be built"
            finish
        fi
    fi
}

# Adds the counts of another script's last line. It fails if that is no such line: add LINE
add() {
    [[ $1 =~ ^([0-9]+)\ passed,\ ([0-9]+)\ failed$ ]] || return 1
    passed=$((passed + BASH_REMATCH[1]))
    failed=$((failed + BASH_REMATCH[2]))
}

# Tells what another script has said, from a file, and adds its counts: tally FILE NAME
tally() {
    local line
    line=$(tail -n 1 "$1")
    head -n -1 "$1"
    add "$line" || fail "$2" "it ended with: $line"
}

# Runs another script, tells what it says under a name, and adds its counts: count_as NAME COMMAND..
count_as() {
    "${@:2}" > "$found/counted"
    if add "$(tail -n 1 "$found/counted")"; then
        sed "\$d; s/^/$title $1, /" "$found/counted"
    else
        fail "$1" "it did not end"
    fi
}

# A wrong command line has to be refused with a usage message: refuse PROGRAM ARGUMENT..
refuse() {
    "$@" < /dev/null > "$found/out" 2> "$found/err"
    if [ $? -eq 2 ] && [ ! -s "$found/out" ] && grep -q "^usage: $(basename "$1") " "$found/err"; then
        pass
    else
        fail "the command line '${*:2}'" "it is taken: $(head -c 200 "$found/err")"
    fi
}
