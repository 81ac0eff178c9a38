#!/bin/bash
# Runs a command on every row of tests/rows, and compares what it writes byte for byte, its exit status and its
# standard error: tests/rows.sh [COMMAND..], which is `bin/brokerd replay` if none is given. The last line is
# 'N passed, M failed'; the status is 0 if nothing failed.
set -u
. "$(dirname "$0")/lib.sh"
make_folder
[ $# -gt 0 ] || set -- bin/brokerd replay
command=("$@")

rows=tests/rows

# What fails is a row, and is told as one.
fail() { echo "row $1: $2"; failed=$((failed + 1)); }

# Says what differs from the row: nothing if all is as it should be.
difference() {
    local name=$1 status=$2 word=$3 exit
    "${command[@]}" < "$rows/$name.replay" > "$found/out" 2> "$found/err"
    exit=$?
    if [ -n "$word" ]; then echo "$word"; fi > "$found/word"
    if ! cmp -s "$found/out" "$rows/$name.out"; then
        echo "another output"
    elif [ "$exit" != "$status" ]; then
        echo "status $exit"
    elif ! cmp -s "$found/err" "$found/word"; then
        echo "another standard error: $(head -c 200 "$found/err")"
    fi
}

# The first use builds the program, and says so on standard error.
if ! "${command[@]}" < "$rows/first_run.replay" > /dev/null; then
    fail "first_run" "${command[*]} cannot be built, or fails"
    finish
fi

while IFS='|' read -r _ name _ status word _; do
    name=${name//[ \`]/}
    word=$(echo "${word//\`/}" | sed 's/^ *//; s/ *$//')
    what=$(difference "$name" "${status// /}" "$word")
    if [ -z "$what" ]; then
        pass
    else
        fail "$name" "$what"
    fi
done < <(grep '^| `' "$rows/INDEX.md")

for file in "$rows"/*.replay; do
    name=$(basename "$file" .replay)
    grep -q "^| \`$name\` |" "$rows/INDEX.md" || fail "$name" "it is not in INDEX.md"
done
finish
