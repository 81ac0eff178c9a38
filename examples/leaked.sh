#!/bin/sh
# Ends a token that has leaked, with all that it made, and lists the orphans made since: leaked.sh ACCESSOR
set -eu
since=$(client token lookup --accessor "$1" --field creation_time)
client token revoke --accessor "$1"
tokens=$(client token list)
echo "not ended, since they are orphans:"
echo "$tokens" | while read -r accessor rest; do
    orphan=$(client token lookup --accessor "$accessor" --field orphan) || continue
    made=$(client token lookup --accessor "$accessor" --field creation_time) || continue
    [ "$orphan" = false ] || [ "$made" -lt "$since" ] || echo "$accessor  $rest"
done
