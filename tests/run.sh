#!/bin/bash
# Runs a script that starts brokers of its own, with the program `brokerd`: run.sh NAME [ARGUMENT..]. The script is
# tests/served/NAME.py or tests/NAME/run.py, and says at its head what it tries, how long that takes, and what the
# arguments are. In the gate are backups, disk, limits and proxied, and by tests/serve.sh most others; killed, soak and
# wrk_calls are run by hand. BROKERD names another program. The last line is 'N passed, M failed'; the status is 0 if
# nothing failed.
set -u
. "$(dirname "$0")/lib.sh"

script=tests/served/${1:-}.py
[ -f "$script" ] || script=tests/${1:-}/run.py
if [ ! -f "$script" ]; then
    echo "usage: tests/run.sh NAME [ARGUMENT..], with NAME as in tests/served/NAME.py or tests/NAME/run.py" >&2
    exit 2
fi
need brokerd
exec python3 "$script" "$program" "${@:2}"
