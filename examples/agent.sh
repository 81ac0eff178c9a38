#!/bin/sh
# Runs a program whose token is renewed as long as it runs: agent.sh PROGRAM [ARGUMENT..]
# Its first start makes the token, and only that needs a VAULT_TOKEN.
set -eu
[ -s app-token ] || (umask 077 &&
    client token create --orphan --policy app --period 24h --field client_token > app-token)
unset VAULT_TOKEN
export VAULT_TOKEN_FILE="$PWD/app-token"
client --wait 60 token renew
client token renew --keep &
trap 'kill $! 2> /dev/null || true' EXIT
trap 'exit 1' HUP INT TERM
"$@"
