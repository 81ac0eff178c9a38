#!/bin/sh
# Starts an app with a password that is handed to it alone, once: once.sh MOUNT/PATH APP [ARGUMENT..]
set -eu
(umask 077 && client --wrap-ttl 5m kv get "$1" --field wrap_info.token > wrapping-token)
# The rest is the app's, which has no token but the one in this file.
export VAULT_TOKEN PASSWORD
VAULT_TOKEN=$(cat wrapping-token)
from=$(client write sys/wrapping/lookup --field creation_path)
[ "$from" = "${1%%/*}/data/${1#*/}" ] || { echo "$0: what is wrapped is $from" >&2; exit 1; }
PASSWORD=$(client unwrap --field password)
rm wrapping-token && unset VAULT_TOKEN && shift && exec "$@"
