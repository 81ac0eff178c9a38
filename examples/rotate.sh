#!/bin/sh
# Gives a secret a new password, which a command then sets: rotate.sh MOUNT/PATH COMMAND [ARGUMENT..]
set -eu
version=$(client kv get "$1" --field data.metadata.version)
user=$(client kv get "$1" --version "$version" --field user)
password=$(head -c 24 /dev/urandom | base64)
printf %s "$password" | client kv put "$1" --cas "$version" user="$user" password=- --field version
shift
printf '%s\n' "$password" | "$@"
