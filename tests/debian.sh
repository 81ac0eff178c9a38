#!/bin/bash
# Makes the Debian package twice and compares the bytes, looks at its fields, modes and programs, and asks lintian. As
# root it installs the package in a new Debian, made by debootstrap in a folder; starts the program there as the unit
# does, asks it, starts it again, and removes and purges the package. What is not installed here is skipped, and told.
# The last line is 'N passed, M failed'; the status is 0 if nothing failed.
set -u
. "$(dirname "$0")/lib.sh"
make_folder

# Whether two texts are the same: same WHAT FOUND WANTED
same() { if [ "$2" = "$3" ]; then pass; else fail "$1" "$2"; fi; }

skip() { echo "debian: $1"; }

# A command with what it mounts for itself alone, so that nothing stays mounted.
apart() { if unshare --mount true 2> /dev/null; then unshare --mount "$@"; else "$@"; fi; }

# A command in the new Debian, as root.
inside() {
    apart sh -c 'mount -t proc proc "$0/proc" 2> /dev/null; exec chroot "$0" /usr/bin/env -i "$@"' "$system" \
        PATH=/usr/sbin:/usr/bin:/sbin:/bin DEBIAN_FRONTEND=noninteractive LC_ALL=C.UTF-8 "$@"
}

# The same, as the user of the service and with the modes of its unit. The first line that is printed is its number.
as_user() {
    inside setpriv --reuid dehluvima --regid dehluvima --clear-groups sh -c 'umask 077 && echo $$ && exec "$@"' sh "$@"
}

# A command in the new Debian that has to pass: did WHAT COMMAND..
did() { if inside "${@:2}" > "$found/said" 2>&1; then pass; else fail "$1" "$(tail -n 5 "$found/said")"; fi; }

mode() { inside stat -c '%a %U:%G' "$1"; }

# The files of the new Debian, but for those of dpkg, apt, logs and /run, and the users and groups that it has.
state() {
    local left_out='^\./(proc|run|var/(lib/(dpkg|apt)|cache|log))/|^\./etc/(passwd|g?shadow|group)-$'
    (cd "$system" && find . -xdev | grep -Ev "$left_out" | sort && cat etc/passwd etc/group etc/shadow etc/gshadow)
}

# The value of a key of the unit, on one line: setting KEY
setting() {
    sed -e ':again; /\\$/{N; s/\\\n */ /; b again}' "$system/usr/lib/systemd/system/dehluvima.service" |
        sed -n "s/^$1=//p"
}

# Starts the program as the unit does, on a free port, and has its URL in `url`.
start() {
    local line port='' turn
    line=$(setting ExecStart)
    : > "$found/log"
    eval "as_user timeout 120 ${line/:8200/:0}" > "$found/number" 2> "$found/log" &
    running=$!
    for turn in {1..100}; do
        port=$(sed -n 's/.* listening on 127\.0\.0\.1://p' "$found/log")
        if [ -n "$port" ]; then break; fi
        sleep 0.1
    done
    url=http://127.0.0.1:$port
    if [ -n "$port" ]; then pass; else fail "starting it" "$(head -c 300 "$found/log")"; fi
}

# Stops it as the unit does.
stop() {
    kill "$(cat "$found/number")"
    wait "$running"
    same "stopping it" "$?" 0
}

# What the service keeps is there, and a secret is read by the client of the package.
asked() {
    local token
    same "the token's file" "$(mode /var/lib/dehluvima/root-token)" "600 dehluvima:dehluvima"
    same "the database" "$(mode /var/lib/dehluvima/broker.db)" "600 dehluvima:dehluvima"
    same "lines in the token's file" "$(wc -l < "$system/var/lib/dehluvima/root-token")" 1
    token=$(sed -n 's/^root token: //p' "$system/var/lib/dehluvima/root-token")
    if [ "${1:-}" = write ]; then
        curl -s -m 20 -o /dev/null -H "X-Vault-Token: $token" -d '{"data":{"user":"app"}}' "$url/v1/secret/data/app"
    fi
    inside VAULT_ADDR="$url" VAULT_TOKEN="$token" dehluvima-client read secret/data/app > "$found/reply"
    if grep -q '"data":{"user":"app"}' "$found/reply"; then pass; else fail "a secret" "$(cat "$found/reply")"; fi
    if grep -q 'hvs\.[0-9a-f]' "$found/log"; then fail "the log" "it has a token"; else pass; fi
}

# The scripts call the client by its name in the package, and are linked by the page there.
called_otherwise() {
    local name script pages=$found/unpacked/usr/share/doc/dehluvima
    for name in agent leaked once rotate; do
        script=$pages/examples/$name.sh
        same "what $name.sh calls" "$(grep -cE '(^|[^-])client ' "$script")" 0
        same "$name.sh" "$(diff "examples/$name.sh" <(sed 's/dehluvima-client /client /g' "$script"))" ""
        same "links of $name.sh" "$(grep -cF "](examples/$name.sh)" "$pages/CLIENT.md")" 1
    done
}

# Makes the new Debian in `system`: that of this machine if it is one, else the stable one.
make_system() {
    local suite
    system=$found/system
    suite=$(. /etc/os-release && [ "$ID" = debian ] && echo "$VERSION_CODENAME")
    apart timeout 900 debootstrap --variant=minbase --include=adduser "${suite:-stable}" "$system" > "$found/made" 2>&1
}

install_and_purge() {
    local before
    before=$(state)
    cp "$found/1/$package" "$system/root/"
    did "installing it" apt-get install -y "/root/$package"
    same "the user" "$(inside getent passwd dehluvima | cut -d : -f 6,7)" "/var/lib/dehluvima:/usr/sbin/nologin"
    same "its folder" "$(mode /var/lib/dehluvima)" "700 dehluvima:dehluvima"
    if [ -L "$system/etc/systemd/system/multi-user.target.wants/dehluvima.service" ]; then
        pass
    else
        fail "the unit" "it is not enabled"
    fi
    start
    asked write
    stop
    did "installing it again" dpkg --install "/root/$package"
    start
    asked
    stop
    did "removing it" dpkg --remove dehluvima
    same "the database, where it is removed" "$(mode /var/lib/dehluvima/broker.db)" "600 dehluvima:dehluvima"
    inside install -d -o dehluvima /var/log/dehluvima
    did "purging it" dpkg --purge dehluvima
    if [ -e "$system/var/log/dehluvima" ]; then fail "a purge" "the logs stay"; else pass; fi
    rm "$system/root/$package"
    same "what a purge leaves" "$(diff <(echo "$before") <(state))" ""
}

if ! command -v dpkg-deb > /dev/null; then
    skip "dpkg-deb: not installed, the package is not made"
    finish
fi
for turn in 1 2; do
    if ! (umask "0$turn$turn"; bin/package "$found/$turn") > "$found/said"; then
        fail "making it" "$(tail -n 1 "$found/said")"
        finish
    fi
done
package=$(sed -n 's|.*/\(dehluvima_.*\.deb\)$|\1|p' "$found/said")
if cmp -s "$found/1/$package" "$found/2/$package"; then pass; else fail "$package" "it has other bytes each time"; fi

version=$(sed -n 's/^dehluvima_\(.*\)_amd64\.deb$/\1/p' <<< "$package")
same "the fields" "$(dpkg-deb -f "$found/1/$package" Package Version Architecture Depends)" "Package: dehluvima
Version: $version
Architecture: amd64
Depends: adduser, libc6 (>= 2.34)"
same "the files of settings" "$(dpkg-deb -I "$found/1/$package" conffiles)" /etc/logrotate.d/dehluvima
listed=$(dpkg-deb -c "$found/1/$package")
same "the owners" "$(awk '{ print $2 }' <<< "$listed" | sort -u)" root/root
same "the modes" "$(awk '{ print $1 }' <<< "$listed" | sort -u | xargs)" "-rw-r--r-- -rwxr-xr-x drwxr-xr-x"
scripts=$(printf './usr/share/doc/dehluvima/examples/%s.sh ' agent leaked once rotate)
same "what is run" "$(awk '/^-rwx/ { print $6 }' <<< "$listed" | sort | xargs)" \
    "./usr/bin/brokerd ./usr/bin/dehluvima-client ./usr/bin/dehluvima-run ${scripts% }"
dpkg-deb -x "$found/1/$package" "$found/unpacked"
same "the completion" "$(cmp "$found/unpacked/usr/share/bash-completion/completions/dehluvima-client" \
    examples/client.bash 2>&1)" ""
called_otherwise
same "brokerd --version" "$("$found/unpacked/usr/bin/brokerd" --version)" "brokerd $version"
same "dehluvima-client --version" "$("$found/unpacked/usr/bin/dehluvima-client" --version)" "client $version"

if command -v lintian > /dev/null; then
    same lintian "$(lintian --allow-root "$found/1/$package" 2>&1 | grep -v '^[WIPXN]: ')" ""
else
    skip "lintian: not installed, the package is not looked at"
fi
if ! command -v debootstrap > /dev/null; then
    skip "debootstrap: not installed, the package is installed nowhere"
elif [ "$(id -u)" -ne 0 ]; then
    skip "debootstrap: it takes root, the package is installed nowhere"
elif make_system; then
    install_and_purge
else
    skip "debootstrap: no Debian can be made, the package is installed nowhere: $(tail -n 1 "$found/made")"
fi
finish
