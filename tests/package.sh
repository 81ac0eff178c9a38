#!/bin/bash
# Makes the package twice and compares the bytes, unpacks the archive into an empty folder, verifies its units by
# systemd if that is installed, tries its completion for bash, and types the quick start of README.md there, on a PATH
# without the toolchain. The Debian package is looked at by debian.sh. The last line is 'N passed, M failed'; the status
# is 0 if nothing failed.
set -u
. "$(dirname "$0")/lib.sh"
make_folder

# The folders of the PATH that have no toolchain.
path_without_toolchain() {
    local folder kept=
    IFS=: read -ra folders <<< "$PATH"
    for folder in "${folders[@]}"; do
        [ -e "$folder/rt" ] || kept=$kept:$folder
    done
    echo "${kept#:}"
}

# A folder with what the quick start uses, where the toolchain lies beside it.
tools() {
    local tool
    mkdir "$found/tools"
    for tool in bash curl python3; do ln -s "$(command -v "$tool")" "$found/tools/$tool"; done
    echo "$found/tools:$(path_without_toolchain)"
}

# What systemd says of a unit, with a program that is there, and changed by sed: verify FILE NAME SCRIPT. It speaks of
# other units of the machine too, which do not count. A timer starts the service of the same name, which was the last.
verify() {
    local unit=$2.${1##*.}
    sed -E "s#/usr/(local/bin/brokerd|bin/stunnel)#$unpacked/bin/brokerd#; $3" "$unpacked/$1" > "$found/$unit"
    systemd-analyze verify "$found/$unit" 2>&1 | grep -F "$unit"
}

for turn in 1 2; do
    if ! bin/package "$found/$turn" > "$found/said"; then
        fail "making it" "$(tail -n 1 "$found/said")"
        finish
    fi
done
package=$(sed -n 's|.*/\(dehluvima-.*\.tar\.gz\)$|\1|p' "$found/said")
if cmp -s "$found/1/$package" "$found/2/$package"; then pass; else fail "$package" "it has other bytes each time"; fi

mkdir "$found/unpacked"
tar -xzf "$found/1/$package" -C "$found/unpacked"
unpacked=$found/unpacked/${package%.tar.gz}
if (cd "$unpacked" && sha256sum --quiet -c SHA256SUMS); then
    pass
else
    fail "SHA256SUMS" "it does not fit the files"
fi
listed=$(wc -l < "$unpacked/SHA256SUMS")
there=$(find "$unpacked" -type f ! -name SHA256SUMS | wc -l)
if [ "$there" -eq "$listed" ]; then pass; else fail "SHA256SUMS" "it lacks files"; fi
built_from=$unpacked/BUILT_FROM
if grep -q '^commit [0-9a-f]\{40\}' "$built_from" && grep -q 'logic [0-9a-f]\{16\}$' "$built_from"; then
    pass
else
    fail "BUILT_FROM" "it names no commit or no toolchain"
fi
version=$(sed -n 's/^dehluvima-\(.*\)-linux-x86_64\.tar\.gz$/\1/p' <<< "$package")
for program in brokerd client; do
    said=$("$unpacked/bin/$program" --version)
    if [ $? -eq 0 ] && [ "$said" = "$program $version" ]; then pass; else fail "$program --version" "$said"; fi
done
said=$("$unpacked/bin/dehluvima-run" "$unpacked/bin/brokerd" serve --listen nowhere --stop-on-input 2>&1 > /dev/null)
if [ $? -eq 1 ] && [ "${said##*$'\n'}" = 'fault 5' ]; then pass; else fail "dehluvima-run" "$said"; fi
if command -v systemd-analyze > /dev/null; then
    for unit in dehluvima.service examples/dehluvima-tls.service dehluvima-backup.{service,timer}; do
        said=$(verify "$unit" verified '')
        if [ -z "$said" ]; then pass; else fail "$unit" "$said"; fi
        said=$(verify "$unit" mistaken 's/^(Restart|Type|OnCalendar)=.*$/\1=sometimes/')
        if [ -n "$said" ]; then pass; else fail "$unit" "systemd-analyze says nothing of one with a mistake"; fi
    done
else
    echo "package: systemd-analyze: not installed, the units are not verified"
fi

python3 tests/completion.py "$unpacked/examples/client.bash" > "$found/completed" 2>&1
tally "$found/completed" "completion"

PATH=$(tools)
export PATH
if command -v rt > /dev/null; then fail "the path" "it has the toolchain"; fi
python3 tests/quick_start.py "$unpacked" > "$found/quick" 2>&1
tally "$found/quick" "quick start"
finish
