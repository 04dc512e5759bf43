#!/bin/sh
# Two programs in one folder: the second one meets the lock of the first before it has read or changed anything.
# Usage: device_locks.sh PROGRAM. Wants flock. Fails where one of the steps ends otherwise.
set -u
program=$(realpath "$1")
image=$(realpath "$(dirname "$0")/../../examples/motd")
folder=$(mktemp -d)
cd "$folder" || exit 1
wrong=0

# Ends the script's count of faults with one more where the status, the line or the file is another.
expect() {
    what=$1 status=$2 line=$3
    shift 3
    said=$("$@" 2>errors)
    came=$?
    if [ "$came" != "$status" ] || [ "$said" != "$line" ]; then
        echo "$what: status $came, '$said'"
        wrong=$((wrong + 1))
    fi
}

cp -r "$image" image
mkdir -m 700 .work
expect 'locked' 3 'settings: disk' flock .work/lock "$program" init --version 1.5.2
grep -q 'another program is at work' errors || { echo 'nothing on standard error'; wrong=$((wrong + 1)); }
[ ! -e store ] || { echo 'a store was made'; wrong=$((wrong + 1)); }
expect 'free' 0 '1.5.2' "$program" init --version 1.5.2
chmod 750 .work
expect 'open to the group' 3 'settings: disk' "$program" set 'settings.motd="hi"'
chmod 700 .work
expect 'closed again' 0 '{"settings":{"motd":"hi"}}' "$program" set 'settings.motd="hi"'
# Twelve at once: each ends with the lock of another or sets its text, and the last text that was set is in the file.
for number in 1 2 3 4 5 6 7 8 9 10 11 12; do
    { "$program" set "settings.motd=\"$number\"" > "said$number" 2>/dev/null; echo $? > "ended$number"; } &
done
wait
kept=$(cat etc/motd)
[ "$(cat "ended$kept")" = 0 ] || { echo "$kept is in the file, and did not end with 0"; wrong=$((wrong + 1)); }
[ "$(cat "said$kept")" = "{\"settings\":{\"motd\":\"$kept\"}}" ] || { echo 'another line was printed'; wrong=$((wrong + 1)); }
[ -z "$(grep -Lx '[03]' ended*)" ] || { echo 'one ended with another status'; wrong=$((wrong + 1)); }
expect 'get' 0 "{\"settings\":{\"motd\":\"$kept\"}}" "$program" get
rm -rf "$folder"
echo "device_locks: 7 steps, $wrong wrong"
[ "$wrong" = 0 ]
