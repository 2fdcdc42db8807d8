#!/bin/sh
# What 100 new files of six bytes cost over loopback: the connections, and the bytes of both ways with all headers of IP and TCP; beside
# rsync and rsync -z, to a daemon with an empty folder. It ends with 1 where a goal is missed.
#
# Wants the Debian packages coreutils, sed and mawk (or gawk); rsync for its columns.
set -eu
# shellcheck source-path=SCRIPTDIR/.. source=common.sh
. "$(dirname "$0")/../common.sh"
wants awk mawk
programs server client
make_work
count=100 most_connections=14 most_bytes=11500

# The bytes that the loopback device has carried.
carried() {
    awk '$1 == "lo:" { print $2 }' /proc/net/dev
}

# The connections that this machine has begun.
connections() {
    awk '$1 == "Tcp:" && $6 ~ /^[0-9]+$/ { print $6 }' /proc/net/snmp
}

# What is carried from here on.
look() { bytes=$(carried) asks=$(connections) start=$(clock); }

# One row: a name, and what was carried since.
row() {
    took=$(($(clock) - start)) now=$(carried) opened=$(($(connections) - asks))
    echo "$1" $((now - bytes)) "$opened" "$took" | awk '
        { printf "%-10s %7d bytes %4d connections %6.2f s\n", $1 (NF > 4 ? " " $2 : ""), $(NF - 2), $(NF - 1), $NF / 1000 }'
}

awk -v count="$count" 'BEGIN { for (i = 0; i < count; i++) printf "put f%03d hello\n", i }' > "$work/lines"
echo sync >> "$work/lines"
next_port
"$SERVER" run "127.0.0.1:$port" "$work/server" 65536 > "$work/served" 2> "$work/said" &
server=$!
begun
await "$server" "$port" || fail "the server does not listen: $(cat "$work/said")"
look
"$CLIENT" run 1 "$work/client" "127.0.0.1:$port" - "$work/work" < "$work/lines" > "$work/answers"
row ours > "$work/ours"
cat "$work/ours"
grep -q "^synced $count\$" "$work/answers" || fail "not all was accepted"

if has rsync rsync; then
    mkdir "$work/files"
    for at in $(seq 0 $((count - 1))); do echo hello > "$work/files/$(printf 'f%03d' "$at")"; done
    owner=''
    [ "$(id -u)" != 0 ] || owner='uid = 0
gid = 0'
    for option in -a -az; do
        mkdir "$work/there$option"
        printf 'use chroot = no\n%s\n[all]\npath = %s\nread only = no\n' "$owner" "$work/there$option" > "$work/conf$option"
        next_port
        rsync --daemon --no-detach "--config=$work/conf$option" "--port=$port" --address=127.0.0.1 "--log-file=$work/log$option" &
        begun
        await "$!" "$port" || fail "rsync does not listen"
        look
        rsync "$option" "$work/files/" "rsync://127.0.0.1:$port/all/"
        row "rsync $option"
    done
fi
awk -v bytes="$most_bytes" -v opened="$most_connections" '
    $2 > bytes || $4 > opened { print "missed: at most " bytes " bytes and " opened " connections"; missed = 1 }
    END { exit missed }' "$work/ours"
