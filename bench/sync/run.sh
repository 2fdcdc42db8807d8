#!/bin/sh
# Syncs a second over loopback, each with one small put and a connection of its own, and the bytes that a put costs on the
# wire, with all headers of IP and TCP. The best of three runs.
#
# Wants the Debian packages coreutils and mawk (or gawk).
set -eu
# shellcheck source-path=SCRIPTDIR/.. source=common.sh
. "$(dirname "$0")/../common.sh"
wants awk mawk
programs server client
make_work
count=500

# The bytes that the loopback device has carried.
carried() {
    awk '$1 == "lo:" { print $2 }' /proc/net/dev
}

awk -v count="$count" 'BEGIN { for (i = 0; i < count; i++) print "put a x\nsync" }' > "$work/lines"
for turn in 1 2 3; do
    next_port
    "$SERVER" run "127.0.0.1:$port" "$work/server$turn" "$count" > "$work/served" 2> "$work/said" &
    server=$!
    begun
    await "$server" "$port" || fail "the server does not listen: $(cat "$work/said")"
    bytes=$(carried)
    start=$(date +%s%N)
    "$CLIENT" run 1 "$work/client$turn" "127.0.0.1:$port" - work < "$work/lines" > "$work/answers"
    end=$(date +%s%N)
    ended "$server"
    grep -q "^acknowledged $count pending 0\$" "$work/answers" || fail "a put was not accepted"
    echo "$count $((end - start)) $(($(carried) - bytes))"
done > "$work/times"
awk '
    { syncs = $1 / $2 * 1e9; bytes = $3 / $1
      if (syncs > best) best = syncs
      if (!least || bytes < least) least = bytes }
    END { printf "%9.0f syncs a second   %6.0f bytes on the wire for a put\n", best, least }' "$work/times"
