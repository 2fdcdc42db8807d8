#!/bin/sh
# How long drills take: `client drill SEED COUNT`, which needs no server, each three times. The lines of a drill are the same each time, and
# nothing is pending at its end. The least seconds are told.
#
# Wants the Debian packages coreutils, dash and mawk (or gawk).
set -eu
# shellcheck source-path=SCRIPTDIR/.. source=common.sh
. "$(dirname "$0")/../common.sh"
wants awk mawk
programs client
make_work
for count in 10 100 300 1000; do
    for turn in 1 2 3; do
        start=$(date +%s%N)
        "$CLIENT" drill 1 "$count" > "$work/told$turn" || fail "the drill ended with $?"
        echo "$((($(date +%s%N) - start) / 1000000))"
        cmp -s "$work/told1" "$work/told$turn" || fail "two drills of one number differ"
    done > "$work/times"
    grep -q " pending 0\$" "$work/told1" || fail "something is pending: $(cat "$work/told1")"
    awk -v count="$count" '
        NR == 1 || $1 < least { least = $1 }
        END { printf "drill 1 %-5d %8.2f seconds\n", count, least / 1000 }' "$work/times"
done
