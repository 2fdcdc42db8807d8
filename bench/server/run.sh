#!/bin/sh
# Stores of one small file that a server takes a second, from frame to frame, for rows that stand and for new rows, and the speed
# of its answers to pulls: at 10 and at 16,000 rows, in one folder and in 64. The names come in an order in which neighbours are
# far apart. The best of all rounds of three runs.
#
# Wants the Debian package mawk (or gawk).
set -eu
# shellcheck source-path=SCRIPTDIR/.. source=common.sh
. "$(dirname "$0")/../common.sh"
wants awk mawk
make_work
bench b_times
for _ in 1 2 3; do
    measured b_times server
done > "$work/times"
awk '
    $5 != $4 || $8 != $7 { print "a store was not accepted"; bad = 1; exit 1 }
    { key = $1 " rows, " $2 " folders"
      if ($2 == 1) sub("folders", "folder", key)
      standing = $4 / $6 * 1e9; fresh = $7 / $9 * 1e9; pulls = $10 / $11 * 1000
      if (!(key in best)) order[++lines] = key
      if (standing > best[key]) best[key] = standing
      if (fresh > new[key]) new[key] = fresh
      if (pulls > speed[key]) speed[key] = pulls }
    END { if (bad) exit 1
          for (i = 1; i <= lines; i++) {
              key = order[i]
              printf "%-24s stores a second: %8.0f for rows that stand, %8.0f for new rows   %6.1f MB/s of snapshots\n",
                  key, best[key], new[key], speed[key] } }' "$work/times"
