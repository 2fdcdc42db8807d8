#!/bin/sh
# Milliseconds in which the files that a replay left in one folder, under names of its own, are renamed to the client's and made
# a change list. The best of three runs; 4,096 files must not take more than 100 ms.
#
# Wants the Debian package mawk (or gawk).
set -eu
# shellcheck source-path=SCRIPTDIR/.. source=common.sh
. "$(dirname "$0")/../common.sh"
wants awk mawk
make_work
bench b_times
for _ in 1 2 3; do
    measured b_times names
done > "$work/times"
awk '
    $1 != $2 || $1 != $5 { print "a file was not renamed or not made"; bad = 1; exit 1 }
    { files = $1; all = ($3 + $4 + $6) / 1e6
      if (!(files in best)) order[++lines] = files
      if (!(files in best) || all < best[files]) { best[files] = all; naming[files] = $3 / 1e6; moving[files] = $4 / 1e6; changing[files] = $6 / 1e6 } }
    END { if (bad) exit 1
          for (i = 1; i <= lines; i++) {
              files = order[i]
              printf "%6d files   %7.2f ms: pairs %7.2f, rows %7.2f, changes %7.2f\n", files, best[files], naming[files], moving[files], changing[files] }
          if (best[4096] > 100) { print "4,096 files take more than 100 ms"; exit 1 } }' "$work/times"
