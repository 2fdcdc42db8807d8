#!/bin/sh
# Look-ups and puts of files that a tree takes a second, at 10, 1,000, 16,000 and 16,384 rows, and look-ups of the same paths'
# texts in a BTreeMap. The best of three runs.
#
# Wants the Debian package mawk (or gawk).
set -eu
# shellcheck source-path=SCRIPTDIR/.. source=common.sh
. "$(dirname "$0")/../common.sh"
wants awk mawk
make_work
bench b_times
for _ in 1 2 3; do
    measured b_times tree
done > "$work/times"
awk '
    $3 != 200000 || $5 != 20000 || $7 != 200000 { print "a path was not found or a put was refused"; bad = 1; exit 1 }
    { rows = $1; finds = $3 / $4 * 1e9; puts = $5 / $6 * 1e9; texts = $7 / $8 * 1e9
      if (!(rows in find)) order[++lines] = rows
      if (finds > find[rows]) find[rows] = finds
      if (puts > put[rows]) put[rows] = puts
      if (texts > text[rows]) text[rows] = texts }
    END { if (bad) exit 1
          for (i = 1; i <= lines; i++) {
              rows = order[i]
              printf "%6d rows   %10.0f look-ups a second (BTreeMap %10.0f, ratio %4.2f)   %9.0f puts a second\n",
                  rows, find[rows], text[rows], find[rows] / text[rows], put[rows] } }' "$work/times"
