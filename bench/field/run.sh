#!/bin/sh
# Million products a second in GF(2^16): the proved `mul`, and a table-driven version in C compiled with -O2, the best of five
# runs in turn. Both multiply the same factors; their checksums have to agree.
#
# Wants the Debian packages gcc, libc6-dev and mawk (or gawk).
set -eu
# shellcheck source-path=SCRIPTDIR/.. source=common.sh
. "$(dirname "$0")/../common.sh"
wants cc gcc awk mawk
make_work
cc -O2 -o "$work/tables" "$here/tables.c"
bench b_times
for _ in 1 2 3 4 5; do
    measured b_times products | sed 's/^/ours /'
    "$work/tables" | sed 's/^/theirs /'
done > "$work/times"
awk '
    { sum[$1] = $2; speed = $4 / $3 * 1000; if (speed > best[$1]) best[$1] = speed }
    END { if (sum["ours"] != sum["theirs"]) { print "the checksums differ"; exit 1 }
          printf "proved mul   %6.1f million products a second\n", best["ours"]
          printf "C, tables    %6.1f million products a second\n", best["theirs"]
          printf "ratio        %6.2f\n", best["ours"] / best["theirs"] }' "$work/times"
