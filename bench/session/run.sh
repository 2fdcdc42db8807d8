#!/bin/sh
# What a long input costs the client: 16 MiB of line ends, the most that it reads, and 1,024 puts, the most that wait, each in
# the first and in the second half. The memory that it may take is bounded to show that it does not grow with the input.
#
# Wants the Debian packages coreutils and mawk (or gawk).
set -eu
# shellcheck source-path=SCRIPTDIR/.. source=common.sh
. "$(dirname "$0")/../common.sh"
wants awk mawk
programs client
make_work

# The milliseconds that the client takes over the input in a file, with at most so many KiB of memory.
spent() {
    rm -f "$work/image"
    start=$(clock)
    # shellcheck disable=SC3045
    (ulimit -v "$2"; "$CLIENT" run 1 "$work/image" 127.0.0.1:1 - work) < "$1" > "$work/answers" || fail "the client ended with $?"
    echo $(($(clock) - start))
}

head -c 8388608 /dev/zero | tr '\0' '\n' > "$work/half"
cat "$work/half" "$work/half" > "$work/whole"
awk 'BEGIN { for (i = 0; i < 512; i++) print "put n" i " x" }' > "$work/few"
awk 'BEGIN { for (i = 0; i < 1024; i++) print "put n" i " x" }' > "$work/many"
for _ in 1 2 3; do
    half=$(spent "$work/half" 65536)
    whole=$(spent "$work/whole" 65536)
    few=$(spent "$work/few" 131072)
    many=$(spent "$work/many" 131072)
    echo "$half $whole $few $many"
done > "$work/times"
awk '
    { for (i = 1; i <= 4; i++) if (NR == 1 || $i < best[i]) best[i] = $i }
    END { printf "line ends: the first 8 MiB %d ms, the second %d ms\n", best[1], best[2] - best[1]
          printf "puts: the first 512 %d ms, the second %d ms\n", best[3], best[4] - best[3] }' "$work/times"
