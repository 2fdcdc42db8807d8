#!/bin/sh
# MB/s with which stores of 1, 8 and 33 MB of content and snapshots of 1,024, 4,096 and 16,384 rows are read and written, and the
# nanoseconds a byte, which stay the same where the time is linear in the bytes. The best of five runs.
#
# Wants the Debian package mawk (or gawk).
set -eu
# shellcheck source-path=SCRIPTDIR/.. source=common.sh
. "$(dirname "$0")/../common.sh"
wants awk mawk
make_work
bench b_times
for _ in 1 2 3 4 5; do
    measured b_times frames
done > "$work/times"
awk '
    $4 != $2 * $3 { print "a frame was not written as long as it was read"; exit 1 }
    { frame = $1 " " $2
      if (!(frame in reading)) order[++frames] = frame
      if (!(frame in reading) || $5 / $4 < reading[frame]) reading[frame] = $5 / $4
      if (!(frame in writing) || $6 / $4 < writing[frame]) writing[frame] = $6 / $4 }
    END { for (i = 1; i <= frames; i++) {
              frame = order[i]; split(frame, words, " ")
              printf "%-8s of %8d bytes   read %7.1f MB/s %7.2f ns a byte   written %7.1f MB/s %7.2f ns a byte\n", words[1], words[2],
                  1000 / reading[frame], reading[frame], 1000 / writing[frame], writing[frame] } }' "$work/times"
