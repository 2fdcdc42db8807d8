#!/bin/sh
# MB/s of `sketch_of` on 8 MiB, and of `par2 create` with 32 recovery blocks of 131,072 bytes on the same file: one thread each,
# the best of five runs in turn. par2 writes its files to memory.
#
# Wants the Debian packages coreutils and mawk (or gawk); par2 for its column.
set -eu
# shellcheck source-path=SCRIPTDIR/.. source=common.sh
. "$(dirname "$0")/../common.sh"
wants awk mawk
make_work_in /dev/shm
head -c 8388608 /dev/urandom > "$work/content"
bench b_times
peer=''
if has par2 par2; then peer=par2; fi
for _ in 1 2 3 4 5; do
    measured b_times repair "$work/content" 0 0 | awk '{ print "ours", $1 }'
    if [ -n "$peer" ]; then
        rm -f "$work"/*.par2
        begin=$(date +%s%N)
        par2 create -q -q -t1 -s131072 -c32 "$work/content.par2" "$work/content" > /dev/null
        end=$(date +%s%N)
        echo "theirs $((end - begin))"
    fi
done > "$work/times"
awk '
    !($1 in best) || $2 < best[$1] { best[$1] = $2 }
    END { ours = 8388608 / best["ours"] * 1000
          printf "sketch_of    %7.1f MB/s\n", ours
          if ("theirs" in best) {
              theirs = 8388608 / best["theirs"] * 1000
              printf "par2 create  %7.1f MB/s\nratio        %7.2f\n", theirs, ours / theirs } }' "$work/times"
