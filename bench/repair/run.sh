#!/bin/sh
# Seconds and memory of `repair` on 8 MiB with no difference, with 16 symbols changed in one block, in each of the 65 blocks, and with 17
# changed in one, which is beyond repair; beside them `sketch_of` of the same bytes, and a plain decoder in C built with -O2, in turn:
# one thread each, the best of three runs. The ratio is the decoder's time by ours.
#
# Wants the Debian packages coreutils, gcc, libc6-dev and mawk (or gawk). With TRY=1 our memory is left out.
set -eu
# shellcheck source-path=SCRIPTDIR/.. source=common.sh
. "$(dirname "$0")/../common.sh"
wants cc gcc awk mawk
make_work_in /dev/shm
head -c 8388608 /dev/urandom > "$work/content"
cc -O2 -o "$work/decoder" "$here/decoder.c"
bench b_times
printf '%-28s %9s %9s %9s %7s %12s %12s\n' case sketch_of repair decoder ratio 'repair KiB' 'decoder KiB'
while read -r blocks symbols name; do
    for _ in 1 2 3; do
        echo "ours $(measured b_times repair "$work/content" "$blocks" "$symbols" < /dev/null)"
        echo "theirs $("$work/decoder" "$work/content" "$blocks" "$symbols")"
    done > "$work/times"
    ours=0
    [ -n "${TRY-}" ] ||
        ours=$("$work/decoder" peak "$top/crates/b_times/out/b_times" repair "$work/content" "$blocks" "$symbols" | tail -n 1)
    theirs=$("$work/decoder" peak "$work/decoder" "$work/content" "$blocks" "$symbols" | tail -n 1)
    awk -v name="$name" -v ours="$ours" -v theirs="$theirs" '
        $2 != "-" && (!sketch || $2 < sketch) { sketch = $2 }
        !($1 in best) || $3 < best[$1] { best[$1] = $3 }
        { answers[$4] = 1 }
        END { for (a in answers) { given = given " " a; n++ }
              printf "%-28s %9.3f %9.3f %9.3f %7.2f %12d %12d %s\n", name, sketch / 1e9, best["ours"] / 1e9,
                     best["theirs"] / 1e9, best["theirs"] / best["ours"], ours, theirs, (n == 1 ? given : "DIFFERENT" given) }' "$work/times"
done << 'END'
0 0 no difference
1 16 16 symbols of one block
65 16 16 symbols of each block
1 17 17 symbols of one block
END
