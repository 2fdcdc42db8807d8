#!/bin/sh
# How fast a text of some MB is made into pieces and opened again, and how many bytes these take: over an older version, in which one line
# in a thousand was another, and alone. The text is the sources of this repository. Beside it zstd and xdelta3, whole processes. MB/s of the
# text, the best of five runs in turn.
#
# Wants the Debian packages coreutils, findutils and mawk (or gawk); zstd and xdelta3 for their columns.
set -eu
# shellcheck source-path=SCRIPTDIR/.. source=common.sh
. "$(dirname "$0")/../common.sh"
wants awk mawk find findutils
make_work_in /dev/shm
find "$top/crates" -name out -prune -o -type f \( -name '*.rt' -o -name '*.antt' \) -print | LC_ALL=C sort | xargs cat > "$work/new"
awk 'NR % 1000 == 500 { print "a line that stood here before", NR; next } { print }' "$work/new" > "$work/old"
: > "$work/nothing"
size=$(wc -c < "$work/new")
bench b_pieces
peers=''
if has zstd zstd; then peers="$peers zstd"; fi
if has xdelta3 xdelta3; then peers="$peers xdelta3"; fi

# Makes $work/made of the new text over $2, by the peer $1, and $work/back of that.
makes() {
    case $1 in
    zstd) zstd -q -f -3 --long=27 ${2:+--patch-from="$2"} "$work/new" -o "$work/made" ;;
    xdelta3) xdelta3 -e -f -q ${2:+-s "$2"} "$work/new" "$work/made" ;;
    esac
}
opens() {
    case $1 in
    zstd) zstd -q -f -d --long=27 ${2:+--patch-from="$2"} "$work/made" -o "$work/back" ;;
    xdelta3) xdelta3 -d -f -q ${2:+-s "$2"} "$work/made" "$work/back" ;;
    esac
}

for _ in 1 2 3 4 5; do
    for over in old nothing; do
        known=''
        [ "$over" = nothing ] || known=$work/$over
        measured b_pieces "$work/$over" "$work/new" |
            awk -v over="$over" '{ print over, "pieces", $1, $2, $5, $3, "steps,", $4, "new bytes" }'
        for peer in $peers; do
            first=$(date +%s%N)
            makes "$peer" "$known"
            second=$(date +%s%N)
            opens "$peer" "$known"
            third=$(date +%s%N)
            cmp -s "$work/new" "$work/back" && same=same || same=other
            echo "$over $peer $((second - first)) $((third - second)) $same $(wc -c < "$work/made") bytes"
        done
    done
done > "$work/times"
awk -v size="$size" '
    { key = $1 " " $2; what = ""; for (i = 6; i <= NF; i++) what = what " " $i }
    !(key in making) { order[++count] = key; making[key] = $3; opening[key] = $4 }
    $3 < making[key] { making[key] = $3 }
    $4 < opening[key] { opening[key] = $4 }
    { made[key] = what; if ($5 != "same") made[key] = " WRONG" }
    END { printf "%d bytes of text, MB/s        making   opening\n", size
          for (i = 1; i <= count; i++) {
              key = order[i]; split(key, parts, " ")
              over = parts[1] == "old" ? "over an older one" : "alone"
              printf "%-18s %-8s %10.1f %9.1f  %s\n", over, parts[2], size / making[key] * 1000,
                  size / opening[key] * 1000, made[key] } }' "$work/times"
