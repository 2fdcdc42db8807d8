#!/bin/sh
# A file of 8 MiB that is put and synced over loopback, beside rsync to a daemon in the same run: the whole time of the client from its
# start to its end, with an image or a record kept by either side before each answer, and the whole time of `rsync -a` and of
# `rsync -a --fsync`. The least of five turns each, which take turns.
#
# Wants the Debian packages coreutils and mawk (or gawk); rsync for its columns.
set -eu
# shellcheck source-path=SCRIPTDIR/.. source=common.sh
. "$(dirname "$0")/../common.sh"
wants awk mawk base64 coreutils
size=8388607

# The milliseconds that a command takes; what it says goes to a file.
spent() {
    start=$(clock)
    "$@" > "$work/said" 2>&1 || { cat "$work/said" >&2; exit 1; }
    echo $(($(clock) - start))
}

# Puts and syncs the file, from the lines.
session() {
    "$CLIENT" run 1 "$work/client$1" "127.0.0.1:$port" - "$work/programs" < "$work/lines"
}

programs server client
make_work
mkdir "$work/from" "$work/to"
head -c $((size * 3 / 4)) /dev/urandom | base64 -w 0 | head -c "$size" > "$work/text"
{ printf "put big '"; cat "$work/text"; printf "'\nsync\n"; } > "$work/lines"
{ cat "$work/text"; echo; } > "$work/from/big"
next_port
peer=$port daemon=''
if has rsync rsync; then
    printf 'use chroot = no\nuid = %s\ngid = %s\n[all]\npath = %s\nread only = no\n' "$(id -u)" "$(id -g)" "$work/to" > "$work/conf"
    rsync --daemon --no-detach "--config=$work/conf" "--port=$peer" --address=127.0.0.1 "--log-file=$work/log" &
    daemon=$!
    begun
    await "$daemon" "$peer" || fail "rsync does not listen"
fi
for turn in 1 2 3 4 5; do
    next_port
    "$SERVER" run "127.0.0.1:$port" "$work/server$turn" 1 > "$work/served" 2>&1 &
    server=$!
    begun
    await "$server" "$port" || fail "the server does not listen"
    ours=$(spent session "$turn")
    grep -q '^synced 1$' "$work/said" || fail "the put was not accepted"
    ended "$server"
    theirs=- synced=-
    if [ -n "$daemon" ]; then
        rm -f "$work/to/big"
        theirs=$(spent rsync -a "$work/from/" "rsync://127.0.0.1:$peer/all/")
        rm -f "$work/to/big"
        synced=$(spent rsync -a --fsync "$work/from/" "rsync://127.0.0.1:$peer/all/")
        cmp -s "$work/from/big" "$work/to/big" || fail "rsync carried something else"
    fi
    echo "$ours $theirs $synced"
done > "$work/times"
awk '
    { for (i = 1; i <= 3; i++) if (NR == 1 || $i < least[i]) least[i] = $i }
    END { printf "put and sync of 8 MiB %d ms", least[1]
          if (least[2] != "-") printf "   rsync -a %d ms   rsync -a --fsync %d ms", least[2], least[3]
          print "" }' "$work/times"
