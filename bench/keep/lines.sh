#!/bin/sh
# The seconds that logged lines take, of which the first writes the client's whole image, and each later one appends a record, and
# syncs it to the disk: on an empty base, and on a base of 32 MiB; beside them a program in Python that writes, syncs and renames a
# file of the first length, and appends as many pieces, each synced.
#
#   bench/keep/lines.sh [LINES [LINES ON 32 MIB]]    1000 and 100 of them, where nothing else is said
#
# It wants the Debian packages coreutils, mawk (or gawk) and python3, and writes in TMPDIR.
set -eu
# shellcheck source-path=SCRIPTDIR/.. source=common.sh
. "$(dirname "$0")/../common.sh"
wants python3 python3 awk mawk
programs client
make_work

# The client over so many puts, on the image that is there.
measure() {
    awk -v count="$2" 'BEGIN { for (i = 0; i < count; i++) print "put n" i " x" }' > "$work/lines"
    start=$(clock)
    "$CLIENT" run 1 "$work/image" 127.0.0.1:1 - work < "$work/lines" > "$work/answers" || fail "the client ended with $?"
    spent=$(($(clock) - start))
    [ "$(grep -c '^logged ' "$work/answers")" = "$2" ] || fail "a line was not logged"
    size=$(wc -c < "$work/image")
    beside=$(python3 - "$work" "$2" "$3" "$size" << 'PYTHON'
import os, sys, time
folder, count, least, most = sys.argv[1], *map(int, sys.argv[2:])
began = time.monotonic()
with open(f"{folder}/beside.new", "wb") as it:
    it.write(bytes(least))
    it.flush()
    os.fsync(it.fileno())
os.rename(f"{folder}/beside.new", f"{folder}/beside")
for i in range(1, count):
    with open(f"{folder}/beside", "ab") as it:
        it.write(bytes((most - least) * (i + 1) // count - (most - least) * i // count))
        it.flush()
        os.fsync(it.fileno())
print(round((time.monotonic() - began) * 1000))
PYTHON
    )
    echo "$1: $2 lines in $spent ms, at the end $size bytes are kept; a file and as many pieces behind it, each synced: $beside ms"
}

measure "on an empty base" "${1-1000}" 22
python3 - "$work/image" << 'PYTHON'
import struct, sys
# Client 1, four files, together as many bytes as leave room for the lines; no entry waits.
sizes = [8388608] * 3 + [8388608 - 65536]
with open(sys.argv[1], "wb") as it:
    it.write(b"OSCI\x02\x01" + struct.pack(">QI", len(sizes), len(sizes)))
    for i, size in enumerate(sizes):
        it.write(struct.pack(">HBQBI", 1, 97 + i, 1, 2, size) + bytes(size))
    it.write(bytes(4))
PYTHON
measure "on a base of 32 MiB" "${2-100}" "$(wc -c < "$work/image")"
