#!/bin/sh
# The root of 16,384 rows with 32 MiB beside SHA-256 over the bytes of their files, a certificate and its check, each within one process; and
# whole runs of `server root` and `server prove` over an image of these rows, and of `client check`. The best of five runs.
#
# Wants the Debian packages python3 and mawk (or gawk); openssl for its column.
set -eu
# shellcheck source-path=SCRIPTDIR/.. source=common.sh
. "$(dirname "$0")/../common.sh"
wants python3 python3 awk mawk
programs server client
bench b_times
make_work_in /dev/shm
python3 "$here/image.py" "$work/image"
peer=''
if has openssl openssl; then
    peer=openssl
    head -c 33552384 /dev/zero > "$work/bytes"
fi

# Prints the word $1 and the nanoseconds of the command behind it, whose output goes to `out`.
timed() {
    word=$1
    shift
    begin=$(date +%s%N)
    "$@" > "$work/out"
    end=$(date +%s%N)
    echo "$word $((end - begin))"
}

middle=ea/dp
for _ in 1 2 3 4 5; do
    measured b_times certificates | awk '{ print "hash", $1; print "root_of", $3; print "prove", $4; print "size", $5; print "check", $6
        if ($7 != "row") print "wrong", 0 }'
    [ -z "$peer" ] || timed openssl openssl dgst -sha256 "$work/bytes"
    timed server-root "$SERVER" root "$work/image"
    root=$(cat "$work/out")
    timed server-prove "$SERVER" prove "$work/image" "$middle"
    cp "$work/out" "$work/certificate"
    timed client-check "$CLIENT" check "$root" "$middle" < "$work/certificate"
    grep -q '^row 1 file 2064 ' "$work/out" || fail "the certificate was not taken: $(cat "$work/out")"
done > "$work/times"
awk '
    !($1 in best) || $2 < best[$1] { best[$1] = $2 }
    END {
        if ("wrong" in best) { print "the check found no row"; exit 1 }
        printf "SHA-256 of 33,552,384 bytes  %8.1f ms   %6.1f MB/s\n", best["hash"] / 1e6, 33552384 / best["hash"] * 1000
        if ("openssl" in best) printf "openssl dgst, the process    %8.1f ms\n", best["openssl"] / 1e6
        printf "root_of, 16,384 rows         %8.1f ms   %6.2f of SHA-256\n", best["root_of"] / 1e6, best["root_of"] / best["hash"]
        printf "prove                        %8.1f ms   %d bytes\n", best["prove"] / 1e6, best["size"]
        printf "check                        %8.3f ms\n", best["check"] / 1e6
        printf "server root, the process     %8.1f ms\n", best["server-root"] / 1e6
        printf "server prove, the process    %8.1f ms\n", best["server-prove"] / 1e6
        printf "client check, the process    %8.1f ms\n", best["client-check"] / 1e6
    }' "$work/times"
