#!/bin/sh
# What seals cost, and what they keep out: the payload bytes of a sync, a pull and an operation with keys and without, over a proxy of this
# machine that counts; the time of 10,000 syncs of one put with keys and without, in turns; and strangers at a server, at a surrogate and
# between a client and its server, each of whom is to change nothing; and what a command reads of the keys. Keys are made by dist/key, and
# seals by the player in Python.
# Ends with 1 where something is not as wanted. With builds of `rt try` take fewer SYNCS.
#
#   bench/seals/run.sh [PART ..]    parts: bytes time strangers starts hidden; all of them where none is named
#   SYNCS=10000                     how many syncs are timed with keys, and how many without
#
# Wants the Debian package python3.
set -eu
# shellcheck source-path=SCRIPTDIR/.. source=common.sh
. "$(dirname "$0")/../common.sh"
wants python3 python3
for part in "$@"; do
    case $part in
    bytes | time | strangers | starts | hidden) ;;
    *)
        echo "bench/seals/run.sh: the parts are bytes, time, strangers, starts and hidden" >&2
        exit 2
        ;;
    esac
done
programs server surrogate client
exec python3 -B "$here/seals.py" "$@"
