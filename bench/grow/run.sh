#!/bin/sh
# How the cost of a line grows with the rows of the tree, the bytes of the files, the entries that wait and the depth of a path: the
# milliseconds of processor of client, server and surrogate themselves (not of the programs that they run), the bytes that each writes,
# and the seconds by the clock. Lines that are played several times have their least. All is on loopback.
#
#   bench/grow/run.sh [KIND [N ..]]    rows, bytes (N in MiB), pending, depth; work: a command over N rows with WORK on the disk and
#                                      on a tmpfs; without words all of them by some N, in about ten minutes
#   TMPDIR=FOLDER ..                   where images and WORK lie; MEMORY=FOLDER: a tmpfs that programs may run on (/dev/shm)
#
# Wants the Debian packages python3 and dash.
set -eu
# shellcheck source-path=SCRIPTDIR/.. source=common.sh
. "$(dirname "$0")/../common.sh"
wants python3 python3
programs server surrogate client
exec python3 -B "$here/grow.py" "$@"
