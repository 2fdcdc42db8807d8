#!/bin/sh
# Syncs a second of many clients, one after the other and side by side: each is a client of its own that puts one small file, syncs and
# quits. Beside it as many runs of rsync that bring a small file to a daemon, and pushes of git of one commit to a daemon. All take turns;
# each figure is the least of three rounds: milliseconds by the clock, and of processor of the client and of the server. On loopback.
#
#   bench/sync/peers.sh [CLIENTS [ROUNDS]]    16 clients, 64 at most, and 3 rounds, where nothing else is said; under a minute
#
# Wants the Debian package python3; rsync, git for their columns.
set -eu
# shellcheck source-path=SCRIPTDIR/.. source=common.sh
. "$(dirname "$0")/../common.sh"
wants python3 python3
has rsync rsync || true
has git git || true
programs server client
exec python3 -B "$here/peers.py" "${1-16}" "${2-3}"
