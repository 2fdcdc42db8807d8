#!/bin/sh
# Kills the client, the server, or both, with kill -9 at random moments of sessions of 50 lines (put, mkdir, mv, rm, run, sync), and goes on
# from the images that are left. Against a small model in Python: nothing that was answered is lost, nothing is applied twice, and
# both programs go on. It ends with 1 and the seed at the first difference.
#
#   bench/keep/kill.sh [MOMENTS [SEED]]       200 moments of a random seed, where nothing else is said
#
# It wants the Debian packages coreutils, dash and python3, and listens at 127.0.0.1 alone.
set -eu
# shellcheck source-path=SCRIPTDIR/.. source=common.sh
. "$(dirname "$0")/../common.sh"
wants python3 python3
programs server client
exec python3 "$here/kill.py" "$CLIENT" "$SERVER" "${1-200}" "${2-$(od -An -N4 -tu4 /dev/urandom | tr -d ' ')}"
