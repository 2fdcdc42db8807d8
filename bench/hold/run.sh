#!/bin/sh
# How long peers of other kinds hold up a client's sync, whether many clients are served side by side, and whether a server without
# handles lives and one on a full disk leaves its image. The disk is mounted where root runs this, and else left out. All scenes run
# side by side, on loopback, each with a server of its own; the longest takes some 70 seconds. Ends with 1 where a goal is missed.
#
#   bench/hold/run.sh [SCENE ..]    those whose names begin so; all of them where none is named
#
# Wants the Debian package python3.
set -eu
# shellcheck source-path=SCRIPTDIR/.. source=common.sh
. "$(dirname "$0")/../common.sh"
wants python3 python3
programs server client
exec python3 "$here/scenes.py" "$@"
