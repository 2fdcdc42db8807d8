#!/bin/sh
# What a sync takes over thin links with real TCP at both ends: a rate, a delay, a loss and a queue that drops, between two network
# namespaces. Values, small files and commands, beside rsync and rsync -z over links of their own: seconds, the connections that were
# asked for, and bytes with all headers. Each scene plays one sync, and all play side by side, so that the longest decides: some five
# minutes. Ends with 1 where a goal is missed.
#
#   bench/thin/run.sh [SCENE ..]    those whose names begin so; all but the long ones where none is named
#   bench/thin/run.sh --list        their names; a long one takes half an hour, and is played where its whole name stands
#   BEFORE=FOLDER ..                also over the three programs in FOLDER, and by FOLDER/import where it is there
#
# Wants root and /dev/net/tun, and the Debian packages python3, iproute2 and mawk (or gawk); rsync for its columns.
set -eu
# shellcheck source-path=SCRIPTDIR/.. source=common.sh
. "$(dirname "$0")/../common.sh"
wants python3 python3
if [ "${1-}" = --list ]; then exec python3 -B "$here/scenes.py" --list; fi
wants ip iproute2 awk mawk
[ "$(id -u)" = 0 ] || fail "only root makes network namespaces"
[ -c /dev/net/tun ] || fail "there is no /dev/net/tun, so no link can be made"
has rsync rsync || true
programs server surrogate client
exec python3 -B "$here/scenes.py" "$@"
