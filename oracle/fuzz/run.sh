#!/bin/sh
# Random frames, images, lines and words against the built programs client, server and surrogate, over loopback. A second reader of frames
# and images, a second tree, a second server and a second shell in Python say what each is answered, and but for why an operation is
# declined, and for replies, it has to be that, byte for byte:
#   frames   valid ones of all kinds, spoilt ones, random bytes, lengths that lie, several in one connection, and connections that are
#            broken off; after the last one the server ends with 0, and its image has what was taken
#   images   of client and server, of versions 1 and 2, that the programs wrote themselves, spoilt: each is opened, and told what is in it,
#            or is refused with 6 and left as it is
#   replies  of a false server to a client: valid ones, spoilt ones and none. Each line is answered by a form of docs/ANSWERS.md, the
#            status is 0, and the image has the numbers of the last line
#   lines    words, quotes and odd bytes: sessions of four clients with one server, with syncs and pulls, each again on its image, also
#            behind a server that was ended or lost its image, with a full log, and with too long an input
#   words    of the command line: a status of docs/ANSWERS.md, with its line on standard error
# No program is ended by a signal, or takes longer than two minutes. It ends with 1 where anything differs, and tells each finding.
#
#   oracle/fuzz/run.sh [COUNT [SECONDS [SEED [ROUND]]]]
#
# COUNT cases at least, or as many as come in SECONDS: 50,000 and 120, where nothing else is said. SEED is chosen by chance and told. A
# finding says its round: over the same programs COUNT, SECONDS, SEED and ROUND play just that one again. JOBS rounds are played side by
# side: one for each processor, where nothing else is said. Where PROGRAMS has not all three programs it says what it could not try.
#
# It wants the Debian package python3, and listens at 127.0.0.1 alone.
set -eu
# shellcheck source-path=SCRIPTDIR/../../bench source=common.sh
. "$(dirname "$0")/../../bench/common.sh"
wants python3 python3
for name in server surrogate client; do
    if [ -n "${PROGRAMS-}" ] && ! [ -e "$PROGRAMS/$name" ]; then
        echo "there is no $PROGRAMS/$name" >&2
    else
        programs "$name"
    fi
done
[ -n "${SERVER-}" ] || fail "it wants a server"
make_work_in /dev/shm
export WORK="$work" PYTHONDONTWRITEBYTECODE=1
python3 "$here/fuzz.py" "${1-50000}" "${2-120}" "${3-$(od -An -N4 -tu4 /dev/urandom | tr -d ' ')}" ${4+"$4"} &
begun
ended $!
