#!/bin/sh
# Refuses each allocation of a program in turn, over loopback: the first one of a run, the second one of the next, and so on, until a run has
# none of that number. The runs are sessions with each kind of line, with a server and a surrogate beside them. Compared are:
#   - of the client: status 7 and a front of the answers, or, where it can do without that memory, status 0 and all of them
#   - of the server and of the surrogate: status 7, or 1 where they cannot listen and say that memory was wanted, or they go on; one that
#     ended is started again, as a service is. Either way the client has to end with status 0 and with all the answers of a run where
#     nothing was refused
#   - behind each run: a client and a server open what was kept; each entry that was answered is there, and one more at most; what waits is
#     synced, and another client then has the same files
# It prints how many runs ended in which way, and ends with 1 where one differs.
#
#   bench/memory/run.sh [PROGRAM ..]    of these programs: client, server, surrogate; of all three where none is named
#
# Wants the Debian packages gcc, libc6-dev and python3.
set -eu
# shellcheck source-path=SCRIPTDIR/.. source=common.sh
. "$(dirname "$0")/../common.sh"
wants cc gcc python3 python3
programs client server surrogate
make_work
cc -O2 -shared -fPIC -o "$work/fail_nth.so" "$here/fail_nth.c"
TMPDIR=$work FAIL_NTH_SO=$work/fail_nth.so python3 "$here/refused.py" "$@"
