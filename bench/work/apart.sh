#!/bin/sh
# What a command costs more where programs run apart: the milliseconds of `run -- /bin/true` by a client, with HAURPIKO_APART=1 and
# without, in turns, and the medians of them. It says how far programs were kept apart. Ends with 1 where the difference is more than
# 40 ms.
#
#   bench/work/apart.sh [COUNT]    50 commands each way, where nothing else is said; WORK lies below TMPDIR; under a minute
#
# Wants the Debian package python3; bubblewrap, or else files are not kept apart.
set -eu
# shellcheck source-path=SCRIPTDIR/.. source=common.sh
. "$(dirname "$0")/../common.sh"
wants python3 python3
has bwrap bubblewrap || true
programs client
make_work
python3 -B "$here/apart.py" "$work" "${1-50}"
