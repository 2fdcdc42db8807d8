#!/bin/sh
# Checks each certificate of crates/t_calls/data/table.scenes, its fronts, and it with another byte at each place, by `client check` over
# pipes, one process each, and compares what is written and the status with the table.
#
# Wants the Debian package python3.
set -eu
# shellcheck source-path=SCRIPTDIR/.. source=common.sh
. "$(dirname "$0")/../common.sh"
wants python3 python3
programs client
python3 "$here/table.py" "$CLIENT" "$top/crates/t_calls/data/table.scenes"
