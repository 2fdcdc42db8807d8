#!/bin/sh
# What a session of puts of 100 bytes writes, and how long it takes, on an image with 10, 1,000 and 16,000 rows: the first put of a
# session, for which the whole image is saved, and those behind it, for which a record is appended. Beside it sqlite3 over a table of as
# many rows on the same file system, in WAL mode with synchronous FULL, one transaction a put; left out where it is missing. Bytes are
# those that the program passes to the system; of each figure the least of the runs is told.
#
#   bench/keep/run.sh [PUTS [RUNS]]    500 puts, at most 1,024, and 5 runs, where nothing else is said
#
# It wants the Debian packages coreutils, python3 and, for the second column, sqlite3, and writes in TMPDIR.
set -eu
# shellcheck source-path=SCRIPTDIR/.. source=common.sh
. "$(dirname "$0")/../common.sh"
wants python3 python3
sqlite=''
if has sqlite3 sqlite3; then sqlite=$(command -v sqlite3); fi
programs client
make_work
python3 "$here/puts.py" "$CLIENT" "$sqlite" "$work" "${1-500}" "${2-5}" &
begun
ended $!
