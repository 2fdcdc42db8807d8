#!/bin/sh
# How many bytes a sort's output of 200,000 and of 8,384,508 bytes costs on the way to the server: as values, by rsync, by rsync -z, by
# xz -9, and as the command that made it; the sort's input is there before. Then the same at 9,600 bits a second, and a command of 45
# seconds. And what 100 new files of six bytes cost, beside rsync and rsync -z, at full speed and at 9,600 bits a second. All goes over one
# proxy of this machine that counts payload bytes both ways. It takes some six minutes, and ends with 1 where a goal is missed.
#
#   bench/link/run.sh [SCENE ..]    scenes: bytes files held long; all of them where none is named
#
# Wants the Debian packages python3, coreutils, dash and mawk (or gawk); rsync and xz-utils for their columns.
set -eu
# shellcheck source-path=SCRIPTDIR/.. source=common.sh
. "$(dirname "$0")/../common.sh"
wants python3 python3 awk mawk
has rsync rsync || true
has xz xz-utils || true
programs server surrogate client
exec python3 -B "$here/link.py" "$@"
