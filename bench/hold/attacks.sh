#!/bin/sh
# Commands that mean harm, each sent through a surrogate: whether it ends, what it reaches, and how long another client's command takes
# behind it. What only programs that run apart are kept from is left out where the surrogate says that it does not run them so. All is
# on loopback. Ends with 1 where a goal is missed.
#
#   bench/hold/attacks.sh [ATTACK ..]    those whose names begin so; all of them where none is named
#
# Wants the Debian package python3; bubblewrap, for programs that run apart.
set -eu
# shellcheck source-path=SCRIPTDIR/.. source=common.sh
. "$(dirname "$0")/../common.sh"
wants python3 python3
programs server client surrogate
exec python3 "$here/attacks.py" "$@"
