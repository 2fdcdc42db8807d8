# shellcheck shell=sh
# What the scripts below bench/ and oracle/ share. Each sources it at its begin, by its path from the script's folder.
#
# Over which programs a script runs:
#   CLIENT=.. SERVER=.. SURROGATE=..   these, each where it is named
#   PROGRAMS=FOLDER                    else those of FOLDER; `./demo --keep FOLDER` builds some in minutes, which are not proved
#                                      else the proved ones, which are built then
# Crates that measure are proved and built, or with TRY=1 built by `rt try` at each run, which proves nothing.

# The script's own folder, and that of the repository.
# shellcheck disable=SC2034
here=$(cd "$(dirname "$0")" && pwd)
top=$(cd "$(dirname "$0")/../.." && pwd)
work='' started='' port=$((20000 + $$ % 12000))

fail() {
    echo "${0#"$top"/}: $1" >&2
    exit 1
}

# Ends with 2, and names the Debian packages, where commands are missing: COMMAND PACKAGE, and so on.
wants() {
    missing=''
    while [ $# -gt 0 ]; do
        command -v "$1" > /dev/null || missing="$missing $2"
        shift 2
    done
    if [ -n "$missing" ]; then
        echo "it wants the Debian packages$missing" >&2
        exit 2
    fi
}

# Whether the command $1 of the package $2 is there; where it is not, says that its columns are left out.
has() {
    command -v "$1" > /dev/null || {
        echo "without the package $2 its columns are left out" >&2
        return 1
    }
}

# Makes the folder `work`, below $1 where that can be had. It goes when the script ends, and what was begun is ended.
make_work_in() {
    work=$(mktemp -d -p "$1" 2> /dev/null || mktemp -d)
    trap clean EXIT
    trap 'exit 130' INT
    trap 'exit 143' TERM HUP
}
clean() {
    trap '' INT TERM HUP
    for process in $started; do kill "$process" 2> /dev/null || true; done
    for process in $started; do wait "$process" 2> /dev/null || true; done
    rm -rf "$work"
}
make_work() { make_work_in "${TMPDIR:-/tmp}"; }

# Notes the process that was begun last.
begun() { started="$started $!"; }

# Waits for the end of process $1, and gives its status.
ended() {
    status=0
    wait "$1" || status=$?
    others=''
    for process in $started; do
        [ "$process" = "$1" ] || others="$others $process"
    done
    started=$others
    return "$status"
}

# Proves and builds the crate $1. What that says is shown where it fails.
prove() {
    echo "$1 is proved and built, where it is not yet" >&2
    said=$(mktemp)
    if (cd "$top/crates/$1" && rt run -- --version) > "$said" 2>&1; then
        rm -f "$said"
    else
        cat "$said" >&2
        rm -f "$said"
        fail "$1 is not proved"
    fi
}

# Gives each of the programs client, server and surrogate its variable.
programs() {
    for name in "$@"; do
        case $name in
        client) found=${CLIENT-} ;;
        server) found=${SERVER-} ;;
        *) found=${SURROGATE-} ;;
        esac
        if [ -z "$found" ] && [ -n "${PROGRAMS-}" ]; then
            found=$(cd "$PROGRAMS" && pwd)/$name
        elif [ -z "$found" ]; then
            prove "$name"
            found=$top/crates/$name/out/$name
        fi
        [ -x "$found" ] || fail "there is no program $found"
        case $name in
        client) export CLIENT="$found" ;;
        server) export SERVER="$found" ;;
        *) export SURROGATE="$found" ;;
        esac
    done
}

# Proves and builds the crate $1, which measures.
bench() {
    [ -n "${TRY-}" ] || prove "$1"
}

# Runs the crate $1, which measures, with the other words.
measured() {
    crate=$1
    shift
    if [ -n "${TRY-}" ]; then
        (cd "$top/crates/$crate" && rt try --seconds 900 -- "$@")
    else
        "$top/crates/$crate/out/$crate" "$@"
    fi
}

# Whether a socket of this machine has the port $1, and whether something listens at it. Neither makes a connection.
is_taken() {
    cat /proc/net/tcp /proc/net/tcp6 2> /dev/null | awk -v port="$(printf ':%04X' "$1")" '
        substr($2, length($2) - 4) == port { found = 1 } END { exit !found }'
}
is_heard() {
    awk -v address="$(printf '0100007F:%04X' "$1")" '$2 == address && $4 == "0A" { found = 1 } END { exit !found }' /proc/net/tcp
}

# Puts the next port that no socket has into `port`.
next_port() {
    port=$((20000 + (port - 20000 + 1) % 12000))
    while is_taken "$port"; do
        port=$((20000 + (port - 20000 + 1) % 12000))
    done
}

# Waits until process $1 listens at port $2, a minute at most. Gives whether it does.
await() {
    left=3000
    until is_heard "$2"; do
        left=$((left - 1))
        [ "$left" -gt 0 ] && kill -0 "$1" 2> /dev/null || return 1
        sleep 0.02
    done
}

# The milliseconds of a clock.
clock() { echo $(($(date +%s%N) / 1000000)); }
