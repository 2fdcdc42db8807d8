#!/bin/sh
# How long one client's sync of 20 commands of a second each takes over three surrogates, of which the first is killed on the way: once where
# the client's word names all three, joined by commas, and once where it names one balancer of TCP connections before them. Nothing may be
# lost: sync has to answer that all is synced, and another client has to get the same files. All stand on this machine, each surrogate with a
# folder of its own; they share nothing but the server.
#
#   bench/pool/run.sh [COMMANDS [SECOND]]    so many commands, 20 if left out; the first surrogate is killed in this second of the sync, the 5th
#                                            if left out
#
# Wants the Debian package haproxy for the balancer's line. It makes no health checks: each would be one of a surrogate's COUNT of connections.
set -eu
# shellcheck source-path=SCRIPTDIR/.. source=common.sh
. "$(dirname "$0")/../common.sh"
commands=${1:-20} second=${2:-5}
programs client server surrogate
make_work

# The lines that log the commands, and those that show what came of them.
logged() {
    seq "$commands" | sed "s|.*|run env=PATH=/usr/bin:/bin -- /bin/sh -c 'sleep 1; seq & 20000 > f&'|"
}
shown() { seq "$commands" | sed 's/.*/cat f&/'; }

# Starts program $1 with the words behind $2, which is its port, and waits until it listens there.
starts() {
    program=$1 at=$2
    shift 2
    "$program" "$@" 2>> "$work/errors" &
    begun
    await "$!" "$at" || fail "nothing listens at port $at"
}

# Starts a server and three surrogates of it, and puts their ports into `server` and `p`, `q`, `r`, and the process of the first into `first`.
start_all() {
    next_port
    server=$port
    starts "$SERVER" "$server" run "127.0.0.1:$server" "$work/$1.server" 65536
    ports=''
    for name in p q r; do
        next_port
        ports="$ports $port"
        starts "$SURROGATE" "$port" run "127.0.0.1:$port" "127.0.0.1:$server" "$work/$1.$name" 65536
        [ "$name" != p ] || first=$!
    done
    # shellcheck disable=SC2086
    set -- $ports
    p=$1 q=$2 r=$3
}

# A balancer of the three, each in turn; a connection that is refused goes to the next one.
balance() {
    next_port
    {
        printf 'defaults\n mode tcp\n timeout connect 5s\n timeout client 700s\n timeout server 700s\n retries 3\n option redispatch 1\n'
        printf 'listen surrogates\n bind 127.0.0.1:%s\n balance roundrobin\n' "$port"
        printf ' server p 127.0.0.1:%s\n server q 127.0.0.1:%s\n server r 127.0.0.1:%s\n' "$p" "$q" "$r"
    } > "$work/haproxy.cfg"
    starts haproxy "$port" -db -f "$work/haproxy.cfg"
}

# A session of client $2 of the measurement $1, with the surrogates $3.
session() {
    "$CLIENT" run "$2" "$work/$1.client$2" "127.0.0.1:$server" "$3" "$work/$1.jobs" 2>> "$work/$1.told"
}

# Logs, kills the first surrogate in the sync, and looks whether all came. $1 names it, $2 are the surrogates as the client is told them.
measure() {
    logged | session "$1" 1 - > "$work/$1.logged"
    began=$(clock)
    (sleep "$second"; kill -9 "$first" 2> /dev/null || true) &
    echo sync | session "$1" 1 "$2" > "$work/$1.synced"
    took=$(($(clock) - began))
    grep -qx "synced $commands" "$work/$1.synced" || fail "$1: sync answered $(head -n 1 "$work/$1.synced")"
    shown | session "$1" 1 - > "$work/$1.made"
    { echo pull; shown; } | session "$1" 2 - | sed 1d > "$work/$1.got"
    # the last line is the client's own account
    sed '$d' "$work/$1.made" > "$work/$1.mine"
    sed '$d' "$work/$1.got" | cmp -s - "$work/$1.mine" || fail "$1: another client gets other files"
    commanded=$(grep -c 'went as its command' "$work/$1.told" || true)
    printf '%-10s %6d.%d %10d of %d\n' "$1" "$((took / 1000))" "$((took % 1000 / 100))" "$commanded" "$commands"
}

printf '%-10s %8s %s\n' surrogates seconds 'went as commands'
start_all list
measure list "127.0.0.1:$p,127.0.0.1:$q,127.0.0.1:$r"
if has haproxy haproxy; then
    start_all balanced
    balance
    measure balanced "127.0.0.1:$port"
fi
