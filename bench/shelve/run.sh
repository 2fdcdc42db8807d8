#!/bin/sh
# Sets a stuck log aside over loopback, and compares what each program answers with what it has to answer. Two clients write the path `a`, the
# second one first, so that the first client's log is stuck; it has a command's two files behind that. `shelve` makes a log of a third client
# out of it. Compared are:
#   - the sync of the first client, which is stale
#   - a shelve while a session has IMAGE: status 5, no answer, no NEWIMAGE
#   - while a shelve waits for a server that was stopped: sessions over IMAGE and over NEWIMAGE and another shelve, each with status 5
#   - the answers of that shelve once the server goes on, and that IMAGE has the bytes that it had
#   - what the third client then syncs, and what a fourth one pulls: `a` as the second client wrote it, and in the folder `s` each content
#     of the first client, so that nothing of either is lost
#   - refusals: without IMAGE, with a NEWIMAGE that is no new client's, and where nothing waits
# It prints a line for each, and ends with 1 at the first that differs.
#
# Wants the Debian packages coreutils, diffutils, grep and mawk (or gawk).
set -eu
# shellcheck source-path=SCRIPTDIR/.. source=common.sh
. "$(dirname "$0")/../common.sh"
wants awk mawk cmp diffutils grep grep
programs client server
make_work
next_port
"$SERVER" run "127.0.0.1:$port" "$work/server.image" 64 > "$work/served" 2>&1 &
server=$!
begun
await "$server" "$port" || fail "the server does not listen"

# The session of client $1, whose image is img$1.
session() { "$CLIENT" run "$1" "$work/img$1" "127.0.0.1:$port" - "$work/jobs" 2> "$work/told"; }

# Sets the log of client $1 aside, for client $2.
shelve() { "$CLIENT" shelve "$1" "$work/img$1" "$2" "$work/img$2" "127.0.0.1:$port" s 2> "$work/told"; }

# Runs a command, whose answers go to `got` and whose status goes to `came`.
run() {
    came=0
    "$@" > "$work/got" || came=$?
}

# Whether the last command ended with status $2 and these answers, one a word. $1 says what is compared.
answers() {
    what=$1 status=$2
    shift 2
    : > "$work/want"
    [ $# -eq 0 ] || printf '%s\n' "$@" > "$work/want"
    if [ "$came" != "$status" ] || ! cmp -s "$work/want" "$work/got"; then
        echo "$what: status $came, not $status; wanted (<) and got (>):" >&2
        diff "$work/want" "$work/got" >&2 || true
        cat "$work/told" >&2
        exit 1
    fi
    echo "$what: as wanted"
}

# Whether file $2 has the bytes of file $3. $1 says what is compared.
has_bytes() {
    cmp "$2" "$3" >&2 || fail "$1: other bytes"
    echo "$1: as wanted"
}

# Waits until client programs have $1 connections with the server that stand, ten seconds at most.
stand() {
    left=500
    until [ "$(awk -v address="$(printf '0100007F:%04X' "$port")" '$3 == address && $4 == "01"' /proc/net/tcp | wc -l)" -ge "$1" ]; do
        left=$((left - 1))
        [ "$left" -gt 0 ] || fail "no client has asked the server"
        sleep 0.02
    done
}

# Two clients write one path.
printf '%s\n' "put a 'of the first'" "run env=PATH=/usr/bin:/bin -- /bin/sh -c 'echo left > b; echo right > c'" > "$work/lines"
run session 1 < "$work/lines"
answers "the first client's lines" 0 'logged 1' 'logged 2 status 0' 'acknowledged 0 pending 2'
printf '%s\n' "put a 'of the second'" sync > "$work/lines"
run session 2 < "$work/lines"
answers "the second client's sync" 0 'logged 1' 'synced 1' 'acknowledged 1 pending 0'
echo sync > "$work/sync"
run session 1 < "$work/sync"
answers "the first client's sync" 0 'stale 1 a 1 0' 'acknowledged 0 pending 2'
cp "$work/img1" "$work/before"

# A session has IMAGE.
mkfifo "$work/typed"
session 1 < "$work/typed" > "$work/open" &
waiting=$!
begun
exec 3> "$work/typed"
echo status >&3
left=500
until grep -q '^acknowledged' "$work/open"; do
    left=$((left - 1))
    [ "$left" -gt 0 ] || fail "the session does not answer"
    sleep 0.02
done
run shelve 1 3
answers 'a shelve while a session has IMAGE' 5
[ ! -e "$work/img3" ] || fail 'there is a NEWIMAGE'
exec 3>&-
ended "$waiting" || fail "the session ended with $?"

# A shelve waits for the server.
kill -STOP "$server"
shelved=0
shelve 1 3 > "$work/shelved" 2> "$work/told_by_it" &
waiting=$!
begun
stand 1
run session 1 < "$work/sync"
answers 'a session over IMAGE while a shelve waits' 5
run session 3 < "$work/sync"
answers 'a session over NEWIMAGE while a shelve waits' 5
run shelve 1 3
answers 'another shelve while one waits' 5
kill -CONT "$server"
ended "$waiting" || shelved=$?
cp "$work/shelved" "$work/got"
came=$shelved
answers 'the shelve' 0 'f 1.0 a' 'f 2.0 b' 'f 2.1 c' 'shelved 2 entries 3 files'
has_bytes 'IMAGE behind it' "$work/img1" "$work/before"

# What was set aside goes to the server.
printf '%s\n' status sync > "$work/lines"
run session 3 < "$work/lines"
answers "the third client's sync" 0 'acknowledged 0 pending 3' 'synced 3' 'acknowledged 3 pending 0'
printf '%s\n' pull ls 'ls s' 'cat a' 'cat s/1.0' 'cat s/2.0' 'cat s/2.1' > "$work/lines"
run session 4 < "$work/lines"
answers 'the files of both at a fourth client' 0 'pulled 5' 2 'f a' 'd s' 3 'f 1.0' 'f 2.0' 'f 2.1' \
    14 'of the second' 13 'of the first' 5 left 6 right 'acknowledged 0 pending 0'

# What is refused.
run shelve 1 3
answers "a shelve into an image that has a log" 0 'refused NewImage'
run shelve 5 6
answers 'a shelve without IMAGE' 0 'refused NoImage'
run shelve 2 6
answers 'a shelve where nothing waits' 0 'refused NothingPending'
has_bytes 'IMAGE at last' "$work/img1" "$work/before"
