#!/bin/sh
# How much memory a content takes on its way, and how often it is moved: a put of 8 MiB and its sync, a pull of 32 MiB into an empty
# client, and a command whose output has 8 MiB and its operation. Of each program of a scene it prints the most memory that it had
# (VmHWM) and the bytes that it moved by memcpy and memmove, in calls of at least 4,096 bytes: each less what the same scene takes
# with 4,096 bytes, and as times the content. It takes half a minute, and ends with 1 where a goal is missed.
#
#   bench/memory/copies.sh [SCENE ..]    scenes: put pull run; all of them where none is named
#
# Wants the Debian packages gcc, libc6-dev, coreutils, dash and mawk (or gawk).
set -eu
# shellcheck source-path=SCRIPTDIR/.. source=common.sh
. "$(dirname "$0")/../common.sh"
wants cc gcc awk mawk
programs server surrogate client
make_work
surrogate=''
cc -O2 -shared -fPIC -o "$work/count_moved.so" "$here/count_moved.c" -ldl

# Starts a server that takes $1 connections. Its figures go to the file server.
start_server() {
    next_port
    server_port=$port
    COUNT_TO="$work/server" LD_PRELOAD="$work/count_moved.so" \
        "$SERVER" run "127.0.0.1:$server_port" "$work/server.image" "$1" > "$work/served" 2>&1 &
    server=$!
    begun
    await "$server" "$server_port" || fail "the server does not listen"
}

# Starts a surrogate that takes one operation. Its figures go to the file surrogate.
start_surrogate() {
    next_port
    surrogate_port=$port
    COUNT_TO="$work/surrogate" LD_PRELOAD="$work/count_moved.so" \
        "$SURROGATE" run "127.0.0.1:$surrogate_port" "127.0.0.1:$server_port" "$work/far" 1 > "$work/served_too" 2>&1 &
    surrogate=$!
    begun
    await "$surrogate" "$surrogate_port" || fail "the surrogate does not listen"
}

# Has client $1 answer the lines of the file lines, with the surrogate at $2; the last line but one of its answers has to be $3.
# Its figures go to the file client.
talk() {
    COUNT_TO="$work/client" LD_PRELOAD="$work/count_moved.so" \
        "$CLIENT" run "$1" "$work/client.image" "127.0.0.1:$server_port" "$2" "$work/near" < "$work/lines" > "$work/answers" \
        || fail "the client ended with status $?"
    tail -n 2 "$work/answers" | head -n 1 | grep -q "^$3" || { cat "$work/answers" >&2; fail "the client did not answer $3"; }
}

# Waits for the end of what was started.
rest() {
    ended "$server" || { cat "$work/served" >&2; fail "the server failed"; }
    if [ -n "$surrogate" ]; then
        ended "$surrogate" || { cat "$work/served_too" >&2; fail "the surrogate failed"; }
        surrogate=''
    fi
}

# A file of $1 bytes is put, and synced.
scene_put() {
    start_server 1
    {
        printf 'put a '
        head -c "$(($1 - 1))" /dev/zero | tr '\0' x
        printf '\nsync\nquit\n'
    } > "$work/lines"
    talk 1 - 'synced 1'
    rest
}

# A line whose command makes files of these names, of $1 bytes each.
make_line() {
    each=$1
    shift
    printf "run env=PATH=/usr/bin:/bin -- /bin/sh -c 'for i in %s; do head -c %s /dev/zero > \$i; done'\n" "$*" "$each"
}

# A client without files pulls four files of $1 / 4 bytes each.
scene_pull() {
    start_server 1
    {
        make_line "$(($1 / 4))" a b c d
        printf 'sync\nquit\n'
    } > "$work/lines"
    talk 1 - 'synced 1'
    rest
    rm -f "$work/client.image"
    start_server 1
    printf 'pull\nquit\n' > "$work/lines"
    talk 2 - 'pulled 4'
    rest
}

# A command makes a file of $1 bytes, and is shipped as an operation.
scene_run() {
    start_server 1
    start_surrogate
    {
        make_line "$1" a
        printf 'sync\nquit\n'
    } > "$work/lines"
    talk 1 "127.0.0.1:$surrogate_port" 'synced 1'
    rest
}

# Plays scene $1 with $2 bytes, and without them. Prints the figures of the programs $4 .., and checks that none takes more than $3
# times the content.
measure() {
    scene=$1 size=$2 most=$3
    shift 3
    for bytes in 4096 "$size"; do
        "scene_$scene" "$bytes"
        for name in "$@"; do
            mv "$work/$name" "$work/$name.$bytes"
        done
        rm -rf "$work"/*.image "$work"/*.lock "$work/near" "$work/far"
    done
    for name in "$@"; do
        cat "$work/$name.4096" "$work/$name.$size" | awk -v scene="$scene" -v name="$name" -v size="$size" -v most="$most" '
            { peak[NR] = $1; moved[NR] = $2 }
            END {
                times = (peak[2] - peak[1]) / size
                goal = times > most ? "   (goal: " most ")" : ""
                printf "%-5s %-10s %9d bytes   peak %10d more, %5.2f times   moved %10d more, %5.2f times%s\n", scene, name, size,
                    peak[2] - peak[1], times, moved[2] - moved[1], (moved[2] - moved[1]) / size, goal
                exit (times > most)
            }' || missed=1
    done
}

missed=0
[ $# -gt 0 ] || set -- put pull run
for scene in "$@"; do
    case $scene in
    put) measure put 8388608 3.5 client server ;;
    pull) measure pull 33554432 2.2 client server ;;
    run) measure run 8388608 4 client surrogate ;;
    *) fail "no scene is called $scene" ;;
    esac
done
exit "$missed"
