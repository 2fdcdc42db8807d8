#!/bin/bash
# Whether the programs install, run from where they were installed, and leave no file when they are removed. In folders of its own: the
# pages are shown, without a word of mandoc and groff, and have the answers that `questions` asks for; dist/install installs below a
# PREFIX and below a DESTDIR, and removes; dist/package makes the same package twice, which is unpacked, and installed and removed by
# dpkg in a root folder of its own. From each of the three places runs the session of the client's page, and one whose commands go as
# commands; from PREFIX also with a key that haurpiko-key made. The completion is typed at a terminal. Ends with 1 where something differs.
#
#   bench/install/run.sh [PROGRAMS]     the folder of client, server and surrogate, as `./demo --keep PROGRAMS` makes one of quick
#                                       builds; none: the proved ones, crates/NAME/out/NAME
#
# Wants the Debian packages mandoc, groff, man-db, bsdextrautils, python3, dpkg, coreutils and dash; lintian and systemd where they
# are there. As another user than root it wants fakeroot.
set -euo pipefail
umask 022
# shellcheck source-path=SCRIPTDIR/.. source=common.sh
. "$(dirname "$0")/../common.sh"
from=()
if [ $# -eq 1 ]; then from=(--from "$(cd "$1" && pwd)"); fi
[ $# -le 1 ] || { echo "usage: bench/install/run.sh [PROGRAMS]" >&2; exit 2; }
wants mandoc mandoc groff groff man man-db col bsdextrautils python3 python3 dpkg dpkg
make_work
faults=0

good() { echo "ok: $1"; }
bad() {
    echo "DIFFERS: $1"
    faults=$((faults + 1))
}
# Tells whether a command ends with 0.
holds() {
    local what=$1
    shift
    if "$@" > "$work/said" 2>&1; then good "$what"; else bad "$what" && head -20 "$work/said"; fi
}
# Whether a folder has nothing in it, and whether nothing has a name.
is_empty() { [ -z "$(ls -A "$1" 2> /dev/null)" ] || { ls -A "$1" && false; }; }
is_gone() { [ ! -e "$1" ] || { find "$1" && false; }; }
# Tells whether two files are the same, with what differs.
same() { if diff -u "$2" "$3" > "$work/diff"; then good "$1"; else bad "$1" && head -40 "$work/diff"; fi; }
# Tells whether a command says nothing and ends with 0.
silent() {
    local what=$1
    shift
    if "$@" > "$work/said" 2>&1 && [ ! -s "$work/said" ]; then good "$what"; else bad "$what" && head -20 "$work/said"; fi
}

# --- Pages ---

try_pages() {
    local page name question answer count=0 missing=0
    for page in "$top"/man/*; do
        name=${page##*/}
        silent "mandoc says nothing of $name" mandoc -Tlint "$page"
        silent "groff says nothing of $name" groff -t -man -ww -Tutf8 -z "$page"
        mandoc -Tutf8 -O width=1000 "$page" | col -bx > "$work/$name.text"
        MANPAGER=cat MANWIDTH=80 man -l "$page" > "$work/$name.shown" 2> "$work/$name.faults" || bad "man shows $name"
        silent "man says nothing of $name" cat "$work/$name.faults"
        holds "man shows $name" grep '^NAME' "$work/$name.shown"
    done
    for page in "$top"/docs/{ANSWERS,COMMANDS}.md; do tr '\n' ' ' < "$page" > "$work/${page##*/}.text"; done
    while IFS='|' read -r name question answer; do
        case $name in '' | '#'*) continue ;; esac
        count=$((count + 1))
        grep -qF -- "$answer" "$work/$name.text" && continue
        missing=$((missing + 1))
        echo "$name does not answer '$question' by: $answer"
    done < "$here/questions"
    if [ "$missing" -eq 0 ]; then good "$count questions are answered"; else bad "$missing of $count questions"; fi
}

# Each word that --help lists at the margin of its lists stands on the program's page. It names that page, and fits into a terminal.
try_words() {
    local name word missing=''
    for name in client server surrogate; do
        "$1/haurpiko-$name" --help > "$work/help"
        holds "--help of the $name names its page" grep "man haurpiko-$name\$" "$work/help"
        silent "--help of the $name has at most 45 lines of 80 bytes" awk 'NR > 45 || length > 80' "$work/help"
        while read -r word; do
            grep -qF -- "$word" "$work/haurpiko-$name.1.text" || missing+=" $name:$word"
        done < <("$1/haurpiko-$name" --help | sed -n 's/^  \([a-zA-Z0-9-]*\).*/\1/p' | grep -v '^$' | sort -u)
    done
    if [ -z "$missing" ]; then good "each word of --help is on its page"; else bad "the pages lack words of --help:$missing"; fi
}

# --- A session ---

# The session of haurpiko-client.1's examples: lines, and their answers behind two spaces or more.
page_session() { sed -n '/^ *mkdir trips /,/^ *quit /{s/^ *//;p}' "$work/haurpiko-client.1.text"; }

# Starts a server and a surrogate from $1 that end behind $2 and $3 connections, in a folder of their own.
start_nodes() {
    next_port && server_port=$port
    next_port && surrogate_port=$port
    "$1/haurpiko-server" run "127.0.0.1:$server_port" server.image "$2" > server.out 2> server.said &
    server=$!
    begun
    "$1/haurpiko-surrogate" run "127.0.0.1:$surrogate_port" "127.0.0.1:$server_port" work "$3" > surrogate.out 2> surrogate.said &
    surrogate=$!
    begun
    await "$server" "$server_port" || bad "the server does not listen"
    await "$surrogate" "$surrogate_port" || bad "the surrogate does not listen"
}

# Runs a client from $1 over the lines in $2, compares its answers with those in $3, and what it tells of entries with those in $4.
run_client() {
    local status=0
    "$1/haurpiko-client" run 1 client.image "127.0.0.1:$server_port" "127.0.0.1:$surrogate_port" work < "$2" > answers 2> told || status=$?
    [ "$status" -eq 0 ] || bad "the client ended with $status: $(cat told)"
    same "the answers of $2, from $1" "$3" answers
    sed -E 's/[0-9,]+ bytes for/B bytes for/' told > told.short
    same "what is told behind $2" "$4" told.short
}

sort_lines() {
    echo "run env=PATH=/usr/bin:/bin -- /bin/sh -c 'seq 20000 -1 1 > numbers'"
    echo sync
    echo "run env=PATH=/usr/bin:/bin -- /bin/sh -c 'sort numbers > sorted'"
    echo sync
    echo ls
    echo quit
}

try_session() {
    local bin=$1 folder=$work/session.$2
    mkdir "$folder" && cd "$folder"
    page_session | sed -E 's/  +.*//' > lines
    page_session | sed -E 's/^[^ ].*[^ ]  +//' > wanted
    : > nothing
    sort_lines > sorting
    printf '%s\n' 'logged 3 status 0' 'synced 3' 'logged 4 status 0' 'synced 4' 4 'f numbers' 'f sorted' 'd trips' > sorted.wanted
    sed -i 's/^4$/3/' sorted.wanted
    echo 'acknowledged 4 pending 0' >> sorted.wanted
    length=$(seq 20000 -1 1 | wc -c | sed ':again; s/\([0-9]\)\([0-9]\{3\}\)\($\|,\)/\1,\2\3/; t again')
    for entry in 3 4; do echo "client: entry $entry: went as its command, B bytes for $length"; done > sorted.told
    # two stores of the client's and two of the surrogate's, and the pulls of the latter: the server is ended by hand
    start_nodes "$bin" 65536 2
    run_client "$bin" lines wanted nothing
    run_client "$bin" sorting sorted.wanted sorted.told
    ended "$surrogate" || bad "the surrogate ended with $?"
    echo 'served 2 faults 0' > served.wanted
    same "the surrogate's end" served.wanted surrogate.out
    kill "$server" && { ended "$server" 2> /dev/null || true; }
    echo "server: listens at 127.0.0.1:$server_port" > listens.wanted
    same "where the server listens" listens.wanted server.said
    echo "surrogate: listens at 127.0.0.1:$surrogate_port" > listens.wanted
    # behind that it says how far programs are kept apart, which is the machine's
    head -n 1 surrogate.said > surrogate.first
    same "where the surrogate listens" listens.wanted surrogate.first
    holds "nothing is left of the runs" is_empty work
    try_folders "$bin"
    cd "$work"
}

# The first session of haurpiko.7: what begins with the word of a line is typed, and what stands between is answered.
try_first_session() {
    mkdir "$work/first" && cd "$work/first"
    sed -n '/haurpiko-client run 1/,/acknowledged 3/{p;/acknowledged 3/q}' "$work/haurpiko.7.text" \
        | sed '1,/^ *127.0.0.1:7002/d; s/^ *//' > session
    grep -E '^(pull|put|run|sync|ls|quit)( |$)' session > lines
    grep -vE '^(pull|put|run|sync|ls|quit)( |$)' session > wanted
    for entry in 2 3; do echo "client: entry $entry: went as its command, B bytes for 588,895"; done > wanted.told
    start_nodes "$1" 65536 65536
    run_client "$1" lines wanted wanted.told
    kill "$server" "$surrogate"
    cd "$work"
}

# README.md's session: lines behind `> `, their answers, and what standard error tells of the entry with a command.
try_readme_session() {
    mkdir "$work/readme" && cd "$work/readme"
    sed -n '/^\$ programs\/client run /,/^```/{/^\$/d; /^```/d; p}' "$top/README.md" > session
    sed -n 's/^> //p' session > lines
    grep -v -e '^> ' -e '^client: ' session > wanted
    grep '^client: ' session > readme.told
    sed -E 's/[0-9,]+ bytes for/B bytes for/' readme.told > wanted.told
    start_nodes "$1" 65536 65536
    run_client "$1" lines wanted wanted.told
    same "the bytes that README tells" readme.told told
    kill "$server" "$surrogate"
    cd "$work"
}

# A key has its form and its rights and replaces nothing, and a session goes on with it that goes on without.
is_key() { [ "$(stat -c '%a %s' "$1")" = '600 65' ] && grep -qxE '[0-9a-f]{64}' "$1"; }
try_key() {
    local folder=$work/keys
    mkdir -m 700 "$folder"
    silent "a key is made without a word" "$1/haurpiko-key" "$folder/1.key"
    silent "it has 64 digits and a line end, and is its owner's alone" is_key "$folder/1.key"
    cp -p "$folder/1.key" "$work/first.key"
    if "$1/haurpiko-key" "$folder/1.key" 2> "$work/said"; then bad "a key is made over another one"; else good "a second one is not made"; fi
    silent "and the first one stays" cmp "$folder/1.key" "$work/first.key"
    HAURPIKO_KEYS=$folder HAURPIKO_KEY=$folder/1.key try_session "$1" sealed
}

# A folder goes in and comes out again.
try_folders() {
    local client=("$1/haurpiko-client" run 2 other.image 127.0.0.1:1 - work)
    mkdir -p given/deep/er && seq 1000 > given/numbers && echo one > given/deep/one && printf 'no end' > given/deep/er/cut
    "$1/haurpiko-import" given | "${client[@]}" > imported 2>&1 || bad "the import ended with $?"
    "$1/haurpiko-export" taken -- "${client[@]}" > exported 2>&1 || bad "the export ended with $?"
    silent "a folder goes in and comes out again" diff -r given taken
}

# --- Installing ---

# The files and links below a folder.
files_below() { (cd "$1" && find . ! -type d | sort); }

try_install() {
    "$top/dist/install" "${from[@]}" "$work/prefix" > "$work/said"
    (cd "$work" && DESTDIR=$work/dest "$top/dist/install" "${from[@]}" /opt/haurpiko > "$work/said")
    files_below "$work/prefix" > "$work/one"
    files_below "$work/dest/opt/haurpiko" > "$work/two"
    same "PREFIX and DESTDIR get the same files" "$work/one" "$work/two"
    for name in server surrogate; do
        unit=lib/systemd/system/haurpiko-$name.service
        holds "the unit names the $name below PREFIX" grep "^ExecStart=$work/prefix/bin/haurpiko-$name run " "$work/prefix/$unit"
        holds "and haurpiko-key" grep "^ExecStartPre=.* $work/prefix/bin/haurpiko-key 1.key" "$work/prefix/$unit"
        holds "and without DESTDIR" grep "^ExecStart=/opt/haurpiko/bin/haurpiko-$name run " "$work/dest/opt/haurpiko/$unit"
    done
    if command -v systemd-analyze > /dev/null; then
        SYSTEMD_LOG_LEVEL=err silent "systemd finds no fault in the units" \
            systemd-analyze verify --man=no "$work"/prefix/lib/systemd/system/haurpiko-{server,surrogate}.service
    fi
    grep -rlF "$work" "$work/dest" > "$work/naming" || true
    silent "DESTDIR stands in no file" cat "$work/naming"
    try_words "$work/prefix/bin"
    try_session "$work/prefix/bin" prefix
    try_key "$work/prefix/bin"
    try_first_session "$work/prefix/bin"
    try_readme_session "$work/prefix/bin"
    "$top/dist/install" "${from[@]}" "$work/prefix" > "$work/said"
    mkdir -p "$work/dest/opt/other"
    "$top/dist/install" --remove "$work/prefix" > "$work/said"
    DESTDIR=$work/dest "$top/dist/install" --remove /opt/haurpiko > "$work/said"
    holds "nothing is left of PREFIX" is_gone "$work/prefix"
    printf '%s\n' . ./opt ./opt/other > "$work/one"
    (cd "$work/dest" && find . | sort) > "$work/two"
    same "what was there beside it stays, and no more" "$work/one" "$work/two"
}

try_completion() {
    mkdir "$work/typing"
    silent "what is typed is completed" python3 -B "$here/typing.py" "$top/completion/haurpiko" "$work/typing"
}

# dpkg over a root folder of its own.
root_dpkg() {
    local by=()
    if [ "$(id -u)" -ne 0 ]; then by=(fakeroot); fi
    "${by[@]}" dpkg --root="$work/root" --force-depends --force-not-root "$@" > "$work/said" 2>&1 || { bad "dpkg $*" && cat "$work/said"; }
}

# What is in the root folder, but dpkg's own lists.
root_files() { (cd "$work/root" && find . -path ./var/lib/dpkg -prune -o -path ./var/log -prune -o -print | sort); }

try_package() {
    mkdir "$work/debs"
    "$top/dist/package" "${from[@]}" "$work/debs/haurpiko.deb" > "$work/said"
    (umask 077 && TZ=Asia/Tokyo TMPDIR=$work/debs "$top/dist/package" "${from[@]}" "$work/debs/again.deb" > "$work/said")
    silent "a second package has the same bytes" cmp "$work/debs/haurpiko.deb" "$work/debs/again.deb"
    if command -v lintian > /dev/null; then
        silent "lintian says nothing" lintian --allow-root --fail-on error,warning "$work/debs/haurpiko.deb"
    fi
    dpkg-deb -x "$work/debs/haurpiko.deb" "$work/unpacked"
    dpkg-deb -e "$work/debs/haurpiko.deb" "$work/control"
    printf '%s\n' ./control ./md5sums > "$work/one"
    files_below "$work/control" > "$work/two"
    same "the package has no script" "$work/one" "$work/two"
    holds "nothing of it is enabled" is_gone "$work/unpacked/etc"
    try_session "$work/unpacked/usr/bin" unpacked

    mkdir -p "$work/root/var/lib/dpkg"/{info,updates,triggers} "$work/root/var/log"
    touch "$work/root/var/lib/dpkg/status"
    root_files > "$work/before"
    root_dpkg -i "$work/debs/haurpiko.deb"
    silent "dpkg finds each installed file as it was packed" dpkg --root="$work/root" --verify haurpiko
    try_session "$work/root/usr/bin" root
    root_dpkg -P haurpiko
    root_files > "$work/after"
    same "nothing is left of the package" "$work/before" "$work/after"
    dpkg-query --admindir="$work/root/var/lib/dpkg" -W -f '${Package}\n' > "$work/known"
    silent "dpkg knows of no package" cat "$work/known"
}

try_pages
try_completion
try_install
try_package
if [ "$faults" -gt 0 ]; then
    echo "$faults differ"
    exit 1
fi
echo "all is as said"
