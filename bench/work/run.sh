#!/bin/sh
# Real work, each piece made twice: by a client, and some seconds later by a surrogate, as its command. Which commands agree, what they
# cost on the way to the server, and what rsync, rsync -z and xz make of the files that they changed. All goes over proxies of this machine
# that count payload bytes. It takes some minutes, prints the table, and writes work.tsv, work.md and work.svg. It ends with 1 where
# fewer pieces are done than wanted, or one hangs.
#
#   bench/work/run.sh [PROGRAMS] [NAME ..]    over client, server and surrogate in the folder PROGRAMS, or, where that is missing or -,
#                                             over the proved ones, which are built then; NAME: pieces of work, all where none is named
#   OUT=..     where these go (bench/work/out); OUT=docs renews the picture, and the table in docs/MEASUREMENTS.md
#   CACHE=..   where the sources lie (/tmp/haurpiko-work)
#
# Each piece is played up to five times. Three times its program is not kept apart: with client and surrogate as one user; with the
# surrogate as another user (nobody); and, where docs/COMMANDS.md would write the command in another way, so written and as another user.
# Then, as docs/COMMANDS.md writes it, the surrogate keeps it apart as far as the machine lets it: as this user, and as nobody. Client and surrogate are given one WORK. As
# root, where unshare can be had, the surrogate stands in namespaces of its own: under another host name, with another folder at the
# path WORK, and without the sources. Else both are on one machine, as one user, and there is no column of two users.
#
# Wants the Debian packages python3, coreutils and dash. Of these a piece of work is left out where one that it wants is missing:
#   gcc binutils make tar gzip xz-utils zip bison flex m4 groff rcs diffutils patch sed discount sqlite3 git nodejs
#   default-jdk-headless bash libc6-dev; rsync and xz-utils for their columns; util-linux for unshare and setpriv.
# The sources of lua5.4, hello, zlib and bc are fetched from Debian once, by `apt-get source` over lists of its own below CACHE.
set -eu
# shellcheck source-path=SCRIPTDIR/.. source=common.sh
. "$(dirname "$0")/../common.sh"
wants python3 python3
CACHE=${CACHE:-/tmp/haurpiko-work} OUT=${OUT:-$here/out}

# Fetches the packed sources of Debian's packages, and touches nothing of the system's own lists.
fetch() {
    mkdir -p "$CACHE/lists/partial" "$CACHE/archives/partial" "$CACHE/packed" "$CACHE/parts"
    # the system's own places of packages, asked for their sources
    for list in /etc/apt/sources.list.d/*.sources; do
        [ ! -f "$list" ] || sed 's/^Types:.*/Types: deb-src/' "$list" > "$CACHE/parts/${list##*/}"
    done
    sed -n 's/^deb /deb-src /p' /etc/apt/sources.list > "$CACHE/parts/own.list" 2> /dev/null || true
    own="-o Dir::Etc::SourceList=/dev/null -o Dir::Etc::SourceParts=$CACHE/parts"
    own="$own -o Dir::State::Lists=$CACHE/lists -o Dir::Cache=$CACHE -o APT::Sandbox::User=$(id -un)"
    # shellcheck disable=SC2086
    (cd "$CACHE/packed" && apt-get $own update && apt-get $own source --download-only "$@") > "$CACHE/fetched" 2>&1 ||
        { cat "$CACHE/fetched" >&2; echo "some sources could not be had: what wants them is left out" >&2; }
    rm -rf "$CACHE/lists" "$CACHE/archives"
}

# Unpacks the source of a package, as its authors made it, to a folder of its name.
unpack() {
    [ ! -d "$CACHE/$1" ] || return 0
    for packed in "$CACHE/packed/$1"_*.orig.tar.*; do
        case $packed in *.asc | *'*'*) continue ;; esac
        rm -rf "$CACHE/new"
        mkdir "$CACHE/new"
        tar -C "$CACHE/new" --strip-components=1 -xf "$packed"
        mv "$CACHE/new" "$CACHE/$1"
    done
}

for name in lua5.4 hello zlib bc; do
    if [ ! -d "$CACHE/$name" ]; then
        ls "$CACHE/packed/${name}_"*.orig.tar.* > /dev/null 2>&1 || fetch lua5.4 hello zlib bc
        unpack "$name"
    fi
done

folder=${1:--}
[ $# -eq 0 ] || shift
if [ "$folder" = - ]; then
    programs client server surrogate
    folder=$CACHE/programs
    mkdir -p "$folder"
    cp "$CLIENT" "$folder/client"
    cp "$SERVER" "$folder/server"
    cp "$SURROGATE" "$folder/surrogate"
fi
mkdir -p "$OUT"
export CACHE OUT
exec python3 -B "$here/work.py" "$folder" "$@"
