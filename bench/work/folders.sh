#!/bin/sh
# Brings folders in by dist/import and out again by dist/export, and compares them byte for byte: one with odd names and contents, and the
# sources of this repository. What cannot go has to be named, and nothing else; what may be run has to run when it is in. Ends with 1 where
# something is wrong.
#
#   bench/work/folders.sh [PROGRAMS]     over the client in the folder PROGRAMS; no server is wanted
#
# Wants the Debian packages python3, coreutils and diffutils.
set -eu
# shellcheck source-path=SCRIPTDIR/.. source=common.sh
. "$(dirname "$0")/../common.sh"
wants python3 python3 diff diffutils
PROGRAMS=${1-${PROGRAMS-}}
programs client
make_work

# A client of its own for the image $1.
run_client() {
    "$CLIENT" run 1 "$work/$1" 127.0.0.1:1 - "$work/work"
}

# Brings the folder $1 to the path $2 ('' for the root) and out again to $3. What is left out goes to $3.said; wants the status $4.
both_ways() {
    status=0
    # shellcheck disable=SC2086
    "$top/dist/import" "$1" $2 > "$3.lines" 2> "$3.said" || status=$?
    [ "$status" = "$4" ] || fail "import ends with $status, and not with $4: $(cat "$3.said")"
    run_client "$3.image" < "$3.lines" > "$3.answers"
    ! grep -Ev '^(logged [0-9]+( status 0)?|acknowledged 0 pending [0-9]+)$' "$3.answers" || fail "a line of import was refused"
    "$top/dist/export" "$3" --from "/$2" -- "$CLIENT" run 1 "$work/$3.image" 127.0.0.1:1 - "$work/work" || fail "export"
}

cd "$work"
umask 077
mkdir -p odd/sub/deep 'odd/a b' odd/empty odd/sub/none
printf 'one line\n' > odd/line
printf 'one line' > odd/open
printf '\n' > odd/end
: > odd/nothing
printf 'a\r\n' > odd/return
printf '\000\n' > odd/zero
printf '\377\376\n' > odd/no-text
printf '  two  spaces \n' > odd/spaces
printf "it's\n" > odd/quote
printf 'x\ny\n' > 'odd/ lead'
printf 'x\ny\n' > 'odd/trail '
printf 'x\ny\n' > odd/-rf
printf 'x\ny\n' > 'odd/$HOME `id` "q" \\'
printf 'x\n' > 'odd/*'
printf 'x\ny\n' > 'odd/sub/*'
printf 'x\ny\n' > 'odd/a b/c d'
printf 'x\n' > 'odd/a b/in=x'
printf 'x\ny\n' > odd/sub/deep/ö
printf 'x\ny\n' > odd/sub/--
head -c 300000 /dev/urandom > odd/sub/chance
chmod 400 odd/sub/chance
printf '#!/bin/sh\nexit 7\n' > odd/sub/seven
printf 'exit 8\n' > odd/eight
chmod 700 odd/sub/seven odd/eight
cp -r odd wanted
# what cannot go
printf 'x\n' > "odd/it's"
printf 'x\n' > 'odd/two
lines'
printf 'x\n' > "$(printf 'odd/\377')"
ln -s line odd/link
mkfifo odd/pipe
head -c 8388609 /dev/zero > odd/large

both_ways odd '' out 1
diff -r wanted out || fail "the folder with odd names came out in another form"
[ "$(wc -l < out.said)" = 6 ] || fail "six things cannot go: $(cat out.said)"
# what may be run is run by its name, and nothing else is
for it in './sub/seven 7' './eight 8' './line 126'; do
    echo "run -- /bin/sh -c ${it% *}" | run_client out.image > run.answers 2> run.said
    grep -q "^nothing logged status ${it#* }\$" run.answers || fail "${it% *}: $(cat run.answers run.said)"
done
both_ways odd far/away again 1
diff -r wanted again || fail "the folder with odd names came out of a folder in another form"
! "$top/dist/export" odd -- true 2> /dev/null || fail "export writes over a folder that is not empty"

# names that lines cannot say, made by a program
printf '%s\n' "run env=PATH=/usr/bin:/bin -- /bin/sh -c 'mkdir d e; touch \"d/\$(printf x\\\\ny)\" \"e/\$(printf \\\\047)\" e/f'" |
    run_client odd.image > odd.answers
grep -q '^logged 1 status 0$' odd.answers || fail "a program makes odd names"
status=0
"$top/dist/export" odd-out -- "$CLIENT" run 1 "$work/odd.image" 127.0.0.1:1 - "$work/work" 2> odd.said || status=$?
[ "$status $(wc -l < odd.said) $(find odd-out | sort | tr '\n' ' ')" = '1 2 odd-out odd-out/d odd-out/e odd-out/e/f ' ] ||
    fail "two names cannot be exported: $status, $(cat odd.said), $(find odd-out)"

mkdir sources
for crate in "$top"/crates/c*; do
    mkdir "sources/${crate##*/}"
    (cd "$crate" && tar --exclude=./out -cf - .) | tar -C "sources/${crate##*/}" -xf -
done
both_ways sources sources came 0
diff -r sources came || fail "the sources came out in another form"
echo "folders go both ways byte for byte: $(find wanted -type f | wc -l) files with odd names, $(find sources -type f | wc -l) of sources" \
    "in $(wc -l < came.lines) lines"
