#!/bin/sh
# Trees that are saved (`--save`), by `replay` and by `serve`: what is saved, and when nothing is written.
# shellcheck source=tests/lib.sh
. "$(dirname "$0")/lib.sh"

tests/describe/fill "$work/disk"
run describe "$work/disk" --mount /share --export 10.0.0.0/24=rw,no_root_squash --export '*' --key 6e66733364000001
mv "$work/out" "$work/disk.tree"
echo show >"$work/show"

# A description that was written is written again as it was, under a new key or the one that is given.
: >"$work/nothing"
run replay "$work/disk.tree" "$work/nothing" --save "$work/saved" --key 6e66733364000001
brings /dev/null /dev/null 0 && same "$work/disk.tree" "$work/saved" && [ ! -e "$work/saved.part" ]
ok $? "what describe printed is saved as the same text"
for time in 1 2; do
    run replay "$work/disk.tree" "$work/nothing" --save "$work/keyed$time"
done
tests/describe/new-keys "$work/disk.tree" "$work/keyed1" "$work/keyed2"
ok $? "--save without --key gives a new key each time, and else the same"

# Names and links that lines can't hold as they are have %xx, and nothing is skipped.
cat >"$work/odd.tree" <<END
server 0102030405060708
volume /v 100000 100 0777 0 0
export * rw,no_root_squash
dir /d 0777 0 0
file /d/keep 0644 0 0 6869
dir /sub 0777 0 0
file /sub/x 0644 0 0 -
END
# opaque TEXT: its length and its bytes, with NULs up to a multiple of four, in hexadecimal digits.
opaque() {
    printf '%b' "$1" | od -An -v -tx1 | tr -d ' \n' | awk '{ bytes = length($0) / 2; all = $0; while (length(all) % 8) all = all "0"; printf "%08x%s", bytes, all }'
}
# handle NUMBER: that of a file which was loaded.
handle() { printf '00000018 4e465333 01020304 05060708 %08x 00000000 %08x' "$(($1 - 1))" "$1"; }
# sent XID PROCEDURE ARGUMENTS: a line that calls it as the user 0.
sent() {
    printf 'call 10.0.0.1 1 %08x 00000000 00000002 000186a3 00000003 %08x 00000001 00000014 00000000 00000000 00000000 00000000 00000000 00000000 00000000 %s\n' "$@"
}
sattr="00000001 000001ff 00000000 00000000 00000000 00000000 00000000"
{
    sent 1 8 "$(handle 1) $(opaque 'with space') 00000000 $sattr"
    sent 2 8 "$(handle 1) $(opaque 'per%cent') 00000000 $sattr"
    sent 3 8 "$(handle 1) $(opaque '\0303\0251') 00000000 $sattr"
    sent 4 10 "$(handle 2) $(opaque link) $sattr $(opaque 'to nowhere')"
    sent 5 10 "$(handle 2) $(opaque good) $sattr $(opaque keep)"
    sent 6 15 "$(handle 3) $(handle 1) $(opaque 'a b')"
    sent 7 14 "$(handle 1) $(opaque sub) $(handle 1) $(opaque 'su b')"
    sent 8 10 "$(handle 2) $(opaque empty) $sattr 00000000"
} >"$work/calls"
{
    echo "server 00112233445566ff"
    echo "names percent"
    sed -n '2,4p' "$work/odd.tree"
    cat <<END
file /with%20space 0777 0 0 -
file /per%25cent 0777 0 0 -
file /%c3%a9 0777 0 0 -
file /a%20b 0644 0 0 6869
dir /su%20b 0777 0 0
hard /d/keep /a%20b
link /d/link 0 0 to%20nowhere
link /d/good 0 0 keep
link /d/empty 0 0 %
file /su%20b/x 0644 0 0 -
times / 0 1 1
times /d 0 1 1
times /with%20space 1 1 1
times /per%25cent 1 1 1
times /%c3%a9 1 1 1
times /a%20b 0 0 1
times /su%20b 0 0 1
times /d/link 1 1 1
times /d/good 1 1 1
times /d/empty 1 1 1
END
} >"$work/wanted"
run replay "$work/odd.tree" "$work/calls" --save "$work/saved" --key 00112233445566ff
ended 0 && quiet && [ "$(grep -c '^reply ' "$work/out")" -eq 8 ] && ! grep -q '^deny ' "$work/out" && same "$work/wanted" "$work/saved" && [ ! -e "$work/saved.part" ]
ok $? "--save writes names with %xx where lines can't hold them as they are"
run replay "$work/saved" "$work/nothing" --save "$work/twice" --key 00112233445566ff
ended 0 && same "$work/saved" "$work/twice"
ok $? "such a description loads, and is saved as the same text"

# A tree that calls have changed, saved and loaded, is that tree, whatever its numbers are.
for script in examples/*.script tests/scripts/procedure-*.script; do
    name=${script%.script}
    [ ! -f "$name.fault" ] || continue
    tree=$name.tree
    [ -f "$tree" ] || tree=examples/e.tree
    { cat "$script"; echo; echo "# the end"; cat "$work/show"; } >"$work/calls"
    rm -f "$work/saved"
    run replay "$tree" "$work/calls" --save "$work/saved"
    : >"$work/listing"
    awk '/^(dir|file|link) 1 / { all = "" } /^(dir|file|link) |^ / { all = all $0 "\n" } END { printf "%s", all }' "$work/out" >"$work/listing"
    tests/describe/paths "$work/listing" | sed 's/ link mode=0[0-7]*/ link/' | sort >"$work/wanted"
    run replay "$work/saved" "$work/show"
    [ -s "$work/wanted" ] && tests/describe/paths "$work/out" | sed 's/ link mode=0[0-7]*/ link/' | sort | same "$work/wanted" -
    ok $? "the tree that $script leaves is the same, saved and loaded"
    run replay "$work/saved" "$work/nothing" --save "$work/twice"
    tail -n +2 "$work/saved" >"$work/wanted" && tail -n +2 "$work/twice" | same "$work/wanted" -
    ok $? "the tree that $script leaves is saved as the same text, once it was saved and loaded"
done

# The times of files are saved and loaded: as SETATTR and the server's clock gave them, also more nanoseconds than a second has.
printf 'server 0102030405060708\nvolume /v 100 10 0755 0 0\nexport * rw,no_root_squash\ndir /d 0755 0 0\nfile /f 0644 0 0 -\nlink /l 0 0 /f\nhard /d/g /f\n' >"$work/timed.tree"
cp "$work/timed.tree" "$work/wanted"
cat >>"$work/timed.tree" <<END
times /d/g 1700000000.25 5+4000000000 4294967295
times / 1.000000001 0 0.5
times /l 0 0 0
END
cat >>"$work/wanted" <<END
times / 1.000000001 0 0.500000000
times /f 1700000000.250000000 5+4000000000 4294967295
END
run replay "$work/timed.tree" "$work/nothing" --save "$work/saved" --key 0102030405060708
ended 0 && same "$work/wanted" "$work/saved"
ok $? "times are written for the files whose times are not 0, by their first names"
printf 'ask 10.0.0.1 0 0 stat /v%s\n' "" /d /d/g /l >"$work/asked"
run replay "$work/saved" "$work/asked" --decode
sed -n 's/.*\( atime=.*\)/\1/p' "$work/out" >"$work/got"
cat >"$work/wanted" <<END
 atime=1+1ns mtime=0 ctime=0+500000000ns
 atime=0 mtime=0 ctime=0
 atime=1700000000+250000000ns mtime=5+4000000000ns ctime=4294967295
 atime=0 mtime=0 ctime=0
END
same "$work/wanted" "$work/got"
ok $? "GETATTR returns the times that are described"

# A file that can't be written: it is reported what the system says and what to do, before anything is run. The file is as it
# was, and nothing is beside it.
# unsaved FILE ERROR: whether the last run ended by this error, with one line more.
unsaved() {
    head -n 1 "$work/err" | grep -qx "nfs3d: cannot write $1: $2" && [ "$(sed -n '2p' "$work/err" | grep -c '^  [a-z]')" -eq 1 ] &&
        [ "$(grep -c '' "$work/err")" -eq 2 ] && ended 3 && [ ! -e "$1.part" ]
}
run replay examples/e.tree examples/null.script --save "$work/none/saved"
unsaved "$work/none/saved" "No such file or directory (os error 2)" && [ ! -s "$work/out" ]
ok $? "replay --save where there is no such directory: nothing is run"
run serve examples/e.tree --port 0 --connections 0 --save "$work/none/saved"
unsaved "$work/none/saved" "No such file or directory (os error 2)" && [ ! -s "$work/out" ]
ok $? "serve --save where there is no such directory: nothing is served"
mkdir -p "$work/closed" && echo before >"$work/closed/saved" && chmod 0555 "$work/closed"
# nobody WORDS..: runs a command as a user who may not write there, where this can be another one.
nobody() {
    if [ "$(id -u)" -ne 0 ]; then
        "$@"
    else
        setpriv --reuid 65534 --regid 65534 --clear-groups "$@"
    fi
}
chmod 0755 "$work"
if nobody test -r "$top/examples/e.tree" && nobody test -x "$program" && ! nobody test -w "$work/closed"; then
    nobody "$program" replay examples/e.tree examples/null.script --save "$work/closed/saved" >"$work/out" 2>"$work/err"
    echo $? >"$work/status"
    unsaved "$work/closed/saved" "Permission denied (os error 13)" && [ ! -s "$work/out" ] && [ "$(cat "$work/closed/saved")" = before ]
    ok $? "--save in a directory that may not be written: the file is as it was"
else
    skip "--save in a directory that may not be written: the file is as it was" "there is no user who may read this and not write there"
fi
chmod 0755 "$work/closed"
# A file may have 4,096 bytes at most, as on a device that is full: the first steps are taken, and the file can't be ended.
echo before >"$work/saved"
(
    ulimit -f 8
    trap '' XFSZ
    run replay "$work/disk.tree" "$work/nothing" --save "$work/saved"
)
unsaved "$work/saved" "File too large (os error 27)" && [ "$(cat "$work/saved")" = before ]
ok $? "--save of a file that becomes too large: the file is as it was"
mkdir "$work/taken" && run replay examples/e.tree examples/null.script --save "$work/taken"
unsaved "$work/taken" "it is not a regular file" && [ ! -s "$work/out" ] && [ -d "$work/taken" ]
ok $? "--save in place of a directory: it stays"

# Killed in mid-write the file is the old one or the new one, each whole.
echo before >"$work/saved"
run replay "$work/disk.tree" "$work/nothing" --save "$work/new" --key 6e66733364000001
wrong=0
for delay in 0 0.002 0.004 0.006 0.008 0.010 0.012 0.015 0.02 0.03; do
    "$program" replay "$work/disk.tree" "$work/nothing" --save "$work/saved" --key 6e66733364000001 &
    saving=$!
    sleep "$delay"
    kill -9 "$saving" 2>/dev/null
    wait "$saving" 2>/dev/null
    cmp -s "$work/saved" "$work/new" || [ "$(cat "$work/saved")" = before ] || wrong=$((wrong + 1))
done
[ -s "$work/new" ] && [ "$wrong" -eq 0 ]
ok $? "--save killed in mid-write leaves the old file or the new one, whole"
rm -f "$work/saved.part"

# Words that say nothing together, or no key.
# refused TEXT WORDS..: whether these are refused with the status 2, and with this text.
refused() {
    text=$1
    shift
    run "$@"
    ended 2 && [ ! -s "$work/out" ] && grep -qe "$text" "$work/err"
}
refused '^error: --save FILE writes when the service ends: add --connections N, --save-every SECONDS, or --control PATH$' serve examples/e.tree --port 0 --save "$work/saved"
ok $? "--save of a service that doesn't end is refused"
refused '--save <FILE>' serve examples/e.tree --port 0 --connections 0 --save-every 1
ok $? "--save-every without --save is refused"
refused '--save-every' serve examples/e.tree --port 0 --save "$work/saved" --save-every 0
ok $? "--save-every 0 is refused"
for command in "replay examples/e.tree examples/null.script" "serve examples/e.tree --port 0 --connections 0"; do
    # shellcheck disable=SC2086
    refused "^error: invalid value for '--key <KEY>': it must be 16 hexadecimal digits" $command --save "$work/saved" --key 12
    ok $? "a faulty --key is refused: $command"
    # shellcheck disable=SC2086
    refused '--save <FILE>' $command --key 0102030405060708
    ok $? "--key without --save is refused: $command"
done

# What clients leave is saved when the service ends.
compiles load bench/load.c
bench/tree >"$work/tree"
serving "$work/tree" --connections 1 --save "$work/left.tree" --key 0102030405060708
"$work/load" "$port" make 1 1 20 >"$work/out" && server_ends 0 && serves_quietly
ok $? "serve --save ends without a fault"
run replay "$work/tree" examples/null.script --save "$work/same.tree" --key 0102030405060708
ended 0 && grep -v '^times ' "$work/left.tree" | same "$work/same.tree" -
ok $? "serve --save writes the tree that clients leave"

compiles touch clients/touch.c
printf 'server 0102030405060708\nvolume /a 1000000 20 0755 0 0\nexport 127.0.0.0/8 rw,no_root_squash\n' >"$work/small.tree"
serving "$work/small.tree" --connections 1 --save "$work/left.tree"
"$work/touch" "$port" 127.0.0.1 /a left && server_ends 0 && grep -qx 'file /left 0644 0 0 -' "$work/left.tree" &&
    [ "$(grep -vc '^times ' "$work/left.tree")" -eq 4 ] && [ "$(grep -c '^times / [1-9]\|^times /left [1-9]' "$work/left.tree")" -eq 2 ]
ok $? "serve --save writes a file that a client made and left"

# Between turns the tree is saved only where it has changed. Each description that is written has another key.
serving "$work/tree" --save "$work/copy.tree" --save-every 1
"$work/load" "$port" getattr 1 1 10 >"$work/out"
wait_until 30 test -s "$work/copy.tree"
first=$(head -n 1 "$work/copy.tree")
for _ in 1 2 3; do "$work/load" "$port" getattr 1 1 10 >"$work/out"; sleep 0.7; done
[ -n "$first" ] && [ "$(head -n 1 "$work/copy.tree")" = "$first" ]
ok $? "--save-every does not save the tree again after calls that change nothing"
"$work/load" "$port" write64 1 1 1 >"$work/out"
is_saved_again() { [ "$(head -n 1 "$work/copy.tree")" != "$first" ]; }
wait_until 30 is_saved_again && run check "$work/copy.tree" && grep -q '^ok ' "$work/out"
ok $? "--save-every saves the tree again after a call that changes it"

plan
