#!/bin/sh
# Files, pipes and devices: what the program reads or writes without success or without an end.
# shellcheck source=tests/lib.sh
. "$(dirname "$0")/lib.sh"

null="0000002a 00000000 00000002 000186a3 00000003 00000000 00000000 00000000 00000000 00000000"

run replay examples/e.tree - <examples/read.script
same examples/read.out "$work/out"
ok $? "replay of a script from standard input"
run replay - - <examples/e.tree
ended 2 && grep -q "TREE and SCRIPT can't both be standard input" "$work/err"
ok $? "replay refuses two texts from standard input"
run --version
grep -qx 'nfs3d [0-9]*\.[0-9]*\.[0-9]*' "$work/out" && ended 0
ok $? "--version prints the version"
run check
ended 2
ok $? "check without a description has the status 2"

# Where a pipe's reader has gone the program ends without a word, as one that SIGPIPE ends. 5 is the reader, 6 the writer.
mkfifo "$work/closed"
closed() {
    # shellcheck disable=SC2094
    exec 5<>"$work/closed" 6>"$work/closed" 5<&-
    echo "$*" >"$work/ran"
    "$program" "$@" >&6 2>"$work/err"
    echo $? >"$work/status"
    exec 6>&-
    ended 141 && quiet
    ok $? "$1 ends quietly where nobody reads its output"
}
closed check examples/e.tree
closed replay examples/e.tree examples/read.script
closed exports examples/farm.tree
closed why examples/farm.tree 10.1.4.7 500 write /tools/bin/cc
closed describe examples --mount /examples --export '*=ro'

# refuses TEXT WHAT: whether the last run printed nothing but this fault, and had the status 3.
refuses() {
    echo "nfs3d: $1" >"$work/wanted"
    brings /dev/null "$work/wanted" 3
    ok $? "$2"
}
run check "$work/none"
refuses "cannot read $work/none: No such file or directory (os error 2)" "check of a description that isn't there"
run replay examples/e.tree "$work/none"
refuses "cannot read $work/none: No such file or directory (os error 2)" "replay of a script that isn't there"
run check /dev/zero
refuses "/dev/zero: line 1 has more than 65536 bytes, and is no line of a description" "check of a description without an end"
{ printf 'server 0102030405060708\nvolume /v 10 10 0755 0 0\nfile /f 0644 0 0 '; yes 00 | tr -d '\n'; } 2>/dev/null | run check -
refuses "-: line 3 has more than 33619968 bytes, and is no line of a description" "check of a file's line without an end"
# longest BYTES: writes a comment of so many bytes, a line of 140,000 spaces, and a description.
longest() { { printf '#' && head -c "$(($1 - 1))" /dev/zero | tr '\0' x && printf '\n%140000s\n' '' && cat examples/e.tree; } >"$work/long"; }
longest 33619968
run check "$work/long"
says "ok volumes=2 files=8 bytes=12"
ok $? "check of a comment of as many bytes as a line may have, and of a long line without words"
longest 33619969
run check "$work/long"
refuses "$work/long: line 1 has more than 33619968 bytes, and is no line of a description" "check of a comment with a byte more"
{ echo "dir /d 0755 0 0"; cat /dev/zero; } 2>/dev/null | run check -
says "line 1: NoServer"
ok $? "check of a description without an end that has a faulty line"
run replay examples/e.tree /dev/zero
refuses "/dev/zero is longer than 1 GiB" "replay of a script without an end"

mkfifo "$work/pipe"
printf 'server 0102030405060708\nvolume /a 10 10' >"$work/pipe" &
run check "$work/pipe"
says "line 2: FieldCount"
ok $? "check of a pipe that stops within a line"
printf 'server 0102030405060708\nvolume /a 1000000000 1000000 0755 0 0\n' >"$work/tree"
timeout 2 sh -c 'while :; do echo "# more"; done' >>"$work/tree" &
growing=$!
grows() { [ "$(wc -l <"$work/tree")" -gt 100 ]; }
wait_until 10 grows
run check "$work/tree"
says "ok volumes=1 files=1 bytes=0"
ok $? "check of a description that grows while it is read"
wait "$growing"
echo "tree" >"$work/tree"
run replay "$work/tree" "$work/none"
says "line 1: UnknownWord"
ok $? "replay reports a faulty description before a missing script"

# A description with a faulty line is read once more, for what would be right there. Where it has changed since, nothing is said.
cc -O2 -shared -fPIC -o "$work/replace.so" tests/files/replace.c
ok $? "tests/files/replace.c is compiled"
# changes TEXT: checks the description $work/tree, which has this text when it is read again.
changes() {
    printf '%b' "$1" >"$work/changed"
    (
        export LD_PRELOAD="$work/replace.so" REPLACE="$work/tree" BY="$work/changed"
        run check "$work/tree"
    )
}
printf 'server 0102030405060708\nvolume /a 10 3 0755 0 0\ndir /d 0755 0 0\ndir /d 0755 0 0\n' >"$work/tree"
{ echo "line 4: NameTaken"; echo "  $work/tree:4:5: \"/d\" already exists; see line 3"; } >"$work/wanted"
run check "$work/tree"
brings /dev/null "$work/wanted" 1
ok $? "the second line of a fault names the line above that it looked at"
changes 'server 0102030405060708\nvolume /a 10 3 0755 0 0\ndir /d 0755 0 0\ndir /d 0755 0 0\nmore'
brings /dev/null "$work/wanted" 1
ok $? "it stands where the description changes below the faulty line while it is read"
echo "line 4: NameTaken" >"$work/wanted"
for text in 'server 0102030405060708\nvolume /a 10 3 0755 0 0\ndir /d 0755 0 0\ndir /d/e 0755 0 0\n' \
    'server 0102030405060708\nvolume /a 10 3 0755 0 0\ndir /d/e 0755 0 0\ndir /d 0755 0 0\n' \
    'server 0102030405060708\nvolume /a 10 3 0755 0 0\ndir /d 0755 0 0\ndir /d 0755 0\n' ''; do
    changes "$text"
    brings /dev/null "$work/wanted" 1
    ok $? "it stands only where the description has the same fault at the same line when it is read again"
done

# Lines that are loaded are not kept, but for the second line of a fault: 100 MB of them are loaded in 64 MiB of memory.
# within WORDS..: runs the program with so much memory.
within() { (ulimit -v 65536 && run "$@"); }
{ cat examples/e.tree && yes "# $(printf '%098d' 0)" | head -n 1000000; } >"$work/tree"
within check "$work/tree"
says "ok volumes=2 files=8 bytes=12"
ok $? "check of 100 MB of lines in 64 MiB of memory"
within check "$work/tree" --all
says "ok volumes=2 files=8 bytes=12"
ok $? "check --all of 100 MB of lines in 64 MiB of memory"
within replay "$work/tree" examples/read.script
brings examples/read.out /dev/null 0
ok $? "replay over 100 MB of lines in 64 MiB of memory"
# shellcheck disable=SC2002
cat "$work/tree" | within check -
says "ok volumes=2 files=8 bytes=12"
ok $? "check of 100 MB of lines from a pipe in 64 MiB of memory"
line=$(($(grep -c '' "$work/tree") + 1))
echo tree >>"$work/tree"
echo "line $line: UnknownWord" >"$work/wanted"
cp "$work/wanted" "$work/wanted.pipe"
within check "$work/tree"
brings /dev/null "$work/wanted" 1
ok $? "a fault below 100 MB of lines is reported without its second line where there is no memory for that"
run check "$work/tree"
says "line $line: UnknownWord"
ok $? "and with it where there is"
{ cat "$work/wanted.pipe" && echo "nfs3d: out of memory: faulty lines after the first are not looked for"; } >"$work/wanted"
within check "$work/tree" --all
brings /dev/null "$work/wanted" 1
ok $? "check --all reports that fault alone where there is no memory for the text"
{ cat "$work/wanted.pipe" && echo "faulty lines: 1"; } >"$work/wanted"
run check "$work/tree" --all
sed -n '1p;$p' "$work/err" | same "$work/wanted" - && ended 1
ok $? "and counts all where there is"
# Lines of a pipe can't be read again: the first MiB of them is kept.
# shellcheck disable=SC2002
cat "$work/tree" | run check -
brings /dev/null "$work/wanted.pipe" 1
ok $? "a fault below more than 1 MiB of lines from a pipe is reported without its second line"
{ cat examples/e.tree && yes "# $(printf '%098d' 0)" | head -n 10000; } >"$work/tree"
line=$(($(grep -c '' "$work/tree") + 1))
{ cat "$work/tree" && echo tree; } | run check -
says "line $line: UnknownWord"
ok $? "and with it below less"

# A text of more than 1 GiB, most of it in the holes of a file.
grep -v '^#' examples/e.tree >"$work/tree"
for _ in $(seq 1100); do
    printf '#' >>"$work/tree"
    truncate -s +1048576 "$work/tree"
    echo >>"$work/tree"
done
within check "$work/tree" --all
says "ok volumes=2 files=8 bytes=12"
ok $? "check --all of a text of more than 1 GiB in 64 MiB of memory"
printf x | dd of="$work/tree" conv=notrunc 2>/dev/null
run check "$work/tree"
{ cat "$work/err" && echo "nfs3d: $work/tree is longer than 1 GiB: faulty lines after the first are not looked for"; } >"$work/wanted"
run check "$work/tree" --all
brings /dev/null "$work/wanted" 1
ok $? "check --all of one whose first line is faulty reports that line, and that no other is looked for"

# The content of a long line is decoded as it comes, whichever case its letters have: 16 MiB of it are loaded in 64 MiB of memory.
# large DIGITS [LIMIT]: a description of a file of 16 MiB, whose content is these 16 digits again and again; above it a limit.
large() {
    echo "server 0102030405060708"
    echo "${2:-limits file-size=16777217}"
    echo "volume /a 16777216 3 0755 0 0"
    printf 'file /f 0644 0 0 '
    yes "$1" | tr -d '\n' | head -c 33554432
    echo
}
for digits in 0123456789abcdef 0123456789ABCDEF; do
    large $digits >"$work/$digits"
    within check "$work/$digits"
    says "ok volumes=1 files=2 bytes=16777216"
    ok $? "check of 16 MiB in the digits $digits in 64 MiB of memory"
done
{ large 0123456789012345 | head -c -9 && echo ABCDEF01; } >"$work/tree"
within check "$work/tree"
says "ok volumes=1 files=2 bytes=16777216"
ok $? "check of 16 MiB whose only letters are capitals near the end in 64 MiB of memory"
{ large 0123456789012345 | head -c -9 && echo ABcdef01; } >"$work/tree"
run check "$work/tree"
says "ok volumes=1 files=2 bytes=16777216"
ok $? "check of 16 MiB with letters of both cases"
run extract "$work/0123456789abcdef" "$work/small"
run extract "$work/0123456789ABCDEF" "$work/capital"
cmp -s "$work/small/f" "$work/capital/f" && [ "$(head -c 8 "$work/capital/f" | od -An -tx1 | tr -d ' ')" = 0123456789abcdef ]
ok $? "both cases say the same bytes"
# The second line of a fault shows the digits as they came.
for digits in 0123456789abcdef 0123456789ABCDEF; do
    large $digits "limits file-size=5" >"$work/tree"
    shown=$(echo "$digits$digits$digits$digits" | head -c 60)
    { echo "line 4: BadContent" && echo "  $work/tree:4:18: \"$shown..\" is too long; a file has at most 5 bytes"; } >"$work/wanted"
    run check "$work/tree"
    brings /dev/null "$work/wanted" 1
    ok $? "a content of 16 MiB in the digits $digits that is too long"
    { cat "$work/$digits" && echo "file /f 0644 0 0 -"; } >"$work/tree"
    { echo "line 5: NameTaken" && echo "  $work/tree:5:6: \"/f\" already exists; see line 4"; } >"$work/wanted"
    run check "$work/tree"
    brings /dev/null "$work/wanted" 1
    ok $? "a fault below a content of 16 MiB in the digits $digits"
done

# An output that fails at once, and one that takes one block of bytes, of 40 replies.
yes "call 10.0.0.1 1 $null" | head -n 40 >"$work/calls"
yes reply 0000002a0000000100000000000000000000000000000000 | head -n 40 >"$work/all"
echo "nfs3d: write fault" >"$work/wanted"
"$program" replay examples/e.tree "$work/calls" >/dev/full 2>"$work/err"
[ $? -eq 3 ] && same "$work/wanted" "$work/err"
ok $? "replay whose output fails at once"
(
    trap '' XFSZ
    ulimit -f 1
    "$program" replay examples/e.tree "$work/calls" >"$work/out" 2>"$work/err"
)
status=$?
size=$(wc -c <"$work/out")
[ "$status" -eq 3 ] && same "$work/wanted" "$work/err" && head -c "$size" "$work/all" | same "$work/out" - &&
    [ "$size" -ge 512 ] && [ "$size" -lt "$(wc -c <"$work/all")" ]
ok $? "replay whose output fails after its first block"

plan
