#!/bin/sh
# Scripts with long lines, many connections, and the longest record and name.
# shellcheck source=tests/lib.sh
. "$(dirname "$0")/lib.sh"

null="0000002a 00000000 00000002 000186a3 00000003 00000000 00000000 00000000 00000000 00000000"

# A line of 1.2 megabytes: digits after a NULL call, which are not looked at, and then one more.
{ printf 'call 10.0.0.1 100 %s ' "$null"; yes fF | head -n 600000 | tr -d '\n'; } >"$work/line"
echo "reply 0000002a0000000100000000000000000000000000000000" >"$work/reply"
run replay examples/e.tree "$work/line"
brings "$work/reply" /dev/null 0
ok $? "a line of 1.2 megabytes"
printf f >>"$work/line"
printf 'script line 1: BadHex\n  %s:1:109: "%s.." has an odd number of digits; write two for each byte\n' "$work/line" "$(yes fF | head -n 30 | tr -d '\n')" >"$work/wanted"
run replay examples/e.tree "$work/line"
brings /dev/null "$work/wanted" 1
ok $? "a line of 1.2 megabytes and half a byte is refused"

# 1,000 connections, each of which gets one byte after the other of a NULL call of its own number.
awk 'BEGIN {
    for (k = 1; k <= 1000; k++) print "attach " k " 10.0.0.1"
    for (at = 1; at < 88; at += 2)
        for (k = 1; k <= 1000; k++)
            print "feed " k " 100 " substr(sprintf("80000028%08x0000000000000002000186a300000003%040d", k, 0), at, 2)
}' >"$work/feeds"
awk 'BEGIN { for (k = 1; k <= 1000; k++) printf "reply %d 80000018%08x00000001%032d\n", k, k, 0 }' >"$work/replies"
run replay examples/e.tree "$work/feeds"
brings "$work/replies" /dev/null 0
ok $? "1,000 connections that get their calls byte by byte"

{ echo "attach 1 10.0.0.1"; printf 'feed 1 100 80040000 %s ' "$null"; yes 00 | head -n 262104 | tr -d '\n'; } >"$work/line"
echo "reply 1 800000180000002a0000000100000000000000000000000000000000" >"$work/replies"
run replay examples/e.tree "$work/line"
brings "$work/replies" /dev/null 0
ok $? "a record of 262,144 bytes"

# CREATE and LOOKUP of a name of 255 bytes, in a directory of 100,000 files.
{ printf 'server 0102030405060708\nvolume /a 1000 200000 0777 0 0\nexport * rw\n'; seq 99999 | sed 's|.*|file /f& 0644 0 0 -|'; } >"$work/tree"
awk 'BEGIN {
    head = " 00000000 00000002 000186a3 00000003 "
    cred = " 00000001 00000014 00000000 00000000 00000009 00000009 00000000 00000000 00000000 00000018 @1 "
    for (i = 0; i < 255; i++) name = name "6e"
    name = "000000ff " name "00"
    print "call 10.0.0.1 100 00000001" head "00000008" cred name " 00000001 00000000 00000000 00000000 00000000 00000000 00000000"
    print "call 10.0.0.1 100 00000002" head "00000003" cred name
}' >"$work/calls"
run replay "$work/tree" "$work/calls"
printf 'reply 000000%s000000010000000000000000000000000000000000000000\n' 01 02 >"$work/wanted"
cut -c 1-62 "$work/out" | same "$work/wanted" -
ok $? "a name of 255 bytes in a directory of 100,000 files"

plan
