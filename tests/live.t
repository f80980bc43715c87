#!/bin/sh
# Scripts that are played against a running server: `replay --port`.
# shellcheck source=tests/lib.sh
. "$(dirname "$0")/lib.sh"

sed 's|10\.0\.0\.0/24|127.0.0.0/8|' examples/e.tree >"$work/tree"

# reply N: the Nth reply of the last run.
reply() { grep '^reply ' "$work/out" | sed -n "$1p"; }

# faults FIRST SECOND: whether the last run ended with a fault of the script, on these two lines.
faults() {
    printf '%s\n' "$1" "  $work/script:$2" >"$work/wanted"
    same "$work/wanted" "$work/err" && ended 1
}

serving "$work/tree"
echo 'ask 10.0.0.1 0 xid=55 9:9 read /a/pub/x 0 100' >"$work/script"
echo 'reply 000000370000000100000000000000000000000000000000000000000000000100000001000001c90000000100000001000000010000000000000005000000000000000500000000000000000000000000000001000000000000000300000000000000000000000000000000000000000000000000000005000000010000000568656c6c6f000000' >"$work/wanted"
run replay "$work/script" --port "$port"
brings "$work/wanted" /dev/null 0
ok $? "READ: the reply is the one that docs/PROTOCOL.md decodes"
run replay - --port "$port" --host 127.0.0.1 <"$work/script"
brings "$work/wanted" /dev/null 0
ok $? "a script on standard input, and the server's address"
plays 'call 10.0.0.1 0 0000002a 00000000 00000002 000186a3 00000003 00000000 00000000 00000000 00000000 00000000'
[ "$(reply 1)" = 'reply 0000002a0000000100000000000000000000000000000000' ] && statuses 'NULL: SUCCESS'
ok $? "a call line"

plays 'ask 10.0.0.1 0 1:1 mkdir /a/pub/d 755' 'ask 10.0.0.1 0 1:1 create /a/pub/d/f 644' 'ask 10.0.0.1 0 1:1 write /a/pub/d/f 0 6869' \
    'ask 10.0.0.1 0 1:1 rename /a/pub/d/f /a/pub/d/g' 'ask 10.0.0.1 0 1:1 link /a/pub/d/g /a/pub/h' 'ask 10.0.0.1 0 9:9 read /a/pub/h'
statuses 'MKDIR: NFS3_OK' 'CREATE: NFS3_OK' 'WRITE: NFS3_OK' 'RENAME: NFS3_OK' 'LINK: NFS3_OK' 'READ: NFS3_OK' && reply 6 | grep -q '0000000268690000$'
ok $? "files that the script makes are found again"
plays 'ask 10.0.0.1 0 1:1 remove /a/pub/h' '# a comment' 'again 1' 'ask 10.0.0.1 0 1:1 remove /a/pub/h' 'again 3'
statuses 'REMOVE: NFS3_OK' 'REMOVE: NFS3_OK' 'REMOVE: NFS3ERR_NOENT' 'REMOVE: NFS3_OK' && [ "$(reply 1)" = "$(reply 2)" ] && [ "$(reply 1)" = "$(reply 4)" ]
ok $? "again: a retransmission gets the first reply"
plays 'ask 10.0.0.1 0 9:9 stat /a/none' 'ask 10.0.0.1 0 9:9 stat /a/none/f' 'ask 10.0.0.1 0 5:5 stat /a/own/f' 'ask 10.0.0.1 0 9:9 stat /a/pub/x/f' 'ask 10.0.0.1 0 9:9 stat /a/g'
statuses 'LOOKUP: NFS3ERR_NOENT' 'LOOKUP: NFS3ERR_NOENT' 'LOOKUP: NFS3ERR_ACCES' 'LOOKUP: NFS3ERR_NOTDIR' 'GETATTR: NFS3_OK'
ok $? "where a LOOKUP on the way fails, its reply is printed, and the script goes on"
plays 'ask 10.0.0.1 0 9:9 mount /a' 'ask 10.0.0.1 0 9:9 mount /none' 'ask 10.0.0.1 0 9:9 umount /a' 'ask 10.0.0.2 0 0:0 df /b'
statuses 'MNT: MNT3_OK' 'MNT: MNT3ERR_NOENT' 'UMNT: SUCCESS' 'FSSTAT: NFS3_OK'
ok $? "MNT, UMNT, and another volume"

# A message that is no call gets no reply, which is waited for ten seconds.
plays 'call 10.0.0.1 0 0000002a 00000001' 'ask 10.0.0.1 0 9:9 stat /a/g'
echo "warning: $work/script:1: no reply within 10 seconds" >"$work/wanted"
[ "$(grep '^  [A-Z]' "$work/out")" = '  GETATTR: NFS3_OK' ] && [ "$(grep -c '^reply ' "$work/out")" = 1 ] && same "$work/wanted" "$work/err" && ended 0
ok $? "a record that gets no reply: a warning, and the script goes on"

# The server sleeps until the first call is given up; then it answers both.
process=$(server_process)
kill -STOP "$process"
(sleep 11; kill -CONT "$process") &
null='00000000 00000002 000186a3 00000003 00000000 00000000 00000000 00000000 00000000'
plays "call 10.0.0.1 0 00000001 $null" "call 10.0.0.1 0 00000002 $null"
echo "warning: $work/script:1: no reply within 10 seconds" >"$work/wanted"
[ "$(grep '^reply ' "$work/out")" = 'reply 000000020000000100000000000000000000000000000000' ] && same "$work/wanted" "$work/err" && ended 0
ok $? "a late reply isn't taken for that of the next call"

# ---- faults

plays 'ask 10.0.0.1 0 9:9 stat /a/g' 'ask 10.0.0.1 0 9:9 stat /none/f'
faults 'script line 2: NoHandle' '2:25: no such file' && [ "$(grep -c '^reply ' "$work/out")" = 1 ]
ok $? "a path in no volume"
plays 'call 10.0.0.1 0 @3'
ended 1 && grep -qx 'script line 1: NoHandle' "$work/err"
ok $? "a handle by its number"
for line in show 'attach 1 10.0.0.1' 'detach 1' 'feed 1 0 00'; do
    plays "$line"
    faults 'script line 1: NotLive' '1:1: with --port, a script has ask, call and again lines' || break
done
[ "$line" = 'feed 1 0 00' ] && faults 'script line 1: NotLive' '1:1: with --port, a script has ask, call and again lines'
ok $? "lines for a server of one's own"
plays frob
ended 1 && grep -qx 'script line 1: BadLine' "$work/err"
ok $? "a line that is none"
plays 'ask 10.0.0.1 0 9:9 write /a/pub/n 0 6'
ended 1 && grep -qx 'script line 1: BadLine' "$work/err"
ok $? "half a byte"

# refused WORDS.. TEXT: whether replay of these words is refused with this text, before anything is sent.
refused() {
    words=$1
    text=$2
    # shellcheck disable=SC2086
    run replay $words
    echo "error: $text" >"$work/wanted"
    brings /dev/null "$work/wanted" 2
}

refused "$work/script" 'replay takes TREE and SCRIPT, with --journal TREE alone, or with --port SCRIPT alone'
ok $? "neither a tree nor a port"
refused "$work/tree $work/script --port $port" 'replay takes TREE and SCRIPT, with --journal TREE alone, or with --port SCRIPT alone'
ok $? "both"
for option in '--cache 3' "--save $work/copy" "--journal $work/journal" '--names' '--mount /m'; do
    refused "$work/script --port $port $option" 'with --port, replay takes no options but --host and --decode' || break
done
[ "$option" = '--mount /m' ] && ended 2
ok $? "options for a server of one's own"
refused "$work/script --port $port --host localhost" "invalid value for '--host <ADDRESS>': it must be an IPv4 or IPv6 address, such as 127.0.0.1"
ok $? "a host that is no address"
run replay "$work/script" --port 0
ended 2 && [ ! -s "$work/out" ]
ok $? "a port that is none"

stop
plays 'ask 10.0.0.1 0 9:9 stat /a/g'
ended 3 && grep -q "^nfs3d: network fault: 127.0.0.1:$port: " "$work/err"
ok $? "no server"

plan
