#!/bin/sh
# Serving over sockets: exchanges with clients, many of them at once, and the options of `serve`.
# golden files: tests/sockets
# shellcheck source=tests/lib.sh
. "$(dirname "$0")/lib.sh"

compiles exchange clients/exchange.c
compiles load bench/load.c

# Each exchange ends the connections that it opens, so that the server ends by itself. The handles in it have the key of
# the description, which is replaced by the server's.
for exchange in tests/sockets/*.exchange; do
    serving examples/e.tree --connections "$(grep -c '^open ' "$exchange")"
    sed "/^#/!s/4e465333 01020304 05060708/4e465333 $(key_words)/" "$exchange" >"$work/sent"
    "$work/exchange" "$port" <"$work/sent" && server_ends 0 && serves_quietly && tail -n +2 "$work/served" | sort >"$work/lines" &&
        golden "${exchange%.exchange}.out" "$work/lines"
    ok $? "$exchange: clients get their replies, and the server prints its lines"
done

# Ten clients at once, each with calls of its own numbers, and a file that each makes and removes.
bench/tree >"$work/tree"
serving "$work/tree" --clients 20
while read -r words; do
    # shellcheck disable=SC2086
    "$work/load" "$port" $words >"$work/out" 2>&1
    ok $? "clients at once: $words"
done <<'WORK'
null 10 16 10000
getattr 10 7 1000
read64 1 16 1000
read128 1 16 500
list 1 16 500
read64 10 16 100
write64 10 3 100
make 10 1 1000
WORK
[ "$(grep -c '^connection [0-9]* calls=' "$work/served")" -eq 53 ] && [ "$(wc -l <"$work/served")" -eq 54 ]
ok $? "each connection has its line"

# The longest replies, sixteen under way, and all alike: pages of 442 entries with their files, and 128 KiB of a file.
{ bench/tree; echo 'dir /e 0777 0 0'; seq 900 | sed 's|.*|file /e/& 0644 0 0 -|'; } >"$work/tree"
serving "$work/tree" --connections 8
"$work/load" "$port" pages 4 16 500 alike >"$work/out" 2>&1
ok $? "the longest replies of READDIRPLUS, sixteen under way"
"$work/load" "$port" read128 4 16 500 alike >"$work/out" 2>&1 && server_ends 0
ok $? "the longest replies of READ, sixteen under way"

# Each client has the rights of its own address, and the times that a call sets are those of the clock.
compiles touch clients/touch.c
printf 'server 0102030405060708\nvolume /a 1000000 20 0755 0 0\nexport 127.0.0.2 rw,no_root_squash\n' >"$work/tree"
serving "$work/tree" --connections 3
"$work/touch" "$port" 127.0.0.1 /a none 2>"$work/wrong"
[ $? -eq 3 ] && grep -q 'MNT is refused' "$work/wrong"
ok $? "a client of 127.0.0.1 can't mount what is exported to 127.0.0.2"
"$work/touch" "$port" 127.0.0.2 /a left 2>"$work/wrong"
ok $? "a client of 127.0.0.2 can, and SETATTR by the server's clock sets the time of now"
"$work/touch" "$port" 127.0.0.3 /a none 2>"$work/wrong"
[ $? -eq 3 ] && server_ends 0 && [ "$(sed -n 's/^deny addr=\([0-9.]*\) .* rule=export status=13$/\1/p' "$work/served" | tr '\n' ' ')" = "127.0.0.1 127.0.0.3 " ]
ok $? "and each denied call has its client's address in its line"

# 3,000 connections that come and go, and more at once than there may be open files.
serving examples/e.tree --connections 3000
wrong=0
for _ in $(seq 30); do
    "$work/load" "$port" null 100 1 2 >"$work/out" || wrong=$((wrong + 1))
done
[ "$wrong" -eq 0 ] && server_ends 0 && [ "$(grep -c '^connection [0-9]* calls=2$' "$work/served")" -eq 3000 ]
ok $? "3,000 connections that come and go"
limit=$(ulimit -Sn)
ulimit -Sn 40
serving examples/e.tree
ulimit -Sn "$limit"
"$work/load" "$port" null 200 1 2 >"$work/out" 2>&1
ok $? "200 connections where 40 files may be open"

# A silent client is ended, and one too many is closed while the other goes on.
null="80000028 0000002a 00000000 00000002 000186a3 00000003 00000000 00000000 00000000 00000000 00000000"
reply="80000018 0000002a 00000001 00000000 00000000 00000000 00000000"
serving examples/e.tree --idle 1 --connections 1
printf 'open 1\nend 1\n' | "$work/exchange" "$port" && server_ends 0 && grep -qx 'connection 1 calls=0' "$work/served"
ok $? "--idle 1 ends a client that says nothing"
serving examples/e.tree --clients 1
printf 'open 1\nsend 1 1 %s\nwant 1 1 %s\nopen 2\nend 2\nsend 1 1 %s\nwant 1 1 %s\n' "$null" "$reply" "$null" "$reply" | "$work/exchange" "$port" &&
    grep -q 'closed: there are already 1 clients' "$work/served.err"
ok $? "--clients 1 closes the second client, and the first goes on"

echo before >"$work/audit"
serving examples/e.tree --audit "$work/audit" --connections 1
getattr="80000058 0000002b 00000000 00000002 000186a3 00000003 00000001 00000001 00000014 00000000 00000000 00000001 00000001 00000000 00000000 00000000 00000018 4e465333 $(key_words) 00000000 00000000 00000001"
printf 'open 1\nsend 1 1 %s\nwant 1 1 8000001c 0000002b 00000001 00000000 00000000 00000000 00000000 0000000d\nhalf 1\nend 1\n' "$getattr" | "$work/exchange" "$port" && server_ends 0 &&
    printf 'before\ndeny addr=127.0.0.1 xid=43 prog=100003 proc=1 uid=- rule=export status=13\n' | same "$work/audit" - && ! grep -q deny "$work/served"
ok $? "--audit appends audit lines to a file"
echo "nfs3d: cannot write $work/none/audit: No such file or directory (os error 2)" >"$work/wanted"
run serve examples/e.tree --port 0 --audit "$work/none/audit"
same "$work/wanted" "$work/err" && ended 3
ok $? "--audit of a file that can't be written"

serving tests/unread/one.tree --listen 0.0.0.0
grep -q 'volume 1 is exported to \* with no_root_squash' "$work/served.err"
ok $? "the server warns of a volume that is open to everybody"
serving tests/unread/one.tree
[ -n "$port" ] && serves_quietly
ok $? "the server does not warn where it listens to this machine alone"

# answer ADDRESS: the reply to NULL there, in hexadecimal digits.
answer() {
    bash -c 'exec 3<>"/dev/tcp/$0/$1" && printf "\200\0\0\050\0\0\0\052\0\0\0\0\0\0\0\002\0\001\206\243\0\0\0\003" >&3 &&
        head -c 20 /dev/zero >&3 && head -c 28 <&3' "$1" "$port" | od -An -v -tx1 | tr -d ' \n'
}
serving examples/e.tree --listen 127.0.0.1 --listen 127.0.0.2 --connections 2
printf 'listening 127.0.0.%s:'"$port"'\n' 1 2 >"$work/wanted"
sed -n 1,2p "$work/served" | same "$work/wanted" - && [ "$(answer 127.0.0.2)" = 800000180000002a0000000100000000000000000000000000000000 ] &&
    [ "$(answer 127.0.0.1)" = 800000180000002a0000000100000000000000000000000000000000 ] && server_ends 0
ok $? "--listen twice: both addresses are served, at one port"
# Two clients of the first address and one of the second wait to be accepted, and two may be served.
serving examples/e.tree --listen 127.0.0.1 --listen 127.0.0.2 --clients 2
process=$(server_process)
kill -STOP "$process"
bash -c 'exec 3<>"/dev/tcp/127.0.0.1/$0" 4<>"/dev/tcp/127.0.0.1/$0" 5<>"/dev/tcp/127.0.0.2/$0" && kill -CONT "$1" &&
    printf "\200\0\0\050\0\0\0\052\0\0\0\0\0\0\0\002\0\001\206\243\0\0\0\003" >&5 && head -c 20 /dev/zero >&5 && head -c 28 <&5' "$port" "$process" |
    od -An -v -tx1 | tr -d ' \n' | grep -qx 800000180000002a0000000100000000000000000000000000000000
ok $? "listeners take turns, so that a busy address doesn't keep others from being served"
run serve examples/e.tree --listen 127.0.0.1 --listen 127.0.0.1 --port 0
ended 3 && [ ! -s "$work/out" ] && grep -q ': Address already in use ' "$work/err"
ok $? "--listen of one address twice: nothing is served"

serving examples/e.tree
printf 'nfs3d: network fault: 127.0.0.1:%s: Address already in use (os error 98)\n  another program listens there; --port names another port\n' "$port" >"$work/wanted"
run serve examples/e.tree --port "$port"
brings /dev/null "$work/wanted" 3
ok $? "a port that is taken"
run serve examples/e.tree --listen nowhere
ended 2 && grep -q 'it is not an IPv4 or IPv6 address' "$work/err"
ok $? "--listen refuses a word that is no address"
run serve examples/e.tree --listen 127.0.0.1:2049
ended 2 && grep -q 'it has a port, which --port gives' "$work/err"
ok $? "--listen refuses an address with a port, and says where the port goes"
run serve examples/e.tree --listen 192.0.2.1 --port 0
ended 3 && grep -q '^  this machine doesn.t have that address; --listen names another$' "$work/err"
ok $? "an address that this machine doesn't have"
echo "800000180000002a0000000100000000000000000000000000000000" >"$work/wanted"
run self examples/e.tree
brings "$work/wanted" /dev/null 0
ok $? "self sends itself one call, and prints the reply"

plan
