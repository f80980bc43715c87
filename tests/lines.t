#!/bin/sh
# The lines of a service: where the system takes them slowly, or not at all; and what the options about lines do.
# alone: it counts what comes in a second
# shellcheck source=tests/lib.sh
. "$(dirname "$0")/lib.sh"

compiles load bench/load.c
compiles exchange clients/exchange.c
compiles denied tests/lines/denied.c

# The tree that is loaded, and one more volume, which isn't exported here: file 6.
{ bench/tree; printf 'volume /b 1000 10 0755 0 0\nexport 10.0.0.0/8 rw\n'; } >"$work/lines.tree"
mkfifo "$work/lines.pipe"
# piped WORDS..: starts the server with a pipe as its output, and reads the first line there. The pipe's other end is 4.
piped() {
    stop
    rm -f "$work/status" "$work/out" "$work/err" "$work/served"
    keyed "$work/lines.tree"
    timeout --foreground 120 "$program" serve "$work/lines.tree" "$@" --port 0 >"$work/lines.pipe" 2>"$work/served.err" &
    server=$!
    exec 4<"$work/lines.pipe"
    line=
    read -r line <&4
    port=${line##*:}
}
# is_up: whether the server lives, and answers.
is_up() { kill -0 "$server" 2>/dev/null && "$work/load" "$port" null 1 1 10 >/dev/null 2>&1; }
# warned: whether one line stands on standard error, which is a warning.
warned() { [ "$(grep -c '' "$work/served.err")" -eq 1 ] && [ "$(grep -ci warn "$work/served.err")" -eq 1 ]; }
# is_each FILE CALLS: whether it has a line for each of so many denied calls of two clients, one each, in each client's order.
is_each() {
    { seq 0 $(($2 - 1)); seq 1048576 $((1048576 + $2 - 1)); } | sed 's/.*/deny addr=127.0.0.1 xid=& prog=100003 proc=1 uid=- rule=export status=13/' >"$work/wanted"
    { grep '^deny .* xid=[0-9]\{1,6\} ' "$1"; grep '^deny .* xid=[0-9]\{7\} ' "$1"; } | same "$work/wanted" - && ! grep -qv "^deny \|$(cat "$work/beside")" "$1"
}
echo '^connection [0-9]* calls=[0-9]*$' >"$work/beside"

# A pipe that nobody reads: the lines of 60,000 denied calls are more than it and 4 MiB take. Whose calls are granted goes on.
piped
"$work/load" "$port" denied 2 16 30000 >"$work/denied.out" 2>"$work/wrong" &
waiting=$!
granted=0
"$work/load" "$port" getattr 10 7 20000 >"$work/out" || granted=1
"$work/load" "$port" make 10 1 500 >"$work/out" || granted=1
sleep 1
kill -0 "$waiting" 2>/dev/null && is_up && [ "$granted" -eq 0 ] && [ ! -s "$work/denied.out" ] && [ ! -s "$work/wrong" ]
ok $? "a pipe that nobody reads: granted calls go on, and whose calls are denied waits"
# While there is no room for its line, a call that fails a rule is held, whether its record comes whole or byte by byte, and so
# is what follows it. The granted call before it is answered.
null="80000028 0000002a 00000000 00000002 000186a3 00000003 00000000 00000000 00000000 00000000 00000000"
reply="80000018 0000002a 00000001 00000000 00000000 00000000 00000000"
refused="80000058 7f00002b 00000000 00000002 000186a3 00000003 00000001 00000001 00000014 00000000 00000000 00000009 00000009 00000000 00000000 00000000 00000018 4e465333 $(key_words) 00000005 00000000 00000006"
refusal="8000001c 7f00002b 00000001 00000000 00000000 00000000 00000000 0000000d"
printf '%s\n' "open 1" "open 2" "send 1 1 $null $refused $null" "want 1 1 $reply" "send 2 1 $null" "want 2 1 $reply" "bytes 2 $refused" \
    "quiet 1 700" "quiet 2 700" "rest 1500" "want 1 1 $refusal $reply" "want 2 1 $refusal" | "$work/exchange" "$port" 2>"$work/wrong" &
held=$!
sleep 2
kill -0 "$held" 2>/dev/null && kill -0 "$waiting" 2>/dev/null && is_up
ok $? "a pipe that nobody reads: a denied call is held, with what follows it, after the granted call before it is answered"
cat <&4 >"$work/lines" &
reading=$!
wait "$held" && [ ! -s "$work/wrong" ]
ok $? "a pipe that is read at last: the calls that were held are answered"
wait "$waiting" && [ -s "$work/denied.out" ]
ok $? "a pipe that is read at last: each denied call is answered"
has_all() { [ "$(grep -c '^deny ' "$work/lines")" -ge 60000 ]; }
wait_until 30 has_all
is_up && serves_quietly
ok $? "a pipe that is read at last: the server goes on, without a warning"
stop
wait "$reading"
exec 4<&-
is_each "$work/lines" 30000
ok $? "a pipe that is read at last: each of 60,000 lines comes once, whole and in the client's order"

# fails WHAT: clients at a server whose lines can't be written. A client that was there goes on; who is denied loses the
# connection without a reply, and comes again after a second.
fails() {
    "$work/load" "$port" getattr 10 1 60000 >"$work/granted" 2>"$work/wrong" &
    granted=$!
    sleep 0.3
    "$work/denied" "$port" 3 >"$work/denied.out"
    lost=$(sed -n 's/^replied=0 ended=\([0-9]*\)$/\1/p' "$work/denied.out")
    [ "${lost:-0}" -ge 2 ] && [ "$lost" -le 5 ]
    ok $? "$1: denied calls end their connections, and come once a second"
    note "$(cat "$work/denied.out") in 3 s"
    wait "$granted" && [ -s "$work/granted" ] && [ ! -s "$work/wrong" ] && is_up
    ok $? "$1: the server lives, and granted calls go on"
    warned
    ok $? "$1: the server warns once"
}
# counts WHAT: the same where denied calls are answered, and their lines counted.
counts() {
    "$work/load" "$port" getattr 10 7 1000 >"$work/out" && "$work/load" "$port" denied 10 7 1000 >"$work/out" && "$work/denied" "$port" 0.5 >"$work/denied.out" &&
        grep -qx 'replied=[1-9][0-9]* ended=0' "$work/denied.out" && is_up
    ok $? "$1: denied calls are answered with --audit-failed count"
    warned
    ok $? "$1: the server warns once with --audit-failed count"
}
piped
exec 4<&-
fails "a reader that goes away"
piped --audit-failed count
exec 4<&-
counts "a reader that goes away"
serving "$work/lines.tree" --audit /dev/full
fails "a full device"
# The last connection may have its turn once its client has gone.
refused=$(grep -c '^connection [0-9]* fault=AuditFault$' "$work/served")
[ "$refused" -ge "${lost:-4}" ] && [ "$refused" -le $((${lost:-4} + 1)) ] && ! grep -qv "^listening \|^connection [0-9]* fault=AuditFault$\|$(cat "$work/beside")" "$work/served"
ok $? "a full device: each connection that ended so has its line"
serving "$work/lines.tree" --audit /dev/full --audit-failed count
counts "a full device"
! grep -qv "^listening \|$(cat "$work/beside")" "$work/served"
ok $? "a full device: connections end without a fault with --audit-failed count"
# How such a service ends.
serving "$work/lines.tree" --audit /dev/full --connections 1
"$work/denied" "$port" 0.5 >"$work/denied.out" 2>/dev/null
server_ends 3 && [ "$(tail -n 1 "$work/served.err")" = "nfs3d: write fault" ]
ok $? "a service whose lines were lost ends with the status 3"
serving "$work/lines.tree" --audit /dev/full --connections 2 --audit-failed count
"$work/load" "$port" denied 2 1 10 >"$work/out"
server_ends 0 && ! grep -q 'write fault' "$work/served.err"
ok $? "a service whose lines were lost ends with the status 0 with --audit-failed count"

piped --connections 2 --audit-failed count
exec 4<&-
"$work/load" "$port" denied 2 1 10 >"$work/out"
server_ends 3 && [ "$(tail -n 1 "$work/served.err")" = "nfs3d: write fault" ]
ok $? "a service that lost the lines of connections too ends with the status 3 with --audit-failed count"

# A file, with clients beside.
rm -f "$work/audit"
serving "$work/lines.tree" --audit "$work/audit" --connections 12
"$work/load" "$port" getattr 10 7 1000 >"$work/out" &
granted=$!
"$work/load" "$port" denied 2 16 1000 >"$work/denied.out" && wait "$granted" && server_ends 0 && is_each "$work/audit" 1000 && ! grep -q '^connection' "$work/audit" &&
    [ "$(wc -l <"$work/audit")" -eq 2000 ] && [ "$(grep -c '^connection [0-9]* calls=1000$' "$work/served")" -eq 12 ] && serves_quietly
ok $? "--audit FILE: a line for each denied call, and none of another kind"

# Rules whose calls get no line.
serving "$work/lines.tree" --audit-skip no-entry --connections 2
"$work/load" "$port" missing 1 1 10 >"$work/out" && "$work/load" "$port" denied 1 1 10 >"$work/out" && server_ends 0 &&
    [ "$(grep -c '^deny .* rule=export status=13$' "$work/served")" -eq 10 ] && [ "$(grep -c '^deny' "$work/served")" -eq 10 ] && serves_quietly
ok $? "--audit-skip of one rule skips its lines"
serving "$work/lines.tree" --audit-skip no-entry,export --connections 2
"$work/load" "$port" missing 1 1 10 >"$work/out" && "$work/load" "$port" denied 1 1 10 >"$work/out" && server_ends 0 && ! grep -q '^deny' "$work/served" &&
    [ "$(grep -c '^connection [0-9]* calls=10$' "$work/served")" -eq 2 ] && serves_quietly
ok $? "--audit-skip of two rules skips the lines of both"
serving "$work/lines.tree" --connections 2
"$work/load" "$port" missing 1 1 10 >"$work/out" && "$work/load" "$port" denied 1 1 10 >"$work/out" && server_ends 0 &&
    [ "$(grep -c '^deny .* rule=export status=13$' "$work/served")" -eq 10 ] && [ "$(grep -c '^deny .* rule=no-entry status=2$' "$work/served")" -eq 10 ] && serves_quietly
ok $? "without --audit-skip no line is skipped"
for rules in none no-entry,none "no-entry," ""; do
    run serve "$work/lines.tree" --port 0 --connections 0 --audit-skip "$rules"
    ended 2 && [ ! -s "$work/out" ] && grep -q '^error: ' "$work/err"
    ok $? "--audit-skip refuses the rules '$rules'"
done

run serve "$work/lines.tree" --port 0 --connections 0 --audit-failed ask
ended 2 && [ ! -s "$work/out" ] && grep -q 'refuse, count' "$work/err"
ok $? "--audit-failed refuses the word 'ask'"

# The time before each line, and names after those of denied calls.
before=$(date -u +%Y-%m-%dT%H:%M:%S)
serving "$work/lines.tree" --times --names --connections 2
"$work/load" "$port" missing 1 1 1 >"$work/out" && "$work/load" "$port" denied 1 1 1 >"$work/out" && server_ends 0 && serves_quietly
ok $? "--times and --names: the service ends without a fault"
after=$(date -u +%Y-%m-%dT%H:%M:%S)
digit="[0-9]"
time="$digit$digit$digit$digit-$digit$digit-$digit${digit}T$digit$digit:$digit$digit:$digit$digit\\.$digit$digit${digit}Z"
[ "$(grep -c '' "$work/served")" -eq 5 ] && ! grep -qv "^$time [a-z]" "$work/served" && cut -c 1-24 "$work/served" | sort -c &&
    awk -v before="$before" -v after="$after" '{ at = substr($0, 1, 19); if (at < before || at > after) wrong = 1 } END { exit wrong }' "$work/served"
ok $? "--times: each line begins with the time, between the start and the end of the service"
{
    echo "deny addr=127.0.0.1 xid=0 prog=100003 proc=3 uid=9 rule=no-entry status=2 call=LOOKUP path=/a/d/none"
    echo "deny addr=127.0.0.1 xid=0 prog=100003 proc=1 uid=- rule=export status=13 call=GETATTR path=/b"
} >"$work/wanted"
sed -n "s/^$time \\(deny .*\\)$/\\1/p" "$work/served" | same "$work/wanted" -
ok $? "--names: the line of a denied call has the procedure and the path"

# A connection that its client resets ends as another, unless a record or a reply is left over.
serving "$work/lines.tree" --connections 5
read128="80000064 0000002b 00000000 00000002 000186a3 00000003 00000006 00000001 00000014 00000000 00000000 00000009 00000009 00000000 00000000 00000000 00000018 4e465333 $(key_words) 00000004 00000000 00000005 00000000 00000000 00020000"
printf 'open 1\nsend 1 3 %s\nwant 1 3 %s\nreset 1\nrest 200\nopen 2\nrest 100\nreset 2\nrest 200\nopen 3\nsend 3 1 %s 80000028 0000\nwant 3 1 %s\nrest 100\nreset 3\nrest 200\nopen 4\nsend 4 1 %s\nrest 200\nreset 4\nrest 200\nopen 5\nsend 5 200 %s\nrest 500\nreset 5\n' \
    "$null" "$reply" "$null" "$reply" "$null" "$read128" | "$work/exchange" "$port" && server_ends 0
status=$?
printf 'connection %s\n' "1 calls=3" "2 calls=0" "3 fault=ReadFault" "4 calls=1" >"$work/wanted"
[ "$status" -eq 0 ] && sed -n '2,5p' "$work/served" | same "$work/wanted" - && serves_quietly
ok $? "a connection that its client resets ends well, unless a record is left over"
[ "$(tail -n +6 "$work/served")" = "connection 5 fault=WriteFault" ]
ok $? "a connection that its client resets while replies are pending ends with a WriteFault"

plan
