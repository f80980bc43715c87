#!/bin/sh
# The control socket: what a running service answers, that it can be stopped, and that nobody who asks harms it.
# shellcheck source=tests/lib.sh
. "$(dirname "$0")/lib.sh"

compiles local clients/local.c
compiles touch clients/touch.c

# The path of a socket has at most 107 bytes, and that of the work folder is short.
socket=$work/control
printf 'server 0102030405060708\nvolume /a 1000000 20 0755 0 0\nexport * rw,no_root_squash\nfile /f 0644 0 0 68656c6c6f\nvolume /b 5000 4 0755 0 0\nexport * ro\n' >"$work/tree"

# controlled WORDS..: starts a server of that tree with the socket.
controlled() { serving "$work/tree" --control "$socket" "$@" && wait_until 10 test -S "$socket"; }

# asked TEXT: sends the text as it is, and prints the answer; ten seconds at most.
asked() { printf '%b' "$1" | timeout 10 "$work/local" "$socket"; }

# answers: whether the service still answers, as it does.
answers() { run control "$socket" status && ended 0 && grep -qx 'volume /a bytes=5 of=1000000 files=2 of=20' "$work/out"; }

# status_is CLIENTS CONNECTIONS CALLS RECEIVED SENT: whether the last run printed this status.
status_is() {
    printf 'version 1.0.0\naddress 127.0.0.1:%s\nuptime -\nclients %s\nconnections %s\ncalls %s\ncalls-per-second -\ndenied 0\nmounts 0\ncached-replies 0 of=128\nreceived %s\nsent %s\npending 0\ndropped-lines 0\nmemory -\nvolume /a bytes=5 of=1000000 files=2 of=20\nvolume /b bytes=0 of=5000 files=1 of=4\n' "$port" "$@" >"$work/wanted"
    sed 's/^\(uptime\|calls-per-second\|memory\) [0-9][0-9]*$/\1 -/' "$work/out" | same "$work/wanted" - && ended 0 && quiet
}

# prints LINE..: whether the last run printed these lines and nothing else, with status 0. A number that differs from run to run is
# wanted as `-`: a port, seconds, and the xid of a call.
prints() {
    printf '%s\n' "$@" >"$work/wanted"
    sed 's/:[0-9]* connection/:- connection/; s/connected=[0-9]*/connected=-/; s/idle=[0-9]*/idle=-/; s/xid=[0-9]*/xid=-/; s/^20[0-9T:.-]*Z /-Z /' "$work/out" |
        same "$work/wanted" - && ended 0 && quiet
}

# null_call: sends a call of NULL on descriptor 3 of bash, and reads the reply.
null_call='printf "\200\0\0\050\0\0\0\052\0\0\0\0\0\0\0\002\0\001\206\243\0\0\0\003" >&3 && head -c 20 /dev/zero >&3 && head -c 28 <&3 >/dev/null'

# beside_a_client WORD..: asks while a client is connected that has sent a call of NULL.
beside_a_client() {
    echo "control $socket $*" >"$work/ran"
    # shellcheck disable=SC2016
    bash -c 'exec 3<>"/dev/tcp/127.0.0.1/$0" && '"$null_call"' && exec "$@"' "$port" "$program" control "$socket" "$@" >"$work/out" 2>"$work/err"
    echo $? >"$work/status"
}

# ---- what is answered

controlled
[ "$(stat -c %a "$socket")" = 600 ]
ok $? "the socket is its owner's alone"
run control "$socket" status
status_is 0 0 0 0 0
ok $? "status: how long the service runs, what it did, and its volumes"
beside_a_client status
status_is 1 1 1 44 28
ok $? "status with a client"
run control "$socket" clients
prints 'clients 0'
ok $? "clients, where there are none"
beside_a_client clients
prints 'clients 1' 'client 127.0.0.1:- connection=2 connected=- idle=- calls=1 received=44 sent=28 pending=0'
ok $? "clients"
run control "$socket" mounts
prints 'mounts 0'
ok $? "mounts, where there are none"
run control "$socket" denied
prints 'denied 0'
ok $? "denied, where no call was"

echo 'error: no such word: frob; the words are status, clients, mounts, denied, metrics, reload, save and stop' >"$work/wanted"
run control "$socket" frob
brings /dev/null "$work/wanted" 1
ok $? "a word that there isn't"
echo 'error: no such word: stop now; the words are status, clients, mounts, denied, metrics, reload, save and stop' >"$work/wanted"
run control "$socket" stop now
brings /dev/null "$work/wanted" 1 && answers
ok $? "stop takes no further word"
echo "error: cannot write $work/none/last: No such file or directory (os error 2)" >"$work/wanted"
run control "$socket" stop --save "$work/none/last"
brings /dev/null "$work/wanted" 1 && answers
ok $? "stop --save where no file can be made: the service goes on"
for words in status 'save x' 'stop x'; do
    # shellcheck disable=SC2086
    run control "$socket" $words --save "$work/last"
    ended 2 && grep -qx 'error: --save FILE is for stop: nfs3d control PATH stop --save FILE' "$work/err" || break
done
[ "$words" = 'stop x' ] && ended 2 && answers
ok $? "--save with another word"

echo "saved $work/a copy" >"$work/wanted"
run control "$socket" save "$work/a copy"
brings "$work/wanted" /dev/null 0 && run check "$work/a copy" && says "ok volumes=2 files=3 bytes=5"
ok $? "save writes the tree to a file, whose name may have spaces"
echo 'error: name a file, since the service has no --save' >"$work/wanted"
run control "$socket" save
brings /dev/null "$work/wanted" 1
ok $? "save without a file, of a service without --save"
echo "error: cannot write $work/none/copy: No such file or directory (os error 2)" >"$work/wanted"
run control "$socket" save "$work/none/copy"
brings /dev/null "$work/wanted" 1
ok $? "save where no file can be made"
echo "error: cannot write $work: it is not a regular file" >"$work/wanted"
run control "$socket" save "$work"
brings /dev/null "$work/wanted" 1
ok $? "save replaces no directory"

# ---- lines that are none

long=$(head -c 4096 /dev/zero | tr '\0' x)
[ "$(asked "$long\n")" = "error: no such word: $long; the words are status, clients, mounts, denied, metrics, reload, save and stop" ]
ok $? "a line of 4,096 bytes is read"
[ "$(asked "${long}x\n")" = 'error: a line has at most 4096 bytes' ]
ok $? "a longer one isn't"
[ "$(asked '\0377\n')" = 'error: a line is UTF-8' ]
ok $? "a line that isn't UTF-8"
[ "$(asked 'frob\nstop\n')" = 'error: no such word: frob; the words are status, clients, mounts, denied, metrics, reload, save and stop' ] && answers
ok $? "what follows the first line is not read"
[ "$(head -c 100000000 /dev/zero | timeout 20 "$work/local" "$socket")" = 'error: a line has at most 4096 bytes' ] && answers
ok $? "a flood of bytes"
run control "$socket" "$(printf 'frob\nstop')"
ended 2 && grep -q 'WORD and FILE must be one line' "$work/err" && answers
ok $? "nfs3d control sends no line break"

# Eight connections at once, each with half a line.
halves=
for _ in 1 2 3 4 5 6 7 8; do
    { printf 'sto' && exec sleep 60; } | "$work/local" "$socket" &
    halves="$halves $!"
done
has_no_place() { run control "$socket" status && ended 3; }
wait_until 10 has_no_place && grep -q 'cannot read .*control: ' "$work/err"
ok $? "a ninth connection is closed"
# shellcheck disable=SC2016
bash -c 'exec 3<>"/dev/tcp/127.0.0.1/$0" && printf "\200\0\0\050\0\0\0\052\0\0\0\0\0\0\0\002\0\001\206\243\0\0\0\003" >&3 &&
    head -c 20 /dev/zero >&3 && head -c 28 <&3' "$port" | od -An -v -tx1 | tr -d ' \n' | grep -qx 800000180000002a0000000100000000000000000000000000000000
ok $? "clients are served meanwhile"
# shellcheck disable=SC2086
kill $halves
wait_until 10 answers
ok $? "and there is place again once they have gone"

# ---- mounts and denied calls

"$work/touch" "$port" 127.0.0.2 /b left 2>"$work/wrong"
"$work/touch" "$port" 127.0.0.3 /c left 2>"$work/wrong"
run control "$socket" mounts
prints 'mounts 1' 'mount 127.0.0.2 /b'
ok $? "a client that mounts a volume"
export_line='deny addr=127.0.0.3 xid=- prog=100005 proc=1 uid=- rule=mount-path status=2 call=MNT path=/c: no exported volume has this path'
run control "$socket" denied
prints 'denied 2' 'rule read-only calls=1' 'rule mount-path calls=1' \
    '-Z deny addr=127.0.0.2 xid=- prog=100003 proc=2 uid=65534 rule=read-only status=30 call=SETATTR path=/b: the volume is exported read-only to this address' \
    "-Z $export_line"
ok $? "denied: how many by which rule, and the last ones with what they were about and why"
run control "$socket" denied 1
prints 'denied 2' 'rule read-only calls=1' 'rule mount-path calls=1' "-Z $export_line"
ok $? "denied N shows the last N"
echo 'error: denied takes a number from 1 to 1024' >"$work/wanted"
for number in 0 1025 x ''; do
    [ "$(asked "denied $number\n")" = 'error: denied takes a number from 1 to 1024' ] || break
done
[ "$number" = '' ] && answers
ok $? "denied with a number that is none"

# ---- metrics

# metrics_are FILE: whether a file is metrics as Prometheus reads them: each metric has its HELP and its TYPE before its values,
# all of them once, and each value is a number.
metrics_are() {
    awk '/^# HELP [a-z0-9_]+ ./ { help[$3]++; last = $3; next }
        /^# TYPE [a-z0-9_]+ (counter|gauge|histogram)$/ { type[$3]++; if ($3 != last) bad++; next }
        /^[a-z0-9_]+(\{[a-z]+="[^"]*"(,[a-z]+="[^"]*")*\})? [0-9]+(\.[0-9]+)?$/ {
            name = $1; sub(/\{.*/, "", name)
            if (name != last && name !~ "^" last "_(bucket|sum|count)$" || !type[last] || seen[$1]++) bad++
            count++; next
        }
        { bad++ }
        END { for (name in help) if (help[name] != 1 || type[name] != 1) bad++; exit bad > 0 || count < 40 }' "$1"
}

run control "$socket" metrics
metrics_are "$work/out" && ended 0 && quiet
ok $? "metrics are in the format of Prometheus"
grep -qx 'nfs3d_connections_total [1-9][0-9]*' "$work/out" && grep -qx 'nfs3d_clients 0' "$work/out" && grep -qx 'nfs3d_mounts 1' "$work/out" &&
    grep -qx 'nfs3d_calls_total{program="nfs",procedure="SETATTR"} 1' "$work/out" && grep -qx 'nfs3d_calls_total{program="nfs",procedure="CREATE"} 0' "$work/out" &&
    grep -qx 'nfs3d_calls_total{program="mount",procedure="MNT"} 2' "$work/out" && grep -qx 'nfs3d_denied_total{rule="read-only"} 1' "$work/out" &&
    grep -qx 'nfs3d_volume_bytes{volume="/a"} 5' "$work/out" && grep -qx 'nfs3d_volume_files_limit{volume="/b"} 4' "$work/out"
ok $? "they count calls by procedure, denied calls by rule, and what volumes have"
turns=$(sed -n 's/^nfs3d_turn_seconds_count //p' "$work/out")
[ "$turns" -ge 4 ] && grep -qx "nfs3d_turn_seconds_bucket{le=\"+Inf\"} $turns" "$work/out" && grep -q '^nfs3d_turn_seconds_bucket{le="0.000010"} ' "$work/out" &&
    sed -n 's/^nfs3d_turn_seconds_bucket.* //p' "$work/out" | sort -c -n
ok $? "and how long turns took"

# ---- the path

run serve "$work/tree" --port 0 --control "$socket"
ended 3 && [ ! -s "$work/out" ] && grep -q 'a service listens there' "$work/err" && answers
ok $? "a second service at the same path is refused, and the first goes on"
echo kept >"$work/plain"
run serve "$work/tree" --port 0 --control "$work/plain"
ended 3 && grep -q 'it is not a socket' "$work/err" && [ "$(cat "$work/plain")" = kept ]
ok $? "a file that is no socket is not touched"
run serve "$work/tree" --port 0 --control "$work/none/control"
ended 3 && grep -q 'No such file or directory' "$work/err"
ok $? "a path where no socket can be made"
crash
[ -S "$socket" ] && run control "$socket" status && ended 3 && grep -q "cannot read $socket: Connection refused" "$work/err"
ok $? "a service that was killed leaves its socket, and can't be asked"
controlled && answers
ok $? "the next one replaces it"
run control "$work/none" status
ended 3 && grep -q "cannot read $work/none: No such file or directory" "$work/err"
ok $? "a path without a socket"

# ---- metrics by HTTP

# metrics_port: the port of the metrics, once the service has printed it.
metrics_port() { sed -n 's/^metrics 127.0.0.1:\([0-9]*\)$/\1/p' "$work/served"; }

# fetched TEXT: sends the text to the port of the metrics, and prints what comes; ten seconds at most.
fetched() {
    # shellcheck disable=SC2016
    timeout 10 bash -c 'exec 3<>"/dev/tcp/127.0.0.1/$0" && printf "%b" "$1" >&3 && cat <&3' "$(metrics_port)" "$1"
}

controlled --metrics 127.0.0.1:0
wait_until 10 test -n "$(metrics_port)"
fetched 'GET /metrics HTTP/1.1\r\nHost: here\r\n\r\n' >"$work/response"
sed '1,/^\r$/d' "$work/response" >"$work/body"
head -n 1 "$work/response" | grep -q '^HTTP/1.1 200 OK' && grep -q '^Content-Type: text/plain; version=0.0.4' "$work/response" &&
    [ "$(sed -n 's/^Content-Length: \([0-9]*\).*/\1/p' "$work/response")" = "$(wc -c <"$work/body")" ] && metrics_are "$work/body"
ok $? "--metrics: GET /metrics"
fetched 'GET /metrics?x=1 HTTP/1.0\n\n' | head -n 1 | grep -q '^HTTP/1.1 200 OK'
ok $? "with a query, of HTTP/1.0, and with line feeds alone"
fetched 'GET / HTTP/1.1\r\n\r\n' | head -n 1 | grep -q '^HTTP/1.1 404 '
ok $? "another path is not found"
fetched 'POST /metrics HTTP/1.1\r\nContent-Length: 4\r\n\r\nstop' >"$work/response"
head -n 1 "$work/response" | grep -q '^HTTP/1.1 405 ' && grep -q '^Allow: GET' "$work/response" && answers
ok $? "another method is not allowed"
fetched 'stop\n\r\n' | head -n 1 | grep -q '^HTTP/1.1 400 ' && answers
ok $? "the words of the control socket are none here"
{ printf 'GET /metrics HTTP/1.1\r\nA: ' && head -c 4096 /dev/zero | tr '\0' a; } >"$work/long"
fetched "$(cat "$work/long")" | head -n 1 | grep -q '^HTTP/1.1 431 ' && answers
ok $? "a head of more than 4,096 bytes is refused"
# shellcheck disable=SC2016
bash -c 'exec 3<>"/dev/tcp/127.0.0.1/$1" && printf "GET /metr" >&3 && exec 4<>"/dev/tcp/127.0.0.1/$1" && exec 3<>"/dev/tcp/127.0.0.1/$0" && '"$null_call" "$port" "$(metrics_port)" && answers
ok $? "half a request holds nobody up"
run serve "$work/tree" --port 0 --metrics 9049
ended 2 && grep -q 'it is not an address and a port' "$work/err"
ok $? "--metrics takes an address and a port"
run serve "$work/tree" --port 0 --metrics "127.0.0.1:$(metrics_port)"
ended 3 && grep -q "127.0.0.1:$(metrics_port)" "$work/err"
ok $? "an address that is taken is refused"

# ---- reload

# described LINES: writes the description again, with these exports of its two volumes.
described() {
    printf 'server 0102030405060708\nvolume /a 1000000 20 0755 0 0\n%bfile /f 0644 0 0 68656c6c6f\nvolume /b 5000 4 0755 0 0\n%b' "$1" "$2" >"$work/tree"
}

# reloads: whether the service has taken the exports of its description.
reloads() { run control "$socket" reload && prints "reloaded $work/tree"; }

# refuses_reload TEXT: whether it answered this, and the exports are as they were.
refuses_reload() {
    echo "$1" >"$work/wanted"
    run control "$socket" reload
    brings /dev/null "$work/wanted" 1 && "$work/touch" "$port" 127.0.0.2 /a still 2>"$work/wrong"
}

# With one cached reply, a second SETATTR of the same bytes is no retransmission.
open_exports='export * rw,no_root_squash\n'
controlled --cache 1
"$work/touch" "$port" 127.0.0.1 /a one 2>"$work/wrong"
ok $? "a client that a volume is exported to"
described 'export 127.0.0.2 rw,no_root_squash\n' 'export * ro\n'
"$work/touch" "$port" 127.0.0.1 /a two 2>"$work/wrong"
ok $? "a description that is written again has no effect by itself"
reloads
ok $? "reload"
"$work/touch" "$port" 127.0.0.1 /a three 2>"$work/wrong"
[ $? = 3 ] && "$work/touch" "$port" 127.0.0.2 /a four 2>"$work/wrong"
ok $? "then the exports are those of the description"
run control "$socket" mounts
prints 'mounts 2' 'mount 127.0.0.1 /a' 'mount 127.0.0.2 /a'
ok $? "mounts stay"
run control "$socket" status
grep -qx 'volume /a bytes=5 of=1000000 files=5 of=20' "$work/out"
ok $? "files stay, those that clients made too"
described 'export 127.0.0.2 rw,no_root_squash,frob\n' 'export * ro\n'
run control "$socket" reload
ended 1 && grep -q '^error: line 3: BadOptions' "$work/err" && grep -q "tree:3:" "$work/err" && "$work/touch" "$port" 127.0.0.2 /a five 2>"$work/wrong"
ok $? "a faulty description changes nothing, and its fault is told"
described "$open_exports" 'export * ro\n'
sed -i 's|^volume /b |volume /c |' "$work/tree"
refuses_reload 'error: the description has the volume /c where /b is served; start the service anew'
ok $? "nor does one with another volume"
sed -i '/^volume .c /,$d' "$work/tree"
refuses_reload 'error: the description has 1 volumes, and 2 are served; start the service anew'
ok $? "nor one with another number of volumes"
rm "$work/tree"
run control "$socket" reload
ended 1 && grep -q "^error: nfs3d: cannot read $work/tree: " "$work/err"
ok $? "nor one that is gone"
described '' ''
reloads
"$work/touch" "$port" 127.0.0.2 /a six 2>"$work/wrong"
[ $? = 3 ]
ok $? "a volume may be exported to nobody"
described "$open_exports" "$open_exports"
head -c 3000000 /dev/zero | tr '\0' 0 >"$work/zeros"
{ printf 'file /big 0644 0 0 ' && cat "$work/zeros" && printf '\nexport 127.0.0.9 ro\n'; } >>"$work/tree"
reloads && "$work/touch" "$port" 127.0.0.2 /a seven 2>"$work/wrong"
ok $? "the files of the description are passed over, however long their lines are"
described "$open_exports" "$open_exports"
mkdir "$work/directory"
serving "$work/directory" --export '127.0.0.1=ro' --control "$socket" && wait_until 10 test -S "$socket"
run control "$socket" reload
ended 1 && grep -q '^error: the exports of directories stand in the words of nfs3d serve' "$work/err"
ok $? "the exports of a directory stand in the command"

run serve "$work/directory" --export '127.0.0.1=ro' --watch --port 0
ended 2 && grep -q -e '--watch takes one description, in a file' "$work/err"
ok $? "--watch takes a description in a file"
controlled --cache 1 --watch
"$work/touch" "$port" 127.0.0.1 /a one 2>"$work/wrong"
ok $? "a service that watches its description"
described 'export 127.0.0.2 rw,no_root_squash\n' 'export * ro\n'
is_refused() { "$work/touch" "$port" 127.0.0.1 /a two 2>"$work/wrong"; [ $? = 3 ]; }
wait_until 20 is_refused && "$work/touch" "$port" 127.0.0.2 /a three 2>"$work/wrong"
ok $? "takes its exports when it changes"
described 'export 127.0.0.9 frob\n' 'export * ro\n'
warns() { grep -q 'the exports are as before: line 3: BadOptions' "$work/served.err"; }
wait_until 20 warns && "$work/touch" "$port" 127.0.0.2 /a four 2>"$work/wrong"
ok $? "and warns where it can't"
rm "$work/tree"
sleep 2
described "$open_exports" 'export * ro\n'
is_granted() { "$work/touch" "$port" 127.0.0.1 /a five 2>"$work/wrong"; }
wait_until 20 is_granted
ok $? "a description that is gone is waited for"

# Clients at work while the exports change ten times: each call is granted or denied, and none is lost.
controlled
for turn in 1 2 3 4 5 6 7 8 9 10; do
    case $turn in
    *[13579]) described 'export 127.0.0.0/8 ro\n' 'export * ro\n' ;;
    *) described "$open_exports" 'export * ro\n' ;;
    esac
    reloads || break
    "$work/touch" "$port" "127.0.1.$turn" /a "x$turn" 2>"$work/wrong"
    touched=$?
    case $turn:$touched in
    *[13579]:1 | *[02468]:0) ;;
    *) break ;;
    esac
done
[ "$turn" = 10 ] && run control "$socket" status && grep -qx 'volume /a bytes=5 of=1000000 files=7 of=20' "$work/out"
ok $? "each call is judged by the exports that are in force"

# Three clients send 4,000 SETATTRs each, while the exports change 20 times. By a model, a client's replies are those of the
# exports in force: they change at most as often as these, and to nothing else, and each denial is counted.
players=
for client in 1 2 3; do
    awk -v n="$client" 'BEGIN { for (i = 0; i < 4000; i++) print "ask 10.0.0.1 0 0:0 chmod /a/f 64" n }' >"$work/calls.$client"
    "$program" replay "$work/calls.$client" --port "$port" --decode >"$work/replies.$client" 2>&1 &
    players="$players $!"
done
run control "$socket" metrics
denied_before=$(sed -n 's/^nfs3d_denied_total{rule="read-only"} //p' "$work/out")
for turn in 1 2 3 4 5 6 7 8 9 10; do
    described 'export * ro,no_root_squash\n' 'export * ro\n'
    reloads || break
    described "$open_exports" 'export * ro\n'
    reloads || break
done
[ "$turn" = 10 ] && ended 0
ok $? "exports change while clients are at work"
# shellcheck disable=SC2086
wait $players
for client in 1 2 3; do
    sed -n 's/^  SETATTR: //p' "$work/replies.$client" >"$work/statuses.$client"
    [ "$(grep -c '' "$work/statuses.$client")" = 4000 ] && ! grep -qvx 'NFS3_OK\|NFS3ERR_ROFS' "$work/statuses.$client" &&
        [ "$(uniq "$work/statuses.$client" | grep -c '')" -le 21 ] || break
done
changed=$?
# A client may have sent its last call while the exports were read-only; one that comes now is granted.
head -n 1 "$work/calls.1" >"$work/one"
"$program" replay "$work/one" --port "$port" --decode | grep -qx '  SETATTR: NFS3_OK' || changed=1
cat "$work"/statuses.* | grep -c NFS3ERR_ROFS >"$work/denied"
run control "$socket" metrics
[ "$changed" = 0 ] && [ $(($(cat "$work/denied") + denied_before)) = "$(sed -n 's/^nfs3d_denied_total{rule="read-only"} //p' "$work/out")" ] && [ "$(cat "$work/denied")" -gt 0 ]
ok $? "each reply is by the exports before or after a change, in the order of the changes"

# ---- the end

echo stopping >"$work/stopping"
run control "$socket" stop
brings "$work/stopping" /dev/null 0 && server_ends 0 && [ ! -e "$socket" ] && serves_quietly
ok $? "stop ends the service, with status 0 and without its socket"
controlled --save "$work/saved"
"$work/touch" "$port" 127.0.0.1 /a left 2>"$work/wrong"
ok $? "a client makes a file"
echo "saved $work/saved" >"$work/wanted"
run control "$socket" save
brings "$work/wanted" /dev/null 0 && grep -q '^file /left ' "$work/saved"
ok $? "save without a file writes that of --save"
rm "$work/saved"
run control "$socket" stop
[ -f "$work/saved" ]
ok $? "nfs3d control returns once the tree is saved"
brings "$work/stopping" /dev/null 0 && server_ends 0 && grep -q '^file /left ' "$work/saved" && run check "$work/saved" && says "ok volumes=2 files=4 bytes=5"
ok $? "stop saves the tree where --save says so"

controlled
"$work/touch" "$port" 127.0.0.1 /a left 2>"$work/wrong"
run control "$socket" stop --save "$work/last tree"
brings "$work/stopping" /dev/null 0 && server_ends 0 && grep -q '^file /left ' "$work/last tree" && run check "$work/last tree" && says "ok volumes=2 files=4 bytes=5"
ok $? "stop --save saves the tree to another file"
rm "$work/saved"
controlled --save "$work/saved"
run control "$socket" stop --save "$work/other"
brings "$work/stopping" /dev/null 0 && server_ends 0 && [ -f "$work/other" ] && [ -f "$work/saved" ]
ok $? "beside the one of --save"
controlled
# shellcheck disable=SC2016
bash -c 'exec 3<>"/dev/tcp/127.0.0.1/$0" && printf "\200\0\0\050" >&3 && { "$1" control "$2" stop --save "$3/first" >"$3/told" & } && sleep 0.5 &&
    { "$1" control "$2" stop --save "$3/second" 2>"$3/second.err"; exec 3>&- && wait $!; }' "$port" "$program" "$socket" "$work"
same "$work/stopping" "$work/told" && server_ends 0 && [ -f "$work/first" ] && [ ! -e "$work/second" ] &&
    grep -qx "error: the service is stopping already, and saves its tree to $work/first" "$work/second.err"
ok $? "a file to save at the end is named once"

# A client that stays: the first NULL of it is sent a second after the stop, beside a connection that comes too late.
controlled
# shellcheck disable=SC2016
bash -c 'exec 3<>"/dev/tcp/127.0.0.1/$0" && { "$1" control "$2" stop >"$3/told" & } && sleep 1 &&
    printf "\200\0\0\050\0\0\0\052\0\0\0\0\0\0\0\002\0\001\206\243\0\0\0\003" >&3 && head -c 20 /dev/zero >&3 && head -c 28 <&3 >"$3/reply" &&
    { (exec 4<>"/dev/tcp/127.0.0.1/$0") 2>/dev/null || : >"$3/late"; } && kill -0 $! && exec 3>&- && wait $!' "$port" "$program" "$socket" "$work"
same "$work/stopping" "$work/told" && [ "$(od -An -v -tx1 "$work/reply" | tr -d ' \n')" = 800000180000002a0000000100000000000000000000000000000000 ] && server_ends 0
ok $? "a service that is stopped answers its clients until they have left"
[ -e "$work/late" ]
ok $? "and takes no more of them"
controlled
# shellcheck disable=SC2016
bash -c 'exec 3<>"/dev/tcp/127.0.0.1/$0" && timeout 30 "$1" control "$2" stop >"$3/told"' "$port" "$program" "$socket" "$work"
same "$work/stopping" "$work/told" && server_ends 0
ok $? "a client that stays and is silent doesn't hold up the end"
controlled
# shellcheck disable=SC2016
bash -c 'exec 3<>"/dev/tcp/127.0.0.1/$0" && printf "\200\0\0\050\0\0\0\052" >&3 && timeout 30 "$1" control "$2" stop >"$3/told"' "$port" "$program" "$socket" "$work"
same "$work/stopping" "$work/told" && server_ends 0
ok $? "nor does one that has sent half a call"

# goes_on FILE WHY: whether the last run was told that the service goes on, since it can't write this file, of which nothing is left;
# it is logged, and new clients are served.
goes_on() {
    printf 'stopping\nerror: cannot write %s: %s; the service goes on\n' "$1" "$2" >"$work/wanted"
    brings /dev/null "$work/wanted" 1 && grep -q "cannot write $1: $2; the service goes on\$" "$work/served.err" && [ ! -e "$1" ] && [ ! -e "$1.part" ] &&
        wait_until 10 "$work/touch" "$port" 127.0.0.1 /a later 2>"$work/wrong"
}

mkdir "$work/gone"
controlled --save "$work/gone/saved"
rm -r "$work/gone"
run control "$socket" stop
goes_on "$work/gone/saved" "No such file or directory (os error 2)"
ok $? "stop, where the tree can't be saved: the service goes on, and serves new clients"
run control "$socket" stop --save "$work/beside"
goes_on "$work/gone/saved" "No such file or directory (os error 2)"
ok $? "so it does where only the file of stop --save can be written"
rm -f "$work/beside"
mkdir "$work/gone"
run control "$socket" stop
brings "$work/stopping" /dev/null 0 && server_ends 0 && grep -q '^file /later ' "$work/gone/saved" && [ ! -e "$work/beside" ]
ok $? "it ends once the tree can be saved, and FILE is forgotten that could not be"
controlled
bash -c 'exec 3<>"/dev/tcp/127.0.0.1/$0" && printf "\200\0\0\050" >&3 && { "$1" control "$2" stop --save "$3/gone/last" >"$3/out" 2>"$3/err"; echo $? >"$3/status"; } & sleep 0.5; rm -r "$3/gone"; wait' "$port" "$program" "$socket" "$work"
goes_on "$work/gone/last" "No such file or directory (os error 2)"
ok $? "nor is it ended where the file of stop --save can be made no more when its clients are gone"

# A file may have 4,096 bytes at most, as on a disk that is full before the tree is written.
awk 'BEGIN { printf "server 0102030405060708\nvolume /a 1000000 20 0755 0 0\nexport * rw,no_root_squash\nfile /f 0644 0 0 "; for (i = 0; i < 16384; i++) printf "00"; print "" }' >"$work/large.tree"
trap '' XFSZ
serving "$work/large.tree" --control "$socket" && wait_until 10 test -S "$socket"
trap - XFSZ
prlimit --pid "$(server_process)" --fsize=4096:unlimited
run control "$socket" stop --save "$work/full"
goes_on "$work/full" "File too large (os error 27)"
ok $? "stop --save on a disk that is full: the service goes on"
prlimit --pid "$(server_process)" --fsize=unlimited:unlimited
run control "$socket" stop --save "$work/full"
brings "$work/stopping" /dev/null 0 && server_ends 0 && grep -q '^file /later ' "$work/full" && run check "$work/full" && says "ok volumes=1 files=3 bytes=16384"
ok $? "and ends once there is room"

# A service that ends by itself has nobody to go on for.
mkdir "$work/gone"
controlled --save "$work/gone/saved" --connections 1
rm -r "$work/gone"
"$work/touch" "$port" 127.0.0.1 /a last 2>"$work/wrong"
server_ends 3 && grep -q "^nfs3d: cannot write $work/gone/saved: " "$work/served.err"
ok $? "a service that ends by itself, and whose tree can't be saved, ends with that fault"

run serve "$work/tree" --save "$work/saved" --port 0
ended 2 && grep -q 'or --control PATH$' "$work/err"
ok $? "--save of a service that doesn't end is refused, and --control is one way out"

plan
