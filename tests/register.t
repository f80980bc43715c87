#!/bin/sh
# `serve --register`: what a portmapper is told, and what a service does without one. The portmapper is one for tests, since it says
# what it is asked; its port takes root, and a machine where no other has it.
# shellcheck source=tests/lib.sh
. "$(dirname "$0")/lib.sh"

compiles portmap clients/portmap.c
compiles exchange clients/exchange.c

# asked_of ANSWER..: starts the portmapper, which gives these answers.
asked_of() {
    rm -f "$work/calls"
    "$work/portmap" "$@" >"$work/calls" 2>"$work/portmap.err" &
    portmapper=$!
    wait_until 10 begun
}
begun() { grep -qsx ready "$work/calls" || ! kill -0 "$portmapper" 2>/dev/null; }

if ! asked_of || ! grep -qsx ready "$work/calls"; then
    skip "what a portmapper is told" "port 111 can't be had here: $(cat "$work/portmap.err")"
    plan
    exit
fi
kill "$portmapper" 2>/dev/null
wait "$portmapper" 2>/dev/null

# The calls of RFC 1833: a call of RPC version 2, program 100000, version 2, SET (1) or UNSET (2), no credential, no verifier; the
# program, version 3, TCP (6), the port.
# call PROCEDURE PROGRAM: that call as the portmapper writes it, for the port of the server.
call() { printf '00000000 00000002 000186a0 00000002 %08x 00000000 00000000 00000000 00000000 %08x 00000003 00000006 %08x\n' "$1" "$2" "$port"; }

asked_of yes late yes yes
serving examples/e.tree --connections 1 --register
{ echo ready && call 1 100003 && call 1 100005 && call 2 100003 && call 2 100005; } >"$work/wanted"
printf 'open 1\nclose 1\n' | "$work/exchange" "$port" && server_ends 0 && serves_quietly && wait "$portmapper" && same "$work/wanted" "$work/calls"
ok $? "NFS and MOUNT are registered at the server's port, from a port below 1024, and removed when the service ends"

# fails_so WHAT MESSAGE SET..: whether a service ends with status 3 and this message, before it listens, where the portmapper gives
# these answers; $work/calls has what it was asked.
fails_so() {
    what=$1
    message=$2
    shift 2
    asked_of "$@"
    run serve examples/e.tree --port 0 --save "$work/saved" --connections 1 --register
    kill "$portmapper" 2>/dev/null
    wait "$portmapper" 2>/dev/null
    echo "nfs3d: $message" >"$work/wanted"
    brings /dev/null "$work/wanted" 3 && [ ! -e "$work/saved" ]
    ok $? "$what"
}
refused() { echo "the portmapper did not register program $1; see with rpcinfo -p whether another server has it: stop that one, or remove what an earlier run left with rpcinfo -d $1 3"; }
fails_so "a portmapper that has another server for NFS" "$(refused 100003)" no
fails_so "one that has another server for MOUNT" "$(refused 100005)" yes no yes
tail -n 1 "$work/calls" | grep -q '^00000000 00000002 000186a0 00000002 00000002 .* 000186a3 '
ok $? "then NFS is removed again"
fails_so "one that denies the call" "no portmapper answers at 127.0.0.1:111 (invalid data); start rpcbind, or leave out --register" deny
fails_so "one whose reply ends too early" "no portmapper answers at 127.0.0.1:111 (invalid data); start rpcbind, or leave out --register" short
fails_so "no portmapper" "no portmapper answers at 127.0.0.1:111 (Connection refused (os error 111)); start rpcbind, or leave out --register"

asked_of silent yes yes
serving examples/e.tree --register
serves_quietly && grep -q '^listening ' "$work/served" && [ "$(sort "$work/calls" | uniq | grep -c '')" = 3 ]
ok $? "a call that gets no answer is sent again"
stop

if command -v setpriv >/dev/null; then
    asked_of silent
    # shellcheck disable=SC2086
    setpriv --bounding-set -all --inh-caps -all --reuid 65534 --regid 65534 --clear-groups "$program" serve "$top/examples/e.tree" --port 0 --register >"$work/out" 2>"$work/err"
    echo $? >"$work/status"
    grep -q '^nfs3d: a portmapper takes changes only from a port below 1024, and the system gives none (Permission denied (os error 13)); run as root or with CAP_NET_BIND_SERVICE, or leave out --register$' "$work/err" && ended 3
    ok $? "without the privilege for such a port"
    kill "$portmapper" 2>/dev/null
    wait "$portmapper" 2>/dev/null
else
    skip "without the privilege for such a port" "there is no setpriv"
fi

plan
