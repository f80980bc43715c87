#!/bin/sh
# A server with a journal that is killed five hundred times under ten clients, each of which knows what was answered to it.
# shellcheck source=tests/lib.sh
. "$(dirname "$0")/lib.sh"

compiles kills tests/kills/kills.c

journal=$work/journal
lives=${NFS3D_LIVES:-500}
printf 'server 0102030405060708\nvolume /a 100000000 100000 0755 0 0\nexport * rw,no_root_squash\n' >"$work/tree"

timeout --foreground 1800 "$work/kills" "$program" "$work/tree" "$journal" "$lives" 1 >"$work/out" 2>"$work/err"
killed=$?
grep -v ' entries run again$\|^nfs3d: warning: .* which were not written whole and not answered$' "$work/err" >"$work/others"
[ "$killed" = 0 ] && [ ! -s "$work/others" ]
ok $? "$lives lives: what was answered is there, and nothing else, by the same handles; a retransmission across a kill gets its first reply"
note "$(cat "$work/out")"
rm -f "$work/status"

run journal check "$journal"
entries=$(sed -n 's/^ok entries=\([0-9]*\) bytes=[0-9]*$/\1/p' "$work/out")
ended 0 && quiet && [ "${entries:-0}" -gt "$lives" ]
ok $? "the journal of all lives is whole"
cp "$work/out" "$work/checked"

run replay "$work/tree" --journal "$journal"
brings "$work/checked" /dev/null 0 || { grep -v ' entries run again, .* s left$' "$work/err" >"$work/others"; same "$work/checked" "$work/out" && [ ! -s "$work/others" ] && ended 0; }
ok $? "each of its replies is the one that the rules give"

plan
