#!/bin/sh
# Lives of a server, one after the other, over descriptions of the same paths and of others: which handles of the earlier lives
# are live.
# shellcheck source=tests/lib.sh
. "$(dirname "$0")/lib.sh"

compiles lives clients/lives.c

# A description of three volumes and 210 files; each file holds the path by which a client sees it.
awk 'BEGIN {
    for (i = 32; i < 127; i++) code[sprintf("%c", i)] = i
    print "server a1b2c3d4e5f60718"
    many = split("/one /two/deep /three", volume, " ")
    for (v = 1; v <= many; v++) {
        print "volume " volume[v] " 1000000 10000 0777 0 0"
        print "export * rw,no_root_squash"
        for (d = 1; d <= 6; d++) {
            dir = d % 3 ? "/d" d : "/d" (d - 1) "/inner"
            print "dir " dir " 0755 0 0"
            for (f = 1; f <= 9; f++) file(dir "/f" f)
            print "link " dir "/link 0 0 f1"
        }
        file("/top")
        file("/more")
        print "hard /again /d1/f1"
        print "hard /d2/again /top"
    }
}
function file(path,    whole, hex, i) {
    whole = volume[v] path
    for (i = 1; i <= length(whole); i++) hex = hex sprintf("%02x", code[substr(whole, i, 1)])
    print "file " path " 0644 0 0 " hex
}' >"$work/first.tree"
# A line more in its middle; other exports, modes, owners, limits and comments; and two lines of each volume in the other order.
awk '{ print } NR == 80 { print "link /added 0 0 top" }' "$work/first.tree" >"$work/added.tree"
awk 'NR == 50 { print "# the same files"; print "" }
    $1 == "volume" { print "volume  " $2 " 2000000 20000 0700 7 7"; next }
    $1 == "export" { print "export 10.0.0.0/8 ro"; print "export 127.0.0.0/8 rw,no_root_squash"; next }
    $1 == "dir" { print "dir " $2 "  0500 8 8"; next }
    $1 == "file" { print "file " $2 " 0600 9 9 " $6; next }
    $1 == "link" { print "link " $2 " 9 9 elsewhere"; next }
    { print }' "$work/first.tree" >"$work/modes.tree"
awk '$2 == "/d4/f3" && !held { held = $0; next } { print } $2 == "/d4/f4" && held { print held; held = "" }' "$work/first.tree" >"$work/order.tree"
[ "$(wc -l <"$work/order.tree")" = "$(wc -l <"$work/first.tree")" ] && ! cmp -s "$work/order.tree" "$work/first.tree" &&
    [ "$(clients/key "$work/modes.tree")" = "$(clients/key "$work/first.tree")" ]
ok $? "descriptions with the same names in the same order have one key in their handles"

# asks CASES SEED LABEL SAME OTHER MADE: asks so many handles, of which SAME were described under this label, OTHER under
# others, and MADE by clients, each live and stale.
asks() {
    "$work/lives" ask "$port" "$work/handles" "$1" "$2" "$3" >"$work/asked" 2>"$work/wrong" &&
        grep -qx "cases=$1 live=[0-9]* stale=[0-9]* described=[0-9]*/[0-9]* made=$6 same=$4 other=$5" "$work/asked"
}
# life K TREE LABEL SAME OTHER MADE WORDS..: starts the server, makes 50 files, gathers the handles, which all have the key that
# clients/key prints, and asks 10,000 of the earlier lives. The first life has its own, as they are before files are made.
: >"$work/handles"
life() {
    what="life $1 ($2)"
    number=$1
    served_tree=$work/$2.tree
    label=$3
    same=$4
    other=$5
    made=$6
    shift 6
    serving "$served_tree" "$@"
    [ "$number" -gt 1 ] || "$work/lives" gather "$port" "$work/handles" "$label" >/dev/null
    : >"$work/now"
    "$work/lives" make "$port" "$work/now" 50 "$number" >/dev/null 2>"$work/wrong" && "$work/lives" gather "$port" "$work/now" "$label" >/dev/null 2>>"$work/wrong" &&
        [ "$(cut -c 1-24 "$work/now" | sort -u)" = "4e465333$NFS3D_KEY" ] && [ "$(grep -c ' client ' "$work/now")" -eq 50 ]
    ok $? "$what: clients make 50 files, and all handles have the server's key"
    asks 10000 "$number" "$label" "$same" "$other" "$made"
    ok $? "$what: of 10,000 earlier handles those of the same description are live, the others stale"
    note "$(cat "$work/asked" "$work/wrong")"
    cat "$work/now" >>"$work/handles"
}
some="[1-9][0-9]*"
life 1 first first "$some/0" 0/0 0/0
crash
life 2 first first "$some/0" 0/0 "0/$some"
crash
life 3 added added 0/0 "0/$some" "0/$some"
crash
life 4 modes first "$some/0" "0/$some" "0/$some"
crash
life 5 order order 0/0 "0/$some" "0/$some"
crash
life 6 first first "$some/0" "0/$some" "0/$some"
crash
life 7 first first "$some/0" "0/$some" "0/$some" --save "$work/saved.tree" --save-every 1
# is_saved: whether the saved tree has the 50 files that clients have made in life 7.
is_saved() { [ "$(grep -c '^\(dir\|file\) /[^ ]*life7-[0-9]* ' "$work/saved.tree" 2>/dev/null)" = 50 ]; }
wait_until 30 is_saved && [ "$(sed -n 's/^server //p' "$work/saved.tree")" != a1b2c3d4e5f60718 ]
ok $? "the tree of life 7 is saved while it is served, with what clients made, under another key"
crash
life 8 saved saved 0/0 "0/$some" "0/$some"
crash
life 9 saved saved "$some/0" "0/$some" "0/$some"
crash
life 10 first first "$some/0" "0/$some" "0/$some"
# The check itself: in the life in which they were made all handles are live.
mv "$work/handles" "$work/gathered"
mv "$work/now" "$work/handles"
asks 1000 11 first "$some/0" 0/0 "$some/0"
ok $? "1,000 handles of life 10, asked in life 10, are all live"
note "$(cat "$work/asked" "$work/wrong")"
crash

# The numbers of what clients make are others in each life, though it begins in the same second.
wrong=0
soon=0
: >"$work/handles"
for k in $(seq 20); do
    crashed=$(date +%s)
    serving "$work/first.tree"
    [ "$(date +%s)" = "$crashed" ] && soon=$((soon + 1))
    : >"$work/now"
    "$work/lives" make "$port" "$work/now" 10 "$k" >/dev/null 2>"$work/wrong" || wrong=$((wrong + 1))
    [ "$k" -eq 1 ] || asks 500 "$k" first 0/0 0/0 0/500 || wrong=$((wrong + 1))
    cat "$work/now" >>"$work/handles"
    crash
done
[ "$wrong" -eq 0 ] && [ "$soon" -gt 0 ] && [ "$(wc -l <"$work/handles")" = 200 ] && [ "$(cut -d ' ' -f 1 "$work/handles" | sort -u | wc -l)" -eq 200 ]
ok $? "killed and started again 20 times: no handle of what clients made is live again, or given twice"
note "$soon times it was started again within the second"

plan
