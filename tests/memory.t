#!/bin/sh
# Want of memory: too little of it, and each growth refused in turn, in commands and while clients are served.
# shellcheck source=tests/lib.sh
. "$(dirname "$0")/lib.sh"

echo "nfs3d: out of memory" >"$work/no-memory"
script=tests/scripts/call-between-connections

# memory KIBIBYTES: what the run of a script brings where there is no more memory: all, the fault after some of it, or nothing
# where the program doesn't even start.
memory() {
    exec 2>/dev/null
    (
        ulimit -v "$1"
        "$program" replay examples/e.tree "$script.script" >"$work/out" 2>"$work/err"
    )
    case $? in
    0) cmp -s "$work/out" "$script.out" && echo all || echo wrong ;;
    3)
        head -c "$(wc -c <"$work/out")" "$script.out" | cmp -s - "$work/out" &&
            cmp -s "$work/err" "$work/no-memory" && echo refused || echo wrong
        ;;
    *) echo nothing ;;
    esac
}

# Each amount of memory, until there is enough. Once the program starts, it ends by itself.
before=nothing
refused=0
for step in $(seq 1 4000); do
    brought=$(memory $((step * 16)))
    case $before-$brought in
    nothing-nothing) ;;
    nothing-refused | refused-refused) refused=$((refused + 1)) ;;
    *) break ;;
    esac
    before=$brought
done
[ "$brought" = all ] && [ "$refused" -gt 0 ]
ok $? "with too little memory the program says so after a first part of its output"
note "$refused amounts of memory are too little, then $brought at $((step * 16)) KiB"

cc -O2 -shared -fPIC -o "$work/refuse.so" tests/memory/refuse.c
ok $? "tests/memory/refuse.c is compiled"

# Each growth of memory refused in turn, alone and with all after it, while calls change the tree. The program ends with
# a first part of its output and says why; or each call that is answered SYSTEM_ERR is as one that was never sent.
poor() { env "$@" LD_PRELOAD="$work/refuse.so" "$program" replay examples/e.tree tests/memory/changes.script >"$work/out" 2>"$work/err"; }
# kept NUMBERS..: what is printed where the calls of these numbers are not sent, in the file $name.
kept() {
    name=$work/kept-$(echo "$*" | tr ' ' '-')
    [ ! -f "$name" ] || return 0
    awk -v numbers="$*" 'BEGIN { n = split(numbers, number, " "); for (i = 1; i <= n; i++) not_sent[sprintf("%08x", number[i])] = 1 }
        !($1 == "call" && $4 in not_sent)' tests/memory/changes.script >"$work/calls"
    "$program" replay examples/e.tree "$work/calls" >"$name" 2>/dev/null
}
# is_poor STATUS: whether this is how a run without some memory may end.
is_poor() {
    numbers=$(sed -n 's/^deny .* xid=\([0-9]*\) .* rule=memory status=system-err$/\1/p' "$work/out" | tr '\n' ' ')
    # shellcheck disable=SC2086
    kept $numbers
    refused=$((refused + $(echo "$numbers" | wc -w)))
    awk 'left > 0 { left--; next } / rule=memory / { left = 1; next } { print }' "$work/out" >"$work/others"
    case $1 in
    0) cmp -s "$work/others" "$name" && quiet ;;
    3) head -c "$(wc -c <"$work/others")" "$name" | cmp -s - "$work/others" && cmp -s "$work/err" "$work/no-memory" ;;
    *) return 1 ;;
    esac
}
poor GROWTHS="$work/grown"
growths=$(cat "$work/grown")
wrong=
refused=0
for k in $(seq "$growths"); do
    poor REFUSE="$k"
    is_poor $? || wrong="$wrong $k"
    poor REFUSE="$k" REFUSE_BEHIND=1
    is_poor $? || wrong="$wrong $k.."
done
[ "$growths" -gt 50 ] && [ "$refused" -gt 10 ] && [ -z "$wrong" ]
ok $? "each growth refused in turn: a call that is answered SYSTEM_ERR is as one that was never sent"
note "$growths growths, $refused calls answered SYSTEM_ERR, wrong:${wrong:- none}"

# refused_each WORDS..: the same of another command, over calls that take no memory. It does all of it, or ends with the
# status 3: what it has printed is a first part of it then, and no file is written.
refused_each() {
    rm -f "$work/left.tree" "$work/whole.tree"
    env GROWTHS="$work/grown" LD_PRELOAD="$work/refuse.so" "$program" "$@" >"$work/whole" 2>"$work/err"
    [ ! -e "$work/left.tree" ] || mv "$work/left.tree" "$work/whole.tree"
    growths=$(cat "$work/grown")
    wrong=
    refused=0
    for k in $(seq "$growths"); do
        rm -f "$work/left.tree"
        env REFUSE="$k" REFUSE_BEHIND=1 LD_PRELOAD="$work/refuse.so" "$program" "$@" >"$work/out" 2>"$work/err"
        case $? in
        0) cmp -s "$work/out" "$work/whole" && { [ ! -e "$work/whole.tree" ] || cmp -s "$work/left.tree" "$work/whole.tree"; } ;;
        3)
            refused=$((refused + 1))
            head -c "$(wc -c <"$work/out")" "$work/whole" | cmp -s - "$work/out" && [ ! -e "$work/left.tree" ] &&
                tail -n 1 "$work/err" | grep -q '^nfs3d: \(out of memory$\|cannot \)'
            ;;
        *) false ;;
        esac || wrong="$wrong $k"
    done
    [ "$growths" -gt 10 ] && [ "$refused" -gt 10 ] && [ -z "$wrong" ]
    ok $? "each growth refused in turn: $(echo "$*" | sed "s|$work/||g")"
    note "$growths growths, it ended at $refused, wrong:${wrong:- none}"
}
mkdir -p "$work/small/inner"
echo text >"$work/small/one"
ln "$work/small/one" "$work/small/inner/two"
ln -s one "$work/small/link"
# A file that is read for the first time gets another atime.
run describe "$work/small" --mount /small
refused_each describe "$work/small" --mount /small --export '*=ro' --times --key 0102030405060708
refused_each describe "$work/small" --mount /small --export '*=ro' "$work/small/inner" --chown 1:2 --key 0102030405060708
{ cat examples/e.tree; echo 'times / 1 2.5 3+4000000000'; } >"$work/timed.tree"
refused_each replay "$work/timed.tree" examples/read.script --save "$work/left.tree" --key 0102030405060708
refused_each replay examples/e.tree examples/read.script --decode --names
refused_each why examples/farm.tree 10.1.4.7 500 write /tools/bin/cc
refused_each exports examples/farm.tree

# A journal is run again, looked at and compacted.
compiles load bench/load.c
bench/tree >"$work/tree"
keyed "$work/tree"
serving "$work/tree" --journal "$work/journal"
"$work/load" "$port" make 1 1 10 >"$work/out" 2>&1
stop
refused_each replay "$work/tree" --journal "$work/journal"
refused_each journal compact "$work/tree" "$work/journal" "$work/left.tree" --key 0102030405060708

# One growth refused while three clients make and remove files, and one more comes: it costs at most one of them a call or
# its connection, and the server goes on; or there is no server, which says why.
env GROWTHS="$work/grown" LD_PRELOAD="$work/refuse.so" "$program" serve "$work/tree" --port 0 --connections 0 >"$work/served" 2>"$work/err"
first=$(cat "$work/grown")
# poorly_served K: whether a server whose growth K is refused ends so, or serves all clients but one. Adds to `harmed`.
poorly_served() {
    : >"$work/served"
    timeout --foreground 60 env REFUSE="$1" LD_PRELOAD="$work/refuse.so" "$program" serve "$work/tree" --port 0 >"$work/served" 2>"$work/served.err" &
    server=$!
    wait_until 30 is_listening
    if [ -z "$port" ]; then
        server_ends 3 && same "$work/no-memory" "$work/served.err"
        return
    fi
    clients=
    for _ in 1 2 3; do
        "$work/load" "$port" make 1 1 20 >/dev/null 2>&1 &
        clients="$clients $!"
    done
    lost=0
    for client in $clients; do wait "$client" || lost=$((lost + 1)); done
    "$work/load" "$port" null 1 1 10 >/dev/null 2>&1 || lost=$((lost + 1))
    harmed=$((harmed + lost))
    [ "$lost" -le 1 ] && kill -0 "$server"
}
wrong=
harmed=0
for k in $(seq $((first - 10)) $((first + 60))); do
    poorly_served "$k" || wrong="$wrong $k"
    stop
done
[ "$first" -gt 50 ] && [ "$harmed" -gt 10 ] && [ -z "$wrong" ]
ok $? "a growth refused while clients are served costs at most one of them its call or connection"
note "$harmed times a client was refused, wrong:${wrong:- none}"

# A call is answered SYSTEM_ERR by what the allocator said, so no crate that the service stands on makes an AllocError itself, but
# where a directory has 2^32 - 1 places, or the server as many files. nfs_load, which only loads descriptions, is not looked at,
# nor is nfs_words, whose texts say at their end that a growth was refused.
crates=$(awk -F': *' '/^#/ { next } { uses[$1] = $2 }
    function add(it, n, names, i) { if ((it in seen) || !(it in uses) || it == "nfs_load" || it == "nfs_words") return; seen[it]; print it; n = split(uses[it], names, " "); for (i = 1; i <= n; i++) add(names[i]) }
    END { add("nfs_loop") }' crates.txt)
for it in $crates; do grep -n 'AllocError\|AllocFailed' "crates/$it"/src/*.rt /dev/null; done |
    grep -v ':use std::alloc\|Result<.*, AllocError>\|    Memory(.*AllocError),$\|_refused: AllocError)$\|:[0-9]*: *//' |
    sed 's/:[0-9]*: */: /' | sort >"$work/made"
cat >"$work/limits" <<'END'
crates/nfs_entries/src/directory_entries.rt: return Err(AllocError);
crates/nfs_handles/src/number_slots.rt: return Err(AllocError);
END
[ "$(echo "$crates" | grep -c .)" -gt 10 ]
ok $? "the crates that the service stands on are found"
same "$work/limits" "$work/made"
ok $? "none of them makes an allocator's error itself, but at two limits of 2^32 - 1"

plan
