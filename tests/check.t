#!/bin/sh
# What `check` prints: the rows of tests/descriptions, and the example with each text that it is cut to.
# shellcheck source=tests/lib.sh
. "$(dirname "$0")/lib.sh"

# text ROW: the description that a row stands for: `;` between lines, S and V for the lines that faults.rows says.
text() {
    printf '%b' "$(printf '%s\n' "$1" | awk -F';' '{
        for (i = 1; i <= NF; i++) {
            line = $i
            if (line == "S") line = "server 0102030405060708"
            if (line == "V") line = "volume /a 10 3 0755 0 0"
            all = all (i > 1 ? "\\n" : "") line
        }
        print all
    }')"
}

# each_row FILE JUDGE WORDS..: checks the description of each row with these words, and has JUDGE say whether what came is what
# stands after the row's =>.
each_row() {
    file=$1
    judge=$2
    shift 2
    rows=0
    line=0
    while IFS= read -r row; do
        line=$((line + 1))
        case $row in "# "* | "") continue ;; esac
        rows=$((rows + 1))
        text "${row%% => *}" >"$work/tree"
        run check "$work/tree" "$@"
        echo "${row#* => }" >"$work/wanted"
        "$judge"
        ok $? "$file:$line ${row#* => }"
    done <"$file"
    [ "$rows" -gt 0 ]
    ok $? "$file has rows"
}

# The judges. A fault's second line has the description's name in front of the place. Standard input, which can't be read
# again, brings the same.
prints() { says "$(cat "$work/wanted")"; }
advises() { advised "$work/tree" && run check - --strict <"$work/tree" && advised -; }
advised() { sed -n "2s|^  $1:||p" "$work/err" | same "$work/wanted" - && ended 1; }
# With --strict the status is 1 where there is a warning.
warns() {
    grep -qx none "$work/wanted" && : >"$work/wanted"
    status=0
    [ -s "$work/wanted" ] && status=1
    warned "$work/tree" && run check - --strict <"$work/tree" && warned -
}
warned() {
    sed -n "s|^warning: $1:||p" "$work/err" >"$work/warnings"
    sed 's/ | /\n/g' "$work/wanted" | cmp -s - "$work/warnings" && grep -q '^ok ' "$work/out" && ended "$status" &&
        [ "$(grep -c '' "$work/err")" = "$(grep -c '' "$work/warnings")" ]
}
reports_all() {
    sed -n 's/^line \([0-9]*\): /\1 /p' "$work/err" | tr '\n' ' ' | sed 's/ $/\n/' | same "$work/wanted" - &&
        [ "$(tail -n 1 "$work/err")" = "faulty lines: $(grep -c '^line' "$work/err")" ] && [ ! -s "$work/out" ] && ended 1
}
each_row tests/descriptions/faults.rows prints
each_row tests/descriptions/messages advises --strict
each_row tests/descriptions/warnings warns --strict
each_row tests/descriptions/every reports_all --all

run check examples/e.tree
says "ok volumes=2 files=8 bytes=12"
ok $? "check of examples/e.tree"
run check examples/e.tree --all
says "ok volumes=2 files=8 bytes=12"
ok $? "check --all of a description without a fault"
run check - <examples/e.tree
says "ok volumes=2 files=8 bytes=12"
ok $? "check of a description from standard input"

# A description that is cut is in order, or has a fault in one of its lines.
wrong=
for length in $(seq 0 $(($(wc -c <examples/e.tree) - 1))); do
    head -c "$length" examples/e.tree >"$work/tree"
    run check "$work/tree"
    lines=$(($(grep -c '' "$work/tree") + 1))
    if ended 0; then
        grep -qx 'ok volumes=[12] files=[1-8] bytes=[0-9]*' "$work/out"
    else
        grep -qx 'line [0-9]*: [A-Z][A-Za-z]*' "$work/err" &&
            line=$(sed -n 's/^line \([0-9]*\):.*/\1/p' "$work/err") && [ "$line" -ge 1 ] && [ "$line" -le "$lines" ]
    fi || wrong="$wrong $length"
done
[ -z "$wrong" ]
ok $? "examples/e.tree cut at each byte: check accepts it or names a faulty line"
[ -z "$wrong" ] || note "wrong at the lengths$wrong"

for copy in crates/*/data/e.tree; do
    same examples/e.tree "$copy"
    ok $? "$copy is a copy of examples/e.tree"
done

plan
