#!/bin/sh
# Lines `ask` of a script, and replies and audit lines in words (`--decode`, `--names`).
# golden files: tests/ask
# shellcheck source=tests/lib.sh
. "$(dirname "$0")/lib.sh"

tests/ask/compare "$program" >"$work/out"
status=$?
note "$(tail -n 1 "$work/out")"
ok "$status" "each ask line of tests/ask/calls is the same call as in hexadecimal"

run replay examples/e.tree examples/words.script --decode --names
golden tests/ask/words.out && quiet && ended 0
ok $? "--decode prints replies in words, and --names what denied calls name"

run replay examples/e.tree tests/ask/replies.script --decode
grep -v '^\(reply\|deny\) ' "$work/out" >"$work/words"
golden tests/ask/replies.words "$work/words" && quiet && ended 0
ok $? "--decode prints a reply of each procedure in words"

# A record that is sent again is named as the call that it is.
printf '%s\n' 'ask 10.0.0.1 100 9:9 mkdir /a/pub/x' 'again 1 100 10.0.0.2' >"$work/script"
run replay examples/e.tree "$work/script" --names
[ "$(grep -c '^deny addr=10.0.0.[12] xid=1 .* rule=exists status=17 call=MKDIR path=/a/pub$' "$work/out")" = 2 ] && quiet && ended 0
ok $? "--names names a record that is sent again"

# A line that ends with CR and LF: the last word takes in the CR.
for words in "stat /srv" "read /srv/n" "list /srv"; do
    printf 'ask 10.0.0.1 100 0 %s\r\n' "$words" >"$work/script"
    run replay examples/e.tree "$work/script"
    ended 1 && tail -n 1 "$work/err" | grep -q "script:1:$((20 + ${#words})): a carriage return stands here; end lines with LF alone, not with CR and LF$"
    ok $? "a carriage return at the end of an ask line: $words"
done

plan
