#!/bin/sh
# A run of calls of all procedures, judged by the policy of docs/SECURITY.md with nothing of the table of rules; and what the
# judge, tests/policy/check, must refuse.
# shellcheck source=tests/lib.sh
. "$(dirname "$0")/lib.sh"

judged() { awk -f tests/policy/check "$@" >"$work/judged"; }

# By its comments 40 calls that may change the tree are granted. Two of them change no listing: a RENAME between two names of
# one file, and a SETATTR of a time.
tests/policy/tree >"$work/tree"
run replay "$work/tree" tests/policy/run.script
judged "$work/tree" tests/policy/run.script "$work/out" && quiet && ended 0 &&
    grep -qx 'events=124 changes=38 procedures=28 broken=0 unlike=0' "$work/judged"
ok $? "a run of 124 calls of all procedures obeys the policy"

# The names of all rules but `numbers`, from the definitions.
sed -n 's/^\(name_of\|rpc_name\) .*codes "\([a-z-]*\)"$/\2/p' crates/nfs_rules/specs/Rules.antt crates/nfs_server/specs/RpcRules.antt |
    grep -vx numbers | sort >"$work/wanted"
[ -s "$work/wanted" ] && sed '1,/^rules$/d' "$work/judged" | sort | same "$work/wanted" -
ok $? "each rule but numbers denies a call of that run"

# Each row is an edit of the listing that an event leaves after.
echo show >"$work/calls"
run replay examples/e.tree "$work/calls"
mv "$work/out" "$work/before"
remove="00000001 00000000 00000002 000186a3 00000003 0000000c 00000001 00000014 00000000 00000000 00000009 00000009 00000000"
rows=0
line=0
while IFS= read -r row; do
    line=$((line + 1))
    case $row in "#"*) continue ;; esac
    rows=$((rows + 1))
    edit=${row#* }
    edit=${edit% => *}
    printf 'show\ncall %s 1 %s\nshow\n' "${row%% *}" "$remove" >"$work/calls"
    case $edit in *" then "*) first=${edit%% then *} ;; *) first= ;; esac
    sed "$first" "$work/before" >"$work/first"
    { cat "$work/first"; sed "${edit#* then }" "$work/first"; } >"$work/listings"
    judged examples/e.tree "$work/calls" "$work/listings"
    broken=$(sed -n 's/.* breaks line \([0-9]\) .*/\1/p' "$work/judged" | sort -u | tr -d '\n')
    cp "$work/judged" "$work/out"
    case $row in *" => -") is="obeys the policy" ;; *) is="breaks line ${row##* => } of the policy" ;; esac
    [ -s "$work/before" ] && [ "${broken:--}" = "${row##* => }" ]
    ok $? "tests/policy/broken.rows:$line $is"
done <tests/policy/broken.rows
[ "$rows" -gt 0 ]
ok $? "tests/policy/broken.rows has rows"

plan
