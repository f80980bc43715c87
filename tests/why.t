#!/bin/sh
# What `why` and `exports` print.
# golden files: tests/why
# shellcheck source=tests/lib.sh
. "$(dirname "$0")/lib.sh"

tests/why/compare "$program" >"$work/out"
status=$?
note "$(tail -n 1 "$work/out")"
ok "$status" "why gives the verdict of the same call, for each line of tests/why/calls and each caller"

while IFS='|' read -r name wanted words; do
    # shellcheck disable=SC2086
    run $words
    golden "tests/why/$name" && quiet && ended "$wanted"
    ok $? "$words: status $wanted"
    case $words in
    why*)
        # shellcheck disable=SC2086
        run $words --quiet
        brings /dev/null /dev/null "$wanted"
        ok $? "$words --quiet: status $wanted alone"
        ;;
    esac
done <<'WORDS'
exports.out|0|exports examples/farm.tree
write.out|1|why examples/farm.tree 10.1.4.7 500 write /tools/bin/cc
squashed.out|0|why examples/farm.tree 10.1.8.1 0:0,4 read /scratch/jobs/queue
way.out|1|why examples/farm.tree 10.1.4.7 500 read /scratch/jobs/queue
missing.out|1|why examples/farm.tree 10.1.4.7 500 rename /scratch/none/x /tools/y
outside.out|1|why examples/farm.tree 10.1.4.7 500 rename /scratch/jobs /root/jobs
mount.out|1|why examples/farm.tree 10.1.4.7 500 mount /root
WORDS

for words in "10.1.0 0 read /tools" "10.1.0.2 root read /tools" "10.1.0.2 0 eat /tools" "10.1.0.2 0 mv /tools/bin" "10.1.0.2 0 chown /tools/bin me"; do
    # shellcheck disable=SC2086
    run why examples/farm.tree $words
    ended 2 && grep -q '^error: ' "$work/err"
    ok $? "why refuses the words $words"
done

plan
