#!/bin/sh
# What no call is granted to read shows nowhere.
# shellcheck source=tests/lib.sh
. "$(dirname "$0")/lib.sh"

# unread ONE OTHER CALLS..: runs calls over two descriptions that differ in the bytes of one file. The status is 0 where both
# print the same, 1 where they don't, and 2 where a run fails. What the second prints is left in $work/out.
unread() {
    one=$1
    other=$2
    shift 2
    cat "$@" >"$work/calls"
    run replay "$one" "$work/calls"
    mv "$work/out" "$work/one"
    ended 0 && quiet || return 2
    run replay "$other" "$work/calls"
    ended 0 && quiet || return 2
    cmp -s "$work/one" "$work/out"
}

# are_twelve: whether twelve calls were answered, of which two were denied.
are_twelve() { [ "$(grep -c '^reply ' "$work/out")" -eq 12 ] && [ "$(grep -c '^deny ' "$work/out")" -eq 2 ]; }

unread tests/unread/one.tree tests/unread/other.tree tests/unread/calls && are_twelve
ok $? "twelve calls, none of which may read the file, print the same whatever its bytes are"
unread tests/unread/one.tree tests/unread/other.tree tests/unread/calls tests/unread/read
[ $? -eq 1 ]
ok $? "one more call, which reads it, prints the difference"

# The same of files of one to nine bytes, each with zeros in one description and with other bits in the other.
for bits in 01 80ff 7f0180 aa55aa55 0101010101 fe01fe01fe01 00000000000001 8000000000000000 ffffffffffffffffff; do
    zeros=$(echo "$bits" | tr '0-9a-f' '0')
    sed "s/ 68656c6c6f\$/ $zeros/" tests/unread/one.tree >"$work/zeros.tree"
    sed "s/ 68656c6c6f\$/ $bits/" tests/unread/one.tree >"$work/bits.tree"
    ! cmp -s "$work/zeros.tree" "$work/bits.tree" && unread "$work/zeros.tree" "$work/bits.tree" tests/unread/calls && are_twelve
    ok $? "calls that may not read a file print the same whether it has the bytes $zeros or $bits"
done

plan
