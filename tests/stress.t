#!/bin/sh
# Clients that mean harm: spoiled records, calls that are cut, and clients that take no replies.
# shellcheck source=tests/lib.sh
. "$(dirname "$0")/lib.sh"

tests/stress/run 100000 1 >"$work/out" 2>"$work/err" && quiet
ok $? "100,000 spoiled records: the calls between them are answered as ever"
note "$(cat "$work/out")"
after=$(sed -n 's/.* then \([0-9]*\) KiB$/\1/p' "$work/out")
[ "${after:-65536}" -lt 65536 ]
ok $? "100,000 spoiled records: the server has less than 64 MiB then"

tests/stress/cut >"$work/out" 2>"$work/err" && quiet
ok $? "a call of each procedure, cut at each byte, with each byte made ff, and with four bytes more"
note "$(tail -n 1 "$work/out")"

# What 64 clients can make the server keep: at most 1 MiB each.
compiles load bench/load.c
compiles greedy tests/stress/greedy.c
bench/tree >"$work/tree"
serving "$work/tree"
most() { sed -n 's/^VmHWM:[^0-9]*\([0-9]*\).*/\1/p' "/proc/$(server_process)/status"; }
before=$(most)
"$work/greedy" "$port" 64 2>"$work/err" && after=$(most) && [ $((after - before)) -lt 65536 ]
ok $? "64 clients that take no reply cost the server less than 1 MiB each"
note "$before KiB, then $after KiB"
"$work/load" "$port" null 1 1 10 >"$work/out" 2>&1
ok $? "and another client is answered then"

# A million removals leave no memory behind.
serving "$work/tree"
"$work/load" "$port" make 4 1 5000 >"$work/out" 2>&1
before=$(most)
"$work/load" "$port" make 4 1 500000 >"$work/out" 2>&1 && after=$(most) && [ $((after - before)) -lt 1024 ]
ok $? "a million files that are made and removed cost the server less than 1 MiB"
note "$before KiB, then $after KiB"

# Files that are removed give their memory back, in an order that wanders through the directory.
bench/names >"$work/names"
serving "$work/names"
has() { sed -n 's/^VmRSS:[^0-9]*\([0-9]*\).*/\1/p' "/proc/$(server_process)/status"; }
before=$(has)
"$work/load" "$port" remove100000 1 16 100000 >"$work/out" 2>&1 && after=$(has) && [ $((before - after)) -gt 15360 ]
ok $? "100,000 files that are removed give more than 15 MiB back"
note "$before KiB, then $after KiB"

plan
