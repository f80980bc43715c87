#!/bin/sh
# `./test` itself, over a repository of a few files, a program that does nothing, and an `rt` that proves nothing: each way to
# fail is counted, and whatever was started is ended.
# shellcheck source=tests/lib.sh
. "$(dirname "$0")/lib.sh"

repo=$work/repo
mkdir -p "$repo/tests" "$repo/crates/nfs3d/src" "$repo/crates/nfs3d/out" "$work/bin"
cp test "$repo/test" && cp tests/lib.sh tests/processes.sh "$repo/tests/"
printf '#!/bin/sh\n' >"$repo/crates/nfs3d/out/nfs3d"
chmod +x "$repo/crates/nfs3d/out/nfs3d"

# file NAME TEXT: writes a file of tests. proving TEXT: writes what `rt` does.
file() { printf '#!/bin/sh\n%s\n' "$2" >"$repo/tests/$1.t" && chmod +x "$repo/tests/$1.t"; }
proving() { printf '#!/bin/sh\n%s\n' "$1" >"$work/bin/rt" && chmod +x "$work/bin/rt"; }

# tested WORDS..: runs its `./test`.
tested() {
    echo "./test $*" >"$work/ran"
    (cd "$repo" && PATH=$work/bin:$PATH ./test "$@") >"$work/out" 2>"$work/err"
    echo $? >"$work/status"
}

# counts PASSED FAILED STATUS: whether the last line of the last run says so.
counts() { [ "$(tail -n 1 "$work/out")" = "$1 passed, $2 failed" ] && ended "$3"; }

# refuses TEXT: whether the last run was refused by this text, and nothing was run.
refuses() { ended 2 && [ ! -s "$work/out" ] && grep -qF -e "$1" "$work/err"; }

# ---- files of tests: beside a good one of two tests there is another

file good 'echo "ok 1 - one"; echo "ok 2 - two"; echo 1..2'
tested --quick
counts 2 0 0
ok $? "a good file passes"

# other PASSED FAILED WHAT TEXT: what is counted where the other file is this.
other() {
    file other "$4"
    tested --quick
    counts "$(($1 + 2))" "$2" 1 && grep -q '^test:   tests/other.t: ' "$work/out"
    ok $? "$3 is counted"
}
other 1 1 "a test that fails" 'echo "ok 1 - one"; echo "not ok 2 - two"; echo 1..2; exit 1'
other 1 2 "a test that fails in a file that ends with the status 0" 'echo "ok 1 - one"; echo "not ok 2 - two"; echo 1..2'
other 1 1 "a file without a plan" 'echo "ok 1 - one"'
other 1 1 "a file that exits early" 'echo "ok 1 - one"; exit 0; echo "ok 2 - two"; echo 1..2'
other 1 1 "a file that is killed" 'echo "ok 1 - one"; kill -9 $$; echo "ok 2 - two"; echo 1..2'
other 0 1 "a file that the shell can't read" 'echo "ok 1 - one" ; done'
other 0 1 "a file that prints nothing" 'true'
other 0 1 "a plan of no test" 'echo 1..0'
other 1 1 "a plan of too many tests" 'echo "ok 1 - one"; echo 1..2'
other 2 1 "a plan of too few tests" 'echo "ok 1 - one"; echo "ok 2 - two"; echo 1..1'
other 2 1 "a second plan" 'echo "ok 1 - one"; echo "ok 2 - two"; echo 1..2; echo 1..2'
other 2 1 "a test after the plan" 'echo "ok 1 - one"; echo 1..2; echo "ok 2 - two"'
other 2 1 "a number that is missing" 'echo "ok 1 - one"; echo "ok 3 - three"; echo 1..2'
other 1 1 "a status that is not 0 though no test failed" 'echo "ok 1 - one"; echo 1..1; exit 3'
file other 'echo "ok 1 - one # SKIP there is none"; echo 1..1'
tested --quick
counts 2 0 0 && grep -q '^# tests/other.t: 0 passed, 0 failed, 1 skipped, ' "$work/out"
ok $? "a test that is skipped has neither passed nor failed"
chmod -x "$repo/tests/other.t"
tested --quick
counts 2 1 1
ok $? "a file that can't be run is counted"
rm "$repo/tests/other.t"

# ---- the library: what a file of tests does with it

# shellcheck disable=SC2016
library='. "$(dirname "$0")/lib.sh"'
file other "$library; true; ok \$? one; false; ok \$? two; plan; echo more"
tested --quick
counts 3 1 1 && grep -qx 'not ok 2 - two' "$work/out" && ! grep -qx more "$work/out"
ok $? "ok reports a test by its status, and plan ends the file"
file other "$library; echo a >\"\$work/a\"; echo b >\"\$work/b\"; same \"\$work/a\" \"\$work/b\"; ok \$? one; plan"
tested --quick
counts 2 1 1 && grep -qx '#   < a' "$work/out" && grep -qx '#   > b' "$work/out"
ok $? "same distinguishes two files, and ok says how they differ"
echo before >"$repo/golden"
file other "$library; run; echo after >\"\$work/out\"; golden golden; ok \$? one; plan"
NFS3D_UPDATE=yes tested --quick
counts 2 1 1 && [ "$(cat "$repo/golden")" = before ]
ok $? "golden reports a file that differs, and ./test without --update writes none"
file other "# golden files: golden
$library; run; echo after >\"\$work/out\"; golden golden; ok \$? one; plan"
(cd "$repo" && git init -q && git add golden && git -c user.name=n -c user.email=e commit -qm golden) >/dev/null 2>&1
tested --update other
ended 0 && [ "$(cat "$repo/golden")" = after ] && grep -qx -e -before "$work/out" && grep -qx +after "$work/out"
ok $? "--update writes a golden file, and shows the difference"
file other "$library; serving none.tree; ok 1 one; echo \$work >$work/folder; sleep 1000 & echo \$! >$work/sleeper; sleep 1000 & exit 4"
tested other
counts 0 2 1 && [ ! -e "$(cat "$work/folder")" ] && ! kill -0 "$(cat "$work/sleeper")" 2>/dev/null
ok $? "a file that exits early leaves no process and no work folder"

# has_begun: whether the other file has started its process.
has_begun() { [ -s "$work/sleeper" ]; }
for name in TERM INT HUP; do
    rm "$work/sleeper"
    file other "$library; echo \$work >$work/folder; sleep 1000 & echo \$! >$work/sleeper; sleep 1000; plan"
    env --default-signal=INT timeout --foreground 60 "$repo/test" other >"$work/out" 2>"$work/err" &
    testing=$!
    wait_until 30 has_begun
    kill -s "$name" "$(pgrep -P "$testing")"
    wait "$testing"
    [ $? -gt 128 ] && [ ! -e "$(cat "$work/folder")" ] && ! kill -0 "$(cat "$work/sleeper")" 2>/dev/null
    ok $? "./test that gets $name leaves no process and no work folder"
done

# ---- the command line

file other 'echo "ok 1 - one"; echo 1..1'
tested good
counts 2 0 0
ok $? "a name runs this file alone"
tested other good other
counts 3 0 0
ok $? "names run these files, each once"
tested good nobody
refuses "the tests are good other"
ok $? "a name that there isn't is refused, and the names are listed"
tested --fast
refuses "--help"
ok $? "an option that there isn't is refused"
for number in 0 x -1 ""; do
    tested --jobs "$number"
    refuses "--jobs"
    ok $? "--jobs '$number' is refused"
done
tested --update
refuses "--update needs names"
ok $? "--update without a name is refused"
tested --update good
refuses "good has no golden files"
ok $? "--update of a file without golden files is refused"
tested --help
ended 0 && grep -qx 'Names: good other' "$work/out"
ok $? "--help lists the names"
mv "$repo/crates/nfs3d/out/nfs3d" "$work/built"
tested --quick
refuses "run ./build first"
ok $? "--quick without a program is refused"
mv "$work/built" "$repo/crates/nfs3d/out/nfs3d"
touch -d '2 hours ago' "$repo/crates/nfs3d/out/nfs3d"
touch "$repo/crates/nfs3d/src/main.rt"
tested --quick
counts 3 0 0 && grep -q 'older than crates/nfs3d/src/main.rt' "$work/err"
ok $? "a program that is older than a source is reported, and tested"

# Many at once: each waits for the others, and prints its lines in chunks.
for k in 1 2 3; do
    file "at$k" "touch $work/at$k; echo 'ok 1 - $k'
for _ in \$(seq 300); do [ -e $work/at1 ] && [ -e $work/at2 ] && [ -e $work/at3 ] && break; sleep 0.1; done
[ -e $work/at1 ] && [ -e $work/at2 ] && [ -e $work/at3 ] && echo 'ok 2 - $k'; sleep 0.\$((4 - $k)); echo 1..2"
done
tested --jobs 3 at1 at2 at3
counts 6 0 0 && grep '^ok' "$work/out" | uniq -c -f 3 | grep -c '  *2 ' | grep -qx 3
ok $? "--jobs 3 runs three files at once, and keeps the lines of each together"
rm -f "$repo"/tests/at?.t
for k in 1 2; do
    file "at$k" "# alone: it has to be
[ ! -e $work/alone ] || exit 1; touch $work/alone; sleep 0.5; rm $work/alone; echo 'ok 1 - $k'; echo 1..1"
done
tested --quick --jobs 4
counts 5 0 0
ok $? "files that have to be alone run one by one"
rm -f "$repo"/tests/at?.t

# ---- proofs

proving 'echo "7 passed, 0 failed"'
tested
counts 11 0 0
ok $? "./test adds what rt ci counts, and that each edit reached the prover"
proving 'echo "7 passed, 1 failed"; exit 1'
tested
counts 11 1 1
ok $? "a proof that fails is counted"
proving 'echo "7 passed, 0 failed"; exit 1'
tested
counts 11 1 1
ok $? "rt ci that ends with the status 1 is counted"
proving 'echo "7 passed"; exit 0'
tested
counts 4 1 1
ok $? "rt ci that counts nothing is counted"
proving 'echo "x.edit: BAD EDIT"; echo "7 passed, 0 failed"'
tested
counts 10 1 1
ok $? "an edit that did not reach the prover is counted"

plan
