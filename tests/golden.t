#!/bin/sh
# Scripts of calls: what `replay` prints of each, and the fault in which some of them end.
# golden files: examples tests/scripts
# shellcheck source=tests/lib.sh
. "$(dirname "$0")/lib.sh"

# replay SCRIPT: runs a script over the description of its name, or over examples/e.tree. The file NAME.cache beside it, if
# there is one, says how many replies are kept.
replay() {
    tree=${1%.script}.tree
    [ -f "$tree" ] || tree=examples/e.tree
    cache=${1%.script}.cache
    if [ -f "$cache" ]; then
        run replay "$tree" "$1" --cache "$(cat "$cache")"
    else
        run replay "$tree" "$1"
    fi
}

# renew NAME: writes what the last run brought in place of what stands beside the script; nothing where it printed nothing.
renew() {
    rm -f "$1.out" "$1.fault"
    [ ! -s "$work/out" ] || cp "$work/out" "$1.out"
    [ ! -s "$work/err" ] || cp "$work/err" "$1.fault"
}

# Beside each script stands what it prints, if anything, and where it ends in a fault, the fault's lines.
for script in examples/*.script tests/scripts/*.script; do
    name=${script%.script}
    replay "$script"
    [ -z "$NFS3D_UPDATE" ] || renew "$name"
    if [ -f "$name.out" ]; then out=$name.out; else out=/dev/null; fi
    if [ -f "$name.fault" ]; then fault=$name.fault status=1; else fault=/dev/null status=0; fi
    brings "$out" "$fault" "$status"
    ok $? "replay of $script"
done

plan
