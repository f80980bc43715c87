#!/bin/sh
# The program by a symbolic link, what `./build` installs, and that manual, completion and help have the same options.
# shellcheck source=tests/lib.sh
. "$(dirname "$0")/lib.sh"

run check examples/e.tree
mv "$work/out" "$work/wanted"
ended 0 && [ -s "$work/wanted" ] && ln -s "$top/nfs3d" "$work/link" && "$work/link" check examples/e.tree | same "$work/wanted" -
ok $? "./nfs3d runs by a symbolic link"

./build --install-built "$work/prefix" >/dev/null
ok $? "./build --install-built installs what is built"
cmp -s "$program" "$work/prefix/bin/nfs3d" && [ -s "$work/wanted" ] && "$work/prefix/bin/nfs3d" check examples/e.tree | same "$work/wanted" -
ok $? "the installed program is the one that was built, and runs"
same dist/nfs3d.1 "$work/prefix/share/man/man1/nfs3d.1"
ok $? "the manual is installed"
# shellcheck disable=SC2016
bash -c '. "$0"; COMP_WORDS=(nfs3d serve x.tree --li); COMP_CWORD=3; _nfs3d; [ "${COMPREPLY[*]}" = --listen ]' \
    "$work/prefix/share/bash-completion/completions/nfs3d"
ok $? "the completion is installed, and completes an option"

# The unit for systemd, and what logrotate reads.
grep -qxF "ExecStart=$work/prefix/bin/nfs3d serve /etc/nfs3d.tree --times --audit /var/log/nfs3d/audit.log --control /run/nfs3d/control \$NFS3D_OPTIONS" "$work/prefix/lib/systemd/system/nfs3d.service" &&
    grep -qxF "ExecStop=-$work/prefix/bin/nfs3d control /run/nfs3d/control stop" "$work/prefix/lib/systemd/system/nfs3d.service"
ok $? "the unit is installed, and starts and stops the installed program"
if [ "$(systemd-analyze --version 2>/dev/null | sed -n '1s/^systemd \([0-9]*\).*/\1/p')" -ge 250 ] 2>/dev/null; then
    systemd-analyze security --offline=true dist/nfs3d.service 2>/dev/null | awk '/Overall exposure level/ { found = 1; low = $(NF - 2) <= 2.0 } END { exit !(found && low) }'
    ok $? "systemd-analyze rates the unit's exposure at most 2.0"
else
    skip "systemd-analyze rates the unit's exposure at most 2.0" "there is no systemd-analyze of systemd 250 or later"
fi

# The package.
if command -v dpkg-deb >/dev/null && command -v strip >/dev/null; then
    mkdir "$work/packages" && ./build --deb-built "$work/packages" >/dev/null && package=$(ls "$work"/packages/nfs3d_*.deb) && dpkg-deb -x "$package" "$work/unpacked"
    ok $? "./build --deb-built makes a package"
    "$work/unpacked/usr/bin/nfs3d" check "$work/unpacked/usr/share/doc/nfs3d/examples/e.tree" | same "$work/wanted" - && [ -s "$work/wanted" ] &&
        gunzip -c "$work/unpacked/usr/share/man/man1/nfs3d.1.gz" | same dist/nfs3d.1 - && same dist/nfs3d.service "$work/unpacked/lib/systemd/system/nfs3d.service" &&
        same dist/nfs3d.bash "$work/unpacked/usr/share/bash-completion/completions/nfs3d"
    ok $? "it has the program, which runs, the manual, the unit and the completion"
    (cd "$work/unpacked" && find . -type f -printf '%P\n' | LC_ALL=C sort) >"$work/listed"
    dpkg-deb --ctrl-tarfile "$package" | tar -xO ./md5sums | sed 's/^[0-9a-f]*  //' | same "$work/listed" - && dpkg-deb --ctrl-tarfile "$package" | tar -xO ./conffiles >"$work/conffiles" &&
        printf '/etc/default/nfs3d\n/etc/logrotate.d/nfs3d\n' | same "$work/conffiles" -
    ok $? "its sums are of all its files, and what an administrator edits is kept"
    if [ "$(id -u)" = 0 ]; then
        mkdir -p "$work/root/var/lib/dpkg/info" "$work/root/var/lib/dpkg/updates" && touch "$work/root/var/lib/dpkg/status"
        on_root() { dpkg --root="$work/root" --force-script-chrootless --force-depends --log=/dev/null "$@" >"$work/out" 2>"$work/err"; }
        on_root --install "$package" && "$work/root/usr/bin/nfs3d" --version >"$work/got" && on_root --purge nfs3d && [ -z "$(find "$work/root" -name '*nfs3d*' -type f)" ]
        ok $? "it is installed and removed"
    else
        skip "it is installed and removed" "that takes root"
    fi
    if command -v lintian >/dev/null; then
        lintian "$package" >"$work/got" 2>&1 && ! grep '^[EW]: ' "$work/got"
        ok $? "lintian finds no error and warns of nothing"
    else
        skip "lintian finds no error and warns of nothing" "there is no lintian"
    fi
else
    skip "./build --deb-built makes a package" "there is no dpkg-deb or no strip"
fi

# Each option that the help of a command reports is in its completion, and all are in the manual, and no other.
: >"$work/options"
for command in check control describe journal replay serve why; do
    run "$command" --help
    sed -n 's/^ *\(-[a-z], \)\{0,1\}\(--[a-z-]*\).*/\2/p' "$work/out" | grep -vx -e --help | sort >"$work/wanted"
    [ -s "$work/wanted" ] &&
        sed -n "s/.*$command:-.*-W \"\([^\"]*\)\".*/\1/p" dist/nfs3d.bash | tr ' ' '\n' | grep -vx -e --help | sort | same "$work/wanted" -
    ok $? "the completion has the options of nfs3d $command --help"
    cat "$work/wanted" >>"$work/options"
done
sort -u "$work/options" >"$work/wanted"
grep -o '^\.B[IR]* \\-\\-[a-z\\-]*' dist/nfs3d.1 | sed 's/^[^ ]* //; s/\\-/-/g' | sort -u | same "$work/wanted" -
ok $? "the manual has the options of all commands, and no other"

plan
