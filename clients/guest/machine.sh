# A Debian root that a server shares, and guests of qemu that boot with their root on it. clients/linux and examples/diskless read
# this file; $here is the repository, and what is downloaded and made stays in $store for the next run.
store=$here/out/linux
program=$here/crates/nfs3d/out/nfs3d

# needs PROGRAM..: ends where a program is missing, nfs3d isn't built, or the user isn't root, who alone can make a Debian root.
needs() {
    for name in qemu-system-x86_64 debootstrap busybox cpio cc depmod "$@"; do
        command -v "$name" >/dev/null || { echo "$0: there is no $name; see the head of this file for the packages" >&2; exit 2; }
    done
    [ "$(id -u)" = 0 ] || { echo "$0: run it as root, for the owners of a Debian root" >&2; exit 2; }
    [ -x "$program" ] || { echo "$0: the program is not built: run ./build first" >&2; exit 2; }
    mkdir -p "$store"
    work=$(mktemp -d)
    trap 'kill $(jobs -p) 2>/dev/null; wait 2>/dev/null; rm -rf "$work"' EXIT
    trap 'exit 143' HUP INT TERM
}

# make_root: a Debian root with a compiler, make, git and the programs that mount, and Debian's kernel, in $kernel then.
make_root() {
    if [ ! -e "$store/root.done" ]; then
        rm -rf "$store/root" "$store/kernel"
        debootstrap --variant=minbase --include=gcc,libc6-dev,make,git,nfs-common,netbase,kmod,procps,iproute2,ca-certificates bookworm "$store/root" >"$store/debootstrap.log" || exit
        (cd "$work" && apt-get download "$(apt-cache depends linux-image-amd64 | sed -n 's/^ *Depends: //p')" >/dev/null 2>&1 && dpkg-deb -x linux-image-*.deb "$store/kernel") || exit
        cp -a "$store/kernel/lib/modules" "$store/root/lib/" && depmod -b "$store/root" "$(ls "$store/root/lib/modules")"
        touch "$store/root.done"
    fi
    kernel=$(ls "$store"/kernel/boot/vmlinuz-*)
}

# make_initrd: what the kernel starts from: busybox, the modules of NFS and of the network, and what mounts the root.
make_initrd() {
    boot=$work/boot
    modules=lib/modules/$(ls "$store/root/lib/modules")
    mkdir -p "$boot/bin" "$boot/proc" "$boot/sys" "$boot/dev" "$boot/new" "$boot/$modules"
    cp "$(command -v busybox)" "$boot/bin/busybox"
    cc -O2 -static -o "$boot/bin/mount-nfs" "$here/clients/guest/mount-nfs.c" || exit
    install -m 755 "$here/clients/guest/init" "$boot/init"
    for name in $(modprobe -d "$store/root" -S "$(basename "$modules")" -a -D nfsv3 virtio_net virtio_pci 2>/dev/null |
        sed -n "s|^insmod $store/root/||p" | awk '!seen[$0]++'); do
        mkdir -p "$boot/$(dirname "$name")" && cp "$store/root/$name" "$boot/$name" && echo "/$name" >>"$boot/modules"
    done
    (cd "$boot" && find . | cpio -o -H newc --quiet | gzip -1) >"$work/initrd"
}

# serve NAME WORDS..: a server, whose port is in $work/NAME.port then.
serve() {
    name=$1
    shift
    "$program" serve "$@" >"$work/$name.out" 2>"$work/$name.err" &
    echo $! >"$work/$name.process"
    for _ in $(seq 1200); do
        sed -n 's/^listening .*:\([0-9]*\)$/\1/p' "$work/$name.out" >"$work/$name.port"
        [ ! -s "$work/$name.port" ] || return 0
        kill -0 "$(cat "$work/$name.process")" 2>/dev/null || break
        sleep 0.1
    done
    echo "$0: a server did not start: $(cat "$work/$name.err")" >&2
    exit 1
}

# boot WORD..: a guest, whose root is that of the server `root`; /first, or the file of the word first=FILE, is its first program there.
boot() {
    # shellcheck disable=SC2086
    qemu-system-x86_64 ${accelerate:--accel tcg} -m 1024 -smp 1 -nographic -no-reboot -kernel "$kernel" -initrd "$work/initrd" -netdev user,id=net \
        -device virtio-net-pci,netdev=net -append "console=ttyS0 quiet panic=1 root_port=$(cat "$work/root.port") $*"
}
