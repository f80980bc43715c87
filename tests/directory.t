#!/bin/sh
# Directories on disk in place of a description: served, checked and asked about as they are.
# shellcheck source=tests/lib.sh
. "$(dirname "$0")/lib.sh"

disk=$work/disk
tests/describe/fill "$disk"
run describe "$disk" --mount /share --export '*=ro' --key 6e66733364000001
mv "$work/out" "$work/described"
run describe "$disk" --mount /share --export '*=ro' --key 6e66733364000001 --times
mv "$work/out" "$work/timed"
grep -v '^times ' "$work/timed" | same "$work/described" -
ok $? "describe --times adds lines of times"
find "$disk" \( -type d -o -links 1 \) -printf 'times /%P %A@ %T@ %C@\n' | sed 's/\(\.[0-9]\{9\}\)[0-9]*/\1/g; s/\.0\{9\}//g' | sort >"$work/wanted"
awk 'NR == FNR { if ($1 == "hard") twice[$3]; next } $1 == "times" && !($2 in twice)' "$work/timed" "$work/timed" | sort | same "$work/wanted" -
ok $? "they are the times that find prints"
run replay "$disk" examples/null.script --mount /share --export '*=ro' --save "$work/saved" --key 6e66733364000001
ended 0 && quiet && same "$work/timed" "$work/saved"
ok $? "the tree of a directory is the one that its description with times has"
run check "$disk" --mount /share --export '*=ro'
mv "$work/out" "$work/totals"
run check "$work/described"
same "$work/totals" "$work/out"
ok $? "check of a directory prints what check of its description prints"

# Names and links that lines can't hold as they are.
mkdir "$work/odd" && cd "$work/odd" && echo one >"my notes.txt" && echo three >Köln && echo 100 >100% && ln -s "to nowhere" link &&
    mkdir many && (cd many && seq 1100 | xargs mkdir) && truncate -s 1G hole && printf end >>hole && head -c 40000000 /dev/zero | tr '\0' x >large &&
    chmod 4711 100% && touch -d '2001-02-03 04:05:06.789 UTC' 100% && touch -d '2002-03-04 05:06:07 UTC' many
cd "$top" || exit 1
(
    ulimit -v 400000
    run check "$work/odd" --mount /share --export '*'
)
says "ok volumes=1 files=$(find "$work/odd" | grep -c .) bytes=$(find "$work/odd" -type f -printf '%s\n' | awk '{ all += $1 } END { printf "%d", all }')"
ok $? "a directory with 1,100 subdirectories, a large file, a hole that takes no memory, and odd names"
# named DIRECTORY: files, links and directories below it, of names that lines can't hold as they are.
named() {
    mkdir -p "$1/sub dir" && echo one >"$1/sub dir/my notes.txt" && echo two >"$1/$(printf 'line\nend')" && echo three >"$1/Köln" &&
        ln -s "to nowhere" "$1/link" && ln "$1/Köln" "$1/100%" && deep=$1 && for at in 1 2 3 4 5; do
        deep=$deep/$(printf '%0255d' "$at") && mkdir "$deep" || return
    done
}
named "$work/named"
run describe "$work/named" --mount /share # which sets the times of reading
run describe "$work/named" --mount /share --export '*' --times --key 6e66733364000001
ended 0 && quiet && mv "$work/out" "$work/named.tree" && run replay "$work/named" examples/null.script --mount /share --export '*' --save "$work/saved" --key 6e66733364000001
ended 0 && quiet && same "$work/named.tree" "$work/saved" && [ "$(sed -n 2p "$work/saved")" = "names percent" ]
ok $? "a directory with odd names and a path of 1,280 bytes: what describe --times prints is what is saved of it"
run extract "$work/named.tree" "$work/renamed"
ended 0 && quiet && diff -r --no-dereference "$work/named" "$work/renamed" >"$work/difference"
ok $? "its description is the directory again, by extract"
echo show >"$work/show"
run replay "$work/odd" "$work/show" --mount /share --export '*'
tests/describe/paths "$work/out" | sed -n 's/^1\(\/[^ ]*\) \(file\|link\) \(.*\)/\1 \3/p' | sort >"$work/shown"
own="uid=$(id -u) gid=$(id -g) nlink=1"
sort >"$work/wanted" <<END
/100%25 mode=4711 $own size=4
/K%c3%b6ln mode=0644 $own size=6
/hole mode=0644 $own size=1073741827
/large mode=0644 $own size=40000000
/link mode=0777 $own size=10
/my%20notes.txt mode=0644 $own size=4
END
same "$work/wanted" "$work/shown"
ok $? "its names, modes, owners and sizes"
printf '%s\n' 'ask 10.0.0.1 100 0 stat /share/100%' 'ask 10.0.0.1 100 0 stat /share/many' >"$work/asked"
run replay "$work/odd" "$work/asked" --mount /share --export '*' --decode
[ "$(grep -c 'mtime=981173106+789000000ns ' "$work/out")" = 1 ] && [ "$(grep -c 'mtime=1015218367 ' "$work/out")" = 1 ]
ok $? "its times, also that of a directory into which files came"

run why "$work/odd" 10.1.0.9 500 write /share/large --mount /share --export 10.2.0.0/16 --export 10.1.0.0/16=ro
grep -q '^grant: 10\.1\.0\.9 has ro,root_squash at /share, by 10\.1\.0\.0/16 in line [0-9]*$' "$work/out" && grep -q '^denied: read-only' "$work/out"
ok $? "why, asked about a directory"
run exports "$disk" --export 10.1.0.0/16=ro
ended 0 && grep -q '^/disk' "$work/out" && grep -q '10\.1\.0\.0/16(' "$work/out"
ok $? "without --mount the path is the directory's name"
run check "$work/odd" --chown 7:8 --export '*'
ended 0
ok $? "check with --chown"
run replay "$disk" "$work/show" --chown 7:8 --export '*'
[ "$(grep -c 'uid=7 gid=8 ' "$work/out")" = "$(grep -c '^[a-z]' "$work/out")" ]
ok $? "--chown gives every file one owner"

# fails TEXT STATUS WHAT: whether the last run printed nothing but this fault.
fails() {
    echo "error: $1" >"$work/wanted"
    brings /dev/null "$work/wanted" "$2"
    ok $? "$3"
}
run serve "$disk" --port 0
fails "no client may reach the directory: add --export PATTERN=OPTIONS, such as --export 10.1.0.0/16=rw" 2 "serve of a directory without --export is refused"
run check examples/e.tree --export '*'
fails "--mount, --export, --bytes, --files and --chown are for a directory on disk; a description has its own lines for them" 2 "--export beside a description is refused"
run check "$disk" --export 10.1.0.0/33
fails "an option doesn't fit into a description: line 3: BadPattern
  export 10.1.0.0/33
  column 8: \"10.1.0.0/33\" has no number of bits after its slash; write 0 to 32" 2 "a faulty pattern is refused, with what would be right"
run describe "$disk" --export 10.1.0.0/16=rw,no_rot_squash
fails "an option doesn't fit into a description: line 3: BadOptions
  export 10.1.0.0/16 rw,no_rot_squash
  column 23: \"no_rot_squash\" is not an option; did you mean \"no_root_squash\"?" 2 "so is a faulty option"

# More than the volume may hold.
files=$(find "$disk" -printf '%i\n' | sort -u | grep -c .)
bytes=$(find "$disk" -type f -printf '%i %s\n' | sort -u | awk '{ all += $2 } END { printf "%d", all }')
# too_large FILES BYTES: the message where the volume takes so many.
too_large() { echo "the directory has $files files and $bytes bytes, and its volume takes $1 and $2: give --files and --bytes at least as much as it has, or share a part of it"; }
run check "$disk" --export '*' --files "$files" --bytes "$bytes"
ended 0 && quiet
ok $? "a volume for as much as the directory has, where a file with several names counts once"
run check "$disk" --export '*' --files "$((files - 1))" --bytes "$bytes"
fails "$(too_large "$((files - 1))" "$bytes")" 2 "a directory with a file more than --files is refused"
run check "$disk" --export '*' --bytes "$((bytes - 1))"
fails "$(too_large 100000 "$((bytes - 1))")" 2 "a directory with a byte more than --bytes is refused"
run serve "$disk" --export '*' --port 0 --files 10
fails "$(too_large 10 1000000000)" 2 "nothing of such a directory is served"
run describe "$disk" --mount /share --files 10
fails "$(too_large 10 1000000000)" 2 "nor described"

mkfifo "$disk/pipe"
run serve "$disk" --export '*' --port 0 --connections 0 --strict
[ ! -s "$work/out" ] && ended 1 && grep -qx "nfs3d: skipped: $disk/pipe: a device, a socket or a pipe" "$work/err"
ok $? "serve --strict of a directory of which something is skipped is refused"
run check "$disk" --export '*' --strict
ended 1
ok $? "check --strict of such a directory has the status 1"
rm "$disk/pipe"

# The way back to disk.
listed() {
    (cd "$1" && find . \( -type d -printf '%P d %m %U %G %T@\n' \) -o \( -type l -printf '%P l %U %G %l\n' \) -o -printf '%P %y %m %U %G %n %s %T@\n') | sort
}
rm "$work/odd/hole" && run extract "$work/odd" "$work/extracted" --mount /share
ended 0 && quiet && listed "$work/odd" >"$work/wanted" && listed "$work/extracted" >"$work/got" && same "$work/wanted" "$work/got" &&
    diff -r --no-dereference "$work/odd" "$work/extracted" >"$work/difference"
ok $? "extract writes a directory with the same files, modes, owners, links and times"
run extract "$work/described" "$work/again"
ended 0 && listed "$disk" | sed 's/ [^ ]*$//' >"$work/wanted" && listed "$work/again" | sed 's/ [^ ]*$//' | same "$work/wanted" - && diff -r "$disk" "$work/again" >"$work/difference"
ok $? "extract of a description, with hard links"
printf 'server 0102030405060708\nvolume /a 100 10 0755 0 0\nfile /x 0644 0 0 61\nvolume /b/c 100 10 0755 0 0\nlink /up 0 0 ../../..\n' >"$work/two"
run extract "$work/two" "$work/both"
ended 0 && [ "$(cd "$work/both" && find . | sort | tr '\n' ' ')" = '. ./a ./a/x ./b ./b/c ./b/c/up ' ] && [ "$(readlink "$work/both/b/c/up")" = ../../.. ]
ok $? "extract of two volumes writes each below its path"
echo "nfs3d: cannot write $work/both: File exists (os error 17)" >"$work/wanted"
run extract "$work/two" "$work/both"
brings /dev/null "$work/wanted" 3
ok $? "extract to a directory that is there is refused"

mkdir "$work/long" && head -c 20000 /dev/zero | tr '\0' x >"$work/long/file"
(
    ulimit -f 8
    run extract "$work/long" "$work/cut" --mount /share
)
[ -n "$(find "$work/cut" -type f)" ] && [ -z "$(find "$work/cut" -perm /077)" ]
ok $? "what is still being written is its owner's alone"

# root_handle: what MNT of /disk brings from a server of the directory.
root_handle() {
    : >"$work/served"
    timeout --foreground 60 "$program" serve "$disk" --export '127.0.0.1=rw' --port 0 --connections 1 >"$work/served" 2>"$work/served.err" &
    server=$!
    wait_until 30 is_listening
    # shellcheck disable=SC2016
    bash -c 'exec 3<>/dev/tcp/127.0.0.1/$1
        printf "\200\0\0\064\0\0\0\1\0\0\0\0\0\0\0\2\0\1\206\245\0\0\0\3\0\0\0\1\0\0\0\0\0\0\0\0\0\0\0\0\0\0\0\0\0\0\0\5/disk\0\0\0" >&3
        head -c 68 <&3 | od -An -v -tx1 | tr -d " \n"' - "$port"
    server_ends 0
}
first=$(root_handle)
echo "$first" | cut -c 1-72 >"$work/got"
printf '80000040%08x%08x%040d%08x\n' 1 1 0 24 >"$work/wanted"
same "$work/wanted" "$work/got"
ok $? "MNT of a directory that is served"
[ "$(root_handle)" = "$first" ]
ok $? "a directory that is served again has the same handles"
cp -p "$disk/d1/again" "$work/apart" && mv "$work/apart" "$disk/d1/again"
apart=$(root_handle)
[ -n "$apart" ] && [ "$apart" != "$first" ]
ok $? "where a name no longer is a hard link, it has others"
mkfifo "$disk/pipe"
skipped=$(root_handle)
[ "$skipped" = "$apart" ]
ok $? "where something is skipped that was not there, it has the same"
rm "$disk/pipe" && touch "$disk/more"
more=$(root_handle)
[ -n "$more" ] && [ "$more" != "$apart" ]
ok $? "with another path in it, it has others"
rm "$disk/more" && mkdir "$disk/more"
turned=$(root_handle)
[ -n "$turned" ] && [ "$turned" != "$more" ]
ok $? "where a file has become a directory, it has others"

# Several directories, each with its own options.
one=$work/volumes/one
two=$work/volumes/two
mkdir -p "$one/sub" "$two" && (cd "$one" && seq 1005 | xargs mkdir) && echo first >"$one/sub/file" && ln "$one/sub/file" "$one/again" &&
    truncate -s 17825792 "$two/large" && ln -s nowhere "$two/link" && echo second >"$two/file"
key=6e66733364000001
run describe "$one" --mount /one --export '*=ro' --export 10.1.0.0/16=rw --files 2000000 --key "$key"
ended 0 && sed -n 2p "$work/out" >"$work/limits" && mv "$work/out" "$work/one.tree"
run describe "$two" --mount /two --export '10.2.0.0/16=rw,no_root_squash' --bytes 3000000000 --chown 7:8 --key "$key"
ended 0 && sed -n 2p "$work/out" >>"$work/limits" && mv "$work/out" "$work/two.tree"
printf '%s\n' "limits links=1008 files=2000000" "limits file-size=17825792" | same - "$work/limits"
ok $? "two directories with limits of their own"
{
    echo "server $key"
    echo "limits file-size=17825792 links=1008 files=2000000"
    tail -n +3 "$work/one.tree"
    tail -n +3 "$work/two.tree"
} >"$work/wanted"
run describe "$one" --mount /one --export '*=ro' --export 10.1.0.0/16=rw --files 2000000 "$two" --mount /two --export '10.2.0.0/16=rw,no_root_squash' \
    --bytes 3000000000 --chown 7:8 --key "$key"
ended 0 && quiet && same "$work/wanted" "$work/out"
ok $? "describe of both is their descriptions under one server line, with the larger limits"
run describe --key "$key" "$one" --export='*=ro' --mount=/one --export=10.1.0.0/16=rw --files=2000000 "$two" --export='10.2.0.0/16=rw,no_root_squash' \
    --chown=7:8 --strict --bytes=3000000000 --mount=/two
ended 0 && quiet && same "$work/wanted" "$work/out"
ok $? "the same with the options in another order, and with ="
run check "$work/wanted"
says "ok volumes=2 files=$(find "$one" "$two" -printf '%i\n' | sort -u | grep -c .) bytes=$(find "$one" "$two" -type f -printf '%i %s\n' | sort -u | awk '{ all += $2 } END { printf "%d", all }')"
ok $? "it has as many files and bytes as both have"
run describe "$two" "$one" --key "$key"
[ "$(grep '^volume ' "$work/out" | cut -d ' ' -f 2 | tr '\n' ' ')" = "/two /one " ] && ended 0
ok $? "without --mount each has its own name, in the order of the words"

run describe --mount /one "$one" "$two"
fails "with several directories, put --mount, --export, --bytes, --files and --chown after the directory that they are for" 2 "an option before the first of two directories is refused"
run serve "$one" --export '*' --mount /one --port 0 --mount /other "$two" --export '*'
fails "the argument '--mount <PATH>' cannot be used multiple times" 2 "--mount twice for one of two directories is refused"
run describe "$one" --files 100 "$two" --bytes 5 --bytes 6
fails "the argument '--bytes <N>' cannot be used multiple times" 2 "so is --bytes"
run serve "$one" --export '*' "$two" --port 0
fails "no client may reach $two: add --export PATTERN=OPTIONS after it, such as --export 10.1.0.0/16=rw" 2 "where one of two directories has no --export, it is named"
run serve "$one" --export '*' examples/e.tree --port 0
fails "several directories are served together, a description alone: examples/e.tree is no directory" 2 "a description beside a directory is refused"
run serve "$one" --export '*' - --export '*' --port 0
fails "several directories are served together, a description alone: - is no directory" 2 "so is standard input"
run describe "$one" "$two" --files 3
fails "$two has 4 files and $((17825792 + 7)) bytes, and its volume takes 3 and 1000000000: give --files and --bytes after it at least as much as it has, or share a part of it" 2 "the one of two directories that has more than its volume takes is named"
run describe "$two" --mount /same "$one" --mount /same --key "$key"
grep -qx "error: an option doesn't fit into a description: line 4: VolumeTwice" "$work/err" && grep -qx '  column 8: "/same" is the path of another volume; see line 3' "$work/err" && ended 2
ok $? "two directories with one path are refused"
run describe "$one" "$work/none"
echo "nfs3d: cannot read $work/none: No such file or directory (os error 2)" >"$work/wanted"
brings /dev/null "$work/wanted" 3
ok $? "one that isn't there is named"
mkfifo "$one/pipe" "$two/pipe"
run describe "$one" "$two" --strict
ended 1 && printf 'nfs3d: skipped: %s/pipe: a device, a socket or a pipe\n' "$one" "$two" >"$work/wanted" && echo "nfs3d: skipped in all: 2: a device, a socket or a pipe" >>"$work/wanted" &&
    same "$work/wanted" "$work/err"
ok $? "what is skipped of both is reported, and counted together"
rm "$one/pipe" "$two/pipe"

# root_handles: what MNT of /one and of /two bring from a server of both, on a line each.
root_handles() {
    : >"$work/served"
    timeout --foreground 60 "$program" serve "$one" --export '127.0.0.1=rw' "$two" --export '127.0.0.1=rw' --port 0 --connections 2 >"$work/served" 2>"$work/served.err" &
    server=$!
    wait_until 30 is_listening
    for path in one two; do
        # shellcheck disable=SC2016
        bash -c 'exec 3<>/dev/tcp/127.0.0.1/$1
            printf "\200\0\0\060\0\0\0\1\0\0\0\0\0\0\0\2\0\1\206\245\0\0\0\3\0\0\0\1\0\0\0\0\0\0\0\0\0\0\0\0\0\0\0\0\0\0\0\4/%s" "$2" >&3
            head -c 68 <&3 | od -An -v -tx1 | tr -d " \n"; echo' - "$port" "$path"
    done
    server_ends 0
}
both=$(root_handles)
echo "$both" | cut -c 1-72 >"$work/got"
for path in one two; do printf '80000040%08x%08x%040d%08x\n' 1 1 0 24; done >"$work/wanted"
same "$work/wanted" "$work/got" && [ "$(echo "$both" | sort -u | grep -c .)" = 2 ]
ok $? "MNT of each of two directories that are served"
[ "$(root_handles)" = "$both" ]
ok $? "they are served again with the same handles"
rm -r "$one" "$two" && mkdir "$one" "$two" && echo moved >"$one/file"
before=$(root_handles)
mv "$one/file" "$two/file"
moved=$(root_handles)
[ -n "$moved" ] && [ "$(echo "$before" | head -n 1)" != "$(echo "$moved" | head -n 1)" ]
ok $? "where a file has moved from one to the other, both have others"

plan
