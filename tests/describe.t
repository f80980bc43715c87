#!/bin/sh
# What `describe` prints of a directory on disk, beside what find and od print.
# shellcheck source=tests/lib.sh
. "$(dirname "$0")/lib.sh"

disk=$work/disk
tests/describe/fill "$disk"
run describe "$disk" --mount /share --export 10.0.0.0/24=rw,no_root_squash --export '*' --key 6e66733364000001
ended 0 && quiet && [ -s "$work/out" ]
ok $? "describe of a directory of 300 files"
mv "$work/out" "$work/disk.tree"
run describe "$disk" --mount /share --export 10.0.0.0/24=rw,no_root_squash --export '*' --key 6e66733364000001
[ -s "$work/out" ] && same "$work/disk.tree" "$work/out"
ok $? "describe prints the same again under the same key"

for time in 1 2 3; do
    run describe "$disk" --mount /share --export 10.0.0.0/24=rw,no_root_squash --export '*'
    mv "$work/out" "$work/keyed$time"
done
tests/describe/new-keys "$work/disk.tree" "$work/keyed1" "$work/keyed2" "$work/keyed3"
ok $? "describe without --key gives a new key each time, and else the same"

# Its first lines, its files and its bytes, as find and od print them.
cat >"$work/wanted" <<END
server 6e66733364000001
volume /share 1000000000 100000 $(find "$disk" -maxdepth 0 -printf '%m %U %G')
export 10.0.0.0/24 rw,no_root_squash
export * ro
END
sed -n '1,4p' "$work/disk.tree" | sed '2s/ 0\([0-7]*\( [0-9]*\)\{2\}\)$/ \1/' | same "$work/wanted" -
ok $? "the first lines: the key, the volume with its mode and owners, the exports"
bytes=$(find "$disk" -type f -printf '%i %s\n' | sort -u | awk '{ all += $2 } END { print all }')
run check "$work/disk.tree"
says "ok volumes=1 files=$(find "$disk" -printf '%i\n' | sort -u | grep -c .) bytes=$bytes"
ok $? "the description has as many files and bytes as the directory"
echo show >"$work/show"
run replay "$work/disk.tree" "$work/show"
tests/describe/paths "$work/out" | sed 's/^1//; s/\(mode=\)0*/\1/' | awk '$2 == "dir" { $6 = "" } { print }' | sort >"$work/shown"
find "$disk" \( -type d -printf '/%P dir mode=%m uid=%U gid=%G \n' \) -o \( -type l -printf '/%P link mode=%m uid=%U gid=%G nlink=%n size=%s\n' \) \
    -o -printf '/%P file mode=%m uid=%U gid=%G nlink=%n size=%s\n' | sort | same "$work/shown" -
ok $? "the description has the names, modes, owners, links and sizes that find prints"
find "$disk" -type f -links 1 ! -empty -printf 'file /%P %m %U %G ' -exec sh -c 'od -An -v -tx1 "$1" | tr -d " \n"; echo' sh {} \; | sort >"$work/wanted"
awk '$1 == "hard" { twice[$3] } { line[NR] = $0 } END { for (i = 1; i <= NR; i++) { split(line[i], w); if (w[1] == "file" && w[6] != "-" && !(w[2] in twice)) print line[i] } }' \
    "$work/disk.tree" | sed 's/^\(file [^ ]* \)0*/\1/' | sort | same "$work/wanted" -
ok $? "the description has the bytes that od prints"

# Devices are skipped. Names and links that lines can't hold as they are stand with %xx.
mkdir "$work/odd" && mkfifo "$work/odd/pi pe" && : >"$work/odd/with space" && : >"$work/odd/per%cent" && ln -s "to nowhere" "$work/odd/link" &&
    echo fine >"$work/odd/fine"
run describe "$work/odd" --mount /odd --key 0102030405060708
ended 0 && [ "$(grep -c '^nfs3d: skipped: ' "$work/err")" -eq 1 ]
ok $? "describe skips what is no file, with a warning"
id="$(id -u) $(id -g)"
sed 's/ [0-9]* [0-9]* 0[0-7]* [0-9]* [0-9]*$//' "$work/out" | head -n 3 >"$work/got"
sed '1,3d; s/ 0[0-7][0-7][0-7] / /' "$work/out" >>"$work/got"
cat >"$work/wanted" <<END
server 0102030405060708
names percent
volume /odd
file /fine $id 66696e650a
link /link $id to%20nowhere
file /per%25cent $id -
file /with%20space $id -
END
same "$work/wanted" "$work/got"
ok $? "names and links are written with %xx where one of them needs it"
grep -qx "nfs3d: skipped: $work/odd/pi%20pe: a device, a socket or a pipe" "$work/err"
ok $? "names in warnings have %xx for bytes outside ! to ~"
grep '^nfs3d: skipped in all: ' "$work/err" | sort >"$work/counts"
echo "nfs3d: skipped in all: 1: a device, a socket or a pipe" | same "$work/counts" -
ok $? "what was skipped is counted for each reason"
run describe "$work/odd" --mount /odd --strict
ended 1 && [ -s "$work/out" ]
ok $? "describe --strict prints the description, and ends with status 1 if anything was skipped"
run describe "$work/odd" --mount /odd --chown 5:6
ended 0 && awk '$1 == "volume" && ($6 != 5 || $7 != 6) || $1 == "file" && ($4 != 5 || $5 != 6) { bad = 1 } END { exit bad }' "$work/out"
ok $? "describe --chown gives all files one owner and group"
run describe "$work/odd" --mount /odd --chown 5
ended 2 && grep -q "^error: invalid value for '--chown <UID:GID>'" "$work/err"
ok $? "describe --chown with one number"

# 36 files of 16 MiB make a text of more than 1 GiB, which is never in memory as a whole.
mkdir "$work/big" && (cd "$work/big" && for n in $(seq 36); do truncate -s 16777216 "$n"; done)
"$program" describe "$work/big" --mount /big | run check -
says "ok volumes=1 files=37 bytes=603979776"
ok $? "a directory whose description has more than 1 GiB is described, and its description is loaded"

# Limits above the defaults, where the directory needs them.
mkdir "$work/wide" && (cd "$work/wide" && seq 1005 | xargs mkdir) && truncate -s 17825792 "$work/wide/large"
run describe "$work/wide" --mount /wide --key 6e66733364000001
ended 0 && quiet
ok $? "describe of a directory with 1,005 subdirectories and a file of 17 MiB"
mv "$work/out" "$work/wide.tree"
echo "limits file-size=17825792 links=1007" >"$work/wanted"
sed -n 2p "$work/wide.tree" | same "$work/wanted" -
ok $? "its line of limits has what is above the defaults"
run check "$work/wide.tree"
says "ok volumes=1 files=1007 bytes=17825792"
ok $? "its description is in order"
run describe "$work/wide" --mount /wide --key 6e66733364000001
[ -s "$work/out" ] && same "$work/wide.tree" "$work/out"
ok $? "it is described the same again"
run describe "$work/odd" --mount /odd --files 2000000 --key 6e66733364000001
ended 0 && [ "$(sed -n 2,3p "$work/out" | paste -s -d ';')" = "limits files=2000000;names percent" ] && sed -n 4p "$work/out" | grep -q '^volume /odd 1000000000 2000000 '
ok $? "describe --files above the default"
run describe "$work/odd"
[ "$(sed -n 3p "$work/out" | cut -d ' ' -f 1-2)" = "volume /odd" ] && ended 0
ok $? "describe without --mount takes the directory's name"
run describe "$work/none" --mount /odd
echo "nfs3d: cannot read $work/none: No such file or directory (os error 2)" >"$work/wanted"
same "$work/wanted" "$work/err" && ended 3
ok $? "describe of a directory that isn't there"
for words in "--mount odd" "--mount /odd --export 10.0.0.0/33=ro" "--mount /odd --export *=rw,ro" "--mount /odd --key 12" "--mount /odd --key 0123456789abcdeg" \
    "--mount /odd --key 0123456789abcdef0" "--mount /odd --files 0" "--mount /odd --files 100000001" "--mount /odd --bytes 1099511627777"; do
    # shellcheck disable=SC2086
    (set -f; run describe "$work/odd" $words)
    ended 2 && [ ! -s "$work/out" ] && [ -s "$work/err" ]
    ok $? "describe refuses the words '$words'"
done

plan
