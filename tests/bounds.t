#!/bin/sh
# Descriptions at each bound and one beyond, and with long lines.
# shellcheck source=tests/lib.sh
. "$(dirname "$0")/lib.sh"

# checks LINE WHAT: checks the description in the work folder: whether this line is printed.
checks() {
    run check "$work/tree"
    says "$1"
    case $1 in ok*) ok $? "check accepts $2" ;; *) ok $? "check refuses $2" ;; esac
}

# advises WHAT TEXT: whether TEXT is the second line of the last fault.
advises() {
    printf '  %s:%s\n' "$work/tree" "$2" >"$work/wanted"
    sed -n 2p "$work/err" | same "$work/wanted" -
    ok $? "check says where $1 is wrong and why"
}

# Each text begins with a server and a volume of many files.
begun() { printf 'server 0102030405060708\nvolume /a 1000000000 1000000 0755 0 0\n'; }
letters() { yes a | head -n "$1" | tr -d '\n'; }
zeros() { yes 00 | head -n "$1" | tr -d '\n'; }
volumes() { echo "server 0102030405060708"; seq "$1" | sed 's|.*|volume /v& 1 1 0755 0 0|'; }
patterns() { begun; seq "$1" | sed 's|.*|export 10.0.0.0/24 rw|'; }
# names N LAST: a path of components of 250 letters, N of them, whose last has LAST letters
names() {
    begun
    path=
    for _ in $(seq "$1"); do
        path=$path/$(letters 250)
        echo "dir $path 0755 0 0"
    done
    echo "dir $path/$(letters "$2") 0755 0 0"
}

volumes 64 >"$work/tree"
checks "ok volumes=64 files=64 bytes=0" "64 volumes"
volumes 65 >"$work/tree"
checks "line 66: Full" "65 volumes"
advises "65 volumes" '66:8: "/v65" is one volume too many; a description has at most 64'
{ volumes 64; echo "volume /v1 1 1 0755 0 0"; } >"$work/tree"
checks "line 66: VolumeTwice" "the same volume again after 64"
patterns 256 >"$work/tree"
checks "ok volumes=1 files=1 bytes=0" "256 patterns"
patterns 257 >"$work/tree"
checks "line 259: Full" "257 patterns"
advises "257 patterns" '259:8: "10.0.0.0/24" is one pattern too many; a description has at most 256, in all volumes together'
{ patterns 256; echo "volume /b 1 1 0755 0 0"; echo "export *"; } >"$work/tree"
checks "line 260: Full" "256 patterns and one of another volume"
names 4 19 >"$work/tree"
checks "ok volumes=1 files=6 bytes=0" "a path of 1,024 bytes"
names 4 20 >"$work/tree"
checks "line 7: BadPath" "a path of 1,025 bytes"
advises "a path of 1,025 bytes" "7:5: \"/$(letters 59)..\" is too long; a path has at most 1,024 bytes"
{ begun; echo "dir /$(letters 255) 0755 0 0"; } >"$work/tree"
checks "ok volumes=1 files=2 bytes=0" "a name of 255 bytes"
{ begun; echo "dir /$(letters 256) 0755 0 0"; } >"$work/tree"
checks "line 3: BadPath" "a name of 256 bytes"
advises "a name of 256 bytes" "3:5: \"/$(letters 59)..\" is not a path; a name has at most 255 bytes"
{ echo "server 0102030405060708"; echo "volume /$(letters 254) 1 1 0755 0 0"; } >"$work/tree"
checks "ok volumes=1 files=1 bytes=0" "a volume's path of 255 bytes"
{ echo "server 0102030405060708"; echo "volume /$(letters 127)/$(letters 127) 1 1 0755 0 0"; } >"$work/tree"
checks "line 2: BadVolumePath" "a volume's path of 256 bytes"
advises "a volume's path of 256 bytes" "2:8: \"/$(letters 59)..\" is too long; a volume's path has at most 255 bytes"
{ begun; echo "link /l 0 0 $(letters 1024)"; } >"$work/tree"
checks "ok volumes=1 files=2 bytes=0" "a link of 1,024 bytes"
{ begun; echo "link /l 0 0 $(letters 1025)"; } >"$work/tree"
checks "line 3: BadContent" "a link of 1,025 bytes"
advises "a link of 1,025 bytes" "3:13: \"$(letters 60)..\" is too long; a link holds at most 1,024 bytes"
{ begun; printf 'file /f 0644 0 0 '; yes 00 | head -n 16777216 | tr -d '\n'; } >"$work/tree"
checks "ok volumes=1 files=2 bytes=16777216" "a file of 16,777,216 bytes"
printf 00 >>"$work/tree"
checks "line 3: BadContent" "a file of 16,777,217 bytes"
advises "a file of 16,777,217 bytes" "3:18: \"$(yes 00 | head -n 30 | tr -d '\n')..\" is too long; a file has at most 16,777,216 bytes"
{ begun; echo "file /f 0644 0 0 -"; seq 999 | sed 's|.*|hard /h& /f|'; } >"$work/tree"
checks "ok volumes=1 files=2 bytes=0" "a file of 1,000 names"
echo "hard /h /f" >>"$work/tree"
checks "line 1003: Full" "a file of 1,001 names"
advises "a file of 1,001 names" '1003:9: "/f" already has 1,000 names, the most that a file may have'
{ begun; seq 998 | sed 's|.*|dir /d& 0755 0 0|'; } >"$work/tree"
checks "ok volumes=1 files=999 bytes=0" "a directory of 1,000 links"
echo "dir /d 0755 0 0" >>"$work/tree"
checks "line 1001: Full" "a directory of 1,001 links"
advises "a directory of 1,001 links" '1001:5: "/d" is one directory too many; a directory has at most 998 subdirectories'

# A line of limits allows more.
raised() { printf 'server 0102030405060708\nlimits %s\nvolume /a 1000000000 1000000 0755 0 0\n' "$1"; }
{ raised link-path=4095; echo "link /l 0 0 $(letters 4095)"; } >"$work/tree"
checks "ok volumes=1 files=2 bytes=0" "a link of 4,095 bytes"
{ raised link-path=4095; echo "link /l 0 0 $(letters 4096)"; } >"$work/tree"
checks "line 4: BadContent" "a link of 4,096 bytes"
advises "a link of 4,096 bytes" "4:13: \"$(letters 60)..\" is too long; a link holds at most 4,095 bytes"
{ raised file-size=16777217; printf 'file /f 0644 0 0 '; yes 00 | head -n 16777217 | tr -d '\n'; } >"$work/tree"
checks "ok volumes=1 files=2 bytes=16777217" "a file of 16,777,217 bytes where they are allowed"
{ raised links=1001; echo "file /f 0644 0 0 -"; seq 1000 | sed 's|.*|hard /h& /f|'; } >"$work/tree"
checks "ok volumes=1 files=2 bytes=0" "a file of 1,001 names where they are allowed"
{ raised links=1001; seq 999 | sed 's|.*|dir /d& 0755 0 0|'; } >"$work/tree"
checks "ok volumes=1 files=1000 bytes=0" "a directory of 1,001 links where they are allowed"
echo "dir /d 0755 0 0" >>"$work/tree"
checks "line 1003: Full" "a directory of 1,002 links"
advises "a directory of 1,002 links" '1003:5: "/d" is one directory too many; a directory has at most 999 subdirectories'

{ begun; printf '#'; letters 1000000; } >"$work/tree"
checks "ok volumes=1 files=1 bytes=0" "a comment of a megabyte"
{ begun; letters 1000000; } >"$work/tree"
checks "line 3: UnknownWord" "a word of a megabyte"

# What is said of a line does not depend on how long the contents above it are, nor on where the text is read in chunks.
held() { printf 'server 0102030405060708\nvolume /a 5000 10 0755 0 0\nexport * no_root_squash\nfile /f 4644 0 0 %s\n' "$(zeros "$1")"; }
for bytes in 1 3000; do
    { held "$bytes"; echo "file /g 0644 0 0 $(zeros 5000)"; } >"$work/tree"
    checks "line 5: Full" "a file too large after one of $bytes bytes"
    advises "a file too large after one of $bytes bytes" "5:6: \"/g\" has too many bytes; the volume has $((5000 - bytes)) of its 5000 bytes left; see line 2"
    { held "$bytes"; echo "dir /f 0755 0 0"; } >"$work/tree"
    checks "line 5: NameTaken" "the name of a file of $bytes bytes"
    advises "the name of a file of $bytes bytes" '5:5: "/f" already exists; see line 4'
    { held "$bytes"; printf 'file /g 420 0 0 %s' "$(zeros "$((5000 - bytes))")"; } >"$work/tree"
    checks "ok volumes=1 files=3 bytes=5000" "a file of $bytes bytes and another, without an LF at the end"
    sed 's/:[^:]*$//; s/^.*tree://' "$work/err" | tr '\n' ' ' >"$work/places"
    [ "$(cat "$work/places")" = "4:9 5:9 " ]
    ok $? "check warns of the modes of a file of $bytes bytes and another, each in its place"
done
{ begun; echo "file /f 0644 0 0 $(zeros 1000000)"; echo "dir /d"; echo "file /g 0644 0 0 $(zeros 1000000)"; } >"$work/tree"
checks "line 4: FieldCount" "a faulty line between two long ones"

plan
