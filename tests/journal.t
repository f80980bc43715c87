#!/bin/sh
# Journals (`serve --journal`): what is noted, that a server which was killed goes on where it was, journals that end early, are
# damaged or belong to another server, and the commands that work on one.
# shellcheck source=tests/lib.sh
. "$(dirname "$0")/lib.sh"

compiles entries tests/journal/entries.c
compiles exchange clients/exchange.c

journal=$work/journal
socket=$work/control
printf 'server 0102030405060708\nvolume /a 1000000 1000 0777 0 0\nexport * rw,no_root_squash\nfile /f 0644 0 0 68656c6c6f\nvolume /b 5000 4 0755 0 0\nexport * ro\n' >"$work/tree"

# journaled WORDS..: starts a server of that tree with the journal.
journaled() { serving "$work/tree" --journal "$journal" "$@"; }

# reply N: the Nth reply of the last run.
reply() { sed -n 's/^reply //p' "$work/out" | sed -n "$1p"; }

# Calls as lines of a script. opaque TEXT: its length and its bytes, with NULs up to a multiple of four, in hexadecimal digits.
# handle NUMBER: that of a file which was described. sent XID PROCEDURE ARGUMENTS: a call of NFS by the user 0. mounting: of MOUNT.
opaque() {
    printf '%b' "$1" | od -An -v -tx1 | tr -d ' \n' | awk '{ bytes = length($0) / 2; all = $0; while (length(all) % 8) all = all "0"; printf "%08x%s", bytes, all }'
}
handle() { printf '00000018 4e465333 %s %08x 00000000 %08x' "$(key_words)" "$(($1 - 1))" "$1"; }
sent() {
    printf 'call 10.0.0.1 0 %08x 00000000 00000002 000186a3 00000003 %08x 00000001 00000014 00000000 00000000 00000000 00000000 00000000 00000000 00000000 %s\n' "$@"
}
mounting() {
    printf 'call 10.0.0.1 0 %08x 00000000 00000002 000186a5 00000003 %08x 00000000 00000000 00000000 00000000 %s\n' "$@"
}
settings='00000001 000001ed 00000000 00000000 00000000 00000000 00000000'

# list FILE: what is in a journal, as the second program reads it.
list() { "$work/entries" list "$1" 2>"$work/wrong"; }
# entries FILE: how many entries it has. place FIELD WHAT FILE: where the entry or the block (`entry 3`) begins (offset), how
# long it is (bytes), or how many entries a block has.
entries() { list "$1" | grep -c '^entry '; }
place() { list "$3" | sed -n "s/^$2 .*\<$1=\([0-9]*\).*/\1/p"; }
size() { wc -c <"$1" | tr -d ' '; }

# spoil FILE OFFSET [CHANGE]: changes the byte there, by adding 1 or this number.
spoil() {
    byte=$(od -An -v -tu1 -j "$2" -N 1 "$1")
    # shellcheck disable=SC2059
    printf "\\$(printf '%03o' $(((byte + ${3:-1}) % 256)))" | dd of="$1" bs=1 seek="$2" conv=notrunc 2>/dev/null
}

# starts TREE FILE WORDS..: starts a server with the journal FILE that is to be refused, for a minute at most.
starts() {
    tree=$1
    file=$2
    shift 2
    echo "serve $tree --journal $file $*" >"$work/ran"
    cp "$file" "$work/before" 2>/dev/null
    timeout --foreground 60 "$program" serve "$tree" --journal "$file" --port 0 "$@" >"$work/out" 2>"$work/err"
    echo $? >"$work/status"
}
# is_refused TEXT: whether it was refused, with this line, before anything was served, and the journal is as it was.
is_refused() {
    ended 3 && [ ! -s "$work/out" ] && grep -qxF "nfs3d: $file: $1" "$work/err" && cmp -s "$file" "$work/before"
}
# is_refused_by BEGINNING: the same of a line that begins so.
is_refused_by() {
    ended 3 && [ ! -s "$work/out" ] && grep -qF "nfs3d: $file: $1" "$work/err" && cmp -s "$file" "$work/before"
}
# warned LINE: whether the server printed this line on standard error when it started.
warned() { grep -qxF "$1" "$work/served.err"; }

# ---- what is noted

# A new journal has its first record, a block with the lines of the description but for those of files, and one with the lines
# but for the exports.
grep -v '^file ' "$work/tree" >"$work/heads"
grep -v '^export ' "$work/tree" >"$work/described"
exported=$((78 + 20 + $(size "$work/heads") + 4))
new=$((exported + 20 + $(size "$work/described") + 4))
# Calls whose number is below 0x1000 are not to be noted.
began=$(date +%s%6N)
journaled
listening=$(date +%s%6N)
[ "$(stat -c %a "$journal")" = "$(printf '%o' $((0666 & ~0$(umask))))" ] && [ "$(size "$journal")" = "$new" ]
ok $? "a new journal has its first record, the exports and the description, and the mode of a new file"
list "$journal" >"$work/listed"
next=$(sed -n 's/^head .* next=\([0-9]*\) .*/\1/p' "$work/listed")
# The description is as it would be saved; its digest leaves out the key in its first line, and the exports.
digest=$(grep -v '^export ' "$work/tree" | tail -c +24 | sha256sum | cut -c 1-64)
grep -qx "head offset=0 bytes=78 version=1 key=$NFS3D_KEY next=$next cache=128 digest=$digest" "$work/listed" && [ "$next" -ge "$began" ] && [ "$next" -le "$listening" ]
ok $? "the first record: version, key, next number, reply cache and digest"
# hex FILE: its bytes as hexadecimal digits.
hex() { od -An -v -tx1 "$1" | tr -d ' \n'; }
grep -qx "exports text=$(hex "$work/heads")" "$work/listed" && grep -q '^block 1 kind=2 ' "$work/listed"
ok $? "the exports"
grep -qx "description text=$(hex "$work/described")" "$work/listed" && grep -q '^block 2 kind=3 ' "$work/listed" && [ "$(grep -c '^block ' "$work/listed")" = 2 ]
ok $? "and the description, as it is digested but for its first line"
{
    mounting 4097 1 "$(opaque /a)"
    mounting 17 2
    sent 18 1 "$(handle 1)"
    sent 4098 9 "$(handle 1) $(opaque d) $settings"
    sent 4099 8 "$(handle 1) $(opaque x) 00000000 $settings"
    sent 19 3 "$(handle 1) $(opaque x)"
    sent 4100 10 "$(handle 1) $(opaque l) $settings $(opaque f)"
    sent 27 11 "$(handle 1) $(opaque n) 00000007 $settings"
    sent 4102 7 "$(handle 2) 00000000 00000005 00000003 00000002 $(opaque abc)"
    sent 20 6 "$(handle 2) 00000000 00000000 00000064"
    sent 4103 15 "$(handle 2) $(handle 1) $(opaque g)"
    sent 4104 2 "$(handle 1) 00000001 000001ff 00000000 00000000 00000000 00000000 00000000 00000000"
    sent 4105 14 "$(handle 1) $(opaque x) $(handle 1) $(opaque y)"
    sent 4106 12 "$(handle 1) $(opaque y)"
    sent 4107 13 "$(handle 1) $(opaque d)"
    sent 21 21 "$(handle 2) 00000000 00000000 00000000"
    sent 22 9 "$(handle 1)"
    sent 4108 9 "$(handle 1) $(opaque f) $settings"
    sent 4109 9 "$(handle 3) $(opaque f) $settings"
    sent 4110 8 "$(handle 1) $(opaque z) 00000000 $settings"
    sent 4110 8 "$(handle 1) $(opaque z) 00000000 $settings"
    mounting 4111 1 "$(opaque /none)"
    mounting 23 5
    mounting 4112 3 "$(opaque /a)"
    mounting 4113 4
    sent 24 0
} >"$work/script"
run replay "$work/script" --port "$port"
[ "$(grep -c '^reply ' "$work/out")" = 26 ] && ended 0 && quiet
ok $? "all calls are answered"
{ sed 's/^call 10.0.0.1 0 //; s/ //g' "$work/script" | paste -d ' ' - "$work/out"; } |
    awk '$1 >= "00001000" { printf "addr=127.0.0.1 reply=%s call=%s\n", $3, $1 }' >"$work/wanted"
list "$journal" | sed -n 's/^entry .* \(addr=[^ ]*\) seconds.* \(reply=.*\)/\1 \2/p' | same "$work/wanted" - && [ ! -s "$work/wrong" ] && [ "$(grep -c '' "$work/wanted")" = 17 ]
ok $? "each call that may change something is noted, with its reply, in order, and no other"
finished=$(date +%s)
list "$journal" | sed -n 's/^entry .* seconds=\([0-9]*\) nanos=\([0-9]*\) .*/\1 \2/p' |
    awk -v from="${began%??????}" -v to="$finished" '$1 < from || $1 > to || $2 > 999999999 || $1 < s || $1 == s && $2 < n { bad++ } { s = $1; n = $2; count++ } END { exit bad > 0 || count != 17 }'
ok $? "each with the moment at which it came"
# at_once CALL..: sends these calls, which are lines of a script, by one write.
at_once() {
    for it in "$@"; do
        echo "$it" | sed 's/^call 10.0.0.1 0 //; s/ //g' | awk '{ printf "8%07x%s", length($0) / 2, $0 }'
    done >"$work/records"
    printf 'open 1\nsend 1 1 %s\nrest 500\nclose 1\n' "$(cat "$work/records")" | "$work/exchange" "$port" 2>"$work/wrong"
}
at_once "$(sent 4352 9 "$(handle 1) $(opaque three) $settings")" "$(sent 4353 2 "$(handle 1) $settings 00000000")" "$(sent 4354 13 "$(handle 1) $(opaque three)")"
threes=$(list "$journal" | sed -n '$s/^entry \([0-9]*\) .*/\1/p')
[ "$threes" = 20 ] && list "$journal" | grep '^block ' | tail -n 1 | grep -q ' entries=3$' && [ ! -s "$work/wrong" ]
ok $? "calls that come at once are noted in one block"
plays "$(sent 4355 8 "$(handle 1) $(opaque last) 00000000 $settings")"
# Its blocks 1 and 2 have the exports and the description, block 20 three entries, and the other blocks one.
cp "$journal" "$work/three"

# ---- killed, and started again

# state: what clients see, by calls that note nothing but an MNT: attributes, names, contents, handles, the write verifier, the
# mount list.
dump=$(mounting 25 2)
state() {
    plays 'ask 10.0.0.1 0 xid=1 0:0 mount /a' 'ask 10.0.0.1 0 xid=2 0:0 readdirplus /a' 'ask 10.0.0.1 0 xid=3 0:0 readdirplus /a/e' \
        'ask 10.0.0.1 0 xid=4 0:0 read /a/e/x' 'ask 10.0.0.1 0 xid=5 0:0 lookup /a/e/x' 'ask 10.0.0.1 0 xid=6 0:0 readlink /a/e/l' 'ask 10.0.0.1 0 xid=7 0:0 stat /a/e/x' \
        'ask 10.0.0.1 0 xid=8 0:0 commit /a/e/x' 'ask 10.0.0.1 0 xid=9 0:0 df /a' "$dump"
    cp "$work/out" "$work/$1"
    ended 0 && quiet && [ "$(grep -c '^reply ' "$work/out")" = 10 ]
}
# entry_count: sets $count to how many entries there are. says_run_again: whether the server ran as many again.
entry_count() { count=$(entries "$journal"); }
says_run_again() { warned "nfs3d: $journal: $count entries run again"; }

crash
rm "$journal"
journaled
plays 'ask 10.0.0.1 0 0:0 mkdir /a/e 755' 'ask 10.0.0.1 0 0:0 create /a/e/x 640' 'ask 10.0.0.1 0 7:7 create /a/e/o 600' 'ask 10.0.0.1 0 0:0 write /a/e/x 3 616263' \
    'ask 10.0.0.1 0 0:0 symlink /a/e/l x' 'ask 10.0.0.1 0 0:0 link /a/f /a/e/f' 'ask 10.0.0.1 0 0:0 rename /a/f /a/e/old' 'ask 10.0.0.1 0 0:0 chown /a/e/l 12' 'ask 10.0.0.1 0 0:0 mkdir /b/c'
statuses 'MKDIR: NFS3_OK' 'CREATE: NFS3_OK' 'CREATE: NFS3ERR_ACCES' 'WRITE: NFS3_OK' 'SYMLINK: NFS3_OK' 'LINK: NFS3_OK' 'RENAME: NFS3_OK' 'SETATTR: NFS3_OK' 'MKDIR: NFS3ERR_ROFS' && state first
ok $? "a server with a journal"
# DUMP: 127.0.0.1 has mounted /a, and then /b.
client='00000001 00000009 3132372e302e302e31000000'
[ "$(reply 10)" = "$(echo "00000019 00000001 00000000 00000000 00000000 00000000 $client $(opaque /a) $client $(opaque /b) 00000000" | tr -d ' ')" ]
ok $? "its mount list"
found=$(reply 5 | cut -c 65-112)
good=0
for life in 1 2 3; do
    entry_count
    crash
    journaled
    says_run_again && state "life$life" && same "$work/first" "$work/life$life" && good=$((good + 1))
done
[ "$good" = 3 ]
ok $? "killed and started again three times: files, handles, contents, the write verifier and the mount list are what they were"
plays "$(sent 26 1 "00000018 $found")"
statuses 'GETATTR: NFS3_OK'
ok $? "a handle of a file that a client made in an earlier life"
plays 'ask 10.0.0.1 0 0:0 write /a/e/x 0 7a7a7a' 'ask 10.0.0.1 0 0:0 create /a/e/new 644' 'ask 10.0.0.1 0 0:0 remove /a/e/f'
statuses 'WRITE: NFS3_OK' 'CREATE: NFS3_OK' 'REMOVE: NFS3_OK' && state second
entry_count
crash
journaled
says_run_again && state again && same "$work/second" "$work/again"
ok $? "what came in a later life lasts as well"

# ---- retransmissions across a kill

{
    sent 2304 9 "$(handle 1) $(opaque once) $settings"
    sent 2305 12 "$(handle 3) $(opaque none)"
    sent 2306 8 "$(handle 1) $(opaque file) 00000000 $settings"
    sent 2307 12 "$(handle 1) $(opaque file)"
} >"$work/calls"
run replay "$work/calls" --port "$port"
cp "$work/out" "$work/replies"
[ "$(grep -c '^reply ' "$work/replies")" = 4 ] && ended 0
ok $? "four calls, one of them denied"
crash
journaled
run replay "$work/calls" --port "$port"
brings "$work/replies" /dev/null 0
ok $? "sent again to the next server they get their first replies, byte for byte"
plays "$(sent 2308 9 "$(handle 1) $(opaque once) $settings")" "$(sent 2309 12 "$(handle 1) $(opaque file)")"
statuses 'MKDIR: NFS3ERR_EXIST' 'REMOVE: NFS3ERR_NOENT'
ok $? "with other numbers they are other calls"
crash
journaled --cache 5 --control "$socket" && wait_until 10 test -S "$socket"
grep -q "^nfs3d: warning: $journal: .* 128 " "$work/served.err" && run control "$socket" status && grep -qx 'cached-replies [0-9]* of=128' "$work/out"
ok $? "the reply cache has the size that it began with, and another --cache is warned of"
run replay "$work/calls" --port "$port"
brings "$work/replies" /dev/null 0
ok $? "so these are still retransmissions"

# ---- one server for a journal

starts "$work/tree" "$journal"
is_refused 'another server has this journal; stop it, or name another journal' && state meanwhile
ok $? "a second server with the journal is refused, and the first goes on"
for word in cut check; do
    run journal "$word" "$journal"
    { ended 3 && grep -qF "nfs3d: $journal: another server has this journal" "$work/err"; } || break
done
[ "$word" = check ] && ended 3
ok $? "a journal that a server has is not cut, and not looked at"
run control "$socket" status
grep -qx "journal $(size "$journal") syncs=[1-9][0-9]* sync-micros=[0-9]*" "$work/out" && ended 0
ok $? "status says how many bytes it has, and how often it was synced"
run control "$socket" metrics
grep -qx "nfs3d_journal_bytes $(size "$journal")" "$work/out" && grep -qx 'nfs3d_journal_syncs_total [1-9][0-9]*' "$work/out" && grep -qx 'nfs3d_journal_sync_seconds_total [0-9.]*' "$work/out"
ok $? "and so do the metrics"

# ---- exports, and the description

echo 'error: a service with a journal keeps its exports; start it again to put others in force' >"$work/wanted"
run control "$socket" reload
brings /dev/null "$work/wanted" 1
ok $? "reload is refused"
cp "$work/tree" "$work/tree.kept"
run control "$socket" save "$work/tree"
ended 1 && grep -q '^error: .*would replace the description that the journal belongs to' "$work/err" && same "$work/tree.kept" "$work/tree"
ok $? "a tree is not saved over the description"
run control "$socket" stop --save "$work/tree"
ended 1 && grep -q '^error: .*would replace the description that the journal belongs to' "$work/err" && same "$work/tree.kept" "$work/tree"
ok $? "nor at the end"
run control "$socket" stop
ended 0 && server_ends 0
ok $? "a service with a journal ends"
starts "$work/tree" "$journal" --save "$work/tree" --save-every 1
ended 2 && grep -qx 'error: --save would replace the description that the journal belongs to: save to another file' "$work/err" && same "$work/tree.kept" "$work/tree"
ok $? "--save to the description is refused"
starts "$work/tree" "$journal" --watch
ended 2 && grep -qx 'error: --watch does not work with --journal: start the service again to put other exports in force' "$work/err"
ok $? "--watch is refused"
timeout --foreground 20 "$program" serve "$work/tree" --journal-sync never --port 0 >"$work/out" 2>"$work/err"
[ $? = 2 ] && grep -q -e '--journal <FILE>' "$work/err"
ok $? "--journal-sync makes no sense alone"
starts "$work/tree" "$journal" --journal-sync sometimes
ended 2 && grep -q 'sometimes' "$work/err"
ok $? "--journal-sync takes round and never"

# says_other THEIRS OURS: whether the last start was refused, since the journal's description has these words where this one
# has those.
says_other() { is_refused "the journal belongs to another description, which has $1 where this one has $2; serve that one, or name a new journal"; }
sed 's/68656c6c6f/68656c6c70/' "$work/tree" >"$work/other.tree"
starts "$work/other.tree" "$journal"
says_other "'file /f 0644 0 0 68656c6c6f'" "'file /f 0644 0 0 68656c6c70'"
ok $? "the journal of a description with other contents"
sed 's/^file .f 0644/file   \/f   600/' "$work/tree" >"$work/other.tree"
starts "$work/other.tree" "$journal"
says_other "'file /f 0644 0 0 68656c6c6f'" "'file /f 0600 0 0 68656c6c6f'"
ok $? "of one with other attributes, of which the canonical line is shown"
sed 's|^volume /a 1000000 1000 0777 0 0|volume /a 1000000 999 0777 0 0|' "$work/tree" >"$work/other.tree"
starts "$work/other.tree" "$journal"
says_other "'volume /a 1000000 1000 0777 0 0'" "'volume /a 1000000 999 0777 0 0'"
ok $? "of one with other limits"
sed 's/^server 0102/server 0103/' "$work/tree" >"$work/other.tree"
starts "$work/other.tree" "$journal"
says_other "'server 0102030405060708'" "'server 0103030405060708'"
ok $? "of one with another key"
sed '/^volume .b/,$d' "$work/tree" >"$work/other.tree"
starts "$work/other.tree" "$journal"
says_other "'volume /b 5000 4 0755 0 0'" 'no more lines'
ok $? "of one with a volume more"
{ cat "$work/tree" && echo 'dir /more 0755 0 0'; } >"$work/other.tree"
starts "$work/other.tree" "$journal"
says_other 'no more lines' "'dir /more 0755 0 0'"
ok $? "of one without a path"
run replay "$work/other.tree" --journal "$journal"
ended 3 && [ ! -s "$work/out" ] && grep -qF "nfs3d: $journal: the journal belongs to another description, which has no more lines where this one has 'dir /more 0755 0 0'; " "$work/err"
ok $? "replay --journal compares the description too"
run journal compact "$work/other.tree" "$journal" "$work/compacted"
ended 3 && [ ! -e "$work/compacted" ] && grep -qF "nfs3d: $journal: the journal belongs to another description, which has no more lines where this one has 'dir /more 0755 0 0'; " "$work/err"
ok $? "and so does journal compact"
{ echo '# another comment' && cat "$work/tree"; } >"$work/other.tree"
serving "$work/other.tree" --journal "$journal"
state again && stop
ok $? "comments make no other description"

# Long lines, and long descriptions. zeros N: so many of the digit 0.
zeros() { printf "%0$1d" 0; }
# of_lines LINE..: a description of these lines after those of its server and its volume.
of_lines() { printf '%s\n' 'server 0102030405060708' 'volume /a 2000000 1000 0777 0 0' 'export * rw' "$@"; }
# journal_of TREE: a new journal $file of this description.
journal_of() {
    file=$work/other.journal
    rm -f "$file"
    serving "$1" --journal "$file"
    stop
}
of_lines 'dir /d 0755 0 0' "file /f 0644 0 0 $(zeros 500)" >"$work/long.tree"
journal_of "$work/long.tree"
of_lines 'dir /d 0755 0 0' "file /f 0644 0 0 11$(zeros 498)" >"$work/other.tree"
starts "$work/other.tree" "$file"
# The line has 17 bytes before its content.
says_other "'file /f 0644 0 0 $(zeros 83)..'" "'file /f 0644 0 0 11$(zeros 81)..'"
ok $? "of long lines the first 100 bytes are shown"
of_lines 'dir /d 0755 0 0' "file /f 0644 0 0 $(zeros 400)11$(zeros 98)" >"$work/other.tree"
starts "$work/other.tree" "$file"
says_other "'file /f 0644 0 0 $(zeros 23)..$(zeros 60)..'" "'file /f 0644 0 0 $(zeros 23)..$(zeros 20)11$(zeros 38)..'"
ok $? "or 40, and 60 where they differ"
of_lines 'dir /d 0755 0 0' "file /f 0644 0 0 $(zeros 490)" >"$work/other.tree"
starts "$work/other.tree" "$file"
says_other "'file /f 0644 0 0 $(zeros 23)..$(zeros 30)'" "'file /f 0644 0 0 $(zeros 23)..$(zeros 20)'"
ok $? "up to the end of a line"
of_lines 'dir /d 0755 0 0' "file /f 0644 0 0 $(zeros 500)" "file /g 0644 0 0 $(zeros 1048576)" >"$work/other.tree"
starts "$work/other.tree" "$file"
says_other 'no more lines' "'file /g 0644 0 0 $(zeros 83)..'"
ok $? "a description of more than 1 MiB, where the journal has a shorter one"
# Files are described directory by directory.
of_lines 'dir /d 0755 0 0' 'file /d/f 0644 0 0 -' 'dir /e 0755 0 0' >"$work/long.tree"
journal_of "$work/long.tree"
of_lines 'dir /d 0755 0 0' 'dir /e 0755 0 0' 'file /d/f 0644 0 0 -' >"$work/other.tree"
starts "$work/other.tree" "$file"
is_refused 'the journal belongs to another description, with the same files in another order or with another name first; serve that one, or name a new journal'
ok $? "lines in another order give files other numbers, and so make another description"
# A description of 1,048,576 bytes without its exports, and one of a byte more.
rest=$((1048576 - $(of_lines 'file /f 0644 0 0 ' | grep -v '^export ' | wc -c)))
[ $((rest % 2)) = 0 ] && name=f || name=ff
of_lines "file /$name 0644 0 0 $(zeros $((rest / 2 * 2)))" >"$work/most.tree"
of_lines "file /x$name 0644 0 0 $(zeros $((rest / 2 * 2)))" >"$work/more.tree"
journal_of "$work/most.tree"
grep -v '^export ' "$work/most.tree" >"$work/described"
{ hex "$work/described" && echo; } >"$work/wanted"
[ "$(size "$work/described")" = 1048576 ] && list "$file" | sed -n 's/^description text=//p' | same "$work/wanted" -
ok $? "a journal has a description of 1 MiB"
starts "$work/more.tree" "$file"
says_other "'file /$name 0644 0 0 $(zeros $((100 - 16 - ${#name})))..'" "'file /x$name 0644 0 0 $(zeros $((100 - 17 - ${#name})))..'"
ok $? "and says where it differs"
journal_of "$work/more.tree"
[ "$(list "$file" | sed 's/ .*//' | tr '\n' ' ')" = 'head block exports ' ] && starts "$work/most.tree" "$file"
is_refused 'the journal belongs to another description, of another key or with other paths; serve that one, or name a new journal'
ok $? "but no longer one, so that a start says only that another one differs"
sed 's/^file .xf* 0644/file \/x'"$name"' 0600/' "$work/more.tree" >"$work/other.tree"
starts "$work/other.tree" "$file"
is_refused 'the journal belongs to another description, with other contents, attributes or limits; serve that one, or name a new journal'
ok $? "in its paths, or in the rest"

# A journal of a server that noted no description.
head -c "$exported" "$journal" >"$work/undescribed"
number=1
list "$journal" | sed -n 's/^block .* offset=\([0-9]*\) bytes=\([0-9]*\) entries=[1-9][0-9]*$/\1 \2/p' >"$work/listed"
while read -r at len; do
    number=$((number + 1))
    tail -c +$((at + 21)) "$journal" | head -c $((len - 20)) | "$work/entries" block "$number"
done <"$work/listed" >>"$work/undescribed"
before=$(size "$work/undescribed")
serving "$work/tree" --journal "$work/undescribed"
warned "nfs3d: $work/undescribed: $(entries "$journal") entries run again" && state old && same "$work/again" "$work/old"
ok $? "a journal without the description is run again"
plays 'ask 10.0.0.1 0 0:0 mkdir /a/since'
statuses 'MKDIR: NFS3_OK' && list "$work/undescribed" | grep -q "^block $((number + 1)) kind=1 offset=$before " && ! list "$work/undescribed" | grep -q '^description '
ok $? "and goes on without it"
stop
sed 's/68656c6c6f/68656c6c70/' "$work/tree" >"$work/other.tree"
starts "$work/other.tree" "$work/undescribed"
is_refused 'the journal belongs to another description, with other contents, attributes or limits; serve that one, or name a new journal'
ok $? "but can't say what differs"
file=$work/misplaced
{ head -c "$exported" "$journal" && "$work/entries" text 2 2 <"$work/heads" && grep -v '^export ' "$work/tree" | "$work/entries" text 3 3; } >"$file"
starts "$work/tree" "$file"
is_refused_by "entry 1 at offset $((exported + 20 + $(size "$work/heads") + 4)) is damaged: "
ok $? "a description that stands elsewhere is damage"
{ head -c "$exported" "$journal" && zeros 1048577 | "$work/entries" text 3 2; } >"$file"
starts "$work/tree" "$file"
is_refused_by "entry 1 at offset $exported is damaged: "
ok $? "and so is one of more than 1 MiB"

# Other exports, and then those before.
sed 's/^export \* ro$/export * rw,no_root_squash/' "$work/tree" >"$work/other.tree"
cp "$journal" "$work/exported"
exports_are() { [ "$(list "$work/exported" | grep -c '^exports ')" = "$1" ]; }
changed="nfs3d: $work/exported: other exports are in force from here on"
serving "$work/other.tree" --journal "$work/exported"
warned "$changed" && exports_are 2 && plays 'ask 10.0.0.1 0 0:0 mkdir /b/now 755' && statuses 'MKDIR: NFS3_OK'
ok $? "a start with other exports notes them, and puts them in force"
crash
serving "$work/other.tree" --journal "$work/exported"
! warned "$changed" && exports_are 2 && plays 'ask 10.0.0.1 0 0:0 readdirplus /b/now' 'ask 10.0.0.1 0 0:0 mkdir /b/then 755' && statuses 'READDIRPLUS: NFS3_OK' 'MKDIR: NFS3_OK'
ok $? "the next start runs each entry again under the exports that it was judged by"
crash
serving "$work/tree" --journal "$work/exported"
warned "$changed" && exports_are 3 && plays 'ask 10.0.0.1 0 0:0 readdirplus /b/then' 'ask 10.0.0.1 0 0:0 mkdir /b/last' && statuses 'READDIRPLUS: NFS3_OK' 'MKDIR: NFS3ERR_ROFS'
ok $? "and so do further ones"
stop
echo "ok entries=$(entries "$work/exported") bytes=$(size "$work/exported")" >"$work/wanted"
run replay "$work/tree" --journal "$work/exported"
same "$work/wanted" "$work/out" && ended 0
ok $? "and replay --journal"

# A directory is described at each start. Its times of access are ahead, so that reading it changes none.
mkdir "$work/disk" && echo one >"$work/disk/one" && touch -a -d '+1 hour' "$work/disk/one" "$work/disk"
# disk_served: starts a server of the directory, with a journal.
disk_served() {
    stop
    : >"$work/served"
    timeout --foreground 300 "$program" serve "$work/disk" --export '127.0.0.1=rw,no_root_squash' --journal "$work/disk.journal" --port 0 >"$work/served" 2>"$work/served.err" &
    server=$!
    wait_until 60 is_listening
}
disk_served
plays 'ask 10.0.0.1 0 0:0 mkdir /disk/two'
statuses 'MKDIR: NFS3_OK'
crash
disk_served
plays 'ask 10.0.0.1 0 0:0 readdirplus /disk/two'
statuses 'READDIRPLUS: NFS3_OK'
ok $? "a directory with a journal"
stop
echo more >>"$work/disk/one" && touch -a -d '+1 hour' "$work/disk/one"
timeout --foreground 20 "$program" serve "$work/disk" --export '127.0.0.1=rw,no_root_squash' --journal "$work/disk.journal" --port 0 >"$work/out" 2>"$work/err"
[ $? = 3 ] && [ ! -s "$work/out" ] && grep -qF "nfs3d: $work/disk.journal: the journal belongs to another description" "$work/err"
ok $? "a directory that has changed on disk is another one"

# ---- a journal that ends early

# torn ENTRIES BYTES: whether a server with the journal $file runs so many entries again, and cuts so many bytes.
torn() {
    remains=$(($(size "$file") - $2))
    serving "$work/tree" --journal "$file"
    warned "nfs3d: $file: $1 entries run again" && warned "nfs3d: warning: $file: cut $2 bytes after entry $1, which were not written whole and not answered" && [ "$(size "$file")" = "$remains" ]
}
whole=$journal
file=$work/torn
last=$(list "$whole" | grep -c '^block ')
at=$(place offset "block $last" "$whole")
len=$(place bytes "block $last" "$whole")
count=$(($(entries "$whole") - $(place entries "block $last" "$whole")))
good=0
for it in 1 19 20 30 $((len - 1)); do
    head -c $((at + it)) "$whole" >"$file"
    torn "$count" "$it" && good=$((good + 1))
done
[ "$good" = 5 ]
ok $? "the beginning of a block at the end is cut, with a warning"
head -c $((at + 40)) "$whole" >"$file" && head -c $((len - 40)) /dev/zero >>"$file"
torn "$count" "$len"
ok $? "and a block that ends with zeros in the place of its entries"
{ cat "$whole" && head -c 5000 /dev/zero; } >"$file"
torn "$(entries "$whole")" 5000
ok $? "and zeros alone"
head -c $(($(place offset 'block 21' "$work/three") - 1)) "$work/three" >"$file"
torn 17 $(($(place bytes 'block 20' "$work/three") - 1))
ok $? "and a block of three entries as a whole"
head -c $((at + 30)) "$whole" >"$file"
journal=$file
journaled
plays 'ask 10.0.0.1 0 0:0 read /a/e/x' 'ask 10.0.0.1 0 0:0 mkdir /a/after'
statuses 'READ: NFS3_OK' 'MKDIR: NFS3_OK'
crash
journaled
plays 'ask 10.0.0.1 0 0:0 read /a/e/x' 'ask 10.0.0.1 0 0:0 readdirplus /a/after'
statuses 'READ: NFS3_OK' 'READDIRPLUS: NFS3_OK' && ! grep -q 'not written whole' "$work/served.err"
ok $? "and the journal goes on from there"
crash
journal=$work/journal
good=0
for len in 0 1 40 77 78 90 $((exported - 1)) "$exported" $((exported + 1)) $((exported + 19)) $((exported + 30)) $((new - 1)) "$new"; do
    head -c "$len" "$journal" >"$work/short"
    serving "$work/tree" --journal "$work/short"
    [ "$(size "$work/short")" = "$new" ] && [ "$(list "$work/short" | sed 's/ .*//' | tr '\n' ' ')" = 'head block exports block description ' ] && good=$((good + 1))
done
[ "$good" = 13 ]
ok $? "a file with the beginning of a first record, of the exports or of the description, or nothing, is begun anew"
stop

# ---- damage

middle=$(($(entries "$whole") / 2))
at=$(place offset "entry $middle" "$whole")
len=$(place bytes "entry $middle" "$whole")
list "$whole" | grep -q "^block .* offset=$((at - 20)) bytes=$((len + 20)) entries=1$"
ok $? "an entry that is alone in its block"
file=$work/damaged
is_damaged() { is_refused_by "entry $middle at offset $at is damaged: "; }
for where in $((at + 4)) $((at + 15)) $((at + 19)) $((at + 60)) $((at + len - 5)) $((at + len - 1)); do
    cp "$whole" "$file" && spoil "$file" "$where"
    starts "$work/tree" "$file"
    is_damaged || break
done
[ "$where" = $((at + len - 1)) ] && is_damaged
ok $? "one byte of an entry is another: its address, moment, length, reply, call or checksum"
grep "entry $middle at" "$work/err" >"$work/fault"
# 81 and 00 in the place of 80, and one byte more.
good=0
for change in "$at 1" "$at 128" "$((at + 3)) 1"; do
    cp "$whole" "$file" && spoil "$file" "${change% *}" "${change#* }"
    starts "$work/tree" "$file"
    is_damaged && good=$((good + 1))
done
[ "$good" = 3 ]
ok $? "or its record mark"
good=0
for where in $((at - 17)) $((at - 9)) $((at - 5)) $((at - 1)); do
    cp "$whole" "$file" && spoil "$file" "$where"
    starts "$work/tree" "$file"
    is_refused_by "entry $middle at offset $((at - 20)) is damaged: " && good=$((good + 1))
done
[ "$good" = 4 ]
ok $? "or the header of its block"
cp "$whole" "$file" && spoil "$file" 110
starts "$work/tree" "$file"
is_refused_by "entry 1 at offset 78 is damaged: "
ok $? "or the exports"
good=0
for where in $((exported + 3)) $((exported + 15)) $((exported + 19)); do
    cp "$whole" "$file" && spoil "$file" "$where"
    starts "$work/tree" "$file"
    is_refused_by "entry 1 at offset $exported is damaged: " && good=$((good + 1))
done
[ "$good" = 3 ]
ok $? "or the header of the description"
echo "ok entries=$(entries "$whole") bytes=$(size "$whole")" >"$work/wanted"
good=0
for where in $((exported + 20)) $((new - 5)) $((new - 1)); do
    cp "$whole" "$file" && spoil "$file" "$where"
    run replay "$work/tree" --journal "$file"
    same "$work/wanted" "$work/out" && ended 0 && good=$((good + 1))
done
[ "$good" = 3 ]
ok $? "damage in the lines of the description costs no entry"
sed 's/68656c6c6f/68656c6c70/' "$work/tree" >"$work/other.tree"
starts "$work/other.tree" "$file"
is_refused 'the journal belongs to another description, with other contents, attributes or limits; serve that one, or name a new journal'
ok $? "and they are not shown"
head -c "$new" "$whole" >"$file" && spoil "$file" $((new - 30))
serving "$work/tree" --journal "$file"
warned "nfs3d: $file: 0 entries run again" && [ "$(size "$file")" = "$new" ]
ok $? "where they stand last either"
head -c $((new - 30)) "$whole" >"$file" && head -c 30 /dev/zero >>"$file"
serving "$work/tree" --journal "$file"
warned "nfs3d: warning: $file: cut $((new - exported)) bytes after entry 0, which were not written whole and not answered" && head -c "$new" "$whole" | cmp -s - "$file"
ok $? "a description that ends with zeros was not written whole, and is written again"
stop
cp "$work/three" "$file" && spoil "$file" $(($(place offset 'entry 19' "$work/three") + 30))
starts "$work/tree" "$file"
is_refused_by "entry 19 at offset $(place offset 'entry 19' "$work/three") is damaged: "
ok $? "the second entry of a block of three"
cp "$whole" "$file" && spoil "$file" $(($(size "$whole") - 1))
starts "$work/tree" "$file"
is_refused_by "entry $(entries "$whole") at offset $(place offset "entry $(entries "$whole")" "$whole") is damaged: "
ok $? "the last byte of the last entry"
cp "$whole" "$file" && spoil "$file" $((at + 60))
run journal check "$file"
brings /dev/null "$work/fault" 3
ok $? "journal check reports the same"
run replay "$work/tree" --journal "$file"
brings /dev/null "$work/fault" 3
ok $? "and so does replay --journal"
echo "cut $(($(size "$file") - at + 20)) bytes after entry $((middle - 1))" >"$work/wanted"
run journal cut "$file"
brings "$work/wanted" /dev/null 0 && head -c $((at - 20)) "$whole" | cmp -s - "$file"
ok $? "journal cut leaves the blocks before it"
echo 'nothing to cut' >"$work/wanted"
run journal cut "$file"
brings "$work/wanted" /dev/null 0 && head -c $((at - 20)) "$whole" | cmp -s - "$file"
ok $? "and cuts nothing more"
serving "$work/tree" --journal "$file"
warned "nfs3d: $file: $((middle - 1)) entries run again" && plays 'ask 10.0.0.1 0 0:0 mkdir /a/further' && statuses 'MKDIR: NFS3_OK'
ok $? "which are served"
stop

# resealed FILE OFFSET BYTES WHERE: prints the journal, where a byte of the record there is another one and its checksum is right.
resealed() {
    tail -c +$(($2 + 5)) "$1" | head -c $(($3 - 8)) >"$work/body"
    spoil "$work/body" "$4"
    { head -c "$2" "$1" && "$work/entries" record <"$work/body" && tail -c +$(($2 + $3 + 1)) "$1"; }
}
resealed "$whole" "$at" "$len" 43 >"$file"
starts "$work/tree" "$file"
[ "$(entries "$file")" = "$(entries "$whole")" ] && is_refused "entry $middle at offset $at has another reply than the rules give: the journal was edited, or another version of the program wrote it"
ok $? "an entry with another reply, whose checksum is right"
echo "ok entries=$(entries "$whole") bytes=$(size "$whole")" >"$work/wanted"
run journal check "$file"
brings "$work/wanted" /dev/null 0
ok $? "which journal check can't know"

for where in 22 30 37 41 50 77; do
    cp "$whole" "$file" && spoil "$file" "$where"
    starts "$work/tree" "$file"
    is_refused 'its first record is damaged: restore the file from a copy' || break
done
[ "$where" = 77 ] && is_refused 'its first record is damaged: restore the file from a copy'
ok $? "the first record is damaged"
resealed "$whole" 0 78 17 >"$file"
starts "$work/tree" "$file"
is_refused 'a journal of version 2, and this program knows version 1: use the program that wrote it'
ok $? "a journal of version 2"
no_journal='not a journal: name a new file, or one that --journal made'
cp "$whole" "$file" && spoil "$file" 5
starts "$work/tree" "$file"
is_refused "$no_journal"
ok $? "a first record with another name"
for text in short "$(printf '%0100d' 7)"; do
    echo "$text" >"$file"
    starts "$work/tree" "$file"
    { is_refused "$no_journal" && run journal check "$file" && ended 3 && grep -qxF "nfs3d: $file: $no_journal" "$work/err" && cmp -s "$file" "$work/before"; } || break
done
[ "$text" != short ] && ended 3 && grep -qxF "nfs3d: $file: $no_journal" "$work/err"
ok $? "a file that is no journal is refused, and not touched"
starts "$work/tree" "$work/disk"
ended 3 && [ ! -s "$work/out" ] && grep -q "$work/disk: " "$work/err"
ok $? "a directory in its place"
run journal check "$work/none"
ended 3 && grep -q "^nfs3d: cannot read $work/none: No such file or directory" "$work/err" && [ ! -e "$work/none" ]
ok $? "journal check of a file that isn't there makes none"

# ---- a disk that is full

journal=$work/full
trap '' XFSZ
journaled
trap - XFSZ
plays 'ask 10.0.0.1 0 0:0 mkdir /a/before'
statuses 'MKDIR: NFS3_OK' && room=$(size "$journal")
prlimit --pid "$(server_process)" --fsize=$((room + 100)):unlimited
plays "$(sent 2560 9 "$(handle 1) $(opaque refused) $settings")"
! grep -q '^reply ' "$work/out" && server_ends 3 && warned "nfs3d: cannot write $journal: File too large (os error 27)"
ok $? "where an entry can't be written, its call gets no reply, and the service ends with the fault"
journaled
[ "$(size "$journal")" = "$room" ] &&
    plays 'ask 10.0.0.1 0 0:0 readdirplus /a/before' 'ask 10.0.0.1 0 0:0 rmdir /a/refused' "$(sent 2560 9 "$(handle 1) $(opaque refused) $settings")" &&
    statuses 'READDIRPLUS: NFS3_OK' 'RMDIR: NFS3ERR_NOENT' 'MKDIR: NFS3_OK'
ok $? "the next server has what was answered, and the client sends its call again"
stop

# ---- without syncing

journal=$work/unsynced
journaled --journal-sync never
plays 'ask 10.0.0.1 0 0:0 mkdir /a/e 755' 'ask 10.0.0.1 0 0:0 create /a/e/x 640' 'ask 10.0.0.1 0 0:0 write /a/e/x 0 616263' 'ask 10.0.0.1 0 0:0 symlink /a/e/l x'
statuses 'MKDIR: NFS3_OK' 'CREATE: NFS3_OK' 'WRITE: NFS3_OK' 'SYMLINK: NFS3_OK' && state first
entry_count
crash
journaled --journal-sync never
says_run_again && state again && same "$work/first" "$work/again"
ok $? "--journal-sync never: a server that is killed goes on too"
stop

# ---- commands

journal=$work/journal
file=$work/changed
cp "$journal" "$work/kept"
echo "ok entries=$(entries "$journal") bytes=$(size "$journal")" >"$work/wanted"
run journal check "$journal"
brings "$work/wanted" /dev/null 0
ok $? "journal check"
run replay "$work/tree" --journal "$journal"
same "$work/wanted" "$work/out" && ended 0 && same "$work/tree.kept" "$work/tree" && cmp -s "$work/kept" "$journal"
ok $? "replay --journal"
head -c $(($(size "$journal") - 3)) "$journal" >"$file"
last=$(list "$journal" | grep -c '^block ')
at=$(place offset "block $last" "$journal")
echo "ok entries=$(($(entries "$journal") - $(place entries "block $last" "$journal"))) bytes=$at unfinished=$(($(size "$file") - at))" >"$work/wanted"
run replay "$work/tree" --journal "$file"
same "$work/wanted" "$work/out" && ended 0
ok $? "replay --journal of one that ends with a block that is not whole"
echo "compacted $(entries "$journal") entries into $work/new.tree" >"$work/wanted"
run journal compact "$work/tree" "$journal" "$work/new.tree" --key 00112233445566ff
same "$work/wanted" "$work/out" && ended 0 && head -n 1 "$work/new.tree" | grep -qx 'server 00112233445566ff' && cmp -s "$work/kept" "$journal" && [ ! -e "$work/new.tree.part" ]
ok $? "journal compact"
run journal compact "$work/tree" "$journal" "$work/newer.tree"
ended 0 && tail -n +2 "$work/new.tree" >"$work/wanted" && tail -n +2 "$work/newer.tree" | same "$work/wanted" - && [ "$(head -n 1 "$work/newer.tree")" != "$(head -n 1 "$work/new.tree")" ]
ok $? "without --key it takes a new key"
run check "$work/new.tree"
ended 0
ok $? "the new description is one"
serving "$work/new.tree" --journal "$work/new.journal"
plays 'ask 10.0.0.1 0 0:0 read /a/e/x' 'ask 10.0.0.1 0 0:0 readlink /a/e/l' 'ask 10.0.0.1 0 0:0 create /a/e/again'
statuses 'READ: NFS3_OK' 'READLINK: NFS3_OK' 'CREATE: NFS3_OK' && reply 1 | grep -q '7a7a7a6162630000$'
ok $? "and is served with what clients had made"
stop
mkdir "$work/taken"
run journal compact "$work/tree" "$journal" "$work/taken"
ended 3 && [ -d "$work/taken" ] && [ ! -s "$work/out" ]
ok $? "journal compact replaces no directory"

# misused TEXT WORDS..: whether these words are refused with this text.
misused() {
    echo "error: $1" >"$work/wanted"
    shift
    run "$@"
    brings /dev/null "$work/wanted" 2
}
usage="journal takes 'check JOURNAL', 'cut JOURNAL' or 'compact TREE JOURNAL NEW'"
misused "$usage" journal frob "$journal" && misused "$usage" journal check "$journal" "$journal" && misused "$usage" journal cut "$journal" x y &&
    misused "$usage" journal compact "$work/tree" && misused "$usage" journal compact "$work/tree" "$journal"
ok $? "journal with words that it doesn't take"
run journal compact "$work/tree" "$journal" "$work/x" y
ended 2
ok $? "or too many"
misused '--key KEY is for compact: nfs3d journal compact TREE JOURNAL NEW --key KEY' journal check "$journal" --key 00112233445566ff &&
    misused "invalid value for '--key <KEY>': it must be 16 hexadecimal digits, such as 0123456789abcdef" journal compact "$work/tree" "$journal" "$work/x" --key 12
ok $? "--key is for compact, and a key"
alone='replay takes TREE and SCRIPT, with --journal TREE alone, or with --port SCRIPT alone'
misused "$alone" replay "$work/tree" "$work/script" --journal "$journal" &&
    misused 'with --journal, replay saves nothing: nfs3d journal compact TREE JOURNAL NEW writes the tree' replay "$work/tree" --journal "$journal" --save "$work/x"
ok $? "replay --journal takes no script, and saves nothing"

# ---- entries that are left out, doubled or exchanged

# Ten entries, by calls on one directory: the attributes in each reply tell of the calls before.
journal=$work/ten
journaled
{
    sent 1 9 "$(handle 1) $(opaque d) $settings"
    sent 2 8 "$(handle 1) $(opaque x) 00000000 $settings"
    sent 3 10 "$(handle 1) $(opaque l) $settings $(opaque f)"
    sent 4 7 "$(handle 2) 00000000 00000005 00000003 00000002 $(opaque abc)"
    sent 5 15 "$(handle 2) $(handle 1) $(opaque g)"
    sent 6 2 "$(handle 1) 00000001 000001ff 00000000 00000000 00000000 00000000 00000000 00000000"
    sent 7 14 "$(handle 1) $(opaque x) $(handle 1) $(opaque y)"
    sent 8 12 "$(handle 1) $(opaque y)"
    sent 9 8 "$(handle 1) $(opaque z) 00000000 $settings"
    sent 10 13 "$(handle 1) $(opaque d)"
} >"$work/script"
run replay "$work/script" --port "$port"
stop
# Each entry is alone in its block: $work/record.N is the Nth entry, $work/block.N its block, and $work/block.0 what stands before.
list "$journal" >"$work/listed"
part() { tail -c +$(($(place offset "$1" "$journal") + 1)) "$journal" | head -c "$(place bytes "$1" "$journal")"; }
head -c "$new" "$journal" >"$work/block.0"
for n in 1 2 3 4 5 6 7 8 9 10; do
    part "entry $n" >"$work/record.$n"
    part "block $((n + 2))" >"$work/block.$n"
done
# of_records N..: a journal of these entries, in blocks that are numbered again. of_blocks N..: of these blocks, as they are.
of_records() {
    cp "$work/block.0" "$file"
    number=2
    for it in "$@"; do
        number=$((number + 1))
        "$work/entries" block "$number" <"$work/record.$it" >>"$file"
    done
}
of_blocks() {
    cp "$work/block.0" "$file"
    for it in "$@"; do cat "$work/block.$it" >>"$file"; done
}
# compacted NAME: the description of the tree that the journal leads to.
compacted() { run journal compact "$work/tree" "$file" "$work/$1" --key 00112233445566ff; }
# is_other_reply: whether the last run was refused, and named an entry by its place.
is_other_reply() {
    ended 3 && [ ! -s "$work/out" ] || return
    said=$(sed -n "s|^nfs3d: $file: entry \([0-9]*\) at offset \([0-9]*\) has another reply than the rules give: .*|\1 \2|p" "$work/err")
    [ -n "$said" ] && [ "$(place offset "entry ${said% *}" "$file")" = "${said#* }" ]
}
# is_other_block N: whether the last run was refused for the block before which N entries stand whole.
is_other_block() { ended 3 && [ ! -s "$work/out" ] && grep -q "^nfs3d: $file: entry $(($1 + 1)) at offset $(place offset "block $(($1 + 3))" "$journal") is damaged: " "$work/err"; }
of_records 1 2 3 4 5 6 7 8 9 10
cmp -s "$file" "$journal" && compacted all && ended 0
ok $? "ten entries"
of_records 1 2 3 4 5 6 7 8 9
compacted nine && ended 0 && ! cmp -s "$work/nine" "$work/all" && grep -q '^dir /d ' "$work/nine" && ! grep -q '^dir /d ' "$work/all"
ok $? "without the last entry the tree is what it was before"
for n in 1 2 3 4 5 6 7 8 9; do
    # shellcheck disable=SC2046
    of_records $(seq 10 | grep -vx "$n")
    { compacted none && is_other_reply; } || break
done
[ "$n" = 9 ] && is_other_reply && [ ! -e "$work/none" ]
ok $? "an entry that is left out is found by the next reply that tells of it"
for n in 1 2 3 4 5 6 7 8 9 10; do
    # shellcheck disable=SC2046
    of_records $(seq 10 | sed "${n}p")
    { compacted doubled && ended 0 && same "$work/all" "$work/doubled"; } || break
done
[ "$n" = 10 ] && ended 0
ok $? "an entry that stands twice is a retransmission, and changes nothing"
# What one writes to a file and what others do in the directory can be exchanged; nothing else can.
for n in 1 2 3 4 5 6 7 8 9; do
    rm -f "$work/exchanged"
    # shellcheck disable=SC2046
    of_records $(seq 10 | sed "${n}{h;d};$((n + 1))G")
    compacted exchanged
    case $n in
    3) { ended 0 && same "$work/all" "$work/exchanged"; } || break ;;
    *) is_other_reply || break ;;
    esac
done
[ "$n" = 9 ] && is_other_reply
ok $? "two entries that are exchanged are found, unless it makes no difference"
good=0
for n in 1 2 3 4 5 6 7 8 9; do
    # shellcheck disable=SC2046
    of_blocks $(seq 10 | grep -vx "$n")
    run replay "$work/tree" --journal "$file"
    is_other_block $((n - 1)) && good=$((good + 1))
    # shellcheck disable=SC2046
    of_blocks $(seq 10 | sed "${n}p")
    run replay "$work/tree" --journal "$file"
    is_other_block "$n" && good=$((good + 1))
    # shellcheck disable=SC2046
    of_blocks $(seq 10 | sed "${n}{h;d};$((n + 1))G")
    run replay "$work/tree" --journal "$file"
    is_other_block $((n - 1)) && good=$((good + 1))
done
[ "$good" = 27 ]
ok $? "a block that is left out, stands twice, or is exchanged with the next is found by its number"

# ---- cut at each byte

journal=$work/three
[ "$(entries "$journal")" = 21 ] && list "$journal" | grep -q '^block 19 .* entries=1$' && list "$journal" | grep -q '^block 20 .* entries=3$'
ok $? "a journal of 21 entries, in blocks of one and of three"
list "$journal" | sed -n 's/^block .* offset=\([0-9]*\) bytes=\([0-9]*\) entries=\([0-9]*\)$/\1 \2 \3/p' >"$work/listed"
all=$(size "$journal")
# What is whole at each length, from the headers of the blocks.
awk -v all="$all" '{ end[NR] = $1 + $2; entries[NR] = entries[NR - 1] + $3 }
    END {
        end[0] = 78
        n = NR
        for (len = all; len >= 78; len--) {
            while (end[n] > len) n--
            printf "ok entries=%d bytes=%d%s\n", entries[n], end[n], end[n] < len ? " unfinished=" len - end[n] : ""
        }
    }' "$work/listed" >"$work/wanted"
cp "$journal" "$file"
len=$all
: >"$work/got"
while [ "$len" -ge 78 ]; do
    truncate -s "$len" "$file"
    "$program" journal check "$file" >>"$work/got" 2>&1
    len=$((len - 1))
done
same "$work/wanted" "$work/got"
ok $? "journal check of a journal that is cut at any of its bytes"
wrong=0
while [ "$len" -ge 0 ]; do
    truncate -s "$len" "$file"
    "$program" journal check "$file" >"$work/out" 2>"$work/err"
    [ $? = 3 ] && [ ! -s "$work/out" ] || wrong=$((wrong + 1))
    len=$((len - 1))
done
[ "$wrong" = 0 ]
ok $? "without its first record it is none"
# At the end of each block, a byte before and a byte after.
while read -r from len _; do
    for it in $((from + len - 1)) $((from + len)) $((from + len + 1)); do
        [ "$it" -le "$all" ] || continue
        head -c "$it" "$journal" >"$file"
        "$program" replay "$work/tree" --journal "$file" 2>&1
        sed -n "$((all - it + 1))p" "$work/wanted" >&3
    done
done <"$work/listed" >"$work/got" 3>"$work/expected"
same "$work/expected" "$work/got" && [ -s "$work/got" ]
ok $? "replay --journal of a journal that is cut near the ends of its blocks"

# ---- more calls at once than one block takes

# A turn brings one WRITE of 64 KiB, or some nine hundred small calls: those of all clients make more than 4 MiB of entries.
compiles floods tests/journal/floods.c
{ printf 'server 0102030405060708\nvolume /a 1000000000 100000 0777 0 0\nexport * rw,no_root_squash\n' && seq 100 | sed 's|.*|file /f& 0666 0 0 -|'; } >"$work/files"
{ head -n 3 "$work/files" && seq 24 | sed 's|.*|dir /d& 0777 0 0|'; } >"$work/dirs"
# floods TREE MADE FOUND CLIENTS CALLS: whether all these calls are answered, and the server goes on; it is killed, and the next one
# has what they made, from a journal with an entry for each of them.
floods() {
    journal=$work/flooded
    rm -f "$journal"
    serving "$1" --journal "$journal"
    "$work/floods" "$port" "$2" "$4" "$5" "$(server_process)" 2>"$work/err" && "$work/floods" "$port" "$3" "$4" "$5" 2>"$work/err" || return
    crash
    [ "$(entries "$journal")" = $(($4 * $5)) ] && list "$journal" | awk '$1 == "block" { split($5, bytes, "="); large += bytes[2] > 20 + 4194304 } END { exit large > 0 }' || return
    serving "$1" --journal "$journal"
    warned "nfs3d: $journal: $(($4 * $5)) entries run again" && "$work/floods" "$port" "$3" "$4" "$5" 2>"$work/err"
}
floods "$work/files" write written 100 2
ok $? "100 clients that each write 128 KiB at once: all are answered, and what they wrote lasts"
floods "$work/dirs" create created 24 1000
ok $? "24 clients that each create 1,000 files without waiting for a reply"
stop

# ---- many bytes cut, and many changed

# Three hundred entries of nine procedures, in blocks of one to four. Of its bytes are tried the first 1,500, all of block headers and
# record marks, the last of blocks and entries, and of the others each 97th: with NFS3D_EVERY=1 each, which takes minutes.
compiles spoils tests/journal/spoils.c
journal=$work/cycles
head -n 4 "$work/files" >"$work/few"
serving "$work/few" --journal "$journal"
"$work/floods" "$port" cycles 1 30 2>"$work/err" && list "$journal" >"$work/listed" && [ "$(grep -c '^entry ' "$work/listed")" = 300 ] && [ "$(grep -c '^block ' "$work/listed")" -gt 120 ]
ok $? "a journal of 300 entries, in blocks of one to four"
stop
# spoils WORK: spoils it at all these places, one at a time.
spoils() { timeout --foreground 1800 "$work/spoils" "$program" "$work/few" "$journal" "$1" 1500 "${NFS3D_EVERY:-97}" <"$work/listed" >"$work/out" 2>"$work/err"; }
spoils cut && quiet
ok $? "cut at any byte, its whole blocks are run again, and nothing else"
note "$(cat "$work/out")"
spoils change && quiet
ok $? "with any byte changed it is refused, by an entry and its place, or ends before its last block, unless the description has the byte"
note "$(cat "$work/out")"
# Each cycle of calls leaves a symbolic link: the description of what is run again has as many as there are such calls in whole blocks.
file=$work/changed
good=0
for it in $(seq 10 10 120); do
    at=$(place offset "block $it" "$journal")
    sed "/^block $it /,\$d" "$work/listed" | grep -c '^entry .* call=.\{16\}00000002000186a3000000030000000a' >"$work/wanted"
    for len in "$at" $((at + 21)); do
        head -c "$len" "$journal" >"$file"
        run journal compact "$work/few" "$file" "$work/new.tree" --key 00112233445566ff
        ended 0 && grep -c '^link /l' "$work/new.tree" | same "$work/wanted" - && good=$((good + 1))
    done
done
[ "$good" = 24 ]
ok $? "the tree of a journal that is cut is that of its whole blocks"

plan
