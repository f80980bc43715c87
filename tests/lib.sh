# shellcheck shell=sh
# What the test files share. A test file reads this first, reports each result by `ok`, and ends with `plan`. It prints TAP:
# `ok N - WHAT`, `not ok N - WHAT` with lines `# ..` that say what came instead, and at the end `1..N`.
#
# A test file runs at the top of the repository, over the built program. It has a work folder of its own, $work, which goes with
# all processes that the file started in the background, however it ends.
top=$(cd "$(dirname "$0")/.." && pwd) || exit 1
cd "$top" || exit 1
program=$top/crates/nfs3d/out/nfs3d
[ -x "$program" ] || { echo "$0: the program is not built: run ./build first" >&2; exit 2; }
LC_ALL=C
export LC_ALL
work=$(mktemp -d) || exit 1
# shellcheck source=tests/processes.sh
. tests/processes.sh
tests=0
failures=0
server=

clean_up() {
    trap '' HUP INT TERM
    end_processes 5
    rm -rf "$work"
}
trap clean_up EXIT
trap 'exit 129' HUP
trap 'exit 130' INT
trap 'exit 143' TERM

# ---- results

# note TEXT: reports something beside the results.
note() { printf '%s\n' "$1" | sed 's/^/# /'; }

# excerpt FILE: its first lines as notes, cut where they are long.
excerpt() { [ ! -s "$1" ] || head -n 20 "$1" | cut -c 1-200 | sed 's/^/#   /'; }

# ok STATUS WHAT: one test, which passes where the status is 0. Where it fails, it reports the difference that `same` found, and
# what the last run brought.
ok() {
    tests=$((tests + 1))
    if [ "$1" -eq 0 ]; then
        echo "ok $tests - $2"
    else
        failures=$((failures + 1))
        echo "not ok $tests - $2"
        excerpt "$work/difference"
        [ ! -e "$work/status" ] || note "the last run: nfs3d $(cut -c 1-200 "$work/ran"): status $(cat "$work/status")"
        for stream in out err served served.err; do
            [ ! -s "$work/$stream" ] || { note "$stream:" && excerpt "$work/$stream"; }
        done
    fi
    rm -f "$work/difference"
}

# skip WHAT WHY: one test that can't be made here. It counts neither as passed nor as failed.
skip() {
    tests=$((tests + 1))
    echo "ok $tests - $1 # SKIP $2"
}

# plan: ends the test file. Its status is 0 where no test failed.
plan() {
    echo "1..$tests"
    [ "$failures" -eq 0 ]
    exit
}

# ---- runs of the program

# run WORDS..: runs the program, for ten minutes at most; $work has what it prints (out, err) and its status.
run() {
    echo "$*" >"$work/ran"
    timeout --foreground 600 "$program" "$@" >"$work/out" 2>"$work/err"
    echo $? >"$work/status"
}

# ended STATUS: whether the last run had this status.
ended() { [ "$(cat "$work/status")" = "$1" ]; }

# quiet: whether the last run wrote nothing on standard error.
quiet() { [ ! -s "$work/err" ]; }

# same WANTED GOT: whether two files are the same; GOT may be `-`. `ok` reports the difference.
same() {
    got=$2
    [ "$got" != - ] || { got=$work/got && cat >"$got"; }
    cmp -s "$1" "$got" && return
    diff -a "$1" "$got" >"$work/difference" 2>&1
    return 1
}

# brings OUT ERR STATUS: whether the last run brought what these files hold, and this status.
brings() { same "$1" "$work/out" && same "$2" "$work/err" && ended "$3"; }

# golden FILE [GOT]: whether what the last run printed, or another file, is what FILE holds. `./test --update` sets NFS3D_UPDATE:
# then FILE is written again before.
golden() {
    [ -z "$NFS3D_UPDATE" ] || cp "${2:-$work/out}" "$1"
    same "$1" "${2:-$work/out}"
}

# says LINE: whether the last run, a check, printed this line, beside warnings; or as a fault where it isn't `ok ..`, with one
# line more, which has a line and a column.
says() {
    echo "$1" >"$work/wanted"
    case $1 in
    ok*)
        grep -v '^warning: ' "$work/err" >"$work/others"
        same "$work/wanted" "$work/out" && [ ! -s "$work/others" ] && ended 0
        ;;
    *)
        head -n 1 "$work/err" | same "$work/wanted" - && tail -n +2 "$work/err" | grep -qx '  .*:[0-9]*:[0-9]*: .*' &&
            [ "$(grep -c '' "$work/err")" = 2 ] && [ ! -s "$work/out" ] && ended 1
        ;;
    esac
}

# ---- servers and clients

# wait_until SECONDS COMMAND..: waits until the command has the status 0, for so many seconds at most.
wait_until() {
    left=$(($1 * 20))
    shift
    until "$@"; do
        [ "$left" -gt 0 ] || return 1
        left=$((left - 1))
        sleep 0.05
    done
}

# compiles NAME FILE: compiles a client of C, as $work/NAME.
compiles() {
    cc -O2 -o "$work/$1" "$2" 2>"$work/err"
    ok $? "$2 is compiled"
}

# keyed TREE: exports the key in the handles of a server of this description, for clients that write handles by hand.
keyed() {
    NFS3D_KEY=$(clients/key "$1")
    export NFS3D_KEY
}

# key_words: that key as two words of hexadecimal digits.
key_words() { echo "$NFS3D_KEY" | sed 's/^......../& /'; }

# is_listening: whether the server reported its port, which is $port then, or has ended.
is_listening() {
    port=$(sed -n 's/^\([^ ]*Z \)\{0,1\}listening .*:\([0-9]*\)$/\2/p' "$work/served" | head -n 1)
    [ -n "$port" ] || ! kill -0 "$server" 2>/dev/null
}

# serving TREE WORDS..: stops the server before it, and starts one on a port that the system chooses. Its process is $server, its
# port $port, and $work has what it prints (served, served.err). It ends within five minutes, come what may.
serving() {
    stop
    : >"$work/served"
    rm -f "$work/status" "$work/out" "$work/err"
    keyed "$1"
    timeout --foreground 300 "$program" serve "$@" --port 0 >"$work/served" 2>"$work/served.err" &
    server=$!
    wait_until 60 is_listening
}

# serves_quietly: whether the server wrote nothing on standard error.
serves_quietly() { [ ! -s "$work/served.err" ]; }

# server_process: the number of the server itself, below `timeout`.
server_process() { pgrep -P "$server"; }

# server_ends STATUS: waits for the server's end; whether it has this status.
server_ends() {
    wait "$server"
    brought=$?
    server=
    [ "$brought" -eq "$1" ]
}

# stop: ends the server, if there is one.
stop() {
    [ -n "$server" ] || return 0
    kill "$server" 2>/dev/null
    wait "$server" 2>/dev/null
    server=
}

# crash: kills the server, which has no time to do anything.
crash() {
    process=$(server_process) && kill -9 "$process"
    wait "$server" 2>/dev/null
    server=
}

# plays LINE..: plays a script of these lines against the server, and prints the replies with what they say.
plays() {
    printf '%s\n' "$@" >"$work/script"
    run replay "$work/script" --port "$port" --decode
}

# statuses LINE..: whether the last run printed replies of these procedures and statuses, and nothing on standard error.
statuses() {
    printf '  %s\n' "$@" >"$work/wanted"
    grep '^  [A-Z]' "$work/out" | same "$work/wanted" - && ended 0 && quiet
}
