# shellcheck shell=sh disable=SC2154
# Processes in the background of a shell, which are ended before its work folder, $work, is removed.

# end_processes SECONDS: ends them by their numbers, again and again, since one that has just begun can miss a signal. Those that
# have not ended after so many seconds are killed.
end_processes() {
    signal=TERM
    for attempt in $(seq $(($1 * 20 + 20))); do
        jobs -l >"$work/jobs"
        sed -n 's/^\[[0-9]*\] *[-+]\{0,1\} *\([0-9][0-9]*\) Running.*/\1/p' "$work/jobs" >"$work/processes"
        [ -s "$work/processes" ] || return 0
        [ "$attempt" -le $(($1 * 20)) ] || signal=KILL
        while read -r process; do kill -s "$signal" "$process" 2>/dev/null; done <"$work/processes"
        sleep 0.05
    done
}
