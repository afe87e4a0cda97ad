# Signals that a process without handlers takes without ending: SIGSTOP and SIGCONT, SIGWINCH, SIGURG and SIGCHLD, while the program
# waits to write, while it runs and while it waits to read. No handler can be put into it from outside, so that on a pipe the system
# takes up its calls again by itself; see interrupted-calls for one that returns.
. tests/common.sh

rounds=10
[ "$FORM" = short ] || rounds=500

disturb() {
    left=$1
    while [ "$left" -gt 0 ]; do
        for signal in STOP CONT WINCH URG CHLD; do
            kill -s "$signal" "$pid" || fail "it ended"
        done
        sleep 0.01
        left=$((left - 1))
    done
}

make_whole
start env
exec 3> "$WORK/in" 4< "$WORK/out"
repeat 8 "$WORK/frames" >&3 4<&- &
feeder=$!
fills_output "$pid" > "$WORK/got" || fail "it does not come to rest while nobody reads"
disturb "$rounds"
cat <&4 >> "$WORK/got" 3>&- &
reader=$!
exec 4<&-
disturb "$rounds"
wait "$feeder"
within 5 rests "$pid" || fail "it does not come to rest at the end of its input"
disturb "$rounds"
cat "$WORK/frames" "$WORK/end" >&3
exec 3>&-
wait "$reader"
{
    repeat 9 "$WORK/replies"
    cat "$WORK/end-reply"
} | cmp -s - "$WORK/got" || fail "the answers are lost or changed"
within 5 has_ended "$pid" || fail "it goes on after the end of its input"
wait "$pid" || fail "status $?"
echo "$((3 * rounds)) rounds of 5 signals, then all $(wc -c < "$WORK/got") bytes"
