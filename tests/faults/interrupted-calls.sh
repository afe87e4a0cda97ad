# Reads and writes that a signal interrupts: on a socket with a time limit they return, after SIGSTOP and SIGCONT, with EINTR or with the
# bytes so far, also where no handler is installed (signal(7)). The program has to go on, and no byte may be lost or come twice.
. tests/common.sh
need_socat

rounds=5
[ "$FORM" = short ] || rounds=200

is_stopped() {
    [ "$(state "$pid")" = T ]
}

interrupt() {
    left=$1
    while [ "$left" -gt 0 ]; do
        kill -s STOP "$pid" || fail "it ended"
        within 5 is_stopped || fail "it does not stop"
        kill -s CONT "$pid"
        sleep 0.02
        left=$((left - 1))
    done
}

# SO_RCVTIMEO and SO_SNDTIMEO of 60 s, as a struct timeval of a 64-bit machine with the low byte first.
minute=x3c000000000000000000000000000000
make_whole
meet "setsockopt=1:20:$minute,setsockopt=1:21:$minute"

# While it waits to read, before a frame and inside one.
within 5 rests "$pid" || fail "it does not come to rest before the first byte"
interrupt "$rounds"
head -c 7 "$WORK/frames" >&3
within 5 rests "$pid" || fail "it does not come to rest inside a frame"
interrupt "$rounds"

# While it waits to write: nobody reads, and the answers, some 2.5 MB, are more than the buffers hold.
times=100
repeat "$times" "$WORK/replies" > "$WORK/expected"
{
    tail -c +8 "$WORK/frames"
    repeat $((times - 1)) "$WORK/frames"
} >&3 4<&- &
fills_output "$pid" > "$WORK/got" || fail "it does not come to rest while nobody reads"
interrupt "$rounds"

length=$(wc -c < "$WORK/expected")
timeout --foreground 10 head -c $((length - 1)) <&4 >> "$WORK/got" || fail "$(wc -c < "$WORK/got") of $length bytes came"
cmp -s "$WORK/expected" "$WORK/got" || fail "the answers are lost, changed or doubled"
part
within 5 has_ended "$pid" || fail "it goes on after the end of the connection"
echo "$((3 * rounds)) interruptions, and all $length bytes came"
