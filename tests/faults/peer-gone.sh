# The peer of a connection is killed: the program ends soon, while it waits for the rest of a frame and while it waits to write.
. tests/common.sh
need_socat

lose() {
    part
    within 5 has_ended "$pid" || fail "it goes on $1"
    wait "$pid" && status=0 || status=$?
    exec 3>&- 4<&-
}

# Writing to a peer that is gone must not end the trial.
trap '' PIPE

meet
head -c 7 crates/weigher/stdin >&3
within 5 rests "$pid" || fail "it does not come to rest inside a frame"
lose "inside a frame"
inside=$status

# The answers, some 2.5 MB, are more than the buffers hold.
make_whole
meet
repeat 100 "$WORK/frames" >&3 4<&- 2> /dev/null &
fills_output "$pid" > /dev/null || fail "it does not come to rest while nobody reads"
lose "while it writes"
grep -q '^standard output: .' "$WORK/err" || fail "no line about standard output on standard error"
echo "status $inside inside a frame; while it writes, status $status, '$(grep '^standard' "$WORK/err")'"
