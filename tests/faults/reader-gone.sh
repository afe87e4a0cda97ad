# The reader of the output goes while the input goes on. The program ends with a line on standard error, whether its caller ignores SIGPIPE,
# as systemd does, or not: a Rattle program ignores it from its start.
. tests/common.sh

# Leaves the program's status in status.
lose_reader() {
    rm -f "$WORK/in" "$WORK/out"
    start env "$1"
    exec 3> "$WORK/in"
    head -c 1 "$WORK/out" > /dev/null 3>&- &
    cat crates/weigher/stdin >&3
    wait $!
    cat crates/weigher/stdin >&3 || :
    within 5 has_ended "$pid" || fail "it goes on without a reader ($1)"
    wait "$pid" && status=0 || status=$?
    exec 3>&-
}

# Where the program is gone, writing its input must not end the trial.
trap '' PIPE

for signal in --default-signal=PIPE --ignore-signal=PIPE; do
    lose_reader $signal
    [ "$status" -lt 128 ] || fail "ended by signal $((status - 128)) ($signal)"
    grep -q '^standard output: .' "$WORK/err" || fail "no line about standard output on standard error ($signal)"
done
echo "status $status, '$(cat "$WORK/err")', whatever the caller does with SIGPIPE"
