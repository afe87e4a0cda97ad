# A write that fails: the program ends with a line on standard error, although its input goes on. Its output is /dev/full.
. tests/common.sh

mkfifo "$WORK/in"
"$PROGRAM" < "$WORK/in" > /dev/full 2> "$WORK/err" &
pid=$!
exec 3> "$WORK/in"
cat crates/weigher/stdin >&3
within 5 has_ended "$pid" || fail "it goes on"
wait "$pid" && status=0 || status=$?
[ "$status" -lt 128 ] || fail "ended by signal $((status - 128))"
grep -q '^standard output: .' "$WORK/err" || fail "no line about standard output on standard error"
echo "status $status, '$(cat "$WORK/err")'"
