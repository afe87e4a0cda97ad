# A read that fails: the program ends with a line on standard error and answers nothing. Its input is a folder, which cannot be read.
. tests/common.sh

"$PROGRAM" < "$WORK" > "$WORK/got" 2> "$WORK/err" && status=0 || status=$?
[ "$status" -lt 128 ] || fail "ended by signal $((status - 128))"
grep -q '^standard input: .' "$WORK/err" || fail "no line about standard input on standard error"
[ ! -s "$WORK/got" ] || fail "something was answered"
echo "status $status, '$(cat "$WORK/err")'"
