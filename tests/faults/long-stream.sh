# A long stream of mixed frames, a gigabyte in the full form, and a report at its end: every answer is right, the report's numbers are the
# counts over the answers before it, and memory stays constant.
. tests/common.sh

make_whole
block=$(wc -c < "$WORK/frames")
length=$(wc -c < "$WORK/replies")
total=20000000
[ "$FORM" = short ] || total=1000000000
times=$((total / block + 1))

start env
exec 3> "$WORK/in"
{
    head -c $((times * length)) | cksum > "$WORK/got"
    cat > "$WORK/last"
} < "$WORK/out" 3>&- &
reader=$!

cat "$WORK/frames" >&3
within 5 rests "$pid" || fail "it does not come to rest after the first frames"
first=$(peak "$pid")
repeat $((times - 1)) "$WORK/frames" >&3
report >&3
cat "$WORK/end" >&3
within 10 rests "$pid" || fail "it does not come to rest at the end"
size=$(peak "$pid")
[ "$size" -le $((first + 128)) ] || fail "the peak resident size grew from $first to $size kB"
is_small "$size"
exec 3>&-

repeat "$times" "$WORK/replies" | cksum > "$WORK/expected"
wait "$reader"
cmp -s "$WORK/expected" "$WORK/got" || fail "other answers: checksum and length $(cat "$WORK/got"), not $(cat "$WORK/expected")"
set -- $(count_answers "$WORK/replies")
accepted=$((times * $1))
refused=$((times * $2))
{
    report_reply "$accepted" "$refused"
    cat "$WORK/end-reply"
} | cmp -s - "$WORK/last" ||
    fail "after $accepted accepted and $refused refused the report and the end are answered by$(od -An -v -tx1 -w64 "$WORK/last")"
within 5 has_ended "$pid" || fail "it goes on after the end of its input"
wait "$pid" || fail "status $?"
echo "$((times * block)) bytes, checksum and length of the answers $(cat "$WORK/got"), a report of $accepted accepted and $refused refused," \
    "peak $first kB, then $size kB"
