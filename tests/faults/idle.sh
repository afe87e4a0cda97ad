# A peer that sends nothing, or half a frame and no more: the program waits without CPU time, and then goes on.
. tests/common.sh

seconds=0.5
[ "$FORM" = short ] || seconds=10

waits() {
    within 5 rests "$pid" || fail "it does not come to rest $1"
    used=$(used_in "$pid" "$seconds")
    [ "$used" -le "$idle_ticks" ] || fail "$used ticks of CPU time in $seconds s $1"
}

start env
exec 3> "$WORK/in" 4< "$WORK/out"
waits "before the first byte"
head -c 7 crates/weigher/stdin >&3
waits "inside a frame"
tail -c +8 crates/weigher/stdin >&3
exec 3>&-
cat <&4 > "$WORK/got"
cmp -s crates/weigher/stdout "$WORK/got" || fail "another answer"
within 5 has_ended "$pid" || fail "it goes on after the end of its input"
echo "at rest before the first byte and inside a frame, $seconds s each"
