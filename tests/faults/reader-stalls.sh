# A reader that stalls: the program waits without CPU time and in constant memory, and afterwards every byte comes.
. tests/common.sh

# Pipes hold 64 KiB: eight times the recorded answers are more than the output's pipe, so that a write has to wait.
times=8
seconds=0.5
[ "$FORM" = short ] || seconds=10

make_whole
start env
exec 3> "$WORK/in" 4< "$WORK/out"
repeat "$times" "$WORK/frames" >&3 4<&- &
fills_output "$pid" > "$WORK/got" || fail "it does not come to rest while nobody reads"
used=$(used_in "$pid" "$seconds")
[ "$used" -le "$idle_ticks" ] || fail "$used ticks of CPU time in $seconds s while nobody reads"
size=$(peak "$pid")

exec 3>&-
cat <&4 >> "$WORK/got"
repeat "$times" "$WORK/replies" | cmp -s - "$WORK/got" || fail "the answers are lost or changed"
is_small "$size"
echo "$used ticks in $seconds s, peak $size kB, then all $(wc -c < "$WORK/got") bytes"
