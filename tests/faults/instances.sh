# Many instances at once, two hundred in the full form, each inside its stream until all have answered; then all go on, and every answer
# is right, those to the reports at the stream's end too: they count the frames of their own instance alone.
. tests/common.sh

count=50
[ "$FORM" = short ] || count=200

# The instances' inputs wait in opening the gate for reading, until somebody opens it for writing.
mkfifo "$WORK/gate"
size=$(wc -c < "$stream")
pids=
for number in $(seq "$count"); do
    # Each is cut at another place.
    cut=$((size - number * 100))
    {
        head -c "$cut" "$stream"
        : < "$WORK/gate"
        tail -c "+$((cut + 1))" "$stream"
    } | "$PROGRAM" > "$WORK/got.$number" &
    pids="$pids $!"
done

all_wait() {
    for number in $(seq "$count"); do
        [ -s "$WORK/got.$number" ] || return 1
    done
}
within 20 all_wait || fail "not all of $count answer at once"
most=0
for pid in $pids; do
    has_ended "$pid" && fail "an instance ended before its input"
    size=$(peak "$pid")
    [ "$size" -le "$most" ] || most=$size
done
is_small "$most"

# Opened both ways, since to open it for writing alone would wait for an instance.
exec 3<> "$WORK/gate"
for pid in $pids; do
    wait "$pid" || fail "an instance ended with status $?"
done
for number in $(seq "$count"); do
    cmp -s "$answers" "$WORK/got.$number" || fail "instance $number answered otherwise"
done
echo "$count at once, each answered the recorded stream; the greatest peak is $most kB"
