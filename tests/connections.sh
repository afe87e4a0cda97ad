#!/bin/sh
# Connections to the program under socat on loopback, a process for each. Every answer is compared byte for byte with what the service in
# compare/ answers. There are reports in each stream, whose numbers have to be the counts of its own connection alone.
#     tests/connections.sh [COUNT]
# COUNT connections, 400 where none is given: the first quarter one after another, the others in groups of 50, all of a group open at once
# and inside their streams. Each sends random frames of its own where target/compare/compare was built over the Rust source, and else one
# of the recorded streams. A group that is not answered while it is open is the last. Prints the counts; the status is 1 where an answer
# differed or a group was not answered, and 2 where nothing could be tried. PROGRAM is the program to try, target/bin/weigher where it is
# not set.
set -eu
count=${1:-400}
at_once=50

[ -z "${PROGRAM:-}" ] || PROGRAM=$(realpath "$PROGRAM")
cd "$(dirname "$0")/.."
PROGRAM=${PROGRAM:-$PWD/target/bin/weigher}
compare=target/compare/compare
if ! command -v socat > /dev/null; then
    echo "socat is not installed: no connection is tried" >&2
    exit 2
fi
if ! [ -x "$PROGRAM" ]; then
    echo "$PROGRAM is not there: 'make program' builds the weigher" >&2
    exit 2
fi

. tests/common.sh

WORK=$(mktemp -d)

# The listener and the clients of the present group.
pid=
clients=
stop() {
    for process in $pid $clients; do
        kill "$process" 2> /dev/null || :
    done
    # Senders that wait at the gate go on, and end.
    [ ! -p "$WORK/gate" ] || exec 3<> "$WORK/gate"
    rm -rf "$WORK"
}
trap stop EXIT
trap 'exit 130' INT
trap 'exit 143' TERM

random=no
if [ -x "$compare" ] && "$compare" answers < /dev/null 2> /dev/null; then
    random=yes
fi

# The stream of a connection and the answers to it. Document 01's case has no report, and gets one as its first frame.
prepare() {
    if [ "$random" = yes ]; then
        "$compare" random-stream "$1" > "$WORK/$1.stream"
        "$compare" answers < "$WORK/$1.stream" > "$WORK/$1.expected"
    elif [ $(($1 % 2)) -eq 0 ]; then
        cp "$stream" "$WORK/$1.stream"
        cp "$answers" "$WORK/$1.expected"
    else
        { report && cat crates/weigher/stdin; } > "$WORK/$1.stream"
        { report_reply 0 0 && cat crates/weigher/stdout; } > "$WORK/$1.expected"
    fi
}

# Starts a client that sends most of its stream, waits until the gate is opened for writing, and sends the rest. The first part of each
# recorded stream, too, has a whole frame.
open_connection() {
    cut=$(($(wc -c < "$WORK/$1.stream") * 9 / 10))
    {
        head -c "$cut" "$WORK/$1.stream"
        : < "$WORK/gate"
        tail -c "+$((cut + 1))" "$WORK/$1.stream"
    } 3>&- | timeout 60 socat -t 30 - "TCP:127.0.0.1:$port" > "$WORK/$1.got" 2> "$WORK/$1.err" 3>&- &
    clients="$clients $!"
}

compare_answers() {
    if cmp -s "$WORK/$1.expected" "$WORK/$1.got"; then
        same=$((same + 1))
    else
        echo "connection $1: other answers, $(wc -c < "$WORK/$1.got") bytes where $(wc -c < "$WORK/$1.expected") were expected"
        differ=$((differ + 1))
    fi
    rm -f "$WORK/$1".*
}

all_answered() {
    for number in $(seq "$1" "$2"); do
        [ -s "$WORK/$number.got" ] || return 1
    done
}

# The connections from one number to another, all open before the first gets the rest of its stream.
run_group() {
    for number in $(seq "$1" "$2"); do
        prepare "$number"
    done
    mkfifo "$WORK/gate"
    for number in $(seq "$1" "$2"); do
        open_connection "$number"
    done
    if ! within 15 all_answered "$1" "$2"; then
        echo "connections $1 to $2: not all are answered while all are open"
        waiting=$((waiting + 1))
    fi
    # Opened both ways, since to open it for writing alone would wait for a sender.
    exec 3<> "$WORK/gate"
    for client in $clients; do
        wait "$client" || :
    done
    exec 3>&-
    clients=
    rm "$WORK/gate"
    for number in $(seq "$1" "$2"); do
        compare_answers "$number"
    done
}

same=0
differ=0
waiting=0
listen fork,backlog=128
first=1
single=$((count / 4))
while [ "$first" -le "$count" ] && [ "$waiting" -eq 0 ]; do
    last=$first
    if [ "$first" -gt "$single" ]; then
        last=$((first + at_once - 1))
        [ "$last" -le "$count" ] || last=$count
    fi
    run_group "$first" "$last"
    first=$((last + 1))
done
echo "connections: $((first - 1)), random frames: $random, $same answered as expected, $differ otherwise, $waiting groups not at once"
[ "$differ" -eq 0 ] && [ "$waiting" -eq 0 ]
