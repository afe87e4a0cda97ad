#!/bin/sh
# Faults around the program: a reader or peer that goes or stalls, signals, calls that fail, input that ends inside a frame, many
# instances and a long stream.
#     tests/faults.sh short|full [TRIAL...]
# A trial is a file of tests/faults/; all are run where none is named. Each prints one line, and the last line counts them. The status is 1
# where a trial failed, and 2 where nothing could be tried. PROGRAM is the program to try, target/bin/weigher where it is not set. For
# Linux with GNU coreutils and /proc; trials over a socket are skipped where socat is not installed.
set -eu

# The most seconds that one trial may take.
case ${1:-} in
    short) limit=30 ;;
    full) limit=300 ;;
    *)
        echo "usage: tests/faults.sh short|full [TRIAL...]" >&2
        exit 2
        ;;
esac
export FORM="$1"
shift

[ -z "${PROGRAM:-}" ] || PROGRAM=$(realpath "$PROGRAM")
cd "$(dirname "$0")/.."
export PROGRAM="${PROGRAM:-$PWD/target/bin/weigher}"
if ! [ -x "$PROGRAM" ]; then
    echo "$PROGRAM is not there: 'make program' builds the weigher" >&2
    exit 2
fi
if [ $# -eq 0 ]; then
    set -- tests/faults/*.sh
fi

work=$(mktemp -d)
group=
stop() {
    [ -z "$group" ] || kill -s KILL -- "-$group" 2>/dev/null || :
    rm -rf "$work"
}
trap stop EXIT
trap 'exit 130' INT
trap 'exit 143' TERM

# One trial in a folder of its own. timeout leads a process group, so that all that the trial started can be ended with it.
try() {
    export WORK="$work/$1"
    mkdir "$WORK"
    timeout -k 2 "$limit" sh "tests/faults/$1.sh" > "$work/line" 2> "$work/errors" &
    group=$!
    status=0
    wait "$group" || status=$?
    kill -s KILL -- "-$group" 2>/dev/null || :
    group=
    rm -rf "$WORK"
}

tried=0
failed=0
skipped=0
for name in "$@"; do
    trial=$(basename "$name" .sh)
    if ! [ -f "tests/faults/$trial.sh" ]; then
        echo "there is no trial $trial" >&2
        exit 2
    fi
    try "$trial"
    line=$(cat "$work/line")
    [ -n "$line" ] || line="status $status $(tail -n 1 "$work/errors")"
    tried=$((tried + 1))
    case $status in
        0) echo "ok       $trial: $line" ;;
        77)
            skipped=$((skipped + 1))
            echo "skipped  $trial: $line"
            ;;
        124 | 137)
            failed=$((failed + 1))
            echo "FAILED   $trial: it took more than $limit seconds"
            ;;
        *)
            failed=$((failed + 1))
            echo "FAILED   $trial: $line"
            ;;
    esac
done
echo "faults: $tried trials, $failed failed, $skipped skipped"
[ "$failed" -eq 0 ]
