#!/bin/sh
# Programs that are wrong on purpose: each file must-fail/TRIAL.FAULT stands in for the weigher, and the trial, in its short form, has to
# fail on it. The stand-ins run the weigher by the name in WEIGHER.
#     tests/must-fail.sh [TRIAL.FAULT...]
# Prints a line for each with what the trial said, then the counts; the status is 1 where a trial passed, and 2 where something that the
# stand-ins need is not installed.
set -eu
cd "$(dirname "$0")/.."
for needed in perl flock socat; do
    if ! command -v "$needed" > /dev/null; then
        echo "$needed is not installed: the stand-ins are not tried" >&2
        exit 2
    fi
done
export WEIGHER="$PWD/target/bin/weigher"
if [ $# -eq 0 ]; then
    set -- tests/must-fail/*
fi

# What a trial says of a stand-in.
say() {
    case $1 in
        connections.*) PROGRAM="tests/must-fail/$1" tests/connections.sh 20 ;;
        *) PROGRAM="tests/must-fail/$1" tests/faults.sh short "${1%%.*}" ;;
    esac
}

tried=0
passed=0
for name in "$@"; do
    stand_in=$(basename "$name")
    status=0
    said=$(say "$stand_in" 2>&1) || status=$?
    tried=$((tried + 1))
    if [ "$status" -eq 1 ]; then
        echo "fails    $stand_in: $(echo "$said" | sed -n '1s/^FAILED *[^:]*: //; 1p')"
    else
        passed=$((passed + 1))
        echo "PASSES   $stand_in (status $status): $(echo "$said" | tail -n 1)"
    fi
done
echo "must-fail: $tried stand-ins, $passed not refused"
[ "$passed" -eq 0 ]
