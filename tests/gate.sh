#!/bin/sh
# Proves every crate, refuses every edit, and runs the programs and tests: rt ci, in the repository's root. Fails where that fails, and where
# an edit could not be applied or read. The last line is rt's, 'N passed, 0 failed'.
set -eu
cd "$(dirname "$0")/.."
mkdir -p target
status=0
rm -f target/gate.status
{ rt ci 2>&1 || echo "$?" > target/gate.status; } | tee target/gate.log
[ ! -e target/gate.status ] || status=$(cat target/gate.status)
if grep -qE '^rt: ok.*, [1-9][0-9]* bad' target/gate.log; then
    echo "an edit is bad" >&2
    status=1
fi
exit "$status"
