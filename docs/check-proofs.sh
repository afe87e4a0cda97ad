#!/bin/sh
# Tells whether every file and every edit that PROOFS.md names is there, and whether it names every edit. Run in the repository's root.
set -eu
page=docs/PROOFS.md
status=0

for path in $(grep -o '\.\./crates/[A-Za-z0-9_/.]*' "$page" | sort -u); do
    [ -e "docs/$path" ] || { echo "$page: no $path" >&2; status=1; }
done

named=$(mktemp)
there=$(mktemp)
trap 'rm -f "$named" "$there"' EXIT
sed -n 's/^|.*| \([^|]*\) |$/\1/p' "$page" | grep -o '[a-z0-9_]*/[a-z0-9_]*' | sort -u > "$named"
ls crates/*/must-fail/*.edit | sed 's|crates/\(.*\)/must-fail/\(.*\)\.edit|\1/\2|' | grep -v '^vectors/' | sort > "$there"
diff "$named" "$there" >&2 || { echo "$page: the edits differ: < named, > there" >&2; status=1; }
exit $status
