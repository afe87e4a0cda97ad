#!/bin/sh
# Replays the examples of docs/PROTOCOL.md through target/bin/weigher and target/bin/constants, which must answer as the page says; and through
# the service and the reader in compare/, where it was built with the Rust source. Run in the repository's root, after
# `make program`.
set -eu
page=docs/PROTOCOL.md
program=target/bin/weigher
constants=target/bin/constants
reference=target/compare/compare
work=target/protocol
rm -rf "$work"
mkdir -p "$work"

# An example is a block marked 'frames'. A line of it is input after '>' and answers after '<', in hexadecimal bytes; 'N times' repeats
# the bytes behind it, and '#' begins a remark. Both sides become files of octal escapes for printf: plain awks write no byte 0. In a block
# marked 'constants' the lines are taken as they stand.
awk -v work="$work" '
    function fail(message) {
        printf "%s:%d: %s\n", FILENAME, FNR, message
        failed = 1
        exit 1
    }
    function octal(byte) {
        if (byte !~ /^[0-9a-f][0-9a-f]$/)
            fail("no byte: " byte)
        return sprintf("\\%03o", index(digits, substr(byte, 1, 1)) * 16 + index(digits, substr(byte, 2, 1)) - 17)
    }
    BEGIN {
        digits = "0123456789abcdef"
        sides[">"] = "input"
        sides["<"] = "answers"
    }
    $0 == "```frames" || $0 == "```constants" {
        inside = substr($0, 4)
        example = sprintf("%s/%02d", work, ++examples)
        print FNR > (example ".line")
        print inside > (example ".kind")
        printf "" > (example ".input")
        printf "" > (example ".answers")
        next
    }
    $0 == "```" {
        inside = ""
        next
    }
    !inside && /^[<>]/ {
        fail("a line outside a block of frames or constants")
    }
    inside == "constants" {
        if (!/^[<>]( |$)/)
            fail("neither input nor answers")
        print substr($0, 3) > (example "." sides[substr($0, 1, 1)])
        if (/^< refused/)
            codes[$3] = 1
        next
    }
    inside {
        sub(/#.*/, "")
        if (!($1 in sides))
            fail("neither input nor answers")
        count = 1
        first = 2
        if ($3 == "times") {
            count = $2
            first = 4
        }
        bytes = ""
        for (i = first; i <= NF; i++)
            bytes = bytes octal($i)
        for (i = 0; i < count; i++)
            print bytes > (example "." sides[$1])
        if ($1 == "<" && NF == 5)
            codes[$2 $3 $4 $5] = 1
    }
    END {
        if (failed)
            exit 1
        split("00020101 00020102 00020103 00020104 00020105 00020108 0002010b 0002010e 0002010f 9 10", refusals)
        for (i in refusals)
            if (!(refusals[i] in codes))
                fail("no example has the refusal " refusals[i])
    }
' "$page"

bytes() {
    while read -r escapes; do
        printf "$escapes"
    done < "$1"
}

# Whether the command answers the example as the page says.
answers() {
    example=$1
    shift
    "$@" < "$example.in" > "$example.got"
    if ! cmp -s "$example.got" "$example.out"; then
        echo "$page:$(cat "$example.line"): not as $* has it:"
        od -An -v -tx1 "$example.got"
        exit 1
    fi
}

if "$reference" answers < /dev/null > /dev/null 2>&1; then
    by="$program, $constants and compare/"
else
    by="$program and $constants (compare/ is not built, or without the Rust source)"
    reference=
fi

count=0
for line in "$work"/*.line; do
    example=${line%.line}
    count=$((count + 1))
    if [ "$(cat "$example.kind")" = constants ]; then
        cp "$example.input" "$example.in"
        cp "$example.answers" "$example.out"
        answers "$example" "$constants"
        [ -z "$reference" ] || answers "$example" "$reference" constant-replies
        continue
    fi
    bytes "$example.input" > "$example.in"
    bytes "$example.answers" > "$example.out"
    answers "$example" "$program"
    [ -z "$reference" ] || answers "$example" "$reference" answers
done
echo "$page: $count examples are answered as written by $by"
