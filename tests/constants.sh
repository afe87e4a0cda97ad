#!/bin/sh
# Compares the hexadecimal constants of the Rust's exp2m1.rs, in order, with the bits in specs/ and in the code, and with the text beside those
# in the code. constants.txt says where each of them stands. The floats are read by target/bin/constants (`make program` builds it), and
# once more here.
#     tests/constants.sh [SOURCE]
# SOURCE is the folder of the Rust source, ../shared/docs/src where none is given. Where it is not there, nothing is compared.
# Prints each difference with its file and line, then the counts; the status is 1 where there was one.
set -eu
cd "$(dirname "$0")/.."
source=${1:-../shared/docs/src}/libm/src/math/exp2m1.rs
if [ ! -f "$source" ]; then
    echo "the Rust source is not there: no constant is compared"
    exit 0
fi
work=$(mktemp -d)
trap 'rm -rf "$work"' EXIT
grep -oE -- '-?hf64!\("[^"]*"\)' "$source" | sed 's/hf64!("//; s/")//' | sort -u > "$work/texts"
target/bin/constants < "$work/texts" | paste -d ' ' "$work/texts" - > "$work/read"
awk -v read_by_constants="$work/read" '
BEGIN {
    while ((getline line < read_by_constants) > 0) {
        split(line, word, " ")
        read[word[1]] = word[2]
    }
}

function differ(message) { print message; differences++ }

# The digits of a pattern, without zeros in front: of 0x.., or of a float like -0x1.8p-3.
function pattern(text,    negative, part, number, digits) {
    negative = sub(/^-/, "", text)
    sub(/^0x/, "", text)
    digits = text
    if (split(text, part, "p") == 2 && part[1] != "0") {
        if (part[1] !~ /^1/ || part[2] < -1022 || part[2] > 1023) differ("0x" text ": no normal number")
        split(part[1], number, ".")
        digits = sprintf("%03x%s", part[2] + 1023 + (negative ? 2048 : 0), substr(number[2] "0000000000000", 1, 13))
    } else if (part[1] == "0") digits = negative ? "8000000000000000" : "0"
    sub(/^0+/, "", digits)
    return digits == "" ? "0" : digits
}

# The same for a constant of the source, a float by the program constants too.
function source_pattern(text, is_float,    digits) {
    digits = pattern(text)
    if (is_float) {
        reads++
        if (read[text] != "0x" substr("0000000000000000", 1, 16 - length(digits)) digits) differ(text ": the program constants says " read[text] " and not " digits)
    }
    return digits
}

# The source: the constants of each item, in order.
FILENAME == ARGV[1] {
    line = $0
    sub(/\/\/.*/, "", line)
    if (line ~ /\/\*/) comment = 1
    if (comment) {
        if (line ~ /\*\//) comment = 0
        next
    }
    if (line ~ /^}/) fn = ""
    if (match(line, /fn [a-z0-9_]+/)) fn = substr(line, RSTART + 3, RLENGTH - 3)
    if (match(line, /(const|static) [A-Z0-9_]+:/)) {
        item = substr(line, RSTART, RLENGTH - 1)
        sub(/.* /, "", item)
    }
    name = item == "" ? fn : fn == "" ? item : fn "/" item
    while (match(line, /-?hf64!\("[^"]*"\)|0x[0-9a-f]+/)) {
        constant = substr(line, RSTART, RLENGTH)
        line = substr(line, RSTART + RLENGTH)
        float[++constants] = sub(/hf64!\("/, "", constant)
        sub(/"\)/, "", constant)
        text[constants] = constant
        from[constants] = "exp2m1.rs:" FNR
        bits[constants] = source_pattern(constant, float[constants])
        member[name, ++members[name]] = constants
    }
    if (line ~ /;$/) item = ""
    next
}

/^#/ || /^$/ { next }

# names[1..] of the table: fills expected[1..] with the numbers of constants, or with 0 and own[..] where the constant is our own.
function resolve(names, count,    i, k, name, only, found) {
    wanted = 0
    for (i = 1; i <= count; i++) {
        name = names[i]
        if (name ~ /^0x/) {
            expected[++wanted] = 0
            own[wanted] = pattern(name)
            continue
        }
        only = ""
        if (match(name, /\(.*\)/)) {
            only = substr(name, RSTART + 1, RLENGTH - 2)
            name = substr(name, 1, RSTART - 1)
        }
        found = 0
        for (k = 1; k <= members[name]; k++) {
            if (only != "" && text[member[name, k]] != only) continue
            # one that the source repeats stands once
            if (only != "" && found++) again[member[name, k]] = expected[wanted]
            else expected[++wanted] = member[name, k]
            found = 1
        }
        if (!found) differ("constants.txt:" FNR ": exp2m1.rs has no " names[i])
    }
}

function wanted_bits(j) { return expected[j] ? bits[expected[j]] : own[j] }
function wanted_text(j) { return expected[j] ? text[expected[j]] " of " from[expected[j]] : "our own 0x" own[j] }

# What is left out, in specs/, in src/ or in both.
/^without / {
    reason = index($0, ":")
    if (!reason) differ("constants.txt:" FNR ": no reason")
    count = split(substr($0, 1, reason - 1), names, " ")
    side = names[2]
    for (i = 3; i <= count; i++) names[i - 2] = names[i]
    resolve(names, count - 2)
    for (i = 1; i <= wanted; i++) {
        if (side != "src") without["specs", expected[i]] = 1
        if (side != "specs") without["src", expected[i]] = 1
    }
    next
}

# A file, and the constants that it has.
{
    file = $1
    sub(/:$/, "", file)
    count = split($0, names, " ")
    for (i = 2; i <= count; i++) names[i - 1] = names[i]
    resolve(names, count - 1)
    side = file ~ /\/specs\// ? "specs" : "src"
    for (i = 1; i <= wanted; i++) listed[side, expected[i]] = 1
    have = 0
    for (number = 1; (getline line < file) > 0; number++) {
        beside = line
        if (side == "specs") sub(/--.*/, "", line)
        else {
            if (!sub(/.*\/\/ */, "", beside)) beside = ""
            sub(/\/\/.*/, "", line)
        }
        while (match(line, /0x[0-9a-f]+/)) {
            token[++have] = substr(line, RSTART, RLENGTH)
            place[have] = file ":" number
            note[have] = beside
            line = substr(line, RSTART + RLENGTH)
        }
    }
    close(file)
    i = j = 1
    while (i <= have || j <= wanted) {
        if (i <= have && j <= wanted && pattern(token[i]) == wanted_bits(j)) {
            n = expected[j]
            beside = note[i]
            sub(/[, ].*/, "", beside)
            if (side == "src" && float[n] && beside != text[n]) differ(place[i] ": " token[i] " without " wanted_text(j) " beside it")
            places++; i++; j++
        } else if (i <= have && j < wanted && pattern(token[i]) == wanted_bits(j + 1)) differ(place[i] ": lacks " wanted_text(j++))
        else if (i < have && j <= wanted && pattern(token[i + 1]) == wanted_bits(j)) differ(place[i] ": " token[i++] " too many")
        else if (i <= have && j <= wanted) differ(place[i] ": " token[i++] " in place of " wanted_text(j++))
        else if (i <= have) differ(place[i] ": " token[i++] " too many")
        else differ(file ": lacks " wanted_text(j++))
    }
}

# Each constant of the source has a place on either side, or else a reason.
function account(n, side,    first) {
    first = n in again ? again[n] : n
    if ((side, first) in without) left[n] = 1
    else if (!((side, first) in listed)) differ(from[n] ": " text[n] " has no place in " side "/ by constants.txt")
    if ((side, first) in without && (side, first) in listed) differ(from[n] ": " text[n] " is left out and stands in " side "/ by constants.txt")
}

END {
    for (n = 1; n <= constants; n++) {
        account(n, "specs")
        account(n, "src")
    }
    for (n in left) reasons++
    printf "constants: %d of exp2m1.rs, %d of them read by the program constants, in %d places of specs/ and src/, %d left out with a reason; differences: %d\n", constants, reads, places, reasons, differences
    exit (differences > 0)
}' "$source" tests/constants.txt
