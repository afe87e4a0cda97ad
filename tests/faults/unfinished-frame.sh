# Input that ends inside a frame: the frames before it are answered, then comes refusal 8. At the end of a frame there is none.
. tests/common.sh

ends=0

# ends_at FOLDER CUT LENGTH inside|between: the first CUT bytes of the recorded input are answered by the first LENGTH bytes of the
# recorded output, and by refusal 8 where they end inside a frame.
ends_at() {
    head -c "$2" "$1/stdin" > "$WORK/cut"
    {
        head -c "$3" "$1/stdout"
        [ "$4" = between ] || printf '\000\002\001\010'
    } > "$WORK/expected"
    "$PROGRAM" < "$WORK/cut" > "$WORK/got" || fail "status $? after $2 bytes of $1/stdin"
    cmp -s "$WORK/got" "$WORK/expected" || fail "another answer to the first $2 bytes of $1/stdin"
    ends=$((ends + 1))
}

# Document 01's case: a frame of 12 bytes, one of 2 and one byte more. The answers to the first two have 12 and 4 bytes.
ends_at crates/weigher 0 0 between
for cut in 1 2 3 4 5 6 7 8 9 10 11; do
    ends_at crates/weigher "$cut" 0 inside
done
ends_at crates/weigher 12 12 between
ends_at crates/weigher 13 12 inside
ends_at crates/weigher 14 16 between
ends_at crates/weigher 15 16 inside

whole=$(($(wc -c < "$stream") - unfinished))
replies=$(($(wc -c < "$answers") - refusal))
ends_at crates/replay "$whole" "$replies" between
for rest in 1 2 3 4 258 514 515; do
    ends_at crates/replay $((whole + rest)) "$replies" inside
done
echo "$ends ends of input answered as they should be"
