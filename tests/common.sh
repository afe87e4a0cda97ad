# What the trials of faults/ share. faults.sh sets PROGRAM, FORM (short or full) and WORK, an empty folder. A trial prints one line on
# what it saw; its status is 0, 77 where it was skipped, or another where it failed.
set -eu

stream=crates/replay/stdin
answers=crates/replay/stdout

# The recorded stream ends with 68 bytes of reports and of frames between them, which have 284 bytes of answers, and then with 515 bytes
# of an unfinished frame, which refusal 8, of 4 bytes, answers.
reports=68
reported=284
unfinished=515
refusal=4

fail() {
    echo "$*"
    exit 1
}

# The recorded stream up to its reports, so that it can be repeated, and the answers to it: the numbers of a report grow with every frame
# before it, so that it would be answered otherwise each time. And the stream's unfinished end, which can follow any number of repetitions,
# and the refusal of it.
make_whole() {
    head -c "-$((reports + unfinished))" "$stream" > "$WORK/frames"
    head -c "-$((reported + refusal))" "$answers" > "$WORK/replies"
    tail -c "$unfinished" "$stream" > "$WORK/end"
    tail -c "$refusal" "$answers" > "$WORK/end-reply"
}

repeat() {
    left=$1
    while [ "$left" -gt 0 ]; do
        cat "$2"
        left=$((left - 1))
    done
}

# How many of the answers in a file have code 0, and how many are refusals.
count_answers() {
    od -An -v -tu1 -w1 "$1" | awk '
        ++at == 1 { size = 256 * $1 }
        at == 2 { size += 2 + $1 }
        at == 4 { if ($1 == 0) accepted++; else refused++ }
        at > 2 && at == size { at = 0 }
        END { print accepted + 0, refused + 0 }'
}

report() {
    printf '\000\002\001\004'
}

# The answer to a report behind so many frames that were accepted, and so many that were refused.
report_reply() {
    printf '\000\032\001\000'
    for value in "$1" "$2" $(($1 + $2)); do
        for place in 56 48 40 32 24 16 8 0; do
            printf "\\$(printf %03o $((value >> place & 255)))"
        done
    done
}

# Starts the program with the FIFOs in and out as its input and output. The words stand before it in the command.
start() {
    mkfifo "$WORK/in" "$WORK/out"
    "$@" "$PROGRAM" < "$WORK/in" > "$WORK/out" 2> "$WORK/err" &
    pid=$!
}

# What /proc tells of a process: its state (nothing where it is gone), its CPU time in clock ticks, its peak resident size in kB. The
# name in front of the state is in brackets and may hold spaces.
read_stat() {
    stat=
    { read -r stat < "/proc/$1/stat"; } 2> /dev/null || :
    stat=${stat##*) }
}

state() {
    read_stat "$1"
    echo "${stat%% *}"
}

ticks() {
    read_stat "$1"
    set -- $stat
    echo $((${12:-0} + ${13:-0}))
}

peak() {
    while read -r name size unit; do
        [ "$name" != VmHWM: ] || echo "$size"
    done < "/proc/$1/status"
}

# Repeats a test until it holds, for so many seconds at most.
within() {
    deadline=$(($(date +%s) + $1 + 1))
    shift
    until "$@"; do
        [ "$(date +%s)" -lt "$deadline" ] || return 1
        sleep 0.05
    done
}

# A process that the shell has not yet waited for stays as a zombie.
has_ended() {
    case $(state "$1") in
        '' | Z) ;;
        *) return 1 ;;
    esac
}

# Asleep at each look, and without CPU time for 0.3 s.
rests() {
    before=$(ticks "$1")
    for look in 1 2 3; do
        [ "$(state "$1")" = S ] || return 1
        sleep 0.1
    done
    [ "$(ticks "$1")" -eq "$before" ]
}

# Waits, for a process that is being fed and whose output 4 nobody reads, until its writes have to wait: it has answered, and rests
# although there is more input. The first byte goes to standard output.
fills_output() {
    dd bs=1 count=1 <&4 2> /dev/null
    within 15 rests "$1"
}

# The clock ticks, of 10 ms, that a process uses in so many seconds.
used_in() {
    before=$(ticks "$1")
    sleep "$2"
    echo $(($(ticks "$1") - before))
}

# Less than a tick of CPU time may make a tick full.
idle_ticks=1

# Ends the trial unless a peak resident size is under 2 MB.
is_small() {
    [ "$1" -lt 2048 ] || fail "the peak resident size is $1 kB"
}

need_socat() {
    if ! command -v socat > /dev/null; then
        echo "socat is not installed"
        exit 77
    fi
}

# Starts the program on the first connection to a loopback port, as its input and output. The word has further options of socat for the
# socket. Without a fork among them socat itself becomes the program, so that pid is the program's.
listen() {
    ln -sf "$PROGRAM" "$WORK/program"
    (cd "$WORK" && exec socat -d -d "TCP-LISTEN:0,bind=127.0.0.1${1:+,$1}" EXEC:./program,nofork 2> err) &
    pid=$!
    within 5 grep -qs 'listening on' "$WORK/err" || fail "socat does not listen: $(tail -n 1 "$WORK/err")"
    port=$(sed -n 's/.* listening on .*:\([0-9]*\)$/\1/p' "$WORK/err")
}

# Bytes of each socket buffer, few so that writes soon have to wait.
buffer=65536

# Listens and connects a peer (peer.sh), whose process is client. 3 writes what it sends, 4 reads what came to it.
meet() {
    rm -f "$WORK/in" "$WORK/out" "$WORK/err"
    mkfifo "$WORK/in" "$WORK/out"
    listen "sndbuf=$buffer${1:+,$1}"
    ln -sf "$PWD/tests/peer.sh" "$WORK/peer"
    (cd "$WORK" && exec socat "TCP:127.0.0.1:$port,rcvbuf=$buffer" EXEC:./peer,nofork 2> peer-err) &
    client=$!
    exec 3> "$WORK/in" 4< "$WORK/out"
}

# Kills the peer, which closes the connection.
part() {
    kill -s KILL "$(cat "$WORK/sender")" 2> /dev/null || :
    kill -s KILL "$client"
    wait "$client" 2> /dev/null || :
}
