#!/bin/sh
# Runs the program on inputs that are too large for a test's table: a memory of 1 MiB with a trace of 200,001
# records, a fabric of 1 MiB, a lane with 2047 packets that no Ack has told of, a requester with 256 open tags, logs
# that are long or hard, or have a line of 100 MB or 80 MB of comments, a chart of a long script, and requests whose history
# doesn't fit in the memory that there is. It tells each run that ends otherwise than it should:
# large_inputs.sh [PROGRAM], that of program.sh if none is named. With a folder in its place the inputs are written there
# and nothing is run.
unset CDPATH
folder=
if [ -d "${1:-}" ]; then
    folder=$(cd "$1" && pwd) || exit 1
else
    pciex=$(sh "$(dirname "$0")/program.sh" "$@") || exit
fi
cd "$(dirname "$0")/.." || exit 1
room=$(mktemp -d) || exit 1
trap 'rm -rf "$room"' EXIT
trap 'exit 1' HUP INT TERM
runs=0
failed=0

# trace WRONG: 100,000 additions of 1 to the last 1,000 words of 1 MiB, each answered at once, after a write. The record
# at place 100,000 has a wrong reply if WRONG is 1.
trace() {
    awk -v wrong="$1" '
        function word(n) { return sprintf("%02X%02X0000", n % 256, int(n / 256)) }
        function add(k) { return "add " sprintf("%X", 1048576 - 4 * (k % 1000 + 1)) " 01000000" }
        BEGIN {
            print "pciex-trace 2"
            print "memory 0 1048576 64"
            print "sub 1 0 0 write 0 F 0 01020304"
            for (k = 0; k < 100000; k++) {
                print "sub 1 " k + 1 " " k + 1 " " add(k)
                print "ans 1 " k + 1 " " k + 2 " data " word(int(k / 1000) + (wrong && k == 49999))
            }
            print "history"
            print "ent 1 0 write 0 F 0 01020304"
            for (k = 0; k < 100000; k++) print "ent 1 " k + 1 " " add(k)
            print "end"
        }'
}

# Requests of requester 1 go through the lanes and act, and each credit comes back.
packets='
    function go(lane, take) {
        print "transmit " lane
        print "deliver " lane " good"
        print take
    }
    function told(lane, kind) {
        print "dllp " lane " " kind
        print "deliver-dllp " lane " good"
    }
    function request(operation, class) {
        print "submit 1 " operation
        go("up1", "forward up1 0")
        go("in", "serve 0")
        told("up1", class)
        told("in", class)
        told("in", "ack")
    }'

# 2047 writes, of which no Ack tells; another is refused until an Ack comes.
window() {
    awk "$packets"'
        BEGIN {
            print "fabric 1 0 4096"
            for (k = 0; k < 2047; k++) request("write 40 F 0 01020304", "p")
            print "submit 1 write 40 F 0 01020304"
            told("up1", "ack")
            print "submit 1 write 40 F 0 01020304"
        }'
}

# 256 reads, whose completions stand at the requester; another is refused, a write goes, and a read after an answer.
tags() {
    awk "$packets"'
        BEGIN {
            print "fabric 1 0 4096"
            for (k = 0; k < 256; k++) {
                request("read 40 1 F 0", "np")
                go("out", "forward out 0")
                told("out", "cpl")
            }
            print "submit 1 read 40 1 F 0"
            print "submit 1 write 40 F 0 01020304"
            go("down1", "collect 1")
            print "submit 1 read 40 1 F 0"
        }'
}

# All operations on 16 words, 100,000 records: a log that needs more than 20,000 choices, if what later requests need is
# not looked up.
log() {
    awk -v plan=mixed -v requests=50000 -f bench/log.awk
}

# Locks, and of 100,000 records one wrong answer near the end.
wrong() {
    awk -v plan=locks -v requests=50000 -v wrong=49500 -f bench/log.awk
}

# 1,000,000 times a write and a read of no byte that is answered behind it: no choice is needed.
flushes() {
    awk 'BEGIN {
        print "pciex-log 1"
        print "memory 0 4096 64"
        for (k = 0; k < 1000000; k++) {
            print "sub 1 " 2 * k " write 40 F 0 " sprintf("%08X", k)
            print "sub 1 " 2 * k + 1 " read 40 1 0 0"
            print "ans 1 " 2 * k + 1 " data 00000000"
        }
        print "end"
    }'
}

# A counter beside 100,000 posted writes to 16 words that nobody reads.
writes() {
    awk 'BEGIN {
        print "pciex-log 1"
        print "memory 0 4096 64"
        for (k = 0; k < 100000; k++) {
            print "sub 1 " k " write " sprintf("%X", 64 + 4 * (k % 16)) " F 0 " sprintf("%08X", k)
            print "sub 2 " k " add 0 01000000"
            print "ans 2 " k " data " sprintf("%02X%02X%02X00", k % 256, int(k / 256) % 256, int(k / 65536))
        }
        print "end"
    }'
}

# Additions and Swaps that weren't answered on the first and the last words of 1 MiB, and a read that no order of them gives.
far() {
    awk 'BEGIN {
        print "pciex-log 1"
        print "memory 0 1048576 64"
        for (k = 1; k < 7; k++) {
            print "sub " k " 0 add 0 0" k "000000"
            print "sub " k " 1 add FFFFC 0" k "000000"
            print "sub " k " 2 swap 0 1" k "000000"
            print "sub " k " 3 swap FFFFC 1" k "000000"
        }
        for (k = 1; k < 4; k++) {
            print "sub 7 " 2 * k - 2 " read 0 1 F 0"
            print "ans 7 " 2 * k - 2 " data 1" 6 + k "000000"
            print "sub 7 " 2 * k - 1 " read FFFFC 1 F 0"
            print "ans 7 " 2 * k - 1 " data 1" 6 + k "000000"
        }
        print "sub 7 6 read 0 1 F 0"
        print "ans 7 6 data 01000000"
        print "end"
    }'
}

# pairs SWAPS PAIRS: so many Swaps of one word that weren't answered, and so many times a write and an answered read behind
# it. Each read is a choice, at which each Swap may act; with at most 256 of them it is looked, too, whether a Swap and those
# that act after it are over junk.
pairs() {
    awk -v swaps="$1" -v pairs="$2" 'BEGIN {
        print "pciex-log 1"
        print "memory 0 4096 64"
        for (k = 0; k < swaps; k++) print "sub " 2 + k % 6 " " int(k / 6) " swap 40 " sprintf("%08X", k + 1)
        for (k = 0; k < pairs; k++) {
            print "sub 1 " 2 * k " write 40 F 0 " sprintf("FF%06X", k)
            print "sub 1 " 2 * k + 1 " read 40 1 F 0"
            print "ans 1 " 2 * k + 1 " data " sprintf("FF%06X", k)
        }
        print "end"
    }'
}

# An AtomicOp that was lost at the start, and 10,000 times a write and an answered read of some bytes: all requests behind the
# AtomicOp are near each other, those that have acted, too.
lost_at_start() {
    awk 'BEGIN {
        print "pciex-log 1"
        print "memory 0 4096 64"
        print "sub 2 0 add 40 00000100"
        for (k = 0; k < 10000; k++) {
            print "sub 1 " 2 * k " write 40 F 0 " sprintf("%04X0007", k)
            print "sub 1 " 2 * k + 1 " read 40 1 3 0"
            print "ans 1 " 2 * k + 1 " data " sprintf("%04X0000", k)
        }
        print "end"
    }'
}

# Nine additions that weren't answered, and two reads: the second saw less than the first. No order of them gives that.
sums() {
    awk 'BEGIN {
        print "pciex-log 1"
        print "memory 0 4096 64"
        for (k = 1; k < 10; k++) {
            print "sub " (k - 1) % 6 + 1 " " int((k - 1) / 6) " add 40 " sprintf("%02X%02X0000", 2 ^ k % 256, 2 ^ k / 256)
        }
        print "sub 7 0 read 40 1 F 0"
        print "ans 7 0 data 0E000000"
        print "sub 7 1 read 40 1 F 0"
        print "ans 7 1 data 01000000"
        print "end"
    }'
}

# A fabric of 1 MiB: requests at its first and last word, and one behind it.
mebibyte() {
    echo fabric 7 0 1048576
    echo submit 7 write FFFFC F 0 01020304
    echo settle
    echo submit 1 add FFFFC 01000000
    echo submit 2 read 0 1 F 0
    echo settle
    echo submit 7 read FFFFC 1 F 0
    echo submit 3 read 100000 1 F 0
    echo settle
}

# 168,000 writes that act. A history of them, of 176 bytes an entry, would take 28 MiB.
served() {
    awk 'BEGIN {
        print "fabric 7 0 4096"
        for (k = 0; k < 3000; k++) {
            for (i = 1; i <= 7; i++) for (j = 0; j < 8; j++) print "submit " i " write 40 F 0 01020304"
            print "settle"
        }
    }'
}

trace 0 > "$room/explained_trace"
trace 1 > "$room/flawed_trace"
window > "$room/window_script"
tags > "$room/tags_script"
log > "$room/mixed_log"
wrong > "$room/wrong_log"
flushes > "$room/flushes_log"
writes > "$room/writes_log"
far > "$room/far_log"
pairs 2000 4000 > "$room/lost_answers_log"
pairs 250 2000 > "$room/junk_log"
lost_at_start > "$room/lost_at_start_log"
sums > "$room/sums_log"
mebibyte > "$room/mebibyte_script"
served > "$room/served_script"
if [ -n "$folder" ]; then
    cp "$room/explained_trace" "$room/flawed_trace" "$room/window_script" "$room/tags_script" \
        "$room/mixed_log" "$room/wrong_log" "$room/flushes_log" "$room/writes_log" "$room/far_log" \
        "$room/lost_answers_log" "$room/junk_log" "$room/lost_at_start_log" "$room/sums_log" "$room/mebibyte_script" \
        "$room/served_script" "$folder"
    exit
fi

# A line of 100 MB, and 80 MB of comments before a read: what is skipped, or too long, isn't kept.
{
    echo "pciex-log 1"
    head -c 100000000 /dev/zero | tr '\0' 0
} > "$room/long_line_log"
{
    echo "pciex-log 1"
    awk 'BEGIN { for (k = 0; k < 1000000; k++) printf "# %077d\n", k }'
    printf '%s\n' "memory 0 4096 64" "sub 1 0 read 40 1 F 0" "ans 1 0 data 00000000" end
} > "$room/comments_log"

# within SECONDS MEGABYTES: bounds the runs that follow, in seconds of a processor. A program that doesn't start in so little
# room, as one with checks at run time, has all memory that there is.
within() {
    seconds=$1
    kilobytes=$(($2 * 1024))
    # shellcheck disable=SC3045 # dash has ulimit -v
    (ulimit -v "$kilobytes" && "$pciex" --version) > "$room/output" 2>&1 || kilobytes=unlimited
}
seconds=600
kilobytes=unlimited

# ends WHAT STATUS INPUT WORD..: whether a run of the program on the input has this exit status and its output ends with
# the lines of $room/told.
ends() {
    what=$1 want=$2 input=$3
    shift 3
    # shellcheck disable=SC3045
    (ulimit -v "$kilobytes" && ulimit -t "$seconds" && exec timeout 3600 "$pciex" "$@") < "$input" > "$room/output" 2> "$room/errors"
    status=$?
    runs=$((runs + 1))
    tail -n "$(wc -l < "$room/told")" "$room/output" > "$room/end"
    if [ $status -ne "$want" ] || ! cmp -s "$room/told" "$room/end"; then
        echo "large inputs: $what: status $status, and not $want, or another end"
        failed=1
    fi
}

# draws WHAT INPUT WORD..: whether a run of the program on the input has status 0, no errors, and a whole picture.
draws() {
    what=$1 input=$2
    shift 2
    timeout 600 "$pciex" "$@" < "$input" > "$room/output" 2> "$room/errors"
    status=$?
    runs=$((runs + 1))
    if [ $status -ne 0 ] || [ -s "$room/errors" ] || [ "$(tail -c 7 "$room/output")" != "</svg>" ]; then
        echo "large inputs: $what: status $status, errors, or no whole picture"
        failed=1
    fi
}

echo ok > "$room/told"
ends "check on 1 MiB and 200,001 records" 0 "$room/explained_trace" check
echo "flaw 10 Reply 100000" > "$room/told"
ends "check on a wrong reply at place 100,000" 1 "$room/flawed_trace" check
cat > "$room/told" << 'end'
took 000007FE
refused 26613 WindowFull
000007FE
took 000007FE
sub 1 2047
end
ends "step with 2047 packets that no Ack told of" 1 "$room/window_script" step --keep-going
cat > "$room/told" << 'end'
refused 4610 TagsUsed
sub 1 256
sent 000
accept
ans 1 0 data 00000000
sub 1 257
end
ends "step with 256 open tags" 1 "$room/tags_script" step --keep-going
cat > "$room/told" << 'end'
ans 1 0 data 01020304
ans 2 0 data 00000000
settled
sub 7 1
sub 3 0
ans 3 0 ur
ans 7 1 data 02020304
settled
end
ends "step on a fabric of 1 MiB" 0 "$room/mebibyte_script" step
echo "none 12" > "$room/told"
ends "search that takes more than 1,000 choices" 1 "$room/sums_log" search --limit 100000
echo end > "$room/told"
ends "search on 100,000 records" 0 "$room/mixed_log" search --limit 10000
ends "search in pieces of 4 bytes on 100,000 records" 0 "$room/mixed_log" search --granularity 4 --limit 10000
ends "search on 1,000,000 writes and flushes" 0 "$room/flushes_log" search --limit 1
within 60 400
ends "search on 100,000 writes that nobody reads" 0 "$room/writes_log" search --limit 1
within 60 100
ends "search beside 2,000 lost answers" 0 "$room/lost_answers_log" search --limit 10000
ends "search beside 250 lost answers" 0 "$room/junk_log" search --limit 2000
ends "search behind an AtomicOp that was lost at the start" 0 "$room/lost_at_start_log" search --limit 10000
echo "limit 1000" > "$room/told"
ends "search on the first and the last word of 1 MiB" 3 "$room/far_log" search --limit 1000
within 60 16
echo settled > "$room/told"
ends "step in 16 MiB on 168,000 requests that act" 0 "$room/served_script" step
echo "forward out 0" > "$room/told"
ends "generate in 16 MiB with 2,000,000 events" 0 /dev/null generate --seed 1 --events 2000000
echo end > "$room/told"
ends "search in 16 MiB behind 80 MB of comments" 0 "$room/comments_log" search
echo "fault 2 Line" > "$room/told"
ends "search in 16 MiB on a line of 100 MB" 1 "$room/long_line_log" search
seconds=600
kilobytes=unlimited
echo "none 96667" > "$room/told"
ends "search on 100,000 records with a wrong answer" 1 "$room/wrong_log" search
ends "search in pieces of 4 bytes on 100,000 records with a wrong answer" 1 "$room/wrong_log" search --granularity 4
awk -v rounds=99 -f bench/script.awk > "$room/long_script"
draws "chart on 100,486 lines" "$room/long_script" chart
echo "large inputs: $runs runs, $([ $failed -eq 0 ] && echo "all as they should be" || echo "not all as they should be")" || failed=1
exit $failed
