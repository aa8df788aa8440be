#!/bin/sh
# Runs the program for each of its exit statuses, over the files of examples/ and over streams that fail, and tells each
# run that prints or ends otherwise: built_program.sh [PROGRAM], that of program.sh if none is named. A run of
# threads has 10 minutes.
unset CDPATH
pciex=$(sh "$(dirname "$0")/program.sh" "$@") || exit
cd "$(dirname "$0")/.." || exit 1
. scripts/left_out.sh
room=$(mktemp -d) || exit 1
trap 'rm -rf "$room"' EXIT
trap 'exit 1' HUP INT TERM
runs=0
failed=0

# part WHAT: says what is run from here on.
part() {
    echo "built program: $1" >&2
}

# wants WHAT STATUS OUTPUT ERRORS: whether the last run, which ended with $status, had this exit status and wrote these
# files.
wants() {
    runs=$((runs + 1))
    if [ $status -eq "$2" ] && cmp -s "$3" "$room/output" && cmp -s "$4" "$room/errors"; then
        return
    fi
    echo "built program: $1: status $status, and not $2, or another text"
    failed=1
}

# of_file INPUT WORD..: runs the program on a file.
of_file() {
    input=$1
    shift
    timeout 60 "$pciex" "$@" < "$input" > "$room/output" 2> "$room/errors"
    status=$?
}

# The examples, with status 0 or 1.
part "examples"
: > "$room/nothing"
cat > "$room/faults" << 'end'
pciex: line 18: Short (3 bytes, and a header has 12, or 16 where Fmt says so)
pciex: line 19: LengthMismatch (4 bytes follow the header where Length 2 asks for 8)
end
of_file examples/packets.txt tlp
wants "tlp on packets.txt" 1 examples/packets.out "$room/faults"
cat > "$room/reasons" << 'end'
pciex: line 52: an odd number of hexadecimal digits (two a byte)
pciex: line 53, column 1: 'nest' where a line is expected (tlp <bytes>, next, reset, trace)
end
of_file examples/endpoint.txt endpoint --trace
wants "endpoint on endpoint.txt" 1 examples/endpoint.out "$room/reasons"
cat > "$room/reasons" << 'end'
pciex: line 123: the last word says whether the check was good: good or failed (with --crc a CRC stands there)
pciex: line 124, column 1: 'reset' where a line is expected (packet <bytes>, dllp <bytes>, next, up, down, refresh, replay, retrained, state, trace)
end
of_file examples/linked.txt endpoint --link --trace
wants "endpoint --link on linked.txt" 1 examples/linked.out "$room/reasons"
grep -v '^4C0000' examples/packets.txt | grep -v ' 01000500 .* 07000000$' > "$room/sound.txt"
grep -v '^fault' examples/packets.out > "$room/faultless"
cat > "$room/reasons" << 'end'
pciex: line 21: 'add 41 07000000 from 0100 tag 05' is refused: Unaligned (an operand's address is a multiple of the operand's size, any other of 4)
pciex: line 22, column 16: the line ends where 'from' is expected
end
of_file examples/words.txt encode
wants "encode on words.txt" 1 examples/words.out "$room/reasons"
grep -v '^#' examples/words.txt | sed '/^$/d' | head -n 12 > "$room/words"
grep -v '^fault' examples/words.out > "$room/bytes"
of_file "$room/words" encode
wants "encode on the packets of words.txt" 0 "$room/bytes" "$room/nothing"
of_file "$room/bytes" decode
wants "decode on what encode prints of them" 0 "$room/words" "$room/nothing"
for name in lost_ack write_passes_read credits stopped_link first_script; do
    of_file examples/$name.txt step
    wants "step on $name.txt" 0 examples/$name.out "$room/nothing"
done
of_file examples/lost_ack.txt chart
wants "chart on lost_ack.txt" 0 examples/lost_ack.svg "$room/nothing"
cat > "$room/reasons" << 'end'
pciex: line 9: 'submit 1 add 40 01000000' is refused: NoCredits NP (the lane that the packet would enter has too few non-posted credits)
end
of_file examples/credits_used_up.txt step
wants "step on credits_used_up.txt" 1 examples/credits_used_up.out "$room/reasons"
echo ok > "$room/ok"
of_file examples/trace.txt check
wants "check on trace.txt" 0 "$room/ok" "$room/nothing"
grep -v '^#' examples/trace.txt > "$room/trace"
of_file examples/trace.txt upgrade
wants "upgrade on trace.txt" 0 "$room/trace" "$room/nothing"
of_file examples/write_passes_read.txt step --trace
wants "step --trace on write_passes_read.txt" 0 "$room/trace" "$room/nothing"
for name in lost_ack write_passes_read credits stopped_link; do
    "$pciex" step --trace < examples/$name.txt > "$room/told"
    of_file "$room/told" check
    wants "check on what step --trace prints of $name.txt" 0 "$room/ok" "$room/nothing"
done

part "searches"
# A history is searched for: what is found is checked, and where there is none, or the search is given up, that is told.
for name in lost_ack write_passes_read credits stopped_link; do
    "$pciex" step --trace < examples/$name.txt | "$pciex" search > "$room/told" 2> /dev/null
    of_file "$room/told" check
    wants "check on what search finds for the trace of $name.txt" 0 "$room/ok" "$room/nothing"
done
for words in "--seed 7 --events 300" "--seed 2 --events 400 --requesters 7 --lose 5 --corrupt 6 --block 128"; do
    # shellcheck disable=SC2086
    "$pciex" generate $words | "$pciex" step --trace | "$pciex" search > "$room/told" 2> /dev/null
    of_file "$room/told" check
    wants "check on what search finds for generate $words" 0 "$room/ok" "$room/nothing"
done
{
    printf 'pciex-log 1\nmemory 0 4096 64\n'
    printf 'sub 1 0 add 40 01000000\nsub 2 0 add 40 01000000\nans 1 0 data 00000000\nans 2 0 data 00000000\n'
} > "$room/begun"
{ cat "$room/begun"; echo end; } > "$room/lost_update"
echo "none 3" > "$room/none"
cat > "$room/reasons" << 'end'
pciex: record 3 is line 6: lines 3 to 6 have no history, lines 3 to 5 have one
pciex: line 6: ans 2 0 data 00000000, against these answers:
pciex: line 5: ans 1 0 data 00000000
pciex: with data 01000000 in line 6, lines 3 to 6 have a history
pciex: 00000000 at 40 was there once, and two AtomicOps that change it were answered it (lines 5 and 6)
end
of_file "$room/lost_update" search
wants "search on a lost update" 1 "$room/none" "$room/reasons"
of_file "$room/lost_update" search --core
wants "search --core on a lost update" 1 "$room/lost_update" "$room/reasons"
echo "fault 7 Section" > "$room/fault"
cat > "$room/reasons" << 'end'
pciex: line 7: the text ends where a record or the end is expected (sub <requester> <number> <operation>, ans <requester> <number> <reply>, end)
end
of_file "$room/begun" search
wants "search on a log without its end" 1 "$room/fault" "$room/reasons"
{ cat "$room/begun"; printf 'ans 2 0 data 00000000\nend\n'; } > "$room/answered_twice"
echo "flaw 6 Again 4" > "$room/flaw"
echo "pciex: record 4 is line 7: a second answer to request 0 of requester 2, the first is on line 6" > "$room/reasons"
of_file "$room/answered_twice" search
wants "search on a log with a second answer" 1 "$room/flaw" "$room/reasons"
cat > "$room/hard" << 'the end'
pciex-log 1
memory 0 4096 64
sub 1 0 add 40 01000000
sub 2 0 add 40 02000000
sub 3 0 swap 44 01000000
sub 4 0 swap 44 02000000
sub 5 0 read 40 2 F F
ans 5 0 data 0200000002000000
sub 5 1 read 40 2 F F
ans 5 1 data 0300000001000000
end
the end
echo "limit 1" > "$room/limit"
of_file "$room/hard" search --limit 1
printf 'pciex: given up at line 8 (open requests: 5); --progress shows how far it is\npciex: lines 3 to 7 have a history\n' > "$room/hinted"
printf 'pciex: given up at line 8 (open requests: 5)\npciex: lines 3 to 7 have a history\n' > "$room/far"
wants "search --limit 1" 3 "$room/limit" "$room/hinted"
{ printf '8 records\n1 of 1 choices\n' && cat "$room/far"; } > "$room/stages"
of_file "$room/hard" search --limit 1 --progress
wants "search --progress" 3 "$room/limit" "$room/stages"
of_file "$room/hard" search --work 1
echo "work 1" > "$room/work"
wants "search --work 1" 3 "$room/work" "$room/nothing"

# A script goes on after a refusal where it is to, and shows its lines where it is to.
sed 's/^submit/collect 1\nsubmit/' examples/first_script.txt > "$room/refused.txt"
printf 'refused 3 Idle\n' | cat - examples/first_script.out > "$room/told"
cat > "$room/reasons" << 'end'
pciex: line 3: 'collect 1' is refused: Idle (there is nothing to send, deliver, replay, retrain or collect)
end
of_file "$room/refused.txt" step --keep-going
wants "step --keep-going on a refusal" 1 "$room/told" "$room/reasons"
printf 'fabric 1 0 4096\nsubmit 1 read 40 1 F 0\n' > "$room/short_script"
echo 'submit 1 read 40 1 F 0 -> sub 1 0' > "$room/told"
of_file "$room/short_script" step --echo
wants "step --echo" 0 "$room/told" "$room/nothing"

part "storms and sweeps"
# A storm is the same each time, each of its events happens, and its history is explained; its picture is one of XML.
reads_xml=
has python3 "whether pictures of storms are XML" && reads_xml=1
for words in "--seed 1 --events 0" "--seed 7 --events 3000 --lose 8" "--seed 18446744073709551615 --events 2000 --requesters 7 --corrupt 5 --block 128"; do
    # shellcheck disable=SC2086
    of_file /dev/null generate $words
    cp "$room/output" "$room/storm"
    # shellcheck disable=SC2086
    of_file /dev/null generate $words
    wants "generate $words, once more" 0 "$room/storm" "$room/nothing"
    "$pciex" step --trace < "$room/storm" > "$room/told"
    of_file "$room/told" check
    wants "check on the storm of $words" 0 "$room/ok" "$room/nothing"
    of_file "$room/told" draw --to 20
    if [ -n "$reads_xml" ]; then
        python3 -c 'import sys, xml.dom.minidom; xml.dom.minidom.parse(sys.argv[1])' "$room/output" || : > "$room/output"
    fi
    [ -s "$room/output" ] && cp "$room/output" "$room/picture" || echo "a picture" > "$room/picture"
    wants "draw on the storm of $words" 0 "$room/picture" "$room/nothing"
done

# These storms stand as text: they were drawn by another program, from the rules of storms alone.
# is_stored FILE WORD..: whether `generate` with these words writes the file of examples/storms.
is_stored() {
    file=$1
    shift
    of_file /dev/null generate "$@" --events 300
    wants "generate $* --events 300" 0 "examples/storms/$file" "$room/nothing"
}
is_stored seed_1.txt --seed 1
is_stored seed_7.txt --seed 7 --requesters 2 --lose 8 --corrupt 9
is_stored greatest_seed.txt --seed 18446744073709551615 --requesters 7 --lose 4 --block 128

# A sweep does storms of many seeds, on any number of threads, up to the greatest seed.
# sweeps NUMBER WORD..: whether `sweep` with these words says ok of that number of seeds.
sweeps() {
    echo "ok $1" > "$room/swept"
    shift
    of_file /dev/null sweep "$@"
    wants "sweep $*" 0 "$room/swept" "$room/nothing"
}
sweeps 300 --seeds 1..300 --events 300 --lose 8 --corrupt 9
sweeps 70 --seeds 31..100 --events 400 --requesters 7 --lose 3 --block 128 --clocked --keep-going --workers 3
sweeps 2 --seeds 18446744073709551614..18446744073709551615 --events 0 --workers 64

# Faults and flaws have status 1.
echo 4C0000 > "$room/short"
echo "fault 1 Short" > "$room/fault"
echo "pciex: line 1: Short (3 bytes, and a header has 12, or 16 where Fmt says so)" > "$room/reasons"
of_file "$room/short" tlp
wants "tlp on three bytes" 1 "$room/fault" "$room/reasons"
of_file "$room/short" decode
wants "decode on three bytes" 1 "$room/fault" "$room/reasons"
echo "fault hex" > "$room/hex"
for digits in "0x4C0000" "4C 00 0"; do
    echo "$digits" > "$room/digits"
    case $digits in
    0*) echo "pciex: line 1, column 1: '0x4C0000' where a word of hexadecimal digits is expected (two a byte, no prefix)" > "$room/reasons" ;;
    *) echo "pciex: line 1: an odd number of hexadecimal digits (two a byte)" > "$room/reasons" ;;
    esac
    for words in tlp decode; do
        of_file "$room/digits" $words
        wants "$words on '$digits'" 1 "$room/hex" "$room/reasons"
    done
done
sed 's/^ans 1 0 2 data 01020304/ans 1 0 2 data 00000000/' examples/trace.txt > "$room/flawed"
echo "flaw 10 Reply 2" > "$room/flaw"
cat > "$room/reasons" << 'end'
pciex: record 2 is line 6: data 00000000 where data 01020304 is expected; entry 1, line 9
end
of_file "$room/flawed" check
wants "check on a trace with a wrong reply" 1 "$room/flaw" "$room/reasons"
of_file "$room/flawed" draw
[ -s "$room/output" ] && cp "$room/output" "$room/picture" || echo "a picture" > "$room/picture"
wants "draw on a trace with a wrong reply" 1 "$room/picture" "$room/reasons"

# Wrong words have status 2 and write nothing on standard output; a value out of its range is told in two lines.
echo "pciex: options" > "$room/options"
# refuses TEXT WORD..: whether the words are refused, with this told of an option.
refuses() {
    printf 'pciex: options\npciex: %s\n' "$1" > "$room/told"
    shift
    of_file /dev/null "$@"
    wants "$*" 2 "$room/nothing" "$room/told"
}
refuses "invalid value '100' for --size: expected 128 to 1048576, a multiple of 128" tlp --size 100 --block 1
refuses "invalid value '1' for --block: expected 64 or 128" tlp --block 1
refuses "invalid value '5000' for --size: expected a power of two from 4096 to 1048576" endpoint --size 5000 --id 1
refuses "invalid value '12347C1E' for --id: expected four hexadecimal digits, ':' and four more" endpoint --id 12347C1E
refuses "--crc goes with --link" endpoint --crc
refuses "invalid value '1,8,1' for --credits: expected with --link PH,PD,NPH,NPD: 1 to 127, 8 to 2047, 1 to 127 and 2 to 2047" endpoint --link --credits 1,8,1
refuses "invalid value '0' for --limit: expected 1 to 1000000000" search --limit 0
refuses "invalid value '0' for --work: expected 1 to 1000000000000" search --work 0
refuses "invalid value '2' for --to: expected 0 to 18446744073709551615, at least --from" draw --from 3 --to 2
refuses "invalid value 'x' for --seed: expected 0 to 18446744073709551615" generate --seed x --events 1
refuses "invalid value '5..3' for --seeds: expected FIRST..LAST, each 0 to 18446744073709551615, LAST at least FIRST" sweep --seeds 5..3 --events 1 --workers 0
refuses "invalid value '8' for --requesters: expected 1 to 7" run --requesters 8 --each 1
of_file examples/packets.txt tlp "$(printf 'a\377')"
{ cat "$room/options"; printf '%s\n' "pciex: 'a\\xFF' is not UTF-8"; } > "$room/told"
wants "a word that is no text" 2 "$room/nothing" "$room/told"
for words in "" "tpl" "tlp 0 1 --size 128" "step --trace=no" "check --trace" "help tpl"; do
    # shellcheck disable=SC2086
    of_file examples/packets.txt $words
    [ -s "$room/errors" ] && cp "$room/errors" "$room/told" || echo "a text" > "$room/told"
    wants "the words '$words'" 2 "$room/nothing" "$room/told"
done

# A usage line says `pciex`, whatever the file of the program is called.
ln -s "$pciex" "$room/other_name"
timeout 60 "$room/other_name" step -h < /dev/null 2> "$room/errors" | grep '^Usage' > "$room/output"
status=$?
echo "Usage: pciex step [OPTIONS]" > "$room/told"
wants "step -h under another name" 0 "$room/told" "$room/nothing"

part "threads"
# Runs of worker threads, with status 0 where each addition was counted once, and 3 where a part had used up its turns.
# counts NUMBER WORD..: whether `run` with these words tells that number of answers.
counts() {
    printf 'answered %s\nhistory %s\nword %s\ncheck ok\n' "$1" "$1" "$1" > "$room/counted"
    shift
    timeout 600 "$pciex" run "$@" < /dev/null > "$room/output" 2> "$room/errors"
    status=$?
    wants "run $*" 0 "$room/counted" "$room/nothing"
}
counts 0 --requesters 1 --each 0
counts 2000 --requesters 2 --each 1000 --lose 3
counts 4200 --requesters 7 --each 600 --lose 2 --corrupt 3 --turns 1000000000
counts 700 --requesters 7 --each 100 --workers 1
counts 700 --requesters 7 --each 100 --lose 3 --workers 34
echo "halt Turns" > "$room/halt"
for words in "--requesters 1 --each 1 --lose 1" "--requesters 2 --each 1 --corrupt 1"; do
    # shellcheck disable=SC2086
    of_file /dev/null run $words --turns 1000
    wants "run $words --turns 1000" 3 "$room/halt" "$room/nothing"
done

# With --progress the error stream tells how far the run is, and nothing else. The first line comes after two seconds.
printf 'answered %s\nhistory %s\nword %s\ncheck ok\n' 140000 140000 140000 > "$room/counted"
begun=$(date +%s)
timeout 600 "$pciex" run --requesters 7 --each 20000 --progress < /dev/null > "$room/output" 2> "$room/errors"
status=$?
ended=$(date +%s)
grep '^[0-9]* of 140000$' "$room/errors" > "$room/told"
[ -s "$room/told" ] || [ $((ended - begun)) -lt 4 ] || echo "a line" > "$room/told"
wants "run --progress" 0 "$room/counted" "$room/told"

# A text that was asked for has status 0, is not on the error stream, and has lines of at most 100 characters.
for words in --version --help -h help "help step" "tlp --help" "endpoint --help" "decode --help" "encode --help" "check --help" "search --help" "draw --help" "chart --help" "upgrade --help" \
    "step --help" "generate --help" "sweep --help" "run --help" "tlp -h" "step -h" "generate -h" "sweep -h" "run -h"; do
    # shellcheck disable=SC2086
    of_file examples/packets.txt $words
    [ -s "$room/output" ] && awk 'length > 100 { exit 1 }' "$room/output" && cp "$room/output" "$room/told" || echo "a text" > "$room/told"
    wants "the words '$words'" 0 "$room/told" "$room/nothing"
done

part "streams that fail"
# A reader and a writer that fail have status 1.
echo "pciex: read: Is a directory (os error 21)" > "$room/read"
echo "pciex: write: No space left on device (os error 28)" > "$room/write"
for words in tlp endpoint "endpoint --trace" "endpoint --link" decode encode check search draw chart upgrade step "step --trace" "step --keep-going --echo"; do
    # shellcheck disable=SC2086
    of_file / $words
    wants "$words, where standard input is a folder" 1 "$room/nothing" "$room/read"
    # shellcheck disable=SC2086
    of_file /dev/null $words /
    wants "$words, where the file is a folder" 1 "$room/nothing" "$room/read"
done

# A stream that is closed is an error where it is used, and not an empty file.
echo "pciex: read: Bad file descriptor (os error 9)" > "$room/no_read"
echo "pciex: write: Bad file descriptor (os error 9)" > "$room/no_write"
: > "$room/output"
"$pciex" check examples/trace.txt < /dev/null >&- 2> "$room/errors"
status=$?
wants "check, where standard output is closed" 1 "$room/nothing" "$room/no_write"
"$pciex" --help < /dev/null >&- 2> "$room/errors"
status=$?
wants "--help, where standard output is closed" 1 "$room/nothing" "$room/no_write"
"$pciex" check <&- > "$room/output" 2> "$room/errors"
status=$?
wants "check, where standard input is closed" 1 "$room/nothing" "$room/no_read"
"$pciex" generate --seed 1 --events 9 < /dev/null > "$room/told" 2> "$room/errors"
"$pciex" generate --seed 1 --events 9 < /dev/null > "$room/output" 2>&-
status=$?
wants "generate, where standard error is closed" 0 "$room/told" "$room/nothing"
: > "$room/output"
: > "$room/errors"
"$pciex" check examples/trace.txt <&- >&- 2>&-
status=$?
wants "check, where all three are closed" 1 "$room/nothing" "$room/nothing"

# The file that a word names is read in place of standard input, wherever it stands. One that isn't there is told.
for words in "--clocked examples/trace.txt" "examples/trace.txt --clocked" "-- examples/trace.txt"; do
    # shellcheck disable=SC2086
    of_file / check $words
    wants "check $words" 0 "$room/ok" "$room/nothing"
done
of_file / draw --from 0 examples/trace.txt --to 1
cp "$room/output" "$room/picture"
of_file examples/trace.txt draw --from 0 --to 1
wants "draw of a file between options" 0 "$room/picture" "$room/nothing"
echo "pciex: 'absent': No such file or directory (os error 2)" > "$room/told"
of_file / check absent
wants "check of a file that isn't there" 1 "$room/nothing" "$room/told"
while read -r text subcommand does file; do
    of_file / "$file"
    tail -n 1 "$room/errors" > "$room/last"
    echo "pciex: $file is a $text, which 'pciex $subcommand $file' $does" > "$room/told"
    cp "$room/last" "$room/errors"
    wants "a $text without a subcommand" 2 "$room/nothing" "$room/told"
done << end
script step runs examples/lost_ack.txt
trace check judges examples/trace.txt
log search judges examples/qemu/guest.txt
end

# Of an output that nobody reads any more nothing is told.
{ "$pciex" generate --seed 1 --events 100000 < /dev/null 2> "$room/errors"; echo $? > "$room/status"; } | head -n 1 > "$room/output"
status=$(cat "$room/status")
cp "$room/output" "$room/told"
wants "generate, where nobody reads on" 1 "$room/told" "$room/nothing"

# A text of another kind is told, and so is why a request isn't served.
echo "fault 1 Head" > "$room/head"
echo "pciex: line 1, column 1: 'fabric' where the head is expected (pciex-trace 1, pciex-trace 2; step --trace prints one); so begins a script, which 'pciex step' reads" > "$room/told"
printf 'fabric 1 0 4096\n' > "$room/script"
of_file "$room/script" check
wants "check of a script" 1 "$room/head" "$room/told"
printf 'fabric 1 0 4096\nsubmit 1 read 40 32 F F\nsettle\nsubmit 1 read 2000 1 F 0\nsettle\n' > "$room/script"
printf 'pciex: line 3: ca (the request crosses a block)\npciex: line 5: ur (the request isn'"'"'t within the memory)\n' > "$room/told"
of_file "$room/script" step
cp "$room/output" "$room/answers"
wants "step of requests that aren't served" 0 "$room/answers" "$room/told"
of_file examples/credits_used_up.txt chart
cp "$room/output" "$room/picture"
echo "pciex: line 9: 'submit 1 add 40 01000000' is refused: NoCredits NP (the lane that the packet would enter has too few non-posted credits)" > "$room/told"
wants "chart of a script with a refusal" 1 "$room/picture" "$room/told"

# is_full INPUT WORD..: whether a run on the file tells that its output is full, and nothing else.
is_full() {
    input=$1
    shift
    : > "$room/output"
    timeout 10 "$pciex" "$@" < "$input" > /dev/full 2> "$room/errors"
    status=$?
    wants "$*, where standard output is full" 1 "$room/nothing" "$room/write"
}
if [ -c /dev/full ]; then
    echo 4C000001 01000500 00000040 07000000 > "$room/packet"
    echo reset > "$room/reset"
    echo up > "$room/up"
    printf 'pciex-log 1\nmemory 0 4096 64\nend\n' > "$room/log"
    is_full "$room/packet" tlp
    is_full "$room/reset" endpoint
    is_full "$room/up" endpoint --link
    is_full "$room/packet" decode
    is_full "$room/words" encode
    is_full examples/trace.txt check
    is_full examples/trace.txt upgrade
    is_full examples/trace.txt draw --from 0 --to=7
    is_full "$room/log" search
    is_full examples/first_script.txt step
    is_full examples/first_script.txt step --echo --keep-going
    is_full examples/first_script.txt step --trace
    is_full examples/first_script.txt chart --lane up1 --all --levels
    is_full /dev/null --help
    is_full /dev/null generate --seed 1 --events 0
    is_full /dev/null generate --seed 1 --events 9
    is_full /dev/null run --requesters 1 --each 1
    is_full /dev/null sweep --seeds 1..2 --events 9
    cat "$room/faults" "$room/write" > "$room/told"
    timeout 10 "$pciex" tlp < examples/packets.txt > /dev/full 2> "$room/errors"
    status=$?
    wants "tlp with faults, where standard output is full" 1 "$room/nothing" "$room/told"
fi

# Each answer is written before more is read: this user waits for it, and the input has not ended.
mkfifo "$room/in" "$room/out"
timeout 10 "$pciex" tlp < "$room/in" > "$room/out" 2> /dev/null &
exec 3> "$room/in" 4< "$room/out"
for _ in 1 2 3; do
    echo 4C0000 >&3
    timeout 5 head -n 1 <&4 > "$room/output"
    status=$?
    : > "$room/errors"
    wants "an answer before the next line" 0 "$room/fault" "$room/nothing"
done
exec 3>&- 4<&-
wait

echo "built program: $runs runs, $([ $failed -eq 0 ] && echo "all as they should be" || echo "not all as they should be")" || failed=1
exit $failed
