#!/bin/sh
# Runs built programs with each of their allocations refused in turn, and tells each run that does not end as it should:
# refused_allocations.sh [PROGRAM], that of program.sh if none is named. `rt ci` has to have built them: it refuses no
# allocation itself. If a program is named, that of tests isn't run. Without a C compiler nothing is run, and
# that is told.
unset CDPATH
pciex=$(sh "$(dirname "$0")/program.sh" "$@") || exit
named=${1:-}
cd "$(dirname "$0")/.." || exit 1
if ! command -v cc > /dev/null; then
    echo "left out: refused allocations, since there is no cc"
    exit 0
fi
room=$(mktemp -d) || exit 1
trap 'rm -rf "$room"' EXIT
trap 'exit 1' HUP INT TERM
library=$room/refuse_allocation.so
cc -O1 -Wall -Wextra -Werror -shared -fPIC -o "$library" scripts/refuse_allocation.c -ldl || exit 1
runs=0
failed=0

# Whether the run ended as it does where nothing is refused: so it may where room was asked for ahead of its use, and
# asked for again.
is_as_ever() {
    [ "$1" -eq "$whole_status" ] && cmp -s "$room/whole" "$room/output" && cmp -s "$room/whole_errors" "$room/errors"
}

# What a run that was refused an allocation has to be: status 1, `pciex: memory` on the error stream after a beginning of
# the reasons, and a beginning of the output, of those that are written where nothing is refused; or as it is there.
stops_for_memory() {
    reasons=$(($(wc -l < "$room/errors") - 1))
    if [ "$1" -eq 1 ] && [ "$(tail -n 1 "$room/errors")" = "pciex: memory" ] &&
        [ "$(head -n "$reasons" "$room/errors")" = "$(head -n "$reasons" "$room/whole_errors")" ]; then
        head -c "$(wc -c < "$room/output")" "$room/whole" | cmp -s - "$room/output"
    else
        is_as_ever "$1"
    fi
}

# What a run of worker threads that was refused an allocation has to be: status 1, and either `halt Memory` alone on
# standard output or `pciex: memory` alone on the error stream; or as it is where nothing is refused. Rust's own library
# aborts where a thread's handle has no memory, and asks no allocator of the program's: so may one that is named.
halts_for_memory() {
    if [ "$1" -eq 134 ] && [ -n "$named" ] && [ ! -s "$room/output" ]; then
        head -n 1 "$room/errors" | grep -q '^memory allocation of [0-9]* bytes failed'
    elif [ "$1" -eq 1 ]; then
        [ "$(cat "$room/output" "$room/errors")" = "halt Memory" ] || [ "$(cat "$room/output" "$room/errors")" = "pciex: memory" ]
    else
        is_as_ever "$1"
    fi
}

# each_refused JUDGE INPUT PROGRAM WORD.. runs the program on the file INPUT, with the first allocation refused, then with
# the second, until nothing is left to refuse. JUDGE is a function: it is given the exit status, finds the output and the
# error stream in $room/output and $room/errors, those of the whole run in $room/whole and $room/whole_errors with its
# status in $whole_status, and says whether all is well. A run has ten seconds.
each_refused() {
    judge=$1
    input=$2
    shift 2
    timeout 10 "$@" < "$input" > "$room/whole" 2> "$room/whole_errors"
    whole_status=$?
    stopped=0
    number=0
    while :; do
        number=$((number + 1))
        rm -f "$room/mark"
        timeout 10 env LD_PRELOAD="$library" REFUSED_ALLOCATION=$number REFUSED_MARK="$room/mark" "$@" \
            < "$input" > "$room/output" 2> "$room/errors"
        status=$?
        [ -e "$room/mark" ] || break
        runs=$((runs + 1))
        if ! "$judge" $status; then
            echo "refused allocations: number $number of '$*' on $input: status $status, $(head -c 200 "$room/errors")"
            failed=1
        fi
        is_as_ever $status || stopped=$((stopped + 1))
    done
    if [ $stopped -eq 0 ]; then
        echo "refused allocations: '$*' on $input: no run was stopped"
        failed=1
    elif ! is_as_ever $status; then
        echo "refused allocations: '$*' on $input: another run where none is refused"
        failed=1
    fi
}

# What a run that tries each refused call again has to be: status 0, one line that tells the refusal, and else the output
# that is written where nothing is refused; or as it is there. The line tells a refused event, or call of
# a hall, by its number: 6, or 5 with the lane's 3.
tries_again() {
    refused=$(grep '^refused' "$room/output")
    case $refused in
    '') is_as_ever "$1"; return ;;
    'refused fabric 5 0' | 'refused hall 2 0' | 'refused list 0 0') ;;
    'refused event 6 0' | 'refused event 5 3' | 'refused call 6 0' | 'refused call 5 3') ;;
    *) return 1 ;;
    esac
    echo "$refused" >> "$room/refusals"
    [ "$1" -eq 0 ] && grep -v '^refused' "$room/output" | cmp -s - "$room/whole"
}

each_refused stops_for_memory examples/packets.txt "$pciex" tlp
each_refused stops_for_memory examples/packets.txt "$pciex" tlp --base 0 --size 256 --block 128
each_refused stops_for_memory examples/packets.txt "$pciex" tlp --size 100
each_refused stops_for_memory examples/packets.txt "$pciex" tpl
each_refused stops_for_memory examples/packets.txt "$pciex" step --help
each_refused stops_for_memory examples/endpoint.txt "$pciex" endpoint --trace
each_refused stops_for_memory examples/endpoint.txt "$pciex" endpoint --size 65536
each_refused stops_for_memory examples/packets.txt "$pciex" decode
each_refused stops_for_memory examples/words.out "$pciex" decode
each_refused stops_for_memory examples/words.txt "$pciex" encode
each_refused stops_for_memory examples/trace.txt "$pciex" check
each_refused stops_for_memory examples/trace.txt "$pciex" search
each_refused stops_for_memory examples/trace.txt "$pciex" draw
each_refused stops_for_memory examples/trace.txt "$pciex" upgrade
each_refused stops_for_memory /dev/null "$pciex" generate --seed 1 --events 300 --lose 8 --corrupt 9
each_refused stops_for_memory /dev/null "$pciex" sweep --seeds 1..2 --events 20 --workers 1
each_refused stops_for_memory examples/credits_used_up.txt "$pciex" step --keep-going --echo
for script in lost_ack write_passes_read credits_used_up stopped_link first_script; do
    each_refused stops_for_memory examples/$script.txt "$pciex" step
    each_refused stops_for_memory examples/$script.txt "$pciex" step --trace
    each_refused stops_for_memory examples/$script.txt "$pciex" chart
done
each_refused halts_for_memory /dev/null "$pciex" run --requesters 2 --each 3
if [ -z "$named" ]; then
    : > "$room/refusals"
    each_refused tries_again /dev/null crates/fabric_tests/out/fabric_tests
    for what in 'hall 2 0' 'event 6 0' 'event 5 3' 'call 6 0' 'call 5 3'; do
        if ! grep -q "^refused $what\$" "$room/refusals"; then
            echo "refused allocations: no run tells 'refused $what'"
            failed=1
        fi
    done
fi
echo "refused allocations: $runs runs, $([ $failed -eq 0 ] && echo "all as they should be" || echo "not all as they should be")" || failed=1
exit $failed
