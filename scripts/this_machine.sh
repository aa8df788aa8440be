#!/bin/sh
# Threads use the memory of this machine (c/examples/this_machine.c), and `pciex search` judges what they were told:
# atomic operations have a history; additions that are split into a load and a store have none; a store and then a load
# of another word have one, unless both threads loaded 0. It tells each log that is judged otherwise: this_machine.sh
# [PROGRAM], that of program.sh if none is named.
unset CDPATH
pciex=$(sh "$(dirname "$0")/program.sh" "$@") || exit
cd "$(dirname "$0")/.." || exit 1
if ! command -v cc > /dev/null; then
    echo "left out: this machine, since there is no cc"
    exit 0
fi
room=$(mktemp -d) || exit 1
trap 'rm -rf "$room"' EXIT
trap 'exit 1' HUP INT TERM
cc -Wall -Wextra -Werror -std=c11 -O2 -pthread -o "$room/this_machine" c/examples/this_machine.c || exit 1
runs=0
failed=0

# judges WORD..: whether the program finds a history in the log of these words exactly if there has to be one.
judges() {
    timeout 60 "$room/this_machine" "$@" > "$room/log"
    wanted=$?
    timeout 60 "$pciex" search < "$room/log" > "$room/answer" 2> "$room/errors"
    status=$?
    runs=$((runs + 1))
    if [ $wanted -eq 0 ]; then
        [ $status -eq 0 ] && [ "$("$pciex" check < "$room/answer")" = ok ] && return
    else
        [ $wanted -eq 1 ] && [ $status -eq 1 ] && grep -q '^none [0-9]*$' "$room/answer" && return
    fi
    echo "this machine: '$*' ended with status $wanted, and search with $status: $(head -n 1 "$room/answer")"
    failed=1
}
judges locked 1 20
judges locked 4 300
judges locked 7 1000
judges split 1 5
judges split 2 3
judges split 7 1
judges stores 1
judges stores 10000

echo "this machine: $runs logs, $([ $failed -eq 0 ] && echo "each judged as it should be" || echo "not all judged as they should be")" || failed=1
exit $failed
