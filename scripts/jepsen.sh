#!/bin/sh
# Compares `pciex search` on the logs that examples/jepsen.py and examples/csv_to_log.py make of 100 random histories of
# registers and counters with a decider that knows nothing of logs, and tries tables that are none: jepsen.sh [PROGRAM], that
# of program.sh if none is named.
unset CDPATH
pciex=$(sh "$(dirname "$0")/program.sh" "$@") || exit
cd "$(dirname "$0")/.." || exit 1
if ! command -v python3 > /dev/null; then
    echo "left out: histories of registers, since there is no python3"
    exit 0
fi
room=$(mktemp -d) || exit 1
trap 'rm -rf "$room"' EXIT
trap 'exit 1' HUP INT TERM
export PYTHONDONTWRITEBYTECODE=1
failed=0
python3 scripts/jepsen.py "$pciex" || failed=1

# refuses LINE TABLE: whether the table, with escapes, is refused, for this line or for all, and nothing is printed.
refuses() {
    printf '%b' "$2" | python3 examples/csv_to_log.py > "$room/log" 2> "$room/said"
    [ $? -eq 1 ] && [ ! -s "$room/log" ] && grep -q "^csv_to_log: $1" "$room/said" && return
    echo "jepsen: the table '$2' isn't refused for $1: $(tail -n 1 "$room/said")"
    failed=1
}
refuses 'the first line has to name' ''
refuses 'the first line has to name' 'client,event\na,call\n'
refuses 'there is no operation' 'client,event,op\n'
refuses "line 2 is no operation ('pop')" 'client,event,op\na,call,pop\n'
refuses "line 2 is no operation ('later')" 'client,event,op\na,later,read\n'
refuses 'line 3 is no operation (its client has a call' 'client,event,op\na,call,read\na,call,read\n'
refuses 'line 2 is no operation (its client has no' 'client,event,op\na,ok,read\n'
refuses 'line 3 is no operation (it ends another' 'client,event,op,value\na,call,read,\na,ok,write,1\n'
refuses "line 2 is no operation ('old')" 'client,event,op,value\na,call,cas,1\n'
refuses 'line 2 is no operation (an add of no number)' 'client,event,op,value\na,call,add,x\n'
refuses 'line 2 is no operation (it ends before' 'client,start,end,op,value\na,5,4,put,1\n'
refuses 'line 2 is no operation (NaN)' 'client,start,end,op,value\na,NaN,4,put,1\n'
exit $failed
