#!/bin/sh
# Runs the writers of logs that docs/without-the-library.md shows, in a testbench with Icarus Verilog, Verilator and GHDL:
# log_writers.sh [PROGRAM], that of program.sh if none is named. `search` has to find a history for the log of the
# memory, and none for that of the same memory when it loses additions. Then turns packets into a log. Says what it left out
# because a tool is missing.
unset CDPATH
pciex=$(sh "$(dirname "$0")/program.sh" "$@") || exit
cd "$(dirname "$0")/.." || exit 1
. scripts/left_out.sh
say() { echo "log writers: $*"; }
room=$(mktemp -d) || exit 1
trap 'rm -rf "$room"' EXIT
trap 'exit 1' HUP INT TERM
failed=0
logs=0

# has_tool WORD: whether there is such a command. If not, says that it is left out.
has_tool() {
    has "$1" "a testbench that writes a log"
}

# with_hook FILE LANGUAGE: the testbench with the first block in that language of the page in place of the line HOOK.
with_hook() {
    awk -v fence="\`\`\`$2" -v page=docs/without-the-library.md '
        $1 == "HOOK" && NF == 1 {
            while ((getline line < page) > 0) {
                if (line ~ /^```$/) inside = 0
                if (inside) print line
                if (line == fence) inside = 1
            }
            next
        }
        1' "c/hooks/$1" > "$room/$1"
}

# passes WHAT WORD..: whether a run in the folder succeeds. If not, prints the end of its output, and WHAT.
passes() {
    what=$1
    shift
    (cd "$room" && "$@") > "$room/output" 2>&1 < /dev/null && return
    tail -n 20 "$room/output"
    say "$what"
    failed=1
    return 1
}

# judged WHAT STATUS WORD..: whether `search` ends with this status on the log that a run writes.
judged() {
    what=$1 status=$2
    shift 2
    rm -f "$room/memory.log"
    passes "$what doesn't run" "$@" || return
    "$pciex" search < "$room/memory.log" > "$room/output" 2>&1
    got=$?
    logs=$((logs + 1))
    [ $got -eq "$status" ] && return
    head -n 8 "$room/output"
    say "$what: search has status $got on its log, and not $status"
    failed=1
}

with_hook log_tb.sv systemverilog
if has_tool iverilog && passes "Icarus Verilog doesn't compile" iverilog -g2012 -o icarus log_tb.sv; then
    judged "the memory, Icarus Verilog" 0 ./icarus
    judged "a memory that loses additions, Icarus Verilog" 1 ./icarus +lose
fi
if has_tool verilator && passes "Verilator doesn't compile" verilator --binary --top-module log_tb --Mdir verilated log_tb.sv; then
    judged "the memory, Verilator" 0 verilated/Vlog_tb
    judged "a memory that loses additions, Verilator" 1 verilated/Vlog_tb +lose
fi
# What the page shows of this one stands in it.
awk '/^```/ { inside = $0 == "```vhdl"; next } inside' docs/without-the-library.md > "$room/shown"
while read -r line; do
    grep -qF -- "$line" c/hooks/log_tb.vhd && continue
    say "docs/without-the-library.md shows what isn't in c/hooks/log_tb.vhd: $line"
    failed=1
done < "$room/shown"
if has_tool ghdl && passes "GHDL doesn't compile" ghdl -a --std=08 "$PWD/c/hooks/log_tb.vhd"; then
    judged "the memory, GHDL" 0 ghdl --elab-run --std=08 log_tb
    judged "a memory that loses additions, GHDL" 1 ghdl --elab-run --std=08 log_tb -gloses=true
fi

# Packets: a configuration read with its completion, then the requests of two requesters, and behind each the completion of
# `tlp`, if it has one.
for turn in $(seq 0 99); do
    tag=$(printf %02X "$turn")
    id=0$((turn % 2 + 1))00
    echo "add $(printf %X $((64 + turn % 3 * 4))) 01000000 from $id tag $tag"
    echo "write $(printf %X $((128 + turn % 5 * 4))) F 0 $tag$tag$tag$tag from $id tag 00"
    echo "read $(printf %X $((128 + turn % 7 * 4))) 1 F 0 from $id tag $tag"
    echo "read 2000 1 F 0 from $id tag $tag"
done | "$pciex" encode > "$room/requests"
printf '04000001 0100000F 01000000\n4A000001 00000004 01000000 34121E7C\n' > "$room/packets"
"$pciex" tlp < "$room/requests" | paste -d '\n' "$room/requests" - | grep -v '^-$' >> "$room/packets"
# shellcheck disable=SC2016
to_log='"$0" decode < packets | awk -f "$1" > memory.log'
judged "packets" 0 sh -c "$to_log" "$pciex" "$PWD/examples/packets_to_log.awk"
sed -i 's/^\(4A000001 0000[0-9]* 02006300\) .*/\1 FFFFFFFF/' "$room/packets"
judged "packets with a wrong completion" 1 sh -c "$to_log" "$pciex" "$PWD/examples/packets_to_log.awk"
[ $failed -ne 0 ] || say "$logs logs, each as the memory is" || failed=1
exit $failed
