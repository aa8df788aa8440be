#!/bin/sh
# Tries pcie_tlp.lua in tshark: test.sh TLP [CAPTURE], where TLP is a program that answers packets as `pciex tlp` does,
# and CAPTURE one of c/qemu. Of examples/packets.txt it compares what tshark shows with packets.out, of faults.txt the
# names of faults with those of TLP. In the capture each completion has its request, and nothing is malformed.
unset CDPATH
here=$(realpath "$(dirname "$0")")
tlp=$1
capture=$2
room=$(mktemp -d) || exit 1
trap 'rm -rf "$room"' EXIT
trap 'exit 1' HUP INT TERM
fail() {
    echo "dissector: $*"
    exit 1
}

# show CAPTURE WORD..: what tshark says of it.
show() {
    tshark -2 -X "lua_script:$here/pcie_tlp.lua" -r "$@" 2> "$room/errors" || fail "tshark: $(cat "$room/errors")"
}

# to_pcap NAME FILE..: makes the capture NAME of lines of packets.
to_pcap() {
    name=$1
    shift
    python3 "$here/packets_to_pcap.py" "$@" > "$room/$name" || fail "$name isn't made"
}

"$tlp" < "$here/../../examples/packets.txt" > "$room/answers"
to_pcap packets "$here/../../examples/packets.txt" "$room/answers"
set -- -T fields -E separator=, -E quote=d
for field in kind length requester tag first_be last_be address operand compare swap data status byte_count lower \
    request_in answer_in; do
    set -- "$@" -e "pcie_tlp.$field"
done
show "$room/packets" "$@" > "$room/shown"
diff "$here/packets.out" "$room/shown" || fail "packets.txt is shown otherwise than in packets.out"

# Of frames that were cut when they were captured none is malformed, unless its own packet is.
cat > "$room/cut.py" << 'end'
import struct
import sys

most, data, at = int(sys.argv[1]), sys.stdin.buffer.read(), 24
sys.stdout.buffer.write(data[:24])
while at < len(data):
    seconds, parts, kept, length = struct.unpack_from("<IIII", data, at)
    sys.stdout.buffer.write(struct.pack("<IIII", seconds, parts, min(kept, most), length) + data[at + 16:at + 16 + min(kept, most)])
    at += 16 + kept
end
show "$room/packets" -T fields -e _ws.expert.message > "$room/whole"
for bytes in 1 13 18; do
    python3 "$room/cut.py" $bytes < "$room/packets" > "$room/cut" || fail "no capture is cut"
    show "$room/cut" -T fields -e _ws.expert.message > "$room/shown"
    if grep -vxFf "$room/whole" "$room/shown" | grep .; then fail "a frame that is cut at $bytes bytes is malformed"; fi
done

# The names of faults: the first word of what is malformed, and the last of what `tlp` prints.
"$tlp" < "$here/faults.txt" | sed 's/^fault [0-9]* //; t; s/.*/none/' > "$room/named"
to_pcap faults "$here/faults.txt"
show "$room/faults" -T fields -e _ws.expert.message | sed 's/:.*//; s/^$/none/' > "$room/shown"
diff "$room/named" "$room/shown" || fail "faults.txt has other faults"
grep -q Unaligned "$room/shown" || fail "faults.txt shows nothing"

if [ -n "$capture" ]; then
    show "$capture" -Y "_ws.expert or (pcie_tlp.kind != 0x40 and not pcie_tlp.request_in and not pcie_tlp.answer_in)" > "$room/shown"
    [ ! -s "$room/shown" ] || fail "in the capture: $(head -n 3 "$room/shown")"
    show "$capture" -Y "pcie_tlp.answer_in and pcie_tlp.kind in {0x4C, 0x4D, 0x4E}" > "$room/shown"
    [ -s "$room/shown" ] || fail "the capture has no AtomicOp with its completion"
fi
echo "dissector: $(grep -c . "$here/packets.out") packets, $(grep -c . "$room/named") for faults${capture:+, a capture}: ok"
