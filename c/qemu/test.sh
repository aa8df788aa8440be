#!/bin/sh
# Tries pciex_qemu: test.sh FOLDER
#
# FOLDER has the programs `check`, `search` and `device` of c/examples, and LINK names the archives to link; c/check.sh
# calls it so. First without QEMU: wrong words, a QEMU that isn't there, dies, stays too long or sends no message, a full
# disk. Then, if QEMU is there, the device driven by qtest.py, also under valgrind and the sanitizers, and a device that
# loses a posted write. Then the dissector in tshark. Last a guest, if the variable PCIEX_KERNEL or /boot has a kernel of
# Debian's linux-image-*-cloud-amd64. It says what it leaves out, as a tool is missing.
unset CDPATH
here=$(realpath "$(dirname "$0")")
programs=$(realpath "$1")
room=$(mktemp -d) || exit 1
trap 'rm -rf "$room"' EXIT
trap 'exit 1' HUP INT TERM
fail() {
    echo "qemu: $*"
    exit 1
}
cd "$room" || exit 1
exec 3>&- 4>&- 5>&- 6>&- 7>&- 8>&- 9>&-
began=$(date +%s)

# build NAME WORD..: the program under this name, with these words for the compiler.
build() {
    name=$1
    shift
    # shellcheck disable=SC2086
    cc -Wall -Wextra -Werror -std=gnu11 "$@" -o "$name" "$here/pciex_qemu.c" "$here/proxy.c" "$here/ports.c" \
        "$here/records.c" $LINK || fail "$name isn't built"
}
build pciex_qemu -O2
programs_here=./pciex_qemu
echo 'int main(void) { return 0; }' > probe.c
if cc -fsanitize=address,undefined -o probe probe.c 2> errors && ./probe; then
    build sanitized -O1 -g -fsanitize=address,undefined -fno-sanitize-recover=all
    programs_here="./pciex_qemu ./sanitized"
else
    echo "left out: the device in QEMU under the sanitizers, since there is no libasan"
fi

# refuses TEXT WORD..: whether it ends with status 2 and this text, and leaves no process that wrote its number to `left`.
refuses() {
    text=$1
    shift
    rm -f left
    timeout 120 "$program" "$@" > out 2> errors < /dev/null
    status=$?
    [ $status -eq 2 ] || fail "status $status of $program $*: $(cat errors)"
    grep -qF "pciex_qemu: $text" errors || fail "$program $* says: $(cat errors)"
    [ ! -e left ] || ! kill -0 "$(cat left)" 2> /dev/null || fail "$program $* leaves a process"
}

# A shell stands for QEMU: its last word ends with the number of its end of the function's socket.
# shellcheck disable=SC2016
without_qemu() {
    to_socket='echo $$ > left; eval "exec >&${1##*=}";'
    refuses "no command behind --"
    refuses "no command behind --" --ports 1 --
    refuses "'--port 1' is no option" --port 1 -- true
    refuses "'--ports 1x' is no option" --ports 1x -- true
    refuses "'--log' is no option" --log
    refuses "--ports: 1 to 7" --ports 8 -- true
    refuses "--log, --trace and --pcap: one file" --log one --pcap one -- true
    refuses "--size: a power of two" --size 5000 -- true
    refuses "--block: 64 or 128" --block 32 -- true
    refuses "--seconds: 1 to 1000000" --seconds 0 -- true
    refuses "no_such_qemu can't be run: No such file or directory" -- no_such_qemu
    refuses "QEMU ended with status 1" -- false
    refuses "QEMU was ended by signal 9" -- sh -c 'kill -9 $$'
    refuses "/no/log can't be written: No such file or directory" --log /no/log -- true
    for option in --log --trace --pcap; do
        refuses "/dev/full can't be written: No space left on device" $option /dev/full -- true
    done
    refuses "QEMU ran for more than 1 seconds" --seconds 1 -- sh -c 'echo $$ > left; exec sleep 1000'
    # A message that comes slowly: QEMU has its seconds, and a signal ends it, whatever it waits for.
    slow=$(date +%s)
    refuses "QEMU ran for more than 1 seconds" --seconds 1 -- sh -c "$to_socket"'for i in $(seq 16); do printf x; sleep 1; done'
    [ $(($(date +%s) - slow)) -lt 8 ] || fail "$program waits for a slow message"
    slow=$(date +%s)
    refuses "ended by signal 15" -- sh -c "$to_socket"'printf x; sleep 1; kill $PPID; exec sleep 1000'
    [ $(($(date +%s) - slow)) -lt 8 ] || fail "$program waits for a message after a signal"
    refuses "QEMU sent a message of" -- sh -c "$to_socket"'printf 0123456789abcdef; exec sleep 1000'
    refuses "QEMU stopped in the middle of a message" -- sh -c "$to_socket"'printf 01234'
    # A disk that gets full in the run: 300 reads of 4 bytes at address 0.
    refuses "/dev/full can't be written: No space left on device" --pcap /dev/full -- sh -c "$to_socket"'
        for i in $(seq 300); do
            printf "\5\0\0\0\0\0\0\0\30\0\0\0\0\0\0\0\0\0\0\0\0\0\0\0\0\0\0\0\0\0\0\0\4\0\0\0\1\0\0\0"
        done
        exec sleep 1000'
    rm -f ours
    (for _ in $(seq 600); do [ ! -s ours ] || break; sleep 0.1; done; kill "$(cat ours)") &
    refuses "ended by signal 15" -- sh -c 'echo $PPID > ours; echo $$ > left; exec sleep 1000'
    wait
}
for program in $programs_here; do
    without_qemu
done

if ! command -v qemu-system-x86_64 > /dev/null || ! command -v python3 > /dev/null; then
    echo "left out: the device in QEMU, since there is no qemu-system-x86_64, or no python3"
    exit 0
fi
if ! qemu-system-x86_64 -device help 2>&1 | grep -q x-pci-proxy-dev; then
    echo "left out: the device in QEMU, since there is no x-pci-proxy-dev in it"
    exit 0
fi

# drives WORD..: whether the words before the device's own run it, driven by qtest.py, to status 0.
drives() {
    timeout 1800 python3 "$here/qtest.py" seen config "$@" --ports 2 --log log --trace trace --pcap pcap > out 2> errors ||
        fail "qtest.py $*: status $? (124 after half an hour): $(cat out errors)"
}

# explained FILE WHAT: whether `search` finds a history for the log.
explained() {
    "$programs/search" < "$1" > found || fail "$2: $(head -n 1 found)"
    "$programs/check" < found > out || fail "$2: check says $(cat out) to what search found"
}

now=$(date +%s%N)
drives ./pciex_qemu
echo "qemu: qtest in $((($(date +%s%N) - now) / 1000000)) ms"
diff "$here/qtest.out" out || fail "qtest.py reads other data"
"$programs/check" < trace > out || fail "the device's trace: $(cat out)"
explained log "the device's log"
explained seen "what qtest.py saw"
if command -v lspci > /dev/null; then
    lspci -F config -vv 2> errors > out
    grep -q "AtomicOpsCap: 32bit+ 64bit+ 128bitCAS+" out || fail "lspci says: $(cat out errors)"
else
    echo "left out: the configuration space in lspci, since there is no lspci"
fi
if command -v tshark > /dev/null; then
    sh "$here/../wireshark/test.sh" "$programs/device" pcap || exit 1
else
    echo "left out: the dissector of TLPs, since there is no tshark"
fi
[ ! -x sanitized ] || drives ./sanitized
if command -v valgrind > /dev/null; then
    drives valgrind -q --error-exitcode=99 --leak-check=full ./pciex_qemu
else
    echo "left out: the device in QEMU under valgrind, since there is no valgrind"
fi
# A device that loses each third posted write: both find it.
drives ./pciex_qemu --lose 3
"$programs/check" < trace > out && fail "check says $(cat out) to a device that loses a write"
grep -q "^flaw 10 Reply" out || fail "check says $(cat out) to a device that loses a write"
"$programs/search" < seen > out && fail "search explains a device that loses a write"
grep -q "^none" out || fail "search says $(head -n 1 out) to a device that loses a write"
# ---- a guest

kernel=${PCIEX_KERNEL:-$(find /boot -maxdepth 1 -name 'vmlinuz-*-cloud-amd64' 2> /dev/null | sort -V | tail -n 1)}
if [ ! -r "$kernel" ] || ! command -v cpio > /dev/null; then
    echo "left out: a guest in QEMU, since there is no cpio, or no kernel of linux-image-*-cloud-amd64 in /boot or in PCIEX_KERNEL"
    exit 0
fi
now=$(date +%s)
sh "$here/guest.sh" ./pciex_qemu "$kernel" 2 || exit 1
echo "qemu: a guest in $(($(date +%s) - now)) s"
"$programs/check" < trace > out || fail "the device's trace of a guest: $(cat out)"
explained guest.log "what the guest's processors saw"
echo "qemu: all in $(($(date +%s) - began)) s"
