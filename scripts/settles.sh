#!/bin/sh
# Runs the program on 2,000 random scripts that end in `settle`, and tells each that does not end in `settled`. Their
# fabrics have one to seven requesters and the least credits, all credits or those that a line without credits means; the
# events before `settle` lose packets and DLLPs and fail checks, and right before it there is nothing more, a link that
# stops, or a packet that fails its check: settles.sh [PROGRAM], that of program.sh if none is named. With a folder
# in its place the scripts are written there and nothing is run.
unset CDPATH
folder=
if [ -d "${1:-}" ]; then
    folder=$(cd "$1" && pwd) || exit 1
else
    pciex=$(sh "$(dirname "$0")/program.sh" "$@") || exit
fi
cd "$(dirname "$0")/.." || exit 1
number=2000
room=$(mktemp -d) || exit 1
trap 'rm -rf "$room"' EXIT
trap 'exit 1' HUP INT TERM

# write_scripts FOLDER: the same scripts in each run and with each awk, as the random numbers are its own.
write_scripts() {
    awk -v folder="$1" -v number=$number '
        # A random number below n.
        function below(n) {
            state = (state * 16807) % 2147483647
            return int(state / 8) % n
        }
        function lane() {
            drawn = below(2 * requesters + 2)
            if (drawn < requesters) return "up" drawn + 1
            if (drawn < 2 * requesters) return "down" drawn - requesters + 1
            return drawn == 2 * requesters ? "in" : "out"
        }
        function fate() {
            drawn = below(5)
            return drawn < 3 ? "good" : drawn == 3 ? "failed" : "lost"
        }
        function forwarder() {
            drawn = below(requesters + 1)
            return drawn == requesters ? "out" : "up" drawn + 1
        }
        function operation() {
            drawn = below(5)
            if (drawn == 0) return "write 40 F 0 01020304"
            if (drawn == 1) return "write 80 F F 0102030405060708090A0B0C0D0E0F1011121314"
            if (drawn == 2) return "read 40 1 F 0"
            if (drawn == 3) return "read 80 16 F F"
            return "add 40 07000000"
        }
        function event() {
            drawn = below(100)
            if (drawn < 22) return "submit " below(requesters) + 1 " " operation()
            if (drawn < 42) return "transmit " lane()
            if (drawn < 62) return "deliver " lane() " " fate()
            if (drawn < 70) return "dllp " lane() " " kinds[below(4) + 1]
            if (drawn < 78) return "deliver-dllp " lane() " " fate()
            if (drawn < 82) return "timer " lane()
            if (drawn < 83) return "retrained " lane()
            if (drawn < 92) return "forward " forwarder() " " below(2)
            if (drawn < 96) return "serve " below(2)
            return "collect " below(requesters) + 1
        }
        BEGIN {
            state = 20
            split("ack p np cpl", kinds)
            credits[0] = " 1 8 1 2 1 8"
            credits[1] = " 127 2047 127 2047 127 2047"
            credits[2] = ""
            for (script = 0; script < number; script++) {
                file = folder "/" script ".txt"
                requesters = below(7) + 1
                print "fabric " requesters " 0 4096" credits[script % 3] > file
                events = below(script % 100 + 1) * 4
                for (i = 0; i < events; i++) {
                    print event() > file
                }
                end = int(script / 3) % 3
                chosen = end == 2 && events > 0 ? lane() : "up1"
                if (end > 0) print "submit 1 " operation() > file
                if (end == 1) {
                    for (i = 0; i < 4; i++) {
                        print "transmit " chosen > file
                        print "deliver " chosen " lost" > file
                        print "timer " chosen > file
                    }
                }
                if (end == 2) {
                    print "transmit " chosen > file
                    print "deliver " chosen " failed" > file
                }
                print "settle" > file
                close(file)
            }
        }'
}

if [ -n "$folder" ]; then
    write_scripts "$folder"
    exit
fi
write_scripts "$room"
script=0
while [ $script -lt $number ]; do
    timeout 60 "$pciex" step --keep-going < "$room/$script.txt" > "$room/output" 2> "$room/errors"
    echo "$script $? $(grep -c '^fault' "$room/output") $(tail -n 1 "$room/output")"
    script=$((script + 1))
done > "$room/ends"
# Status 1 tells that an event was refused.
awk -v number=$number '
    $2 > 1 || $3 > 0 || $4 != "settled" { print "settles: script " $1 " ends with status " $2 " in `" $4 "`"; wrong++ }
    END {
        print "settles: " NR " scripts, " (wrong ? wrong " of them not settled" : "all settled")
        exit wrong > 0 || NR != number
    }' "$room/ends"
