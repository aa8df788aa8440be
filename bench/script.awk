# A script for `pciex step`: in each round seven requesters submit eight requests each, FetchAdd, write, read and Swap in
# turn. On each `up` lane the second packet fails its check, so that a Nak moves the sender back; on `in` the last Ack is
# lost, and the packets are sent once more. A round has 1,015 events.
#
#     awk -v rounds=296 -f bench/script.awk
function op(k) {
    if (k % 4 == 0) return "add 40 01000000"
    if (k % 4 == 1) return "write " sprintf("%X", 128 + k % 32 * 4) " F 0 " sprintf("%08X", k)
    if (k % 4 == 2) return "read " sprintf("%X", 128 + k % 32 * 4) " 1 F 0"
    return "swap 48 " sprintf("%016X", k)
}
function times(n, line) { for (j = 0; j < n; j++) print line }
function send(lane, n) { times(n, "transmit " lane); times(n, "deliver " lane " good") }
function dllp(lane, kind, fate) { print "dllp " lane " " kind; print "deliver-dllp " lane " " fate }
BEGIN {
    print "fabric 7 0 4096"
    for (round = 0; round < rounds; round++) {
        for (i = 1; i <= 7; i++) for (k = 0; k < 8; k++) print "submit " i " " op(8 * round + i + k)
        for (i = 1; i <= 7; i++) {
            up = "up" i
            times(8, "transmit " up)
            print "deliver " up " good"
            print "deliver " up " failed"
            times(6, "deliver " up " good")
            dllp(up, "ack", "good")
            send(up, 7)
            dllp(up, "ack", "good")
        }
        for (i = 1; i <= 7; i++) {
            up = "up" i
            down = "down" i
            times(8, "forward " up " 0")
            dllp(up, "p", "good")
            dllp(up, "np", "good")
            send("in", 8)
            dllp("in", "ack", "lost")
            print "timer in"
            send("in", 8)
            dllp("in", "ack", "good")
            times(8, "serve 0")
            dllp("in", "p", "good")
            dllp("in", "np", "good")
            send("out", 6)
            dllp("out", "ack", "good")
            times(6, "forward out 0")
            dllp("out", "cpl", "good")
            send(down, 6)
            dllp(down, "ack", "good")
            times(6, "collect " i)
        }
    }
}
