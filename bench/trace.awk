# A trace for `pciex check` and `pciex upgrade`: seven requesters, each of which submits and is then answered, in each of the
# rounds. Two thirds of the requests are a FetchAdd of 1 at 40h, the others posted writes.
#
#     awk -v rounds=42857 -f bench/trace.awk
function word(n) { return sprintf("%02X%02X%02X%02X", n % 256, int(n / 256) % 256, int(n / 65536) % 256, int(n / 16777216) % 256) }
function op(k) { return k % 3 ? "add 40 01000000" : "write " sprintf("%X", 128 + k % 32 * 4) " F 0 " word(k) }
BEGIN {
    print "pciex-trace 2"
    print "memory 0 4096 64"
    for (round = 0; round < rounds; round++) {
        for (i = 0; i < 7; i++) printf "sub %d %d %d %s\n", i + 1, round, 7 * round, op(7 * round + i)
        for (i = 0; i < 7; i++) if ((7 * round + i) % 3) printf "ans %d %d %d data %s\n", i + 1, round, 7 * round + 7, word(added++)
    }
    print "history"
    for (k = 0; k < 7 * rounds; k++) printf "ent %d %d %s\n", k % 7 + 1, int(k / 7), op(k)
    print "end"
}
