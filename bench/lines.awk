# Lines for `pciex tlp` and `pciex decode`: FetchAdd, write, read and CAS in turn, of 4 and then of 8 bytes.
#
#     awk -v lines=20000 -f bench/lines.awk
BEGIN {
    for (i = 0; i < lines; i++) {
        kind = i % 4
        dw = int(i / 4) % 2 + 1
        address = i * 8 % 4096
        operand = sprintf("%08X", i % 65536 * 65537)
        for (data = operand; length(data) < 8 * dw + dw - 1; data = data " " operand) {}
        if (kind == 0) printf "4C00000%d 01000500 %08X %s\n", dw, address, data
        if (kind == 1) printf "4000000%d 010005%sF %08X %s\n", dw, dw == 1 ? "0" : "F", address, data
        if (kind == 2) printf "0000000%d 010005%sF %08X\n", dw, dw == 1 ? "0" : "F", address
        if (kind == 3) printf "4E00000%d 01000500 %08X %s %s\n", 2 * dw, address, data, data
    }
}
