# Lines for `pciex endpoint`: a memory is set up at FEDC0000h, and then asked. Each request is followed by as many `next` as
# it has completions, one for a posted write. The plan is `each`, the requests of lines.awk; `short`, reads of 128 bytes;
# `long`, reads of 4096 bytes, of 32 completions; or `linked`, reads of 4 bytes for `pciex endpoint --link`, each with an Ack
# and an UpdateFC from the device, and an Ack of its completion.
#
#     awk -v plan=each -v requests=20000 -f bench/endpoint.awk
# A packet of a peer, what the device sends then, and the Ack of its completion.
function packet(tlp) {
    printf "packet %04X %s good\nnext\nnext\nnext\ndllp 00000%03X good\n", sent % 4096, tlp, sent % 4096
    sent++
}
BEGIN {
    if (plan == "linked") {
        print "up\ndllp 40080080 good\ndllp 50080020 good\ndllp 60000000 good\nnext\nnext\nnext\nnext\nnext\nnext"
        print "dllp C0080080 good\ndllp D0080020 good\ndllp E0000000 good"
        packet("44000001 0008010F 01000010 0000DCFE")
        packet("44000001 00080201 01000004 02000000")
        for (i = 0; i < requests; i++) packet(sprintf("00000001 0100050F FEDC%04X", i * 8 % 4096))
        exit
    }
    print "tlp 44000001 0008010F 01000010 0000DCFE\nnext"
    print "tlp 44000001 00080201 01000004 02000000\nnext"
    for (i = 0; i < requests; i++) {
        if (plan == "short") printf "tlp 00000020 010005FF FEDC%04X\nnext\n", i * 128 % 4096
        if (plan == "long") {
            print "tlp 00000000 010005FF FEDC0000"
            for (block = 0; block < 32; block++) print "next"
        }
        if (plan != "each") continue
        kind = i % 4
        dw = int(i / 4) % 2 + 1
        address = i * 8 % 4096
        operand = sprintf("%08X", i % 65536 * 65537)
        for (data = operand; length(data) < 8 * dw + dw - 1; data = data " " operand) {}
        if (kind == 0) printf "tlp 4C00000%d 01000500 FEDC%04X %s\nnext\n", dw, address, data
        if (kind == 1) printf "tlp 4000000%d 010005%sF FEDC%04X %s\nnext\n", dw, dw == 1 ? "0" : "F", address, data
        if (kind == 2) printf "tlp 0000000%d 010005%sF FEDC%04X\nnext\n", dw, dw == 1 ? "0" : "F", address
        if (kind == 3) printf "tlp 4E00000%d 01000500 FEDC%04X %s %s\nnext\n", 2 * dw, address, data, data
    }
}
