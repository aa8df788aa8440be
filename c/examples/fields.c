/* The fields of TLPs, without a text between. */
#include "../pciex.h"

#include <stdio.h>

static void show(const uint8_t *packet, size_t length)
{
    pciex_tlp tlp;
    uint8_t room[PCIEX_LINE];
    const uint32_t code = pciex_decode_tlp(packet, length, &tlp);
    if (code != 0) {
        const uint32_t count = pciex_fault_name(code - 1000, room, sizeof room);
        printf("fault %u %.*s\n", (unsigned)(code - 1000), (int)count, (const char *)room);
        return;
    }
    printf("%02X: length %u, TC %u, Attr %u, from %04X tag %02X, ", tlp.kind, tlp.length, tlp.tc, tlp.attr, tlp.requester,
           tlp.tag);
    if (tlp.kind == PCIEX_CPL || tlp.kind == PCIEX_CPLD) {
        printf("by %04X, status %u, Byte Count %u, Lower Address %02X", tlp.completer, tlp.status, tlp.byte_count,
               tlp.lower);
    } else {
        printf("at %llX, BE %X %X", (unsigned long long)tlp.address, tlp.first, tlp.last);
    }
    printf(", payload");
    for (uint32_t i = 0; i < tlp.payload_length; i++) {
        printf(" %02X", packet[tlp.payload_start + i]);
    }
    printf("\n");
}

int main(void)
{
    static const uint8_t read[12] = {0x00, 0x50, 0x30, 0x02, 0x01, 0x00, 0x05, 0x3F, 0x00, 0x00, 0x00, 0x40};
    static const uint8_t write[20] = {0x60, 0, 0, 1, 1, 0, 6, 0x0F, 0, 0, 0, 1, 0, 0, 0, 0x80, 1, 2, 3, 4};
    static const uint8_t add[16] = {0x4C, 0, 0, 1, 1, 0, 7, 0, 0, 0, 0, 0x40, 7, 0, 0, 0};
    static const uint8_t swap[16] = {0x4D, 0, 0, 1, 1, 0, 8, 0, 0, 0, 0, 0x40, 9, 0, 0, 0};
    static const uint8_t cas[20] = {0x4E, 0, 0, 2, 1, 0, 9, 0, 0, 0, 0, 0x40, 9, 0, 0, 0, 5, 0, 0, 0};
    static const uint8_t data[16] = {0x4A, 0, 0, 1, 0x02, 0, 0, 4, 1, 0, 7, 0x40, 0, 0, 0, 0};
    static const uint8_t unsupported[12] = {0x0A, 0, 0, 0, 0x02, 0, 0x20, 0, 1, 0, 5, 0};
    show(read, sizeof read);
    show(write, sizeof write);
    show(add, sizeof add);
    show(swap, sizeof swap);
    show(cas, sizeof cas);
    show(data, sizeof data);
    show(unsupported, sizeof unsupported);
    show(add, 3);
    return 0;
}
