/* The CRCs of a link: a packet and a DLLP get theirs, and are checked as they are, with a wrong bit, and nullified. */
#include "../pciex.h"

#include <stdio.h>
#include <string.h>

static void show(const char *what, const uint8_t *bytes, uint32_t count)
{
    printf("%s: ", what);
    for (uint32_t i = 0; i < count; i++) {
        printf("%02X", bytes[i]);
    }
    printf("\n");
}

int main(void)
{
    static const char *const said[] = {"good", "failed", "nullified"};
    uint8_t packet[22] = {0, 0, 0x4C, 0, 0, 1, 1, 0, 5, 0, 0, 0, 0, 0x40, 7, 0, 0, 0};
    uint8_t dllp[6] = {0x90, 0, 0x80, 3};
    show("lcrc", packet + 18, pciex_lcrc(packet, 18, packet + 18, 4));
    printf("packet: %s\n", said[pciex_lcrc_check(packet, sizeof packet)]);
    packet[9] ^= 0x10;
    printf("with a wrong bit: %s\n", said[pciex_lcrc_check(packet, sizeof packet)]);
    packet[9] ^= 0x10;
    for (int i = 18; i < 22; i++) {
        packet[i] ^= 0xFF;
    }
    printf("with the complement: %s\n", said[pciex_lcrc_check(packet, sizeof packet)]);
    printf("three bytes: %s\n", said[pciex_lcrc_check(packet, 3)]);
    show("dllp crc", dllp + 4, pciex_dllp_crc(dllp, 4, dllp + 4, 2));
    printf("dllp: %s\n", said[pciex_dllp_check(dllp, sizeof dllp)]);
    dllp[3] ^= 1;
    printf("with a wrong bit: %s\n", said[pciex_dllp_check(dllp, sizeof dllp)]);
    printf("codes: %u %u %u\n", (unsigned)pciex_lcrc(packet, 18, packet, 3), (unsigned)pciex_dllp_crc(dllp, 3, packet, 2),
           (unsigned)pciex_dllp_crc(dllp, 4, packet, 1));
    return 0;
}
