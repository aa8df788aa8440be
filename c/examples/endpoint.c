/* An endpoint that a root complex brings up: it finds the function, sizes and sets BAR 0, enables memory, and accesses it. */
#include "../pciex.h"

#include <stdio.h>
#include <string.h>

static pciex_endpoint endpoint = PCIEX_NONE;

/* Sends a TLP, and prints what became of it and its completions. */
static void send(const char *what, const uint8_t *tlp, size_t length)
{
    static const char *const handled[] = {"accept", "Ignored", "Unsupported", "Unexpected", "Malformed"};
    uint8_t room[PCIEX_PACKET];
    uint32_t code = pciex_endpoint_tlp(&endpoint, tlp, length);
    printf("%s: %s", what, code < 5 ? handled[code] : "refused");
    while ((code = pciex_endpoint_next(&endpoint, room, sizeof room)) > 0 && code < 1000) {
        printf(" ");
        for (uint32_t i = 0; i < code && i < 24; i++) {
            printf(i % 4 == 0 ? " %02X" : "%02X", room[i]);
        }
        if (code > 24) {
            printf(" and %u bytes", (unsigned)code - 24);
        }
    }
    printf("\n");
}

#define SEND(what, ...) \
    do { \
        const uint8_t tlp[] = {__VA_ARGS__}; \
        send(what, tlp, sizeof tlp); \
    } while (0)

/* Configuration requests to bus 1, device 0, function 0, under this tag. */
#define CFG_READ(what, tag, reg) SEND(what, 0x04, 0, 0, 1, 0, 8, tag, 0x0F, 1, 0, 0, reg)
#define CFG_WRITE(what, tag, reg, enables, b0, b1, b2, b3) \
    SEND(what, 0x44, 0, 0, 1, 0, 8, tag, enables, 1, 0, 0, reg, b0, b1, b2, b3)

/* Whether each call is refused as the header says. */
static int refuses(void)
{
    static const size_t wrong[] = {0, 1, 2048, 4095, 6144, 2097152, SIZE_MAX};
    const uint8_t read[12] = {0x04, 0, 0, 1, 0, 8, 1, 0x0F, 1, 0, 0, 0};
    uint8_t room[4096];
    pciex_endpoint e = PCIEX_NONE;
    size_t length = 7;
    int right = pciex_endpoint_new(4096, 0x1234, 0x7C1E, true, NULL) == PCIEX_NULL &&
                pciex_endpoint_tlp(&e, read, sizeof read) == PCIEX_EMPTY &&
                pciex_endpoint_next(&e, room, sizeof room) == PCIEX_EMPTY && pciex_endpoint_reset(&e) == PCIEX_EMPTY &&
                pciex_endpoint_bytes(&e, room, sizeof room) == PCIEX_EMPTY &&
                pciex_endpoint_trace(&e, room, sizeof room, &length) == PCIEX_EMPTY &&
                pciex_endpoint_trace(NULL, room, sizeof room, &length) == PCIEX_NULL &&
                pciex_endpoint_trace(&e, NULL, 0, &length) == PCIEX_NULL &&
                pciex_endpoint_trace(&e, room, sizeof room, NULL) == PCIEX_NULL && length == 7;
    for (size_t i = 0; i < sizeof wrong / sizeof *wrong; i++) {
        right = right && pciex_endpoint_new(wrong[i], 0x1234, 0x7C1E, true, &e) == PCIEX_WRONG_SIZE && e.at == NULL;
    }
    right = right && pciex_endpoint_new(4096, 0x1234, 0x7C1E, false, &e) == 0 &&
            pciex_endpoint_new(4096, 0x1234, 0x7C1E, false, &e) == PCIEX_HELD &&
            pciex_endpoint_tlp(&e, NULL, 0) == PCIEX_NULL && pciex_endpoint_next(&e, NULL, 144) == PCIEX_NULL &&
            pciex_endpoint_tlp(&e, read, sizeof read) == PCIEX_TLP_ACCEPTED &&
            pciex_endpoint_next(&e, room, PCIEX_PACKET - 1) == PCIEX_SMALL_ROOM &&
            pciex_endpoint_next(&e, room, PCIEX_PACKET) == 16 && room[12] == 0x34 && room[15] == 0x7C &&
            pciex_endpoint_next(&e, room, PCIEX_PACKET) == 0 &&
            pciex_endpoint_bytes(&e, room, 4095) == PCIEX_SMALL_ROOM && room[12] == 0x34 &&
            pciex_endpoint_bytes(&e, room, sizeof room) == 0 && room[12] == 0 &&
            pciex_endpoint_trace(&e, room, 43, &length) == PCIEX_SMALL_ROOM && length == 44 && room[0] == 0 &&
            pciex_endpoint_trace(&e, room, 44, &length) == 0 && length == 44 &&
            memcmp(room, "pciex-trace 2\nmemory 0 4096 128\nhistory\nend\n", 44) == 0 && room[44] == 0;
    pciex_endpoint_free(&e);
    pciex_endpoint_free(&e);
    return right && e.at == NULL;
}

int main(void)
{
    uint8_t bytes[4096], verdict[PCIEX_LINE];
    size_t length = 0;
    if (!refuses() || pciex_endpoint_new(4096, 0x1234, 0x7C1E, true, &endpoint) != 0) {
        return 1;
    }
    CFG_READ("Vendor ID, Device ID", 0x63, 0x00);
    CFG_WRITE("BAR 0, ones", 0x64, 0x10, 0x0F, 0xFF, 0xFF, 0xFF, 0xFF);
    CFG_READ("its size", 0x66, 0x10);
    SEND("a read, memory off", 0x00, 0, 0, 1, 0, 8, 0x68, 0x0F, 0xFE, 0xDC, 0, 0x40);
    CFG_WRITE("BAR 0, FEDC0000h", 0x69, 0x10, 0x0F, 0, 0, 0xDC, 0xFE);
    CFG_WRITE("BAR 0, upper half", 0x6A, 0x14, 0x0F, 0, 0, 0, 0);
    CFG_WRITE("memory on", 0x6B, 0x04, 0x01, 2, 0, 0, 0);
    SEND("a write across 80h", 0x40, 0, 0, 2, 0, 8, 0, 0xFF, 0xFE, 0xDC, 0, 0x7C, 1, 2, 3, 4, 5, 6, 7, 8);
    SEND("a read of three blocks", 0x00, 0, 0, 0x42, 0, 8, 0x6C, 0x7E, 0xFE, 0xDC, 0, 0x74);
    SEND("a FetchAdd", 0x4C, 0, 0, 1, 0, 8, 0x6D, 0, 0xFE, 0xDC, 0, 0x80, 1, 0, 0, 0);
    SEND("Type 1", 0x05, 0, 0, 1, 0, 8, 0x6F, 0x0F, 2, 0, 0, 0);
    SEND("Set_Slot_Power_Limit", 0x74, 0, 0, 1, 0, 0, 0, 0x50, 0, 0, 0, 0, 0, 0, 0, 0, 0x19, 0, 0, 0);
    SEND("a write past the BAR", 0x40, 0, 0, 1, 0, 8, 0, 0x0F, 0xFE, 0xDC, 0x10, 0, 1, 2, 3, 4);
    SEND("a completion", 0x0A, 0, 0, 0, 0, 0, 0, 4, 1, 0, 5, 0);
    SEND("a read across 1000h", 0x00, 0, 0, 2, 0, 8, 0x72, 0xFF, 0xFE, 0xDC, 0x0F, 0xFC);
    CFG_READ("Device Status", 0x71, 0x58);
    if (pciex_endpoint_bytes(&endpoint, bytes, sizeof bytes) == 0) {
        printf("at 7Ch: %02X%02X%02X%02X %02X\n", bytes[0x7C], bytes[0x7D], bytes[0x7E], bytes[0x7F], bytes[0x80]);
    }
    if (pciex_endpoint_trace(&endpoint, bytes, sizeof bytes, &length) == 0) {
        printf("%.*s%s\n", (int)length, (const char *)bytes,
               pciex_check_clocked(bytes, length, verdict, sizeof verdict) == 0 ? "ok" : "another history");
    }
    pciex_endpoint_reset(&endpoint);
    CFG_READ("BAR 0 after a reset", 0x73, 0x10);
    pciex_endpoint_free(&endpoint);
    return 0;
}
