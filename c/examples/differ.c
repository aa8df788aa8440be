/* pciex_differ: a completion with one byte changed, and which field a scoreboard names then. */
#include "../pciex_differ.h"

#include <stdio.h>
#include <string.h>

static void show(const char *what, const char *field)
{
    printf("%s: %s\n", what, field ? field : "the same");
}

int main(void)
{
    static const struct {
        uint8_t place, bits;
    } rows[] = {{4, 0xFF}, {6, 0x10}, {11, 0x80}, {8, 1},    {9, 1},  {10, 1}, {1, 0x10}, {1, 4},  {2, 0x20},
                {3, 3},    {6, 1},    {7, 1},     {11, 0x40}, {13, 1}, {14, 1}, {17, 1},   {18, 1}, {6, 0x20}};
    static uint8_t memory[4096];
    const uint8_t write[16] = {0x40, 0, 0, 1, 1, 0, 0, 0x0F, 0, 0, 0, 0x40, 1, 2, 3, 4};
    const uint8_t read[12] = {0, 0, 0, 2, 1, 0, 5, 0x3C, 0, 0, 0, 0x40}; /* First DW BE 1100b, Last DW BE 0011b */
    const uint8_t gap[12] = {0, 0, 0, 1, 1, 0, 5, 0x0D, 0, 0, 0, 0x40};
    const uint8_t cpl[12] = {0x0A, 0, 0, 0, 0, 0, 0x20, 4, 1, 0, 5, 0x42};
    const uint8_t ack[4] = {0};
    uint8_t expected[PCIEX_PACKET], got[PCIEX_PACKET];
    char what[40];
    uint32_t length = pciex_answer(memory, sizeof memory, 0, 64, write, sizeof write, expected, sizeof expected);
    show("a write without a completion", pciex_differ(write, expected, length, got, 0));
    length = pciex_answer(memory, sizeof memory, 0, 64, read, sizeof read, expected, sizeof expected);
    for (size_t i = 0; i < sizeof rows / sizeof rows[0]; i++) {
        memcpy(got, expected, length);
        got[rows[i].place] ^= rows[i].bits;
        snprintf(what, sizeof what, "byte %u, bits %02X", (unsigned)rows[i].place, (unsigned)rows[i].bits);
        show(what, pciex_differ(read, expected, length, got, length));
    }
    show("a Cpl", pciex_differ(read, expected, length, cpl, sizeof cpl));
    show("an Ack", pciex_differ(read, expected, length, ack, sizeof ack));
    show("the read itself", pciex_differ(read, expected, length, read, sizeof read));
    show("a byte less", pciex_differ(read, expected, length, expected, length - 1));
    show("none", pciex_differ(read, expected, length, got, 0));
    show("one for a write", pciex_differ(write, expected, 0, got, length));
    show("a request that is none", pciex_differ(read, expected, 1001, got, length));
    length = pciex_answer(memory, sizeof memory, 0, 64, gap, sizeof gap, expected, sizeof expected);
    for (size_t place = 12; place < 16; place++) {
        memcpy(got, expected, length);
        got[place] ^= 1;
        snprintf(what, sizeof what, "a read but for byte 1: byte %u", (unsigned)place);
        show(what, pciex_differ(gap, expected, length, got, length));
    }
    return 0;
}
