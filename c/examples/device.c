/* A device loop: a TLP a line in hexadecimal in, its completion out, `-` for a posted write, as `pciex tlp` prints
   them. A line that isn't one of bytes is passed over. With a number, that many FetchAdds, and how long one takes. */
#include "../pciex.h"

#include <ctype.h>
#include <stdio.h>
#include <stdlib.h>
#include <time.h>

static uint8_t memory[4096];

/* The bytes of a line's digits; 0 for a comment, an empty line, or a line that is none. */
static size_t read_packet(const char *line, uint8_t *packet, size_t most)
{
    size_t digits = 0;
    if (*line == '#') {
        return 0;
    }
    for (; *line && *line != '\n'; line++) {
        const char digit[2] = {*line, 0};
        if (*line == ' ') {
            continue;
        }
        if (!isxdigit((unsigned char)*line) || digits / 2 == most) {
            return 0;
        }
        uint8_t value = (uint8_t)strtoul(digit, NULL, 16);
        packet[digits / 2] = digits % 2 ? (uint8_t)(packet[digits / 2] | value) : (uint8_t)(value << 4);
        digits++;
    }
    return digits % 2 ? 0 : digits / 2;
}

static void tell(uint32_t code, const uint8_t *room)
{
    if (code == 0) {
        puts("-");
    } else if (code < 1000) {
        for (uint32_t i = 0; i < code; i++) {
            printf("%s%02X", i > 0 && i % 4 == 0 ? " " : "", room[i]);
        }
        putchar('\n');
    } else if (code < 2000) {
        uint8_t name[PCIEX_LINE];
        uint32_t count = pciex_fault_name(code - 1000, name, sizeof name);
        printf("fault %u %.*s\n", (unsigned)(code - 1000), count < 1000 ? (int)count : 0, (const char *)name);
    } else if (code == PCIEX_NO_REQUEST) {
        puts("fault completion");
    } else {
        printf("code %u\n", (unsigned)code);
    }
}

static int measure(long calls)
{
    const uint8_t add[16] = {0x4C, 0, 0, 1, 1, 0, 5, 0, 0, 0, 0, 0x40, 1, 0, 0, 0};
    uint8_t room[PCIEX_PACKET];
    clock_t begin = clock();
    for (long i = 0; i < calls; i++) {
        if (pciex_answer(memory, sizeof memory, 0, 64, add, sizeof add, room, sizeof room) != 16) {
            return 1;
        }
    }
    double seconds = (double)(clock() - begin) / CLOCKS_PER_SEC;
    uint32_t word = (uint32_t)memory[0x40] | (uint32_t)memory[0x41] << 8 | (uint32_t)memory[0x42] << 16 |
                    (uint32_t)memory[0x43] << 24;
    printf("%ld calls, word %lu, %.0f ns a call\n", calls, (unsigned long)word, 1e9 * seconds / (double)calls);
    return 0;
}

int main(int count, char **words)
{
    char line[2 * PCIEX_LINE];
    if (count > 1) {
        return measure(strtol(words[1], NULL, 10));
    }
    while (fgets(line, sizeof line, stdin)) {
        uint8_t packet[PCIEX_LINE];
        uint8_t room[PCIEX_PACKET];
        size_t length = read_packet(line, packet, sizeof packet);
        if (length > 0) {
            tell(pciex_answer(memory, sizeof memory, 0, 64, packet, length, room, sizeof room), room);
        }
    }
    return 0;
}
