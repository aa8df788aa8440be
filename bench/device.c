/* A number of calls of pciex_answer on a device of 4 KiB, FetchAdds and reads in turn: device CALLS. The status is 0 if
   each addition was counted. */
#include <pciex.h>
#include <stdlib.h>

static uint8_t memory[4096];

int main(int count, char **words)
{
    const uint8_t add[16] = {0x4C, 0, 0, 1, 1, 0, 5, 0, 0, 0, 0, 0x40, 1, 0, 0, 0};
    const uint8_t read[12] = {0, 0, 0, 1, 1, 0, 6, 0x0F, 0, 0, 0, 0x40};
    uint8_t room[PCIEX_PACKET];
    unsigned long calls = count > 1 ? strtoul(words[1], NULL, 10) : 0;
    for (unsigned long i = 0; i < calls; i++) {
        uint32_t code = i % 2 ? pciex_answer(memory, sizeof memory, 0, 64, read, sizeof read, room, sizeof room)
                              : pciex_answer(memory, sizeof memory, 0, 64, add, sizeof add, room, sizeof room);
        if (code != 16) {
            return 1;
        }
    }
    unsigned long word = (unsigned long)memory[0x40] | (unsigned long)memory[0x41] << 8 |
                         (unsigned long)memory[0x42] << 16 | (unsigned long)memory[0x43] << 24;
    return word != (calls + 1) / 2 % 0x100000000;
}
