/* A device of one's own, which loses the second addition, and where HOOK stands the five lines of
   docs/judge-your-own-device.md. */
#include "pciex_differ.h"

#include <stdio.h>
#include <string.h>

static uint8_t memory[4096];

static size_t my_device(int turn, const uint8_t *request, size_t request_length, uint8_t *completion)
{
    static uint8_t mine[4096];
    uint8_t before[4096];
    memcpy(before, mine, sizeof mine);
    uint32_t code = pciex_answer(mine, sizeof mine, 0, 64, request, request_length, completion, PCIEX_PACKET);
    if (turn == 1) {
        memcpy(mine, before, sizeof mine);
    }
    return code;
}

int main(void)
{
    const uint8_t request[16] = {0x4C, 0, 0, 1, 1, 0, 5, 0, 0, 0, 0, 0x40, 7, 0, 0, 0};
    const size_t request_length = sizeof request;
    for (int turn = 0; turn < 3; turn++) {
        uint8_t got[PCIEX_PACKET];
        size_t got_length = my_device(turn, request, request_length, got);
        printf("request %d\n", turn);
        HOOK
    }
    return 0;
}
