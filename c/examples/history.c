/* A device with a history: it serves an addition and a read, and tells its history, its bytes and its refusals. */
#include "../pciex.h"

#include <stdio.h>

/* Whether each call is refused as the header says. */
static int refuses(void)
{
    pciex_device device = PCIEX_NONE;
    const uint8_t packet[3] = {0x4C, 0, 0};
    uint8_t room[PCIEX_LINE];
    size_t count;
    return pciex_device_new(0, 100, 64, &device) == PCIEX_WRONG_SIZE &&
           pciex_device_new(64, 4096, 64, &device) == PCIEX_WRONG_BASE &&
           pciex_device_new(0, 4096, 65, &device) == PCIEX_WRONG_BLOCK &&
           pciex_device_new(0, 4096, 64, NULL) == PCIEX_NULL &&
           pciex_device_history_length(&device, &count) == PCIEX_EMPTY &&
           pciex_device_new(0, 4096, 64, &device) == 0 &&
           pciex_device_new(0, 4096, 64, &device) == PCIEX_HELD &&
           pciex_device_entry(&device, 0, room, sizeof room) == PCIEX_NO_ENTRY &&
           pciex_device_entry(&device, 0, room, 9) == PCIEX_SMALL_ROOM &&
           pciex_device_serve(&device, 0, packet, sizeof packet, room, 9) == PCIEX_SMALL_ROOM &&
           pciex_device_serve(&device, 0, packet, sizeof packet, room, sizeof room) == 1001 &&
           (pciex_device_free(&device), pciex_device_free(&device), device.at == NULL);
}

int main(void)
{
    const uint8_t add[16] = {0x4C, 0, 0, 1, 1, 0, 5, 0, 0, 0, 0, 0x40, 7, 0, 0, 0};
    const uint8_t read[12] = {0, 0, 0, 1, 1, 0, 6, 0x0F, 0, 0, 0, 0x40};
    pciex_device device = PCIEX_NONE;
    uint8_t room[PCIEX_LINE], bytes[4096];
    size_t count = 0;
    if (!refuses() || pciex_device_new(0, sizeof bytes, 64, &device) != 0) {
        return 1;
    }
    uint32_t first = pciex_device_serve(&device, 0, add, sizeof add, room, sizeof room);
    uint32_t second = pciex_device_serve(&device, 1, read, sizeof read, room, sizeof room);
    pciex_device_history_length(&device, &count);
    printf("%u %u bytes, %lu entries\n", (unsigned)first, (unsigned)second, (unsigned long)count);
    for (size_t place = 0; place < count; place++) {
        uint32_t length = pciex_device_entry(&device, place, room, sizeof room);
        printf("%.*s\n", length < 1000 ? (int)length : 0, (const char *)room);
    }
    uint32_t code = pciex_device_bytes(&device, bytes, sizeof bytes);
    printf("%u at 40h\n", code == 0 ? (unsigned)bytes[0x40] : code);
    pciex_device_free(&device);
    return 0;
}
