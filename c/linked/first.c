/* An endpoint behind its end of a link: flow control is initialized, then the Vendor ID is read. */
#include "pciex.h"

#include <stdio.h>

/* All that the device sends. */
static void sends(pciex_linked *device)
{
    uint8_t room[PCIEX_LINK_PACKET];
    bool is_dllp = false;
    uint32_t count;
    while ((count = pciex_linked_next(device, room, sizeof room, &is_dllp)) > 0) {
        printf(is_dllp ? "dllp " : "packet ");
        for (uint32_t i = 0; i < count; i++) {
            printf("%02X", room[i]);
        }
        printf("\n");
    }
}

int main(void)
{
    const pciex_credits credits = {16, 64, 16, 16};
    const uint8_t first[3][4] = {{0x40, 8, 0, 0x80}, {0x50, 8, 0, 0x20}, {0x60, 0, 0, 0}}; /* the peer's InitFC1 */
    const uint8_t ids[] = {0, 0, 0x04, 0, 0, 1, 0, 8, 1, 0x0F, 1, 0, 0, 0}; /* sequence number 0 */
    pciex_linked device = PCIEX_NONE;
    if (pciex_linked_new(65536, 0x1234, 0x7C1E, &credits, false, &device) != 0) {
        return 1;
    }
    pciex_linked_up(&device);
    sends(&device);
    for (int i = 0; i < 3; i++) {
        pciex_linked_dllp(&device, first[i], 4, true);
    }
    sends(&device);
    pciex_linked_packet(&device, ids, sizeof ids, true);
    sends(&device);
    pciex_linked_free(&device);
}
