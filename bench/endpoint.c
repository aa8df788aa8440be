/* A number of FetchAdds at an endpoint, each with its completion: endpoint CALLS [link | crc]. With `link` it is behind its
   link, whose peer acknowledges each completion; with `crc` the CRCs of all that passes are computed, too. The status is 0
   if each addition was counted. */
#include <pciex.h>
#include <stdbool.h>
#include <stdlib.h>
#include <string.h>

static const uint8_t set_up[2][16] = {
    {0x44, 0, 0, 1, 0, 8, 1, 0x0F, 1, 0, 0, 0x10, 0, 0, 0xDC, 0xFE},
    {0x44, 0, 0, 1, 0, 8, 2, 0x01, 1, 0, 0, 0x04, 2, 0, 0, 0},
};
static const uint8_t add[16] = {0x4C, 0, 0, 1, 0, 8, 3, 0, 0xFE, 0xDC, 0, 0x40, 1, 0, 0, 0};

static pciex_endpoint alone = PCIEX_NONE;
static pciex_linked linked = PCIEX_NONE;
static bool with_crc;
static unsigned number; /* the next sequence number, of both directions */

/* A TLP and all its completions. */
static bool serve(const uint8_t *tlp)
{
    uint8_t room[PCIEX_PACKET];
    unsigned completions = 0;
    bool right = pciex_endpoint_tlp(&alone, tlp, 16) == PCIEX_TLP_ACCEPTED;
    while (pciex_endpoint_next(&alone, room, sizeof room) > 0) {
        completions++;
    }
    return right && completions == 1;
}

static bool arrives(const uint8_t *dllp)
{
    uint8_t bytes[6];
    bool good = true;
    memcpy(bytes, dllp, 4);
    if (with_crc) {
        pciex_dllp_crc(bytes, 4, bytes + 4, 2);
        good = pciex_dllp_check(bytes, 6) == PCIEX_GOOD;
    }
    return pciex_linked_dllp(&linked, bytes, 4, good) == PCIEX_DLLP_TOOK;
}

/* What the endpoint sends: how many packets. */
static unsigned sends(void)
{
    uint8_t room[PCIEX_LINK_PACKET + 4];
    unsigned packets = 0;
    bool is_dllp = false;
    uint32_t length;
    while ((length = pciex_linked_next(&linked, room, sizeof room, &is_dllp)) > 0) {
        packets += !is_dllp;
        if (with_crc && is_dllp) {
            pciex_dllp_crc(room, length, room + length, 2);
        } else if (with_crc) {
            pciex_lcrc(room, length, room + length, 4);
        }
    }
    return packets;
}

/* The same as `serve`, in a packet. */
static bool carry(const uint8_t *tlp)
{
    const uint8_t ack[4] = {0, 0, (uint8_t)(number >> 8), (uint8_t)number};
    uint8_t packet[22] = {(uint8_t)(number >> 8), (uint8_t)number};
    bool good = true;
    memcpy(packet + 2, tlp, 16);
    if (with_crc) {
        pciex_lcrc(packet, 18, packet + 18, 4);
        good = pciex_lcrc_check(packet, 22) == PCIEX_GOOD;
    }
    number = (number + 1) % 4096;
    return pciex_linked_packet(&linked, packet, 18, good) == PCIEX_TLP_ACCEPTED && sends() == 1 && arrives(ack);
}

/* The link comes up; the peer's credits are infinite. */
static bool initialize(void)
{
    static const uint8_t dllps[4][4] = {{0x40}, {0x50}, {0x60}, {0xC0}};
    const pciex_credits credits = {16, 64, 16, 16};
    bool right = pciex_linked_new(65536, 0x1234, 0x7C1E, &credits, false, &linked) == 0 && pciex_linked_up(&linked) == 0;
    for (int i = 0; i < 4; i++) {
        right = right && arrives(dllps[i]);
    }
    return right && sends() == 0;
}

int main(int count, char **words)
{
    static uint8_t bytes[65536];
    const unsigned long calls = count > 1 ? strtoul(words[1], NULL, 10) : 0;
    const bool is_linked = count > 2;
    with_crc = is_linked && strcmp(words[2], "crc") == 0;
    bool right = is_linked ? initialize() : pciex_endpoint_new(65536, 0x1234, 0x7C1E, false, &alone) == 0;
    for (unsigned long i = 0; right && i < calls + 2; i++) {
        const uint8_t *tlp = i < 2 ? set_up[i] : add;
        right = is_linked ? carry(tlp) : serve(tlp);
    }
    right = right && (is_linked ? pciex_linked_bytes(&linked, bytes, sizeof bytes)
                                : pciex_endpoint_bytes(&alone, bytes, sizeof bytes)) == 0;
    const unsigned long word = (unsigned long)bytes[0x40] | (unsigned long)bytes[0x41] << 8 |
                               (unsigned long)bytes[0x42] << 16 | (unsigned long)bytes[0x43] << 24;
    return !right || word != calls % 0x100000000;
}
