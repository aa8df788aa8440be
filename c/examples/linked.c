/* An endpoint behind its link: initialization, requests, a replay. Prints what became of what arrives, and what is sent. */
#include "../pciex.h"

#include <stdio.h>
#include <string.h>

static const pciex_credits credits = {16, 64, 16, 16};
static pciex_linked device = PCIEX_NONE;

/* The bytes of digits, between which there may be spaces. */
static size_t bytes_of(const char *digits, uint8_t *bytes)
{
    size_t count = 0;
    unsigned high = 0;
    for (bool is_low = false; *digits != 0; digits++) {
        if (*digits == ' ') {
            continue;
        }
        const unsigned digit = (unsigned)(*digits <= '9' ? *digits - '0' : *digits - 'A' + 10);
        if (is_low) {
            bytes[count++] = (uint8_t)(16 * high + digit);
        }
        high = digit;
        is_low = !is_low;
    }
    return count;
}

/* Prints what is sent, a packet with a space behind its sequence number. */
static void sends(void)
{
    uint8_t room[PCIEX_LINK_PACKET];
    bool is_dllp;
    uint32_t code;
    while ((code = pciex_linked_next(&device, room, sizeof room, &is_dllp)) > 0 && code < 1000) {
        printf(is_dllp ? "  dllp " : "  packet ");
        for (uint32_t i = 0; i < code && i < 26; i++) {
            printf(!is_dllp && i % 4 == 2 ? " %02X" : "%02X", room[i]);
        }
        if (code > 26) {
            printf(" and %u bytes", (unsigned)code - 26);
        }
        printf("\n");
    }
}

static void packet(const char *digits, bool good)
{
    static const char *const became[] = {"accept", "accept, Ignored", "accept, Unsupported", "accept, Unexpected",
                                         "accept, Malformed", "accept, Overflow", "duplicate", "nak", "quiet", "drop"};
    uint8_t bytes[256];
    const size_t length = bytes_of(digits, bytes);
    const uint32_t code = pciex_linked_packet(&device, bytes, length, good);
    printf("packet %s %s: %s\n", digits, good ? "good" : "failed", code < 10 ? became[code] : "refused");
    sends();
}

static void dllp(const char *digits, bool good)
{
    static const char *const refused[] = {"Short", "", "Scaled", "NotOutstanding", "CreditLimit"};
    uint8_t bytes[16];
    const size_t length = bytes_of(digits, bytes);
    const uint32_t code = pciex_linked_dllp(&device, bytes, length, good);
    printf("dllp %s %s: %s\n", digits, good ? "good" : "failed",
           code == PCIEX_DLLP_TOOK   ? "took"
           : code == PCIEX_DLLP_GONE ? "gone"
           : code < 1006             ? refused[code - 1001]
                                     : "no code");
    sends();
}

static void status(void)
{
    static const char *const states[] = {"inactive", "init1", "init2", "active", "stopped"};
    uint32_t code = 0;
    printf("%s\n", pciex_linked_status(&device, &code) == 0 && code < 5 ? states[code] : "refused");
}

/* Whether each call is refused as the header says, also for each credit on both sides of its range. */
static int refuses(void)
{
    static const pciex_credits wrong[] = {{0, 64, 16, 16},    {128, 64, 16, 16}, {16, 7, 16, 16},  {16, 2048, 16, 16},
                                          {16, 64, 0, 16},    {16, 64, 128, 16}, {16, 64, 16, 1},  {16, 64, 16, 2048},
                                          {16, 0, 16, 16},    {16, 64, 16, 0},   {255, 64, 16, 16}};
    static const pciex_credits least = {1, 8, 1, 2}, most = {127, 2047, 127, 2047};
    const uint8_t bytes[4] = {0x40, 0x08, 0x00, 0x80};
    uint8_t room[4096];
    bool is_dllp = false;
    uint32_t state = 9;
    size_t length = 7;
    pciex_linked l = PCIEX_NONE;
    int right = pciex_linked_new(4096, 1, 2, NULL, false, &l) == PCIEX_NULL &&
                pciex_linked_new(4096, 1, 2, &least, false, NULL) == PCIEX_NULL &&
                pciex_linked_packet(&l, bytes, 4, true) == PCIEX_EMPTY &&
                pciex_linked_dllp(&l, bytes, 4, true) == PCIEX_EMPTY &&
                pciex_linked_next(&l, room, sizeof room, &is_dllp) == PCIEX_EMPTY &&
                pciex_linked_status(&l, &state) == PCIEX_EMPTY && pciex_linked_up(&l) == PCIEX_EMPTY &&
                pciex_linked_down(&l) == PCIEX_EMPTY && pciex_linked_refresh(&l) == PCIEX_EMPTY &&
                pciex_linked_replay(&l) == PCIEX_EMPTY && pciex_linked_retrained(&l) == PCIEX_EMPTY &&
                pciex_linked_bytes(&l, room, sizeof room) == PCIEX_EMPTY &&
                pciex_linked_trace(&l, room, sizeof room, &length) == PCIEX_EMPTY && length == 7;
    for (size_t i = 0; i < sizeof wrong / sizeof *wrong; i++) {
        right = right && pciex_linked_new(4096, 1, 2, &wrong[i], true, &l) == PCIEX_WRONG_CREDITS &&
                pciex_linked_new(6144, 1, 2, &wrong[i], true, &l) == PCIEX_WRONG_SIZE && l.at == NULL;
    }
    right = right && pciex_linked_new(2048, 1, 2, &least, false, &l) == PCIEX_WRONG_SIZE &&
            pciex_linked_new(4096, 1, 2, &most, false, &l) == 0 &&
            pciex_linked_new(4096, 1, 2, &most, false, &l) == PCIEX_HELD;
    pciex_linked_free(&l);
    right = right && l.at == NULL && pciex_linked_new(4096, 1, 2, &least, false, &l) == 0 &&
            pciex_linked_packet(&l, NULL, 4, true) == PCIEX_NULL && pciex_linked_dllp(&l, NULL, 4, true) == PCIEX_NULL &&
            pciex_linked_next(&l, NULL, 146, &is_dllp) == PCIEX_NULL &&
            pciex_linked_next(&l, room, 146, NULL) == PCIEX_NULL && pciex_linked_status(&l, NULL) == PCIEX_NULL &&
            pciex_linked_bytes(&l, NULL, 4096) == PCIEX_NULL &&
            pciex_linked_trace(NULL, room, sizeof room, &length) == PCIEX_NULL &&
            pciex_linked_trace(&l, NULL, 0, &length) == PCIEX_NULL &&
            pciex_linked_trace(&l, room, sizeof room, NULL) == PCIEX_NULL && length == 7 && pciex_linked_up(&l) == 0 &&
            pciex_linked_status(&l, &state) == 0 && state == PCIEX_LINK_INIT1 &&
            pciex_linked_next(&l, room, PCIEX_LINK_PACKET - 1, &is_dllp) == PCIEX_SMALL_ROOM && !is_dllp &&
            pciex_linked_next(&l, room, PCIEX_LINK_PACKET, &is_dllp) == 4 && is_dllp && room[0] == 0x40 &&
            pciex_linked_down(&l) == 0 && pciex_linked_next(&l, room, sizeof room, &is_dllp) == 0 && !is_dllp &&
            pciex_linked_bytes(&l, room, 4095) == PCIEX_SMALL_ROOM && room[0] == 0x40 &&
            pciex_linked_bytes(&l, room, sizeof room) == 0 && room[0] == 0 &&
            pciex_linked_trace(&l, room, 43, &length) == PCIEX_SMALL_ROOM && length == 44 && room[0] == 0 &&
            pciex_linked_trace(&l, room, 44, &length) == 0 && length == 44 &&
            memcmp(room, "pciex-trace 2\nmemory 0 4096 128\nhistory\nend\n", 44) == 0 && room[44] == 0;
    pciex_linked_free(&l);
    pciex_linked_free(&l);
    return right && l.at == NULL;
}

int main(void)
{
    uint8_t bytes[4096];
    size_t length = 0;
    if (!refuses() || pciex_linked_new(4096, 0x1234, 0x7C1E, &credits, true, &device) != 0) {
        return 1;
    }
    packet("0000 04000001 0008630F 01000000", true);
    pciex_linked_up(&device);
    sends();
    packet("0000 04000001 0008630F 01000000", true);
    pciex_linked_refresh(&device);
    dllp("40080080", true);
    dllp("50080020", false);
    dllp("50080020", true);
    dllp("60000000", true);
    status();
    dllp("C0080080", true);
    status();
    packet("0000 04000001 0008630F 01000000", true);
    packet("0000 04000001 0008630F 01000000", true);
    packet("0001 44000001 0008640F 01000010 FFFFFFFF", false);
    packet("0001 44000001 0008640F 01000010 0000DCFE", false);
    packet("0001 44000001 0008640F 01000010 0000DCFE", true);
    packet("0002 44000001 00086501 01000004 02000000", true);
    packet("0003 40000002 000800FF FEDC007C 11223344 55667788", true);
    packet("0004 00000042 00086C7E FEDC0074", true);
    packet("0005 4C000001 00086D00 FEDC0080 01000000", true);
    packet("0006 74000001 00000050 00000000 00000000 19000000", true);
    dllp("00000004", true);
    dllp("00000000", true);
    pciex_linked_replay(&device);
    printf("replay\n");
    sends();
    dllp("10000005", true);
    dllp("00000006", true);
    if (pciex_linked_bytes(&device, bytes, sizeof bytes) == 0) {
        printf("at 7Ch: %02X%02X%02X%02X %02X\n", bytes[0x7C], bytes[0x7D], bytes[0x7E], bytes[0x7F], bytes[0x80]);
    }
    pciex_linked_down(&device);
    status();
    if (pciex_linked_trace(&device, bytes, sizeof bytes, &length) == 0) {
        printf("%.*s", (int)length, (char *)bytes);
    }
    pciex_linked_free(&device);
    return 0;
}
