/*
 * A peer that breaks the rules of a link: each of its errors has its answer, and the endpoint goes on. Then bytes at
 * random, as packets and as DLLPs, in whatever state the link is; after them the endpoint answers as a new one.
 *
 * Prints the first row that has another answer.
 */
#include "../pciex.h"

#include <stdio.h>
#include <stdlib.h>
#include <string.h>

typedef enum call { UP, DOWN, REFRESH, REPLAY, RETRAINED, GOOD, FAILED, DLLP, DLLP_FAILED } call;

/* A call with the bytes of these digits, what it returns, and all that is sent then, with a comma between. */
typedef struct row {
    call call;
    const char *digits;
    uint32_t code;
    const char *sent;
} row;

static const pciex_credits credits = {1, 8, 2, 2};
static pciex_linked device = PCIEX_NONE;

static size_t bytes_of(const char *digits, uint8_t *bytes)
{
    size_t count = 0;
    for (unsigned high = 0, is_low = 0; *digits != 0; digits++) {
        if (*digits == ' ') {
            continue;
        }
        const unsigned digit = (unsigned)(*digits <= '9' ? *digits - '0' : *digits - 'A' + 10);
        if (is_low) {
            bytes[count++] = (uint8_t)(16 * high + digit);
        }
        high = digit;
        is_low = !is_low;
    }
    return count;
}

static uint32_t calls(const row *r)
{
    uint8_t bytes[256];
    const size_t length = bytes_of(r->digits, bytes);
    switch (r->call) {
        case UP:
            return pciex_linked_up(&device);
        case DOWN:
            return pciex_linked_down(&device);
        case REFRESH:
            return pciex_linked_refresh(&device);
        case REPLAY:
            return pciex_linked_replay(&device);
        case RETRAINED:
            return pciex_linked_retrained(&device);
        case GOOD:
            return pciex_linked_packet(&device, bytes, length, true);
        case FAILED:
            return pciex_linked_packet(&device, bytes, length, false);
        case DLLP:
            return pciex_linked_dllp(&device, bytes, length, true);
        case DLLP_FAILED:
            return pciex_linked_dllp(&device, bytes, length, false);
    }
    return PCIEX_NULL;
}

/* All that is sent, its digits with commas between. */
static void sends(char *text, size_t size)
{
    uint8_t room[PCIEX_LINK_PACKET];
    bool is_dllp;
    uint32_t length;
    size_t used = 0;
    text[0] = 0;
    while ((length = pciex_linked_next(&device, room, sizeof room, &is_dllp)) > 0) {
        if (length > sizeof room || is_dllp != (length == 4) || used + 2 * length + 2 > size) {
            strcpy(text, "another length");
            return;
        }
        used += (size_t)sprintf(text + used, used == 0 ? "" : ",");
        for (uint32_t i = 0; i < length; i++) {
            used += (size_t)sprintf(text + used, "%02X", room[i]);
        }
    }
}

static bool is_same(const char *text, const char *wanted)
{
    for (; *wanted != 0; wanted++) {
        if (*wanted != ' ' && *text++ != *wanted) {
            return false;
        }
    }
    return *text == 0;
}

static bool runs(const char *what, const row *rows, size_t count)
{
    char text[4096];
    for (size_t i = 0; i < count; i++) {
        const uint32_t code = calls(&rows[i]);
        sends(text, sizeof text);
        if (code != rows[i].code || !is_same(text, rows[i].sent)) {
            printf("%s, row %u: code %u, sent '%s'\n", what, (unsigned)i, (unsigned)code, text);
            return false;
        }
    }
    return true;
}

#define RUNS(what, rows) runs(what, rows, sizeof rows / sizeof *rows)

#define INIT1 "40004008,50008002,60000000"
#define INIT2 "C0004008,D0008002,E0000000"

/* Before the link is initialized. */
static const row initialization[] = {
    {GOOD, "0000 04000001 0008010F 01000000", PCIEX_PACKET_DROPPED, ""},
    {DLLP, "40004008", PCIEX_DLLP_GONE, ""},
    {UP, "", 0, INIT1},
    {GOOD, "0000 04000001 0008010F 01000000", PCIEX_PACKET_DROPPED, ""},
    {DLLP, "00000000", PCIEX_DLLP_GONE, ""},
    {DLLP, "80004008", PCIEX_DLLP_GONE, ""},
    /* a Data Link Feature DLLP */
    {DLLP, "02000001", PCIEX_DLLP_GONE, ""},
    {DLLP, "400040", PCIEX_DLLP_SHORT, ""},
    {DLLP, "4000400800", PCIEX_DLLP_SHORT, ""},
    {DLLP, "40404008", PCIEX_DLLP_SCALED, ""},
    {DLLP, "40005008", PCIEX_DLLP_SCALED, ""},
    /* 128 headers; 2048 data units */
    {DLLP, "40200008", PCIEX_DLLP_CREDIT_LIMIT, ""},
    {DLLP, "40004800", PCIEX_DLLP_CREDIT_LIMIT, ""},
    {DLLP_FAILED, "40004008", PCIEX_DLLP_GONE, ""},
    {DLLP, "40004008", PCIEX_DLLP_TOOK, ""},
    {DLLP, "50004002", PCIEX_DLLP_TOOK, ""},
    {REFRESH, "", 0, INIT1},
    /* completions: 2 headers, 9 data units */
    {DLLP, "60008009", PCIEX_DLLP_TOOK, INIT2},
    /* what comes then for a class counts no longer */
    {DLLP, "60000000", PCIEX_DLLP_GONE, ""},
    {DLLP, "E0000000", PCIEX_DLLP_TOOK, ""},
};

/* Packets out of order, and TLPs that are none. */
static const row packets[] = {
    /* ahead of the number that is waited for; too short for a number */
    {GOOD, "0005 04000001 0008010F 01000000", PCIEX_PACKET_NAK, "10000FFF"},
    {GOOD, "0006 04000001 0008010F 01000000", PCIEX_PACKET_QUIET, ""},
    {GOOD, "00", PCIEX_PACKET_QUIET, ""},
    {GOOD, "", PCIEX_PACKET_QUIET, ""},
    {GOOD, "0000 04000001 0008010F 01000000", PCIEX_TLP_ACCEPTED,
     "00000000, 9000C002, 0000 4A000001 00000004 00080100 34121E7C"},
    {FAILED, "0001 04000001 0008010F 01000000", PCIEX_PACKET_NAK, "10000000"},
    /* no TLP: below 4 bytes, an undefined Fmt, a prefix, a Length that isn't so; each has its number */
    {GOOD, "0001", PCIEX_TLP_MALFORMED, "00000001"},
    {GOOD, "0002 FFFFFF", PCIEX_TLP_MALFORMED, "00000002"},
    {GOOD, "0003 FF000001 0008010F 01000000", PCIEX_TLP_MALFORMED, "00000003"},
    {GOOD, "0004 80000000 04000001 0008010F 01000000", PCIEX_TLP_MALFORMED, "00000004"},
    {GOOD, "0005 04000002 0008010F 01000000", PCIEX_TLP_MALFORMED, "00000005, 90010002"},
    /* a locked read; a completion, whose credits are infinite; two messages and an I/O read */
    {GOOD, "0006 01000001 0008010F 01000000", PCIEX_TLP_MALFORMED, "00000006, 90014002"},
    {GOOD, "0007 0A000000 01000004 00080100", PCIEX_TLP_UNEXPECTED, "00000007"},
    {GOOD, "0008 34000000 00080041 00000000 00000000", PCIEX_TLP_IGNORED, "00000008, 80008008"},
    {GOOD, "0009 34000000 00080019 00000000 00000000", PCIEX_TLP_UNSUPPORTED, "00000009, 8000C008"},
    {GOOD, "000A 02000001 0008020F 00000000", PCIEX_TLP_ACCEPTED, "0000000A, 90018002, 0001 0A000000 00002004 00080200"},
    {GOOD, "000A 02000001 0008020F 00000000", PCIEX_PACKET_DUPLICATE, "0000000A"},
    /* the high bits of the number's bytes are ignored */
    {GOOD, "F00A 02000001 0008020F 00000000", PCIEX_PACKET_DUPLICATE, "0000000A"},
};

/* DLLPs that break the rules. */
static const row dllps[] = {
    {DLLP, "00000002", PCIEX_DLLP_NOT_OUTSTANDING, ""},
    {DLLP, "10000FFE", PCIEX_DLLP_NOT_OUTSTANDING, ""},
    {DLLP_FAILED, "00000001", PCIEX_DLLP_GONE, ""},
    {DLLP, "00000000", PCIEX_DLLP_TOOK, ""},
    /* an UpdateFC that leaves more than 127 headers or 2047 data units */
    {DLLP, "A0200000", PCIEX_DLLP_CREDIT_LIMIT, ""},
    {DLLP, "A0000801", PCIEX_DLLP_CREDIT_LIMIT, ""},
    /* an InitFC late, power management, a vendor's */
    {DLLP, "40004008", PCIEX_DLLP_GONE, ""},
    {DLLP, "20000000", PCIEX_DLLP_GONE, ""},
    {DLLP, "30000000", PCIEX_DLLP_GONE, ""},
    {DLLP, "FF000000", PCIEX_DLLP_GONE, ""},
    /* a Nak is an Ack and a replay; the fourth without progress stops the sender */
    {DLLP, "10000000", PCIEX_DLLP_TOOK, "0001 0A000000 00002004 00080200"},
    {DLLP, "10000000", PCIEX_DLLP_TOOK, "0001 0A000000 00002004 00080200"},
    {REPLAY, "", 0, "0001 0A000000 00002004 00080200"},
    {REPLAY, "", 0, ""},
    {REFRESH, "", 0, "0000000A, 8000C008, 90018002"},
    {RETRAINED, "", 0, "0001 0A000000 00002004 00080200"},
    {DLLP, "00000001", PCIEX_DLLP_TOOK, ""},
    {REPLAY, "", 0, ""},
};

/* More requests than the credits of 2 headers: both completions of the peer are used up, so the third request waits. */
static const row credits_used_up[] = {
    {GOOD, "000B 04000001 0008030F 00000000", PCIEX_TLP_ACCEPTED, "0000000B"},
    {GOOD, "000C 04000001 0008040F 00000000", PCIEX_TLP_ACCEPTED, "0000000C"},
    {GOOD, "000D 04000001 0008050F 00000000", PCIEX_PACKET_OVERFLOW, "0000000D, 9001C002"},
    {DLLP, "A000C009", PCIEX_DLLP_TOOK, "90020002, 0002 4A000001 00000004 00080300 34121E7C"},
    {DLLP, "A0010009", PCIEX_DLLP_TOOK, "90024002, 0003 4A000001 00000004 00080400 34121E7C"},
    /* the link goes down: what it had is lost */
    {GOOD, "000E 04000001 0008060F 00000000", PCIEX_TLP_ACCEPTED, "0000000E"},
    {DOWN, "", 0, ""},
    {DLLP, "A0014009", PCIEX_DLLP_GONE, ""},
    {REPLAY, "", 0, ""},
};

static uint64_t seed = 1;

static uint32_t draw(uint32_t below)
{
    seed = seed * 6364136223846793005u + 1442695040888963407u;
    return (uint32_t)((seed >> 33) % below);
}

/* A TLP of bytes at random, of which the first ones look like a request's. */
static size_t draw_tlp(uint8_t *tlp)
{
    static const uint8_t kinds[] = {0x00, 0x20, 0x40, 0x60, 0x04, 0x44, 0x05, 0x4A,
                                    0x0A, 0x4C, 0x6C, 0x4D, 0x4E, 0x74, 0x34, 0x42};
    const size_t length = draw(4) == 0 ? draw(160) : 12 + 4 * draw(6);
    for (size_t i = 0; i < length; i++) {
        tlp[i] = draw(2) == 0 ? 0 : (uint8_t)draw(256);
    }
    if (length > 3 && draw(4) != 0) {
        tlp[0] = kinds[draw(sizeof kinds)];
        tlp[1] = (uint8_t)(draw(8) == 0 ? draw(256) : 0);
        tlp[2] = 0;
        tlp[3] = (uint8_t)(draw(8) == 0 ? draw(256) : tlp[0] & 0x40 ? (length - 12) / 4 : 1);
    }
    return length;
}

/* Takes all that is to be sent: at most the replay buffer and some DLLPs. */
static bool takes_all(void)
{
    uint8_t room[PCIEX_LINK_PACKET];
    bool is_dllp;
    for (unsigned i = 0; i < 3000; i++) {
        const uint32_t length = pciex_linked_next(&device, room, sizeof room, &is_dllp);
        if (length == 0) {
            return true;
        }
        if (length > sizeof room || is_dllp != (length == 4)) {
            return false;
        }
    }
    return false;
}

/* So many calls with bytes at random, of which many are accepted: they have the number that is waited for. */
static bool survives(unsigned count)
{
    unsigned number = 0, acked = 4095, accepted = 0, taken = 0, overflows = 0;
    for (unsigned i = 0; i < count; i++) {
        uint8_t bytes[256] = {0};
        uint32_t code, state = 0;
        const unsigned what = draw(2000);
        if (pciex_linked_status(&device, &state) != 0) {
            return false;
        }
        if (what == 0 || (what < 200 && state == PCIEX_LINK_INACTIVE)) {
            pciex_linked_up(&device);
            number = 0;
            acked = 4095;
        } else if (what == 1) {
            pciex_linked_down(&device);
        } else if (what < 20) {
            pciex_linked_refresh(&device);
        } else if (what < 40) {
            pciex_linked_replay(&device);
            pciex_linked_retrained(&device);
        } else if (what < 1000) {
            const size_t length = 2 + draw_tlp(bytes + 2);
            const bool good = draw(8) != 0;
            const unsigned shown = draw(16) == 0 ? draw(65536) : number;
            bytes[0] = (uint8_t)(shown >> 8);
            bytes[1] = (uint8_t)shown;
            code = pciex_linked_packet(&device, bytes, draw(32) == 0 ? draw(3) : length, good);
            if (code <= PCIEX_PACKET_OVERFLOW) {
                number = (number + 1) % 4096;
                accepted++;
                overflows += code == PCIEX_PACKET_OVERFLOW;
            }
            if (code > PCIEX_PACKET_DROPPED) {
                return false;
            }
        } else {
            static const uint8_t kinds[] = {0x00, 0x10, 0x40, 0x50, 0x60, 0xC0, 0xD0, 0xE0, 0x80, 0x90, 0xA0, 0x02, 0x20};
            for (unsigned j = 0; j < 4; j++) {
                bytes[j] = (uint8_t)draw(256);
            }
            if (draw(4) != 0) {
                bytes[0] = kinds[draw(sizeof kinds)];
                bytes[1] = (uint8_t)(draw(4) == 0 ? bytes[1] : 0);
                bytes[2] = (uint8_t)(bytes[0] < 0x20 ? (acked + 1) >> 8 & 15 : bytes[2] & 0xC7);
                bytes[3] = bytes[0] < 0x20 ? (uint8_t)(acked + 1) : bytes[3];
            }
            code = pciex_linked_dllp(&device, bytes, draw(32) == 0 ? draw(9) : 4, draw(8) != 0);
            if (code > PCIEX_DLLP_GONE && (code < PCIEX_DLLP_SHORT || code > PCIEX_DLLP_CREDIT_LIMIT)) {
                return false;
            }
            if (code == PCIEX_DLLP_TOOK) {
                taken++;
                acked = bytes[0] < 0x20 ? bytes[2] % 16u * 256 + bytes[3] : acked;
            }
        }
        if (draw(3) != 0 && !takes_all()) {
            return false;
        }
    }
    return accepted > count / 8 && taken > count / 32 && overflows > count / 32;
}

/* A new endpoint's first rows, after a link that came up anew. */
static const row anew[] = {
    {DOWN, "", 0, ""},
    {UP, "", 0, INIT1},
    {DLLP, "40004008", PCIEX_DLLP_TOOK, ""},
    {DLLP, "50004002", PCIEX_DLLP_TOOK, ""},
    {DLLP, "60000000", PCIEX_DLLP_TOOK, INIT2},
    /* a good packet ends initialization */
    {GOOD, "0000 04000001 0008010F 01000000", PCIEX_TLP_ACCEPTED,
     "00000000, 9000C002, 0000 4A000001 00000004 00080100 34121E7C"},
};

/* The trace of all that the memory was asked is explained by its history. */
static bool is_explained(void)
{
    uint8_t verdict[PCIEX_LINE];
    size_t length = 0;
    if (pciex_linked_trace(&device, verdict, 1, &length) != PCIEX_SMALL_ROOM) {
        return false;
    }
    uint8_t *text = malloc(length);
    const bool right = text && pciex_linked_trace(&device, text, length, &length) == 0 &&
                       pciex_check_clocked(text, length, verdict, sizeof verdict) == 0;
    free(text);
    return right;
}

int main(int argc, char **argv)
{
    const unsigned count = argc > 1 ? (unsigned)strtoul(argv[1], NULL, 10) : 1000000;
    if (pciex_linked_new(4096, 0x1234, 0x7C1E, &credits, true, &device) != 0 || !RUNS("initialization", initialization) ||
        !RUNS("packets", packets) || !RUNS("DLLPs", dllps) || !RUNS("credits", credits_used_up)) {
        return 1;
    }
    if (!survives(count)) {
        printf("random bytes\n");
        return 1;
    }
    if (!RUNS("anew", anew)) {
        return 1;
    }
    if (!is_explained()) {
        printf("the trace isn't explained\n");
        return 1;
    }
    pciex_linked_free(&device);
    printf("each error has its answer; random bytes are answered\n");
    return 0;
}
