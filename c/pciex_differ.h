/*
 * For a scoreboard: the first field in which a device's completion differs from the one of pciex_answer. For C99 and C++,
 * beside pciex.h.
 */
#ifndef PCIEX_DIFFER_H
#define PCIEX_DIFFER_H

#include "pciex.h"

#ifdef __cplusplus
extern "C" {
#endif

/* A part of byte `place` of a completion's header: the bits of `mask`. */
typedef struct pciex_field {
    const char *name;
    uint8_t place;
    uint8_t mask;
} pciex_field;

/* Whether the request enables byte `place` of its completion's data: all of an AtomicOp's, and those of a memory read
   that First and Last DW BE name, and between these. */
static inline bool pciex_is_enabled(const uint8_t *request, size_t place)
{
    const size_t count = (size_t)(request[2] & 3) << 8 | request[3];
    const size_t last = (count == 0 ? 1024 : count) - 1;
    if ((request[0] & 0xDF) != 0) {
        return true;
    }
    if (place / 4 == 0) {
        return request[7] >> place & 1;
    }
    return place / 4 != last || request[7] >> (4 + place % 4) & 1;
}

/*
 * Compares a device's completion of a request, `got`, with the one that is expected. `expected_length` is the code that
 * pciex_answer or pciex_device_serve returned, and `expected` its completion. `got_length` is 0 if no completion came.
 * NULL if they are the same, otherwise the name of the first field that differs. Not compared are the Completer ID, BCM,
 * the bit before Lower Address, and bytes of data that the request does not enable.
 */
static inline const char *pciex_differ(const uint8_t *request, const uint8_t *expected, uint32_t expected_length,
                                       const uint8_t *got, size_t got_length)
{
    static const pciex_field fields[] = {
        {"Status", 6, 0xE0},      {"Fmt and Type", 0, 0xFF}, {"Requester ID", 8, 0xFF},  {"Requester ID", 9, 0xFF},
        {"Tag", 10, 0xFF},        {"TC", 1, 0x70},           {"Attr", 1, 0x04},          {"Attr", 2, 0x30},
        {"Length", 2, 0x03},      {"Length", 3, 0xFF},       {"Byte Count", 6, 0x0F},    {"Byte Count", 7, 0xFF},
        {"Lower Address", 11, 0x7F},
    };
    uint8_t room[PCIEX_LINE];
    if (expected_length >= 1000) {
        return "the request";
    }
    if (expected_length == 0 || got_length == 0) {
        return expected_length == got_length ? NULL : got_length == 0 ? "no completion" : "a completion";
    }
    if (pciex_decode(got, got_length, room, sizeof room) >= 1000 || (got[0] & 0xBF) != 0x0A) {
        return "not a completion";
    }
    for (size_t i = 0; i < sizeof fields / sizeof fields[0]; i++) {
        if ((expected[fields[i].place] ^ got[fields[i].place]) & fields[i].mask) {
            return fields[i].name;
        }
    }
    for (size_t i = 12; i < got_length; i++) {
        if (expected[i] != got[i] && pciex_is_enabled(request, i - 12)) {
            return "data";
        }
    }
    return NULL;
}

#ifdef __cplusplus
}
#endif

#endif
