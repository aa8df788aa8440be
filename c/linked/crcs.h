/* The CRCs of a link, bit by bit, apart from the library (PCI Express Base 4.0, sections 3.5.1 and 3.6.2.2). */
#ifndef CRCS_H
#define CRCS_H

#include <stddef.h>
#include <stdint.h>

/* The complemented remainder, whose lowest byte is sent first; bit 0 of each byte goes in first. */
static inline uint32_t crc_of(const uint8_t *bytes, size_t length, uint32_t reflected, uint32_t ones)
{
    uint32_t remainder = ones;
    for (size_t i = 0; i < length; i++) {
        for (unsigned bit = 0; bit < 8; bit++) {
            const uint32_t out = (remainder ^ (uint32_t)(bytes[i] >> bit)) & 1;
            remainder = remainder >> 1 ^ (out ? reflected : 0);
        }
    }
    return remainder ^ ones;
}

/* The bytes with their CRC: of a DLLP two bytes, of a packet four. Returns how many they are. */
static inline size_t with_crc(uint8_t *bytes, size_t length, int is_dllp)
{
    const uint32_t crc = is_dllp ? crc_of(bytes, length, 0xD008, 0xFFFF) : crc_of(bytes, length, 0xEDB88320, 0xFFFFFFFF);
    const unsigned count = is_dllp ? 2 : 4;
    for (unsigned i = 0; i < count; i++) {
        bytes[length + i] = (uint8_t)(crc >> 8 * i);
    }
    return length + count;
}

/* Whether the CRC at the end is right, and how many bytes come before it. */
static inline int is_good(const uint8_t *bytes, size_t length, int is_dllp, size_t *before)
{
    uint8_t copy[256];
    const size_t count = is_dllp ? 2 : 4;
    if (length < count || length > sizeof copy) {
        *before = length;
        return 0;
    }
    *before = length - count;
    for (size_t i = 0; i < *before; i++) {
        copy[i] = bytes[i];
    }
    with_crc(copy, *before, is_dllp);
    for (size_t i = *before; i < length; i++) {
        if (copy[i] != bytes[i]) {
            return 0;
        }
    }
    return 1;
}

#endif
