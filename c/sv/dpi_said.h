/*
 * What the functions of pciex_dpi.c share, which alone includes it: packets, the texts of pciex_said(), and results.
 */
#ifndef PCIEX_DPI_SAID_H
#define PCIEX_DPI_SAID_H

#include "../pciex.h"

#include "svdpi.h"

#include <stdlib.h>
#include <string.h>

/* The bytes of a packet_t. */
#define MOST 150

/* The memory of pciex_memory_new. */
typedef struct memory {
    uint8_t *bytes;
    size_t size;
    uint64_t base;
    uint16_t block;
} memory;

/* What pciex_said() returns: the text in `said`, or a longer one in `large`. */
static char said[PCIEX_LINE + 1];
static char *large;

static void say(const uint8_t *text, size_t length)
{
    free(large);
    large = NULL;
    length = length > PCIEX_LINE ? PCIEX_LINE : length;
    memcpy(said, text, length);
    said[length] = 0;
}

static void say_line(const char *text)
{
    say((const uint8_t *)text, strlen(text));
}

/* Says a text that was allocated, which is freed by the next call. */
static void say_large(char *text)
{
    say_line("");
    large = text;
}

/* Says why a call returns a code that has no text of its own. */
static void say_why(uint32_t code)
{
    static const struct {
        uint32_t code;
        const char *text;
    } all[] = {
        {PCIEX_TAG_IN_USE, "TagInUse (a request is open under this tag)"},
        {PCIEX_UNEXPECTED, "Unexpected (no request is open under this tag, or none of this number waits to act)"},
        {PCIEX_MISMATCH, "Mismatch (status or length of data don't fit the request)"},
        {PCIEX_OTHER_REQUESTER, "OtherRequester (the Requester ID isn't that of the port's first request)"},
        {PCIEX_NUMBERS_USED, "NumbersUsed (all numbers of requests are spent)"},
        {PCIEX_SMALL_ROOM, "a packet has 0 to 150 bytes"},
        {PCIEX_WRONG_BLOCK, "a block has 64 or 128 bytes"},
        {PCIEX_NO_REQUEST, "NoRequest (the packet is a completion)"},
        {PCIEX_NO_MEMORY, "memory"},
        {PCIEX_WRONG_SIZE, "128 to 1048576 bytes, a multiple of 128"},
        {PCIEX_WRONG_BASE, "a base is a multiple of 128, with its bytes below 2^64"},
        {PCIEX_NO_ENTRY, "there is nothing at this place"},
        {PCIEX_NO_FAULT, "no fault has this number"},
        {PCIEX_NO_LINE, "the line has another form"},
        {PCIEX_NO_COMPLETION, "NoCompletion (the packet is a request)"},
        {PCIEX_NO_REQUESTER, "NoRequester (requesters are 1 to 7)"},
        {PCIEX_WRONG_GRANULARITY, "a search has pieces of 4, 8, 16 or 64 bytes, or PCIEX_WHOLE"},
        {PCIEX_WRONG_CREDITS, "credits are 1 to 127, 8 to 2047, 1 to 127, 2 to 2047"},
        {PCIEX_NULL, "there is no handle"},
        {PCIEX_EMPTY, "the monitor writes no file"},
        {PCIEX_HELD, "the monitor writes a file already"},
    };
    uint8_t name[PCIEX_LINE];
    const uint32_t length = code < 2000 ? pciex_fault_name(code - 1000, name, sizeof name) : 1000;
    say(name, length < 1000 ? length : 0);
    for (size_t i = 0; i < sizeof all / sizeof all[0]; i++) {
        if (all[i].code == code) {
            say_line(all[i].text);
        }
    }
}

/* The result of a call with a text in the buffer, which becomes the text of pciex_said(). */
static int told(uint32_t code, const uint8_t *room)
{
    if (code >= 2000) {
        say_why(code);
        return -(int)code;
    }
    say(room, code < 1000 ? code : code - 1000);
    return code < 1000 ? (int)code : -(int)code;
}

/* The result of a call without a text. */
static int plain(uint32_t code, int result)
{
    if (code != 0) {
        say_why(code);
        return -(int)code;
    }
    say_line("");
    return result;
}

/* The result of a call with a packet in the buffer, which goes into `to`. The text is the name of a packet's fault. */
static int packed(uint32_t code, const uint8_t *room, svBitVecVal *to)
{
    memset(to, 0, sizeof(svBitVecVal) * ((MOST + 3) / 4));
    if (code >= 1000) {
        say_why(code);
        return -(int)code;
    }
    say_line("");
    for (uint32_t i = 0; i < code && i < MOST; i++) {
        to[i / 4] |= (svBitVecVal)room[i] << 8 * (i % 4);
    }
    return (int)code;
}

/* Puts the bytes of a packet_t into `bytes`. Returns whether its length is 0 to MOST. */
static bool unpack(const svBitVecVal *from, int length, uint8_t *bytes)
{
    for (int i = 0; i < MOST; i++) {
        bytes[i] = (uint8_t)(from[i / 4] >> 8 * (i % 4));
    }
    return length >= 0 && length <= MOST;
}

static void *made(void *handle, const char *why)
{
    if (handle) {
        say_line("");
    } else if (why) {
        say_line(why);
    }
    return handle;
}

#endif
