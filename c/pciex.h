/*
 * pciex: a proved PCI Express 4.0 memory device, a fabric over links that lose packets, and a checker of histories, which
 * also searches for them.
 *
 * For C99 and C++. Link with libpciex_c.a, the library that `rt lib` builds of the proved crate `pciex_c` for Linux on
 * x86-64, and with liblibc_c.a of the toolchain, through which it calls malloc, realloc and free. A device without a
 * handle, packets and names take no memory. A history and a trace grow, until their device, fabric or endpoint is
 * freed.
 *
 * Codes. Each call returns a number of 32 bits:
 *
 *   below 1000     it succeeded: 0, or if the call says so the number of bytes of its result
 *   1000 to 1999   a fault, a refusal or a flaw: 1000 and a number, as the call says: that of the fault, or the number
 *                  of bytes of its text in the buffer
 *   from 2000 on   an argument that can't be right, or out of memory: one of the codes below
 *
 * From 1000 on nothing has changed, but for that text, for the lengths that pciex_fabric_trace, pciex_fabric_settled,
 * pciex_endpoint_trace, pciex_linked_trace and the searches return, for the events of a pciex_fabric_settle that ran out
 * of memory, and for the lines that a pciex_fabric_script did.
 *
 * Buffers. A result goes into a buffer of the caller: `room` points to its `room_length` bytes. The result is at the
 * front, is not ended by a zero, and what follows it stays as it was. PCIEX_PACKET bytes are always enough for a
 * completion, PCIEX_LINK_PACKET for a packet of a link, PCIEX_LINE for all else that isn't a whole memory or trace, and a
 * call requires that many whatever its result is.
 *
 * What can't be tested, and so is the caller's to keep:
 *
 *   - a pointer and its length name bytes that may be read, and for a buffer or a device's bytes written
 *   - the bytes, the packet or the line, the buffer, the handle and a number that is returned by pointer, of one call,
 *     don't overlap
 *   - a handle is PCIEX_NONE before it is given to a call that makes something, only calls write into it, and it stays
 *     on its thread; it has no copies, since a call through one copy uses up the others
 *   - malloc, realloc and free are from one allocator, with blocks aligned to 16 bytes; no call comes from the handler
 *     of a signal, nor from the child of a fork of a program with threads
 *
 * A null pointer and a handle that holds nothing are found by the functions of this header, and nothing is called then:
 * PCIEX_NULL, PCIEX_EMPTY. The functions pciex_raw_* below them are the library's own, for callers in other languages:
 * they test all but that.
 *
 * No call blocks, aborts, prints or keeps a pointer of the caller's. Calls on different threads, with handles
 * of their own or without, may run at the same time.
 */
#ifndef PCIEX_H
#define PCIEX_H

#include <stdbool.h>
#include <stddef.h>
#include <stdint.h>

#ifdef __cplusplus
extern "C" {
#endif

/* The version of this header; pciex_version has that of the library. */
#define PCIEX_VERSION "0.2.0"

/* The buffer has fewer bytes than the call requires. */
#define PCIEX_SMALL_ROOM 2000u
/* A block has neither 64 nor 128 bytes. */
#define PCIEX_WRONG_BLOCK 2001u
/* The packet is a completion, and a request is required. */
#define PCIEX_NO_REQUEST 2002u
/* An allocation failed. */
#define PCIEX_NO_MEMORY 2003u
/* A memory has 128 to 1,048,576 bytes, a multiple of 128; that of an endpoint 4096 or more, a power of two. */
#define PCIEX_WRONG_SIZE 2004u
/* A base address is a multiple of 128, and the memory ends at 2^64 or before. */
#define PCIEX_WRONG_BASE 2005u
/* The history has no entry at that index. */
#define PCIEX_NO_ENTRY 2006u
/* No fault has that number. */
#define PCIEX_NO_FAULT 2007u
/* The line isn't one of the form that is required. */
#define PCIEX_NO_LINE 2008u
/* The packet is a request, and a completion is required. */
#define PCIEX_NO_COMPLETION 2010u
/* A monitor's requesters are 1 to 7. */
#define PCIEX_NO_REQUESTER 2011u
/* A search has pieces of 4, 8, 16 or 64 bytes, or PCIEX_WHOLE. */
#define PCIEX_WRONG_GRANULARITY 2012u
/* The credits of an endpoint are outside the ranges of pciex_credits. */
#define PCIEX_WRONG_CREDITS 2013u
/* A pointer is null. */
#define PCIEX_NULL 3000u
/* The handle holds nothing. */
#define PCIEX_EMPTY 3001u
/* The handle holds something already. */
#define PCIEX_HELD 3002u

/* What a monitor finds wrong with a packet, in the order of the tests. */
/* The Requester ID is not that of the requester's first request. */
#define PCIEX_OTHER_REQUESTER 1023u
/* A non-posted request has the tag of an open one. */
#define PCIEX_TAG_IN_USE 1020u
/* No request is open under the completion's tag; or no request of that number waits to act. */
#define PCIEX_UNEXPECTED 1021u
/* Status and data don't fit the request; or the completion is a part of a split one. */
#define PCIEX_MISMATCH 1022u
/* All 4,294,967,295 numbers of the requester are spent. */
#define PCIEX_NUMBERS_USED 1024u

/* The bytes of buffer that a completion requires, a packet of a link, and a line. */
#define PCIEX_PACKET 144
#define PCIEX_LINK_PACKET 146
#define PCIEX_LINE 512

/* What a handle is before it is given to a call that makes something. */
#define PCIEX_NONE {0}

/* A device with a history. Made by pciex_device_new, freed by pciex_device_free. */
typedef struct pciex_device {
    void *at;
} pciex_device;

/* A fabric. Made by pciex_fabric_new, freed by pciex_fabric_free. */
typedef struct pciex_fabric {
    void *at;
} pciex_fabric;

/* A monitor of ports. Made by pciex_monitor_new, freed by pciex_monitor_free. */
typedef struct pciex_monitor {
    void *at;
} pciex_monitor;

/* An endpoint. Made by pciex_endpoint_new, freed by pciex_endpoint_free. */
typedef struct pciex_endpoint {
    void *at;
} pciex_endpoint;

/* An endpoint behind its end of a link. Made by pciex_linked_new, freed by pciex_linked_free. */
typedef struct pciex_linked {
    void *at;
} pciex_linked;

/*
 * The credits that an endpoint advertises, in header units and in data units of 16 bytes. Those of completions are infinite,
 * since it has no requests.
 */
typedef struct pciex_credits {
    /* posted headers, 1 to 127, and data, 8 to 2047 */
    uint8_t ph;
    uint16_t pd;
    /* non-posted headers, 1 to 127, and data, 2 to 2047 */
    uint8_t nph;
    uint16_t npd;
} pciex_credits;

/* The fields of a TLP, by pciex_decode_tlp. Those that its kind lacks are 0. */
typedef struct pciex_tlp {
    /* of a request: a multiple of 4 */
    uint64_t address;
    /* the payload is `payload_length` bytes of the packet from its byte `payload_start` on, 12 or 16 */
    uint32_t payload_start;
    uint32_t payload_length;
    /* Length in DW, 1 to 1024; 0 in a completion without data */
    uint16_t length;
    /* Requester ID, and of a completion Completer ID and Byte Count, 1 to 4096 */
    uint16_t requester;
    uint16_t completer;
    uint16_t byte_count;
    /* one of PCIEX_MRD to PCIEX_CPLD */
    uint8_t kind;
    /* Traffic Class, 0 to 7 */
    uint8_t tc;
    /* IDO 4, RO 2, NS 1 */
    uint8_t attr;
    uint8_t tag;
    /* of a read or a write: First DW BE, Last DW BE */
    uint8_t first;
    uint8_t last;
    /* of a completion: one of PCIEX_SC, PCIEX_UR, PCIEX_CA; and Lower Address */
    uint8_t status;
    uint8_t lower;
} pciex_tlp;

/* The kinds of a TLP: Fmt and Type, as in byte 0 of a packet whose header has 3 DW. */
#define PCIEX_MRD 0x00u
#define PCIEX_MWR 0x40u
#define PCIEX_FETCH_ADD 0x4Cu
#define PCIEX_SWAP 0x4Du
#define PCIEX_CAS 0x4Eu
#define PCIEX_CPL 0x0Au
#define PCIEX_CPLD 0x4Au

/* Completion Status. */
#define PCIEX_SC 0u
#define PCIEX_UR 1u
#define PCIEX_CA 4u

/* ---- the library's own functions, which test no pointer and no handle */

uint32_t pciex_raw_answer(uint8_t *bytes, size_t length, uint64_t base, uint16_t block, const uint8_t *packet,
                          size_t packet_length, uint8_t *room, size_t room_length);
uint32_t pciex_raw_device_new(uint64_t base, size_t size, uint16_t block, pciex_device *device);
uint32_t pciex_raw_device_serve(pciex_device device, uint32_t number, const uint8_t *packet, size_t packet_length,
                                uint8_t *room, size_t room_length, pciex_device *back);
size_t pciex_raw_device_history_length(pciex_device device, pciex_device *back);
uint32_t pciex_raw_device_entry(pciex_device device, size_t place, uint8_t *room, size_t room_length,
                                pciex_device *back);
uint32_t pciex_raw_device_bytes(pciex_device device, uint8_t *room, size_t room_length, pciex_device *back);
void pciex_raw_device_free(pciex_device device);
uint32_t pciex_raw_fabric_new(const uint8_t *line, size_t line_length, bool is_traced, uint8_t *room,
                              size_t room_length, pciex_fabric *fabric);
uint32_t pciex_raw_fabric_event(pciex_fabric fabric, const uint8_t *line, size_t line_length, uint8_t *room,
                                size_t room_length, pciex_fabric *back);
uint32_t pciex_raw_fabric_script(pciex_fabric fabric, const uint8_t *text, size_t text_length, uint8_t *room,
                                 size_t room_length, size_t *done, size_t *length, pciex_fabric *back);
uint32_t pciex_raw_fabric_settle(pciex_fabric fabric, pciex_fabric *back);
uint32_t pciex_raw_fabric_settled(pciex_fabric fabric, uint8_t *room, size_t room_length, size_t *length,
                                  pciex_fabric *back);
uint32_t pciex_raw_fabric_trace(pciex_fabric fabric, uint8_t *room, size_t room_length, size_t *length,
                                pciex_fabric *back);
bool pciex_raw_fabric_quiet(pciex_fabric fabric, pciex_fabric *back);
size_t pciex_raw_fabric_history_length(pciex_fabric fabric, pciex_fabric *back);
uint32_t pciex_raw_fabric_bytes(pciex_fabric fabric, uint8_t *room, size_t room_length, pciex_fabric *back);
void pciex_raw_fabric_free(pciex_fabric fabric);
uint32_t pciex_raw_monitor_new(const uint8_t *line, size_t line_length, uint8_t *room, size_t room_length,
                               pciex_monitor *monitor);
uint32_t pciex_raw_monitor_request(pciex_monitor monitor, uint8_t requester, const uint8_t *packet,
                                   size_t packet_length, uint8_t *room, size_t room_length, pciex_monitor *back);
uint32_t pciex_raw_monitor_completion(pciex_monitor monitor, uint8_t requester, const uint8_t *packet,
                                      size_t packet_length, uint8_t *room, size_t room_length, pciex_monitor *back);
uint32_t pciex_raw_monitor_give_up(pciex_monitor monitor, uint8_t requester, uint8_t tag, pciex_monitor *back);
uint32_t pciex_raw_monitor_acted(pciex_monitor monitor, uint8_t requester, uint32_t number, uint8_t *room,
                                 size_t room_length, pciex_monitor *back);
size_t pciex_raw_monitor_open(pciex_monitor monitor, pciex_monitor *back);
void pciex_raw_monitor_free(pciex_monitor monitor);
uint32_t pciex_raw_endpoint_new(size_t size, uint16_t vendor, uint16_t device, bool is_traced, pciex_endpoint *endpoint);
uint32_t pciex_raw_endpoint_tlp(pciex_endpoint endpoint, const uint8_t *tlp, size_t length, pciex_endpoint *back);
uint32_t pciex_raw_endpoint_next(pciex_endpoint endpoint, uint8_t *room, size_t room_length, pciex_endpoint *back);
void pciex_raw_endpoint_reset(pciex_endpoint endpoint, pciex_endpoint *back);
uint32_t pciex_raw_endpoint_bytes(pciex_endpoint endpoint, uint8_t *room, size_t room_length, pciex_endpoint *back);
uint32_t pciex_raw_endpoint_trace(pciex_endpoint endpoint, uint8_t *room, size_t room_length, size_t *length,
                                  pciex_endpoint *back);
void pciex_raw_endpoint_free(pciex_endpoint endpoint);
uint32_t pciex_raw_linked_new(size_t size, uint16_t vendor, uint16_t device, const pciex_credits *credits,
                              bool is_traced, pciex_linked *linked);
uint32_t pciex_raw_linked_packet(pciex_linked linked, const uint8_t *packet, size_t length, bool good,
                                 pciex_linked *back);
uint32_t pciex_raw_linked_dllp(pciex_linked linked, const uint8_t *dllp, size_t length, bool good, pciex_linked *back);
uint32_t pciex_raw_linked_next(pciex_linked linked, uint8_t *room, size_t room_length, bool *is_dllp,
                               pciex_linked *back);
uint32_t pciex_raw_linked_status(pciex_linked linked, pciex_linked *back);
void pciex_raw_linked_up(pciex_linked linked, pciex_linked *back);
void pciex_raw_linked_down(pciex_linked linked, pciex_linked *back);
void pciex_raw_linked_refresh(pciex_linked linked, pciex_linked *back);
void pciex_raw_linked_replay(pciex_linked linked, pciex_linked *back);
void pciex_raw_linked_retrained(pciex_linked linked, pciex_linked *back);
uint32_t pciex_raw_linked_bytes(pciex_linked linked, uint8_t *room, size_t room_length, pciex_linked *back);
uint32_t pciex_raw_linked_trace(pciex_linked linked, uint8_t *room, size_t room_length, size_t *length,
                                pciex_linked *back);
void pciex_raw_linked_free(pciex_linked linked);
uint32_t pciex_raw_check(const uint8_t *text, size_t length, uint8_t *room, size_t room_length);
uint32_t pciex_raw_check_clocked(const uint8_t *text, size_t length, uint8_t *room, size_t room_length);
uint32_t pciex_raw_search(const uint8_t *text, size_t text_length, uint64_t limit, uint8_t *room, size_t room_length,
                          size_t *length);
uint32_t pciex_raw_search_with_reasons(const uint8_t *text, size_t text_length, uint64_t limit, uint32_t granularity,
                                       uint8_t *room, size_t room_length, size_t *length, uint8_t *reasons,
                                       size_t reasons_room, size_t *reasons_length);
uint32_t pciex_raw_decode(const uint8_t *packet, size_t length, uint8_t *room, size_t room_length);
uint32_t pciex_raw_decode_tlp(const uint8_t *packet, size_t length, pciex_tlp *tlp);
uint32_t pciex_raw_encode(const uint8_t *line, size_t length, uint8_t *room, size_t room_length);
uint32_t pciex_raw_fault_name(uint32_t number, uint8_t *room, size_t room_length);
uint32_t pciex_raw_version(uint8_t *room, size_t room_length);
uint32_t pciex_raw_lcrc(const uint8_t *packet, size_t length, uint8_t *room, size_t room_length);
uint32_t pciex_raw_lcrc_check(const uint8_t *packet, size_t length);
uint32_t pciex_raw_dllp_crc(const uint8_t *dllp, size_t length, uint8_t *room, size_t room_length);
uint32_t pciex_raw_dllp_check(const uint8_t *dllp, size_t length);

/* ---- a device without a handle */

/*
 * One TLP at a memory device whose memory is the caller's `length` bytes, the first of them at the address `base`, and
 * which serves accesses by naturally aligned blocks of `block` bytes, 64 or 128. The bytes change as the request says,
 * and its completion goes into the buffer, of PCIEX_PACKET bytes or more. There is no history, and nothing is
 * allocated. Any base and any length will do.
 *
 * Below 1000: the number of bytes of the completion; 0 for a posted write, which has none. A request that isn't served
 * changes no byte: its completion says Completer Abort if it crosses a block, else Unsupported Request if it leaves the
 * bytes. A posted write that isn't served returns 0, as one that is.
 * 1000 to 1999: 1000 and the number of the packet's fault, 1 to 13; pciex_fault_name has its name.
 * Tested in this order: PCIEX_WRONG_BLOCK, PCIEX_SMALL_ROOM, the packet's fault, PCIEX_NO_REQUEST.
 */
static inline uint32_t pciex_answer(uint8_t *bytes, size_t length, uint64_t base, uint16_t block,
                                    const uint8_t *packet, size_t packet_length, uint8_t *room, size_t room_length)
{
    if (!bytes || !packet || !room) {
        return PCIEX_NULL;
    }
    return pciex_raw_answer(bytes, length, base, block, packet, packet_length, room, room_length);
}

/* ---- a device with a history */

/*
 * Makes a device of `size` zeros at the address `base`, with an empty history, in a handle that holds nothing. 0 if
 * it is made; PCIEX_WRONG_SIZE, PCIEX_WRONG_BASE, PCIEX_WRONG_BLOCK, PCIEX_NO_MEMORY, tested in this order.
 */
static inline uint32_t pciex_device_new(uint64_t base, size_t size, uint16_t block, pciex_device *device)
{
    if (!device) {
        return PCIEX_NULL;
    }
    if (device->at) {
        return PCIEX_HELD;
    }
    return pciex_raw_device_new(base, size, block, device);
}

/*
 * One TLP at the device, as pciex_answer has it. The request is in the history from then on, under the port of its
 * Requester ID (the upper 8 bits) and the number that the caller gives it; one that is aborted or unsupported, too.
 * Below 1000: the number of bytes of the completion, as there. 1000 to 1999: 1000 and the number of the packet's fault.
 * Tested in this order: PCIEX_SMALL_ROOM, the packet's fault, PCIEX_NO_REQUEST, PCIEX_NO_MEMORY.
 */
static inline uint32_t pciex_device_serve(pciex_device *device, uint32_t number, const uint8_t *packet,
                                          size_t packet_length, uint8_t *room, size_t room_length)
{
    if (!device || !packet || !room) {
        return PCIEX_NULL;
    }
    if (!device->at) {
        return PCIEX_EMPTY;
    }
    return pciex_raw_device_serve(*device, number, packet, packet_length, room, room_length, device);
}

/* Writes into `count` the number of requests of the history, and returns 0. */
static inline uint32_t pciex_device_history_length(pciex_device *device, size_t *count)
{
    if (!device || !count) {
        return PCIEX_NULL;
    }
    if (!device->at) {
        return PCIEX_EMPTY;
    }
    *count = pciex_raw_device_history_length(*device, device);
    return 0;
}

/*
 * The request at an index of the history, from 0: its requester (0 to 255), its number and its operation, parted by
 * spaces, `1 0 add 40 07000000`. The operation is spelled as in a trace. Below 1000: the number of bytes of that.
 * Tested in this order: PCIEX_SMALL_ROOM for fewer than PCIEX_LINE bytes, PCIEX_NO_ENTRY.
 */
static inline uint32_t pciex_device_entry(pciex_device *device, size_t place, uint8_t *room, size_t room_length)
{
    if (!device || !room) {
        return PCIEX_NULL;
    }
    if (!device->at) {
        return PCIEX_EMPTY;
    }
    return pciex_raw_device_entry(*device, place, room, room_length, device);
}

/* All bytes of the device as they are now, from its base address on: 0, or PCIEX_SMALL_ROOM for fewer than it has. */
static inline uint32_t pciex_device_bytes(pciex_device *device, uint8_t *room, size_t room_length)
{
    if (!device || !room) {
        return PCIEX_NULL;
    }
    if (!device->at) {
        return PCIEX_EMPTY;
    }
    return pciex_raw_device_bytes(*device, room, room_length, device);
}

/* Frees the device; the handle holds nothing then. One that holds nothing stays as it is. */
static inline void pciex_device_free(pciex_device *device)
{
    if (device && device->at) {
        pciex_raw_device_free(*device);
        device->at = NULL;
    }
}

/* ---- a fabric */

/*
 * Makes the fabric of the line, in a handle that holds nothing: `fabric <requesters> <base> <size>`, then
 * six credits or none, then `block <bytes>` or nothing, as docs/formats.md has it. No line feed ends the line. With
 * `is_traced` the fabric keeps a trace, which grows by a record for each submission and each answer.
 * 0 if it is made. 1000 to 1999: 1000 and the number of bytes of the fault's name, which is in the buffer. Tested in
 * this order: PCIEX_SMALL_ROOM for fewer than PCIEX_LINE bytes, PCIEX_NO_LINE, the fault,
 * PCIEX_NO_MEMORY.
 */
static inline uint32_t pciex_fabric_new(const uint8_t *line, size_t line_length, bool is_traced, uint8_t *room,
                                        size_t room_length, pciex_fabric *fabric)
{
    if (!line || !room || !fabric) {
        return PCIEX_NULL;
    }
    if (fabric->at) {
        return PCIEX_HELD;
    }
    return pciex_raw_fabric_new(line, line_length, is_traced, room, room_length, fabric);
}

/*
 * The event of a script's line happens to the fabric: `submit 1 add 40 07000000`, `transmit up1`. Below 1000: the
 * number of bytes of its result, `sub 1 0`, as `pciex step` prints it, without a line feed. 1000 to 1999: the fabric
 * refuses it and stays as it was; 1000 and the number of bytes of the refusal's name, which is in the buffer. Tested in
 * this order: PCIEX_SMALL_ROOM for fewer than PCIEX_LINE bytes, PCIEX_NO_LINE, the refusal or PCIEX_NO_MEMORY. One call
 * is one event: `settle`, which is many, returns PCIEX_NO_LINE, as a comment and an empty line do, which are none; for
 * `settle` there is pciex_fabric_settle.
 */
static inline uint32_t pciex_fabric_event(pciex_fabric *fabric, const uint8_t *line, size_t line_length, uint8_t *room,
                                          size_t room_length)
{
    if (!fabric || !line || !room) {
        return PCIEX_NULL;
    }
    if (!fabric->at) {
        return PCIEX_EMPTY;
    }
    return pciex_raw_fabric_event(*fabric, line, line_length, room, room_length, fabric);
}

/*
 * The events of a script's lines happen to the fabric, one after the other, up to the first that fails. Line feeds end
 * lines; empty lines and comments are skipped. The results, each with a line feed, are in the buffer: `length` is the
 * number of their bytes, and `done` that of the lines that were done, whatever is returned. 0: all were done. Else the line
 * at `done` changed nothing, and a call for the text from there on goes on. 1000 to 1999: the fabric refuses its event; 1000
 * and the number of bytes of the refusal's name, which is behind the results. Tested in this order: PCIEX_SMALL_ROOM for
 * fewer than PCIEX_LINE + 1 bytes behind the results, PCIEX_NO_LINE, the refusal or PCIEX_NO_MEMORY. As in
 * pciex_fabric_event, `settle` is no line.
 */
static inline uint32_t pciex_fabric_script(pciex_fabric *fabric, const uint8_t *text, size_t text_length, uint8_t *room,
                                           size_t room_length, size_t *done, size_t *length)
{
    if (!fabric || !text || !room || !done || !length) {
        return PCIEX_NULL;
    }
    if (!fabric->at) {
        return PCIEX_EMPTY;
    }
    return pciex_raw_fabric_script(*fabric, text, text_length, room, room_length, done, length, fabric);
}

/*
 * Runs the fabric until nothing moves, as `settle` in a script does: 0, and the fabric is quiet, whatever happened before,
 * and no requester waits for a completion. A trace grows by what was collected. PCIEX_NO_MEMORY: some of the events have
 * happened, and what they collected is kept; the call may be tried again.
 */
static inline uint32_t pciex_fabric_settle(pciex_fabric *fabric)
{
    if (!fabric) {
        return PCIEX_NULL;
    }
    if (!fabric->at) {
        return PCIEX_EMPTY;
    }
    return pciex_raw_fabric_settle(*fabric, fabric);
}

/*
 * What the last pciex_fabric_settle collected: `ans 1 0 data 00000000`, as `pciex step` prints it, and a line feed for each
 * completion, in the order in which they were collected. 0, or PCIEX_SMALL_ROOM; `length` is the number of bytes, in both
 * cases. Or PCIEX_NO_MEMORY: `length` stays as it was. Before the first pciex_fabric_settle there are none.
 */
static inline uint32_t pciex_fabric_settled(pciex_fabric *fabric, uint8_t *room, size_t room_length, size_t *length)
{
    if (!fabric || !room || !length) {
        return PCIEX_NULL;
    }
    if (!fabric->at) {
        return PCIEX_EMPTY;
    }
    return pciex_raw_fabric_settled(*fabric, room, room_length, length, fabric);
}

/*
 * The text of the trace and the history, as `pciex step --trace` writes it: 0, or PCIEX_SMALL_ROOM; `length` is the
 * number of its bytes, in both cases. Or PCIEX_NO_MEMORY: `length` stays as it was. A fabric that keeps no trace has a
 * text without records. The call allocates memory for the text while it runs, and after PCIEX_SMALL_ROOM until the next
 * call that changes the fabric, or returns the text.
 */
static inline uint32_t pciex_fabric_trace(pciex_fabric *fabric, uint8_t *room, size_t room_length, size_t *length)
{
    if (!fabric || !room || !length) {
        return PCIEX_NULL;
    }
    if (!fabric->at) {
        return PCIEX_EMPTY;
    }
    return pciex_raw_fabric_trace(*fabric, room, room_length, length, fabric);
}

/*
 * Writes into `quiet` whether all that was entered into the fabric's lanes was taken, and returns 0. If so, each
 * submission is in the history once, and none waits for its completion.
 */
static inline uint32_t pciex_fabric_quiet(pciex_fabric *fabric, bool *quiet)
{
    if (!fabric || !quiet) {
        return PCIEX_NULL;
    }
    if (!fabric->at) {
        return PCIEX_EMPTY;
    }
    *quiet = pciex_raw_fabric_quiet(*fabric, fabric);
    return 0;
}

/* Writes into `count` the number of requests that have acted on the fabric's memory, and returns 0. */
static inline uint32_t pciex_fabric_history_length(pciex_fabric *fabric, size_t *count)
{
    if (!fabric || !count) {
        return PCIEX_NULL;
    }
    if (!fabric->at) {
        return PCIEX_EMPTY;
    }
    *count = pciex_raw_fabric_history_length(*fabric, fabric);
    return 0;
}

/*
 * All bytes of the fabric's memory as they are now, from its base address on: 0, or PCIEX_SMALL_ROOM for fewer than it
 * has, the size in the line of pciex_fabric_new.
 */
static inline uint32_t pciex_fabric_bytes(pciex_fabric *fabric, uint8_t *room, size_t room_length)
{
    if (!fabric || !room) {
        return PCIEX_NULL;
    }
    if (!fabric->at) {
        return PCIEX_EMPTY;
    }
    return pciex_raw_fabric_bytes(*fabric, room, room_length, fabric);
}

/* Frees the fabric; the handle holds nothing then. One that holds nothing stays as it is. */
static inline void pciex_fabric_free(pciex_fabric *fabric)
{
    if (fabric && fabric->at) {
        pciex_raw_fabric_free(*fabric);
        fabric->at = NULL;
    }
}

/* ---- a monitor of ports */

/*
 * Makes a monitor in a handle that holds nothing. It writes what the ports of a memory carry as the lines of a log or
 * of a trace. The line is `log` or `trace`, then the memory's base in hexadecimal and its size in decimal, `block`, and
 * the bytes of a block: `log 0 4096 block 64`. Below 1000: the number of bytes of the first two lines of the log or the
 * trace, `pciex-log 1` and `memory 0 4096 64`, with a line feed between them. No line of a monitor ends with one.
 * Tested in this order: PCIEX_SMALL_ROOM for fewer than PCIEX_LINE bytes, PCIEX_NO_LINE, PCIEX_WRONG_SIZE,
 * PCIEX_WRONG_BASE, PCIEX_WRONG_BLOCK, PCIEX_NO_MEMORY.
 *
 * Call the monitor in the order in which the ports carry packets, or of one clock cycle with requests first. Whatever
 * is given to it, the lines that it writes are of good form: the numbers of each requester are 0, 1, 2 and so on, and
 * each answer is to an earlier non-posted request that wasn't answered before. A log is its head, the lines and a line
 * `end`. A trace is its head, the `sub` and `ans` lines, a line `history`, the `ent` lines, and a line `end`.
 * The monitor's memory is that of the open requests and, in a trace, of requests that haven't acted.
 */
static inline uint32_t pciex_monitor_new(const uint8_t *line, size_t line_length, uint8_t *room, size_t room_length,
                                         pciex_monitor *monitor)
{
    if (!line || !room || !monitor) {
        return PCIEX_NULL;
    }
    if (monitor->at) {
        return PCIEX_HELD;
    }
    return pciex_raw_monitor_new(line, line_length, room, room_length, monitor);
}

/*
 * The port of a requester, 1 to 7, carried a request. Below 1000: the number of bytes of its line, which is
 * `sub 1 0 add 40 07000000`, in a trace with n behind the number. 1000 to 1013: 1000 and the number of the packet's
 * fault. Tested in this order: PCIEX_SMALL_ROOM for fewer than PCIEX_LINE bytes, PCIEX_NO_REQUESTER, the packet's
 * fault, PCIEX_NO_REQUEST, PCIEX_OTHER_REQUESTER, PCIEX_TAG_IN_USE, PCIEX_NUMBERS_USED, and in a trace alone
 * PCIEX_NO_MEMORY.
 */
static inline uint32_t pciex_monitor_request(pciex_monitor *monitor, uint8_t requester, const uint8_t *packet,
                                             size_t packet_length, uint8_t *room, size_t room_length)
{
    if (!monitor || !packet || !room) {
        return PCIEX_NULL;
    }
    if (!monitor->at) {
        return PCIEX_EMPTY;
    }
    return pciex_raw_monitor_request(*monitor, requester, packet, packet_length, room, room_length, monitor);
}

/*
 * The port of a requester, 1 to 7, carried a completion. Below 1000: the number of bytes of its line, which is
 * `ans 1 0 data 00000000`, in a trace with n behind the number. Bytes of a read that were not enabled are 00 there.
 * 1000 to 1013: 1000 and the number of the packet's fault. Tested in this order: PCIEX_SMALL_ROOM for fewer than
 * PCIEX_LINE bytes, PCIEX_NO_REQUESTER, the packet's fault, PCIEX_NO_COMPLETION, PCIEX_OTHER_REQUESTER,
 * PCIEX_UNEXPECTED, PCIEX_MISMATCH.
 */
static inline uint32_t pciex_monitor_completion(pciex_monitor *monitor, uint8_t requester, const uint8_t *packet,
                                                size_t packet_length, uint8_t *room, size_t room_length)
{
    if (!monitor || !packet || !room) {
        return PCIEX_NULL;
    }
    if (!monitor->at) {
        return PCIEX_EMPTY;
    }
    return pciex_raw_monitor_completion(*monitor, requester, packet, packet_length, room, room_length, monitor);
}

/*
 * Gives up a tag: no completion is waited for any longer under the tag of the requester, 1 to 7. The tag is free, and
 * the request that was open under it has no answer in the log or the trace. Call it after PCIEX_MISMATCH, or for a
 * completion that never came, if the requester uses the tag again: otherwise its next request under the tag is refused
 * with PCIEX_TAG_IN_USE. A later completion under the tag answers the next request that has it. Returns 0. Tested in
 * this order: PCIEX_NO_REQUESTER, PCIEX_UNEXPECTED if no request is open under the tag.
 */
static inline uint32_t pciex_monitor_give_up(pciex_monitor *monitor, uint8_t requester, uint8_t tag)
{
    if (!monitor) {
        return PCIEX_NULL;
    }
    if (!monitor->at) {
        return PCIEX_EMPTY;
    }
    return pciex_raw_monitor_give_up(*monitor, requester, tag, monitor);
}

/*
 * For a trace: the request of that number acted on the memory. Below 1000: the number of bytes of the history's line,
 * `ent 1 0 add 40 07000000`. Tested in this order: PCIEX_SMALL_ROOM for fewer than PCIEX_LINE bytes,
 * PCIEX_NO_REQUESTER, PCIEX_UNEXPECTED if no request of that number waits to act, as always in a log,
 * PCIEX_NUMBERS_USED after 2^64 - 1 requests that acted.
 */
static inline uint32_t pciex_monitor_acted(pciex_monitor *monitor, uint8_t requester, uint32_t number, uint8_t *room,
                                           size_t room_length)
{
    if (!monitor || !room) {
        return PCIEX_NULL;
    }
    if (!monitor->at) {
        return PCIEX_EMPTY;
    }
    return pciex_raw_monitor_acted(*monitor, requester, number, room, room_length, monitor);
}

/* Writes into `count` the number of requests that wait for their completions, and returns 0. */
static inline uint32_t pciex_monitor_open(pciex_monitor *monitor, size_t *count)
{
    if (!monitor || !count) {
        return PCIEX_NULL;
    }
    if (!monitor->at) {
        return PCIEX_EMPTY;
    }
    *count = pciex_raw_monitor_open(*monitor, monitor);
    return 0;
}

/* Frees the monitor; the handle holds nothing then. One that holds nothing stays as it is. */
static inline void pciex_monitor_free(pciex_monitor *monitor)
{
    if (monitor && monitor->at) {
        pciex_raw_monitor_free(*monitor);
        monitor->at = NULL;
    }
}

/* ---- an endpoint: a memory device that a root complex enumerates, sets up and uses */

/* What became of a TLP. */
/* A request, which acted or waits. */
#define PCIEX_TLP_ACCEPTED 0u
/* A message without effect. */
#define PCIEX_TLP_IGNORED 1u
/* It has no effect and no completion, and the registers report it. */
#define PCIEX_TLP_UNSUPPORTED 2u
/* A completion: an endpoint has no requests. */
#define PCIEX_TLP_UNEXPECTED 3u
/* Bytes that no TLP for a device with payloads of 128 bytes has; the registers report it. */
#define PCIEX_TLP_MALFORMED 4u

/*
 * Makes an endpoint in a handle that holds nothing, with that Vendor ID and Device ID. Its memory is `size` zeros, a power
 * of two from 4096 to 1,048,576, behind BAR 0. With `is_traced` it keeps a trace, which grows with each memory request. 0 if
 * it is made; PCIEX_WRONG_SIZE, PCIEX_NO_MEMORY, tested in this order.
 */
static inline uint32_t pciex_endpoint_new(size_t size, uint16_t vendor, uint16_t device, bool is_traced,
                                          pciex_endpoint *endpoint)
{
    if (!endpoint) {
        return PCIEX_NULL;
    }
    if (endpoint->at) {
        return PCIEX_HELD;
    }
    return pciex_raw_endpoint_new(size, vendor, device, is_traced, endpoint);
}

/*
 * A TLP for the endpoint, whatever its bytes are, without sequence number and LCRC. A posted request acts now, a
 * non-posted one waits for pciex_endpoint_next: call that until it returns 0, and all act in the order in which they came.
 * Returns one of PCIEX_TLP_ACCEPTED to PCIEX_TLP_MALFORMED; or PCIEX_NO_MEMORY, for a request that would wait.
 */
static inline uint32_t pciex_endpoint_tlp(pciex_endpoint *endpoint, const uint8_t *tlp, size_t length)
{
    if (!endpoint || !tlp) {
        return PCIEX_NULL;
    }
    if (!endpoint->at) {
        return PCIEX_EMPTY;
    }
    return pciex_raw_endpoint_tlp(*endpoint, tlp, length, endpoint);
}

/*
 * The oldest request that waits acts; of a read at most one naturally aligned block of 128 bytes, and what is left of it
 * waits. Below 1000: the number of bytes of its completion, which is in the buffer; 0 if no request waits.
 * PCIEX_SMALL_ROOM for fewer than PCIEX_PACKET bytes.
 */
static inline uint32_t pciex_endpoint_next(pciex_endpoint *endpoint, uint8_t *room, size_t room_length)
{
    if (!endpoint || !room) {
        return PCIEX_NULL;
    }
    if (!endpoint->at) {
        return PCIEX_EMPTY;
    }
    return pciex_raw_endpoint_next(*endpoint, room, room_length, endpoint);
}

/* A reset: the registers are what they were at first, no request waits, and the memory stays. Returns 0. */
static inline uint32_t pciex_endpoint_reset(pciex_endpoint *endpoint)
{
    if (!endpoint) {
        return PCIEX_NULL;
    }
    if (!endpoint->at) {
        return PCIEX_EMPTY;
    }
    pciex_raw_endpoint_reset(*endpoint, endpoint);
    return 0;
}

/* All bytes of the endpoint's memory as they are now: 0, or PCIEX_SMALL_ROOM for fewer than it has. */
static inline uint32_t pciex_endpoint_bytes(pciex_endpoint *endpoint, uint8_t *room, size_t room_length)
{
    if (!endpoint || !room) {
        return PCIEX_NULL;
    }
    if (!endpoint->at) {
        return PCIEX_EMPTY;
    }
    return pciex_raw_endpoint_bytes(*endpoint, room, room_length, endpoint);
}

/*
 * The text of the trace and the history of the endpoint's memory, as `pciex endpoint --trace` writes it; pciex_check_clocked
 * judges it. 0, or PCIEX_SMALL_ROOM; `length` is the number of its bytes, in both cases. Or PCIEX_NO_MEMORY: `length` stays
 * as it was. If memory for a record ran out in an earlier call, the trace is lost: it is PCIEX_NO_MEMORY from then on, and
 * nothing else changes. An endpoint that keeps no trace has a text without records. The call allocates memory for the text
 * while it runs.
 */
static inline uint32_t pciex_endpoint_trace(pciex_endpoint *endpoint, uint8_t *room, size_t room_length, size_t *length)
{
    if (!endpoint || !room || !length) {
        return PCIEX_NULL;
    }
    if (!endpoint->at) {
        return PCIEX_EMPTY;
    }
    return pciex_raw_endpoint_trace(*endpoint, room, room_length, length, endpoint);
}

/* Frees the endpoint; the handle holds nothing then. One that holds nothing stays as it is. */
static inline void pciex_endpoint_free(pciex_endpoint *endpoint)
{
    if (endpoint && endpoint->at) {
        pciex_raw_endpoint_free(*endpoint);
        endpoint->at = NULL;
    }
}

/* ---- an endpoint behind its end of a link: packets and DLLPs in, packets and DLLPs out */

/*
 * A packet is its sequence number's two bytes and its TLP, a DLLP has four bytes; their CRCs, framing, link training and time
 * are the caller's. `good` says whether a CRC was right. Requests act, and their completions enter the replay buffer, when
 * a packet or a DLLP has arrived and at pciex_linked_refresh, as far as the peer's credits go.
 */

/* What became of a packet: it is accepted, and its TLP is as pciex_endpoint_tlp has it; or one of these. */
/* It is accepted and discarded, since it needs more than the credits that were advertised: Receiver Overflow. */
#define PCIEX_PACKET_OVERFLOW 5u
/* It was accepted before; an Ack is due. */
#define PCIEX_PACKET_DUPLICATE 6u
/* It is discarded, and a Nak is due. */
#define PCIEX_PACKET_NAK 7u
/* It is discarded, and nothing is sent: a Nak was scheduled before. */
#define PCIEX_PACKET_QUIET 8u
/* It is discarded, since the link isn't up. */
#define PCIEX_PACKET_DROPPED 9u

/* What became of a DLLP. */
/* It took effect. */
#define PCIEX_DLLP_TOOK 0u
/* It is discarded: its check failed, its type isn't read, or it says nothing in this state of the link. */
#define PCIEX_DLLP_GONE 1u
/* It hasn't four bytes. */
#define PCIEX_DLLP_SHORT 1001u
/* Its credits are scaled. */
#define PCIEX_DLLP_SCALED 1003u
/* The number of an Ack or Nak is neither ACKD_SEQ nor that of an unacknowledged packet that was given out: a Data Link Protocol
 * Error. */
#define PCIEX_DLLP_NOT_OUTSTANDING 1004u
/* More than 127 headers or 2047 data units of a class would be unused: a Flow Control Protocol Error. */
#define PCIEX_DLLP_CREDIT_LIMIT 1005u

/* The state of a link: DL_Inactive; DL_Init in FC_INIT1 and in FC_INIT2; DL_Active. */
#define PCIEX_LINK_INACTIVE 0u
#define PCIEX_LINK_INIT1 1u
#define PCIEX_LINK_INIT2 2u
#define PCIEX_LINK_ACTIVE 3u
/* DL_Active, and the fourth replay without progress has stopped the sender until pciex_linked_retrained. */
#define PCIEX_LINK_STOPPED 4u

/*
 * Makes an endpoint as pciex_endpoint_new does, behind a link that is down, with these credits. 0 if it is made;
 * PCIEX_WRONG_SIZE, PCIEX_WRONG_CREDITS, PCIEX_NO_MEMORY, tested in this order.
 */
static inline uint32_t pciex_linked_new(size_t size, uint16_t vendor, uint16_t device, const pciex_credits *credits,
                                        bool is_traced, pciex_linked *linked)
{
    if (!credits || !linked) {
        return PCIEX_NULL;
    }
    if (linked->at) {
        return PCIEX_HELD;
    }
    return pciex_raw_linked_new(size, vendor, device, credits, is_traced, linked);
}

/*
 * A packet arrives, whatever its bytes are. Returns one of PCIEX_TLP_ACCEPTED to PCIEX_TLP_MALFORMED for one that is
 * accepted, or of PCIEX_PACKET_OVERFLOW to PCIEX_PACKET_DROPPED; or PCIEX_NO_MEMORY, for one that would be accepted: the
 * packet is as if it was lost. A completion for which no memory can be allocated waits.
 */
static inline uint32_t pciex_linked_packet(pciex_linked *linked, const uint8_t *packet, size_t length, bool good)
{
    if (!linked || !packet) {
        return PCIEX_NULL;
    }
    if (!linked->at) {
        return PCIEX_EMPTY;
    }
    return pciex_raw_linked_packet(*linked, packet, length, good, linked);
}

/*
 * A DLLP arrives, whatever its bytes are. Returns PCIEX_DLLP_TOOK or PCIEX_DLLP_GONE; or one of PCIEX_DLLP_SHORT to
 * PCIEX_DLLP_CREDIT_LIMIT, and nothing has changed.
 */
static inline uint32_t pciex_linked_dllp(pciex_linked *linked, const uint8_t *dllp, size_t length, bool good)
{
    if (!linked || !dllp) {
        return PCIEX_NULL;
    }
    if (!linked->at) {
        return PCIEX_EMPTY;
    }
    return pciex_raw_linked_dllp(*linked, dllp, length, good, linked);
}

/*
 * What is to be sent next: a Nak or an Ack, InitFCs, UpdateFCs, then packets of the replay buffer. Below 1000: the number of
 * its bytes, which are in the buffer, and `is_dllp` says whether it is a DLLP; 0 if nothing is to be sent. Call it until it
 * returns 0. PCIEX_SMALL_ROOM for fewer than PCIEX_LINK_PACKET bytes.
 */
static inline uint32_t pciex_linked_next(pciex_linked *linked, uint8_t *room, size_t room_length, bool *is_dllp)
{
    if (!linked || !room || !is_dllp) {
        return PCIEX_NULL;
    }
    if (!linked->at) {
        return PCIEX_EMPTY;
    }
    bool is_one = false;
    const uint32_t code = pciex_raw_linked_next(*linked, room, room_length, &is_one, linked);
    if (code < 1000) {
        *is_dllp = is_one;
    }
    return code;
}

/* Writes the state of the link into `status`, one of PCIEX_LINK_INACTIVE to PCIEX_LINK_STOPPED, and returns 0. */
static inline uint32_t pciex_linked_status(pciex_linked *linked, uint32_t *status)
{
    if (!linked || !status) {
        return PCIEX_NULL;
    }
    if (!linked->at) {
        return PCIEX_EMPTY;
    }
    *status = pciex_raw_linked_status(*linked, linked);
    return 0;
}

/*
 * The physical layer reports that the link is up: initialization begins, with new counters. The endpoint is reset, and its
 * memory stays. Returns 0.
 */
static inline uint32_t pciex_linked_up(pciex_linked *linked)
{
    if (!linked) {
        return PCIEX_NULL;
    }
    if (!linked->at) {
        return PCIEX_EMPTY;
    }
    pciex_raw_linked_up(*linked, linked);
    return 0;
}

/*
 * The physical layer reports that the link is down: all that it had is lost. The endpoint is reset, and its memory stays.
 * Returns 0.
 */
static inline uint32_t pciex_linked_down(pciex_linked *linked)
{
    if (!linked) {
        return PCIEX_NULL;
    }
    if (!linked->at) {
        return PCIEX_EMPTY;
    }
    pciex_raw_linked_down(*linked, linked);
    return 0;
}

/*
 * A timer expired: during initialization that of InitFCs (34 us), then that of an Ack and UpdateFCs (30 us). They are due
 * again. A completion that waits for memory is tried again. Returns 0.
 */
static inline uint32_t pciex_linked_refresh(pciex_linked *linked)
{
    if (!linked) {
        return PCIEX_NULL;
    }
    if (!linked->at) {
        return PCIEX_EMPTY;
    }
    pciex_raw_linked_refresh(*linked, linked);
    return 0;
}

/*
 * REPLAY_TIMER expired: the unacknowledged packets are sent again, the oldest first. The fourth replay without progress, by
 * this call or a Nak, stops the sender: PCIEX_LINK_STOPPED. Returns 0.
 */
static inline uint32_t pciex_linked_replay(pciex_linked *linked)
{
    if (!linked) {
        return PCIEX_NULL;
    }
    if (!linked->at) {
        return PCIEX_EMPTY;
    }
    pciex_raw_linked_replay(*linked, linked);
    return 0;
}

/* The link was retrained: the sender is no longer stopped. Returns 0. */
static inline uint32_t pciex_linked_retrained(pciex_linked *linked)
{
    if (!linked) {
        return PCIEX_NULL;
    }
    if (!linked->at) {
        return PCIEX_EMPTY;
    }
    pciex_raw_linked_retrained(*linked, linked);
    return 0;
}

/* All bytes of the endpoint's memory as they are now: 0, or PCIEX_SMALL_ROOM for fewer than it has. */
static inline uint32_t pciex_linked_bytes(pciex_linked *linked, uint8_t *room, size_t room_length)
{
    if (!linked || !room) {
        return PCIEX_NULL;
    }
    if (!linked->at) {
        return PCIEX_EMPTY;
    }
    return pciex_raw_linked_bytes(*linked, room, room_length, linked);
}

/* The text of the trace and the history of the endpoint's memory, as pciex_endpoint_trace has it, with its results. */
static inline uint32_t pciex_linked_trace(pciex_linked *linked, uint8_t *room, size_t room_length, size_t *length)
{
    if (!linked || !room || !length) {
        return PCIEX_NULL;
    }
    if (!linked->at) {
        return PCIEX_EMPTY;
    }
    return pciex_raw_linked_trace(*linked, room, room_length, length, linked);
}

/* Frees the endpoint; the handle holds nothing then. One that holds nothing stays as it is. */
static inline void pciex_linked_free(pciex_linked *linked)
{
    if (linked && linked->at) {
        pciex_raw_linked_free(*linked);
        linked->at = NULL;
    }
}

/* ---- the checker */

/*
 * Whether the history of the text of a trace explains its records: 0 if and only if it does. It believes the counts n.
 * 1000 to 1999: 1000 and the number of bytes of the line that `pciex check` prints, which is in the buffer:
 * `flaw 10 Reply 2`, or `fault 3 Line` if the text is none of a trace. PCIEX_SMALL_ROOM for fewer than PCIEX_LINE
 * bytes, which is tested first, or PCIEX_NO_MEMORY: nothing is known then. A text whose first fault comes before its
 * records and its history needs no memory.
 */
static inline uint32_t pciex_check(const uint8_t *text, size_t length, uint8_t *room, size_t room_length)
{
    if (!text || !room) {
        return PCIEX_NULL;
    }
    return pciex_raw_check(text, length, room, room_length);
}

/*
 * The same as `pciex check --clocked`: 0 if and only if the history explains the records and their n are those of a
 * history that grew. Then each request that was answered before another was submitted acted before it: the trace is
 * linearizable. Else a flaw as above, or `flaw 13 Clock 2` where only an n is wrong.
 */
static inline uint32_t pciex_check_clocked(const uint8_t *text, size_t length, uint8_t *room, size_t room_length)
{
    if (!text || !room) {
        return PCIEX_NULL;
    }
    return pciex_raw_check_clocked(text, length, room, room_length);
}

/* What pciex_search found. */
#define PCIEX_FOUND 0u
#define PCIEX_NOT_FOUND 1u
#define PCIEX_GIVEN_UP 3u

/*
 * Looks for a history that explains what requesters submitted and were answered: the text of a log, or of a trace,
 * whose counts n and history are ignored. What `pciex search --limit` prints is in the buffer: a trace with such a
 * history, and PCIEX_FOUND; `none 3`, or `flaw 6 Again 2` for a bookkeeping mistake of the log, or `fault 3 Line` if
 * the text can't be read, and PCIEX_NOT_FOUND; `limit 1000000`, where so many choices were looked at, or
 * `work 300000000`, where so much work was used up, and PCIEX_GIVEN_UP: nothing is known then. `length` is the number of
 * its bytes, also with PCIEX_SMALL_ROOM, for a buffer of fewer. Or PCIEX_NO_MEMORY: nothing is known, and `length` stays
 * as it was; a text whose first fault comes before its records needs no memory. At most `limit` choices are looked at,
 * and the work is that of `pciex search` without `--work` at most: about half a minute.
 */
static inline uint32_t pciex_search(const uint8_t *text, size_t text_length, uint64_t limit, uint8_t *room,
                                    size_t room_length, size_t *length)
{
    if (!text || !room || !length) {
        return PCIEX_NULL;
    }
    return pciex_raw_search(text, text_length, limit, room, room_length, length);
}

/* Each request acts as a whole. */
#define PCIEX_WHOLE 0u

/*
 * The same for a memory whose reads and writes act in naturally aligned pieces of `granularity` bytes, 4, 8, 16 or 64, or
 * as a whole for PCIEX_WHOLE; as `pciex search --granularity` has it, so a trace is one of pieces. Other numbers return
 * PCIEX_WRONG_GRANULARITY, which is tested first. With PCIEX_NOT_FOUND the lines that `pciex search` prints on standard
 * error are at the front of `reasons`: which lines of the text have no history, which answers contradict each other, and
 * why; or what is wrong with a line. With PCIEX_GIVEN_UP they tell how far it came. `reasons_length` is the number of
 * their bytes, and a buffer of fewer gets the first ones. It is 0 with PCIEX_FOUND; without memory for the lines there are
 * fewer or none. With PCIEX_SMALL_ROOM, which is about `room` alone, both lengths are known, and no buffer has changed.
 */
static inline uint32_t pciex_search_with_reasons(const uint8_t *text, size_t text_length, uint64_t limit,
                                                 uint32_t granularity, uint8_t *room, size_t room_length,
                                                 size_t *length, uint8_t *reasons, size_t reasons_room,
                                                 size_t *reasons_length)
{
    if (!text || !room || !length || !reasons || !reasons_length) {
        return PCIEX_NULL;
    }
    return pciex_raw_search_with_reasons(text, text_length, limit, granularity, room, room_length, length, reasons,
                                         reasons_room, reasons_length);
}

/* ---- packets in words and in fields, and names */

/*
 * The words of a TLP, configuration requests too, or of a DLLP if there are four bytes, as `pciex decode` writes them.
 * Below 1000: the number of their bytes. 1000 to 1999: 1000 and the number of bytes of the fault's text, `fault 1 Short`,
 * which is in the buffer.
 * PCIEX_SMALL_ROOM for fewer than PCIEX_LINE bytes, which is tested first.
 */
static inline uint32_t pciex_decode(const uint8_t *packet, size_t length, uint8_t *room, size_t room_length)
{
    if (!packet || !room) {
        return PCIEX_NULL;
    }
    return pciex_raw_decode(packet, length, room, room_length);
}

/*
 * The fields of a TLP: 0, and they are in `tlp`. 1000 to 1999: 1000 and the number of the packet's fault, and `tlp` stays as
 * it was; pciex_fault_name has its name. A configuration request has the fault Kind.
 */
static inline uint32_t pciex_decode_tlp(const uint8_t *packet, size_t length, pciex_tlp *tlp)
{
    if (!packet || !tlp) {
        return PCIEX_NULL;
    }
    return pciex_raw_decode_tlp(packet, length, tlp);
}

/*
 * The other way: the canonical bytes of the packet that a line of words spells. The codes are the same, and so is the
 * buffer that is required, since a fault is returned in words.
 */
static inline uint32_t pciex_encode(const uint8_t *line, size_t length, uint8_t *room, size_t room_length)
{
    if (!line || !room) {
        return PCIEX_NULL;
    }
    return pciex_raw_encode(line, length, room, room_length);
}

/*
 * The name of the fault of a TLP under its number, 1 to 13. Below 1000: the number of its bytes. Tested in this order:
 * PCIEX_SMALL_ROOM for fewer than PCIEX_LINE bytes, PCIEX_NO_FAULT.
 */
static inline uint32_t pciex_fault_name(uint32_t number, uint8_t *room, size_t room_length)
{
    if (!room) {
        return PCIEX_NULL;
    }
    return pciex_raw_fault_name(number, room, room_length);
}

/*
 * The version of the library, as `pciex --version` prints it, `pciex 0.2.0`: the number of its bytes, or
 * PCIEX_SMALL_ROOM for fewer than PCIEX_LINE.
 */
static inline uint32_t pciex_version(uint8_t *room, size_t room_length)
{
    if (!room) {
        return PCIEX_NULL;
    }
    return pciex_raw_version(room, room_length);
}

/* ---- the CRCs of a link */

/* What a check says: the CRC is right; it is wrong; or, of a packet, it is the complement of the right one. */
#define PCIEX_GOOD 0
#define PCIEX_FAILED 1
#define PCIEX_NULLIFIED 2

/*
 * The LCRC of a packet, of its sequence number's two bytes and its TLP: 4, and its four bytes stand in the room, in the
 * order in which they are sent. PCIEX_SMALL_ROOM for fewer than 4 bytes.
 */
static inline uint32_t pciex_lcrc(const uint8_t *packet, size_t length, uint8_t *room, size_t room_length)
{
    if (!packet || !room) {
        return PCIEX_NULL;
    }
    return pciex_raw_lcrc(packet, length, room, room_length);
}

/*
 * The check of a packet with its LCRC behind it: PCIEX_GOOD, PCIEX_FAILED (also for fewer than four bytes), or
 * PCIEX_NULLIFIED. A nullified packet whose framing ends in EDB is dropped without a Nak; without EDB treat it as failed.
 */
static inline uint32_t pciex_lcrc_check(const uint8_t *packet, size_t length)
{
    if (!packet) {
        return PCIEX_NULL;
    }
    return pciex_raw_lcrc_check(packet, length);
}

/*
 * The CRC of a DLLP of four bytes: 2, and its two bytes stand in the room, in the order in which they are sent. Tested in
 * this order: PCIEX_SMALL_ROOM for fewer than 2 bytes, 1001 for a DLLP that hasn't exactly four bytes.
 */
static inline uint32_t pciex_dllp_crc(const uint8_t *dllp, size_t length, uint8_t *room, size_t room_length)
{
    if (!dllp || !room) {
        return PCIEX_NULL;
    }
    return pciex_raw_dllp_crc(dllp, length, room, room_length);
}

/* The check of a DLLP with its CRC behind it: PCIEX_GOOD or PCIEX_FAILED, which it is unless there are six bytes. */
static inline uint32_t pciex_dllp_check(const uint8_t *dllp, size_t length)
{
    if (!dllp) {
        return PCIEX_NULL;
    }
    return pciex_raw_dllp_check(dllp, length);
}

#ifdef __cplusplus
}
#endif

#endif
