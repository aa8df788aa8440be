/*
 * A root complex that brings an endpoint up and uses it, apart from the library: it knows TLPs and registers by the
 * standard alone, and its own array says what each request has to be answered.
 *
 * It finds the function, walks its capabilities, sizes and sets BAR 0, enables memory, then sends requests drawn at
 * random: reads of up to 4096 bytes, writes across blocks, AtomicOps, requests that nobody claims, in D3hot, to other
 * functions, poisoned, with a digest, malformed. Prints what it found, and the first completion that is wrong.
 *
 *     root_complex [REQUESTS | dump]
 *
 * REQUESTS are some 10,000 if none are named; with dump the registers are printed, and nothing else is done.
 */
#include "../pciex.h"

#include <stdio.h>
#include <stdlib.h>
#include <string.h>

#define SIZE 65536u
#define BASE 0x2F0FEDC0000u /* above 4 GiB: headers of 4 DW */
#define REQUESTER 0x0008u
#define BLOCK 128u /* completions end at its multiples */

#define CPL 0x0Au
#define CPLD 0x4Au
#define SC 0u
#define UR 1u

static pciex_endpoint device = PCIEX_NONE;
static uint8_t memory[SIZE];
static uint16_t completer; /* bus, device and function number of the endpoint */
static unsigned long sent, completions;
static uint64_t seed = 1;

static uint32_t draw(uint32_t below)
{
    seed = seed * 6364136223846793005u + 1442695040888963407u;
    return (uint32_t)((seed >> 33) % below);
}

static void fail(const char *what)
{
    printf("request %lu: %s\n", sent, what);
    exit(1);
}

static void wants(bool is_right, const char *what)
{
    if (!is_right) {
        fail(what);
    }
}

/* ---- TLPs */

/* A request: TC, attributes and tag are echoed by its completions. */
typedef struct request {
    uint8_t bytes[152];
    size_t length;
    uint8_t tc, attr, tag;
    unsigned dw;
    uint8_t first, last;
    uint64_t address;
} request;

/* Fmt and Type of a header with 3 DW, Length, and what the request is drawn with. */
static request begin(uint8_t kind, unsigned dw, uint8_t tc, uint8_t attr)
{
    static uint8_t tag;
    request r = {{0}, 12, tc, attr, ++tag, dw, 0, 0, 0};
    r.bytes[0] = kind;
    r.bytes[1] = (uint8_t)(tc << 4 | (attr >> 2 & 1) << 2);
    r.bytes[2] = (uint8_t)((attr & 3) << 4 | (dw >> 8 & 3));
    r.bytes[3] = (uint8_t)dw;
    r.bytes[4] = REQUESTER >> 8;
    r.bytes[5] = REQUESTER & 0xFF;
    r.bytes[6] = r.tag;
    return r;
}

/* Byte enables and the address, with a header of 4 DW if it needs one. */
static void at(request *r, uint64_t address, uint8_t first, uint8_t last)
{
    unsigned i = 8;
    r->address = address;
    r->first = first;
    r->last = last;
    r->bytes[7] = (uint8_t)(last << 4 | first);
    if (address >> 32) {
        r->bytes[0] |= 0x20;
        r->length = 16;
        for (int shift = 56; shift >= 32; shift -= 8) {
            r->bytes[i++] = (uint8_t)(address >> shift);
        }
    }
    for (int shift = 24; shift >= 0; shift -= 8) {
        r->bytes[i++] = (uint8_t)(address >> shift);
    }
}

static void payload(request *r, const uint8_t *bytes, size_t count)
{
    memcpy(r->bytes + r->length, bytes, count);
    r->length += count;
}

/* A configuration request to a function of device 0 on a bus. */
static request configuration(uint8_t kind, uint8_t bus, uint8_t function, unsigned reg, uint8_t enables)
{
    request r = begin(kind, 1, 0, 0);
    r.bytes[7] = enables;
    r.bytes[8] = bus;
    r.bytes[9] = function;
    r.bytes[10] = (uint8_t)(reg >> 8);
    r.bytes[11] = (uint8_t)(reg & 0xFC);
    return r;
}

static void send(const request *r, uint32_t wanted, const char *what)
{
    sent++;
    wants(pciex_endpoint_tlp(&device, r->bytes, r->length) == wanted, what);
}

/* The next completion, with its header compared with what it has to be. Its data, `count` bytes. */
static const uint8_t *completion(const request *r, uint8_t kind, unsigned status, unsigned byte_count, unsigned lower,
                                 size_t count)
{
    static uint8_t room[PCIEX_PACKET];
    const uint32_t length = pciex_endpoint_next(&device, room, sizeof room);
    const uint8_t wanted[12] = {
        kind,
        (uint8_t)(r->tc << 4 | (r->attr >> 2 & 1) << 2),
        (uint8_t)((r->attr & 3) << 4),
        (uint8_t)(count / 4),
        (uint8_t)(completer >> 8),
        (uint8_t)completer,
        (uint8_t)(status << 5 | (byte_count >> 8 & 15)),
        (uint8_t)byte_count,
        REQUESTER >> 8,
        REQUESTER & 0xFF,
        r->tag,
        (uint8_t)lower,
    };
    wants(length == 12 + count, "the completion has another length, or there is none");
    wants(memcmp(room, wanted, sizeof wanted) == 0, "the completion has another header");
    completions++;
    return room + 12;
}

static void no_completion(void)
{
    uint8_t room[PCIEX_PACKET];
    wants(pciex_endpoint_next(&device, room, sizeof room) == 0, "a completion that nobody asked for");
}

/* ---- registers */

static uint32_t read_register(unsigned reg)
{
    const request r = configuration(0x04, (uint8_t)(completer >> 8), 0, reg, 0xF);
    send(&r, PCIEX_TLP_ACCEPTED, "a configuration read isn't accepted");
    const uint8_t *data = completion(&r, CPLD, SC, 4, 0, 4);
    const uint32_t value = data[0] | (uint32_t)data[1] << 8 | (uint32_t)data[2] << 16 | (uint32_t)data[3] << 24;
    no_completion();
    return value;
}

static void write_register(uint8_t bus, unsigned reg, uint8_t enables, uint32_t value)
{
    request r = configuration(0x44, bus, 0, reg, enables);
    const uint8_t bytes[4] = {(uint8_t)value, (uint8_t)(value >> 8), (uint8_t)(value >> 16), (uint8_t)(value >> 24)};
    payload(&r, bytes, 4);
    send(&r, PCIEX_TLP_ACCEPTED, "a configuration write isn't accepted");
    completer = (uint16_t)(bus << 8);
    completion(&r, CPL, SC, 4, 0, 0);
    no_completion();
}

/* The offset of the capability with this ID, 0 if there is none. */
static unsigned capability(uint8_t id)
{
    unsigned place = read_register(0x34) & 0xFC;
    for (int i = 0; place != 0 && i < 48; i++) {
        const uint32_t head = read_register(place);
        if ((head & 0xFF) == id) {
            return place;
        }
        place = head >> 8 & 0xFC;
    }
    return 0;
}

static void enumerate(void)
{
    write_register(3, 0x3C, 1, 0x0B); /* the endpoint learns its bus */
    printf("%04X:%04X, class %06X\n", read_register(0) & 0xFFFF, read_register(0) >> 16, read_register(8) >> 8);
    wants((read_register(0x0C) >> 16 & 0x7F) == 0, "another header than Type 0");
    wants(read_register(0x04) >> 20 & 1, "no list of capabilities");
    const unsigned express = capability(0x10), power = capability(0x01);
    wants(express != 0 && power != 0, "a capability isn't there");
    printf("PCI Express at %02X, payloads of %u bytes; Power Management at %02X\n", express,
           128u << (read_register(express + 4) & 7), power);
    write_register(3, 0x10, 0xF, 0xFFFFFFFF);
    write_register(3, 0x14, 0xF, 0xFFFFFFFF);
    const uint64_t sized = (uint64_t)read_register(0x14) << 32 | (read_register(0x10) & 0xFFFFFFF0);
    printf("BAR 0: %llu bytes, %s, %s\n", (unsigned long long)(0 - sized),
           (read_register(0x10) & 6) == 4 ? "64 bits" : "32 bits",
           (read_register(0x10) & 8) != 0 ? "prefetchable" : "not prefetchable");
    wants(0 - sized == SIZE, "another size");
    write_register(3, 0x10, 0xF, (uint32_t)BASE);
    write_register(3, 0x14, 0xF, (uint32_t)(BASE >> 32));
    wants(read_register(0x10) == ((uint32_t)BASE | 0xC) && read_register(0x14) == BASE >> 32, "another base");
    write_register(3, 0x04, 1, 0x02);
}

/* ---- memory */

static unsigned ones_from(uint8_t enables)
{
    unsigned i = 0;
    while (i < 4 && !(enables >> i & 1)) {
        i++;
    }
    return i;
}

static unsigned zeros_behind(uint8_t enables)
{
    unsigned i = 0;
    while (i < 4 && !(enables >> (3 - i) & 1)) {
        i++;
    }
    return i;
}

/* Whether a byte of the request's DWs is enabled. */
static bool is_enabled(const request *r, unsigned byte)
{
    if (byte < 4) {
        return r->first >> byte & 1;
    }
    return byte / 4 < r->dw - 1 || (r->last >> byte % 4 & 1);
}

/* From the first enabled byte to the last; 1 if none is. */
static unsigned span(const request *r)
{
    if (r->dw == 1) {
        return r->first == 0 ? 1 : 4 - ones_from(r->first) - zeros_behind(r->first);
    }
    return 4 * r->dw - ones_from(r->first) - zeros_behind(r->last);
}

/* A read or a write of so many DW anywhere below `most`, inside 4096 bytes. */
static request access_to(uint8_t kind, uint64_t base, unsigned most)
{
    static const uint8_t firsts[] = {0xF, 0xE, 0xC, 0x8}, lasts[] = {0xF, 0x7, 0x3, 0x1};
    const unsigned dw = draw(3) == 0 ? 1 : 1 + draw(most), offset = 4 * draw(SIZE / 4);
    request r = begin(kind, dw, (uint8_t)draw(8), (uint8_t)draw(8));
    const unsigned fitting = offset % 4096 + 4 * dw > 4096 ? offset - (offset % 4096 + 4 * dw - 4096) : offset;
    at(&r, base + fitting, dw == 1 ? (uint8_t)draw(16) : firsts[draw(4)], dw == 1 ? 0 : lasts[draw(4)]);
    return r;
}

static void check_read(const request *r)
{
    const unsigned start = (unsigned)(r->address - BASE), lead = r->first == 0 ? 0 : ones_from(r->first);
    unsigned done = 0, left = span(r), lower = (unsigned)(r->address % BLOCK) + lead;
    while (done < 4 * r->dw) {
        const unsigned to_block = BLOCK - (start + done) % BLOCK, rest = 4 * r->dw - done;
        const unsigned count = rest < to_block ? rest : to_block;
        const uint8_t *data = completion(r, CPLD, SC, left, lower, count);
        for (unsigned i = 0; i < count; i++) {
            wants(!is_enabled(r, done + i) || data[i] == memory[start + done + i], "another byte");
        }
        left -= count - (done == 0 ? lead : 0);
        done += count;
        lower = 0;
    }
}

static void write_memory(const request *r, const uint8_t *bytes)
{
    for (unsigned i = 0; i < 4 * r->dw; i++) {
        if (is_enabled(r, i)) {
            memory[r->address - BASE + i] = bytes[i];
        }
    }
}

static void draw_bytes(uint8_t *bytes, unsigned count)
{
    for (unsigned i = 0; i < count; i++) {
        bytes[i] = (uint8_t)draw(256);
    }
}

static request drawn_write(uint64_t base, uint8_t *bytes)
{
    request r = access_to(0x40, base, 32);
    draw_bytes(bytes, 4 * r.dw);
    payload(&r, bytes, 4 * r.dw);
    return r;
}

static void read_and_check(void)
{
    const request r = access_to(0x00, BASE, draw(4) == 0 ? 1024 : 64);
    send(&r, PCIEX_TLP_ACCEPTED, "a read isn't accepted");
    check_read(&r);
}

static void write_and_note(void)
{
    uint8_t bytes[128];
    const request r = drawn_write(BASE, bytes);
    send(&r, PCIEX_TLP_ACCEPTED, "a write isn't accepted");
    write_memory(&r, bytes);
}

/* A number of the memory, its lowest byte first. */
static void add_to(uint8_t *number, const uint8_t *more, unsigned count)
{
    unsigned carry = 0;
    for (unsigned i = 0; i < count; i++) {
        carry += number[i] + more[i];
        number[i] = (uint8_t)carry;
        carry >>= 8;
    }
}

/* FetchAdd and Swap of 4 and 8 bytes, CAS of 4, 8 and 16, half of which find what they compare with. */
static void atomic_and_check(void)
{
    static const uint8_t kinds[] = {0x4C, 0x4D, 0x4E};
    const unsigned kind = draw(3), size = 4u << draw(kind == 2 ? 3 : 2), offset = size * draw(SIZE / size);
    uint8_t operands[32], old[16], *place = memory + offset;
    request r = begin(kinds[kind], (kind == 2 ? 2 : 1) * size / 4, (uint8_t)draw(8), (uint8_t)draw(8));
    draw_bytes(operands, 2 * size);
    if (kind == 2 && draw(2) == 0) {
        memcpy(operands, place, size);
    }
    at(&r, BASE + offset, 0, 0);
    payload(&r, operands, 4 * r.dw);
    memcpy(old, place, size);
    if (kind == 0) {
        add_to(place, operands, size);
    } else if (kind == 1) {
        memcpy(place, operands, size);
    } else if (memcmp(place, operands, size) == 0) {
        memcpy(place, operands + size, size);
    }
    send(&r, PCIEX_TLP_ACCEPTED, "an AtomicOp isn't accepted");
    wants(memcmp(completion(&r, CPLD, SC, size, 0, size), old, size) == 0, "another value");
}

/* ---- what isn't served */

/* Behind the BAR, or everywhere if memory is off. */
static void unclaimed(uint64_t base)
{
    uint8_t bytes[128];
    if (draw(2) == 0) {
        const request r = drawn_write(base, bytes);
        send(&r, PCIEX_TLP_UNSUPPORTED, "a write that nobody claims is accepted");
    } else {
        const request r = access_to(0x00, base, 64);
        send(&r, PCIEX_TLP_ACCEPTED, "a read that nobody claims isn't accepted");
        completion(&r, CPL, UR, span(&r), 0, 0);
    }
}

static void to_another_function(void)
{
    static const uint8_t kinds[] = {0x04, 0x05, 0x05};
    const unsigned which = draw(3);
    const request r = configuration(kinds[which], 3, which == 0 ? (uint8_t)(1 + draw(7)) : 0, 4 * draw(1024), 0xF);
    send(&r, PCIEX_TLP_ACCEPTED, "a configuration request isn't accepted");
    completion(&r, CPL, UR, 4, 0, 0);
}

/* A write, which is dropped, an AtomicOp, which is completed as not supported, or a read, in which EP counts for nothing. */
static void poisoned(void)
{
    uint8_t bytes[128];
    request r;
    switch (draw(3)) {
    case 0:
        r = drawn_write(BASE, bytes);
        r.bytes[2] |= 0x40;
        send(&r, PCIEX_TLP_UNSUPPORTED, "a poisoned write");
        break;
    case 1:
        r = begin(0x4C, 1, (uint8_t)draw(8), (uint8_t)draw(8));
        at(&r, BASE + 4 * draw(SIZE / 4), 0, 0);
        draw_bytes(bytes, 4);
        payload(&r, bytes, 4);
        r.bytes[2] |= 0x40;
        send(&r, PCIEX_TLP_ACCEPTED, "a poisoned AtomicOp");
        completion(&r, CPL, UR, 4, 0, 0);
        break;
    default:
        r = access_to(0x00, BASE, 32);
        r.bytes[2] |= 0x40;
        send(&r, PCIEX_TLP_ACCEPTED, "a read with EP");
        check_read(&r);
    }
}

static void with_digest(void)
{
    uint8_t bytes[128];
    const uint8_t digest[4] = {1, 2, 3, 4};
    request r = drawn_write(BASE, bytes), back = access_to(0x00, BASE, 32);
    r.bytes[2] |= 0x80;
    payload(&r, digest, 4);
    send(&r, PCIEX_TLP_ACCEPTED, "a write with a digest isn't accepted");
    write_memory(&r, bytes);
    back.bytes[2] |= 0x80;
    payload(&back, digest, 4);
    send(&back, PCIEX_TLP_ACCEPTED, "a read with a digest isn't accepted");
    check_read(&back);
}

/* Across 4096 bytes, with a byte too few or too many, with byte enables that can't be, of a kind that there isn't. */
static void malformed(void)
{
    const uint64_t end = BASE + 4096 * (1 + draw(SIZE / 4096 - 1));
    request r = begin(0x00, 2, 0, 0);
    at(&r, end - 4, 0xF, 0xF);
    switch (draw(4)) {
    case 0:
        break;
    case 1:
        r = access_to(0x00, BASE, 64);
        r.length += draw(2) == 0 ? 1 : (size_t)-1;
        break;
    case 2:
        at(&r, end - 8, 0xF, 0);
        break;
    default:
        r.bytes[0] = 0x3F;
    }
    send(&r, PCIEX_TLP_MALFORMED, "a malformed TLP isn't found");
}

/* Any bytes get one of the answers; what they do isn't known, so nothing here may write. */
static void any_bytes(void)
{
    uint8_t bytes[160], room[PCIEX_PACKET];
    const unsigned length = draw(161);
    draw_bytes(bytes, length);
    if (length > 0 && draw(4) != 0) {
        bytes[0] = (uint8_t)(0x04 + draw(2));
    }
    if (length > 0 && (bytes[0] & 0x40) != 0) {
        bytes[0] &= 0xBF;
    }
    sent++;
    wants(pciex_endpoint_tlp(&device, bytes, length) <= PCIEX_TLP_MALFORMED, "no answer to these bytes");
    while (pciex_endpoint_next(&device, room, sizeof room) > 0) {
        completions++;
    }
}

static void use(unsigned rounds)
{
    for (unsigned i = 0; i < rounds; i++) {
        switch (draw(10)) {
        case 0: case 1: case 2:
            read_and_check();
            break;
        case 3: case 4: case 5:
            write_and_note();
            break;
        case 6: case 7: case 8:
            atomic_and_check();
            break;
        default:
            switch (draw(6)) {
            case 0: unclaimed(BASE + SIZE); break;
            case 1: to_another_function(); break;
            case 2: poisoned(); break;
            case 3: with_digest(); break;
            case 4: malformed(); break;
            default: any_bytes();
            }
        }
        no_completion();
    }
}

static void sleep_and_wake(void)
{
    const unsigned power = capability(0x01) + 4;
    write_register(3, power, 1, 3);
    wants((read_register(power) & 3) == 3, "it isn't in D3hot");
    for (int i = 0; i < 500; i++) {
        unclaimed(BASE);
    }
    write_register(3, power, 1, 1);
    wants((read_register(power) & 3) == 3, "D1 isn't there, and is taken");
    write_register(3, power, 1, 0);
    wants((read_register(power) & 3) == 0, "it isn't in D0 again");
}

/* Many requests wait at once: each is answered, in order, and posted ones don't wait for them. */
static void many_at_once(void)
{
    static request waiting[500];
    for (int i = 0; i < 500; i++) {
        uint8_t bytes[128];
        waiting[i] = access_to(0x00, BASE, 64);
        send(&waiting[i], PCIEX_TLP_ACCEPTED, "a read isn't accepted");
        const request r = drawn_write(BASE, bytes);
        send(&r, PCIEX_TLP_ACCEPTED, "a write isn't accepted");
        write_memory(&r, bytes);
    }
    for (int i = 0; i < 500; i++) {
        check_read(&waiting[i]);
    }
    no_completion();
}

/* All registers as lspci -F reads them. */
static void dump(void)
{
    printf("00:00.0 memory\n");
    for (unsigned reg = 0; reg < 256; reg += 4) {
        const uint32_t value = read_register(reg);
        if (reg % 16 == 0) {
            printf("%02x:", reg);
        }
        for (int shift = 0; shift < 32; shift += 8) {
            printf(" %02x", value >> shift & 0xFF);
        }
        if (reg % 16 == 12) {
            printf("\n");
        }
    }
}

/* The history explains the trace, and not one with another digit in its last answer. */
static void check_trace(void)
{
    uint8_t verdict[PCIEX_LINE];
    size_t length = 0;
    wants(pciex_endpoint_trace(&device, verdict, 1, &length) == PCIEX_SMALL_ROOM, "a trace fits one byte");
    char *text = malloc(length + 1);
    wants(text && pciex_endpoint_trace(&device, (uint8_t *)text, length, &length) == 0, "no trace");
    text[length] = 0;
    wants(pciex_check_clocked((const uint8_t *)text, length, verdict, sizeof verdict) == 0, "another history");
    char *end = strstr(text, "\nhistory\n");
    wants(end != NULL && strncmp(text, "pciex-trace 2\n", 14) == 0, "the trace has no history");
    while (strncmp(end, "\nans ", 5) != 0) {
        end--;
    }
    char *digit = strchr(end + 1, '\n') - 1;
    *digit = *digit == '0' ? '1' : '0';
    wants(pciex_check_clocked((const uint8_t *)text, length, verdict, sizeof verdict) >= 1000, "a wrong answer is right");
    free(text);
}

int main(int count, char **words)
{
    static uint8_t bytes[SIZE];
    wants(pciex_endpoint_new(SIZE, 0x1234, 0x7C1E, true, &device) == 0, "no endpoint");
    if (count > 1 && strcmp(words[1], "dump") == 0) {
        dump();
        pciex_endpoint_free(&device);
        return 0;
    }
    const unsigned requests = count > 1 ? (unsigned)strtoul(words[1], NULL, 10) : 10000;
    enumerate();
    use(requests);
    sleep_and_wake();
    many_at_once();
    use(requests / 10);
    for (unsigned reg = 0x100; reg < 4096; reg += 4) {
        wants(read_register(reg) == 0, "a register that there isn't");
    }
    wants((read_register(capability(0x10) + 8) >> 16 & 15) == 15, "a kind of error that isn't reported");
    wants(read_register(4) >> 31, "no poisoned TLP was detected");
    wants(pciex_endpoint_bytes(&device, bytes, SIZE) == 0 && memcmp(bytes, memory, SIZE) == 0, "another memory");
    check_trace();
    pciex_endpoint_free(&device);
    printf("%lu requests, %lu completions, each right\n", sent, completions);
    return 0;
}
