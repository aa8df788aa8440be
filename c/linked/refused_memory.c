/*
 * Refuses each allocation of an endpoint behind its link in turn. A packet for which there is no memory is as if it was
 * lost, a completion for which there is none waits: in the end the endpoint has sent the packets, each byte, of one that
 * never was refused anything. Without and with a trace, which is whole then, or lost.
 *
 * Link with -Wl,--wrap=malloc,--wrap=calloc,--wrap=realloc,--wrap=posix_memalign.
 */
#include "../pciex.h"

#include <errno.h>
#include <stdio.h>
#include <string.h>

/* How many allocations come before the one that is refused; negative: none is. */
static long before = -1;
static unsigned refusals, told;

static bool is_refused(void)
{
    if (before < 0) {
        return false;
    }
    refusals += before == 0;
    return before-- == 0;
}

void *__real_malloc(size_t size);
void *__real_calloc(size_t count, size_t size);
void *__real_realloc(void *at, size_t size);
int __real_posix_memalign(void **at, size_t alignment, size_t size);
void *__wrap_malloc(size_t size);
void *__wrap_calloc(size_t count, size_t size);
void *__wrap_realloc(void *at, size_t size);
int __wrap_posix_memalign(void **at, size_t alignment, size_t size);

void *__wrap_malloc(size_t size)
{
    return is_refused() ? NULL : __real_malloc(size);
}

void *__wrap_calloc(size_t count, size_t size)
{
    return is_refused() ? NULL : __real_calloc(count, size);
}

void *__wrap_realloc(void *at, size_t size)
{
    return is_refused() ? NULL : __real_realloc(at, size);
}

int __wrap_posix_memalign(void **at, size_t alignment, size_t size)
{
    return is_refused() ? ENOMEM : __real_posix_memalign(at, alignment, size);
}

/* The packets of one session, one behind another, and its trace. */
typedef struct packets {
    uint8_t bytes[65536];
    size_t length;
    uint8_t trace[65536];
    size_t trace_length;
    bool is_lost;
} packets;

static pciex_linked linked = PCIEX_NONE;
static bool is_traced;
static unsigned losses;

/* Takes all that is to be sent. */
static bool fetch(packets *to)
{
    uint8_t room[PCIEX_LINK_PACKET];
    bool is_dllp;
    uint32_t code;
    while ((code = pciex_linked_next(&linked, room, sizeof room, &is_dllp)) > 0 && code < 1000) {
        if (!is_dllp) {
            memcpy(to->bytes + to->length, room, code);
            to->length += code;
        }
    }
    return code == 0;
}

/* A packet under its number arrives; again, if there is no memory for it. */
static bool send(unsigned number, const uint8_t *tlp, size_t length)
{
    uint8_t packet[160];
    packet[0] = (uint8_t)(number >> 8);
    packet[1] = (uint8_t)number;
    memcpy(packet + 2, tlp, length);
    uint32_t code = pciex_linked_packet(&linked, packet, length + 2, true);
    if (code == PCIEX_NO_MEMORY) {
        told++;
        code = pciex_linked_packet(&linked, packet, length + 2, true);
    }
    return code == PCIEX_TLP_ACCEPTED;
}

static bool make(void)
{
    const pciex_credits credits = {127, 2047, 127, 2047};
    uint32_t code = pciex_linked_new(4096, 0x1234, 0x7C1E, &credits, is_traced, &linked);
    if (code == PCIEX_NO_MEMORY && linked.at == NULL) {
        told++;
        code = pciex_linked_new(4096, 0x1234, 0x7C1E, &credits, is_traced, &linked);
    }
    return code == 0;
}

static bool takes(uint8_t b0, uint8_t b1, uint8_t b2, uint8_t b3)
{
    const uint8_t dllp[4] = {b0, b1, b2, b3};
    return pciex_linked_dllp(&linked, dllp, sizeof dllp, true) == PCIEX_DLLP_TOOK;
}

/* Takes the trace; again, if it is refused. Whether it is whole, or lost after a refusal. */
static bool take_trace(packets *to)
{
    uint32_t code = PCIEX_NO_MEMORY;
    for (int i = 0; i < 2 && code == PCIEX_NO_MEMORY; i++) {
        to->trace_length = 7;
        code = pciex_linked_trace(&linked, to->trace, sizeof to->trace, &to->trace_length);
        told += code == PCIEX_NO_MEMORY;
    }
    to->is_lost = code == PCIEX_NO_MEMORY;
    losses += to->is_lost;
    return code == 0 || (to->is_lost && is_traced && to->trace_length == 7);
}

/*
 * Sets an endpoint up; then 50 writes and reads. The peer gives credits for 60 completions, so most reads wait, until an
 * UpdateFC gives more.
 */
static bool session(packets *to)
{
    const uint8_t set_up[3][16] = {
        {0x44, 0, 0, 1, 0, 8, 1, 0x0F, 1, 0, 0, 0x10, 0, 0, 0xDC, 0xFE},
        {0x44, 0, 0, 1, 0, 8, 2, 0x0F, 1, 0, 0, 0x14, 0, 0, 0, 0},
        {0x44, 0, 0, 1, 0, 8, 3, 0x01, 1, 0, 0, 0x04, 2, 0, 0, 0},
    };
    uint8_t write[16] = {0x40, 0, 0, 1, 0, 8, 0, 0x0F, 0xFE, 0xDC, 0, 0, 0, 1, 2, 3};
    uint8_t read[12] = {0x00, 0, 0, 0x30, 0, 8, 0, 0xFF, 0xFE, 0xDC, 0, 0};
    unsigned number = 0;
    to->length = 0;
    bool right = make() && pciex_linked_up(&linked) == 0 && takes(0x40, 0, 0x40, 0x08) && takes(0x50, 0, 0x40, 0x02) &&
                 takes(0x60, 15, 0, 0) && takes(0xC0, 0, 0x40, 0x08) && fetch(to);
    for (int i = 0; right && i < 3; i++) {
        right = send(number++, set_up[i], sizeof set_up[i]);
    }
    for (int i = 0; right && i < 50; i++) {
        write[11] = read[11] = (uint8_t)(4 * i);
        write[12] = read[6] = (uint8_t)i;
        right = send(number++, write, sizeof write) && send(number++, read, sizeof read);
    }
    right = right && fetch(to) && takes(0xA0, 40, 0, 0) && pciex_linked_refresh(&linked) == 0 && fetch(to) &&
            take_trace(to);
    pciex_linked_free(&linked);
    return right;
}

static bool is_same(const packets *one, const packets *other)
{
    return one->length == other->length && memcmp(one->bytes, other->bytes, one->length) == 0 &&
           (one->is_lost || (one->trace_length == other->trace_length &&
                             memcmp(one->trace, other->trace, one->trace_length) == 0));
}

/* Whether each allocation is refused in turn, and the packets stay the same. */
static bool refuse_each(void)
{
    static packets wanted, got;
    uint8_t verdict[PCIEX_LINE];
    refusals = told = losses = 0;
    if (!session(&wanted) || wanted.length < 50 * 192 ||
        pciex_check_clocked(wanted.trace, wanted.trace_length, verdict, sizeof verdict) != 0) {
        return false;
    }
    for (long i = 0;; i++) {
        const unsigned so_far = refusals;
        before = i;
        const bool right = session(&got);
        before = -1;
        if (!right || !is_same(&got, &wanted)) {
            printf("after %ld allocations: other packets\n", i);
            return false;
        }
        if (refusals == so_far) {
            break;
        }
    }
    return told >= 4 && refusals > (is_traced ? 0 : told) && (losses > 0) == is_traced;
}

int main(void)
{
    bool right = refuse_each();
    is_traced = true;
    right = right && refuse_each();
    printf("%s\n", right ? "each allocation is refused in turn" : "wrong");
    return right ? 0 : 1;
}
