/*
 * Refuses each allocation of an endpoint in turn, without and with a trace: the call that needs it returns PCIEX_NO_MEMORY,
 * and after it the endpoint answers as one that never was refused anything. A trace is whole then, or lost.
 *
 * Link with -Wl,--wrap=malloc,--wrap=calloc,--wrap=realloc,--wrap=posix_memalign.
 */
#include "../pciex.h"

#include <errno.h>
#include <stdio.h>
#include <string.h>

/* How many allocations come before the one that is refused; negative: none is. */
static long before = -1;

static bool is_refused(void)
{
    if (before < 0) {
        return false;
    }
    return before-- == 0;
}

void *__real_malloc(size_t size);
void *__real_calloc(size_t count, size_t size);
void *__real_realloc(void *at, size_t size);
int __real_posix_memalign(void **at, size_t alignment, size_t size);
void *__wrap_malloc(size_t size);
void *__wrap_calloc(size_t count, size_t size);
void *__wrap_realloc(void *at, size_t size);
int __wrap_posix_memalign(void **at, size_t alignment, size_t size);

void *__wrap_malloc(size_t size)
{
    return is_refused() ? NULL : __real_malloc(size);
}

void *__wrap_calloc(size_t count, size_t size)
{
    return is_refused() ? NULL : __real_calloc(count, size);
}

void *__wrap_realloc(void *at, size_t size)
{
    return is_refused() ? NULL : __real_realloc(at, size);
}

int __wrap_posix_memalign(void **at, size_t alignment, size_t size)
{
    return is_refused() ? ENOMEM : __real_posix_memalign(at, alignment, size);
}

/* The completions of one session, one behind another. */
typedef struct answers {
    uint8_t bytes[65536];
    size_t length;
    uint8_t trace[65536];
    size_t trace_length;
    bool is_lost;
} answers;

static int refusals, losses;
static bool is_traced;

/* Sends a TLP; again, with memory, if it is refused. Whether it is accepted then. */
static bool send(pciex_endpoint *endpoint, const uint8_t *tlp, size_t length)
{
    uint32_t code = pciex_endpoint_tlp(endpoint, tlp, length);
    if (code == PCIEX_NO_MEMORY) {
        refusals++;
        before = -1;
        code = pciex_endpoint_tlp(endpoint, tlp, length);
    }
    return code == PCIEX_TLP_ACCEPTED;
}

static bool fetch(pciex_endpoint *endpoint, answers *to)
{
    uint32_t code;
    while ((code = pciex_endpoint_next(endpoint, to->bytes + to->length, sizeof to->bytes - to->length)) > 0 &&
           code < 1000) {
        to->length += code;
    }
    return code == 0;
}

static bool make(pciex_endpoint *endpoint)
{
    uint32_t code = pciex_endpoint_new(4096, 0x1234, 0x7C1E, is_traced, endpoint);
    if (code == PCIEX_NO_MEMORY && endpoint->at == NULL) {
        refusals++;
        before = -1;
        code = pciex_endpoint_new(4096, 0x1234, 0x7C1E, is_traced, endpoint);
    }
    return code == 0;
}

/* Takes the trace; again, with memory, if it is refused. Whether it is whole, or lost after a refusal. */
static bool take_trace(pciex_endpoint *endpoint, answers *to)
{
    const int so_far = refusals;
    uint32_t code = 0;
    for (int i = 0; i < 2; i++) {
        to->trace_length = 7;
        code = pciex_endpoint_trace(endpoint, to->trace, sizeof to->trace, &to->trace_length);
        if (code != PCIEX_NO_MEMORY) {
            break;
        }
        refusals++;
        before = -1;
    }
    to->is_lost = code == PCIEX_NO_MEMORY;
    losses += to->is_lost;
    return code == 0 || (to->is_lost && is_traced && refusals > so_far && to->trace_length == 7);
}

/* Sets an endpoint up; then 50 writes and reads, of which the reads wait, and are answered at the end. */
static bool session(answers *to)
{
    const uint8_t set_up[3][16] = {
        {0x44, 0, 0, 1, 0, 8, 1, 0x0F, 1, 0, 0, 0x10, 0, 0, 0xDC, 0xFE},
        {0x44, 0, 0, 1, 0, 8, 2, 0x0F, 1, 0, 0, 0x14, 0, 0, 0, 0},
        {0x44, 0, 0, 1, 0, 8, 3, 0x01, 1, 0, 0, 0x04, 2, 0, 0, 0},
    };
    uint8_t write[16] = {0x40, 0, 0, 1, 0, 8, 0, 0x0F, 0xFE, 0xDC, 0, 0, 0, 1, 2, 3};
    uint8_t read[12] = {0x00, 0, 0, 0x30, 0, 8, 0, 0xFF, 0xFE, 0xDC, 0, 0};
    pciex_endpoint endpoint = PCIEX_NONE;
    to->length = 0;
    bool right = make(&endpoint);
    for (int i = 0; right && i < 3; i++) {
        right = send(&endpoint, set_up[i], sizeof set_up[i]) && fetch(&endpoint, to);
    }
    for (int i = 0; right && i < 50; i++) {
        write[11] = read[11] = (uint8_t)(4 * i);
        write[12] = read[6] = (uint8_t)i;
        right = send(&endpoint, write, sizeof write) && send(&endpoint, read, sizeof read);
    }
    right = right && fetch(&endpoint, to) && take_trace(&endpoint, to);
    pciex_endpoint_free(&endpoint);
    return right;
}

static bool is_same(const answers *one, const answers *other)
{
    return one->length == other->length && memcmp(one->bytes, other->bytes, one->length) == 0 &&
           (one->is_lost || other->is_lost ||
            (one->trace_length == other->trace_length && memcmp(one->trace, other->trace, one->trace_length) == 0));
}

/* Whether each allocation is refused in turn, and the answers stay the same. */
static bool refuse_each(void)
{
    static answers wanted, got;
    uint8_t verdict[PCIEX_LINE];
    refusals = losses = 0;
    if (!session(&wanted) || wanted.length < 50 * 192 ||
        pciex_check_clocked(wanted.trace, wanted.trace_length, verdict, sizeof verdict) != 0) {
        return false;
    }
    for (long i = 0;; i++) {
        const int so_far = refusals;
        before = i;
        const bool right = session(&got);
        before = -1;
        if (!right || !is_same(&got, &wanted)) {
            printf("after %ld allocations: another answer\n", i);
            return false;
        }
        if (refusals == so_far) {
            break;
        }
    }
    return refusals >= 4 && (losses > 0) == is_traced;
}

int main(void)
{
    bool right = refuse_each();
    is_traced = true;
    right = right && refuse_each();
    printf("%s\n", right ? "each allocation is refused in turn" : "wrong");
    return right ? 0 : 1;
}
