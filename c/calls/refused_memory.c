/*
 * Refuses each allocation of the calls of a device, a fabric, a monitor, the checker and the search in turn: the call that
 * needs it returns PCIEX_NO_MEMORY, and returns what it should when it is called again. A search may also tell fewer reasons.
 *
 * Link with -Wl,--wrap=malloc,--wrap=calloc,--wrap=realloc,--wrap=posix_memalign.
 */
#include "../pciex.h"

#include <errno.h>
#include <stdio.h>
#include <string.h>

/* How many allocations come before the one that is refused; negative: none is. */
static long before = -1;

static bool is_refused(void)
{
    if (before < 0) {
        return false;
    }
    return before-- == 0;
}

void *__real_malloc(size_t size);
void *__real_calloc(size_t count, size_t size);
void *__real_realloc(void *at, size_t size);
int __real_posix_memalign(void **at, size_t alignment, size_t size);
void *__wrap_malloc(size_t size);
void *__wrap_calloc(size_t count, size_t size);
void *__wrap_realloc(void *at, size_t size);
int __wrap_posix_memalign(void **at, size_t alignment, size_t size);

void *__wrap_malloc(size_t size)
{
    return is_refused() ? NULL : __real_malloc(size);
}

void *__wrap_calloc(size_t count, size_t size)
{
    return is_refused() ? NULL : __real_calloc(count, size);
}

void *__wrap_realloc(void *at, size_t size)
{
    return is_refused() ? NULL : __real_realloc(at, size);
}

int __wrap_posix_memalign(void **at, size_t alignment, size_t size)
{
    return is_refused() ? ENOMEM : __real_posix_memalign(at, alignment, size);
}

/* What the calls of one session returned, one behind another. */
typedef struct answers {
    char bytes[1 << 18];
    size_t length;
} answers;

static int refusals;

/* Whether a call has to be made again, with memory. */
static bool is_again(uint32_t code)
{
    if (code != PCIEX_NO_MEMORY) {
        return false;
    }
    refusals++;
    before = -1;
    return true;
}

/* The code of a call, and if it is made again the second one. */
#define CODE(call) (is_again(code = (call)) ? code = (call) : code)

static void add(answers *to, uint32_t code, const uint8_t *room, size_t length)
{
    to->length += (size_t)sprintf(to->bytes + to->length, "%u %.*s\n", (unsigned)code, (int)length, (const char *)room);
}

static uint8_t room[1 << 16], reasons[1 << 14];

static void device(answers *to)
{
    const uint8_t write[16] = {0x40, 0, 0, 1, 1, 0, 0, 0x0F, 0, 0, 0, 0x40, 1, 2, 3, 4};
    pciex_device device = PCIEX_NONE;
    uint32_t code;
    add(to, CODE(pciex_device_new(0, 4096, 64, &device)), room, 0);
    for (uint32_t i = 0; i < 20; i++) {
        add(to, CODE(pciex_device_serve(&device, i, write, sizeof write, room, sizeof room)), room, 0);
    }
    pciex_device_free(&device);
}

/* A fabric that keeps a trace: what a script writes, that the fabric comes to rest, and that its trace is explained. */
static void fabric(answers *to)
{
    static const char line[] = "fabric 3 0 4096";
    static const char script[] = "submit 1 write 40 F 0 01020304\nsubmit 2 add 40 01000000\ntransmit up1\nsubmit 3 read 40 1 F 0\n";
    pciex_fabric fabric = PCIEX_NONE;
    uint32_t code;
    size_t length = 0, from = 0, done = 0;
    bool quiet = false;
    add(to, CODE(pciex_fabric_new((const uint8_t *)line, sizeof line - 1, true, room, sizeof room, &fabric)), room, 0);
    do {
        code = pciex_fabric_script(&fabric, (const uint8_t *)script + from, sizeof script - 1 - from, room, sizeof room, &done,
                                   &length);
        memcpy(to->bytes + to->length, room, length);
        to->length += length;
        from += done;
    } while (is_again(code));
    add(to, code, room, 0);
    add(to, CODE(pciex_fabric_settle(&fabric)), room, 0);
    code = pciex_fabric_quiet(&fabric, &quiet);
    add(to, code, (const uint8_t *)"quiet", quiet ? 5 : 0);
    add(to, CODE(pciex_fabric_settled(&fabric, room, sizeof room, &length)), room, 0);
    add(to, CODE(pciex_fabric_trace(&fabric, room, sizeof room, &length)), room, 0);
    add(to, CODE(pciex_check_clocked(room, length, reasons, sizeof reasons)), room, 0);
    pciex_fabric_free(&fabric);
}

static void monitor(answers *to)
{
    static const char line[] = "trace 0 4096 block 64";
    const uint8_t sum[16] = {0x4C, 0, 0, 1, 1, 0, 5, 0, 0, 0, 0, 0x40, 7, 0, 0, 0};
    const uint8_t done[16] = {0x4A, 0, 0, 1, 0, 0, 0, 4, 1, 0, 5, 0, 0, 0, 0, 0};
    pciex_monitor monitor = PCIEX_NONE;
    uint32_t code;
    add(to, CODE(pciex_monitor_new((const uint8_t *)line, sizeof line - 1, room, sizeof room, &monitor)), room, 0);
    for (uint32_t i = 0; i < 3; i++) {
        add(to, CODE(pciex_monitor_request(&monitor, 1, sum, sizeof sum, room, sizeof room)), room, 0);
        add(to, CODE(pciex_monitor_acted(&monitor, 1, i, room, sizeof room)), room, 0);
        add(to, CODE(pciex_monitor_completion(&monitor, 1, done, sizeof done, room, sizeof room)), room, 0);
    }
    pciex_monitor_free(&monitor);
}

/* Both searches for a history of a log: their answers. */
static void search(answers *to, const char *log, uint64_t limit, uint32_t granularity)
{
    const uint8_t *text = (const uint8_t *)log;
    uint32_t code;
    size_t length = 0, reasons_length = 0;
    memset(room, '.', sizeof room);
    if (granularity == PCIEX_WHOLE) {
        add(to, CODE(pciex_search(text, strlen(log), limit, room, sizeof room, &length)), room, length);
    }
    add(to, CODE(pciex_search_with_reasons(text, strlen(log), limit, granularity, room, sizeof room, &length, reasons,
                                           sizeof reasons, &reasons_length)),
        room, length);
}

/* So many rounds of requests of three requesters on two words, with the answers of a memory, but for one in this round. */
static char long_log[1 << 14];

static void write_log(int rounds, int wrong)
{
    char *at = long_log + sprintf(long_log, "pciex-log 1\nmemory 0 4096 64\n");
    unsigned words[2] = {0, 0};
    for (int k = 0; k < rounds; k++) {
        unsigned old[3];
        for (int i = 0; i < 3; i++) {
            unsigned *word = &words[(k + i) % 2];
            const int address = (k + i) % 2 * 4 + 64;
            old[i] = *word;
            if ((k + i) % 3 == 0) {
                at += sprintf(at, "sub %d %d swap %X %02X000000\n", i + 1, k, address, (unsigned)(k + 3 * i) % 200);
                *word = (unsigned)(k + 3 * i) % 200;
            } else if ((k + i) % 3 == 1) {
                at += sprintf(at, "sub %d %d add %X 01000000\n", i + 1, k, address);
                *word = *word + 1;
            } else {
                at += sprintf(at, "sub %d %d cas %X %02X000000 63000000\n", i + 1, k, address, *word);
                *word = 0x63;
            }
        }
        for (int i = 2; i >= 0; i--) {
            const unsigned shown = old[i] + (k == wrong && i == 1);
            at += sprintf(at, "ans %d %d data %02X000000\n", i + 1, k, shown % 256);
        }
    }
    sprintf(at, "end\n");
}

static const char hard[] = "pciex-log 1\nmemory 0 4096 64\nsub 1 0 add 40 01000000\nsub 2 0 add 40 02000000\nsub 3 0 swap 44 01000000\n"
                           "sub 4 0 swap 44 02000000\nsub 5 0 read 40 2 F F\nans 5 0 data 0200000002000000\nsub 5 1 read 40 2 F F\n"
                           "ans 5 1 data 0300000001000000\nend\n";
static const char torn[] = "pciex-log 1\nmemory 0 4096 64\nsub 1 0 write 40 F F 0100000002000000\nsub 2 0 read 40 2 F F\n"
                           "ans 2 0 data 0000000002000000\nend\n";
static const char taken[] = "pciex-log 1\nmemory 0 4096 64\nsub 1 0 swap 40 01000000\nsub 2 0 swap 40 02000000\nsub 3 0 swap 40 03000000\n"
                            "ans 1 0 data 00000000\nans 2 0 data 01000000\nans 3 0 data 01000000\nend\n";

/* The calls of one kind. */
static void session(int kind, answers *to)
{
    to->length = 0;
    switch (kind) {
        case 0: device(to); break;
        case 1: fabric(to); break;
        case 2: monitor(to); break;
        case 3: search(to, hard, 1000, PCIEX_WHOLE); break;
        case 4: search(to, hard, 1, PCIEX_WHOLE); break;
        case 5: search(to, torn, 1000, PCIEX_WHOLE); break;
        case 6: search(to, torn, 1000, 4); break;
        case 7: search(to, taken, 1000, PCIEX_WHOLE); break;
        case 8: search(to, "pciex-log 1\nmemory 0 4096 64\nans 1 0 data 00000000\nend\n", 1000, PCIEX_WHOLE); break;
        case 9: search(to, "no log", 1000, PCIEX_WHOLE); break;
        case 10: write_log(30, -1); search(to, long_log, 1000, PCIEX_WHOLE); break;
        case 11: write_log(6, 4); search(to, long_log, 1000, PCIEX_WHOLE); break;
        default: break;
    }
}

/* Whether each allocation is refused in turn, and the answers stay the same. A text that has no records needs no memory. */
static bool refuse_each(int kind)
{
    static answers wanted, got;
    before = -1;
    refusals = 0;
    session(kind, &wanted);
    if (refusals != 0) {
        printf("calls %d: memory is refused that is there\n", kind);
        return false;
    }
    for (long i = 0;; i++) {
        before = i;
        session(kind, &got);
        const bool is_over = before >= 0;
        before = -1;
        if (got.length != wanted.length || memcmp(got.bytes, wanted.bytes, got.length) != 0) {
            printf("calls %d, after %ld allocations: another answer\n", kind, i);
            return false;
        }
        if (is_over) {
            return (refusals > 0) == (kind != 9);
        }
    }
}

/* With an argument the searches of longer logs are left out. */
int main(int count, char **words)
{
    const int kinds = count > 1 ? 10 : 12;
    bool right = true;
    (void)words;
    for (int kind = 0; kind < kinds; kind++) {
        const bool is_each = refuse_each(kind);
        if (!is_each) {
            printf("calls %d: wrong\n", kind);
        }
        right = is_each && right;
    }
    printf("%s\n", right ? "each allocation is refused in turn" : "wrong");
    return right ? 0 : 1;
}
