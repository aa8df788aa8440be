/*
 * The /init of a guest. Its processors access the device at the same time. What they saw is written as a log for
 * `pciex search` to the second serial port. The kernel's command line has the settings, as words:
 *
 *     processors=2 functions=2 rounds=100 seed=1 parts=read,write,wide,unaligned,locked,mailbox
 *
 * Each thread has a processor, 1 to 4 of them, and a function of the device if there are as many functions.
 *
 *     read, write   aligned accesses of 1, 2, 4 and 8 bytes     locked    lock xadd, xchg, lock cmpxchg: add, swap, cas
 *     wide          aligned accesses of 16 bytes (SSE)          mailbox   AtomicOps through the mailbox
 *     unaligned     accesses of 2, 4 and 8 bytes                count     add 1 to one word, `rounds` times, no other part
 *
 * The order of the lines is that of a counter in the guest's memory, taken before and after each access. An access that
 * isn't one request has a line for each part: 16 bytes are two of 8, and an unaligned access is one for each byte.
 */
#define _GNU_SOURCE
#include "device.h"

#include <dirent.h>
#include <emmintrin.h>
#include <fcntl.h>
#include <pthread.h>
#include <stdbool.h>
#include <stdint.h>
#include <stdio.h>
#include <stdlib.h>
#include <string.h>
#include <sys/mman.h>
#include <sys/mount.h>
#include <sys/reboot.h>
#include <sys/stat.h>
#include <termios.h>
#include <time.h>
#include <unistd.h>

enum { MOST_THREADS = 4 };

enum kind { READ, WRITE, ADD, SWAP, COMPARE };

/* How an access is made. */
enum means { PLAIN, LOCKED, MAILBOX };

/* An access, and what it saw. Bytes stand in the order of the memory. */
struct event {
    uint64_t before, after;
    enum kind kind;
    enum means means;
    uint32_t offset, length;
    uint8_t operand[16], compare[16], data[16];
};

struct thread {
    pthread_t id;
    unsigned number;
    unsigned count; /* of events */
    uint64_t random;
    struct event *events;
};

static volatile uint8_t *memory[MOST_THREADS], *mailbox[MOST_THREADS];
static size_t size;
static uint64_t counter;
static unsigned rounds, processors;
static const char *parts;
static struct thread threads[MOST_THREADS];
static pthread_barrier_t gate;

static unsigned setting(const char *name, unsigned otherwise)
{
    return getenv(name) ? (unsigned)atoi(getenv(name)) : otherwise;
}

static bool has(const char *part)
{
    return strstr(parts, part) != NULL;
}

static uint64_t stamp(void)
{
    return __atomic_fetch_add(&counter, 1, __ATOMIC_SEQ_CST);
}

/* A random number below a bound, by xorshift. */
static uint32_t draw(struct thread *it, uint32_t below)
{
    it->random ^= it->random << 13;
    it->random ^= it->random >> 7;
    it->random ^= it->random << 17;
    return (uint32_t)(it->random >> 32) % below;
}

/* ---- accesses */

static void load(const volatile uint8_t *at, struct event *it)
{
    uint64_t value = 0;
    switch (it->length) {
    case 1: value = *at; break;
    case 2: value = *(const volatile uint16_t *)at; break;
    case 4: value = *(const volatile uint32_t *)at; break;
    case 8: value = *(const volatile uint64_t *)at; break;
    default: {
        __m128i wide;
        __asm__ volatile("movdqa %1, %0" : "=x"(wide) : "m"(*(const volatile __m128i *)at));
        memcpy(it->data, &wide, sizeof wide);
        return;
    }
    }
    memcpy(it->data, &value, sizeof value);
}

static void store(volatile uint8_t *at, const struct event *it)
{
    uint64_t value;
    memcpy(&value, it->operand, sizeof value);
    switch (it->length) {
    case 1: *at = (uint8_t)value; break;
    case 2: *(volatile uint16_t *)at = (uint16_t)value; break;
    case 4: *(volatile uint32_t *)at = (uint32_t)value; break;
    case 8: *(volatile uint64_t *)at = value; break;
    default: {
        __m128i wide;
        memcpy(&wide, it->operand, sizeof wide);
        __asm__ volatile("movdqa %1, %0" : "=m"(*(volatile __m128i *)at) : "x"(wide));
    }
    }
}

/* The processor's own atomic instructions, of 4 and 8 bytes; lock cmpxchg of 16, too. */
static void lock(volatile uint8_t *at, struct event *it)
{
    volatile uint64_t *at8 = (volatile uint64_t *)at;
    volatile uint32_t *at4 = (volatile uint32_t *)at;
    uint64_t operand[2], old[2] = {0, 0};
    memcpy(operand, it->operand, sizeof operand);
    memcpy(old, it->compare, sizeof old);
    if (it->length == 16) {
        __asm__ volatile("lock cmpxchg16b %0"
                         : "+m"(*(volatile __int128 *)at), "+a"(old[0]), "+d"(old[1])
                         : "b"(operand[0]), "c"(operand[1])
                         : "cc");
    } else if (it->length == 8) {
        switch (it->kind) {
        case ADD: old[0] = __atomic_fetch_add(at8, operand[0], __ATOMIC_SEQ_CST); break;
        case SWAP: old[0] = __atomic_exchange_n(at8, operand[0], __ATOMIC_SEQ_CST); break;
        default: __atomic_compare_exchange_n(at8, old, operand[0], false, __ATOMIC_SEQ_CST, __ATOMIC_SEQ_CST);
        }
    } else {
        uint32_t word = (uint32_t)old[0];
        switch (it->kind) {
        case ADD: word = __atomic_fetch_add(at4, (uint32_t)operand[0], __ATOMIC_SEQ_CST); break;
        case SWAP: word = __atomic_exchange_n(at4, (uint32_t)operand[0], __ATOMIC_SEQ_CST); break;
        default:
            __atomic_compare_exchange_n(at4, &word, (uint32_t)operand[0], false, __ATOMIC_SEQ_CST, __ATOMIC_SEQ_CST);
        }
        old[0] = word;
    }
    memcpy(it->data, old, sizeof old);
}

static void put_box(volatile uint8_t *box, uint32_t offset, const uint8_t *bytes, uint32_t length)
{
    for (uint32_t i = 0; i < length; i += 4) {
        uint32_t word;
        memcpy(&word, bytes + i, sizeof word);
        *(volatile uint32_t *)(box + offset + i) = word;
    }
}

/* An AtomicOp through the mailbox of the thread's function. Its status has to be that of success. */
static void post(volatile uint8_t *box, struct event *it)
{
    const uint32_t kind = it->kind == ADD ? GO_FETCH_ADD : it->kind == SWAP ? GO_SWAP : GO_CAS;
    *(volatile uint32_t *)(box + BOX_ADDRESS) = it->offset;
    put_box(box, BOX_OPERAND, it->operand, it->length);
    put_box(box, BOX_COMPARE, it->compare, it->kind == COMPARE ? it->length : 0);
    *(volatile uint32_t *)(box + BOX_GO) = kind | it->length << 8;
    const uint32_t status = *(volatile uint32_t *)(box + BOX_GO);
    if (status != BOX_SUCCESS) {
        printf("guest: the mailbox has status %u\n", status);
    }
    for (uint32_t i = 0; i < it->length; i += 4) {
        const uint32_t word = *(volatile uint32_t *)(box + BOX_DATA + i);
        memcpy(it->data + i, &word, sizeof word);
    }
}

/* Does what the event says, and notes what came. */
static void act(struct thread *it, struct event event)
{
    volatile uint8_t *at = memory[it->number] + event.offset;
    event.before = stamp();
    if (event.means == MAILBOX) {
        post(mailbox[it->number], &event);
    } else if (event.means == LOCKED) {
        lock(at, &event);
    } else if (event.kind == READ) {
        load(at, &event);
    } else {
        store(at, &event);
    }
    event.after = stamp();
    it->events[it->count++] = event;
}

/* ---- which accesses */

/* Draws the operand, with the thread's number on top. What was seen last is the compare value in half of the draws. */
static void draw_operands(struct thread *it, struct event *event)
{
    for (uint32_t i = 0; i < event->length; i++) {
        event->operand[i] = (uint8_t)draw(it, 256);
    }
    event->operand[event->length - 1] = (uint8_t)(it->number + 1);
    if (it->count > 0 && draw(it, 2) == 0) {
        memcpy(event->compare, it->events[it->count - 1].data, event->length);
    }
}

/* One drawn access, of the parts that are asked for. */
static void round_of(struct thread *it)
{
    static const char *const names[] = {"read", "write", "wide", "unaligned", "locked", "mailbox"};
    static const uint32_t places[] = {0, 0x30, 0x400, 0xFF0};
    const uint32_t part = draw(it, sizeof names / sizeof names[0]);
    struct event event = {.offset = places[draw(it, 4)]};
    if (!has(names[part])) {
        return;
    }
    if (part >= 4) {
        event.means = part == 4 ? LOCKED : MAILBOX;
        event.kind = ADD + draw(it, 3);
        event.length = 4u << draw(it, event.kind == COMPARE ? 3 : 2);
    } else if (part == 3) {
        event.kind = draw(it, 2);
        event.length = 2u << draw(it, 3);
        event.offset += 1 + 2 * draw(it, 4);
    } else if (part == 2) {
        event.kind = draw(it, 2);
        event.length = 16;
    } else {
        event.kind = part;
        event.length = 1u << draw(it, 4);
        event.offset += draw(it, 8 / event.length) * event.length;
    }
    draw_operands(it, &event);
    act(it, event);
}

static void *work(void *argument)
{
    struct thread *it = argument;
    const struct event one = {.kind = ADD, .means = LOCKED, .offset = 0x80, .length = 4, .operand = {1}};
    cpu_set_t mine;
    CPU_ZERO(&mine);
    CPU_SET(it->number, &mine);
    pthread_setaffinity_np(pthread_self(), sizeof mine, &mine);
    pthread_barrier_wait(&gate);
    for (unsigned i = 0; i < rounds; i++) {
        if (has("count")) {
            act(it, one);
        } else {
            round_of(it);
        }
    }
    pthread_barrier_wait(&gate);
    if (has("count")) {
        act(it, (struct event){.kind = READ, .offset = 0x80, .length = 4});
    }
    return NULL;
}

/* ---- the log */

/* How many requests the event is, each of so many bytes. */
static uint32_t requests_of(const struct event *it, uint32_t *each)
{
    *each = it->means != PLAIN ? it->length : it->offset % it->length != 0 ? 1 : it->length > 8 ? 8 : it->length;
    return it->length / *each;
}

static void put_bytes(FILE *log, const uint8_t *bytes, uint32_t length)
{
    for (uint32_t i = 0; i < length; i++) {
        fprintf(log, "%02X", bytes[i]);
    }
}

/* The bytes of a part as whole DW, zeros where it has none: how many. */
static uint32_t whole(uint8_t *room, uint32_t offset, const uint8_t *bytes, uint32_t length)
{
    memset(room, 0, 16);
    memcpy(room + offset % 4, bytes, length);
    return length < 4 ? 4 : length;
}

/* The operation of `length` bytes from byte `from` of the event on. Reads and writes name whole DW and enable a part. */
static void put_operation(FILE *log, const struct event *it, uint32_t from, uint32_t length)
{
    static const char *const names[] = {"read", "write", "add", "swap", "cas"};
    const uint32_t offset = it->offset + from, first = ((1u << (length < 4 ? length : 4)) - 1) << offset % 4;
    const unsigned last = length == 8 ? 15 : 0;
    uint8_t room[16];
    fprintf(log, "%s %X ", names[it->kind], it->means == PLAIN ? offset & ~3u : offset);
    if (it->means != PLAIN) {
        put_bytes(log, it->compare, it->kind == COMPARE ? length : 0);
        fprintf(log, it->kind == COMPARE ? " " : "");
        put_bytes(log, it->operand, length);
    } else if (it->kind == READ) {
        fprintf(log, "%d %X %X", length == 8 ? 2 : 1, first, last);
    } else {
        fprintf(log, "%X %X ", first, last);
        put_bytes(log, room, whole(room, offset, it->operand + from, length));
    }
}

/* The lines of the event, whose first request has this number: what was submitted, or the answers. */
static void put_lines(FILE *log, unsigned thread, unsigned number, const struct event *it, bool is_answered)
{
    uint8_t room[16];
    uint32_t each;
    const uint32_t count = requests_of(it, &each);
    for (uint32_t i = 0; i < count && !(is_answered && it->kind == WRITE); i++) {
        fprintf(log, "%s %u %u ", is_answered ? "ans" : "sub", thread + 1, number + i);
        if (is_answered) {
            fprintf(log, "data ");
            put_bytes(log, room, whole(room, it->means == PLAIN ? it->offset + i * each : 0, it->data + i * each, each));
        } else {
            put_operation(log, it, i * each, each);
        }
        fprintf(log, "\n");
    }
}

/* Merges what the threads noted, by the stamps. */
static void put_log(FILE *log)
{
    struct { unsigned event, number; bool is_answered; } at[MOST_THREADS] = {{0, 0, false}};
    fprintf(log, "pciex-log 1\nmemory 0 %zu %u\n", size, *(volatile uint32_t *)(mailbox[0] + BOX_BLOCK));
    for (;;) {
        unsigned first = MOST_THREADS;
        uint64_t least = UINT64_MAX;
        for (unsigned i = 0; i < processors; i++) {
            const struct event *it = threads[i].events + at[i].event;
            if (at[i].event < threads[i].count && (at[i].is_answered ? it->after : it->before) < least) {
                least = at[i].is_answered ? it->after : it->before;
                first = i;
            }
        }
        if (first == MOST_THREADS) {
            break;
        }
        const struct event *it = threads[first].events + at[first].event;
        put_lines(log, first, at[first].number, it, at[first].is_answered);
        if (at[first].is_answered) {
            uint32_t each;
            at[first].number += requests_of(it, &each);
            at[first].event++;
        }
        at[first].is_answered = !at[first].is_answered;
    }
    fprintf(log, "end\n");
}

/* ---- the device */

/* Whether the file begins with this number, in hexadecimal. */
static bool has_number(const char *folder, const char *name, unsigned number)
{
    char file[400], room[64] = "";
    snprintf(file, sizeof file, "%s/%s", folder, name);
    FILE *it = fopen(file, "r");
    const bool is_read = it && fgets(room, sizeof room, it);
    if (it) {
        fclose(it);
    }
    return is_read && strtoul(room, NULL, 16) == number;
}

/* Maps the BAR of that number: NULL if that fails. `length` is how many bytes it has. */
static volatile uint8_t *map_bar(const char *folder, int number, size_t *length)
{
    char file[400];
    struct stat about;
    snprintf(file, sizeof file, "%s/resource%d", folder, number);
    const int descriptor = open(file, O_RDWR | O_SYNC);
    if (descriptor < 0 || fstat(descriptor, &about) != 0) {
        return NULL;
    }
    *length = (size_t)about.st_size;
    void *at = mmap(NULL, *length, PROT_READ | PROT_WRITE, MAP_SHARED, descriptor, 0);
    close(descriptor);
    return at == MAP_FAILED ? NULL : at;
}

/* Switches the function on and maps its BARs for a thread. */
static bool take(const char *folder, unsigned thread)
{
    char file[400];
    size_t box_size;
    snprintf(file, sizeof file, "%s/enable", folder);
    FILE *it = fopen(file, "w");
    if (!it || fputs("1", it) < 0 || fclose(it) != 0) {
        return false;
    }
    memory[thread] = map_bar(folder, MEMORY_BAR, &size);
    mailbox[thread] = map_bar(folder, MAILBOX_BAR, &box_size);
    return memory[thread] && mailbox[thread];
}

/* Finds a function for each thread, or as many as are asked for, which the threads share. */
static bool find(void)
{
    const unsigned functions = setting("functions", processors);
    const char *top = "/sys/bus/pci/devices";
    struct dirent **all;
    unsigned found = 0;
    const int count = scandir(top, &all, NULL, alphasort);
    for (int i = 0; i < count && found < functions; i++) {
        char folder[300];
        snprintf(folder, sizeof folder, "%s/%s", top, all[i]->d_name);
        const bool is_ours = has_number(folder, "vendor", VENDOR_ID) && has_number(folder, "device", DEVICE_ID);
        if (is_ours && !take(folder, found++)) {
            return false;
        }
    }
    for (unsigned i = found; found > 0 && i < processors; i++) {
        memory[i] = memory[i % found];
        mailbox[i] = mailbox[i % found];
    }
    return found > 0 && found == functions;
}

/* Runs the threads to their end: how many accesses they made. */
static unsigned run_threads(void)
{
    unsigned all = 0;
    pthread_barrier_init(&gate, NULL, processors);
    for (unsigned i = 0; i < processors; i++) {
        threads[i].number = i;
        threads[i].random = 0x9E3779B97F4A7C15 * (setting("seed", 1) * MOST_THREADS + i + 1);
        threads[i].events = calloc(rounds + 1, sizeof *threads[i].events);
        if (!threads[i].events || pthread_create(&threads[i].id, NULL, work, threads + i) != 0) {
            printf("guest: no thread\n");
            reboot(RB_POWER_OFF);
        }
    }
    for (unsigned i = 0; i < processors; i++) {
        pthread_join(threads[i].id, NULL);
        all += threads[i].count;
    }
    return all;
}

static void run(void)
{
    struct timespec from, to;
    struct termios raw;
    processors = setting("processors", 2);
    rounds = setting("rounds", 100);
    parts = getenv("parts") ? getenv("parts") : "read,write,wide,unaligned,locked,mailbox";
    if (processors < 1 || processors > MOST_THREADS || !find()) {
        printf("guest: no function of the device for each processor\n");
        return;
    }
    clock_gettime(CLOCK_MONOTONIC, &from);
    const unsigned all = run_threads();
    clock_gettime(CLOCK_MONOTONIC, &to);
    FILE *log = fopen("/dev/ttyS1", "w");
    if (!log || tcgetattr(fileno(log), &raw) != 0) {
        printf("guest: no second serial port\n");
        return;
    }
    cfmakeraw(&raw);
    tcsetattr(fileno(log), TCSANOW, &raw);
    put_log(log);
    fflush(log);
    tcdrain(fileno(log));
    printf("guest: %u accesses in %lld us\n", all,
           (to.tv_sec - from.tv_sec) * 1000000LL + (to.tv_nsec - from.tv_nsec) / 1000);
}

int main(void)
{
    mkdir("/sys", 0755);
    mkdir("/dev", 0755);
    mount("sysfs", "/sys", "sysfs", 0, NULL);
    mount("devtmpfs", "/dev", "devtmpfs", 0, NULL);
    if (freopen("/dev/ttyS0", "w", stdout)) {
        run();
        fflush(stdout);
        tcdrain(fileno(stdout));
    }
    reboot(RB_POWER_OFF);
    return 0;
}
