/* Threads use the memory of this machine, and log what they asked and what they were told: a log for `pciex search`, on
 * standard output.
 *
 *     this_machine locked THREADS EACH    atomic operations and reads of a few words: there is a history
 *     this_machine split THREADS EACH     additions, each a load and a later store: two threads load the same value, and
 *                                         there is none
 *     this_machine stores TRIES           two threads store to one word and load the other's. A processor may load before
 *                                         its store is seen, so both may load 0: that breaks the order of posted writes
 *
 * Exit status: 0 if there has to be a history, 1 if there can be none, 2 for wrong arguments or too little memory.
 *
 * Each line has a place in the order of time: a number of one counter, taken before the access begins (`sub`) or after
 * it has ended (`ans`). A number that is taken too early or too late can hide what is wrong, and can't invent it.
 * Operands have their lowest byte first, so the machine has to be little-endian.
 *
 * Build: cc -std=c11 -O2 -pthread this_machine.c -o this_machine
 */
#include <stdatomic.h>
#include <pthread.h>
#include <stdint.h>
#include <stdio.h>
#include <stdlib.h>
#include <string.h>

enum { MOST_THREADS = 7, MOST_EACH = 100000, WORDS = 4 };

enum kind { ADD, SWAP, CAS, READ, WRITE, ANSWER };

struct line {
    uint64_t place; /* in the order of time */
    enum kind kind;
    unsigned thread; /* 1 to 7 */
    uint32_t number; /* of the thread's request */
    unsigned word;
    uint32_t first;  /* the operand; the value to compare with; the answer */
    uint32_t second; /* the value to swap in */
};

/* The words lie in cache lines of their own: word w is at address 64 * w of the log. */
static _Alignas(64) struct {
    _Alignas(64) _Atomic uint32_t word;
} memory[WORDS];

static atomic_uint_fast64_t clock_of_all;

static uint64_t now(void)
{
    return atomic_fetch_add(&clock_of_all, 1);
}

/* A meeting of all threads, as often as they like. */
static struct {
    atomic_uint arrived;
    atomic_uint round;
} meeting;

static unsigned threads;
static uint32_t each;

static void meet(void)
{
    unsigned round = atomic_load(&meeting.round);
    if (atomic_fetch_add(&meeting.arrived, 1) + 1 == threads) {
        atomic_store(&meeting.arrived, 0);
        atomic_fetch_add(&meeting.round, 1);
    } else {
        while (atomic_load(&meeting.round) == round)
            ;
    }
}

struct log {
    struct line *lines;
    size_t length;
    uint32_t requests;
    unsigned thread;
};

static struct log logs[MOST_THREADS];

static void ask(struct log *log, enum kind kind, unsigned word, uint32_t first, uint32_t second)
{
    struct line line = {0, kind, log->thread, log->requests++, word, first, second};
    line.place = now();
    log->lines[log->length++] = line;
}

/* The answer to the thread's last request. */
static void told(struct log *log, uint32_t value)
{
    struct line line = {0, ANSWER, log->thread, log->requests - 1, 0, value, 0};
    line.place = now();
    log->lines[log->length++] = line;
}

/* A value that no other operand has. */
static uint32_t own_value(const struct log *log)
{
    return (uint32_t)log->thread << 28 | (log->requests + 1);
}

static void *locked(void *arg)
{
    struct log *log = arg;
    uint32_t seen[WORDS] = {0};
    meet();
    for (uint32_t i = 0; i < each; i++) {
        unsigned word = (i + log->thread) % WORDS;
        uint32_t value = own_value(log);
        switch ((i / WORDS + log->thread) % 4) {
        case 0:
            ask(log, ADD, word, value, 0);
            seen[word] = atomic_fetch_add(&memory[word].word, value);
            break;
        case 1:
            ask(log, SWAP, word, value, 0);
            seen[word] = atomic_exchange(&memory[word].word, value);
            break;
        case 2: {
            uint32_t was = seen[word];
            ask(log, CAS, word, was, value);
            atomic_compare_exchange_strong(&memory[word].word, &was, value);
            seen[word] = was;
            break;
        }
        default:
            ask(log, READ, word, 0, 0);
            seen[word] = atomic_load(&memory[word].word);
        }
        told(log, seen[word]);
    }
    return NULL;
}

static void *split(void *arg)
{
    struct log *log = arg;
    for (uint32_t i = 0; i < each; i++) {
        meet();
        ask(log, ADD, 1, 1, 0);
        uint32_t value = atomic_load(&memory[1].word);
        /* No thread stores before all have loaded. */
        meet();
        atomic_store(&memory[1].word, value + 1);
        told(log, value);
    }
    return NULL;
}

static uint32_t loaded[MOST_THREADS];

/* A try: thread 1 stores to word 1 and loads word 2, thread 2 the other way round. Both requests have their places before
 * the store, so that nothing stands between the store and the load. */
static void *stores(void *arg)
{
    struct log *log = arg;
    unsigned mine = log->thread, other = 3 - mine;
    for (uint32_t i = 0; i < each; i++) {
        log->length = 0;
        log->requests = 0;
        atomic_store(&memory[mine].word, 0);
        meet();
        ask(log, WRITE, mine, 1, 0);
        ask(log, READ, other, 0, 0);
        atomic_store_explicit(&memory[mine].word, 1, memory_order_relaxed);
        atomic_signal_fence(memory_order_seq_cst);
        uint32_t value = atomic_load_explicit(&memory[other].word, memory_order_relaxed);
        told(log, value);
        loaded[mine - 1] = value;
        meet();
        if (loaded[0] == 0 && loaded[1] == 0)
            break;
        meet();
    }
    return NULL;
}

static void put_bytes(uint32_t value)
{
    unsigned char bytes[4];
    memcpy(bytes, &value, 4);
    printf("%02X%02X%02X%02X", bytes[0], bytes[1], bytes[2], bytes[3]);
}

static void put_line(const struct line *line)
{
    static const char *const names[] = {"add", "swap", "cas", "read", "write"};
    printf("%s %u %u ", line->kind == ANSWER ? "ans" : "sub", line->thread, line->number);
    switch (line->kind) {
    case ANSWER:
        printf("data ");
        put_bytes(line->first);
        break;
    case READ:
        printf("read %X 1 F 0", 64 * line->word);
        break;
    case WRITE:
        printf("write %X F 0 ", 64 * line->word);
        put_bytes(line->first);
        break;
    default:
        printf("%s %X ", names[line->kind], 64 * line->word);
        put_bytes(line->first);
        if (line->kind == CAS) {
            putchar(' ');
            put_bytes(line->second);
        }
    }
    putchar('\n');
}

static int by_place(const void *a, const void *b)
{
    const struct line *x = a, *y = b;
    return (x->place > y->place) - (x->place < y->place);
}

/* The lines of all threads, in the order of time. */
static int put_log(void)
{
    size_t length = 0, filled = 0;
    for (unsigned t = 0; t < threads; t++)
        length += logs[t].length;
    struct line *lines = malloc((length + 1) * sizeof *lines);
    if (lines == NULL)
        return 2;
    for (unsigned t = 0; t < threads; t++) {
        memcpy(lines + filled, logs[t].lines, logs[t].length * sizeof *lines);
        filled += logs[t].length;
    }
    qsort(lines, length, sizeof *lines, by_place);
    puts("pciex-log 1\nmemory 0 4096 64");
    for (size_t i = 0; i < length; i++)
        put_line(&lines[i]);
    puts("end");
    free(lines);
    return fflush(stdout) == 0 ? 0 : 2;
}

static int run(void *(*work)(void *))
{
    pthread_t running[MOST_THREADS];
    for (unsigned t = 0; t < threads; t++) {
        logs[t].thread = t + 1;
        logs[t].lines = malloc((2 * (size_t)each + 4) * sizeof *logs[t].lines);
        if (logs[t].lines == NULL)
            return 2;
    }
    for (unsigned t = 0; t < threads; t++)
        if (pthread_create(&running[t], NULL, work, &logs[t]) != 0)
            exit(2);
    for (unsigned t = 0; t < threads; t++)
        pthread_join(running[t], NULL);
    return put_log();
}

/* A number in its range, or 0. */
static uint32_t number(const char *text, uint32_t most)
{
    char *end;
    unsigned long value = strtoul(text, &end, 10);
    return *text >= '1' && *text <= '9' && *end == '\0' && value <= most ? (uint32_t)value : 0;
}

static int usage(void)
{
    fputs("usage: this_machine locked|split THREADS EACH, or stores TRIES\n", stderr);
    return 2;
}

int main(int argc, char **argv)
{
    if (argc == 3 && strcmp(argv[1], "stores") == 0) {
        threads = 2;
        each = number(argv[2], 100 * MOST_EACH);
        if (each == 0)
            return usage();
        int failed = run(stores);
        return failed ? failed : loaded[0] == 0 && loaded[1] == 0;
    }
    if (argc != 4)
        return usage();
    threads = number(argv[2], MOST_THREADS);
    each = number(argv[3], MOST_EACH);
    if (threads == 0 || each == 0)
        return usage();
    if (strcmp(argv[1], "locked") == 0)
        return run(locked);
    if (strcmp(argv[1], "split") == 0) {
        int failed = run(split);
        return failed ? failed : threads > 1;
    }
    return usage();
}
