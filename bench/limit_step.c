/* What `pciex step` does with the lines of script.awk, by hand (limit.h). It keeps of a packet what its operation is, and of
 * the history its length: no line of these scripts shows more.
 */
#define _GNU_SOURCE
#include "limit.h"
#include "fabric.h"

enum { READ, WRITE, ADD, SWAP };

/* The requests under way, and of one that acted its answer. */
struct request {
    uint64_t data;
    uint32_t number, address;
    unsigned char kind, size, tag;
};

static struct request requests[8192];
static uint32_t numbers[8], tags[8], free_ids[8192], free_count, history;
static unsigned char memory[4096];

static inline void word_is(const unsigned char *at, uint32_t word)
{
    if (load4(at) != word)
        unknown();
}

/* A lane's name behind a space, and what stands behind it. */
static inline struct lane *lane_at(const unsigned char **at)
{
    const unsigned char *name = *at;
    uint32_t word = load4(name);
    unsigned digit;
    if ((word & 0xFFFFFF) == (WORD_OF(' ', 'u', 'p', 0) & 0xFFFFFF)) {
        digit = word >> 24;
        *at = name + 4;
        if (digit - '1' > 6)
            unknown();
        return &lanes[UP + digit - '0'];
    }
    if ((word & 0xFFFFFF) == WORD_OF(' ', 'i', 'n', 0)) {
        *at = name + 3;
        return &lanes[INWARD];
    }
    if (word == WORD_OF(' ', 'o', 'u', 't')) {
        *at = name + 4;
        return &lanes[OUTWARD];
    }
    digit = name[5];
    if (word != WORD_OF(' ', 'd', 'o', 'w') || name[4] != 'n' || digit - '1' > 6)
        unknown();
    *at = name + 6;
    return &lanes[DOWN + digit - '0'];
}

/* The fate that ends a line. */
static inline int fate_at(const unsigned char **at)
{
    const unsigned char *word = *at;
    if (LIKELY(load4(word) == WORD_OF(' ', 'g', 'o', 'o') && word[4] == 'd' && word[5] == '\n')) {
        *at = word + 6;
        return GOOD;
    }
    if (load4(word) == WORD_OF(' ', 'l', 'o', 's') && word[4] == 't' && word[5] == '\n') {
        *at = word + 6;
        return LOST;
    }
    if (load8(word) != ((uint64_t)WORD_OF(' ', 'f', 'a', 'i') | (uint64_t)WORD_OF('l', 'e', 'd', '\n') << 32))
        unknown();
    *at = word + 8;
    return FAILED;
}

static inline unsigned digit_of(unsigned char digit)
{
    unsigned value = digit - (unsigned)'0', letter = (digit & ~0x20u) - 'A';
    return value < 10 ? value : letter < 6 ? letter + 10 : 16;
}

/* A hexadecimal address, and the space behind it. */
static inline uint32_t address_at(const unsigned char **at)
{
    uint32_t address = 0;
    unsigned digit;
    while ((digit = digit_of(**at)) < 16) {
        address = address << 4 | digit;
        ++*at;
    }
    if (*(*at)++ != ' ' || address > 4088 || address & 3)
        unknown();
    return address;
}

/* Data of 4 or 8 bytes, and the line feed behind it: its size. */
static inline unsigned data_at(const unsigned char **at, uint64_t *data)
{
    int is_long = (*at)[8] != '\n';
    *data = words_at(*at, *at + (is_long ? 8 : 0));
    *at += is_long ? 16 : 8;
    if (*(*at)++ != '\n')
        unknown();
    if (!is_long)
        *data = (uint32_t)*data;
    return is_long ? 8 : 4;
}

static inline void put_decimal(uint32_t number)
{
    unsigned char buffer[16], *end = buffer + 16, *front = end;
    do
        *--front = (unsigned char)('0' + number % 10);
    while (number /= 10);
    memcpy(out_at, front, 10);
    out_at += end - front;
}

/* submit PORT OPERATION */
static void submit(void)
{
    const unsigned char *at = in_at + 9;
    unsigned port = in_at[7] - '0';
    word_is(in_at + 4, WORD_OF('i', 't', ' ', in_at[7]));
    if (port - 1 > 6 || in_at[8] != ' ' || !free_count)
        unknown();
    uint32_t id = free_ids[free_count - 1];
    struct request *request = &requests[id];
    struct item item = { .id = id, .port = (unsigned char)port, .class = NON_POSTED, .units = 1 };
    uint32_t word = load4(at);
    if (word == WORD_OF('a', 'd', 'd', ' ')) {
        at += 4;
        request->kind = ADD;
        request->address = address_at(&at);
        request->size = (unsigned char)data_at(&at, &request->data);
    } else if (word == WORD_OF('s', 'w', 'a', 'p') && at[4] == ' ') {
        at += 5;
        request->kind = SWAP;
        request->address = address_at(&at);
        request->size = (unsigned char)data_at(&at, &request->data);
    } else if (word == WORD_OF('w', 'r', 'i', 't') && at[4] == 'e' && at[5] == ' ') {
        at += 6;
        request->kind = WRITE;
        request->address = address_at(&at);
        word_is(at, WORD_OF('F', ' ', '0', ' '));
        at += 4;
        if ((request->size = (unsigned char)data_at(&at, &request->data)) != 4)
            unknown();
        item.class = POSTED;
    } else if (word == WORD_OF('r', 'e', 'a', 'd') && at[4] == ' ') {
        at += 5;
        request->kind = READ;
        request->address = address_at(&at);
        word_is(at, WORD_OF('1', ' ', 'F', ' '));
        if (at[4] != '0' || at[5] != '\n')
            unknown();
        at += 6;
        request->size = 4;
        item.units = 0;
    } else {
        unknown();
    }
    if (request->address & (request->size - 1u) || !can_enter(&lanes[UP + port], item.class, item.units) ||
        (item.class == NON_POSTED && tags[port] == 256))
        unknown();
    in_at += at - in_at;
    free_count--;
    tags[port] += item.class == NON_POSTED;
    request->number = numbers[port]++;
    enter(&lanes[UP + port], item);
    PUT("sub ");
    *out_at++ = (unsigned char)('0' + port);
    *out_at++ = ' ';
    put_decimal(request->number);
    *out_at++ = '\n';
}

/* transmit LANE */
static inline void transmits(void)
{
    static const unsigned char digits[16] = "0123456789ABCDEF";
    const unsigned char *at = in_at + 8;
    word_is(in_at + 4, WORD_OF('s', 'm', 'i', 't'));
    struct lane *lane = lane_at(&at);
    uint32_t number = lane->sent & 0xFFF;
    if (*at != '\n' || !transmit(lane))
        unknown();
    in_at += at + 1 - in_at;
    PUT("sent ");
    *out_at++ = digits[number >> 8];
    *out_at++ = digits[number >> 4 & 15];
    *out_at++ = digits[number & 15];
    *out_at++ = '\n';
}

/* deliver LANE FATE */
static inline void delivers(void)
{
    const unsigned char *at = in_at + 7;
    word_is(in_at + 3, WORD_OF('i', 'v', 'e', 'r'));
    struct lane *lane = lane_at(&at);
    int fate = fate_at(&at);
    in_at += at - in_at;
    switch (deliver(lane, fate)) {
    case ACCEPT: PUT("accept\n"); break;
    case DUPLICATE: PUT("duplicate\n"); break;
    case NAK: PUT("nak\n"); break;
    case QUIET: PUT("quiet\n"); break;
    case GONE: PUT("gone\n"); break;
    default: unknown();
    }
}

/* deliver-dllp LANE FATE */
static inline void delivers_dllp(void)
{
    const unsigned char *at = in_at + 12;
    uint32_t dllp;
    word_is(in_at + 3, WORD_OF('i', 'v', 'e', 'r'));
    word_is(in_at + 8, WORD_OF('d', 'l', 'l', 'p'));
    struct lane *lane = lane_at(&at);
    int fate = fate_at(&at);
    if (!deliver_dllp(lane, fate, &dllp))
        unknown();
    in_at += at - in_at;
    if (fate == GOOD) {
        PUT("took ");
        out_at = put_word(out_at, BIG(dllp), 0);
        *out_at++ = '\n';
    } else {
        PUT("gone\n");
    }
}

/* dllp LANE KIND */
static inline void dllp(void)
{
    const unsigned char *at = in_at + 4;
    struct lane *lane = lane_at(&at);
    unsigned class;
    uint32_t word = load4(at);
    if ((word & 0xFFFFFF) == WORD_OF(' ', 'p', '\n', 0)) {
        class = POSTED;
        at += 3;
    } else if (word == WORD_OF(' ', 'n', 'p', '\n')) {
        class = NON_POSTED;
        at += 4;
    } else if (word == WORD_OF(' ', 'a', 'c', 'k') && at[4] == '\n') {
        class = 3;
        at += 5;
    } else if (word == WORD_OF(' ', 'c', 'p', 'l') && at[4] == '\n') {
        class = COMPLETION;
        at += 5;
    } else {
        unknown();
    }
    in_at += at - in_at;
    out_at = put_word(out_at, BIG(send_dllp(lane, class)), 0);
    *out_at++ = '\n';
}

/* timer LANE */
static inline void expires(void)
{
    const unsigned char *at = in_at + 5;
    uint32_t moved;
    if (in_at[4] != 'r')
        unknown();
    struct lane *lane = lane_at(&at);
    if (*at != '\n' || !(moved = timer(lane)))
        unknown();
    in_at += at + 1 - in_at;
    PUT("replay ");
    put_decimal(moved);
    *out_at++ = '\n';
}

/* The place that ends a line: one digit. */
static inline struct item *place_at(struct lane *lane, const unsigned char *at)
{
    struct item *item;
    if (at[0] != ' ' || at[1] - '0' > 9 || at[2] != '\n' || !(item = takeable(lane, at[1] - '0')))
        unknown();
    in_at += at + 3 - in_at;
    return item;
}

/* forward LANE PLACE */
static inline void forwards(void)
{
    const unsigned char *at = in_at + 7;
    word_is(in_at + 3, WORD_OF('w', 'a', 'r', 'd'));
    struct lane *lane = lane_at(&at);
    struct item *item = place_at(lane, at);
    unsigned port = lane == &lanes[OUTWARD] ? item->port : 0;
    if (!forward(lane, item, &lanes[port ? DOWN + port : INWARD]))
        unknown();
    PUT("to ");
    *out_at++ = (unsigned char)('0' + port);
    *out_at++ = '\n';
}

/* serve PLACE */
static inline void serve(void)
{
    if (in_at[4] != 'e')
        unknown();
    struct item *item = place_at(&lanes[INWARD], in_at + 5);
    struct request *request = &requests[item->id];
    unsigned char *place = memory + request->address;
    if (item->class == POSTED) {
        memcpy(place, &request->data, 4);
        free_ids[free_count++] = item->id;
    } else {
        struct item completion = { .id = item->id, .class = COMPLETION, .units = 1, .port = item->port };
        if (!can_enter(&lanes[OUTWARD], COMPLETION, 1))
            unknown();
        uint64_t old = request->size == 8 ? load8(place) : load4(place), new = request->data;
        if (request->kind == ADD)
            new += old;
        if (request->kind != READ) {
            if (request->size == 8)
                memcpy(place, &new, 8);
            else
                memcpy(place, &new, 4);
        }
        request->data = old;
        enter(&lanes[OUTWARD], completion);
    }
    take(&lanes[INWARD], item);
    PUT("at ");
    put_decimal(history++);
    *out_at++ = '\n';
}

/* collect PORT */
static inline void collect(void)
{
    unsigned port = in_at[8] - '0';
    struct item *item;
    word_is(in_at + 4, WORD_OF('e', 'c', 't', ' '));
    if (port - 1 > 6 || in_at[9] != '\n' || !(item = takeable(&lanes[DOWN + port], 0)))
        unknown();
    in_at += 10;
    const struct request *request = &requests[item->id];
    PUT("ans ");
    *out_at++ = (unsigned char)('0' + port);
    *out_at++ = ' ';
    put_decimal(request->number);
    PUT(" data ");
    if (request->size == 8)
        out_at = put_words(out_at, request->data, 0);
    else
        out_at = put_word(out_at, (uint32_t)request->data, 0);
    *out_at++ = '\n';
    free_ids[free_count++] = item->id;
    tags[port]--;
    take(&lanes[DOWN + port], item);
}

int main(void)
{
    static const char fabric[] = "fabric 7 0 4096\n";
    for (uint32_t id = 0; id < 8192; id++)
        free_ids[free_count++] = 8191 - id;
    open_fabric();
    if (!line() || memcmp(in_at, fabric, 16))
        unknown();
    in_at += 16;
    while (line()) {
        room();
        switch (load4(in_at)) {
        case WORD_OF('t', 'r', 'a', 'n'): transmits(); break;
        case WORD_OF('d', 'e', 'l', 'i'):
            if (in_at[7] == '-')
                delivers_dllp();
            else
                delivers();
            break;
        case WORD_OF('d', 'l', 'l', 'p'): dllp(); break;
        case WORD_OF('f', 'o', 'r', 'w'): forwards(); break;
        case WORD_OF('s', 'e', 'r', 'v'): serve(); break;
        case WORD_OF('s', 'u', 'b', 'm'): submit(); break;
        case WORD_OF('c', 'o', 'l', 'l'): collect(); break;
        case WORD_OF('t', 'i', 'm', 'e'): expires(); break;
        default: unknown();
        }
    }
    flush();
    return 0;
}
