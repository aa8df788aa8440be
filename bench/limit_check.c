/* What `pciex check` does with the lines of trace.awk, by hand (limit.h): it prints `ok`, or ends at what isn't so. It reads the
 * trace once, and looks at each requester's answers once more at the end.
 */
#define _GNU_SOURCE
#include "limit.h"

enum { ADD, WRITE };
#define NONE UINT32_MAX

/* A submission: what it asks, and what is known of it. */
struct request {
    uint32_t operand, since, point, until, reply, answers;
    uint16_t address;
    unsigned char kind, is_answered;
};

static struct {
    struct request *requests;
    uint32_t *answered; /* the numbers of its answers, in order */
    uint32_t count, room, answers, answer_room, unplaced; /* the first posted write that is in no entry */
} requesters[8];
static unsigned char memory[4096];
static const unsigned char *at;

static inline uint32_t decimal(unsigned char end)
{
    uint32_t number = 0;
    do {
        if ((unsigned)*at - '0' > 9)
            unknown();
        number = number * 10 + *at++ - '0';
    } while (*at != end);
    at++;
    return number;
}

static inline unsigned requester(void)
{
    unsigned number = *at - '0';
    if (number - 1 > 6 || at[1] != ' ')
        unknown();
    at += 2;
    return number;
}

/* An operation, and the line feed behind it. */
static inline void operation(struct request *request)
{
    uint32_t word = load4(at), address = 0;
    at += 4;
    request->kind = ADD;
    if (word != WORD_OF('a', 'd', 'd', ' ')) {
        if (word != WORD_OF('w', 'r', 'i', 't') || at[0] != 'e' || at[1] != ' ')
            unknown();
        at += 2;
        request->kind = WRITE;
    }
    for (; *at != ' '; at++) {
        unsigned value = *at - (unsigned)'0', letter = (*at & ~0x20u) - 'A';
        value = value < 10 ? value : letter + 10;
        if (value > 15 || (address = address << 4 | value) > 4092)
            unknown();
    }
    if (address & 3)
        unknown();
    at++;
    if (request->kind == WRITE) {
        if (load4(at) != WORD_OF('F', ' ', '0', ' '))
            unknown();
        at += 4;
    }
    request->address = (uint16_t)address;
    request->operand = (uint32_t)words_at(at, at);
    if (at[8] != '\n')
        unknown();
    at += 9;
}

static void *grown(void *block, uint32_t count, uint32_t *room, size_t size)
{
    if (count < *room)
        return block;
    *room = *room ? 2 * *room : 1024;
    if (!(block = realloc(block, *room * size)))
        unknown();
    return block;
}

/* sub REQUESTER NUMBER N OPERATION */
static inline void sub(void)
{
    unsigned i = requester();
    uint32_t number = decimal(' ');
    if (number != requesters[i].count)
        unknown();
    requesters[i].requests = grown(requesters[i].requests, number, &requesters[i].room, sizeof(struct request));
    struct request *request = &requesters[i].requests[requesters[i].count++];
    request->since = decimal(' ');
    request->point = NONE;
    request->is_answered = 0;
    request->answers = requesters[i].answers;
    operation(request);
}

/* ans REQUESTER NUMBER N data BYTES */
static inline void ans(void)
{
    unsigned i = requester();
    uint32_t number = decimal(' ');
    if (number >= requesters[i].count)
        unknown();
    struct request *request = &requesters[i].requests[number];
    request->until = decimal(' ');
    if (load4(at) != WORD_OF('d', 'a', 't', 'a') || at[4] != ' ' || at[13] != '\n' || request->is_answered || request->kind == WRITE)
        unknown();
    request->reply = (uint32_t)words_at(at + 5, at + 5);
    request->is_answered = 1;
    at += 14;
    requesters[i].answered = grown(requesters[i].answered, requesters[i].answers, &requesters[i].answer_room, sizeof(uint32_t));
    requesters[i].answered[requesters[i].answers++] = number;
}

/* The first posted write from this number on. */
static inline uint32_t posted_from(unsigned i, uint32_t number)
{
    while (number < requesters[i].count && (requesters[i].requests[number].kind != WRITE || requesters[i].requests[number].point != NONE))
        number++;
    return number;
}

/* ent REQUESTER NUMBER OPERATION, the entry at this point */
static inline void ent(uint32_t point)
{
    unsigned i = requester();
    uint32_t number = decimal(' '), old, new;
    struct request said;
    operation(&said);
    if (number >= requesters[i].count || requesters[i].unplaced < number)
        unknown();
    struct request *request = &requesters[i].requests[number];
    if (said.kind != request->kind || said.address != request->address || said.operand != request->operand || request->point != NONE)
        unknown();
    request->point = point;
    old = load4(memory + said.address);
    new = said.kind == ADD ? old + said.operand : said.operand;
    memcpy(memory + said.address, &new, 4);
    if (request->is_answered && (request->reply != old || request->since > point || request->until <= point))
        unknown();
    if (number == requesters[i].unplaced)
        requesters[i].unplaced = posted_from(i, number);
}

/* Each answer is of an entry that stands behind those of the answers which its requester had before. */
static void look_back(void)
{
    for (unsigned i = 1; i <= 7; i++) {
        uint32_t before = 0, done = 0;
        for (uint32_t number = 0; number < requesters[i].count; number++) {
            const struct request *request = &requesters[i].requests[number];
            for (; done < request->answers; done++) {
                uint32_t point = requesters[i].requests[requesters[i].answered[done]].point;
                if (point == NONE)
                    unknown();
                before = before > point + 1 ? before : point + 1;
            }
            if (request->is_answered && (request->point == NONE || request->point < before))
                unknown();
        }
    }
}

static inline void next_line(void)
{
    if (!line())
        unknown();
    at = in_at;
}

int main(void)
{
    next_line();
    if (memcmp(at, "pciex-trace 2\nmemory 0 4096 64\n", 31))
        unknown();
    in_at += 31;
    for (;;) {
        next_line();
        uint32_t word = load4(at);
        at += 4;
        if (word == WORD_OF('s', 'u', 'b', ' '))
            sub();
        else if (word == WORD_OF('a', 'n', 's', ' '))
            ans();
        else if (word == WORD_OF('h', 'i', 's', 't') && !memcmp(at, "ory\n", 4))
            break;
        else
            unknown();
        in_at += at - in_at;
    }
    in_at += 8;
    for (unsigned i = 1; i <= 7; i++)
        requesters[i].unplaced = posted_from(i, 0);
    for (uint32_t point = 0;; point++) {
        next_line();
        uint32_t word = load4(at);
        at += 4;
        if (word == WORD_OF('e', 'n', 'd', '\n'))
            break;
        if (word != WORD_OF('e', 'n', 't', ' '))
            unknown();
        ent(point);
        in_at += at - in_at;
    }
    in_at += 4;
    if (line())
        unknown();
    look_back();
    PUT("ok\n");
    flush();
    return 0;
}
