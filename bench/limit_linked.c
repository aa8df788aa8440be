/* What `pciex endpoint --link` does with the lines of endpoint.awk, by hand (limit.h). Nothing is lost, and the peer gives
 * completions infinite credits.
 */
#define _GNU_SOURCE
#include "limit.h"
#include "memory.h"

enum { DOWN, FIRST, SECOND, ACTIVE };

/* The replay buffer, by sequence numbers modulo 2048. */
static struct {
    uint32_t words[35], count;
} sent[2048];
static uint32_t state, expected, unacknowledged, next_new, next_sent; /* the numbers not yet modulo 4096 */
static unsigned ack_due, posted_due, non_posted_due, init_due, heard;
static uint32_t given[2][2] = { { 16, 64 }, { 16, 16 } }; /* headers and units of posted and non-posted requests */

/* Requests act, as far as the window of 2047 packets goes. */
static inline void settle(void)
{
    while (oldest != newest && next_new - unacknowledged < 2047 && state == ACTIVE) {
        struct request *request = &waiting[oldest];
        uint32_t units = request->kind == READ ? 0 : 1;
        unsigned char before = oldest;
        sent[next_new % 2048].count = acts(sent[next_new % 2048].words);
        next_new++;
        if (oldest != before) {
            given[1][0]++;
            given[1][1] += units;
            non_posted_due = 1;
        }
    }
}

static void packet(void)
{
    uint32_t words[36], number = number_at(in_at + 7);
    unsigned count;
    const unsigned char *end = words_of(in_at + 11, words, &count);
    if (load4(in_at + 4) != WORD_OF('e', 't', ' ', in_at[7]) || load4(end) != WORD_OF(' ', 'g', 'o', 'o') || end[4] != 'd' || end[5] != '\n')
        unknown();
    in_at += end + 6 - in_at;
    if (state < SECOND || number != (expected & 0xFFF) || (unsigned char)(newest - oldest) >= 16)
        unknown();
    state = ACTIVE;
    expected++;
    ack_due = 1;
    if (!comes(words, count)) {
        given[0][0]++;
        given[0][1] += ((BIG(words[0]) & 0x3FF) + 3) / 4;
        posted_due = 1;
    }
    settle();
    PUT("accept\n");
}

static void dllp(void)
{
    uint32_t word = BIG((uint32_t)words_at(in_at + 5, in_at + 5)), kind = word >> 28;
    if (in_at[4] != ' ' || load4(in_at + 13) != WORD_OF(' ', 'g', 'o', 'o') || in_at[17] != 'd' || in_at[18] != '\n')
        unknown();
    in_at += 19;
    if (LIKELY(kind == 0)) {
        /* an Ack */
        if (word & 0x0FFFF000 || state < SECOND)
            unknown();
        uint32_t count = (word - unacknowledged + 1) & 0xFFF;
        if (count > next_sent - unacknowledged)
            unknown();
        unacknowledged += count;
        settle();
        PUT("took\n");
        return;
    }
    unsigned class = kind & 3;
    if (word & 0x0FC03000 || class == 3 || kind < 4 || (kind & 8 && kind < 12))
        unknown();
    if (state == FIRST) {
        if (class == 2 && word & 0x003FCFFF)
            unknown();
        heard |= 1 << class;
        if (heard == 7) {
            state = SECOND;
            init_due = 7;
        }
    } else if (state == SECOND && kind >= 12) {
        state = ACTIVE;
    } else {
        PUT("gone\n");
        return;
    }
    settle();
    PUT("took\n");
}

static inline void put_dllp(uint32_t word)
{
    PUT("dllp ");
    out_at = put_word(out_at, BIG(word), 0);
    *out_at++ = '\n';
}

static inline uint32_t credits(unsigned class)
{
    return class == 2 ? 0 : (given[class][0] & 0xFF) << 14 | (given[class][1] & 0xFFF);
}

static void next(void)
{
    in_at += 5;
    if (ack_due && state >= SECOND) {
        ack_due = 0;
        put_dllp((expected - 1) & 0xFFF);
    } else if (init_due) {
        unsigned class = (unsigned)__builtin_ctz(init_due);
        init_due &= init_due - 1;
        put_dllp((uint32_t)(state >= SECOND ? 12 + class : 4 + class) << 28 | credits(class));
    } else if (posted_due) {
        posted_due = 0;
        put_dllp(0x80000000 | credits(0));
    } else if (non_posted_due) {
        non_posted_due = 0;
        put_dllp(0x90000000 | credits(1));
    } else if (next_sent != next_new) {
        PUT("packet ");
        put4(next_sent & 0xFFF);
        out_at = put_all(out_at, sent[next_sent % 2048].words, sent[next_sent % 2048].count);
        *out_at++ = '\n';
        next_sent++;
    } else {
        PUT("-\n");
    }
}

int main(void)
{
    while (line()) {
        room();
        uint32_t word = load4(in_at);
        if (word == WORD_OF('n', 'e', 'x', 't') && in_at[4] == '\n') {
            next();
        } else if (word == WORD_OF('p', 'a', 'c', 'k')) {
            packet();
        } else if (word == WORD_OF('d', 'l', 'l', 'p')) {
            dllp();
        } else if (word << 8 == WORD_OF(0, 'u', 'p', '\n') && state == DOWN) {
            in_at += 3;
            state = FIRST;
            init_due = 7;
            PUT("up\n");
        } else {
            unknown();
        }
    }
    flush();
    return 0;
}
