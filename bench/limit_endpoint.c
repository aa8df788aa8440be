/* What `pciex endpoint` does with the lines of endpoint.awk, by hand (limit.h). */
#define _GNU_SOURCE
#include "limit.h"
#include "memory.h"

int main(void)
{
    uint32_t words[36], completion[36];
    unsigned count;
    while (line()) {
        room();
        if (load4(in_at) == WORD_OF('n', 'e', 'x', 't') && in_at[4] == '\n') {
            in_at += 5;
            if (oldest == newest) {
                PUT("-\n");
                continue;
            }
            PUT("tlp");
            out_at = put_all(out_at, completion, acts(completion));
            *out_at++ = '\n';
            continue;
        }
        if (load4(in_at) != WORD_OF('t', 'l', 'p', ' '))
            unknown();
        const unsigned char *end = words_of(in_at + 3, words, &count);
        if (*end != '\n')
            unknown();
        in_at += end + 1 - in_at;
        comes(words, count);
        PUT("accept\n");
    }
    flush();
    return 0;
}
