/* What `pciex tlp` does with the lines of lines.awk, by hand (limit.h). */
#define _GNU_SOURCE
#include "limit.h"
#include "memory.h"

int main(void)
{
    uint32_t words[36], completion[36];
    unsigned count;
    base = 0;
    command = 2;
    while (line()) {
        room();
        unsigned char *at = in_at;
        uint64_t two = words_at(at, at + 9);
        memcpy(words, &two, 8);
        if (at[8] != ' ')
            unknown();
        const unsigned char *end = words_of(at + 17, words + 2, &count);
        if (*end != '\n' || (words[0] & 0xFF) == 0x44)
            unknown();
        in_at += end + 1 - in_at;
        if (!comes(words, count + 2)) {
            PUT("-\n");
            continue;
        }
        if ((waiting[oldest].address & 63) + waiting[oldest].length > 64)
            unknown();
        /* (the space before the first word is where the line before ended) */
        unsigned char *front = out_at - 1, before = *front;
        out_at = put_all(front, completion, acts(completion));
        *front = before;
        *out_at++ = '\n';
    }
    flush();
    return 0;
}
