/* The search: the text of a log in, what `pciex search` prints out, and on standard error why there is no history. The
   argument is the number of bytes of a read or a write that act at once; with none each request acts as a whole. */
#include "../pciex.h"

#include <stdio.h>
#include <stdlib.h>

/* The bytes of reasons that are printed, at most. */
#define REASONS 65536

/* The whole input, or NULL. */
static uint8_t *input(size_t *length)
{
    size_t room_for = 1 << 16;
    uint8_t *text = malloc(room_for);
    *length = 0;
    while (text && !feof(stdin) && !ferror(stdin)) {
        if (*length == room_for) {
            uint8_t *more = realloc(text, room_for *= 2);
            if (!more) {
                break;
            }
            text = more;
        }
        *length += fread(text + *length, 1, room_for - *length, stdin);
    }
    if (text && (ferror(stdin) || !feof(stdin))) {
        free(text);
        return NULL;
    }
    return text;
}

int main(int count, char **words)
{
    static uint8_t reasons[REASONS];
    size_t text_length, length, reasons_length = 0;
    uint8_t *text = input(&text_length);
    if (!text) {
        return 2;
    }
    /* A trace has n's and a history more than its log. */
    size_t room_length = 8 * text_length + PCIEX_LINE;
    uint8_t *room = malloc(room_length);
    uint32_t granularity = count > 1 ? (uint32_t)strtoul(words[1], NULL, 10) : PCIEX_WHOLE;
    uint32_t code = room ? pciex_search_with_reasons(text, text_length, 1000000, granularity, room, room_length, &length,
                                                     reasons, REASONS, &reasons_length)
                         : PCIEX_NO_MEMORY;
    free(text);
    if (code >= 1000) {
        printf("code %u\n", (unsigned)code);
        code = 2;
    } else {
        fwrite(room, 1, length, stdout);
        fwrite(reasons, 1, reasons_length < REASONS ? reasons_length : REASONS, stderr);
    }
    free(room);
    return (int)code;
}
