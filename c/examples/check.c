/* The checker: the text of a trace in, the line of `pciex check` out, or with a word that of `pciex check --clocked`. */
#include "../pciex.h"

#include <stdio.h>
#include <stdlib.h>

int main(int count, char **words)
{
    (void)words;
    size_t room_for = 1 << 16, length = 0;
    uint8_t *text = malloc(room_for);
    while (text && !feof(stdin) && !ferror(stdin)) {
        if (length == room_for) {
            uint8_t *more = realloc(text, room_for *= 2);
            if (!more) {
                free(text);
                return 2;
            }
            text = more;
        }
        length += fread(text + length, 1, room_for - length, stdin);
    }
    if (!text || ferror(stdin)) {
        free(text);
        return 2;
    }
    uint8_t room[PCIEX_LINE];
    uint32_t code = count > 1 ? pciex_check_clocked(text, length, room, sizeof room)
                              : pciex_check(text, length, room, sizeof room);
    free(text);
    if (code == 0) {
        puts("ok");
    } else if (code < 2000) {
        printf("%.*s\n", (int)(code - 1000), (const char *)room);
    } else {
        printf("code %u\n", (unsigned)code);
    }
    return code != 0;
}
