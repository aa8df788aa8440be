/* A lossy fabric, driven by many lines a call: a script in, what is seen of its events out, as `pciex step` prints it. The
   buffer is small, so that a call does only some of the lines, and the next one goes on where it stopped. */
#include "../pciex.h"

#include <stdio.h>
#include <string.h>

/* The number of the line at a place of the text. */
static unsigned long line_at(const char *text, size_t place)
{
    unsigned long number = 1;
    for (size_t i = 0; i < place; i++) {
        number += text[i] == '\n';
    }
    return number;
}

/* The lines of the text from a place on happen to the fabric. */
static int run(pciex_fabric *fabric, const char *text, size_t text_length, size_t from)
{
    uint8_t room[2 * PCIEX_LINE];
    uint32_t code;
    do {
        size_t done = 0, length = 0;
        code = pciex_fabric_script(fabric, (const uint8_t *)text + from, text_length - from, room, sizeof room, &done,
                                   &length);
        fwrite(room, 1, length, stdout);
        from += done;
        if (code >= 1000 && code < 2000) {
            printf("refused %lu %.*s\n", line_at(text, from), (int)(code - 1000), (const char *)room + length);
        }
    } while (code == PCIEX_SMALL_ROOM);
    if (code >= 2000) {
        printf("code %u %lu\n", (unsigned)code, line_at(text, from));
    }
    return code == 0 ? 0 : 1;
}

int main(void)
{
    static char text[1 << 20];
    uint8_t room[PCIEX_LINE];
    pciex_fabric fabric = PCIEX_NONE;
    const size_t text_length = fread(text, 1, sizeof text - 1, stdin);
    size_t start = 0;
    while (start < text_length && (text[start] == '#' || text[start] == '\n')) {
        start += strcspn(text + start, "\n") + 1;
    }
    const size_t first = strcspn(text + start, "\n");
    const size_t behind = start + first + (text[start + first] == '\n');
    if (pciex_fabric_new((const uint8_t *)text + start, first, false, room, sizeof room, &fabric) != 0) {
        return 1;
    }
    const int status = run(&fabric, text, text_length, behind);
    pciex_fabric_free(&fabric);
    return status;
}
