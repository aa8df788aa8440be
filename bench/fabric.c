/* A script of standard input, line by line, on a fabric that keeps its trace, which is then written and checked. The
   status is 0 if each event happened and the history explains the trace. */
#include <pciex.h>
#include <stdio.h>
#include <stdlib.h>
#include <string.h>

static int checked(pciex_fabric *fabric)
{
    uint8_t small[1], room[PCIEX_LINE];
    size_t length = 0;
    uint32_t code = pciex_fabric_trace(fabric, small, sizeof small, &length);
    uint8_t *text = code == PCIEX_SMALL_ROOM ? malloc(length) : NULL;
    code = text ? pciex_fabric_trace(fabric, text, length, &length) : PCIEX_NO_MEMORY;
    if (code == 0) {
        code = pciex_check(text, length, room, sizeof room);
    }
    free(text);
    return code == 0;
}

int main(void)
{
    pciex_fabric fabric = PCIEX_NONE;
    uint8_t room[PCIEX_LINE];
    char line[PCIEX_LINE + 2];
    uint32_t code = 0;
    while (code < 1000 && fgets(line, sizeof line, stdin)) {
        size_t length = strcspn(line, "\n");
        code = fabric.at ? pciex_fabric_event(&fabric, (const uint8_t *)line, length, room, sizeof room)
                         : pciex_fabric_new((const uint8_t *)line, length, true, room, sizeof room, &fabric);
    }
    int status = code < 1000 && checked(&fabric) ? 0 : 1;
    pciex_fabric_free(&fabric);
    return status;
}
