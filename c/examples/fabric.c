/* A lossy fabric: a script in, what is seen of its events out, as `pciex step` prints it; the line `settle` brings the
   fabric to rest. At the end, on standard error, how often the requests acted and whether the checker explains the trace
   that the fabric kept. */
#include "../pciex.h"

#include <stdio.h>
#include <stdlib.h>
#include <string.h>

/* Whether the history explains the trace. */
static int explained(pciex_fabric *fabric)
{
    uint8_t small[1], room[PCIEX_LINE];
    size_t length = 0;
    uint32_t code = pciex_fabric_trace(fabric, small, sizeof small, &length);
    uint8_t *text = code == PCIEX_SMALL_ROOM ? malloc(length) : NULL;
    if (!text) {
        return 0;
    }
    code = pciex_fabric_trace(fabric, text, length, &length);
    if (code == 0) {
        code = pciex_check(text, length, room, sizeof room);
    }
    free(text);
    return code == 0;
}

/* Brings the fabric to rest, and prints what it collected. */
static uint32_t settle(pciex_fabric *fabric)
{
    uint8_t small[1];
    size_t length = 0;
    uint32_t code = pciex_fabric_settle(fabric);
    if (code == 0) {
        code = pciex_fabric_settled(fabric, small, sizeof small, &length);
    }
    uint8_t *text = code == PCIEX_SMALL_ROOM ? malloc(length) : NULL;
    if (text) {
        code = pciex_fabric_settled(fabric, text, length, &length);
        fwrite(text, 1, code == 0 ? length : 0, stdout);
        free(text);
    }
    if (code == 0) {
        puts("settled");
    }
    return code;
}

static int finish(pciex_fabric *fabric)
{
    size_t count = 0;
    bool quiet = false;
    if (pciex_fabric_history_length(fabric, &count) || pciex_fabric_quiet(fabric, &quiet) || !explained(fabric)) {
        return 1;
    }
    fprintf(stderr, "%lu in the history, %s, explained\n", (unsigned long)count, quiet ? "quiet" : "not quiet");
    return 0;
}

int main(void)
{
    pciex_fabric fabric = PCIEX_NONE;
    uint8_t room[PCIEX_LINE];
    char line[2 * PCIEX_LINE];
    unsigned long number = 0;
    while (fgets(line, sizeof line, stdin)) {
        size_t length = strcspn(line, "\n");
        const uint8_t *bytes = (const uint8_t *)line;
        number++;
        if (length == 0 || line[0] == '#') {
            continue;
        }
        uint32_t code;
        if (!fabric.at) {
            code = pciex_fabric_new(bytes, length, true, room, sizeof room, &fabric);
        } else if (strcmp(line, "settle\n") == 0) {
            code = settle(&fabric);
        } else {
            code = pciex_fabric_event(&fabric, bytes, length, room, sizeof room);
        }
        if (code >= 2000) {
            printf("code %u %lu\n", (unsigned)code, number);
        } else if (code >= 1000) {
            printf("%s %lu %.*s\n", fabric.at ? "refused" : "fault", number, (int)(code - 1000), (const char *)room);
        } else if (code > 0) {
            printf("%.*s\n", (int)code, (const char *)room);
        }
        if (code >= 1000) {
            pciex_fabric_free(&fabric);
            return 1;
        }
    }
    int status = finish(&fabric);
    pciex_fabric_free(&fabric);
    return status;
}
