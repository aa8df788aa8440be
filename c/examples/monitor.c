/* A monitor of one port: what it writes of an addition and its completion, as a log, and as a trace that is checked. */
#include "../pciex.h"

#include <stdio.h>
#include <string.h>

static const uint8_t ADD[16] = {0x4C, 0, 0, 1, 1, 0, 5, 0, 0, 0, 0, 0x40, 7, 0, 0, 0};
static const uint8_t ADDED[16] = {0x4A, 0, 0, 1, 0, 0, 0, 4, 1, 0, 5, 0, 0, 0, 0, 0};

/* Whether each call is refused as the header says. */
static int refuses(void)
{
    pciex_monitor monitor = PCIEX_NONE;
    uint8_t room[PCIEX_LINE];
    const uint8_t *line = (const uint8_t *)"log 0 4096 block 64";
    const uint8_t split[20] = {0x4A, 0, 0, 2, 0, 0, 0, 8, 1, 0, 5};
    const uint8_t other[12] = {0, 0, 0, 1, 2, 0, 6, 0x0F, 0, 0, 0, 0x40};
    size_t count = 9;
    return pciex_monitor_new(line, 18, room, sizeof room, &monitor) == PCIEX_WRONG_BLOCK &&
           pciex_monitor_new(line, 10, room, sizeof room, &monitor) == PCIEX_NO_LINE &&
           pciex_monitor_new(line, 19, room, 9, &monitor) == PCIEX_SMALL_ROOM &&
           pciex_monitor_open(&monitor, &count) == PCIEX_EMPTY &&
           pciex_monitor_new(line, 19, room, sizeof room, &monitor) == 28 &&
           pciex_monitor_new(line, 19, room, sizeof room, &monitor) == PCIEX_HELD &&
           pciex_monitor_request(&monitor, 8, ADD, sizeof ADD, room, sizeof room) == PCIEX_NO_REQUESTER &&
           pciex_monitor_request(&monitor, 1, ADD, 3, room, sizeof room) == 1001 &&
           pciex_monitor_request(&monitor, 1, ADDED, sizeof ADDED, room, sizeof room) == PCIEX_NO_REQUEST &&
           pciex_monitor_request(&monitor, 1, ADD, sizeof ADD, room, sizeof room) == 23 &&
           pciex_monitor_request(&monitor, 1, ADD, sizeof ADD, room, sizeof room) == PCIEX_TAG_IN_USE &&
           pciex_monitor_request(&monitor, 1, other, sizeof other, room, sizeof room) == PCIEX_OTHER_REQUESTER &&
           pciex_monitor_completion(&monitor, 1, ADD, sizeof ADD, room, sizeof room) == PCIEX_NO_COMPLETION &&
           pciex_monitor_completion(&monitor, 2, ADDED, sizeof ADDED, room, sizeof room) == PCIEX_UNEXPECTED &&
           pciex_monitor_completion(&monitor, 1, split, sizeof split, room, sizeof room) == PCIEX_MISMATCH &&
           pciex_monitor_give_up(&monitor, 8, 5) == PCIEX_NO_REQUESTER &&
           pciex_monitor_give_up(&monitor, 1, 6) == PCIEX_UNEXPECTED && pciex_monitor_give_up(&monitor, 1, 5) == 0 &&
           pciex_monitor_completion(&monitor, 1, ADDED, sizeof ADDED, room, sizeof room) == PCIEX_UNEXPECTED &&
           pciex_monitor_request(&monitor, 1, ADD, sizeof ADD, room, sizeof room) == 23 &&
           pciex_monitor_acted(&monitor, 1, 0, room, sizeof room) == PCIEX_UNEXPECTED &&
           pciex_monitor_open(&monitor, &count) == 0 && count == 1 &&
           (pciex_monitor_free(&monitor), pciex_monitor_free(&monitor), monitor.at == NULL);
}

/* Adds the line in the room to the text, with a line feed. */
static void add(char *text, uint32_t length, const uint8_t *room)
{
    if (length < 1000) {
        strncat(text, (const char *)room, length);
        strcat(text, "\n");
    }
}

/* What the monitor that the line asks for says of an addition and its completion. */
static void say(const char *line, char *records, char *history)
{
    pciex_monitor monitor = PCIEX_NONE;
    uint8_t room[PCIEX_LINE];
    add(records, pciex_monitor_new((const uint8_t *)line, strlen(line), room, sizeof room, &monitor), room);
    add(records, pciex_monitor_request(&monitor, 1, ADD, sizeof ADD, room, sizeof room), room);
    add(history, pciex_monitor_acted(&monitor, 1, 0, room, sizeof room), room);
    add(records, pciex_monitor_completion(&monitor, 1, ADDED, sizeof ADDED, room, sizeof room), room);
    pciex_monitor_free(&monitor);
}

int main(void)
{
    char log[PCIEX_LINE] = "", trace[PCIEX_LINE] = "", none[PCIEX_LINE] = "", history[PCIEX_LINE] = "";
    uint8_t room[PCIEX_LINE];
    if (!refuses()) {
        return 1;
    }
    say("log 0 4096 block 64", log, none);
    printf("%send\n", log);
    say("trace 0 4096 block 64", trace, history);
    strcat(strcat(strcat(trace, "history\n"), history), "end\n");
    printf("%s", trace);
    printf("%s\n", pciex_check((const uint8_t *)trace, strlen(trace), room, sizeof room) == 0 ? "ok" : "flawed");
    return 0;
}
