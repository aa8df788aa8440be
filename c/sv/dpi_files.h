/*
 * Files of traces and logs, for pciex_dpi.c, which alone includes it: the file of a monitor, the text of a file, and the
 * line of a text that pciex_check speaks of.
 */
#ifndef PCIEX_DPI_FILES_H
#define PCIEX_DPI_FILES_H

#include "dpi_said.h"

#include <errno.h>
#include <stdio.h>

/* A file can't be read or written: a code of this package alone. */
#define PCIEX_NO_FILE 4000

/* A monitor, and the files that it writes: its lines, and the entries of a trace's history until the end. */
typedef struct lines {
    pciex_monitor monitor;
    char head[PCIEX_LINE + 1];
    bool is_trace;
    FILE *file, *history;
} lines;

/* The line of the text in which pciex_check found something wrong. */
static char where[PCIEX_LINE + 40];

/* Says why a file can't be read or written. */
static int no_file(const char *name)
{
    char text[PCIEX_LINE];
    snprintf(text, sizeof text, "%s: %s", name, strerror(errno));
    say_line(text);
    return -PCIEX_NO_FILE;
}

/* Closes a file. Whether all of it was written. */
static bool closed(FILE *file)
{
    const bool is_written = !ferror(file);
    return fclose(file) == 0 && is_written;
}

/* Writes the history behind the records, and the end. Whether all was written. */
static bool ended(lines *it)
{
    char part[4096];
    size_t length;
    bool is_written = true;
    if (it->history) {
        is_written = fflush(it->history) == 0 && !ferror(it->history);
        rewind(it->history);
        fprintf(it->file, "history\n");
        while ((length = fread(part, 1, sizeof part, it->history)) > 0) {
            fwrite(part, 1, length, it->file);
        }
        is_written &= !ferror(it->history);
        fclose(it->history);
    }
    fprintf(it->file, "end\n");
    is_written &= closed(it->file);
    it->file = it->history = NULL;
    return is_written;
}

/* The text of a file, which the caller frees. NULL, said, if it can't be read or has a NUL byte, which no text has. */
static char *text_of(const char *name)
{
    FILE *file = fopen(name, "rb");
    size_t length = 0, space = 65536;
    char *text = file ? (char *)malloc(space) : NULL;
    while (text) {
        length += fread(text + length, 1, space - length - 1, file);
        if (length < space - 1) {
            break;
        }
        space *= 2;
        char *more = (char *)realloc(text, space);
        if (!more) {
            free(text);
        }
        text = more;
    }
    if (!text || ferror(file)) {
        no_file(name);
        free(text);
        text = NULL;
    } else if (memchr(text, 0, length)) {
        free(text);
        text = NULL;
        say_line("the file has a NUL byte, and no text has one");
    } else {
        text[length] = 0;
    }
    if (file) {
        fclose(file);
    }
    return text;
}

/* Whether a line of a trace is one of those that a flaw's index counts: entries of the history, or records. */
static bool is_counted(const char *line, bool is_entry)
{
    return is_entry ? !strncmp(line, "ent ", 4) : !strncmp(line, "sub ", 4) || !strncmp(line, "ans ", 4);
}

/* Notes the line of the text that `found` speaks of: `flaw 10 Reply 2`, or `fault 3 Line`. */
static void note_where(const char *text, const char *found)
{
    unsigned long flaw = 0, index = 0, line = 1, wanted = 0;
    where[0] = 0;
    if (sscanf(found, "fault %lu", &wanted) != 1 && sscanf(found, "flaw %lu %*s %lu", &flaw, &index) != 2) {
        return;
    }
    for (; *text; line++) {
        const char *end = strchr(text, '\n');
        const int length = end ? (int)(end - text) : (int)strlen(text);
        if (line == wanted || (wanted == 0 && is_counted(text, flaw >= 2 && flaw <= 4) && index-- == 0)) {
            snprintf(where, sizeof where, "line %lu: %.*s", line, length > PCIEX_LINE ? PCIEX_LINE : length, text);
            return;
        }
        text += length + (end != NULL);
    }
}

#endif
