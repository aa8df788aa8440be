#include "records.h"

#include <errno.h>
#include <stdarg.h>
#include <stdio.h>
#include <string.h>
#include <time.h>

/* A file that is written. */
struct output {
    const char *name;
    FILE *file;
    bool has_failed;
};

/* The lines of a monitor. The entries of a trace's history wait in `history` until all records are written. */
struct lines {
    struct output out, history;
    pciex_monitor monitor;
};

static struct lines log_lines, trace_lines;
static struct output capture;

void complain(const char *format, ...)
{
    va_list words;
    va_start(words, format);
    fprintf(stderr, "pciex_qemu: ");
    vfprintf(stderr, format, words);
    fprintf(stderr, "\n");
    va_end(words);
}

/* Whether the file was written, as the caller found. The first time that it wasn't, says so. */
static bool written(struct output *it, bool is_written)
{
    if (!is_written && !it->has_failed) {
        complain("%s can't be written: %s", it->name, strerror(errno));
    }
    it->has_failed |= !is_written;
    return is_written;
}

static bool open_output(struct output *it, const char *name)
{
    it->name = name;
    it->file = fopen(name, "wb");
    return written(it, it->file != NULL);
}

static bool close_output(struct output *it)
{
    FILE *file = it->file;
    it->file = NULL;
    return !file || written(it, fclose(file) == 0);
}

/* Writes the line that a monitor's call put into the buffer, or says what the call returned instead. */
static bool put_line(struct output *it, uint32_t code, const uint8_t *room)
{
    if (code >= 1000) {
        complain("the monitor for %s returns %u", it->name, (unsigned)code);
        return false;
    }
    return written(it, fprintf(it->file, "%.*s\n", (int)code, (const char *)room) > 0);
}

static bool open_lines(struct lines *it, const char *form, const char *name, size_t size, uint16_t block)
{
    uint8_t room[PCIEX_LINE];
    char line[64];
    const int length = snprintf(line, sizeof line, "%s 0 %zu block %u", form, size, block);
    return open_output(&it->out, name) &&
           put_line(&it->out, pciex_monitor_new((uint8_t *)line, (size_t)length, room, sizeof room, &it->monitor), room);
}

/* Writes 32 bits of the capture, lowest byte first. */
static bool put_word(uint32_t value)
{
    const uint8_t bytes[4] = {(uint8_t)value, (uint8_t)(value >> 8), (uint8_t)(value >> 16), (uint8_t)(value >> 24)};
    return written(&capture, fwrite(bytes, 1, sizeof bytes, capture.file) == sizeof bytes);
}

/* The head of a capture: magic number for nanoseconds, version 2.4, no zone, lengths up to 65535, DLT_USER0. */
static bool open_capture(const char *name)
{
    return open_output(&capture, name) && put_word(0xA1B23C4D) && put_word(4 << 16 | 2) && put_word(0) && put_word(0) &&
           put_word(65535) && put_word(147);
}

bool records_open(const struct names *names, size_t size, uint16_t block)
{
    if (names->log && !open_lines(&log_lines, "log", names->log, size, block)) {
        return false;
    }
    if (names->trace) {
        if (!open_lines(&trace_lines, "trace", names->trace, size, block)) {
            return false;
        }
        trace_lines.history = (struct output){"a temporary file", tmpfile(), false};
        if (!written(&trace_lines.history, trace_lines.history.file != NULL)) {
            return false;
        }
    }
    return !names->capture || open_capture(names->capture);
}

bool records_packet(const uint8_t *packet, size_t length)
{
    struct timespec now;
    if (!capture.file) {
        return true;
    }
    clock_gettime(CLOCK_REALTIME, &now);
    return put_word((uint32_t)now.tv_sec) && put_word((uint32_t)now.tv_nsec) && put_word((uint32_t)length) &&
           put_word((uint32_t)length) && written(&capture, fwrite(packet, 1, length, capture.file) == length);
}

bool records_served(uint8_t requester, uint32_t number, const uint8_t *request, size_t request_length,
                    const uint8_t *completion, size_t completion_length)
{
    struct lines *const all[] = {&log_lines, &trace_lines};
    uint8_t room[PCIEX_LINE];
    for (size_t i = 0; i < 2; i++) {
        struct lines *it = all[i];
        pciex_monitor *monitor = &it->monitor;
        if (!it->out.file) {
            continue;
        }
        if (!put_line(&it->out, pciex_monitor_request(monitor, requester, request, request_length, room, sizeof room),
                      room)) {
            return false;
        }
        if (it->history.file &&
            !put_line(&it->history, pciex_monitor_acted(monitor, requester, number, room, sizeof room), room)) {
            return false;
        }
        if (completion_length > 0 &&
            !put_line(&it->out,
                      pciex_monitor_completion(monitor, requester, completion, completion_length, room, sizeof room),
                      room)) {
            return false;
        }
    }
    return true;
}

/* Writes the history behind the records. */
static bool put_history(struct lines *it)
{
    char part[4096];
    size_t length;
    if (!it->history.file) {
        return true;
    }
    if (!written(&it->history, fflush(it->history.file) == 0)) {
        return false;
    }
    rewind(it->history.file);
    if (!written(&it->out, fprintf(it->out.file, "history\n") > 0)) {
        return false;
    }
    while ((length = fread(part, 1, sizeof part, it->history.file)) > 0) {
        if (!written(&it->out, fwrite(part, 1, length, it->out.file) == length)) {
            return false;
        }
    }
    return written(&it->history, !ferror(it->history.file));
}

static bool close_lines(struct lines *it)
{
    bool is_right = !it->out.file || (put_history(it) && written(&it->out, fprintf(it->out.file, "end\n") > 0));
    is_right &= close_output(&it->history);
    is_right &= close_output(&it->out);
    pciex_monitor_free(&it->monitor);
    return is_right;
}

bool records_close(void)
{
    const bool is_log = close_lines(&log_lines), is_trace = close_lines(&trace_lines);
    return close_output(&capture) && is_log && is_trace;
}
