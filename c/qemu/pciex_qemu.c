/*
 * A memory on QEMU's PCI bus that the library for C answers. Runs QEMU with a PCI function for each port of the memory,
 * and answers their accesses. docs/qemu.md is its page, and the usage below says its options.
 */
#define _GNU_SOURCE
#include "proxy.h"
#include "records.h"

#include <errno.h>
#include <fcntl.h>
#include <poll.h>
#include <signal.h>
#include <stdio.h>
#include <stdlib.h>
#include <string.h>
#include <sys/prctl.h>
#include <sys/socket.h>
#include <sys/time.h>
#include <sys/wait.h>
#include <time.h>
#include <unistd.h>

static const char usage[] =
    "Usage: pciex_qemu [OPTIONS] -- qemu-system-x86_64 WORDS..\n"
    "\n"
    "Runs QEMU with a memory on its PCI bus, and answers the guest's accesses.\n"
    "\n"
    "Options:\n"
    "  --ports N      PCI functions, each the port of a requester: 1 to 7 (default 1)\n"
    "  --size BYTES   the memory: a power of two, 4096 to 1048576 (default 4096)\n"
    "  --block BYTES  no access may cross a block of this size: 64 or 128 (default 64)\n"
    "  --log FILE     write what the ports carry as a log, for `pciex search`\n"
    "  --trace FILE   write what the ports carry and which requests acted as a trace, for `pciex check`\n"
    "  --pcap FILE    write the packets as a capture, for Wireshark\n"
    "  --seconds N    end QEMU if it runs longer: 1 to 1000000 (default 600)\n"
    "  --lose N       a fault to be found: of N posted writes the last changes nothing (default 0, none)\n"
    "  --help         print this\n"
    "\n"
    "The status is 0 if QEMU ended with status 0, and otherwise 2.\n";

enum {
    SECONDS_TO_END = 10,        /* for QEMU, once it has closed its ports or was told to end */
    MOST_PAUSE = 200            /* milliseconds between two looks at signals and the clock */
};

struct options {
    unsigned long ports, size, block, seconds, lose;
    struct names names;
    char **qemu; /* QEMU's words, ended by NULL */
};

/* ---- options */

/* Reads a decimal number without sign. */
static bool read_number(const char *word, unsigned long *value)
{
    char *rest;
    errno = 0;
    *value = strtoul(word, &rest, 10);
    return *word >= '0' && *word <= '9' && *rest == 0 && errno == 0;
}

/* Sets the option of that name. False if there is none, or if the value has another form. */
static bool set_option(struct options *options, const char *name, const char *value)
{
    const struct { const char *name; unsigned long *value; } numbers[] = {
        {"--ports", &options->ports}, {"--size", &options->size}, {"--block", &options->block},
        {"--seconds", &options->seconds}, {"--lose", &options->lose},
    };
    const struct { const char *name; const char **value; } files[] = {
        {"--log", &options->names.log}, {"--trace", &options->names.trace}, {"--pcap", &options->names.capture},
    };
    for (size_t i = 0; i < sizeof numbers / sizeof numbers[0]; i++) {
        if (!strcmp(name, numbers[i].name)) {
            return read_number(value, numbers[i].value);
        }
    }
    for (size_t i = 0; i < sizeof files / sizeof files[0]; i++) {
        if (!strcmp(name, files[i].name)) {
            *files[i].value = value;
            return true;
        }
    }
    return false;
}

/* The first option whose value is out of its range, with the range, or NULL. */
static const char *wrong_range(const struct options *it)
{
    if (it->ports < 1 || it->ports > MOST_PORTS) {
        return "--ports: 1 to 7";
    }
    if (it->size < 4096 || it->size > 1 << 20 || (it->size & (it->size - 1)) != 0) {
        return "--size: a power of two, 4096 to 1048576";
    }
    if (it->block != 64 && it->block != 128) {
        return "--block: 64 or 128";
    }
    return it->seconds < 1 || it->seconds > 1000000 ? "--seconds: 1 to 1000000" : NULL;
}

/* Whether both are given and name one file, in which each would overwrite the other. */
static bool is_one_file(const char *one, const char *other)
{
    return one && other && !strcmp(one, other) && strcmp(one, "/dev/null") != 0;
}

/* Reads the program's words. False, with a message, if one is wrong. */
static bool read_options(struct options *options, int count, char **words)
{
    int i = 1;
    for (; i < count && strcmp(words[i], "--") != 0; i += 2) {
        if (i + 1 == count || !set_option(options, words[i], words[i + 1])) {
            complain("'%s%s%s' is no option with its value; --help shows them", words[i], i + 1 == count ? "" : " ",
                     i + 1 == count ? "" : words[i + 1]);
            return false;
        }
    }
    const char *wrong = wrong_range(options);
    if (wrong) {
        complain("%s", wrong);
        return false;
    }
    const struct names *names = &options->names;
    if (is_one_file(names->log, names->trace) || is_one_file(names->log, names->capture) ||
        is_one_file(names->trace, names->capture)) {
        complain("--log, --trace and --pcap: one file for two of them");
        return false;
    }
    if (i + 1 >= count) {
        complain("no command behind --, such as -- qemu-system-x86_64 -M q35; --help shows the rest");
        return false;
    }
    options->qemu = words + i + 1;
    return true;
}

/* ---- QEMU */

static pid_t qemu;
static volatile sig_atomic_t signal_came;

static void note_signal(int number)
{
    signal_came = number;
}

/* The words of QEMU's command, with a function for each socket behind them. NULL if an allocation failed. */
static char **command_of(char **words, const int *sockets, size_t count)
{
    static char devices[MOST_PORTS][64];
    size_t length = 0;
    while (words[length]) {
        length++;
    }
    char **all = calloc(length + 2 * count + 1, sizeof *all);
    for (size_t i = 0; all && i < length; i++) {
        all[i] = words[i];
    }
    for (size_t i = 0; all && i < count; i++) {
        snprintf(devices[i], sizeof devices[i], "x-pci-proxy-dev,id=pciex%zu,fd=%d", i + 1, sockets[i]);
        all[length + 2 * i] = "-device";
        all[length + 2 * i + 1] = devices[i];
    }
    return all;
}

/* In the child: becomes QEMU. If it can't be run, writes why to the pipe. */
static void become(char **command, int report, pid_t parent)
{
    prctl(PR_SET_PDEATHSIG, SIGKILL);
    if (getppid() == parent) {
        execvp(command[0], command);
        const int why = errno;
        if (write(report, &why, sizeof why) < 0) {
            _exit(126);
        }
    }
    _exit(127);
}

/* Starts QEMU, which inherits these sockets. False, with a message, if it can't be run. */
static bool start(char **words, const int *sockets, size_t count)
{
    int report[2], why = 0;
    char **command = command_of(words, sockets, count);
    if (!command || pipe2(report, O_CLOEXEC) != 0) {
        complain("no memory or no pipe for QEMU");
        free(command);
        return false;
    }
    const pid_t parent = getpid();
    qemu = fork();
    if (qemu == 0) {
        become(command, report[1], parent);
    }
    const int no_fork = errno;
    close(report[1]);
    const bool is_wrong = qemu < 0 || read(report[0], &why, sizeof why) != 0;
    if (is_wrong) {
        complain("%s can't be run: %s", words[0], strerror(qemu < 0 ? no_fork : why));
    }
    close(report[0]);
    free(command);
    return !is_wrong;
}

/* Waits for QEMU's end, at most so many seconds. Whether it ended. */
static bool wait_for_end(int seconds, int *status)
{
    const struct timespec pause = {0, 5000000};
    for (int i = 0; i < 200 * seconds; i++) {
        if (waitpid(qemu, status, WNOHANG) == qemu) {
            return true;
        }
        nanosleep(&pause, NULL);
    }
    return false;
}

/*
 * Waits until QEMU has ended, and ends it if it doesn't, or at once if it `is_cut_off`. Whether it ended by itself with
 * status 0; says so if it ended otherwise.
 */
static bool finish(bool is_cut_off)
{
    int status = 0;
    if (qemu <= 0) {
        return false;
    }
    bool has_ended = !is_cut_off && wait_for_end(SECONDS_TO_END, &status);
    if (has_ended) {
        if (WIFSIGNALED(status)) {
            complain("QEMU was ended by signal %d", WTERMSIG(status));
        } else if (WEXITSTATUS(status) != 0) {
            complain("QEMU ended with status %d", WEXITSTATUS(status));
        }
        return WIFEXITED(status) && WEXITSTATUS(status) == 0;
    }
    if (!is_cut_off) {
        complain("QEMU has closed its ports and doesn't end");
    }
    kill(qemu, SIGTERM);
    if (!wait_for_end(SECONDS_TO_END, &status)) {
        kill(qemu, SIGKILL);
        waitpid(qemu, &status, 0);
    }
    return false;
}

/* ---- the loop */

/* Milliseconds of a clock that only goes forward. */
static long long now(void)
{
    struct timespec it;
    clock_gettime(CLOCK_MONOTONIC, &it);
    return it.tv_sec * 1000LL + it.tv_nsec / 1000000;
}

/* When QEMU has to have ended, by now(), and after how many seconds that is. */
static long long end;
static unsigned long seconds;

/* Whether the loop has to end before QEMU does, which is said. */
static bool is_cut_off(void)
{
    const bool is_late = now() >= end;
    if (signal_came) {
        complain("ended by signal %d", (int)signal_came);
    } else if (is_late) {
        complain("QEMU ran for more than %lu seconds", seconds);
    }
    return signal_came || is_late;
}

/* Answers all messages until QEMU has closed the sockets. False if it is cut off before. */
static bool serve_all(struct device *device, const int *sockets, const struct options *options)
{
    struct pollfd waiting[MOST_PORTS];
    size_t open = device->count;
    seconds = options->seconds;
    end = now() + 1000LL * (long long)seconds;
    for (size_t i = 0; i < device->count; i++) {
        waiting[i] = (struct pollfd){.fd = sockets[i], .events = POLLIN};
    }
    while (open > 0) {
        const int ready = poll(waiting, device->count, MOST_PAUSE);
        if (is_cut_off()) {
            return false;
        }
        for (size_t i = 0; ready > 0 && i < device->count; i++) {
            const enum proxy_result result =
                waiting[i].revents ? proxy_serve(sockets[i], device, device->ports + i, is_cut_off) : PROXY_DONE;
            if (result == PROXY_BROKEN || device->has_failed) {
                return false;
            }
            if (result == PROXY_CLOSED) {
                waiting[i].fd = -1;
                open--;
            }
        }
    }
    return true;
}

/* A pair of sockets for a port: ours, closed when QEMU is run, and QEMU's. */
static bool connect_port(int *ours, int *theirs)
{
    const struct timeval pause = {0, 1000 * MOST_PAUSE}, limit = {SECONDS_FOR_A_MESSAGE, 0};
    int pair[2];
    if (socketpair(AF_UNIX, SOCK_STREAM, 0, pair) != 0) {
        return false;
    }
    *ours = pair[0];
    *theirs = pair[1];
    return fcntl(*ours, F_SETFD, FD_CLOEXEC) == 0 &&
           setsockopt(*ours, SOL_SOCKET, SO_RCVTIMEO, &pause, sizeof pause) == 0 &&
           setsockopt(*ours, SOL_SOCKET, SO_SNDTIMEO, &limit, sizeof limit) == 0;
}

/* Runs QEMU to its end. Whether it ended with status 0 and all its messages were answered. */
static bool run(struct device *device, const struct options *options)
{
    int ours[MOST_PORTS], theirs[MOST_PORTS];
    for (size_t i = 0; i < device->count; i++) {
        if (!connect_port(ours + i, theirs + i)) {
            complain("no socket for a port: %s", strerror(errno));
            return false;
        }
    }
    const bool is_started = start(options->qemu, theirs, device->count);
    for (size_t i = 0; i < device->count; i++) {
        close(theirs[i]);
    }
    const bool is_served = is_started && serve_all(device, ours, options);
    for (size_t i = 0; i < device->count; i++) {
        close(ours[i]);
    }
    return finish(!is_served) && is_served;
}

/* Lets the signals that end a program be noted. */
static void take_signals(void)
{
    static const int numbers[] = {SIGINT, SIGTERM, SIGHUP};
    struct sigaction action = {.sa_handler = note_signal, .sa_flags = SA_RESTART};
    for (size_t i = 0; i < sizeof numbers / sizeof numbers[0]; i++) {
        sigaction(numbers[i], &action, NULL);
    }
}

int main(int count, char **words)
{
    struct options options = {.ports = 1, .size = 4096, .block = 64, .seconds = 600};
    struct device device;
    if (count == 2 && !strcmp(words[1], "--help")) {
        return fputs(usage, stdout) < 0 || fflush(stdout) != 0 ? 2 : 0;
    }
    if (!read_options(&options, count, words)) {
        return 2;
    }
    if (!device_new(&device, options.ports, options.size, (uint16_t)options.block)) {
        complain("no memory");
        return 2;
    }
    device.lose = options.lose;
    take_signals();
    const bool has_run = records_open(&options.names, device.size, device.block) && run(&device, &options);
    const bool is_recorded = records_close();
    fprintf(stderr, "pciex_qemu: %lu requests\n", device.requests);
    device_free(&device);
    return has_run && is_recorded ? 0 : 2;
}
