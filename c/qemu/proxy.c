#include "proxy.h"
#include "records.h"

#include <errno.h>
#include <string.h>
#include <sys/socket.h>
#include <time.h>
#include <unistd.h>

enum command { SYNC_SYSMEM, RETURN, CONFIG_WRITE, CONFIG_READ, BAR_WRITE, BAR_READ, SET_IRQFD, DEVICE_RESET };

/* A message: 16 bytes, then `size` bytes of data. */
struct message {
    int32_t command;
    uint32_t padding;
    uint64_t size;
    union {
        uint64_t value;
        struct {
            uint32_t offset, value, length;
        } config;
        struct {
            uint64_t address, value;
            uint32_t length;
            bool is_memory;
        } access;
        uint8_t bytes[512];
    } data;
};

enum { HEAD = 16 };

/* Closes the descriptors that came with a part of a message: the guest's memory and interrupts, which aren't used. */
static void close_descriptors(struct msghdr *part)
{
    for (struct cmsghdr *it = CMSG_FIRSTHDR(part); it; it = CMSG_NXTHDR(part, it)) {
        const size_t end = it->cmsg_type == SCM_RIGHTS ? it->cmsg_len : 0;
        for (size_t at = CMSG_LEN(0); at + sizeof(int) <= end; at += sizeof(int)) {
            int descriptor;
            memcpy(&descriptor, (char *)it + at, sizeof descriptor);
            close(descriptor);
        }
    }
}

/* Seconds of a clock that only goes forward. */
static time_t seconds(void)
{
    struct timespec it;
    clock_gettime(CLOCK_MONOTONIC, &it);
    return it.tv_sec;
}

/*
 * Takes `length` bytes from the socket, until the clock is at `end`. If QEMU closes it before the first of them, and
 * `is_first`, that is the end of the messages. The socket's limit of time holds for each part, and between two of them it
 * asks `is_over`.
 */
static enum proxy_result take(int socket, void *bytes, size_t length, bool is_first, time_t end, proxy_is_over *is_over)
{
    _Alignas(struct cmsghdr) char room[CMSG_SPACE(16 * sizeof(int))];
    size_t taken = 0;
    while (taken < length) {
        struct iovec rest = {(char *)bytes + taken, length - taken};
        struct msghdr part = {.msg_iov = &rest, .msg_iovlen = 1, .msg_control = room, .msg_controllen = sizeof room};
        const ssize_t now = recvmsg(socket, &part, MSG_CMSG_CLOEXEC);
        if (now < 0 && (errno == EINTR || errno == EAGAIN) && seconds() <= end) {
            if (is_over()) {
                return PROXY_BROKEN;
            }
            continue;
        }
        if (is_first && taken == 0 && (now == 0 || (now < 0 && errno == ECONNRESET))) {
            return PROXY_CLOSED;
        }
        if (now <= 0) {
            complain("QEMU stopped in the middle of a message");
            return PROXY_BROKEN;
        }
        close_descriptors(&part);
        taken += (size_t)now;
        if (taken < length && is_over()) {
            return PROXY_BROKEN;
        }
        if (taken < length && seconds() > end) {
            complain("QEMU takes more than %d seconds for a message", SECONDS_FOR_A_MESSAGE);
            return PROXY_BROKEN;
        }
    }
    return PROXY_DONE;
}

/* What the message does, and the value that QEMU waits for. */
static uint64_t value_of(struct device *device, struct port *port, const struct message *it)
{
    switch (it->command) {
    case CONFIG_WRITE:
        port_config_write(port, it->data.config.offset, it->data.config.length, it->data.config.value);
        return 0;
    case CONFIG_READ:
        return port_config_read(port, it->data.config.offset, it->data.config.length);
    case BAR_WRITE:
        port_write(device, port, it->data.access.address, it->data.access.length, it->data.access.value);
        return 0;
    case BAR_READ:
        return port_read(device, port, it->data.access.address, it->data.access.length);
    default:
        port_reset(device, port);
        return 0;
    }
}

enum proxy_result proxy_serve(int socket, struct device *device, struct port *port, proxy_is_over *is_over)
{
    struct message it;
    const time_t end = seconds() + SECONDS_FOR_A_MESSAGE;
    memset(&it, 0, sizeof it);
    enum proxy_result result = take(socket, &it, HEAD, true, end, is_over);
    if (result != PROXY_DONE) {
        return result;
    }
    if (it.size > sizeof it.data || it.command < SYNC_SYSMEM || it.command > DEVICE_RESET || it.command == RETURN) {
        complain("QEMU sent a message of %llu bytes with command %d, which isn't known", (unsigned long long)it.size,
                 (int)it.command);
        return PROXY_BROKEN;
    }
    result = take(socket, it.data.bytes, it.size, false, end, is_over);
    if (result != PROXY_DONE || it.command == SYNC_SYSMEM || it.command == SET_IRQFD) {
        return result;
    }
    it.data.value = value_of(device, port, &it);
    it.command = RETURN;
    it.size = sizeof it.data.value;
    const ssize_t sent = send(socket, &it, HEAD + sizeof it.data.value, MSG_NOSIGNAL);
    if (sent == HEAD + sizeof it.data.value) {
        return PROXY_DONE;
    }
    if (sent < 0 && (errno == EPIPE || errno == ECONNRESET)) {
        return PROXY_CLOSED;
    }
    complain("QEMU takes no reply");
    return PROXY_BROKEN;
}
