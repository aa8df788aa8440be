/*
 * The other end of QEMU's x-pci-proxy-dev: its messages (QEMU's include/hw/remote/mpqemu-link.h), answered for a port.
 */
#ifndef PCIEX_QEMU_PROXY_H
#define PCIEX_QEMU_PROXY_H

#include "ports.h"

enum proxy_result {
    PROXY_DONE,   /* a message was taken, and answered if it needs that */
    PROXY_CLOSED, /* QEMU has closed the socket */
    PROXY_BROKEN  /* QEMU sent no message, or stopped in the middle of one, which was said */
};

enum { SECONDS_FOR_A_MESSAGE = 10 };

/* Whether the program has to end, which it says. */
typedef bool proxy_is_over(void);

/*
 * Takes one message from the socket, which has some bytes to read, and answers it. While QEMU keeps it waiting, it asks
 * `is_over`.
 */
enum proxy_result proxy_serve(int socket, struct device *device, struct port *port, proxy_is_over *is_over);

#endif
