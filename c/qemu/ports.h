/*
 * A memory with ports. Each port is a PCI function with a configuration space and two BARs, and a requester of the
 * memory. An access to a BAR becomes a TLP, which the library answers.
 */
#ifndef PCIEX_QEMU_PORTS_H
#define PCIEX_QEMU_PORTS_H

#include "device.h"

#include <stdbool.h>
#include <stddef.h>
#include <stdint.h>

enum { CONFIG_BYTES = 256 };

/* A PCI function, and the port of one requester. */
struct port {
    uint8_t config[CONFIG_BYTES];   /* type 0 configuration space */
    uint8_t writable[CONFIG_BYTES]; /* which of its bits the guest may write */
    uint8_t mailbox[BOX_BYTES];
    uint8_t requester;              /* 1 to 7, the bus number of the Requester ID */
    uint8_t tag;                    /* of the next request */
    uint32_t number;                /* of the next request */
};

struct device {
    struct port ports[MOST_PORTS];
    size_t count;           /* of ports */
    uint8_t *memory;
    size_t size;            /* bytes of the memory, which begins at address 0 */
    uint16_t block;         /* 64 or 128 */
    unsigned long lose;     /* a fault to be found: of so many posted writes the last changes nothing; 0 for none */
    unsigned long writes;   /* posted writes so far */
    unsigned long requests; /* so far */
    bool has_failed;        /* a record can't be written, which was said */
};

/* Makes memory and ports. False if an allocation failed. */
bool device_new(struct device *device, size_t count, size_t size, uint16_t block);
void device_free(struct device *device);

/* The port as after a reset. The memory keeps its bytes. */
void port_reset(const struct device *device, struct port *port);

/* Reads 1 to 4 bytes of configuration space, or all ones outside. */
uint64_t port_config_read(const struct port *port, uint32_t offset, uint32_t length);

/* Writes 1 to 4 bytes of configuration space. Nothing outside. */
void port_config_write(struct port *port, uint32_t offset, uint32_t length, uint32_t value);

/* Reads 1 to 8 bytes at an address below one of the BARs. All ones if there is nothing, or if it isn't served. */
uint64_t port_read(struct device *device, struct port *port, uint64_t address, uint32_t length);

/* Writes 1 to 8 bytes at an address below one of the BARs. Nothing elsewhere. */
void port_write(struct device *device, struct port *port, uint64_t address, uint32_t length, uint64_t value);

#endif
