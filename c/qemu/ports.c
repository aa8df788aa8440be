#include "ports.h"
#include "records.h"

#include <stdlib.h>
#include <string.h>

/* Offsets in the configuration space of type 0, and in a PCI Express capability. */
enum {
    CONFIG_COMMAND = 0x04,
    CONFIG_STATUS = 0x06,
    CONFIG_CLASS = 0x09,
    CONFIG_BARS = 0x10,
    CONFIG_CAPABILITIES = 0x34,
    EXPRESS = 0x40,
    EXPRESS_DEVICE_CAPABILITIES_2 = EXPRESS + 0x24
};

/* Fmt and Type of the requests, with headers of 3 DW. */
enum { MRD = 0x00, MWR = 0x40, FETCH_ADD = 0x4C, SWAP = 0x4D, CAS = 0x4E };

enum { HEADER = 12 };

static void put(uint8_t *bytes, size_t length, uint64_t value)
{
    for (size_t i = 0; i < length; i++) {
        bytes[i] = (uint8_t)(value >> 8 * i);
    }
}

static uint64_t get(const uint8_t *bytes, size_t length)
{
    uint64_t value = 0;
    for (size_t i = 0; i < length; i++) {
        value |= (uint64_t)bytes[i] << 8 * i;
    }
    return value;
}

/* ---- configuration space */

/* A register of 1 to 4 bytes, and which of its bits the guest may write. */
static void set(struct port *port, size_t offset, size_t length, uint32_t value, uint32_t mask)
{
    put(port->config + offset, length, value);
    put(port->writable + offset, length, mask);
}

void port_reset(const struct device *device, struct port *port)
{
    memset(port->config, 0, sizeof port->config);
    memset(port->mailbox, 0, sizeof port->mailbox);
    put(port->mailbox + BOX_BLOCK, 4, device->block);
    set(port, 0, 2, VENDOR_ID, 0);
    set(port, 2, 2, DEVICE_ID, 0);
    set(port, CONFIG_COMMAND, 2, 0, 0x0406);            /* Memory Space Enable, Bus Master Enable, Interrupt Disable */
    set(port, CONFIG_STATUS, 2, 0x0010, 0);             /* there is a list of capabilities */
    set(port, CONFIG_CLASS, 3, 0x058000, 0);            /* a memory controller */
    set(port, CONFIG_BARS + 4 * MEMORY_BAR, 4, 0, -(uint32_t)device->size);
    set(port, CONFIG_BARS + 4 * MAILBOX_BAR, 4, 0, -(uint32_t)MAILBOX_SIZE);
    set(port, CONFIG_CAPABILITIES, 1, EXPRESS, 0);
    set(port, EXPRESS, 2, 0x0010, 0);                   /* PCI Express, the last capability */
    set(port, EXPRESS + 2, 2, 0x0092, 0);               /* version 2, Root Complex Integrated Endpoint */
    set(port, EXPRESS_DEVICE_CAPABILITIES_2, 4, 7 << 7, 0); /* AtomicOp completer: 32 and 64 bits, CAS of 128 bits */
}

uint64_t port_config_read(const struct port *port, uint32_t offset, uint32_t length)
{
    return length > 4 || offset > CONFIG_BYTES - length ? UINT64_MAX : get(port->config + offset, length);
}

void port_config_write(struct port *port, uint32_t offset, uint32_t length, uint32_t value)
{
    if (length > 4 || offset > CONFIG_BYTES - length) {
        return;
    }
    for (uint32_t i = 0; i < length; i++) {
        const uint8_t mask = port->writable[offset + i];
        port->config[offset + i] = (uint8_t)((port->config[offset + i] & ~mask) | (value >> 8 * i & mask));
    }
}

static uint64_t bar(const struct port *port, size_t number)
{
    return get(port->config + CONFIG_BARS + 4 * number, 4);
}

/* ---- packets */

/*
 * One request at the memory: the length of its completion in `completion`, of PCIEX_PACKET bytes. 0 for a posted write,
 * 1000 and more if it is no packet.
 */
static uint32_t serve(struct device *device, struct port *port, const uint8_t *request, size_t length,
                      uint8_t *completion)
{
    bool is_written = records_packet(request, length);
    uint32_t code = 0;
    if (request[0] != MWR || device->lose == 0 || ++device->writes % device->lose != 0) {
        code = pciex_answer(device->memory, device->size, 0, device->block, request, length, completion, PCIEX_PACKET);
    }
    if (code < 1000) {
        is_written &= code == 0 || records_packet(completion, code);
        is_written &= records_served(port->requester, port->number++, request, length, completion, code);
        device->requests++;
    }
    device->has_failed |= !is_written;
    return code;
}

/* Writes the header of a request: its length. A header has no room for the lower two bits of the address. */
static size_t put_header(struct port *port, uint8_t *packet, uint8_t kind, size_t dw, unsigned enables,
                         uint32_t address)
{
    const uint8_t header[HEADER] = {
        kind, 0, (uint8_t)(dw >> 8 & 3), (uint8_t)dw,
        port->requester, 0, port->tag++, (uint8_t)enables,
        (uint8_t)(address >> 24), (uint8_t)(address >> 16), (uint8_t)(address >> 8), (uint8_t)address & 0xFC,
    };
    memcpy(packet, header, sizeof header);
    return sizeof header;
}

/* The header of a read or a write of 1 to 8 bytes. */
static size_t put_access(struct port *port, uint8_t *packet, uint8_t kind, uint32_t address, uint32_t length)
{
    const unsigned lane = address & 3, dw = (lane + length + 3) / 4, enables = ((1u << length) - 1) << lane;
    const unsigned last = dw == 1 ? 0 : enables >> 4 * (dw - 1) & 15;
    return put_header(port, packet, kind, dw, last << 4 | (enables & 15), address);
}

static uint64_t read_memory(struct device *device, struct port *port, uint32_t address, uint32_t length)
{
    uint8_t packet[HEADER], completion[PCIEX_PACKET];
    const size_t packet_length = put_access(port, packet, MRD, address, length);
    const uint32_t code = serve(device, port, packet, packet_length, completion);
    return code > HEADER && code < 1000 ? get(completion + HEADER + (address & 3), length) : UINT64_MAX;
}

static void write_memory(struct device *device, struct port *port, uint32_t address, uint32_t length, uint64_t value)
{
    uint8_t packet[HEADER + 12] = {0}, completion[PCIEX_PACKET];
    const unsigned lane = address & 3;
    const size_t header = put_access(port, packet, MWR, address, length);
    put(packet + header + lane, length, value);
    serve(device, port, packet, header + (lane + length + 3) / 4 * 4, completion);
}

/* ---- the mailbox */

/* The AtomicOp that was written to BOX_GO. */
static void send_atomic(struct device *device, struct port *port, uint32_t go)
{
    static const uint8_t kinds[] = {[GO_FETCH_ADD] = FETCH_ADD, [GO_SWAP] = SWAP, [GO_CAS] = CAS};
    uint8_t packet[HEADER + 32], completion[PCIEX_PACKET], *box = port->mailbox;
    const uint32_t kind = go & 255, width = go >> 8, address = (uint32_t)get(box + BOX_ADDRESS, 4);
    uint32_t code = PCIEX_NO_REQUEST;
    if (kind >= GO_FETCH_ADD && kind <= GO_CAS && width <= 16 && address % 4 == 0) {
        const size_t dw = (kind == GO_CAS ? 2 : 1) * width / 4;
        size_t length = put_header(port, packet, kinds[kind], dw, 0, address);
        if (kind == GO_CAS) {
            memcpy(packet + length, box + BOX_COMPARE, width);
            length += width;
        }
        memcpy(packet + length, box + BOX_OPERAND, width);
        code = serve(device, port, packet, length + width, completion);
    }
    memset(box + BOX_DATA, 0, 16);
    if (code >= HEADER && code < 1000) {
        memcpy(box + BOX_DATA, completion + HEADER, code - HEADER);
        put(box + BOX_GO, 4, completion[6] >> 5);
    } else {
        put(box + BOX_GO, 4, BOX_NO_PACKET);
    }
}

static void write_mailbox(struct device *device, struct port *port, uint64_t offset, uint32_t length, uint64_t value)
{
    if (offset == BOX_GO && length == 4) {
        send_atomic(device, port, (uint32_t)value);
    } else if ((offset >= BOX_OPERAND && offset + length <= BOX_DATA) || offset + length <= BOX_BLOCK) {
        put(port->mailbox + offset, length, value);
    }
}

/* ---- both BARs */

uint64_t port_read(struct device *device, struct port *port, uint64_t address, uint32_t length)
{
    const uint64_t in_memory = address - bar(port, MEMORY_BAR), in_mailbox = address - bar(port, MAILBOX_BAR);
    if (length < 1 || length > 8) {
        return UINT64_MAX;
    }
    if (in_memory < device->size) {
        return read_memory(device, port, (uint32_t)in_memory, length);
    }
    return in_mailbox <= BOX_BYTES - length ? get(port->mailbox + in_mailbox, length) : UINT64_MAX;
}

void port_write(struct device *device, struct port *port, uint64_t address, uint32_t length, uint64_t value)
{
    const uint64_t in_memory = address - bar(port, MEMORY_BAR), in_mailbox = address - bar(port, MAILBOX_BAR);
    if (length < 1 || length > 8) {
        return;
    }
    if (in_memory < device->size) {
        write_memory(device, port, (uint32_t)in_memory, length, value);
    } else if (in_mailbox <= BOX_BYTES - length) {
        write_mailbox(device, port, in_mailbox, length, value);
    }
}

/* ---- the device */

bool device_new(struct device *device, size_t count, size_t size, uint16_t block)
{
    memset(device, 0, sizeof *device);
    device->count = count;
    device->size = size;
    device->block = block;
    device->memory = calloc(size, 1);
    for (size_t i = 0; i < count; i++) {
        device->ports[i].requester = (uint8_t)(i + 1);
        port_reset(device, device->ports + i);
    }
    return device->memory != NULL;
}

void device_free(struct device *device)
{
    free(device->memory);
    device->memory = NULL;
}
