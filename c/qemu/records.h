/*
 * What is written of the packets at the ports: a log for `pciex search`, a trace for `pciex check`, and a capture for
 * Wireshark. A file that isn't named isn't written.
 */
#ifndef PCIEX_QEMU_RECORDS_H
#define PCIEX_QEMU_RECORDS_H

#include "../pciex.h"

/* Prints `pciex_qemu: `, the text and a line feed on standard error. */
void complain(const char *format, ...) __attribute__((format(printf, 1, 2)));

struct names {
    const char *log, *trace, *capture;
};

/* Opens the files of a memory of `size` bytes at address 0. False, with a message, if that fails. */
bool records_open(const struct names *names, size_t size, uint16_t block);

/* Adds a packet to the capture, at the present time. */
bool records_packet(const uint8_t *packet, size_t length);

/*
 * Adds to log and trace a request that acted, the next one of its requester, and its completion, of length 0 if it has
 * none. False, with a message, if a monitor refuses it or a file can't be written.
 */
bool records_served(uint8_t requester, uint32_t number, const uint8_t *request, size_t request_length,
                    const uint8_t *completion, size_t completion_length);

/* Ends and closes the files. False, with a message, if one can't be written. */
bool records_close(void);

#endif
