/*
 * What the device and the guest share: how a function is found, and the registers of its mailbox. For C.
 */
#ifndef PCIEX_QEMU_DEVICE_H
#define PCIEX_QEMU_DEVICE_H

enum {
    VENDOR_ID = 0x1234, /* QEMU's own */
    DEVICE_ID = 0x7C1E,
    MOST_PORTS = 7,     /* the requesters of a trace */
    MEMORY_BAR = 0,     /* shows the memory */
    MAILBOX_BAR = 1,    /* the mailbox, in its first BOX_BYTES bytes */
    MAILBOX_SIZE = 4096
};

/*
 * The mailbox, for AtomicOps. Offsets in bytes; numbers are little-endian. Write address, operand and, for a CAS, the
 * compare value. A write of 4 bytes to BOX_GO sends the request. When that write is done, so is the request.
 */
enum {
    BOX_ADDRESS = 0x00, /* 4 bytes: the operand's address, counted from the start of the memory */
    BOX_BLOCK = 0x04,   /* 4 bytes, read only: 64 or 128, the bytes of a block */
    BOX_GO = 0x08,      /* 4 bytes: written a kind plus 256 times the width of 4, 8 or 16; read as a status */
    BOX_OPERAND = 0x10, /* 16 bytes: the operand; of a CAS the swap value */
    BOX_COMPARE = 0x20, /* 16 bytes: the compare value of a CAS */
    BOX_DATA = 0x30,    /* 16 bytes, read only: the data of the last completion, zeros behind them */
    BOX_BYTES = 0x40
};

enum { GO_FETCH_ADD = 1, GO_SWAP = 2, GO_CAS = 3 };

/* The status of the last completion: its field Status, or BOX_NO_PACKET if no packet can carry the request. */
enum { BOX_SUCCESS = 0, BOX_UNSUPPORTED = 1, BOX_ABORTED = 4, BOX_NO_PACKET = 255 };

#endif
