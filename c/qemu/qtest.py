#!/usr/bin/env python3
"""The device without a guest: QEMU's qtest protocol stands for the processors.

    python3 qtest.py LOG CONFIG pciex_qemu --ports 2 ..

Runs the command, with `-- qemu-system-x86_64 ..` behind it. Prints what was read, writes the accesses as a log for
`pciex search` to the file LOG, and the configuration space of the first function to the file CONFIG, for `lspci -F`.
The exit status is that of the command.
"""
import os
import socket
import subprocess
import sys
import tempfile

SECONDS = 120  # a limit for each wait
PLACE = 0xE0000000  # BAR 0 of the first function; its BAR 1 and the next function's BARs follow, 10000h apart
BOX_GO, BOX_OPERAND, BOX_COMPARE, BOX_DATA = 0x08, 0x10, 0x20, 0x30  # of device.h
ADD, SWAP, CAS = 1, 2, 3


class Machine:
    """QEMU's end of the protocol, and the log of what was done."""

    def __init__(self, stream):
        self.stream = stream
        self.lines = []
        self.numbers = {1: 0, 2: 0}

    def call(self, *words):
        print(*words, file=self.stream, flush=True)
        answer = self.stream.readline().split()
        if not answer or answer[0] != "OK":
            raise SystemExit(f"qtest.py: QEMU answers {answer} to {words}")
        return int(answer[1], 16) if len(answer) > 1 else None

    def config(self, slot, offset, value=None):
        self.call("outl", 0xCF8, 0x80000000 | slot << 11 | offset)
        return self.call("inl", 0xCFC) if value is None else self.call("outl", 0xCFC, value)

    def note(self, requester, operation, reply=None):
        number = self.numbers[requester]
        self.lines.append(f"sub {requester} {number} {operation}")
        if reply:
            self.lines.append(f"ans {requester} {number} {reply}")
        self.numbers[requester] += 1

    def access(self, requester, offset, size, value=None):
        """A read or a write of 1, 2 or 4 bytes within one DW: what was read."""
        name, lane = "bwl"[size // 2], offset % 4
        enables = (1 << size) - 1 << lane
        place = PLACE + 0x20000 * (requester - 1) + offset
        if value is None:
            seen = self.call("read" + name, place)
            data = (seen << 8 * lane).to_bytes(4, "little").hex().upper()
            self.note(requester, f"read {offset - lane:X} 1 {enables:X} 0", f"data {data}")
            return seen
        data = (value << 8 * lane).to_bytes(4, "little").hex().upper()
        self.note(requester, f"write {offset - lane:X} {enables:X} 0 {data}")
        return self.call("write" + name, place, value)

    def atomic(self, requester, kind, offset, operand, compare=None):
        """An AtomicOp through the mailbox, of as many bytes as the operand: status and data."""
        box = PLACE + 0x20000 * (requester - 1) + 0x10000
        for register, data in (BOX_OPERAND, operand), (BOX_COMPARE, compare or b""):
            for place in range(0, len(data), 4):
                self.call("writel", box + register + place, int.from_bytes(data[place : place + 4], "little"))
        self.call("writel", box, offset)
        self.call("writel", box + BOX_GO, kind | len(operand) << 8)
        status = self.call("readl", box + BOX_GO)
        data = b"".join(self.call("readl", box + BOX_DATA + it).to_bytes(4, "little") for it in range(0, 16, 4))
        words = [it.hex().upper() for it in (compare, operand) if it]
        reply = {0: "data " + data[: len(operand)].hex().upper(), 1: "ur", 4: "ca"}.get(status)
        if reply:
            self.note(requester, f"{['add', 'swap', 'cas'][kind - 1]} {offset:X} {' '.join(words)}", reply)
        return f"{status}:{data.hex().upper()}"


def drive(machine, config):
    ports = [it for it in range(1, 32) if machine.config(it, 0) == 0x7C1E1234]
    for place, port in enumerate(ports):
        machine.config(port, 0x10, PLACE + 0x20000 * place)
        machine.config(port, 0x14, PLACE + 0x20000 * place + 0x10000)
        machine.config(port, 0x04, 2)
    space = b"".join(machine.config(ports[0], offset).to_bytes(4, "little") for offset in range(0, 256, 4))
    with open(config, "w") as file:
        lines = [f"{at:02x}: {space[at : at + 16].hex(' ')}" for at in range(0, 256, 16)]
        print("00:02.0 memory", *lines, sep="\n", file=file)
    seen = [len(ports), machine.access(1, 0x40, 4)]
    machine.access(1, 0x40, 4, 7)
    machine.access(1, 0x41, 1, 0xAB)
    machine.access(2, 0x44, 2, 0x3344)
    seen += [machine.access(1, 0x40, 4), machine.access(2, 0x41, 2), machine.access(1, 0x44, 4)]
    print(*map("{:X}".format, seen))
    print(machine.atomic(2, ADD, 0x40, bytes([5, 0, 0, 0])))
    print(machine.atomic(1, SWAP, 0x40, bytes(range(8))))
    print(machine.atomic(2, CAS, 0x40, bytes([0xAA] * 16), bytes(range(8)) + bytes(8)))
    print(machine.atomic(1, ADD, 0x1000, bytes([5, 0, 0, 0])))
    print(machine.atomic(1, ADD, 0x42, bytes([5, 0, 0, 0])))
    print(*map("{:X}".format, [machine.access(1, 0x4C, 4), machine.access(2, 0x40, 1)]))
    # 8 bytes are two accesses of qtest.
    machine.call("writeq", PLACE + 0x80, 0x1122334455667788)
    machine.note(1, "write 80 F 0 88776655")
    machine.note(1, "write 84 F 0 44332211")
    print(f"{machine.call('readq', PLACE + 0x80):X}")
    machine.note(1, "read 80 1 F 0", "data 88776655")
    machine.note(1, "read 84 1 F 0", "data 44332211")
    # A reset, which ends QEMU with -no-reboot.
    print("outb", 0xCF9, 6, file=machine.stream, flush=True)


def main():
    log, config, *command = sys.argv[1:]
    with tempfile.TemporaryDirectory() as folder, socket.socket(socket.AF_UNIX) as listener:
        name = os.path.join(folder, "qtest")
        listener.bind(name)
        listener.listen()
        listener.settimeout(SECONDS)
        command += ["--", "qemu-system-x86_64", "-M", "pc,memory-backend=ram", "-m", "64M", "-nodefaults",
                    "-object", "memory-backend-memfd,id=ram,size=64M,share=on", "-accel", "tcg", "-S", "-no-reboot",
                    "-display", "none", "-qtest", f"unix:{name}", "-qtest-log", "/dev/null"]
        device = subprocess.Popen(command)
        try:
            connection = listener.accept()[0]
            connection.settimeout(SECONDS)
            machine = Machine(connection.makefile("rw"))
            drive(machine, config)
            with open(log, "w") as file:
                print("pciex-log 1", "memory 0 4096 64", *machine.lines, "end", sep="\n", file=file)
            return device.wait(SECONDS)
        finally:
            device.terminate()
            device.wait()


sys.exit(main())
