"""A root complex of its own for `pciex endpoint`, over two pipes: endpoint.py PROGRAM [REQUESTS [SEED]].

Finds the function, walks its capabilities, sizes and assigns BAR 0, enables memory, and sends random requests, of which
some wait together. A model that shares no code with the program says each answer, and what `trace` prints has to be judged
`ok`, and to leave the bytes of the model. Prints the first line that differs and fails, or prints how many were answered.
"""

import collections
import random
import subprocess
import sys

PROGRAM = sys.argv[1]
REQUESTS = int(sys.argv[2]) if len(sys.argv) > 2 else 10000
SEED = int(sys.argv[3]) if len(sys.argv) > 3 else 1
SIZE = 65536
BLOCK = 128
COMMAND, BAR, BAR_HIGH, POWER, DEVICE = 0x004, 0x010, 0x014, 0x044, 0x058
# Offset: value after a reset, bits that a write sets, bits that a 1 clears.
REGISTERS = {
    0x000: (0x7C1E1234, 0, 0), COMMAND: (0x00100000, 0x142, 0xF9000000), 0x008: (0x05000001, 0, 0), 0x00C: (0, 0xFF, 0),
    BAR: (0xC, 2**32 - SIZE, 0), BAR_HIGH: (0, 2**32 - 1, 0), 0x02C: (0x7C1E1234, 0, 0), 0x034: (0x40, 0, 0),
    0x03C: (0, 0xFF, 0), 0x040: (0x00035001, 0, 0), POWER: (0x8, 0x3, 0), 0x050: (0x00020010, 0, 0),
    0x054: (0x8000, 0, 0), DEVICE: (0, 0xF, 0xF0000), 0x05C: (0x00400011, 0, 0), 0x060: (0x00110000, 0xC3, 0),
    0x074: (0x380, 0, 0), 0x07C: (0x2, 0, 0),
}
# What sets which bits: Unsupported Request is bit 19, Fatal 18, Non-Fatal 17, Correctable and advisory errors 16.
PARITY, FATAL, DROPPED, ADVISORY = (COMMAND, 1 << 31), (DEVICE, 1 << 18), (DEVICE, 1 << 17), (DEVICE, 1 << 16)
REFUSED, UNCLAIMED = (DEVICE, 1 << 19 | 1 << 16), (DEVICE, 1 << 19 | 1 << 17)
POISONED, TENTH_TAG_BITS, LN, TH = 0x40, 0x88, 2, 1
FIRST, LAST = (0xF, 0xE, 0xC, 0x8), (0xF, 0x7, 0x3, 0x1)


def span(dw, first, last):
    """The first byte that is enabled, and how many there are from it to the last; 1 if none is."""
    enabled = [at for at in range(4 * dw) if (first if at < 4 else last if at >= 4 * dw - 4 else 15) >> at % 4 & 1]
    return (enabled[0], enabled[-1] - enabled[0] + 1) if enabled else (0, 1)


class Tlp:
    """A request, as its fields."""

    def __init__(self, kind, address=0, data=b"", dw=None, first=15, last=None, tag=0, requester=8, tc=0, attr=0, flags=0):
        self.hints, self.steering = 0, None
        self.kind, self.address, self.data, self.tag, self.requester = kind, address, data, tag, requester
        self.dw = len(data) // 4 if dw is None else dw
        self.first, self.last = first, (0 if self.dw == 1 or kind & 0xC else 15) if last is None else last
        self.tc, self.attr, self.flags = tc, attr, flags

    def bytes(self):
        long = self.address >= 2**32
        head = bytes([self.kind | long << 5, self.tc << 4 | self.attr >> 2 << 2 | self.hints,
                      self.flags | (self.attr & 3) << 4 | self.dw >> 8 & 3, self.dw & 255])
        enables = self.last << 4 | self.first if self.steering is None else self.steering
        head += self.requester.to_bytes(2, "big") + bytes([self.tag, enables])
        return head + self.address.to_bytes(8 if long else 4, "big") + self.data

    def completion(self, completer, status, count, lower=0, data=b""):
        return (bytes([0x4A if data else 0x0A, self.tc << 4 | self.attr >> 2 << 2, (self.attr & 3) << 4 | len(data) // 4 >> 8,
                       len(data) // 4 & 255]) + completer.to_bytes(2, "big")
                + bytes([status << 5 | count % 4096 >> 8, count & 255]) + self.requester.to_bytes(2, "big")
                + bytes([self.tag, lower]) + data)


class Model:
    """What the device has to do."""

    def __init__(self):
        self.memory, self.waiting = bytearray(SIZE), collections.deque()
        self.reset()

    def reset(self):
        self.registers = {offset: register[0] for offset, register in REGISTERS.items()}
        self.completer = 0
        self.waiting.clear()

    def note(self, error):
        self.registers[error[0]] |= error[1]

    def offset(self, address, count):
        """Of the place in the memory, if the BAR claims it."""
        base = self.registers[BAR_HIGH] << 32 | self.registers[BAR] & 2**32 - 16
        on = self.registers[COMMAND] & 2 and not self.registers[POWER] & 3
        return address - base if on and base <= address and address + count <= base + SIZE else None

    def write(self, offset, enables, value):
        reset, written, cleared = REGISTERS.get(offset, (0, 0, 0))
        lanes = sum(255 << 8 * i for i in range(4) if enables >> i & 1)
        old = self.registers.get(offset, 0)
        if offset == POWER and value & 3 in (1, 2):
            written &= ~3
        new = old & ~(written & lanes) | value & written & lanes
        if offset in REGISTERS:
            self.registers[offset] = new & ~(value & cleared & lanes)

    def take(self, tlp):
        """What is answered to the request."""
        poisoned = tlp.flags & POISONED and tlp.data
        if poisoned:
            self.note(PARITY)
        if tlp.kind != 0x40:
            self.waiting.append([tlp, 0])
            return "accept"
        offset = self.offset(tlp.address, len(tlp.data))
        if poisoned or offset is None:
            self.note(UNCLAIMED if offset is None else DROPPED)
            return "accept Unsupported"
        for at, byte in enumerate(tlp.data):
            enables = tlp.first if at < 4 else tlp.last if at >= len(tlp.data) - 4 else 15
            if enables >> at % 4 & 1:
                self.memory[offset + at] = byte
        return "accept"

    def next(self):
        """The next completion; none if nothing waits."""
        if not self.waiting:
            return None
        tlp, done = self.waiting[0]
        if tlp.kind == 0x00:
            return self.read(tlp, done)
        self.waiting.popleft()
        if tlp.flags & POISONED and tlp.data:
            return self.refuse_poisoned(tlp)
        if tlp.kind in (0x04, 0x44, 0x05, 0x45):
            return self.configure(tlp)
        offset = self.offset(tlp.address, len(tlp.data))
        if tlp.kind in (0x02, 0x42) or offset is None:
            self.note(REFUSED)
            return tlp.completion(self.completer, 1, 4)
        return self.exchange(tlp, offset)

    def refuse_poisoned(self, tlp):
        """An AtomicOp, or a write of a register or of I/O."""
        if tlp.kind & 0xC == 0xC:
            supported = self.offset(tlp.address, len(tlp.data)) is not None
        else:
            supported = tlp.kind == 0x44 and not tlp.address >> 16 & 7
        self.note(ADVISORY if supported else REFUSED)
        return tlp.completion(self.completer, 1, 4)

    def configure(self, tlp):
        register, target = tlp.address & 0xFFC, tlp.address >> 16
        if tlp.kind & 1 or target & 7:
            self.note(REFUSED)
            return tlp.completion(self.completer, 1, 4)
        if tlp.kind == 0x04:
            value = self.registers.get(register, 0)
            return tlp.completion(self.completer, 0, 4, data=value.to_bytes(4, "little"))
        self.write(register, tlp.first, int.from_bytes(tlp.data, "little"))
        self.completer = target
        return tlp.completion(self.completer, 0, 4)

    def read(self, tlp, done):
        """One block of 128 bytes."""
        lead, count = span(tlp.dw, tlp.first, tlp.last)
        offset = self.offset(tlp.address, 4 * tlp.dw)
        if offset is None:
            self.waiting.popleft()
            self.note(REFUSED)
            return tlp.completion(self.completer, 1, count)
        start = tlp.address + done
        stop = min((start // BLOCK + 1) * BLOCK, tlp.address + 4 * tlp.dw)
        data = bytearray(self.memory[offset + done:offset + stop - tlp.address])
        for at in range(len(data)):
            place = done + at
            enables = tlp.first if place < 4 else tlp.last if place >= 4 * tlp.dw - 4 else 15
            if not enables >> place % 4 & 1:
                data[at] = 0
        self.waiting[0][1] = stop - tlp.address
        if stop == tlp.address + 4 * tlp.dw:
            self.waiting.popleft()
        left = count - (done - lead) if done else count
        return tlp.completion(self.completer, 0, left, (start % BLOCK if done else start % BLOCK + lead), bytes(data))

    def exchange(self, tlp, offset):
        """An AtomicOp."""
        size = len(tlp.data) // (2 if tlp.kind == 0x4E else 1)
        old = bytes(self.memory[offset:offset + size])
        new = tlp.data[:size]
        if tlp.kind == 0x4C:
            new = ((int.from_bytes(old, "little") + int.from_bytes(new, "little")) % 2**(8 * size)).to_bytes(size, "little")
        elif tlp.kind == 0x4E:
            new = tlp.data[size:] if old == new else old
        self.memory[offset:offset + size] = new
        return tlp.completion(self.completer, 0, size, data=old)


class RootComplex:
    """The program, and the model of it."""

    def __init__(self, *words):
        self.child = subprocess.Popen([PROGRAM, "endpoint", "--size", str(SIZE), *words], stdin=subprocess.PIPE,
                                      stdout=subprocess.PIPE, stderr=subprocess.DEVNULL, bufsize=0)
        self.printed, self.trips, self.model, self.tag = self.child.stdout, 0, Model(), 0
        self.reader = open(self.printed.fileno(), "rb", closefd=False)

    def ask(self, line):
        self.child.stdin.write(line.encode() + b"\n")
        self.trips += 1
        return self.reader.readline().decode().rstrip("\n")

    def expect(self, line, want):
        got = self.ask(line)
        if got != want:
            sys.exit("endpoint: %s is answered by %s, and not by %s (seed %d)" % (line[:100], got[:100], want[:100], SEED))

    def send(self, tlp):
        self.expect("tlp " + tlp.bytes().hex(), self.model.take(tlp))

    def fetch(self):
        """One completion."""
        want = self.model.next()
        groups = want and want.hex().upper()
        self.expect("next", "-" if want is None else "tlp " + " ".join(groups[i:i + 8] for i in range(0, len(groups), 8)))
        return want

    def fetch_all(self):
        last = None
        while self.model.waiting:
            last = self.fetch()
        self.fetch()
        return last

    def next_tag(self):
        self.tag = (self.tag + 1) % 256
        return self.tag

    def configuration(self, kind, register, value=None, enables=15, function=0x0100):
        data = b"" if value is None else value.to_bytes(4, "little")
        self.send(Tlp(kind, function << 16 | register, data, 1, enables, 0, self.next_tag()))

    def read_register(self, register):
        self.configuration(0x04, register)
        return int.from_bytes(self.fetch_all()[12:], "little")

    def write_register(self, register, value, enables=15):
        self.configuration(0x44, register, value, enables)
        self.fetch_all()

    def bring_up(self, base):
        """Enumeration, and the BAR."""
        assert self.read_register(0x000) == 0x7C1E1234 and self.read_register(0x00C) >> 16 & 255 == 0
        found, pointer = [], self.read_register(0x034) & 255
        while pointer:
            head = self.read_register(pointer)
            found.append(head & 255)
            pointer = head >> 8 & 255
        assert found == [0x01, 0x10]
        self.write_register(BAR, 2**32 - 1)
        self.write_register(BAR_HIGH, 2**32 - 1)
        low, high = self.read_register(BAR), self.read_register(BAR_HIGH)
        assert low & 15 == 12 and 2**64 - (high << 32 | low & 2**32 - 16) == SIZE
        self.write_register(BAR, base & 2**32 - 1)
        self.write_register(BAR_HIGH, base >> 32)
        self.write_register(COMMAND, 2, 1)
        self.base = base

    def enables(self, dw):
        if dw == 1:
            return random.randrange(16), 0
        return random.choice(FIRST), random.choice(LAST)

    def request(self, base):
        """A random memory request."""
        fields = {"tag": self.next_tag(), "requester": random.choice((8, 0x10F8)), "tc": random.randrange(8),
                  "attr": random.randrange(8)}
        kind = random.choice((0x00, 0x00, 0x40, 0x40, 0x4C, 0x4D, 0x4E))
        if kind in (0x00, 0x40):
            dw = min(int(2**random.uniform(0, 10.1)), 1024) if kind == 0x00 else random.randint(1, 32)
            page = random.randrange(SIZE // 4096) * 4096
            offset = page + 4 * random.randrange((4096 - 4 * dw) // 4 + 1)
            first, last = self.enables(dw)
            data = random.randbytes(4 * dw) if kind == 0x40 else b""
            return Tlp(kind, base + offset, data, dw, first, last, **fields)
        size = random.choice((4, 8, 16) if kind == 0x4E else (4, 8))
        offset = random.randrange(SIZE // size // 64) * size
        data = random.randbytes(size)
        if kind == 0x4E:
            compare = bytes(self.model.memory[offset:offset + size]) if random.random() < 0.7 else data
            data = compare + random.randbytes(size)
        return Tlp(kind, base + offset, data, None, 0, 0, **fields)

    def accesses(self, count):
        for _ in range(count):
            self.send(self.request(self.base))
            if random.random() < 0.7:
                self.fetch_all()
            elif random.random() < 0.5:
                self.fetch()
        self.fetch_all()

    def refused(self):
        """A request that nobody claims."""
        way = random.randrange(5)
        if way == 0:
            self.send(self.request(self.base + SIZE if random.random() < 0.5 else self.base ^ 1 << 40))
        elif way == 1:
            kind = random.choice((0x05, 0x45))
            self.configuration(kind, 0x10, None if kind == 0x05 else 0, function=0x200)
        elif way == 2:
            self.configuration(0x04, 0x10, function=0x100 | random.randint(1, 7))
        elif way == 3:
            self.send(Tlp(0x02, 0x1000, dw=1, tag=self.next_tag()))
        else:
            self.send(Tlp(0x42, 0x1000, random.randbytes(4), tag=self.next_tag()))
        self.fetch_all()

    def poisoned(self):
        """A poisoned request, whose bits of Device Status are read alone."""
        self.write_register(DEVICE, 0xF0000)
        tlp = random.choice((
            self.request(self.base), self.request(self.base + SIZE), Tlp(0x44, random.choice((0x100, 0x101)) << 16 | BAR, bytes(4), tag=self.next_tag()),
            Tlp(0x42, 0x1000, random.randbytes(4), tag=self.next_tag()),
        ))
        tlp.flags = POISONED
        self.send(tlp)
        self.fetch_all()
        self.read_register(DEVICE)

    def with_hints(self):
        """Bits that a receiver ignores; a read with TH has a Steering Tag in place of its enables."""
        tlp = self.request(self.base)
        tlp.hints = random.choice((0, TENTH_TAG_BITS)) | random.choice((0, LN)) | random.choice((0, TH))
        if tlp.kind == 0x00 and tlp.hints & TH:
            tlp.first, tlp.last, tlp.steering = 15, 15 if tlp.dw > 1 else 0, random.randrange(256)
        self.send(tlp)
        self.fetch_all()

    def with_digest(self):
        tlp = self.request(self.base)
        want = self.model.take(tlp)
        tlp.flags = 0x80
        self.expect("tlp " + (tlp.bytes() + random.randbytes(4)).hex(), want)
        tlp.flags = 0
        self.fetch_all()

    def malformed(self):
        base = self.base.to_bytes(8, "big").hex()
        line, name = random.choice((
            ("20000001", "Short"), ("80000001 0008000F 00000000 00000000", "Prefix"), ("01000001 0008000F 00000000", "Kind"),
            ("20000401 0008000F " + base, "Translated"), ("60000002 000800FF " + base + "00000000", "LengthMismatch"),
            ("60000021 000800FF " + base + "00" * 132, "PayloadTooLong"), ("20000002 0008000F " + base, "ByteEnables"),
            ("6C000003 00080000 " + base + "00" * 12, "OperandSize"),
            ("6C000002 00080000 " + base[:-2] + "04" + "00" * 8, "Unaligned"),
            ("20000002 000800FF " + base[:-3] + "FFC", "Boundary"), ("04000001 000800FF 01000000", "Fields"),
            ("04000002 0008000F 01000000", "LengthMismatch"), ("", "Short"), ("00" * 149, "PayloadTooLong"),
        ))
        self.model.note(FATAL)
        self.expect("tlp " + line, "accept Malformed " + name)

    def others(self):
        """TLPs that have no completion."""
        line, answer = random.choice((
            ("74000001 00000050 00000000 00000000 19000000", "Ignored"), ("34000000 0000007F 00000000 00000000", "Ignored"),
            ("33000000 00000000 00000000 00000000", "Ignored"), ("34000000 00000014 00000000 00000000", "Unsupported"),
            ("4A000001 00000004 00086300 34121E7C", "Unexpected"), ("4B000001 00000004 00086300 34121E7C", "Unexpected"),
            ("0B000000 00002004 00086300", "Unexpected"),
        ))
        if answer in ("Unsupported", "Unexpected"):
            self.model.note(UNCLAIMED if answer == "Unsupported" else ADVISORY)
        self.expect("tlp " + line, "accept " + answer)

    def in_d3hot(self):
        self.write_register(POWER, random.choice((1, 2)))
        assert self.read_register(POWER) & 3 == 0
        self.write_register(POWER, 3)
        for _ in range(5):
            self.send(self.request(self.base))
            self.fetch_all()
        self.write_register(POWER, 0)

    def disturbances(self, count):
        for _ in range(count):
            random.choice((self.refused, self.poisoned, self.with_hints, self.with_digest, self.malformed, self.others))()
            if random.random() < 0.05:
                self.in_d3hot()
            if random.random() < 0.1:
                self.accesses(2)
            if random.random() < 0.1:
                for register in (COMMAND, DEVICE):
                    self.read_register(register)
                self.write_register(*random.choice(((COMMAND, 0x80000002), (DEVICE, 0xF0000))))

    def resets(self):
        """The memory stays, and what waits is dropped."""
        self.send(Tlp(0x00, self.base, dw=1024))
        self.fetch()
        self.model.reset()
        self.expect("reset", "reset")
        self.fetch()
        self.bring_up(0xFEDC0000)
        self.accesses(50)

    def reads_all(self):
        for page in range(0, SIZE, 4096):
            self.send(Tlp(0x00, self.base + page, dw=1024))
        self.fetch_all()
        for offset in range(0, 0x200, 4):
            self.configuration(0x04, offset >> 8 << 8 | offset & 0xFC)
        self.fetch_all()

    def trace(self):
        self.child.stdin.write(b"trace\n")
        lines = []
        while not lines or lines[-1] != b"end\n":
            lines.append(self.reader.readline())
            if not lines[-1]:
                sys.exit("endpoint: the trace has no end")
        return lines

    def close(self):
        self.child.stdin.close()
        if self.child.wait() != 0:
            sys.exit("endpoint: the exit status is %d" % self.child.returncode)


def left_by(lines):
    """The bytes that the history of a trace makes."""
    memory = bytearray(SIZE)
    for line in lines:
        words = line.decode().split()
        if words[0] != "ent" or words[3] == "read":
            continue
        at, data = int(words[4], 16), bytes.fromhex(words[-1])
        old = bytes(memory[at:at + len(data)])
        if words[3] == "write":
            first, last = int(words[5], 16), int(words[6], 16)
            for i, byte in enumerate(data):
                if (first if i < 4 else last if i >= len(data) - 4 else 15) >> i % 4 & 1:
                    memory[at + i] = byte
        elif words[3] == "add":
            total = int.from_bytes(old, "little") + int.from_bytes(data, "little")
            memory[at:at + len(data)] = (total % 2**(8 * len(data))).to_bytes(len(data), "little")
        elif words[3] == "swap" or old == bytes.fromhex(words[5]):
            memory[at:at + len(data)] = data
    return memory


def main():
    random.seed(SEED)
    root = RootComplex()
    root.bring_up(0x2F0FEDC0000)
    root.accesses(REQUESTS)
    root.disturbances(REQUESTS // 10)
    root.resets()
    root.reads_all()
    root.close()
    traced = RootComplex("--trace")
    traced.bring_up(0x2F0FEDC0000)
    traced.accesses(REQUESTS // 10)
    traced.disturbances(REQUESTS // 50)
    traced.resets()
    traced.reads_all()
    lines = traced.trace()
    traced.close()
    judge = subprocess.run([PROGRAM, "check", "--clocked"], input=b"".join(lines), capture_output=True)
    if judge.stdout != b"ok\n":
        sys.exit("endpoint: check says %s to the trace (seed %d)" % (judge.stdout.decode().strip(), SEED))
    if left_by(lines) != traced.model.memory:
        sys.exit("endpoint: the history of the trace leaves other bytes (seed %d)" % SEED)
    print("endpoint: %d lines answered as a root complex of its own expects, a trace of %d lines judged ok"
          % (root.trips + traced.trips, len(lines)))


main()
