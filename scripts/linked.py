"""A peer for `pciex endpoint --link --crc`, over two pipes: linked.py PROGRAM [ADDITIONS [SEED]].

It knows the data link layer by the standard alone, and has a replay buffer, credits, Acks, Naks and CRCs of its own. The
wires between the two lose packets and DLLPs, flip bits and stop for a while. Some packets come nullified first, with EDB and
without it, and some DLLPs are of types that nobody reads. The peer adds 1 to one of 64 counters, by
FetchAdd, and writes to other places meanwhile: each completion must have the count so far. At the end each addition has to
have counted once, in the memory, which is read over the link, and in the trace, which has to be judged `ok` by
`check --clocked`. Prints the first thing that is wrong and fails, or prints what was done.
"""

import collections
import random
import subprocess
import sys

PROGRAM = sys.argv[1]
ADDITIONS = int(sys.argv[2]) if len(sys.argv) > 2 else 3000
SEED = int(sys.argv[3]) if len(sys.argv) > 3 else 1
SIZE, BASE, COUNTERS, WRITTEN = 16384, 0xFEDC0000, 64, 8192
LATENCY, REPLAY_TIME, REFRESH_TIME = 3, 12, 25  # ticks
POSTED, NON_POSTED, COMPLETION = range(3)
INIT1, INIT2, ACTIVE = range(3)


def remainder_of(data, reflected, ones):
    """The complemented remainder, bit by bit; bit 0 of each byte goes in first."""
    remainder = ones
    for byte in data:
        for bit in range(8):
            out = (remainder ^ byte >> bit) & 1
            remainder = remainder >> 1 ^ (reflected if out else 0)
    return remainder ^ ones


# The same byte by byte: the remainder after one byte.
LCRC = [remainder_of([byte], 0xEDB88320, 0) for byte in range(256)]


def with_crc(data, is_dllp):
    """The bytes with their CRC, whose lowest byte is sent first: of a DLLP two bytes, of a packet four."""
    if is_dllp:
        return data + remainder_of(data, 0xD008, 0xFFFF).to_bytes(2, "little")
    remainder = 2**32 - 1
    for byte in data:
        remainder = remainder >> 8 ^ LCRC[(remainder ^ byte) & 255]
    return data + (remainder ^ 2**32 - 1).to_bytes(4, "little")


def without_crc(data, is_dllp):
    """The bytes before the CRC, none if it is wrong."""
    front = data[:-2 if is_dllp else -4]
    return front if with_crc(front, is_dllp) == data else None


class Wires:
    """Both wires, whose items keep their order, and the ticks."""

    def __init__(self):
        self.items = {"device": collections.deque(), "peer": collections.deque()}
        self.now = self.stopped_until = self.lost = self.flipped = self.stops = 0

    def fail(self, what):
        sys.exit("linked: tick %d: %s (seed %d)" % (self.now, what, SEED))

    def wants(self, is_right, what):
        if not is_right:
            self.fail(what)

    def put(self, end, data, is_dllp):
        self.items[end].append((self.now + LATENCY, bytearray(data), is_dllp))

    def tick(self):
        self.now += 1
        self.wants(self.now < 1000 * ADDITIONS + 100000, "it takes too long")
        if random.randrange(3000) == 0 and self.now >= self.stopped_until:
            self.stopped_until = self.now + 100 + random.randrange(400)
            self.stops += 1

    def arrived(self, end):
        """What arrives now, as the wire left it."""
        items = self.items[end]
        while items and items[0][0] <= self.now:
            _, data, is_dllp = items.popleft()
            if self.now < self.stopped_until or random.randrange(20) == 0:
                self.lost += 1
                continue
            if random.randrange(20) == 0:  # a burst of at most 16 bits, of which the first is wrong
                bit = random.randrange(8 * len(data))
                burst = 1 | (random.randrange(65536) if random.randrange(3) == 0 else 0)
                for i in range(min(16, 8 * len(data) - bit)):
                    data[(bit + i) // 8] ^= (burst >> i & 1) << (bit + i) % 8
                self.flipped += 1
            yield bytes(data), is_dllp


class Device:
    """The program, with the timers that its physical layer and its owner have."""

    def __init__(self, wires, credits):
        self.wires = wires
        words = ["endpoint", "--link", "--crc", "--trace", "--size", str(SIZE), "--credits", ",".join(map(str, credits))]
        self.child = subprocess.Popen([PROGRAM, *words], stdin=subprocess.PIPE, stdout=subprocess.PIPE,
                                      stderr=subprocess.DEVNULL, bufsize=0)
        self.reader = open(self.child.stdout.fileno(), "rb", closefd=False)
        self.trips = self.replays = self.stopped = 0
        self.sent = self.acked = 4095
        self.replays_at = self.refreshes_at = 0
        self.became = collections.Counter()

    def ask(self, line):
        self.child.stdin.write(line.encode() + b"\n")
        self.trips += 1
        return self.reader.readline().decode().rstrip("\n")

    def expect(self, line, want):
        got = self.ask(line)
        self.wires.wants(got == want, "%s is answered by %s, and not by %s" % (line[:100], got[:100], want))

    def sends(self):
        for _ in range(3):
            kind, _, digits = self.ask("next").partition(" ")
            if kind == "-":
                return
            data = bytes.fromhex(digits)
            if kind == "packet":
                if self.sent == self.acked:
                    self.replays_at = self.wires.now + REPLAY_TIME
                self.sent = int.from_bytes(data[:2], "big")
            self.wires.put("peer", data, kind == "dllp")

    def receives(self):
        for data, is_dllp in self.wires.arrived("device"):
            if not is_dllp:
                self.nullified(data)
                answer = self.ask("packet " + data.hex())
                self.wires.wants(answer in ("accept", "duplicate", "nak", "quiet"), "a packet is answered by " + answer)
                self.became[answer] += 1
                continue
            answer = self.ask("dllp " + data.hex())
            self.wires.wants(answer in ("took", "gone"), "a DLLP is answered by " + answer)
            if answer == "took" and data[0] in (0x00, 0x10):
                number = data[2] % 16 * 256 + data[3]
                if number != self.acked:
                    self.acked, self.replays_at = number, self.wires.now + REPLAY_TIME

    def nullified(self, data):
        """Now and then a good packet comes with its LCRC inverted first. Without EDB that is a failed check."""
        if random.randrange(10) or without_crc(data, False) is None:
            return
        edb = random.choice((" edb", ""))
        answer = self.ask("packet " + data[:-4].hex() + bytes(255 - byte for byte in data[-4:]).hex() + edb)
        self.wires.wants(answer in (("gone",) if edb else ("nak", "quiet")), "a nullified packet is answered by " + answer)
        self.became["gone" if edb else answer] += 1

    def timers(self):
        if self.wires.now >= self.refreshes_at:
            self.expect("refresh", "refresh")
            self.refreshes_at = self.wires.now + REFRESH_TIME
        if self.sent != self.acked and self.wires.now >= self.replays_at:
            self.replays += 1
            self.replays_at = self.wires.now + REPLAY_TIME
            if self.ask("replay") == "retrain":
                self.wires.wants(self.ask("state").startswith("stopped "), "a stopped sender has another state")
                self.stopped += 1
                self.expect("retrained", "retrained")

    def trace(self):
        self.child.stdin.write(b"trace\n")
        lines = []
        while not lines or lines[-1] != b"end\n":
            lines.append(self.reader.readline())
            self.wires.wants(lines[-1], "the trace has no end")
        return lines

    def close(self):
        self.child.stdin.close()
        self.wires.wants(self.child.wait() == 0, "the exit status is %d" % self.child.returncode)


def kind_of(tlp):
    """The class of a TLP, by its Fmt and Type."""
    kind = tlp[0] % 32
    return COMPLETION if kind == 10 else POSTED if kind == 0 and tlp[0] & 0x40 else NON_POSTED


def units_of(tlp):
    """Its data units, by its Fmt and Length."""
    return (tlp[2] % 4 * 256 + tlp[3] + 3) // 4 if tlp[0] & 0x40 else 0


class Peer:
    """The other end of the link. It hands up each packet that it accepts."""

    FIRST = ((4, 16), (4, 4), (5, 20))  # what it advertises; completions are counted

    def __init__(self, wires, credits, owner):
        self.wires, self.owner = wires, owner
        self.given = ((credits[0], credits[1]), (credits[2], credits[3]), (0, 0))
        self.state, self.heard = INIT1, set()
        self.limit, self.used = [[0, 0] for _ in range(3)], [[0, 0] for _ in range(3)]
        self.buffer = collections.deque()  # number and bytes of what is unacknowledged, oldest first
        self.place = self.next_number = self.replays_at = 0
        self.wanted, self.ack, self.nak, self.nak_scheduled, self.update = 0, False, False, False, False
        self.freed, self.received = [0, 0], [0, 0]
        self.refreshes_at = self.inits_at = 0
        self.entered = self.accepted = self.replays = self.naks = self.duplicates = 0
        self.last = {}  # by number: what was accepted last under it

    def dllp(self, *data):
        self.wires.put("device", with_crc(bytes(data), True), True)

    def flow_control(self, code, kind, headers, units):
        headers, units = headers % 256, units % 4096
        self.dllp(code + 16 * kind, headers >> 2, (headers & 3) << 6 | units >> 8, units & 255)

    def may_enter(self, tlp):
        """Whether the device's credits and the replay buffer have space for it."""
        kind = kind_of(tlp)
        left = [(self.limit[kind][i] - self.used[kind][i]) % (256, 4096)[i] for i in (0, 1)]
        return self.state == ACTIVE and len(self.buffer) < 60 and left[0] >= 1 and left[1] >= units_of(tlp)

    def enter(self, tlp):
        kind = kind_of(tlp)
        self.used[kind][0] += 1
        self.used[kind][1] += units_of(tlp)
        self.buffer.append((self.next_number, with_crc(self.next_number.to_bytes(2, "big") + tlp, False)))
        self.next_number = (self.next_number + 1) % 4096
        self.entered += 1

    def replay(self):
        """REPLAY_TIMER or a Nak: from the oldest."""
        self.place, self.replays_at = 0, self.wires.now + REPLAY_TIME
        self.replays += 1

    def acknowledged(self, number, is_nak):
        oldest = (self.next_number - len(self.buffer)) % 4096
        count = (number + 1 - oldest) % 4096
        self.wires.wants(count <= len(self.buffer), "an Ack or a Nak of a packet that isn't outstanding")
        for _ in range(count):
            self.buffer.popleft()
        self.place = max(self.place - count, 0)
        if count:
            self.replays_at = self.wires.now + REPLAY_TIME
        if is_nak:
            self.naks += 1
            self.replay()

    def hears(self, data):
        number, code = data[2] % 16 * 256 + data[3], data[0] & 0xC0
        if data[0] in (0x00, 0x10):
            return self.acknowledged(number, data[0] == 0x10)
        kind, headers = data[0] >> 4 & 3, data[1] * 4 + (data[2] >> 6)
        self.wires.wants(data[0] & 15 == 0 and kind < 3 and code, "a DLLP of another type")
        if code == 0x80 and self.state != INIT1:
            self.wires.wants(kind != COMPLETION, "an update of infinite credits")
            unused = ((headers - self.used[kind][0]) % 256, (number - self.used[kind][1]) % 4096)
            self.wires.wants(unused[0] <= self.given[kind][0] and unused[1] <= self.given[kind][1],
                             "more credits than were advertised")
            self.limit[kind], self.state = [headers, number], ACTIVE
        elif code != 0x80 and self.state == INIT1:
            self.wires.wants((headers, number) == self.given[kind], "an InitFC of other credits")
            self.limit[kind] = [headers, number]
            self.heard.add(kind)
            if len(self.heard) == 3:
                self.state, self.inits_at = INIT2, self.wires.now
        elif code == 0xC0 and self.state == INIT2:
            self.state = ACTIVE

    def packet(self, data):
        """A packet, without its LCRC; none if that is wrong."""
        if self.state == INIT1:
            return
        number = None if data is None else data[0] % 16 * 256 + data[1]
        if number is not None and 0 < (self.wanted - number) % 4096 <= 2048:
            self.wires.wants(data == self.last.get(number), "a replayed packet isn't the one that was accepted")
            self.duplicates += 1
            self.ack = True
        elif number != self.wanted:
            self.nak = self.nak or not self.nak_scheduled
            self.nak_scheduled = True
        else:
            self.accept(number, data)

    def accept(self, number, data):
        self.state = ACTIVE
        self.nak = self.nak_scheduled = False
        self.ack = self.update = True
        self.wanted = (number + 1) % 4096
        self.accepted += 1
        self.last[number] = data
        tlp = data[2:]
        self.wires.wants(kind_of(tlp) == COMPLETION, "the device sends a request")
        self.received = [self.received[0] + 1, self.received[1] + units_of(tlp)]
        self.wires.wants(all(self.received[i] <= self.FIRST[COMPLETION][i] + self.freed[i] for i in (0, 1)),
                         "the device sends more than the peer's credits")
        self.owner.completed(tlp)
        self.freed = list(self.received)

    def receives(self):
        for data, is_dllp in self.wires.arrived("peer"):
            data = without_crc(data, is_dllp)
            if not is_dllp:
                self.packet(data)
            elif data is not None:
                self.hears(data)

    def sends(self):
        if self.state != ACTIVE:
            if self.wires.now >= self.inits_at:
                for kind, (headers, units) in enumerate(self.FIRST):
                    self.flow_control(0x40 if self.state == INIT1 else 0xC0, kind, headers, units)
                self.inits_at = self.wires.now + REFRESH_TIME
            return
        if self.nak or self.ack:
            number = (self.wanted - 1) % 4096
            self.dllp(0x10 if self.nak else 0x00, 0, number >> 8, number & 255)
            self.nak = self.ack = False
        if self.update:
            first = self.FIRST[COMPLETION]
            self.flow_control(0x80, COMPLETION, first[0] + self.freed[0], first[1] + self.freed[1])
            self.update = False
        if random.randrange(20) == 0:  # feature exchange, power management, vendor, NOP, another virtual channel
            self.dllp(random.choice((0x02, 0x20, 0x24, 0x30, 0x31, 0x81)), *random.randbytes(3))
        if self.place < len(self.buffer):
            if self.place == 0:
                self.replays_at = self.wires.now + REPLAY_TIME
            self.wires.put("device", self.buffer[self.place][1], False)
            self.place += 1

    def timers(self):
        if self.state == ACTIVE and self.wires.now >= self.refreshes_at:
            self.ack = self.update = True
            self.refreshes_at = self.wires.now + REFRESH_TIME
        if self.buffer and self.wires.now >= self.replays_at:
            self.replay()


class RootComplex:
    """What is asked, and what has to be answered."""

    def __init__(self, credits):
        self.wires = Wires()
        self.device, self.peer = Device(self.wires, credits), Peer(self.wires, credits, self)
        self.memory, self.waiting = bytearray(SIZE), collections.deque()
        self.tag = self.additions = self.set_up = self.read_bytes = 0

    def completed(self, tlp):
        self.wires.wants(self.waiting, "a completion that nobody asked for")
        tag, data, count = self.waiting.popleft()
        head = bytes([0x4A if data else 0x0A, 0, 0, len(data) // 4])
        self.wires.wants(tlp[:4] == head and tlp[10] == tag and tlp[12:] == data, "another completion")
        self.wires.wants(tlp[6:8] == count.to_bytes(2, "big"), "another status or Byte Count")

    def enters(self, kind, dw, enables, address, data=b""):
        """A request with a header of 3 DW, if there is space."""
        tag = (self.tag + 1) % 256
        tlp = bytes([kind, 0, dw >> 8 & 3, dw & 255, 0, 8, tag, enables]) + address.to_bytes(4, "big") + data
        if not self.peer.may_enter(tlp):
            return False
        self.tag = tag
        self.peer.enter(tlp)
        return True

    def configure(self):
        register, enables, value = ((0x10, 15, BASE), (0x14, 15, 0), (0x04, 1, 2))[self.set_up]
        if self.enters(0x44, 1, enables, 1 << 24 | register, value.to_bytes(4, "little")):
            self.waiting.append((self.tag, b"", 4))
            self.set_up += 1

    def add(self):
        place = 4 * random.randrange(COUNTERS)
        if self.enters(0x4C, 1, 0, BASE + place, b"\1\0\0\0"):
            old = bytes(self.memory[place:place + 4])
            self.waiting.append((self.tag, old, 4))
            self.memory[place:place + 4] = (int.from_bytes(old, "little") + 1).to_bytes(4, "little")
            self.additions += 1

    def write(self):
        """Of 1 to 32 DW, maybe across a block, inside 4096 bytes."""
        dw = random.randint(1, 32)
        place = WRITTEN + 4096 * random.randrange((SIZE - WRITTEN) // 4096) + 4 * random.randrange(1024 - dw)
        data = random.randbytes(4 * dw)
        if self.enters(0x40, dw, 15 if dw == 1 else 255, BASE + place, data):
            self.memory[place:place + 4 * dw] = data

    def read(self):
        """Of 4096 bytes, which are completed block by block."""
        place = self.read_bytes
        if self.enters(0x00, 1024, 255, BASE + place):
            for done in range(0, 4096, 128):
                self.waiting.append((self.tag, bytes(self.memory[place + done:place + done + 128]), (4096 - done) % 4096))
            self.read_bytes += 4096

    def asks(self):
        if self.set_up < 3:
            self.configure()
        elif self.additions < ADDITIONS:
            (self.write if random.randrange(6) == 0 else self.add)()
        elif self.read_bytes < SIZE:
            self.read()

    def run(self):
        self.device.expect("up", "up")
        while self.read_bytes < SIZE or self.waiting:
            self.wires.tick()
            self.asks()
            self.peer.sends()
            self.device.sends()
            self.device.receives()
            self.peer.receives()
            self.peer.timers()
            self.device.timers()

    def judged(self):
        """The trace: each addition counts once there, too."""
        lines = self.device.trace()
        self.device.close()
        judge = subprocess.run([PROGRAM, "check", "--clocked"], input=b"".join(lines), capture_output=True)
        self.wires.wants(judge.stdout == b"ok\n" and judge.returncode == 0, "check says %s to the trace" % judge.stdout.decode())
        counts = collections.Counter(line.split()[4] for line in lines if line.startswith(b"ent") and line.split()[3] == b"add")
        self.wires.wants(sum(counts.values()) == ADDITIONS, "the history has %d additions" % sum(counts.values()))
        for place in range(0, 4 * COUNTERS, 4):
            count = int.from_bytes(self.memory[place:place + 4], "little")
            self.wires.wants(counts[b"%X" % place] == count, "counter %d has %d in the history" % (place // 4, count))
        return len(lines)

    def was_disturbed(self):
        wires, peer, device = self.wires, self.peer, self.device
        wires.wants(device.became["accept"] == peer.entered, "a packet is accepted twice, or never")
        wires.wants(peer.entered > 4096 or ADDITIONS < 3000, "the numbers didn't wrap")
        wires.wants(wires.lost > 100 and wires.flipped > 100 and wires.stops > 0, "the wires were too good")
        wires.wants(peer.replays and device.replays and peer.naks and device.stopped, "nothing was replayed")
        wires.wants(peer.duplicates and device.became["duplicate"], "nothing came twice")
        wires.wants(device.became["nak"] and device.became["quiet"], "nothing was out of order")


def main():
    random.seed(SEED)
    trips = lines = 0
    for credits in ((16, 64, 16, 16), (1, 8, 1, 2)):
        root = RootComplex(credits)
        root.run()
        root.was_disturbed()
        lines += root.judged()
        trips += root.device.trips
    print("linked: %d additions over bad wires, each counts once: %d lines answered, traces of %d lines judged ok"
          % (2 * ADDITIONS, trips, lines))


main()
