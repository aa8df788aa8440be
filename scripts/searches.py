"""Judges `pciex search` by all histories there are, and by a device with planted defects: searches.py PROGRAM [FOLDER].

It knows the memory, logs and histories by their definitions in docs/, and uses nothing of the program's code. The logs
are the same in each run. With a FOLDER the logs are written there, and nothing is run.
"""

import os
import re
import subprocess
import sys

SIZE = 128
BLOCK = 64
HEAD = "pciex-log 1\nmemory 0 %d %d\n" % (SIZE, BLOCK)
SMALL_LOGS = 500
DEVICE_LOGS = 16
# Enough for each of these logs.
LIMIT = "200000"


class Random:
    """Random numbers of its own, so that each version of Python draws the same logs."""

    def __init__(self, seed):
        self.state = seed * 2654435761 % (1 << 64) + 1

    def below(self, n):
        self.state ^= self.state << 13 & 0xFFFFFFFFFFFFFFFF
        self.state ^= self.state >> 7
        self.state ^= self.state << 17 & 0xFFFFFFFFFFFFFFFF
        return (self.state >> 16) % n

    def between(self, least, most):
        return least + self.below(most - least + 1)

    def once_in(self, n):
        return self.below(n) == 0

    def of(self, choices):
        return choices[self.below(len(choices))]


# ---- the sequential memory


class Op:
    """An operation: its kind, its address, its size in bytes, its byte enables and its operands."""

    def __init__(self, kind, address, size, first=15, last=0, data=b"", compare=b""):
        self.kind, self.address, self.size = kind, address, size
        self.first, self.last, self.data, self.compare = first, last, data, compare

    def text(self):
        if self.kind == "read":
            return "read %X %d %X %X" % (self.address, self.size // 4, self.first, self.last)
        if self.kind == "write":
            return "write %X %X %X %s" % (self.address, self.first, self.last, shown(self.data))
        if self.kind == "cas":
            return "cas %X %s %s" % (self.address, shown(self.compare), shown(self.data))
        return "%s %X %s" % (self.kind, self.address, shown(self.data))

    def enables(self, place):
        """Whether the byte at that place of a read or a write is enabled."""
        if place < 4:
            return self.first >> place & 1 == 1
        return place < self.size - 4 or self.last >> place % 4 & 1 == 1


def shown(data):
    return data.hex().upper()


def perform(memory, op):
    """The memory after the operation, and the reply: None of a write."""
    end = op.address + op.size
    if op.address // BLOCK != (end - 1) // BLOCK:
        return memory, None if op.kind == "write" else "ca"
    if end > SIZE:
        return memory, None if op.kind == "write" else "ur"
    old = memory[op.address:end]
    if op.kind == "read":
        return memory, "data " + shown(bytes(b if op.enables(i) else 0 for i, b in enumerate(old)))
    if op.kind == "write":
        new = bytes(op.data[i] if op.enables(i) else b for i, b in enumerate(old))
        return memory[:op.address] + new + memory[end:], None
    if op.kind == "add":
        total = int.from_bytes(old, "little") + int.from_bytes(op.data, "little")
        new = (total % (1 << 8 * op.size)).to_bytes(op.size, "little")
    elif op.kind == "swap":
        new = op.data
    else:
        new = op.data if old == op.compare else old
    return memory[:op.address] + new + memory[end:], "data " + shown(old)


# ---- pieces: what acts at once, where reads and writes needn't act as a whole


def pieces_of(op, size):
    """The naturally aligned pieces of so many bytes of a read or a write that is served, in rising order."""
    is_served = op.address // BLOCK == (op.address + op.size - 1) // BLOCK and op.address + op.size <= SIZE
    if op.kind not in ("read", "write") or not is_served:
        return [op]
    ends = [end - op.address for end in range(op.address + 1, op.address + op.size) if end % size == 0] + [op.size]
    return [piece_of(op, start, end) for start, end in zip([0] + ends, ends)]


def piece_of(op, start, end):
    enables = [sum(op.enables(at + i) << i for i in range(4)) for at in range(start, end, 4)]
    last = enables[-1] if len(enables) > 1 else 0
    return Op(op.kind, op.address + start, end - start, enables[0], last, op.data[start:end])


def parts_of(reply, pieces):
    """The reply to a request as replies to its pieces."""
    if not reply.startswith("data "):
        return [reply] * len(pieces)
    ends = [2 * sum(piece.size for piece in pieces[:count + 1]) for count in range(len(pieces))]
    return ["data " + reply[5:][start:end] for start, end in zip([0] + ends, ends)]


def in_pieces(records, size):
    """The well-formed log with each request as its pieces, which are numbered anew, submitted and answered together."""
    counts, numbered, cut = {}, {}, []
    for kind, requester, number, what in records:
        if kind == "sub":
            pieces, first = pieces_of(what, size), counts.get(requester, 0)
            counts[requester] = first + len(pieces)
            numbered[requester, number] = first, pieces
            parts = pieces
        else:
            first, pieces = numbered[requester, number]
            parts = parts_of(what, pieces)
        cut += [(kind, requester, first + place, part) for place, part in enumerate(parts)]
    return cut


# ---- logs: lists of ("sub", requester, number, op) and ("ans", requester, number, reply)


def line_of(record):
    kind, requester, number, what = record
    return "%s %d %d %s\n" % (kind, requester, number, what.text() if kind == "sub" else what)


def text_of(records):
    return HEAD + "".join(line_of(r) for r in records) + "end\n"


def first_flaw(records):
    """The number, the name and the place of the log's first bookkeeping mistake, None if there is none."""
    counts, waiting, answered = {}, set(), set()
    for place, (kind, requester, number, what) in enumerate(records):
        if kind == "sub":
            if number != counts.get(requester, 0):
                return 1, "Numbering", place
            counts[requester] = number + 1
            if what.kind != "write":
                waiting.add((requester, number))
        elif (requester, number) in answered:
            return 6, "Again", place
        elif (requester, number) not in waiting:
            return 5, "Unasked", place
        else:
            answered.add((requester, number))
    return None


def is_well_formed(records):
    """Requests are numbered 0, 1, 2, .. by requester; each answer is the only one to an earlier one that isn't posted."""
    counts, open_requests = {}, set()
    for kind, requester, number, what in records:
        if kind == "sub":
            if number != counts.get(requester, 0):
                return False
            counts[requester] = number + 1
            if what.kind != "write":
                open_requests.add((requester, number))
        elif (requester, number) in open_requests:
            open_requests.remove((requester, number))
        else:
            return False
    return True


class Requests:
    """The requests of a well-formed log."""

    def __init__(self, records):
        self.ops, self.replies, self.before = {}, {}, {}
        answered, posted = [], {}
        for kind, requester, number, what in records:
            request = requester, number
            if kind == "sub":
                self.ops[request] = what
                # What acted before this one acts: what was answered, and its requester's posted writes.
                self.before[request] = answered + posted.get(requester, [])
                if what.kind == "write":
                    posted.setdefault(requester, []).append(request)
            else:
                self.replies[request] = what
                answered.append(request)

    def may_follow(self, request, acted):
        return request not in acted and all(b in acted for b in self.before[request])

    def is_right(self, request, reply):
        return request not in self.replies or self.replies[request] == reply

    def explains(self, history):
        """Whether the history explains the log."""
        memory, acted = bytes(SIZE), set()
        for request in history:
            if request not in self.ops or not self.may_follow(request, acted):
                return False
            memory, reply = perform(memory, self.ops[request])
            if not self.is_right(request, reply):
                return False
            acted.add(request)
        return all(request in acted for request in self.replies)

    def has_history(self, acted=frozenset(), memory=bytes(SIZE), dead=None):
        """Whether a history goes on from there that explains the log: all are tried, but not twice from one state."""
        dead = set() if dead is None else dead
        if all(request in acted for request in self.replies):
            return True
        if (acted, memory) in dead:
            return False
        for request in self.ops:
            if self.may_follow(request, acted):
                after, reply = perform(memory, self.ops[request])
                if self.is_right(request, reply) and self.has_history(acted | {request}, after, dead):
                    return True
        dead.add((acted, memory))
        return False


def is_explainable(records, size=None):
    """Whether some history explains the log, or the log in pieces of so many bytes."""
    return is_well_formed(records) and Requests(in_pieces(records, size) if size else records).has_history()


# ---- a device: requests travel, act and are answered, each after a time of its own


class Device:
    """A memory behind links. Posted writes of a requester act in order, and no request passes one; all else may."""

    def __init__(self, random, defect):
        self.random, self.defect = random, defect
        self.memory, self.before = bytes(SIZE), bytes(SIZE)
        self.memories = [self.memory]
        self.way, self.records = [], []
        self.counts, self.last_posted, self.ticks = {}, {}, 0
        self.is_planted, self.last_reply = False, None

    def at(self, time, what, *of):
        self.ticks += 1
        self.way.append((time, self.ticks, what, of))

    def plants(self, defect, once_in=3):
        """Whether the defect happens now: once in a run, and not always where it could first."""
        if self.defect != defect or self.is_planted or not self.random.once_in(once_in):
            return False
        self.is_planted = True
        return True

    def note(self, _, requester, op):
        """The next number of the requester, under which its request is submitted."""
        number = self.counts.get(requester, 0)
        self.counts[requester] = number + 1
        self.records.append(("sub", requester, number, op))
        return number

    def submit(self, now, requester, op):
        number = self.note(now, requester, op)
        last = self.last_posted.get(requester, 0)
        time = max(now + self.random.between(1, 12), last + 1)
        if op.kind == "write":
            if last > now + 1 and self.plants("disorder", 1):
                time = now + 1
            self.last_posted[requester] = max(time, last)
        self.at(time, self.act, requester, number, op)

    def act(self, now, requester, number, op):
        if op.kind == "write" and self.plants("dropped"):
            return
        if op.kind == "write" and op.size == 8 and self.plants("torn", 1):
            half = Op("write", op.address, 4, data=op.data[:4])
            self.change(half)
            self.at(now + 12, self.act, requester, number, Op("write", op.address + 4, 4, data=op.data[4:]))
            return
        reply = self.change(op)
        if reply is not None:
            self.at(now + self.random.between(1, 12), self.answer, requester, number, reply)

    def change(self, op):
        """Acts on the memory, with a defect where one is planted."""
        before = self.memory
        if op.kind == "cas" and before[op.address:op.address + op.size] != op.compare and self.plants("compare"):
            self.memory, reply = perform(before, Op("swap", op.address, op.size, data=op.data))
            return reply
        if op.kind == "read":
            _, stale = perform(self.before, op)
            _, reply = perform(before, op)
            return stale if stale != reply and self.plants("stale") else reply
        after, reply = perform(before, op)
        if op.kind != "write" and after != before:
            if self.plants("lost"):
                return reply
            if self.plants("twice"):
                after, _ = perform(after, op)
        if after != before:
            self.memory, self.before = after, before
            self.memories.append(after)
        return reply

    def answer(self, now, requester, number, reply):
        if self.last_reply not in (None, reply) and self.plants("another"):
            reply = self.last_reply
        self.last_reply = reply
        self.records.append(("ans", requester, number, reply))

    def run(self):
        """Until nothing is on its way."""
        while self.way:
            event = min(self.way)
            self.way.remove(event)
            time, _, what, of = event
            what(time, *of)
        return self.records


class DeviceInPieces(Device):
    """The same, but for reads and writes: it acts on each DW of them at a time of its own; on those of a write in rising
    order, or in falling order where that is its defect."""

    def submit(self, now, requester, op):
        pieces = pieces_of(op, 4)
        if len(pieces) == 1:
            Device.submit(self, now, requester, op)
            return
        number = self.note(now, requester, op)
        time = max(now + self.random.between(1, 12), self.last_posted.get(requester, 0) + 1)
        if op.kind == "write":
            if self.defect == "falling":
                pieces, self.is_planted = pieces[::-1], True
            for piece in pieces:
                self.last_posted[requester] = time
                self.at(time, self.act_on_piece, piece)
                time += self.random.between(1, 12)
            return
        parts = {}
        for piece in pieces:
            self.at(time + self.random.below(12), self.read_piece, piece, parts)
        self.at(time + self.random.between(12, 18), self.answer_parts, requester, number, parts)

    def act_on_piece(self, _, piece):
        self.change(piece)

    def read_piece(self, _, piece, parts):
        parts[piece.address] = perform(self.memory, piece)[1]

    def answer_parts(self, now, requester, number, parts):
        self.answer(now, requester, number, "data " + "".join(parts[address][5:] for address in sorted(parts)))


DEFECTS = {
    "lost": "an AtomicOp's new value is lost",
    "stale": "a read is answered what was there before the last change",
    "torn": "a write of two DW is done in two steps",
    "dropped": "a posted write is dropped",
    "disorder": "a posted write passes an earlier one of its requester",
    "twice": "an AtomicOp is done twice",
    "another": "a request is answered another one's reply",
    "compare": "a CAS writes where the operands differ",
}
FALLING = "the DW of a write appear in falling order"


def operation(random, words, values, odd):
    """An operation on one of so many words; `odd` ones now and then cross a block, lie outside, or touch some bytes."""
    address = random.below(words) * 4
    is_odd = odd and random.once_in(2)
    size = 8 if random.once_in(4) else 4
    if is_odd and random.once_in(5):
        address = random.of([BLOCK - 4, SIZE])
    elif size == 8:
        address = address // 8 * 8
    data = b"".join(values().to_bytes(4, "little") for _ in range(size // 4))
    kind = random.of(["read", "read", "write", "write", "add", "swap", "cas"])
    first = random.between(1, 15) if is_odd else 15
    if kind in ("read", "write"):
        return Op(kind, address, size, first, 15 if size == 8 else 0, data)
    address = address // size * size
    return Op(kind, address, size, data=data, compare=values().to_bytes(size, "little"))


# ---- the logs


def small_log(seed):
    """A log of 3 to 7 requests over few words and few values. Some never act, some are unanswered, and some are answered
    what they would have been at another time."""
    random = Random(seed)
    device = Device(random, random.of([None, "disorder"]))
    requesters, words, few = random.between(2, 3), random.between(1, 2), random.between(1, 4)
    gap, loses, lies = random.of([4, 12]), random.of([4, 100]), random.of([1, 2, 3, 100])
    is_odd = random.once_in(2)
    ops, now = {}, 0
    for _ in range(random.between(3, 7)):
        now += random.below(gap)
        op = operation(random, words, lambda: random.below(few + 1), is_odd)
        requester = random.between(1, requesters)
        is_lost = op.kind != "write" and random.once_in(loses)
        device.at(now, device.note if is_lost else device.submit, requester, op)
    records = []
    for record in device.run():
        kind, requester, number, what = record
        if kind == "sub":
            ops[requester, number] = what
        elif random.once_in(loses):
            continue
        elif random.once_in(lies):
            record = kind, requester, number, perform(random.of(device.memories), ops[requester, number])[1]
        records.append(record)
    if len(records) > 1 and random.once_in(2):
        place = random.below(len(records) - 1)
        swapped = records[:place] + [records[place + 1], records[place]] + records[place + 2:]
        if is_well_formed(swapped) or random.once_in(8):
            records = swapped
    if records and random.once_in(24):
        records.append(random.of(records))
    return records


def device_log(seed, defect):
    """A log of a device, over two words and values that differ, and whether the defect happened. The last read sees all."""
    random = Random(seed)
    device = Device(random, defect)
    drawn = iter(range(1, 256))
    now = 0
    for _ in range(14):
        now += random.below(10)
        op = operation(random, 2, lambda: next(drawn) * 0x01010101, False)
        if op.kind == "cas" and random.once_in(2):
            op.compare = bytes(op.size)
        device.at(now, device.submit, random.between(1, 3), op)
    device.at(now + 40, device.submit, 1, Op("read", 0, 8, 15, 15))
    return device.run(), device.is_planted


def log_in_pieces(seed, defect):
    """A log of a device that acts in pieces, of reads and writes of two DW, and whether the defect happened."""
    random = Random(seed)
    device = DeviceInPieces(random, defect)
    now = 0
    for value in range(1, 13):
        now += random.below(8)
        op = Op(random.of(["read", "read", "write"]), 0, 8, 15, 15, bytes([value]) * 8)
        device.at(now, device.submit, random.between(1, 3), op)
    device.at(now + 40, device.submit, 1, Op("read", 0, 8, 15, 15))
    return device.run(), device.is_planted


# ---- the log that a device with one fault would have written, by the words of the reasons


def reading(op):
    """A read of the bytes of an AtomicOp."""
    return Op("read", op.address, op.size, 15, 15 if op.size > 4 else 0)


def altered(op, words):
    """The operation as a device does it of which the words are true."""
    if words == "had had no effect":
        return Op("read", op.address, 4, 0, 0) if op.kind == "write" else reading(op)
    if words == "had swapped whatever it found" and op.kind == "cas":
        return Op("swap", op.address, op.size, data=op.data)
    if words == "had written all bytes of its first DW" and op.kind == "write":
        return Op("write", op.address, op.size, 15, op.last, op.data)
    if words == "had written all bytes of its last DW" and op.kind == "write":
        return Op("write", op.address, op.size, op.first, 15, op.data)
    return None


def apart(records, place, before, by):
    """The records, where the request at the place is the only one of that requester, submitted before that record."""
    _, whose, which, op = records[place]
    left = []
    for at, (kind, requester, number, what) in enumerate(records):
        if at == before:
            left.append(("sub", by, 0, op))
        if (requester, number) != (whose, which):
            left.append((kind, requester, number - (requester == whose and number > which), what))
        elif kind == "ans":
            left.append((kind, by, 0, what))
    return left


def in_blocks(op):
    """A write in parts that lie in a block each."""
    ends = [end - op.address for end in range(op.address + 1, op.address + op.size) if end % BLOCK == 0] + [op.size]
    return [piece_of(op, start, end) for start, end in zip([0] + ends, ends)]


def with_fault(records, place, words):
    """The records of a device of which the words are true of the request at the place; None where they say nothing."""
    kind, requester, number, op = records[place]
    by = 1 + max(r[1] for r in records)
    if altered(op, words):
        return records[:place] + [(kind, requester, number, altered(op, words))] + records[place + 1:]
    if words == "had been carried out, though it isn't served" and op.kind == "write" and pieces_of(op, 4) == [op]:
        return records[:place] + [("sub", by, at, part) for at, part in enumerate(in_blocks(op))] + records[place:]
    if words == "had added twice" and op.kind == "add":
        return records[:place + 1] + [("sub", by, 0, op)] + records[place + 1:]
    if words == "had not kept the order of its requester" and op.kind == "write":
        return apart(records, place, place, by)
    if words == "had passed an earlier posted write of its requester" and op.kind == "read":
        return apart(records, place, place, by)
    earlier = re.fullmatch("had read what was there before line ([0-9]+)", words)
    if earlier and op.kind == "read":
        return apart(records, place, int(earlier.group(1)) - 3, by)
    return None


# ---- the program's answers


class Judge:
    def __init__(self, program):
        self.program, self.failures, self.errors, self.expected, self.cores = program, 0, "", 0, 0
        self.supposed = {}

    def run(self, words, text):
        done = subprocess.run([self.program] + words, input=text, capture_output=True, text=True, timeout=60)
        return done.returncode, done.stdout, done.stderr

    def say(self, failure):
        self.failures += 1
        print("searches: " + failure)

    def tell(self, name, why, records, size=None):
        name += " in pieces of %d" % size if size else ""
        self.say("%s: %s\n%s" % (name, why, text_of(records).rstrip("\n")))

    def answer(self, name, records, size=None):
        """What the program says: found, flaw, none, with the longer and the shorter prefix that it tells of; else None."""
        words = ["search", "--limit", LIMIT] + (["--granularity", str(size)] if size else [])
        status, output, errors = self.run(words, text_of(records))
        self.errors = errors
        flaw = first_flaw(records)
        if flaw:
            if (status, output) != (1, "flaw %d %s %d\n" % flaw):
                self.tell(name, "status %d and %r, and the first flaw is %d %s %d" % (status, output, *flaw), records, size)
                return None
            return "flaw", None, None
        if status == 0:
            if not self.is_history(output, in_pieces(records, size) if size else records):
                self.tell(name, "the history that is found does not explain the log", records, size)
                return None
            return "found", None, None
        none = re.fullmatch("none ([0-9]+)\n", output)
        if status != 1 or not none:
            self.tell(name, "status %d and %r" % (status, output), records, size)
            return None
        count = int(none.group(1)) + 1
        return "none", count, prefix_of(count, errors)

    def is_history(self, output, records):
        """Whether the output is a trace of the log whose history explains it, and `check` says so too."""
        lines = output.splitlines(True)
        told = [re.sub("^(sub|ans) ([0-9]+) ([0-9]+) [0-9]+ ", r"\1 \2 \3 ", line) for line in lines]
        wanted = ["pciex-trace 2\n", HEAD.splitlines(True)[1]] + [line_of(r) for r in records] + ["history\n"]
        entries = [line.split(" ") for line in lines[len(wanted):-1]]
        if told[:len(wanted)] != wanted or lines[-1] != "end\n" or any(e[0] != "ent" for e in entries):
            return False
        requests = Requests(records)
        history = [(int(e[1]), int(e[2])) for e in entries]
        if any(" ".join(e[3:]) != requests.ops[h].text() + "\n" for e, h in zip(entries, history)):
            return False
        return requests.explains(history) and self.run(["check"], output) == (0, "ok\n", "")

    def judge_small(self, name, records, size=None):
        """Whether the answer is that of all histories, and the place the least."""
        answer = self.answer(name, records, size)
        if answer is None:
            return "limit"
        kind, count, explained = answer
        if kind == "flaw":
            return kind
        if (kind == "found") != is_explainable(records, size):
            self.tell(name, "%s, and by all histories it is the other way round" % kind, records, size)
        elif kind == "none":
            if is_explainable(records[:count], size):
                self.tell(name, "the first %d records have a history" % count, records, size)
            elif explained != count - 1 or not is_explainable(records[:explained], size):
                self.tell(name, "%s records are said to have a history, and %d none" % (explained, count), records, size)
            elif not self.is_expected(records[:count]):
                self.tell(name, "the records have no history with the reply that is told", records, size)
            self.judge_core(name, records, size)
            self.judge_supposed(name, records, count, size)
        return kind

    def judge_core(self, name, records, size):
        """Whether the short log that is printed in place of `none`, if one is, has requests and answers of the log and no
        history."""
        words = ["search", "--limit", LIMIT, "--core"] + (["--granularity", str(size)] if size else [])
        status, output, _ = self.run(words, text_of(records))
        if status == 1 and output.startswith("none "):
            return
        cut = in_pieces(records, size) if size else records
        ops = {(requester, what.text()): what for kind, requester, _, what in cut if kind == "sub"}
        core = []
        for line in output.splitlines()[2:-1]:
            kind, requester, number, rest = line.split(" ", 3)
            what = ops.get((int(requester), rest)) if kind == "sub" else rest
            core.append((kind, int(requester), int(number), what))
        self.cores += 1
        if status != 1 or output != text_of(core) or any(what is None for *_, what in core) or len(core) > len(cut):
            self.tell(name, "status %d and %r with --core" % (status, output), records, size)
        elif is_explainable(core):
            self.tell(name, "the short log has a history:\n" + output, records, size)

    def judge_supposed(self, name, records, count, size):
        """Whether the log has a history with each fault, and in pieces of the size, that is told."""
        told = re.findall(r"^pciex: if line ([0-9]+) \((.*)\) (.*), (?:lines 3 to ([0-9]+)|the whole log) would have a history$", self.errors, re.M)
        if size and (told or " --granularity " in self.errors):
            self.tell(name, "a fault or a size is told of a log in pieces", records, size)
        for line, shown_op, all_words, end in told:
            place, seen = int(line) - 3, records[:int(end) - 2] if end else records
            for words in all_words.split(", or "):
                self.supposed[words.split(" line ")[0]] = self.supposed.get(words.split(" line ")[0], 0) + 1
                log = with_fault(seen, place, words) if seen[place][0] == "sub" else None
                if log is None or seen[place][3].text() != shown_op or end and int(end) != count + 2 or not is_explainable(log):
                    self.tell(name, "the log has no history if line %s %s" % (line, words), records)
        for bytes_, end in re.findall("^pciex: with --granularity ([0-9]+) lines 3 to ([0-9]+) have a history$", self.errors, re.M):
            self.supposed["pieces"] = self.supposed.get("pieces", 0) + 1
            if int(end) != count + 2 or not is_explainable(records[:count], int(bytes_)):
                self.tell(name, "the log has no history in pieces of %s" % bytes_, records)

    def is_expected(self, records):
        """Whether the records have a history with the reply that is told in place of the last one, if one is told."""
        told = re.search("^pciex: with (.*) in line ([0-9]+), lines 3 to ([0-9]+) have a history$", self.errors, re.M)
        if not told:
            return True
        kind, requester, number, _ = records[-1]
        self.expected += 1
        line = len(records) + 2
        return (kind == "ans" and told.group(2) == told.group(3) == str(line)
                and is_explainable(records[:-1] + [(kind, requester, number, told.group(1))]))

    def judge_pieces(self):
        """How many logs of a device that acts DW by DW have no history of whole requests: each has one of pieces."""
        torn = 0
        for seed in range(DEVICE_LOGS):
            name, (records, _) = "device %d that acts in pieces" % seed, log_in_pieces(seed, None)
            if self.answer(name, records, 4) != ("found", None, None):
                self.tell(name, "it has no defect, and no history is found", records, 4)
            answer = self.answer(name, records)
            torn += answer is not None and answer[0] == "none"
        return torn

    def logs_until_none(self, defect, why, log=device_log, size=None):
        """How many logs with the defect are judged until one has no history; None if each has one."""
        planted = 0
        for seed in range(DEVICE_LOGS):
            records, is_planted = log(seed, defect)
            if is_planted:
                planted += 1
                answer = self.answer("device %d where %s" % (seed, why), records, size)
                if answer and answer[0] == "none":
                    return planted
        return None


def prefix_of(count, errors):
    """How many records are told to have a history, by lines: the first record stands on line 3."""
    if count == 1:
        return 0 if errors.startswith("pciex: record 0 is line 3: line 3 has no history\n") else None
    told = re.match("pciex: record [0-9]+ is line [0-9]+: lines 3 to ([0-9]+) have no history, lines 3 to ([0-9]+) have one\n", errors)
    if not told or int(told.group(1)) != count + 2:
        return None
    return int(told.group(2)) - 2


def judge(program):
    judge = Judge(program)
    logs = {"small log %d" % seed: small_log(seed) for seed in range(SMALL_LOGS)}
    kinds = [judge.judge_small(name, records) for name, records in logs.items()]
    cut = [judge.judge_small(name, records, 4) for name, records in logs.items()]
    for kind, least in [("found", SMALL_LOGS // 4), ("none", SMALL_LOGS // 6), ("flaw", SMALL_LOGS // 25)]:
        if kinds.count(kind) < least or cut.count(kind) < least:
            judge.say("only %d and %d of %d small logs are %s" % (kinds.count(kind), cut.count(kind), SMALL_LOGS, kind))
    for seed in range(DEVICE_LOGS):
        records, _ = device_log(seed, None)
        if judge.answer("device %d" % seed, records) != ("found", None, None):
            judge.tell("device %d" % seed, "it has no defect, and no history is found", records)
    counts = {defect: judge.logs_until_none(defect, why) for defect, why in DEFECTS.items()}
    counts["falling"] = judge.logs_until_none("falling", FALLING, log_in_pieces, 4)
    for defect, count in counts.items():
        if count is None:
            judge.say("each log of a device where %s has a history" % DEFECTS.get(defect, FALLING))
    if judge.expected < SMALL_LOGS // 8:
        judge.say("only %d small logs are told a reply with which they have a history" % judge.expected)
    if sum(judge.supposed.values()) < SMALL_LOGS // 25 or len(judge.supposed) < 5:
        judge.say("only %s are told of small logs" % judge.supposed)
    if judge.cores < SMALL_LOGS // 8:
        judge.say("only %d short logs are printed in place of `none`" % judge.cores)
    torn = judge.judge_pieces()
    if torn == 0:
        judge.say("each log of a device that acts in pieces has a history of whole requests")
    print("searches: %d small logs, %d with a history, %d with one of pieces of 4 bytes, %d with a flaw, %d short logs without one, %d with one by a fault; of %d logs of a device that acts in "
          "pieces each has one of pieces, and %d have none of whole requests; defects, and logs until one has none: %s; %s" % (
              SMALL_LOGS, kinds.count("found"), cut.count("found"), kinds.count("flaw"), judge.cores, sum(judge.supposed.values()), DEVICE_LOGS, torn,
              ", ".join("%s %s" % c for c in counts.items()),
              "%d failures" % judge.failures if judge.failures else "each answer is right"))
    return judge.failures > 0


def write(folder):
    logs = {"small_%d" % seed: small_log(seed) for seed in range(SMALL_LOGS)}
    for defect in [None] + list(DEFECTS):
        for seed in range(DEVICE_LOGS):
            logs["%s_%d" % (defect or "sound", seed)] = device_log(seed, defect)[0]
    for name, records in logs.items():
        with open(os.path.join(folder, name + ".txt"), "w") as file:
            file.write(text_of(records))
    return False


if __name__ == "__main__":
    sys.exit(write(sys.argv[2]) if len(sys.argv) > 2 else judge(sys.argv[1]))
