"""Which means finds which fault of a device: the scoreboard (`answer` and `differ`), the monitor, `check` of a trace, or
`search` for a history of a log. docs/judge-your-own-device.md has the table."""

import unittest
from typing import List, Tuple

import pciex

WRITE = pciex.encode("write 40 F 0 01000000 from 0100 tag 00")
ADD = pciex.encode("add 40 07000000 from 0100 tag 01")
READ = pciex.encode("read 40 1 F 0 from 0100 tag 02")
BYTE = pciex.encode("read 40 1 1 0 from 0100 tag 02")

Event = Tuple[str, bytes]


def reply(request: bytes, data: str) -> bytes:
    """The completion of a request with this data, or with the status `ur`."""
    words = "ur" if data == "ur" else f"sc {data}"
    lower = "40" if request[0] == 0 else "00"
    count = 1 if request == BYTE else 4
    return pciex.encode(f"completion {words} to 0100 tag {request[6]:02X} by 0000 count {count} lower {lower}")


def with_byte(packet: bytes, place: int, value: int) -> bytes:
    return packet[:place] + bytes([value]) + packet[place + 1 :]


def served(request: bytes, *completions: bytes) -> List[Event]:
    """A request that acts and is completed."""
    return [("request", request), ("acted", request), *(("completion", it) for it in completions)]


# A write of 1, an addition of 7, and a read, each served before the next.
FIRST = [*served(WRITE), *served(ADD, reply(ADD, "01000000"))]
LAST = reply(READ, "08000000")
RUNS = {
    "none": [*FIRST, *served(READ, LAST)],
    "data": [*FIRST, *served(READ, reply(READ, "09000000"))],
    "status": [*FIRST, *served(READ, reply(READ, "ur"))],
    "status with data": [*FIRST, *served(READ, with_byte(LAST, 6, 0x20))],
    "Byte Count": [*FIRST, *served(READ, with_byte(LAST, 7, 8))],
    "Lower Address": [*FIRST, *served(READ, with_byte(LAST, 11, 0x44))],
    "TC": [*FIRST, *served(READ, with_byte(LAST, 1, 0x10))],
    "Attr": [*FIRST, *served(READ, with_byte(LAST, 2, 0x20))],
    "Length": [*FIRST, *served(READ, with_byte(LAST, 3, 2))],
    "tag": [*FIRST, *served(READ, with_byte(LAST, 10, 0xEE))],
    "Requester ID": [*FIRST, *served(READ, with_byte(LAST, 9, 1))],
    "a second completion": [*FIRST, *served(READ, LAST, LAST)],
    "no completion": [*FIRST, *served(READ)],
    "a lost write": [*served(WRITE), *served(ADD, reply(ADD, "00000000"))],
    "an addition acts twice": [*FIRST, *served(READ, reply(READ, "0F000000"))],
    "a read passes a write": [
        ("request", WRITE),
        ("request", READ),
        ("acted", READ),
        ("completion", reply(READ, "00000000")),
        ("acted", WRITE),
    ],
    "a write passes a read": [
        ("request", READ),
        ("request", WRITE),
        ("acted", WRITE),
        ("acted", READ),
        ("completion", reply(READ, "01000000")),
    ],
    "an answer before it acts": [
        *served(WRITE),
        ("request", READ),
        ("completion", reply(READ, "01000000")),
        ("acted", READ),
    ],
    "a byte that isn't enabled": [*served(WRITE), *served(BYTE, reply(BYTE, "01AA0000"))],
}

# For each: what the scoreboard finds, the monitor refuses, `check` says of the trace and `search` of the log.
TABLE = {
    "none": (None, None, "ok", "found"),
    "data": ("data", None, "flaw 10 Reply 4", "none 4"),
    "status": ("Status", None, "flaw 10 Reply 4", "none 4"),
    "status with data": ("Status", "Mismatch", "ok", "found"),
    "Byte Count": ("Byte Count", None, "ok", "found"),
    "Lower Address": ("Lower Address", None, "ok", "found"),
    "TC": ("TC", None, "ok", "found"),
    "Attr": ("Attr", None, "ok", "found"),
    "Length": ("not a completion", "fault 9 LengthMismatch", "ok", "found"),
    "tag": ("Tag", "Unexpected", "ok", "found"),
    "Requester ID": ("Requester ID", "OtherRequester", "ok", "found"),
    "a second completion": ("a completion", "Unexpected", "ok", "found"),
    "no completion": ("no completion", "1 open", "ok", "found"),
    "a lost write": ("data", None, "flaw 10 Reply 2", "none 2"),
    "an addition acts twice": ("data", None, "flaw 10 Reply 4", "none 4"),
    "a read passes a write": (None, None, "flaw 4 Order 0", "none 2"),
    "a write passes a read": (None, None, "ok", "found"),
    "an answer before it acts": ("a completion", None, "flaw 9 Late 2", "found"),
    "a byte that isn't enabled": (None, None, "ok", "found"),
}


def scoreboard(run: List[Event]) -> List[str]:
    """What differs, with the reference served in the order in which the device acted."""
    memory, due, found = pciex.Memory(4096), [], []
    for kind, packet in run:
        if kind == "acted":
            completion = memory.answer(packet)
            if completion:
                due.append((packet, completion))
        elif kind == "completion":
            asked = due.pop(0) if due else (READ, None)
            found.append(pciex.differ(*asked, packet))
    found += [pciex.differ(*asked, None) for asked in due]
    return [it for it in found if it]


def recorded(run: List[Event], is_trace: bool) -> Tuple[List[str], str]:
    """What the monitor refuses, and the text of the lines that it writes."""
    numbers = {packet: number for number, packet in enumerate(it for kind, it in run if kind == "request")}
    refused, history = [], []
    with pciex.Monitor(4096, is_trace=is_trace) as monitor:
        lines = [monitor.head]
        for kind, packet in run:
            try:
                if kind == "request":
                    lines.append(monitor.request(1, packet))
                elif kind == "completion":
                    lines.append(monitor.completion(1, packet))
                elif is_trace:
                    history.append(monitor.acted(1, numbers[packet]))
            except (pciex.Refused, pciex.Fault) as cause:
                refused.append(str(cause))
        if monitor.open() and not refused:
            refused.append(f"{monitor.open()} open")
    return refused, "\n".join([*lines, *(["history", *history] if is_trace else []), "end", ""])


class Faults(unittest.TestCase):
    def test_each(self) -> None:
        self.assertEqual(RUNS.keys(), TABLE.keys())
        for fault, run in RUNS.items():
            with self.subTest(fault):
                refused, trace = recorded(run, True)
                also_refused, log = recorded(run, False)
                self.assertEqual(refused, also_refused)
                first = (scoreboard(run) or [None])[0], (refused or [None])[0]
                history = pciex.search(log)
                found = history if history.startswith("none") else "found"
                self.assertEqual((*first, pciex.check(trace), found), TABLE[fault])


if __name__ == "__main__":
    unittest.main()
