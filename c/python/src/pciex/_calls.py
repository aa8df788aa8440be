"""The calls without a handle, and what they raise."""

from ctypes import byref, c_size_t, c_ubyte
from operator import index
from typing import List, NamedTuple, Optional, Tuple, Type

from ._fault import Fault
from ._raw import LINE, NO_MEMORY, SMALL_ROOM, Fields, library, room

_WRONG = {
    2001: "a block has 64 or 128 bytes",
    2002: "the packet is a completion, not a request",
    2004: "the size is 128 to 1048576 bytes, a multiple of 128",
    2005: "the base is a multiple of 128, with all bytes below 2^64",
    2006: "the history has no entry at that place",
    2007: "no fault has that number",
    2008: "the line has the wrong form",
    2010: "the packet is a request, not a completion",
    2011: "a monitor's requesters are 1 to 7",
    2012: "a search has pieces of 4, 8, 16 or 64 bytes, or 0 for whole requests",
    2013: "the credits are 1 to 127, 8 to 2047, 1 to 127, 2 to 2047",
}


class Refused(Exception):
    """A fabric refuses an event, a monitor a packet, or an endpoint a DLLP: `str()` is the name of the cause."""

    __module__ = "pciex"


def wrong(code: int) -> Exception:
    """The exception for a code from 2000 on."""
    if code == NO_MEMORY:
        return MemoryError("pciex: an allocation failed")
    return ValueError(_WRONG.get(code, f"code {code}"))


def text_of(code: int, error: Type[Exception] = Fault) -> str:
    """The text in the buffer. Raises the error that it names, if it names one."""
    if code < 1000:
        return room.text(code)
    if code < 2000:
        raise error(room.text(code, 1000))
    raise wrong(code)


# What a monitor finds wrong with a packet.
_FOUND = {1020: "TagInUse", 1021: "Unexpected", 1022: "Mismatch", 1023: "OtherRequester", 1024: "NumbersUsed"}


def line_of(code: int) -> str:
    """The line of a monitor in the buffer. Raises the packet's fault, or what the monitor finds wrong."""
    if code in _FOUND:
        raise Refused(_FOUND[code])
    if 1000 < code < 2000:
        raise Fault(f"fault {code - 1000} {fault_name(code - 1000)}")
    return text_of(code)


def packet_of(code: int) -> Optional[bytes]:
    """The completion in the buffer, None if there is none. Raises the request's fault."""
    if code < 1000:
        return room.front(code) if code else None
    if code < 2000:
        raise Fault(f"fault {code - 1000} {fault_name(code - 1000)}")
    raise wrong(code)


def bytes_of(packet: bytes) -> bytes:
    """The bytes of a packet, of whatever type they are."""
    return packet if isinstance(packet, bytes) else bytes(memoryview(packet))


def number_of(name: str, value: int, bits: int) -> int:
    """The value, if it has at most that many bits: ctypes would cut it."""
    value = index(value)
    if not 0 <= value < 1 << bits:
        raise ValueError(f"{name} is 0 to {(1 << bits) - 1}, and not {value}")
    return value


def block_of(value: int) -> int:
    """The value, or 0 if it has more than 16 bits: the library then refuses it in its own order of tests."""
    return value if 0 <= value < 1 << 16 else 0


# ---- a memory without a history


def answer(memory: bytearray, request: bytes, base: int = 0, block: int = 64) -> Optional[bytes]:
    """One request at a device whose memory is these bytes, the first of them at the address `base`, which serves
    accesses by blocks of `block` bytes, 64 or 128. Its completion, or None for a posted write. The bytes change as the
    request says. Other threads may not use them during the call."""
    base, request, length = number_of("base", base, 64), bytes_of(request), len(memory)
    if not length:
        memory = bytearray(1)
    borrowed = (c_ubyte * len(memory)).from_buffer(memory)
    try:
        return packet_of(library.answer(borrowed, length, base, block_of(block), request, len(request), room.bytes, LINE))
    finally:
        del borrowed  # an exception that is kept would keep it, and the memory couldn't grow


class Memory:
    """A memory of `size` zeros at the address `base`, without a history: its bytes are the attribute `bytes`."""

    def __init__(self, size: int, base: int = 0, block: int = 64) -> None:
        if block not in (64, 128):
            raise wrong(2001)
        self.bytes = bytearray(number_of("size", size, 63))
        self.base = number_of("base", base, 64)
        self.block = block

    def answer(self, request: bytes) -> Optional[bytes]:
        """One request at the memory, as the function `answer`."""
        return answer(self.bytes, request, self.base, self.block)


# ---- the checker, packets in words, and names


def check(text: str, clocked: bool = False) -> str:
    """What `pciex check` prints of the text of a trace: `ok` if and only if its history explains its records, else the
    first flaw, `flaw 10 Reply 2`, or `fault 3 Line` if the text is no trace. With `clocked`, what `check --clocked` prints:
    `ok` only if the n of the records are those of a history that grew, too, else `flaw 13 Clock 2`."""
    words = text.encode()
    call = library.check_clocked if clocked else library.check
    code = call(words, len(words), room.bytes, LINE)
    if code >= 2000:
        raise wrong(code)
    return room.text(code, 1000) if code else "ok"


def search(text: str, limit: int = 1000000) -> str:
    """What `pciex search` prints of the text of a log, or of a trace, whose history says nothing: a trace with a history
    that explains what was seen; `none 3`, the number of a record up to which no history does; `limit 1000000` if it was
    given up after so many choices, or `work 300000000` after so much work, about half a minute; `flaw 6 Again 2` for a
    bookkeeping mistake; or `fault 3 Line` if the text can't be read. Lines end in line feeds, but for those of one line."""
    words, limit = text.encode(), number_of("limit", limit, 64)
    size = 8 * len(words) + LINE
    while True:
        buffer, length = (c_ubyte * size)(), c_size_t()
        code = library.search(words, len(words), limit, buffer, size, byref(length))
        if code == SMALL_ROOM:
            size = length.value
        elif code >= 2000:
            raise wrong(code)
        else:
            answer = bytes(buffer[: length.value]).decode()
            return answer.rstrip("\n") if code else answer


def search_with_reasons(text: str, granularity: int = 0, limit: int = 1000000) -> Tuple[str, List[str]]:
    """What `search` returns, for a memory whose reads and writes act in naturally aligned pieces of `granularity` bytes, 4,
    8, 16 or 64, or as a whole for 0; and the lines that `pciex search` prints on standard error: why there is no history,
    or why the text can't be read; or how far it came, if it was given up. There are no lines for what is found."""
    words, limit, granularity = text.encode(), number_of("limit", limit, 64), number_of("granularity", granularity, 32)
    size, reasons_size = 8 * len(words) + LINE, 4096
    while True:
        buffer, length = (c_ubyte * size)(), c_size_t()
        reasons, reasons_length = (c_ubyte * reasons_size)(), c_size_t()
        code = library.search_with_reasons(words, len(words), limit, granularity, buffer, size, byref(length), reasons,
                                           reasons_size, byref(reasons_length))
        if code == SMALL_ROOM or reasons_length.value > reasons_size:
            size, reasons_size = max(size, length.value), max(reasons_size, reasons_length.value)
        elif code >= 2000:
            raise wrong(code)
        else:
            answer = bytes(buffer[: length.value]).decode()
            lines = bytes(reasons[: reasons_length.value]).decode(errors="replace").splitlines()
            return answer.rstrip("\n") if code else answer, lines


class Tlp(NamedTuple):
    """The fields of a TLP. Those that its kind lacks are 0."""

    kind: str
    """MRd, MWr, FetchAdd, Swap, CAS, Cpl or CplD"""
    tc: int
    attr: int
    """IDO 4, RO 2, NS 1"""
    length: int
    """in DW"""
    requester: int
    tag: int
    address: int
    first: int
    """First DW BE"""
    last: int
    completer: int
    status: int
    """SC 0, UR 1, CA 4"""
    byte_count: int
    lower: int
    """Lower Address"""
    payload: bytes


_KINDS = {0x00: "MRd", 0x40: "MWr", 0x4C: "FetchAdd", 0x4D: "Swap", 0x4E: "CAS", 0x0A: "Cpl", 0x4A: "CplD"}


def decode_tlp(packet: bytes) -> Tlp:
    """The fields of a TLP."""
    packet, fields = bytes_of(packet), Fields()
    code = library.decode_tlp(packet, len(packet), byref(fields))
    if code:
        raise Fault(f"fault {code - 1000} {fault_name(code - 1000)}")
    values = {name: getattr(fields, name) for name in Tlp._fields if name not in ("kind", "payload")}
    payload = packet[fields.payload_start : fields.payload_start + fields.payload_length]
    return Tlp(kind=_KINDS[fields.kind], payload=payload, **values)


def decode(packet: bytes) -> str:
    """The words of a TLP, or of a DLLP if there are four bytes, as `pciex decode` writes them."""
    packet = bytes_of(packet)
    return text_of(library.decode(packet, len(packet), room.bytes, LINE))


def encode(words: str) -> bytes:
    """The canonical bytes of the packet that a line of words spells."""
    line = words.encode()
    code = library.encode(line, len(line), room.bytes, LINE)
    if code >= 1000:
        text_of(code)
    return room.front(code)


def fault_name(number: int) -> str:
    """The name of a packet's fault, 1 to 13."""
    return text_of(library.fault_name(number_of("number", number, 32), room.bytes, LINE))


def version() -> str:
    """The version of the library, as `pciex --version` prints it."""
    return text_of(library.version(room.bytes, LINE))


# ---- the CRCs of a link


def lcrc(packet: bytes) -> bytes:
    """The four bytes of a packet's LCRC, in the order in which they are sent. The packet is its sequence number's two bytes
    and its TLP."""
    packet = bytes_of(packet)
    return room.front(library.lcrc(packet, len(packet), room.bytes, LINE))


def lcrc_check(packet: bytes) -> str:
    """The check of a packet with its LCRC behind it: `good`, `failed`, or `nullified` if the LCRC is the complement of the
    right one. Without EDB treat a nullified packet as failed."""
    packet = bytes_of(packet)
    return ("good", "failed", "nullified")[library.lcrc_check(packet, len(packet))]


def dllp_crc(dllp: bytes) -> bytes:
    """The two bytes of a DLLP's CRC, in the order in which they are sent."""
    dllp = bytes_of(dllp)
    if len(dllp) != 4:
        raise ValueError("a DLLP has four bytes, without its CRC")
    return room.front(library.dllp_crc(dllp, len(dllp), room.bytes, LINE))


def dllp_check(dllp: bytes) -> bool:
    """Whether the last two of six bytes are the CRC of a DLLP's first four."""
    dllp = bytes_of(dllp)
    return library.dllp_check(dllp, len(dllp)) == 0
