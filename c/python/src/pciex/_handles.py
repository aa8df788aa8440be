"""Devices, fabrics, monitors and endpoints."""

from ctypes import byref, c_bool, c_size_t, c_ubyte
from threading import current_thread
from types import TracebackType
from typing import Any, Iterator, List, NamedTuple, Optional, Tuple, Type, TypeVar
from warnings import warn

from ._calls import Refused, block_of, bytes_of, line_of, number_of, packet_of, text_of, wrong
from ._raw import LINE, SMALL_ROOM, Credits, Slot, library, room

_Self = TypeVar("_Self", bound="_Handle")


class _Handle:
    """A handle. It is freed by `close`, at the end of its `with`, or with its last reference. It stays on the thread
    that made it, as c/pciex.h demands: calls from another thread raise ValueError."""

    _free: Any

    def __init__(self) -> None:
        self._slot = Slot()
        self._thread = current_thread()

    def close(self) -> None:
        """Frees it. Calls after that raise ValueError; another `close` does nothing."""
        if self._slot.at:
            self._stays()
            self._free(self._slot)
            self._slot.at = None

    def __enter__(self: _Self) -> _Self:
        return self

    def __exit__(
        self,
        kind: Optional[Type[BaseException]],
        error: Optional[BaseException],
        trace: Optional[TracebackType],
    ) -> None:
        self.close()

    def __del__(self) -> None:
        if self._thread is current_thread():
            self.close()
        elif self._slot.at:
            warn(f"{self._name()} was not closed, and its last reference is on another thread", ResourceWarning)

    def _name(self) -> str:
        return f"the {type(self).__name__.lower()}"

    def _stays(self) -> None:
        if self._thread is not current_thread():
            raise ValueError(f"{self._name()} is another thread's")

    def _call(self, function: Any, *arguments: Any) -> Any:
        """The result of the library's function for this handle."""
        self._stays()
        if not self._slot.at:
            raise ValueError(f"{self._name()} is closed")
        return function(self._slot, *arguments, byref(self._slot))

    def _copy(self, function: Any, size: int) -> bytes:
        """All bytes of the memory."""
        copied = (c_ubyte * size)()
        code = self._call(function, copied, size)
        if code:
            raise wrong(code)
        return bytes(copied)

    def _text(self, function: Any) -> str:
        """A text of any length. A signal's handler may make it longer or shorter between two calls."""
        length, text = c_size_t(), (c_ubyte * 0)()
        code = self._call(function, room.bytes, 0, byref(length))
        while code == SMALL_ROOM:
            text = (c_ubyte * length.value)()
            code = self._call(function, text, len(text), byref(length))
        if code:
            raise wrong(code)
        return bytes(text[: length.value]).decode("ascii")


class Device(_Handle):
    """A memory of `size` zeros at the address `base`, with a history of the requests that acted."""

    _free = library.device_free

    def __init__(self, size: int, base: int = 0, block: int = 64) -> None:
        super().__init__()
        base, size = number_of("base", base, 64), number_of("size", size, 63)
        code = library.device_new(base, size, block_of(block), byref(self._slot))
        if code:
            raise wrong(code)
        self._size = size

    def serve(self, number: int, request: bytes) -> Optional[bytes]:
        """The request acts, under this number of the caller's, and stands in the history from then on. Its completion,
        or None for a posted write."""
        number, request = number_of("number", number, 32), bytes_of(request)
        return packet_of(self._call(library.device_serve, number, request, len(request), room.bytes, LINE))

    def history_length(self) -> int:
        """How many requests have acted."""
        return self._call(library.device_history_length)

    def entry(self, place: int) -> str:
        """The request at a place of the history, from 0: `1 0 add 40 07000000`, requester, number and operation."""
        place = number_of("place", place, 63)
        return text_of(self._call(library.device_entry, place, room.bytes, LINE))

    def history(self) -> List[str]:
        """All entries of the history."""
        return [self.entry(place) for place in range(self.history_length())]

    def memory(self) -> bytes:
        """The memory as it is now."""
        return self._copy(library.device_bytes, self._size)


class Fabric(_Handle):
    """The fabric of the line `fabric 1 0 4096`. With `is_traced` it keeps a trace."""

    _free = library.fabric_free

    def __init__(self, line: str, is_traced: bool = False) -> None:
        super().__init__()
        words = line.encode()
        code = library.fabric_new(words, len(words), is_traced, room.bytes, LINE, byref(self._slot))
        text_of(code)
        self._size = int(line.split(" ")[3])
        self._scripted: Tuple[List[str], int] = ([], 0)
        self._settles = False

    def event(self, line: str) -> str:
        """The event of a script's line, `submit 1 add 40 07000000`, happens: its result, `sub 1 0`."""
        words = line.encode()
        return text_of(self._call(library.fabric_event, words, len(words), room.bytes, LINE), Refused)

    def script(self, text: str) -> List[str]:
        """The events of a script's lines happen, one after the other: their results. Empty lines and comments are skipped.
        If it raises, which it does as `event`, the lines before have happened, and `scripted` has their results."""
        words, results = text.encode(), b""
        buffer, done, length = (c_ubyte * 65536)(), c_size_t(), c_size_t()
        start, code = 0, SMALL_ROOM
        while code == SMALL_ROOM:
            code = self._call(
                library.fabric_script, words[start:], len(words) - start, buffer, len(buffer), byref(done), byref(length)
            )
            start += done.value
            results += bytes(buffer[: length.value])
        lines = words[:start].count(b"\n") + (start == len(words) and not words.endswith(b"\n") and start > 0)
        scripted = self._scripted = (results.decode("ascii").splitlines(), lines)
        if 1000 <= code < 2000:
            raise Refused(bytes(buffer[length.value : length.value + code - 1000]).decode("ascii"))
        if code:
            raise wrong(code)
        return scripted[0]

    def scripted(self) -> Tuple[List[str], int]:
        """The results of the last `script`, and how many of its lines were done."""
        return self._scripted

    def settle(self) -> List[str]:
        """Runs the fabric until nothing moves, as `settle` in a script does: the lines of the completions that its
        requesters collected, `ans 1 0 data 00000000`. Then it is quiet. If it raises MemoryError, some of the events have
        happened, and `settled` has what they collected. A signal's handler that calls it during a `settle` gets ValueError: it
        would take the other one's lines."""
        if self._settles:
            raise ValueError("the fabric settles")
        self._settles = True
        try:
            code = self._call(library.fabric_settle)
            if code:
                raise wrong(code)
            return self.settled()
        finally:
            self._settles = False

    def settled(self) -> List[str]:
        """The lines of the completions that the last `settle` collected."""
        return self._text(library.fabric_settled).splitlines()

    def trace(self) -> str:
        """The text of the trace and the history, as `pciex step --trace` writes it."""
        return self._text(library.fabric_trace)

    def quiet(self) -> bool:
        """Whether all that entered the lanes was taken: no request and no completion is on its way."""
        return self._call(library.fabric_quiet)

    def history_length(self) -> int:
        """How many requests have acted on the memory."""
        return self._call(library.fabric_history_length)

    def memory(self) -> bytes:
        """The memory as it is now."""
        return self._copy(library.fabric_bytes, self._size)


class Monitor(_Handle):
    """What the ports of a memory carry goes in, and lines of a log, or with `is_trace` of a trace, come out. `head` is
    the first two lines. Call it in the order in which the ports carry packets, requests first in one clock cycle."""

    _free = library.monitor_free

    def __init__(self, size: int, base: int = 0, block: int = 64, is_trace: bool = False) -> None:
        super().__init__()
        base, size = number_of("base", base, 64), number_of("size", size, 63)
        words = f"{'trace' if is_trace else 'log'} {base:X} {size} block {block_of(block)}".encode()
        code = library.monitor_new(words, len(words), room.bytes, LINE, byref(self._slot))
        self.head = text_of(code)

    def request(self, requester: int, packet: bytes) -> str:
        """The port of the requester, 1 to 7, carried a request: its line, `sub 1 0 add 40 07000000`."""
        requester, packet = number_of("requester", requester, 8), bytes_of(packet)
        return line_of(self._call(library.monitor_request, requester, packet, len(packet), room.bytes, LINE))

    def completion(self, requester: int, packet: bytes) -> str:
        """The port of the requester, 1 to 7, carried a completion: its line, `ans 1 0 data 00000000`."""
        requester, packet = number_of("requester", requester, 8), bytes_of(packet)
        return line_of(self._call(library.monitor_completion, requester, packet, len(packet), room.bytes, LINE))

    def give_up(self, requester: int, tag: int) -> None:
        """Gives up a tag: it is free, and the request that was open under it has no answer. For after `Mismatch`, and
        for a completion that never came."""
        requester, tag = number_of("requester", requester, 8), number_of("tag", tag, 8)
        line_of(self._call(library.monitor_give_up, requester, tag))

    def acted(self, requester: int, number: int) -> str:
        """For a trace, the request of that number acted: the line of the history, `ent 1 0 add 40 07000000`."""
        requester, number = number_of("requester", requester, 8), number_of("number", number, 32)
        return line_of(self._call(library.monitor_acted, requester, number, room.bytes, LINE))

    def open(self) -> int:
        """How many requests wait for their completions."""
        return self._call(library.monitor_open)


_WRONG_SIZE = 2004
_HANDLED = ("accept", "Ignored", "Unsupported", "Unexpected", "Malformed")


def _made(code: int) -> None:
    """Raises what an endpoint that wasn't made raises."""
    if code == _WRONG_SIZE:
        raise ValueError("the size is a power of two, 4096 to 1048576 bytes")
    if code:
        raise wrong(code)


class Endpoint(_Handle):
    """A memory device that a root complex enumerates, sets up and uses, with that Vendor ID and Device ID. Its memory is
    `size` zeros, a power of two from 4096 to 1048576, behind BAR 0. With `is_traced` it keeps a trace."""

    _free = library.endpoint_free

    def __init__(self, size: int, vendor: int = 0x1234, device: int = 0x7C1E, is_traced: bool = False) -> None:
        super().__init__()
        size, vendor = number_of("size", size, 63), number_of("vendor", vendor, 16)
        _made(library.endpoint_new(size, vendor, number_of("device", device, 16), is_traced, byref(self._slot)))
        self._size = size

    def take(self, tlp: bytes) -> "Completions":
        """A TLP for the endpoint, whatever its bytes are, and an iterator of the completions that are due then."""
        tlp = bytes_of(tlp)
        code = self._call(library.endpoint_tlp, tlp, len(tlp))
        if code >= 1000:
            raise wrong(code)
        return Completions(self, _HANDLED[code])

    def next(self) -> Optional[bytes]:
        """The next completion, None if no request waits. A posted request acts in `take`, each other one here, a read by
        one naturally aligned block of 128 bytes."""
        return packet_of(self._call(library.endpoint_next, room.bytes, LINE))

    def reset(self) -> None:
        """The registers are what they were at first, no request waits, and the memory stays."""
        self._call(library.endpoint_reset)

    def memory(self) -> bytes:
        """The memory as it is now."""
        return self._copy(library.endpoint_bytes, self._size)

    def trace(self) -> str:
        """The text of the trace and the history of its memory, as `pciex endpoint --trace` writes it; `check` judges it."""
        return self._text(library.endpoint_trace)


class Completions(Iterator[bytes]):
    """The completions of an endpoint that are due; one that isn't taken from it is still due. `handled` is what became of
    the TLP: `accept` for a request, which acted or waits, `Ignored`, `Unsupported`, `Unexpected` or `Malformed`."""

    def __init__(self, endpoint: Endpoint, handled: str) -> None:
        self.handled = handled
        self._endpoint = endpoint

    def __next__(self) -> bytes:
        completion = self._endpoint.next()
        if completion is None:
            raise StopIteration
        return completion


_ARRIVED = (*_HANDLED, "Overflow", "duplicate", "nak", "quiet", "drop")
_DLLPS = {1001: "Short", 1003: "Scaled", 1004: "NotOutstanding", 1005: "CreditLimit"}
_STATES = ("inactive", "init1", "init2", "active", "stopped")


def _is_good(good: bool) -> bool:
    """Whether a check was good: no word is one, `failed` would be true."""
    if good not in (True, False):
        raise ValueError(f"good is True or False, and not {good!r}")
    return bool(good)


class Outgoing(NamedTuple):
    """What an endpoint sends: a DLLP of four bytes, or a sequence number's two bytes and a TLP."""

    is_dllp: bool
    data: bytes


class LinkedEndpoint(_Handle):
    """An endpoint behind its end of a link: packets and DLLPs in, packets and DLLPs out, without their CRCs. Its link is down
    at first. `credits` are what it advertises: posted headers, 1 to 127, and data, 8 to 2047; non-posted headers, 1 to 127,
    and data, 2 to 2047. With `is_traced` it keeps a trace."""

    _free = library.linked_free

    def __init__(
        self,
        size: int,
        vendor: int = 0x1234,
        device: int = 0x7C1E,
        credits: Tuple[int, int, int, int] = (16, 64, 16, 16),
        is_traced: bool = False,
    ) -> None:
        super().__init__()
        size, vendor = number_of("size", size, 63), number_of("vendor", vendor, 16)
        ph, pd, nph, npd = credits
        given = Credits(
            number_of("ph", ph, 8), number_of("pd", pd, 16), number_of("nph", nph, 8), number_of("npd", npd, 16)
        )
        device = number_of("device", device, 16)
        _made(library.linked_new(size, vendor, device, byref(given), is_traced, byref(self._slot)))
        self._size = size

    def _name(self) -> str:
        return "the endpoint"

    def packet(self, packet: bytes, good: bool = True) -> str:
        """A packet arrives, whatever its bytes are; `good` says whether its LCRC was right. What became of it: as `handled`
        of Completions if it is accepted, else `Overflow`, `duplicate`, `nak`, `quiet`, or `drop` if the link isn't up.
        Requests act, and completions are to be sent, as far as the peer's credits go."""
        packet = bytes_of(packet)
        code = self._call(library.linked_packet, packet, len(packet), _is_good(good))
        if code >= 1000:
            raise wrong(code)
        return _ARRIVED[code]

    def dllp(self, dllp: bytes, good: bool = True) -> str:
        """A DLLP arrives, whatever its bytes are: `took`; `gone` if its check failed, its type isn't read, or it says nothing
        now. Raises Refused: `Short`, `Scaled`, `NotOutstanding`, `CreditLimit`."""
        dllp = bytes_of(dllp)
        code = self._call(library.linked_dllp, dllp, len(dllp), _is_good(good))
        if code in _DLLPS:
            raise Refused(_DLLPS[code])
        return "gone" if code else "took"

    def next(self) -> Optional[Outgoing]:
        """What is to be sent next, None if nothing is."""
        is_dllp = c_bool()
        sent = packet_of(self._call(library.linked_next, room.bytes, LINE, byref(is_dllp)))
        return None if sent is None else Outgoing(is_dllp.value, sent)

    def outgoing(self) -> Iterator[Outgoing]:
        """All that is to be sent: a Nak or an Ack, InitFCs, UpdateFCs, then packets. What isn't taken is still to be sent."""
        return iter(self.next, None)

    def status(self) -> str:
        """The state of the link: `inactive`, `init1`, `init2`, `active`; or `stopped` after the fourth replay without
        progress, until `retrained`."""
        return _STATES[self._call(library.linked_status)]

    def up(self) -> None:
        """The link is up: initialization begins, and the endpoint is reset. Its memory stays."""
        self._call(library.linked_up)

    def down(self) -> None:
        """The link is down: all that it had is lost, and the endpoint is reset. Its memory stays."""
        self._call(library.linked_down)

    def refresh(self) -> None:
        """A timer expired: InitFCs are due again, or an Ack and UpdateFCs."""
        self._call(library.linked_refresh)

    def replay(self) -> None:
        """REPLAY_TIMER expired: the unacknowledged packets are sent again."""
        self._call(library.linked_replay)

    def retrained(self) -> None:
        """The link was retrained: the sender is no longer stopped."""
        self._call(library.linked_retrained)

    def memory(self) -> bytes:
        """The memory as it is now."""
        return self._copy(library.linked_bytes, self._size)

    def trace(self) -> str:
        """The text of the trace and the history of its memory, as that of an Endpoint."""
        return self._text(library.linked_trace)
