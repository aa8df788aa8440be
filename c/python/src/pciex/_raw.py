"""The library's own functions, as c/pciex.h declares them, and the buffer for their results."""

import ctypes
import os

# The version of the library that this package is for.
VERSION = "0.2.0"

LINE = 512

# Codes of c/pciex.h from 2000 on.
NO_MEMORY = 2003
SMALL_ROOM = 2000


class Slot(ctypes.Structure):
    """A handle. It holds nothing at first."""

    _fields_ = [("at", ctypes.c_void_p)]


class Fields(ctypes.Structure):
    """The fields of a TLP."""

    _fields_ = [
        ("address", ctypes.c_uint64),
        ("payload_start", ctypes.c_uint32),
        ("payload_length", ctypes.c_uint32),
        ("length", ctypes.c_uint16),
        ("requester", ctypes.c_uint16),
        ("completer", ctypes.c_uint16),
        ("byte_count", ctypes.c_uint16),
        ("kind", ctypes.c_uint8),
        ("tc", ctypes.c_uint8),
        ("attr", ctypes.c_uint8),
        ("tag", ctypes.c_uint8),
        ("first", ctypes.c_uint8),
        ("last", ctypes.c_uint8),
        ("status", ctypes.c_uint8),
        ("lower", ctypes.c_uint8),
    ]


class Credits(ctypes.Structure):
    """The credits that an endpoint advertises."""

    _fields_ = [
        ("ph", ctypes.c_uint8),
        ("pd", ctypes.c_uint16),
        ("nph", ctypes.c_uint8),
        ("npd", ctypes.c_uint16),
    ]


_BYTES = ctypes.c_void_p
_SIZE = ctypes.c_size_t
_SLOT = ctypes.POINTER(Slot)

# The arguments of each function that returns a code of 32 bits.
_CODES = {
    "answer": [_BYTES, _SIZE, ctypes.c_uint64, ctypes.c_uint16, ctypes.c_char_p, _SIZE, _BYTES, _SIZE],
    "device_new": [ctypes.c_uint64, _SIZE, ctypes.c_uint16, _SLOT],
    "device_serve": [Slot, ctypes.c_uint32, ctypes.c_char_p, _SIZE, _BYTES, _SIZE, _SLOT],
    "device_entry": [Slot, _SIZE, _BYTES, _SIZE, _SLOT],
    "device_bytes": [Slot, _BYTES, _SIZE, _SLOT],
    "fabric_new": [ctypes.c_char_p, _SIZE, ctypes.c_bool, _BYTES, _SIZE, _SLOT],
    "fabric_event": [Slot, ctypes.c_char_p, _SIZE, _BYTES, _SIZE, _SLOT],
    "fabric_script": [
        Slot, ctypes.c_char_p, _SIZE, _BYTES, _SIZE, ctypes.POINTER(_SIZE), ctypes.POINTER(_SIZE), _SLOT,
    ],
    "fabric_settle": [Slot, _SLOT],
    "fabric_settled": [Slot, _BYTES, _SIZE, ctypes.POINTER(_SIZE), _SLOT],
    "fabric_trace": [Slot, _BYTES, _SIZE, ctypes.POINTER(_SIZE), _SLOT],
    "fabric_bytes": [Slot, _BYTES, _SIZE, _SLOT],
    "monitor_new": [ctypes.c_char_p, _SIZE, _BYTES, _SIZE, _SLOT],
    "monitor_request": [Slot, ctypes.c_uint8, ctypes.c_char_p, _SIZE, _BYTES, _SIZE, _SLOT],
    "monitor_completion": [Slot, ctypes.c_uint8, ctypes.c_char_p, _SIZE, _BYTES, _SIZE, _SLOT],
    "monitor_give_up": [Slot, ctypes.c_uint8, ctypes.c_uint8, _SLOT],
    "monitor_acted": [Slot, ctypes.c_uint8, ctypes.c_uint32, _BYTES, _SIZE, _SLOT],
    "endpoint_new": [_SIZE, ctypes.c_uint16, ctypes.c_uint16, ctypes.c_bool, _SLOT],
    "endpoint_tlp": [Slot, ctypes.c_char_p, _SIZE, _SLOT],
    "endpoint_next": [Slot, _BYTES, _SIZE, _SLOT],
    "endpoint_bytes": [Slot, _BYTES, _SIZE, _SLOT],
    "endpoint_trace": [Slot, _BYTES, _SIZE, ctypes.POINTER(_SIZE), _SLOT],
    "linked_new": [_SIZE, ctypes.c_uint16, ctypes.c_uint16, ctypes.POINTER(Credits), ctypes.c_bool, _SLOT],
    "linked_packet": [Slot, ctypes.c_char_p, _SIZE, ctypes.c_bool, _SLOT],
    "linked_dllp": [Slot, ctypes.c_char_p, _SIZE, ctypes.c_bool, _SLOT],
    "linked_next": [Slot, _BYTES, _SIZE, ctypes.POINTER(ctypes.c_bool), _SLOT],
    "linked_status": [Slot, _SLOT],
    "linked_bytes": [Slot, _BYTES, _SIZE, _SLOT],
    "linked_trace": [Slot, _BYTES, _SIZE, ctypes.POINTER(_SIZE), _SLOT],
    "check": [ctypes.c_char_p, _SIZE, _BYTES, _SIZE],
    "check_clocked": [ctypes.c_char_p, _SIZE, _BYTES, _SIZE],
    "search": [ctypes.c_char_p, _SIZE, ctypes.c_uint64, _BYTES, _SIZE, ctypes.POINTER(_SIZE)],
    "search_with_reasons": [
        ctypes.c_char_p, _SIZE, ctypes.c_uint64, ctypes.c_uint32, _BYTES, _SIZE, ctypes.POINTER(_SIZE), _BYTES, _SIZE,
        ctypes.POINTER(_SIZE),
    ],
    "decode": [ctypes.c_char_p, _SIZE, _BYTES, _SIZE],
    "decode_tlp": [ctypes.c_char_p, _SIZE, ctypes.POINTER(Fields)],
    "encode": [ctypes.c_char_p, _SIZE, _BYTES, _SIZE],
    "fault_name": [ctypes.c_uint32, _BYTES, _SIZE],
    "version": [_BYTES, _SIZE],
    "lcrc": [ctypes.c_char_p, _SIZE, _BYTES, _SIZE],
    "lcrc_check": [ctypes.c_char_p, _SIZE],
    "dllp_crc": [ctypes.c_char_p, _SIZE, _BYTES, _SIZE],
    "dllp_check": [ctypes.c_char_p, _SIZE],
}

# The arguments and the result of each other function.
_OTHERS = {
    "device_history_length": ([Slot, _SLOT], _SIZE),
    "device_free": ([Slot], None),
    "fabric_quiet": ([Slot, _SLOT], ctypes.c_bool),
    "fabric_history_length": ([Slot, _SLOT], _SIZE),
    "fabric_free": ([Slot], None),
    "monitor_open": ([Slot, _SLOT], _SIZE),
    "monitor_free": ([Slot], None),
    "endpoint_reset": ([Slot, _SLOT], None),
    "endpoint_free": ([Slot], None),
    "linked_up": ([Slot, _SLOT], None),
    "linked_down": ([Slot, _SLOT], None),
    "linked_refresh": ([Slot, _SLOT], None),
    "linked_replay": ([Slot, _SLOT], None),
    "linked_retrained": ([Slot, _SLOT], None),
    "linked_free": ([Slot], None),
}


class _Buffer(ctypes.c_ubyte * LINE):
    """The buffer of one call. No other call has it: a signal's handler, a finalizer or another thread may run between a
    call and the copy of its result, and make calls of its own."""


class _Code(int):
    """The code that a call returned, with the buffer that it wrote into."""

    buffer: _Buffer


def _with_buffer(code: int, function: object, arguments: tuple) -> int:
    for it in arguments:
        if isinstance(it, _Buffer):
            code = _Code(code)
            code.buffer = it
    return code


class _Library:
    """The functions `pciex_raw_*` of the shared object, under the rest of their names."""

    def __init__(self) -> None:
        here = os.path.dirname(os.path.abspath(__file__))
        path = os.environ.get("PCIEX_SO") or os.path.join(here, "libpciex.so")
        try:
            library = ctypes.CDLL(path)
        except OSError as error:
            raise ImportError(f"{path}: {error}; c/python/link.sh makes it, and PCIEX_SO can name another") from None
        for name, arguments in _CODES.items():
            self._take(library, name, arguments, ctypes.c_uint32)
        for name, (arguments, result) in _OTHERS.items():
            self._take(library, name, arguments, result)
        text = _Buffer()
        found = ctypes.string_at(text, self.version(text, LINE)).decode("ascii")
        if found != f"pciex {VERSION}":
            raise ImportError(f"{path} is {found}, and this package is for pciex {VERSION}")

    def _take(self, library: ctypes.CDLL, name: str, arguments: list, result: object) -> None:
        function = getattr(library, f"pciex_raw_{name}")
        function.argtypes, function.restype = arguments, result
        if result is ctypes.c_uint32:
            function.errcheck = _with_buffer
        setattr(self, name, function)


library = _Library()


class _Room:
    """The buffers for results."""

    @property
    def bytes(self) -> _Buffer:
        """A buffer for one call."""
        return _Buffer()

    def front(self, code: int, less: int = 0) -> bytes:
        """The first `code - less` bytes of what the call with this code wrote."""
        count = code - less
        return ctypes.string_at(code.buffer, count) if count else b""  # type: ignore[attr-defined]

    def text(self, code: int, less: int = 0) -> str:
        return self.front(code, less).decode("ascii")


room = _Room()
