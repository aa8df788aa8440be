"""For a scoreboard: what differs in a completion."""

from typing import Optional

from ._calls import Fault, decode

# The name of a part of a completion's header, the byte where it stands, and its bits there.
_FIELDS = [
    ("Status", 6, 0xE0),
    ("Fmt and Type", 0, 0xFF),
    ("Requester ID", 8, 0xFF),
    ("Requester ID", 9, 0xFF),
    ("Tag", 10, 0xFF),
    ("TC", 1, 0x70),
    ("Attr", 1, 0x04),
    ("Attr", 2, 0x30),
    ("Length", 2, 0x03),
    ("Length", 3, 0xFF),
    ("Byte Count", 6, 0x0F),
    ("Byte Count", 7, 0xFF),
    ("Lower Address", 11, 0x7F),
]


def _is_enabled(request: bytes, place: int) -> bool:
    """Whether the request enables byte `place` of its completion's data: all of an AtomicOp's, and those of a memory
    read that First and Last DW BE name, and between these."""
    count = ((request[2] & 3) << 8 | request[3]) or 1024
    if request[0] & 0xDF:
        return True
    if place < 4:
        return bool(request[7] >> place & 1)
    return place // 4 != count - 1 or bool(request[7] >> 4 + place % 4 & 1)


def differ(request: bytes, expected: Optional[bytes], got: Optional[bytes]) -> Optional[str]:
    """Compares a device's completion of a request, `got`, with the one of `answer`, `expected`; None stands for no
    completion. Returns None if they are the same, otherwise the name of the first field that differs. Not compared are
    the Completer ID, BCM, the bit before Lower Address, and bytes of data that the request does not enable."""
    if not expected or not got:
        return None if not expected and not got else "no completion" if expected else "a completion"
    try:
        decode(got)
    except Fault:
        return "not a completion"
    if got[0] & 0xBF != 0x0A:
        return "not a completion"
    for name, place, mask in _FIELDS:
        if (expected[place] ^ got[place]) & mask:
            return name
    for place, (wanted, found) in enumerate(zip(expected[12:], got[12:])):
        if wanted != found and _is_enabled(request, place):
            return "data"
    return None
