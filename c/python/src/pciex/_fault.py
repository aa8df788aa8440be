"""What a packet, words or a configuration that are none raise, with the library and with the program alone."""

from typing import Optional


class Fault(Exception):
    """A packet, words or a configuration have a fault: `str()` is its text as the program `pciex` prints it, and
    `number` is that of a packet's fault, 1 to 14, or None."""

    __module__ = "pciex"

    def __init__(self, text: str) -> None:
        super().__init__(text)
        words = text.split(" ")
        self.number: Optional[int] = int(words[1]) if len(words) == 3 and words[0] == "fault" else None
