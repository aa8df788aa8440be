"""A proved PCI Express 4.0 memory device, alone or as an endpoint, a fabric over links that lose packets, a checker of
histories, and a monitor of ports.

The functions are those of c/pciex.h. A packet is `bytes` in the order of the wire. The proofs are of the library that
is called; nobody proves Python. `Program` asks the program in place of the library: where the library isn't there,
`Program` and `Fault` are, and every other name raises the ImportError that says why.

If a call raises, nothing has changed:

- `Fault`: the packet, the line of a packet's words or the configuration is none; the fault's name says why
- `Refused`: the fabric refuses the event, the monitor the packet, or the endpoint the DLLP
- `ValueError`: an argument can't be right, or the device, endpoint, fabric or monitor is closed or another thread's
- `MemoryError`: an allocation failed
"""

from ._fault import Fault
from ._program import Program

try:
    from ._calls import (
        Memory,
        Refused,
        Tlp,
        answer,
        check,
        decode,
        decode_tlp,
        dllp_check,
        dllp_crc,
        encode,
        fault_name,
        lcrc,
        lcrc_check,
        search,
        search_with_reasons,
        version,
    )
    from ._handles import Completions, Device, Endpoint, Fabric, LinkedEndpoint, Monitor, Outgoing
    from ._scoreboard import differ
except ImportError as error:
    _why = str(error)

    def __getattr__(name: str) -> object:
        """Why a name of the library isn't there."""
        if name in __all__:
            raise ImportError(_why)
        raise AttributeError(f"module 'pciex' has no attribute '{name}'")


__all__ = [
    "Completions",
    "Device",
    "Endpoint",
    "Fabric",
    "Fault",
    "LinkedEndpoint",
    "Memory",
    "Monitor",
    "Outgoing",
    "Program",
    "Refused",
    "Tlp",
    "answer",
    "check",
    "decode",
    "decode_tlp",
    "differ",
    "dllp_check",
    "dllp_crc",
    "encode",
    "fault_name",
    "lcrc",
    "lcrc_check",
    "search",
    "search_with_reasons",
    "version",
]
