"""An endpoint behind its end of a link: flow control is initialized, then the Vendor ID is read.

It prints:

    accept
    dllp 00000000
    dllp c0040040
    dllp d0040010
    dllp e0000000
    dllp 90044010
    packet 00004a000001000000040008010034121e7c
"""

import pciex

with pciex.LinkedEndpoint(65536) as device:
    device.up()
    for dllp in ("40080080", "50080020", "60000000"):
        device.dllp(bytes.fromhex(dllp))
    print(device.packet(bytes.fromhex("0000 04000001 0008010F 01000000")))
    for is_dllp, data in device.outgoing():
        print("dllp" if is_dllp else "packet", data.hex())
