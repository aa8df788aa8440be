"""A device of one's own, which loses the second addition, and where HOOK stands the five lines of
docs/judge-your-own-device.md."""

import pciex

mine = pciex.Memory(4096)
memory = pciex.Memory(4096)
request = pciex.encode("add 40 07000000 from 0100 tag 05")
for turn in range(3):
    before = bytes(mine.bytes)
    got = mine.answer(request)
    if turn == 1:
        mine.bytes[:] = before
    print("request", turn)
    HOOK
