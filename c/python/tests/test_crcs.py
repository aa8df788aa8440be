"""The CRCs of a link: worked rows, and random bytes beside zlib and beside the bits of the standard, one by one."""

import random
import unittest
import zlib

import pciex

ADD = bytes.fromhex("0000 4C000001 01000500 00000040 07000000")
LCRCS = [
    (ADD, "21d4798b"),
    (bytes.fromhex("0FFF 4A000001 00000004 01000500 00000000"), "19080e4f"),
    (b"123456789", "2639f4cb"),
    (b"", "00000000"),
]
DLLP_CRCS = [("00000000", "b362"), ("10000fff", "cecf"), ("8001412c", "eff5"), ("903fcfff", "87dc"), ("90008003", "198b")]


def field_of(width: int, polynomial: int, data: bytes) -> bytes:
    """The CRC bit by bit: a register of ones, bits 0 to 7 of each byte, and the complement, whose bytes go out with bit 7
    first."""
    register = (1 << width) - 1
    for byte in data:
        for k in range(8):
            out = register >> (width - 1) & 1
            register = register << 1 & (1 << width) - 1
            if out != byte >> k & 1:
                register ^= polynomial
    remainder = register ^ (1 << width) - 1
    field = 0
    for i in range(width):
        field |= (remainder >> i & 1) << (8 * (i // 8) + 7 - i % 8)
    return field.to_bytes(width // 8, "big")


class Crcs(unittest.TestCase):
    def test_rows(self) -> None:
        for packet, field in LCRCS:
            self.assertEqual(pciex.lcrc(packet).hex(), field)
        for dllp, field in DLLP_CRCS:
            self.assertEqual(pciex.dllp_crc(bytes.fromhex(dllp)).hex(), field)
        self.assertEqual(pciex.lcrc_check(ADD + pciex.lcrc(ADD)), "good")
        self.assertEqual(pciex.lcrc_check(ADD), "failed")
        self.assertEqual(pciex.lcrc_check(b"\xff" * 4), "nullified")
        self.assertEqual(pciex.lcrc_check(b"abc"), "failed")
        self.assertTrue(pciex.dllp_check(bytes.fromhex("90008003198b")))
        self.assertFalse(pciex.dllp_check(bytes.fromhex("90008003198b00")))
        with self.assertRaises(ValueError):
            pciex.dllp_crc(b"abc")

    def test_random_bytes(self) -> None:
        draw = random.Random(1)
        for _ in range(2000):
            packet = draw.randbytes(draw.randrange(200))
            lcrc = pciex.lcrc(packet)
            self.assertEqual(lcrc, zlib.crc32(packet).to_bytes(4, "little"))
            self.assertEqual(lcrc, field_of(32, 0x04C11DB7, packet))
            dllp = draw.randbytes(4)
            self.assertEqual(pciex.dllp_crc(dllp), field_of(16, 0x100B, dllp))
            wrong = bytearray(packet + lcrc)
            wrong[draw.randrange(len(wrong))] ^= 1 << draw.randrange(8)
            self.assertNotEqual(pciex.lcrc_check(bytes(wrong)), "good")


if __name__ == "__main__":
    unittest.main()
