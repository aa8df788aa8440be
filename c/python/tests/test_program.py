"""`Program`, without the library: PCIEX_PROGRAM names the program, else it is the one that `rt ci` built."""

import os
import signal
import subprocess
import sys
import threading
import unittest

import pciex

HERE = os.path.dirname(os.path.abspath(__file__))
PATH = os.environ.get("PCIEX_PROGRAM") or os.path.join(HERE, "..", "..", "..", "crates", "pciex", "out", "pciex")
ADD = bytes.fromhex("4C000001 01000500 00000040 07000000")
WRITE = bytes.fromhex("40000001 0100000F 00000080 01020304")
LOG = "pciex-log 1\nmemory 0 4096 64\nsub 1 0 add 40 07000000\nans 1 0 data 00000000\nend\n"


def old(value: int) -> bytes:
    """The completion of ADD, with the old value."""
    return bytes.fromhex("4A000001 00000004 01000500") + bytes([value, 0, 0, 0])


@unittest.skipUnless(os.access(PATH, os.X_OK), "there is no program, and PCIEX_PROGRAM names none")
class AProgram(unittest.TestCase):
    def test_answer(self) -> None:
        with pciex.Program(path=PATH) as program:
            self.assertEqual(program.answer(ADD), old(0))
            self.assertEqual(program.answer(memoryview(bytearray(ADD))), old(7))
            self.assertIsNone(program.answer(WRITE))
            for packet, number in [(b"", 1), (ADD[:3], 1), (bytes([0x80]) + ADD[1:], 2), (ADD[:-4], 9)]:
                with self.assertRaises(pciex.Fault) as caught:
                    program.answer(packet)
                self.assertEqual(caught.exception.number, number)
            with self.assertRaisesRegex(pciex.Fault, "fault line"):
                program.answer(bytes(1000))
            with self.assertRaisesRegex(ValueError, "completion"):
                program.answer(old(0))
            self.assertEqual(program.answer(ADD), old(14))
            program.close()
            self.assertEqual(program.answer(ADD), old(0))

    def test_wrong_words(self) -> None:
        for size, base, block in [(100, 0, 64), (4096, 64, 64), (4096, -128, 64), (4096, 1 << 64, 64), (4096, 0, 65)]:
            with self.assertRaisesRegex(ValueError, "invalid|unexpected"):
                pciex.Program(size, base, block, PATH)
        with self.assertRaises(FileNotFoundError):
            pciex.Program(path="/no/program")

    def test_another_memory(self) -> None:
        with pciex.Program(256, 0x100, 128, PATH) as program:
            self.assertEqual(program.answer(ADD[:10] + bytes([1]) + ADD[11:]), old(0))
            unsupported = program.answer(ADD)
            self.assertEqual(unsupported and unsupported[6], 0x20)

    def test_check_and_search(self) -> None:
        program = pciex.Program(path=PATH)
        trace = program.search(LOG)
        self.assertTrue(trace.endswith("\nhistory\nent 1 0 add 40 07000000\nend\n"))
        self.assertEqual((program.check(trace), program.check(trace, clocked=True), program.reasons), ("ok", "ok", []))
        self.assertEqual(program.check(trace.replace("data 0", "data 1")), "flaw 10 Reply 1")
        self.assertRegex(program.reasons[0], "^pciex: record 1 is line 4: data 10000000 where data 00000000 is expected")
        self.assertEqual(program.search(LOG.replace("data 0", "data 1")), "none 1")
        self.assertEqual(program.reasons[-1], "pciex: nothing put 10000000 at 40 before line 4")
        self.assertEqual(program.search("no log"), "fault 1 Head")
        torn = (
            "pciex-log 1\nmemory 0 4096 64\nsub 1 0 write 40 F F 0700000009000000\nsub 2 0 read 40 2 F F\n"
            "ans 2 0 data 0700000000000000\nend\n"
        )
        self.assertEqual(program.search(torn, granularity="4").count("sub"), 4)
        for wrong in (lambda: program.search(LOG, 0), lambda: program.search(LOG, granularity="5")):
            with self.assertRaises(ValueError):
                wrong()

    def test_a_program_that_ends(self) -> None:
        program = pciex.Program(path=PATH)
        program.answer(ADD)
        assert program._child
        program._child.kill()
        program._child.wait()
        for _ in range(2):
            with self.assertRaises(OSError):
                program.answer(ADD)
        program.close()
        self.assertEqual(program.answer(ADD), old(0))
        program.close()

    def test_one_call_at_a_time(self) -> None:
        """The handler of a signal comes in the middle of a call, and so do other threads: no call gets another's line."""
        wrong = []

        def ask() -> None:
            try:
                completion = program.answer(WRITE)
                wrong.extend([completion] if completion else [])
            except RuntimeError:
                pass

        with pciex.Program(path=PATH) as program:
            before = signal.signal(signal.SIGALRM, lambda *_: ask())
            signal.setitimer(signal.ITIMER_REAL, 1e-3, 1e-3)
            try:
                for turn in range(200):
                    self.assertEqual(program.answer(ADD), old(7 * turn % 256)[:12] + (7 * turn).to_bytes(4, "little"))
            finally:
                signal.setitimer(signal.ITIMER_REAL, 0)
                signal.signal(signal.SIGALRM, before)
            threads = [threading.Thread(target=ask) for _ in range(8)]
            for thread in threads:
                thread.start()
            for thread in threads:
                thread.join()
            with program._one_call, self.assertRaises(RuntimeError):
                program.answer(ADD)
        self.assertEqual(wrong, [])

    def test_without_the_library(self) -> None:
        """The package is imported, `Program` works, and what needs the library says why it isn't there."""
        code = (
            "import pciex, sys\n"
            "print(pciex.Program(path=sys.argv[1]).search(sys.argv[2]).count('ent'))\n"
            "for name in ('answer', 'no_name'):\n"
            "    try: getattr(pciex, name)\n"
            "    except (ImportError, AttributeError) as error: print(type(error).__name__, 'PCIEX_SO' in str(error))\n"
        )
        printed = subprocess.run([sys.executable, "-c", code, PATH, LOG], env={**os.environ, "PCIEX_SO": "/no/library"},
                                 stdout=subprocess.PIPE, text=True, check=True).stdout
        self.assertEqual(printed, "1\nImportError True\nAttributeError False\n")


if __name__ == "__main__":
    unittest.main()
