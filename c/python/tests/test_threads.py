"""Calls from several threads at once."""

import sys
import threading
import unittest
import warnings
from typing import Callable, List

import pciex
from pciex import _raw


def run(threads: int, work: Callable[[int], None]) -> List[BaseException]:
    """Runs the work in so many threads: what it raised there."""
    raised: List[BaseException] = []

    def one(number: int) -> None:
        try:
            work(number)
        except BaseException as error:
            raised.append(error)

    workers = [threading.Thread(target=one, args=(number,)) for number in range(threads)]
    for worker in workers:
        worker.start()
    for worker in workers:
        worker.join()
    return raised


class Threads(unittest.TestCase):
    def setUp(self) -> None:
        self.before = sys.getswitchinterval()
        sys.setswitchinterval(1e-6)

    def tearDown(self) -> None:
        sys.setswitchinterval(self.before)

    def test_each_thread_has_a_room(self) -> None:
        def work(number: int) -> None:
            words = f"add {64 * number + 64:X} 0{number}000000 from 0{number}00 tag 0{number}"
            packet = pciex.encode(words)
            for _ in range(3000):
                if pciex.decode(packet) != words:
                    raise AssertionError("the words of another thread")

        self.assertEqual(run(6, work), [])

    def test_a_handle_stays_on_its_thread(self) -> None:
        device = pciex.Device(4096)
        add = pciex.encode("add 40 01000000 from 0100 tag 00")
        calls: List[Callable[[], object]] = [lambda: device.serve(0, add), device.history, device.memory, device.close]
        raised = run(len(calls), lambda number: calls[number]())
        self.assertEqual([str(error) for error in raised], ["the device is another thread's"] * len(calls))
        self.assertTrue(all(isinstance(error, ValueError) for error in raised))
        self.assertIsNotNone(device.serve(0, add))
        self.assertEqual((device.history_length(), device.memory()[0x40]), (1, 1))
        device.close()

    def test_the_last_reference_on_another_thread(self) -> None:
        fabrics = [pciex.Fabric("fabric 1 0 4096")]
        slot = fabrics[0]._slot
        with warnings.catch_warnings(record=True) as caught:
            warnings.simplefilter("always")
            self.assertEqual(run(1, lambda number: fabrics.clear()), [])
        self.assertEqual([(it.category, bool(slot.at)) for it in caught], [(ResourceWarning, True)])
        _raw.library.fabric_free(slot)


if __name__ == "__main__":
    unittest.main()
