"""Each call once, and each of its refusals."""

import contextlib
import gc
import signal
import unittest

import pciex

ADD = bytes.fromhex("4C000001 01000500 00000040 07000000")
WRITE = bytes.fromhex("40000001 0100000F 00000080 01020304")


def old(value: int) -> bytes:
    """The completion of ADD, with the old value."""
    return bytes.fromhex("4A000001 00000004 01000500") + bytes([value, 0, 0, 0])


class ASignal(unittest.TestCase):
    def test_a_handler_calls_too(self) -> None:
        """A handler that runs between a call and the copy of its result has a buffer of its own."""
        memory, count = bytearray(256), 0

        def handler(number: int, frame: object) -> None:
            self.assertEqual(pciex.encode("ack 222"), bytes.fromhex("00000222"))
            signal.setitimer(signal.ITIMER_REAL, 0.0001)

        signal.signal(signal.SIGALRM, handler)
        signal.setitimer(signal.ITIMER_REAL, 0.0001)
        try:
            while count < 10000:
                memory[0x40:0x44] = bytes(4)
                self.assertEqual(pciex.answer(memory, ADD), old(0))
                count += 1
        finally:
            signal.signal(signal.SIGALRM, signal.SIG_IGN)
            signal.setitimer(signal.ITIMER_REAL, 0)


    def test_a_handler_uses_the_same_fabric(self) -> None:
        """Each result is that of its call, though a handler calls between."""
        fabric, calls = pciex.Fabric("fabric 1 0 4096", is_traced=True), 0

        def handler(number: int, frame: object) -> None:
            nonlocal calls
            calls += 1
            with contextlib.suppress(pciex.Refused):
                fabric.script("timer up1\n") if calls % 2 else fabric.event("timer up1")
            signal.setitimer(signal.ITIMER_REAL, 0.0002)

        signal.signal(signal.SIGALRM, handler)
        signal.setitimer(signal.ITIMER_REAL, 0.0002)
        try:
            for count in range(250):
                fabric.script("submit 1 add 40 01000000\n")
                self.assertEqual(fabric.settle(), [f"ans 1 {count} data {old(count).hex()[24:].upper()}"])
                trace = fabric.trace()
                self.assertNotIn("\0", trace)
                self.assertTrue(trace.endswith("end\n"))
        finally:
            signal.signal(signal.SIGALRM, signal.SIG_IGN)
            signal.setitimer(signal.ITIMER_REAL, 0)
        self.assertEqual(pciex.check(fabric.trace()), "ok")

    def test_a_shorter_and_a_longer_text(self) -> None:
        """As a handler would do between the two calls of a text."""
        fabric = pciex.Fabric("fabric 1 0 4096", is_traced=True)
        call, between = fabric._call, ["submit 1 add 40 01000000", "submit 1 add 44 01000000"]

        def interrupted(function: object, *arguments: object) -> object:
            code = call(function, *arguments)
            if between:
                fabric._call = call  # type: ignore[method-assign]
                fabric.event(between.pop())
                fabric._call = interrupted  # type: ignore[method-assign]
            return code

        fabric._call = interrupted  # type: ignore[method-assign]
        trace = fabric.trace()
        fabric._call = call  # type: ignore[method-assign]
        self.assertEqual(trace, fabric.trace())

    def test_a_settle_in_a_settle(self) -> None:
        fabric = pciex.Fabric("fabric 1 0 4096")
        fabric.event("submit 1 add 40 01000000")
        settled = fabric.settled

        def interrupted() -> object:
            fabric.settled = settled  # type: ignore[method-assign]
            with self.assertRaisesRegex(ValueError, "settles"):
                fabric.settle()
            return settled()

        fabric.settled = interrupted  # type: ignore[method-assign]
        self.assertEqual(fabric.settle(), ["ans 1 0 data 00000000"])
        self.assertEqual(fabric.settle(), [])


class WhatCantBe(unittest.TestCase):
    def test_arguments(self) -> None:
        with self.assertRaisesRegex(ValueError, "size"):
            pciex.Memory(1 << 64)
        with self.assertRaises(TypeError):
            pciex.Device(4096).entry(1.5)  # type: ignore[arg-type]
        with pciex.LinkedEndpoint(4096) as device:
            for call in (device.packet, device.dllp):
                with self.assertRaisesRegex(ValueError, "good"):
                    call(bytes(4), good="failed")  # type: ignore[arg-type]


class WithoutAHandle(unittest.TestCase):
    def test_answer(self) -> None:
        memory = bytearray(256)
        self.assertEqual(pciex.answer(memory, ADD), old(0))
        self.assertEqual(pciex.answer(memory, memoryview(bytearray(ADD))), old(7))
        self.assertIsNone(pciex.answer(memory, WRITE))
        self.assertEqual((memory[0x40], bytes(memory[0x80:0x84])), (14, bytes([1, 2, 3, 4])))
        memory.append(0)  # it isn't borrowed any more
        before = bytes(memory)
        for block in (0, 65, 1 << 16 | 64, -64):
            with self.assertRaisesRegex(ValueError, "block"):
                pciex.answer(memory, ADD, block=block)
        with self.assertRaisesRegex(ValueError, "completion"):
            pciex.answer(memory, old(0))
        with self.assertRaisesRegex(ValueError, "base"):
            pciex.answer(memory, ADD, base=1 << 64)
        with self.assertRaises(TypeError):
            pciex.answer(memory, 12)  # type: ignore[arg-type]
        with self.assertRaises(pciex.Fault) as caught:
            pciex.answer(memory, ADD[:3])
        memory.append(0)  # it isn't borrowed, though the exception is kept
        memory.pop()
        self.assertEqual((str(caught.exception), caught.exception.number), ("fault 1 Short", 1))
        self.assertEqual(bytes(memory), before)
        unsupported = pciex.answer(bytearray(), ADD)
        self.assertEqual(unsupported and unsupported[6], 0x20)

    def test_memory(self) -> None:
        memory = pciex.Memory(256, base=0x100, block=128)
        self.assertEqual(memory.answer(pciex.encode("add 140 05000000 from 0100 tag 05")), old(0))
        self.assertEqual((memory.bytes[0x40], len(memory.bytes)), (5, 256))
        with self.assertRaises(ValueError):
            pciex.Memory(256, block=32)

    def test_words(self) -> None:
        words = "add 40 07000000 from 0100 tag 05"
        self.assertEqual(pciex.encode(words), ADD)
        self.assertEqual(pciex.decode(ADD), words)
        self.assertEqual(pciex.decode(bytes.fromhex("10000FFF")), "nak FFF")
        read, bytes_read = "cfgread 1:0.0 000 F from 0008 tag 63", bytes.fromhex("04000001 0008630F 01000000")
        self.assertEqual((pciex.encode(read), pciex.decode(bytes_read)), (bytes_read, read))
        for call, text in [
            (lambda: pciex.decode(ADD[:3]), "fault 1 Short"),
            (lambda: pciex.decode(bytes.fromhex("04000001 0008631F 01000000")), "fault 14 Fields"),
            (lambda: pciex.encode("cfgread 01:00.0 000 F from 0008 tag 63"), "fault words"),
            (lambda: pciex.encode("add 40"), "fault words"),
            (lambda: pciex.encode("add 41 07000000 from 0100 tag 05"), "fault 13 Unaligned"),
        ]:
            with self.assertRaises(pciex.Fault) as caught:
                call()
            self.assertEqual(str(caught.exception), text)
        self.assertEqual(pciex.fault_name(13), "Unaligned")
        for number in (0, 14, -1):
            with self.assertRaises(ValueError):
                pciex.fault_name(number)
        self.assertTrue(pciex.version().startswith("pciex"))

    def test_fields(self) -> None:
        add = pciex.decode_tlp(ADD)
        self.assertEqual((add.kind, add.requester, add.tag, add.length, add.address), ("FetchAdd", 0x100, 5, 1, 0x40))
        self.assertEqual((add.payload, add.first, add.status), (bytes([7, 0, 0, 0]), 0, 0))
        write = pciex.decode_tlp(memoryview(pciex.encode("write 100000080 8 1 0102030405060708 from 0200 tag 01")))
        self.assertEqual((write.kind, write.address, write.first, write.last), ("MWr", 0x1_0000_0080, 8, 1))
        self.assertEqual(write.payload, bytes(range(1, 9)))
        data = pciex.decode_tlp(old(9))
        self.assertEqual((data.kind, data.byte_count, data.lower, data.payload), ("CplD", 4, 0, bytes([9, 0, 0, 0])))
        self.assertEqual(pciex.decode_tlp(bytes([0x4D]) + ADD[1:]).kind, "Swap")
        with self.assertRaisesRegex(pciex.Fault, "^fault 1 Short$"):
            pciex.decode_tlp(ADD[:3])

    def test_check(self) -> None:
        trace = (
            "pciex-trace 2\nmemory 0 4096 64\nsub 1 0 0 add 40 07000000\nans 1 0 1 data 00000000\n"
            "history\nent 1 0 add 40 07000000\nend\n"
        )
        self.assertEqual(pciex.check(trace), "ok")
        self.assertEqual(pciex.check(trace.replace("data 0", "data 1")), "flaw 10 Reply 1")
        self.assertEqual(pciex.check("no trace"), "fault 1 Head")
        self.assertEqual(pciex.check(trace, clocked=True), "ok")
        late = trace.replace("ans 1 0 1", "ans 1 0 2")
        self.assertEqual(pciex.check(late), "ok")
        self.assertEqual(pciex.check(late, clocked=True), "flaw 13 Clock 1")

    def test_search(self) -> None:
        log = "pciex-log 1\nmemory 0 4096 64\nsub 1 0 add 40 07000000\nans 1 0 data 00000000\nend\n"
        trace = pciex.search(log)
        self.assertEqual(pciex.check(trace), "ok")
        self.assertTrue(trace.endswith("\nhistory\nent 1 0 add 40 07000000\nend\n"))
        self.assertEqual(pciex.search(trace, 1), trace)
        self.assertEqual(pciex.search(log.replace("data 0", "data 1")), "none 1")
        self.assertEqual(pciex.search(log.replace("ans 1 0", "ans 2 0")), "flaw 5 Unasked 1")
        self.assertEqual(pciex.search("no log"), "fault 1 Head")
        with self.assertRaises(ValueError):
            pciex.search(log, -1)


    def test_search_with_reasons(self) -> None:
        log = (
            "pciex-log 1\nmemory 0 4096 64\nsub 1 0 write 40 F F 0100000002000000\nsub 2 0 read 40 2 F F\n"
            "ans 2 0 data 0000000002000000\nend\n"
        )
        answer, lines = pciex.search_with_reasons(log)
        self.assertEqual((answer, lines[0][:55]), ("none 2", "pciex: record 2 is line 5: lines 3 to 5 have no history"))
        self.assertGreater(len(lines), 1)
        answer, lines = pciex.search_with_reasons(log, granularity=4)
        self.assertEqual((pciex.check(answer, clocked=True), lines), ("ok", []))
        answer, lines = pciex.search_with_reasons("no log")
        self.assertEqual((answer, len(lines)), ("fault 1 Head", 1))
        for granularity in (1, 32, 128, -4, 1 << 32):
            with self.assertRaisesRegex(ValueError, "pieces|granularity"):
                pciex.search_with_reasons(log, granularity)


class ADevice(unittest.TestCase):
    def test_device(self) -> None:
        with pciex.Device(4096) as device:
            self.assertEqual(device.serve(0, ADD), old(0))
            self.assertIsNone(device.serve(1, WRITE))
            with self.assertRaises(pciex.Fault):
                device.serve(2, ADD[:3])
            with self.assertRaises(ValueError):
                device.serve(2, old(0))
            with self.assertRaises(ValueError):
                device.serve(1 << 32, ADD)
            self.assertEqual(device.history_length(), 2)
            self.assertEqual(device.history(), ["1 0 add 40 07000000", "1 1 write 80 F 0 01020304"])
            for place in (2, -1):
                with self.assertRaises(ValueError):
                    device.entry(place)
            memory = device.memory()
            self.assertEqual((len(memory), memory[0x40], memory[0x83]), (4096, 7, 4))
        with self.assertRaisesRegex(ValueError, "the device is closed"):
            device.history_length()
        device.close()

    def test_wrong_devices(self) -> None:
        for size, base, block, what in [(100, 0, 64, "size"), (4096, 64, 64, "base"), (4096, 0, 65, "block"),
                                        (-1, 0, 64, "size"), (4096, 1 << 64, 64, "base")]:
            with self.assertRaisesRegex(ValueError, what):
                pciex.Device(size, base, block)


class AFabric(unittest.TestCase):
    STEPS = [
        ("submit 1 add 40 07000000", "sub 1 0"),
        ("transmit up1", "sent 000"),
        ("deliver up1 good", "accept"),
        ("forward up1 0", "to 0"),
        ("transmit in", "sent 000"),
        ("deliver in good", "accept"),
        ("serve 0", "at 0"),
        ("transmit out", "sent 000"),
        ("deliver out good", "accept"),
        ("forward out 0", "to 1"),
        ("transmit down1", "sent 000"),
        ("deliver down1 good", "accept"),
        ("collect 1", "ans 1 0 data 00000000"),
    ]

    def test_fabric(self) -> None:
        with pciex.Fabric("fabric 1 0 4096", is_traced=True) as fabric:
            for line, result in self.STEPS:
                self.assertEqual(fabric.event(line), result)
                self.assertEqual(fabric.quiet(), line == "collect 1")
            with self.assertRaisesRegex(pciex.Refused, "Idle"):
                fabric.event("collect 1")
            with self.assertRaises(ValueError):
                fabric.event("settle")
            self.assertEqual(fabric.history_length(), 1)
            self.assertEqual((len(fabric.memory()), fabric.memory()[0x40]), (4096, 7))
            trace = fabric.trace()
            self.assertIn("ans 1 0 1 data 00000000\n", trace)
            self.assertEqual(pciex.check(trace), "ok")
        with self.assertRaisesRegex(ValueError, "the fabric is closed"):
            fabric.event("transmit up1")

    def test_script(self) -> None:
        script = "# a comment\n\n" + "\n".join(line for line, _ in self.STEPS)
        results = [result for _, result in self.STEPS]
        with pciex.Fabric("fabric 1 0 4096", is_traced=True) as fabric:
            self.assertEqual(fabric.scripted(), ([], 0))
            self.assertEqual(fabric.script(script), results)
            self.assertEqual(fabric.scripted(), (results, 2 + len(results)))
            with self.assertRaisesRegex(pciex.Refused, "^Idle$"):
                fabric.script("dllp up1 ack\r\n# another\ntransmit up1\nserve 0\n")
            self.assertEqual(fabric.scripted(), (["00000000"], 2))
            for line in ("settle", "fabric 1 0 4096", "no line"):
                with self.assertRaisesRegex(ValueError, "the line has the wrong form"):
                    fabric.script(line)
                self.assertEqual(fabric.scripted(), ([], 0))
            self.assertEqual((fabric.script(""), fabric.scripted()), ([], ([], 0)))
            self.assertEqual(len(fabric.script("dllp up1 ack\n" * 20000)), 20000)
            self.assertEqual(fabric.history_length(), 1)

    def test_settle(self) -> None:
        with pciex.Fabric("fabric 2 0 4096") as fabric:
            self.assertEqual(fabric.settled(), [])
            for requester in (1, 2):
                fabric.event(f"submit {requester} add 40 07000000")
            answers = ["ans 1 0 data 00000000", "ans 2 0 data 07000000"]
            self.assertEqual((fabric.settle(), fabric.settled(), fabric.quiet()), (answers, answers, True))
            self.assertEqual((fabric.settle(), fabric.settled()), ([], []))
        with self.assertRaisesRegex(ValueError, "the fabric is closed"):
            fabric.settle()

    def test_wrong_fabrics(self) -> None:
        with self.assertRaisesRegex(pciex.Fault, "Requesters") as caught:
            pciex.Fabric("fabric 8 0 4096")
        self.assertIsNone(caught.exception.number)
        for line in ("fabric", "transmit up1", "fabric 1 0 4096\udc00", "fabr\u00efc 1 0 4096"):
            with self.assertRaises(ValueError):
                pciex.Fabric(line)

    def test_one_that_nobody_closes(self) -> None:
        fabric = pciex.Fabric("fabric 1 0 4096")
        del fabric
        gc.collect()


class AMonitor(unittest.TestCase):
    def test_log(self) -> None:
        with pciex.Monitor(4096) as monitor:
            self.assertEqual(monitor.head, "pciex-log 1\nmemory 0 4096 64")
            self.assertEqual(monitor.request(1, ADD), "sub 1 0 add 40 07000000")
            with self.assertRaisesRegex(pciex.Refused, "^TagInUse$"):
                monitor.request(1, ADD)
            with self.assertRaisesRegex(pciex.Fault, "^fault 1 Short$"):
                monitor.request(1, ADD[:3])
            for call in (lambda: monitor.request(8, ADD), lambda: monitor.completion(1, ADD)):
                with self.assertRaises(ValueError):
                    call()
            self.assertEqual((monitor.open(), monitor.completion(1, old(0))), (1, "ans 1 0 data 00000000"))
            with self.assertRaisesRegex(pciex.Refused, "^Unexpected$"):
                monitor.acted(1, 0)
            self.assertEqual(monitor.open(), 0)

    def test_give_up(self) -> None:
        with pciex.Monitor(4096) as monitor:
            monitor.request(1, ADD)
            with self.assertRaisesRegex(pciex.Refused, "^Mismatch$"):
                monitor.completion(1, old(0)[:4] + bytes([0, 0, 0x20]) + old(0)[7:])
            with self.assertRaisesRegex(pciex.Refused, "^Unexpected$"):
                monitor.give_up(1, 6)
            for requester, tag in [(0, 5), (1, 256)]:
                with self.assertRaises(ValueError):
                    monitor.give_up(requester, tag)
            monitor.give_up(1, 5)
            self.assertEqual((monitor.open(), monitor.request(1, ADD)), (0, "sub 1 1 add 40 07000000"))
            self.assertEqual(monitor.completion(1, old(0)), "ans 1 1 data 00000000")

    def test_trace(self) -> None:
        with pciex.Monitor(4096, is_trace=True) as monitor:
            records = [monitor.request(1, ADD)]
            history = [monitor.acted(1, 0)]
            records.append(monitor.completion(1, old(0)))
            text = "\n".join([monitor.head, *records, "history", *history, "end", ""])
        self.assertEqual(pciex.check(text), "ok")

    def test_wrong_monitors(self) -> None:
        for size, base, block in [(100, 0, 64), (4096, 64, 64), (4096, 0, 32)]:
            with self.assertRaises(ValueError):
                pciex.Monitor(size, base, block)


class AnEndpoint(unittest.TestCase):
    READ = bytes.fromhex("00000002 000870FF FEDC007C")

    def test_endpoint(self) -> None:
        rows = [
            ("04000001 0008630F 01000000", "accept", ["4a000001000000040008630034121e7c"]),
            ("44000001 0008690F 01000010 0000DCFE", "accept", ["0a0000000100000400086900"]),
            ("44000001 00086B01 01000004 02000000", "accept", ["0a0000000100000400086b00"]),
            ("40000002 000800FF FEDC007C 11223344 55667788", "accept", []),
            (
                "00000002 000870FF FEDC007C",
                "accept",
                ["4a000001010000080008707c11223344", "4a000001010000040008700055667788"],
            ),
            ("74000001 00000050 00000000 00000000 19000000", "Ignored", []),
            ("40000001 0008000F FEDC1000 11223344", "Unsupported", []),
            ("4A000001 00000004 00086300 34121E7C", "Unexpected", []),
            ("00000001", "Malformed", []),
        ]
        with pciex.Endpoint(4096, is_traced=True) as endpoint:
            for tlp, handled, completions in rows:
                taken = endpoint.take(memoryview(bytes.fromhex(tlp)))
                self.assertEqual((taken.handled, [it.hex() for it in taken]), (handled, completions), tlp)
            first = next(endpoint.take(self.READ))
            self.assertEqual((first[12:], endpoint.next()[12:]), (bytes.fromhex("11223344"), bytes.fromhex("55667788")))
            self.assertIsNone(endpoint.next())
            endpoint.take(self.READ)
            endpoint.reset()
            self.assertIsNone(endpoint.next())
            memory = endpoint.memory()
            self.assertEqual((len(memory), memory[0x7C:0x84].hex()), (4096, "1122334455667788"))
            trace = endpoint.trace()
            self.assertIn("\nans 1 3 4 data 55667788\n", trace)
            self.assertEqual(pciex.check(trace, clocked=True), "ok")
            with self.assertRaises(TypeError):
                endpoint.take(12)  # type: ignore[arg-type]
        for call in (lambda: endpoint.take(self.READ), endpoint.next, endpoint.reset, endpoint.memory, endpoint.trace, lambda: next(taken)):
            with self.assertRaisesRegex(ValueError, "the endpoint is closed"):
                call()

    def test_an_endpoint_without_a_trace(self) -> None:
        with pciex.Endpoint(4096) as endpoint:
            self.assertEqual(endpoint.trace(), "pciex-trace 2\nmemory 0 4096 128\nhistory\nend\n")

    def test_wrong_endpoints(self) -> None:
        for size in (-4096, 0, 2048, 4097, 2 << 20, 1 << 32 | 4096):
            with self.assertRaisesRegex(ValueError, "size"):
                pciex.Endpoint(size)
        for vendor, device, what in [(1 << 16, 0, "vendor"), (0, -1, "device")]:
            with self.assertRaisesRegex(ValueError, what):
                pciex.Endpoint(4096, vendor, device)


class ALinkedEndpoint(unittest.TestCase):
    READ = bytes.fromhex("0000 04000001 0008630F 01000000")
    COMPLETION = (False, bytes.fromhex("0000 4A000001 00000004 00086300 34121E7C"))

    @staticmethod
    def dllps(digits: str) -> list:
        return [(True, bytes.fromhex(it)) for it in digits.split()]

    def test_link(self) -> None:
        with pciex.LinkedEndpoint(4096, credits=(1, 8, 1, 2)) as linked:
            self.assertEqual((linked.packet(self.READ), linked.status()), ("drop", "inactive"))
            linked.up()
            self.assertEqual(linked.status(), "init1")
            self.assertEqual(list(linked.outgoing()), self.dllps("40004008 50004002 60000000"))
            refused = [("400040", "Short"), ("40404008", "Scaled"), ("40200008", "CreditLimit")]
            for dllp, name in refused:
                with self.assertRaisesRegex(pciex.Refused, name):
                    linked.dllp(bytes.fromhex(dllp))
            self.assertEqual(linked.dllp(bytes.fromhex("02000001")), "gone")
            self.assertEqual(linked.dllp(bytes.fromhex("40004008"), good=False), "gone")
            for dllp in ("40004008", "50004002", "60004008"):
                self.assertEqual(linked.dllp(memoryview(bytes.fromhex(dllp))), "took")
            self.assertEqual(linked.status(), "init2")
            self.assertEqual(linked.next(), self.dllps("C0004008")[0])
            self.assertEqual([it.data.hex() for it in linked.outgoing()], ["d0004002", "e0000000"])
            self.assertIsNone(linked.next())
            became = [linked.packet(self.READ, good) for good in (False, False, True, True)]
            self.assertEqual(became, ["nak", "quiet", "accept", "duplicate"])
            self.assertEqual(list(linked.outgoing()), [*self.dllps("00000000 90008002"), self.COMPLETION])
            rows = [
                ("0001 04000001 0008640F 01000000", "accept"),
                ("0002 04000001 0008650F 01000000", "Overflow"),
                ("0003 40000001", "Malformed"),
            ]
            for packet, what in rows:
                self.assertEqual(linked.packet(memoryview(bytes.fromhex(packet))), what, packet)
            linked.refresh()
            self.assertEqual(list(linked.outgoing()), self.dllps("00000003 80008009 9000C002"))
            with self.assertRaisesRegex(pciex.Refused, "NotOutstanding"):
                linked.dllp(bytes.fromhex("00000001"))
            for _ in range(3):
                linked.replay()
                self.assertEqual(list(linked.outgoing()), [self.COMPLETION])
            linked.replay()
            self.assertEqual((linked.status(), linked.next()), ("stopped", None))
            linked.retrained()
            self.assertEqual((linked.status(), linked.next()), ("active", self.COMPLETION))
            linked.down()
            self.assertEqual((linked.status(), linked.next(), linked.memory()), ("inactive", None, bytes(4096)))
            self.assertEqual(linked.trace(), "pciex-trace 2\nmemory 0 4096 128\nhistory\nend\n")
            for bad in (lambda: linked.packet(12), lambda: linked.dllp(None)):  # type: ignore[arg-type]
                self.assertRaises(TypeError, bad)
        for call in (linked.up, linked.next, linked.status, linked.memory, linked.trace, lambda: linked.packet(self.READ)):
            with self.assertRaisesRegex(ValueError, "the endpoint is closed"):
                call()

    def test_trace(self) -> None:
        packets = [
            "0000 44000001 0008640F 01000010 0000DCFE",
            "0001 44000001 00086501 01000004 02000000",
            "0002 40000002 000800FF FEDC007C 11223344 55667788",
            "0003 4C000001 00086D00 FEDC0080 01000000",
        ]
        with pciex.LinkedEndpoint(4096, is_traced=True) as linked:
            linked.up()
            for dllp in ("40000000", "50000000", "60000000", "C0000000"):
                self.assertEqual(linked.dllp(bytes.fromhex(dllp)), "took")
            for packet in packets:
                self.assertEqual(linked.packet(bytes.fromhex(packet)), "accept", packet)
            trace = linked.trace()
        self.assertIn("\nsub 1 2 2 add 80 01000000\nans 1 2 3 data 55667788\nhistory\n", trace)
        self.assertEqual(pciex.check(trace, clocked=True), "ok")

    def test_wrong_links(self) -> None:
        for size in (0, 2048, 4097, 2 << 20):
            with self.assertRaisesRegex(ValueError, "size"):
                pciex.LinkedEndpoint(size)
        for credits in ((0, 64, 16, 16), (128, 64, 16, 16), (16, 7, 16, 16), (16, 64, 16, 2048), (256, 64, 16, 16)):
            with self.assertRaisesRegex(ValueError, "credits|ph"):
                pciex.LinkedEndpoint(4096, credits=credits)


class Differences(unittest.TestCase):
    def test_differ(self) -> None:
        read = pciex.encode("read 40 2 C 3 from 0100 tag 05")
        memory = pciex.Memory(4096)
        wanted = memory.answer(read)
        assert wanted is not None
        cpl = bytes.fromhex("0A000000 00002004 01000500")
        rows = [
            (wanted, None),
            (None, "no completion"),
            (wanted[:-1], "not a completion"),
            (read, "not a completion"),
            (cpl, "Status"),
            (bytes([0x0A, 0, 0, 0]) + wanted[4:12], "Fmt and Type"),
            (self.changed(wanted, 4, 0xFF), None),  # Completer ID
            (self.changed(wanted, 6, 0x10), None),  # BCM
            (self.changed(wanted, 11, 0x80), None),
            (self.changed(wanted, 8, 1), "Requester ID"),
            (self.changed(wanted, 9, 1), "Requester ID"),
            (self.changed(wanted, 10, 1), "Tag"),
            (self.changed(wanted, 1, 0x10), "TC"),
            (self.changed(wanted, 1, 0x04), "Attr"),
            (self.changed(wanted, 2, 0x20), "Attr"),
            (self.changed(wanted, 3, 3) + bytes(0), "not a completion"),
            (self.changed(wanted[:-4], 3, 3), "Length"),
            (self.changed(wanted, 6, 1), "Byte Count"),
            (self.changed(wanted, 7, 1), "Byte Count"),
            (self.changed(wanted, 11, 1), "Lower Address"),
            (self.changed(wanted, 13, 1), None),  # First DW BE is 1100b
            (self.changed(wanted, 14, 1), "data"),
            (self.changed(wanted, 17, 1), "data"),  # Last DW BE is 0011b
            (self.changed(wanted, 18, 1), None),
        ]
        for got, field in rows:
            self.assertEqual(pciex.differ(read, wanted, got), field, got and got.hex())
        read = pciex.encode("read 40 1 D 0 from 0100 tag 05")
        wanted = memory.answer(read)
        assert wanted is not None
        for place, field in [(12, "data"), (13, None), (14, "data"), (15, "data")]:
            self.assertEqual(pciex.differ(read, wanted, self.changed(wanted, place, 1)), field, place)
        self.assertEqual(pciex.differ(WRITE, None, None), None)
        self.assertEqual(pciex.differ(WRITE, None, wanted), "a completion")
        self.assertEqual(pciex.differ(ADD, old(0), self.changed(old(0), 15, 1)), "data")

    @staticmethod
    def changed(packet: bytes, place: int, bits: int) -> bytes:
        return packet[:place] + bytes([packet[place] ^ bits]) + packet[place + 1 :]


if __name__ == "__main__":
    unittest.main()
