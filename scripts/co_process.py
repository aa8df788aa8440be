"""Asks the program by two pipes, a line at a time: co_process.py PROGRAM.

Each line has to be answered before another one is written. Prints what went wrong and fails, or prints how many round
trips were made, and how many in a second.
"""

import select
import subprocess
import sys
import time

PROGRAM = sys.argv[1]
ADD = "4C000001 01000500 00000040 07000000"
OLD = "4A000001 00000004 01000500 "
SECONDS = 60  # until an answer is taken for missing

trips = 0


class Child:
    """The program with these words, and the bytes that it printed and nobody took."""

    def __init__(self, *words):
        self.words = " ".join(words)
        self.child = subprocess.Popen([PROGRAM, *words], stdin=subprocess.PIPE, stdout=subprocess.PIPE,
                                      stderr=subprocess.DEVNULL, bufsize=0)
        self.printed = b""

    def write(self, text):
        self.child.stdin.write(text.encode())

    def comes(self, seconds):
        """Whether more is printed meanwhile."""
        if not select.select([self.child.stdout], [], [], seconds)[0]:
            return False
        more = self.child.stdout.read(65536)
        self.printed += more
        return more != b""

    def line(self):
        """The next line that it prints."""
        while b"\n" not in self.printed:
            if not self.comes(SECONDS):
                sys.exit("co-process: pciex %s leaves a line without an answer" % self.words)
        line, self.printed = self.printed.split(b"\n", 1)
        return line.decode()

    def answers(self, line, *wanted):
        """The line is answered by these lines, before another one is written."""
        global trips
        self.write(line + "\n")
        for want in wanted:
            got = self.line()
            trips += 1
            if got != want:
                sys.exit("co-process: pciex %s answers %s to %s, and not %s" % (self.words, got, line[:80], want))

    def completes(self, count):
        """It prints so many completions with old values."""
        global trips
        for _ in range(count):
            if not self.line().startswith(OLD):
                sys.exit("co-process: pciex %s prints another line than a completion" % self.words)
            trips += 1

    def is_silent(self, after):
        """Nothing is printed yet."""
        if self.printed or self.comes(0.2):
            sys.exit("co-process: pciex %s prints %r after %s" % (self.words, self.printed, after))

    def ends(self, status):
        """Its input ends, and it prints nothing more."""
        self.child.stdin.close()
        while self.comes(SECONDS):
            pass
        if self.printed or self.child.wait() != status:
            sys.exit("co-process: pciex %s ends with %r, status %d" % (self.words, self.printed, self.child.wait()))


def shown(value):
    return value.to_bytes(4, "little").hex().upper()


def packets():
    """A thousand additions, each answered by the sum of those before it; and lines of other kinds."""
    child = Child("tlp")
    began = time.monotonic()
    for turn in range(1000):
        child.answers(ADD, OLD + shown(7 * turn))
    a_second = 1000 / (time.monotonic() - began)
    child.answers("40000001 0100000F 00000080 01020304", "-")
    child.answers("4C000001", "fault 1 Short")
    child.answers("0" * 600, "fault line")
    child.write("# a comment\n\n")
    child.is_silent("a comment")
    child.answers(ADD, OLD + shown(7000))
    # A line that comes in parts is answered when its line feed is there.
    child.write(ADD[:10])
    child.is_silent("a part of a line")
    child.answers(ADD[10:], OLD + shown(7007))
    # So is the last of many lines that are written at once, and those before it are answered while it isn't there,
    # whatever blocks are read.
    for lines in (1, 2, 100, 226, 227, 228, 1000):
        child.write((ADD + "\n") * lines + ADD[:-1])
        child.completes(lines)
        child.is_silent("a line without a line feed")
        child.write(ADD[-1] + "\n")
        child.completes(1)
    child.ends(1)
    return a_second


def words():
    child = Child("decode")
    for tag in range(256):
        child.answers("4C000001 0100%02X00 00000040 07000000" % tag, "add 40 07000000 from 0100 tag %02X" % tag)
    child.answers("10000FFF", "nak FFF")
    child.ends(0)
    child = Child("encode")
    for tag in range(256):
        child.answers("add 40 07000000 from 0100 tag %02X" % tag, "4C000001 0100%02X00 00000040 07000000" % tag)
    child.ends(0)


def fabric():
    child = Child("step", "--keep-going")
    child.write("fabric 1 0 4096\n")
    child.is_silent("the fabric's line")
    for turn in range(100):
        child.answers("submit 1 add 40 01000000", "sub 1 %d" % turn)
        child.answers("serve 0", "refused %d NotTakeable" % (3 * turn + 3))
        child.answers("settle", "ans 1 %d data %s" % (turn, shown(turn)), "settled")
    child.answers("settel", "fault 302 Script")
    child.write("settle\n")
    child.is_silent("a fault")
    child.ends(1)


RATE = packets()
words()
fabric()
print("co-process: %d lines, each answered before the next was written; %d of tlp in a second" % (trips, RATE))
