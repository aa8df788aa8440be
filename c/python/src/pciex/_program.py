"""The program `pciex` as a child process: a memory, the checker and the search, without the library."""

import subprocess
from threading import Lock
from types import TracebackType
from typing import List, Optional, Type

from ._fault import Fault


class Program:
    """The program `pciex`, found on the path or named by `path`, and with `answer` a memory as that of `Memory`. It takes
    nothing but Python's own library."""

    def __init__(self, size: int = 4096, base: int = 0, block: int = 64, path: str = "pciex") -> None:
        self._path = path
        self._words = [path, "tlp", "--size", str(size), "--base", f"{base:X}", "--block", str(block)]
        self._run(self._words, "")  # tests the words
        self._child: Optional["subprocess.Popen[str]"] = None
        self._one_call = Lock()
        self.reasons: List[str] = []

    def answer(self, request: bytes) -> Optional[bytes]:
        """One request at the memory: its completion, or None for a posted write. A call during another one, by a second
        thread or the handler of a signal, raises RuntimeError."""
        line = self._line((bytes(request).hex() or " ") + "\n")
        if line == "fault completion\n":
            raise ValueError("the packet is a completion, not a request")
        if line.startswith("fault"):
            raise Fault(line[:-1])
        return None if line == "-\n" else bytes.fromhex(line)

    def check(self, text: str, clocked: bool = False) -> str:
        """What `pciex check` prints of the text of a trace, as the function `check`. `reasons` are then the lines that it
        prints on standard error."""
        return self._printed(text, "check", *(["--clocked"] if clocked else []))

    def search(self, text: str, limit: int = 1000000, granularity: str = "whole") -> str:
        """What `pciex search` prints of the text of a log, as the function `search`. Reads and writes act in pieces of
        `granularity` bytes, `4`, `8`, `16` or `64`. `reasons` are as after `check`."""
        return self._printed(text, "search", "--limit", str(limit), "--granularity", granularity)

    def close(self) -> None:
        """Ends the memory. The next `answer` begins with zeros."""
        child, self._child = self._child, None
        if child is not None:
            child.communicate()

    def __enter__(self) -> "Program":
        return self

    def __exit__(
        self,
        kind: Optional[Type[BaseException]],
        error: Optional[BaseException],
        trace: Optional[TracebackType],
    ) -> None:
        self.close()

    def _line(self, asked: str) -> str:
        """The line that the memory prints for this one. Once a call has not ended as it should, each later one fails: its
        line might be the answer to another."""
        if not self._one_call.acquire(blocking=False):
            raise RuntimeError("another call of this program's `answer` has not ended")
        try:
            if self._child is None:
                self._child = subprocess.Popen(self._words, stdin=subprocess.PIPE, stdout=subprocess.PIPE,
                                               stderr=subprocess.DEVNULL, encoding="ascii", bufsize=1)
            child = self._child
            assert child.stdin and child.stdout
            try:
                child.stdin.write(asked)
                line = child.stdout.readline()
            except BaseException:
                child.kill()
                raise
            if not line.endswith("\n"):
                raise ChildProcessError(f"{self._path} ended before it answered")
            return line
        finally:
            self._one_call.release()

    def _printed(self, text: str, *words: str) -> str:
        """What a subcommand prints of the text: a trace with a line feed at its end, anything else without."""
        printed = self._run([self._path, *words], text)
        if not printed:
            raise (MemoryError if "pciex: memory" in self.reasons else ChildProcessError)(*self.reasons)
        return printed if printed.count("\n") > 1 else printed[:-1]

    def _run(self, words: List[str], text: str) -> str:
        """What the program prints of the text. Raises ValueError if it refuses the words."""
        ended = subprocess.run(words, input=text, encoding="utf-8", capture_output=True, check=False)
        self.reasons = ended.stderr.splitlines()
        if ended.returncode == 2:
            raise ValueError(ended.stderr.strip())
        if ended.returncode not in (0, 1, 3):
            raise ChildProcessError(f"{self._path} ended with status {ended.returncode}")
        return ended.stdout
