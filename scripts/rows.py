"""Runs worked rows over a program: rows.py PROGRAM FILE.. (rows/README.md says what a row is). Python 3, no module beside its own.

Each run is in an empty folder, and has 60 seconds. A run that goes otherwise is told by the file and the line of its words.
"""
import os
import re
import shlex
import subprocess
import sys
import tempfile
import time

LIMIT = 60
NAMES = {">": "standard output", "!": "standard error"}


class Unread(Exception):
    """A line that is none of a row."""


def plain(text):
    """Returns the bytes of a text with escapes."""

    def one(match):
        word = match.group(1)
        if word[0] == "{":
            count, _, part = word[1:-1].partition(":")
            return int(count) * plain(part).decode("latin-1")
        if word[0] == "x" and len(word) == 3:
            return chr(int(word[1:], 16))
        if word not in ("n", "r", "t", "\\"):
            raise Unread(f"\\{word} is no escape")
        return {"n": "\n", "r": "\r", "t": "\t", "\\": "\\"}[word]

    latin = text.encode("utf-8").decode("latin-1")
    return re.sub(r"\\(x[0-9A-Fa-f]{2}|\{\d+:(?:[^{}\\]|\\.)*\}|.|$)", one, latin).encode("latin-1")


def shown(some, most=300):
    """Returns bytes as they are told."""
    return repr(some[:most].decode("utf-8", "backslashreplace")) + ".." * (len(some) > most)


def words_of(text):
    """Returns the words of a line, as a shell parts them; what stands for a byte in them is read in each."""
    reader = shlex.shlex(text, posix=True, punctuation_chars=False)
    reader.whitespace_split, reader.escape, reader.commenters = True, "", ""
    try:
        return [plain(word) for word in reader]
    except ValueError as why:
        raise Unread(f"no words: {why}") from why


class Wanted:
    """What a stream is to be. Its lines in a row are all of one mode: whole lines with or without escapes, parts, a beginning,
    lines that stand somewhere, a number of lines, any text, none."""

    def __init__(self, mode=""):
        self.mode, self.texts = mode, []

    def add(self, mode, text):
        kind = "" if mode == "~" else mode
        if self.texts and (kind != self.mode or kind in ("^", "#", "?", "-")):
            raise Unread("another kind of line than the one before, for the same stream")
        self.mode = kind
        self.texts.append(plain(text) if mode in ("~", "^") else text.encode() + b"\n" * (mode == ""))

    def trouble(self, got):
        """Returns what is wrong with what came, or None."""
        place, lines = 0, got.split(b"\n")
        for text in self.texts:
            if self.mode == "*":
                found = got.find(text, place)
                if found < 0:
                    return f"has no part {shown(text)} behind the parts before"
                place = found + len(text)
            elif self.mode == "+" and not any(is_line(line, text) for line in lines):
                return f"has no line {shown(text)}"
            elif self.mode == "#" and len(lines) - 1 != int(text):
                return f"has {len(lines) - 1} lines, and not {int(text)}"
            elif self.mode == "^" and not got.startswith(text):
                return f"doesn't begin with {shown(text)}"
        whole = b"".join(self.texts) if self.mode in ("", "-") else got
        if got == whole:
            return None
        wanted = whole.split(b"\n")
        at = next((at for at, (one, other) in enumerate(zip(lines, wanted)) if one != other), min(len(lines), len(wanted)))
        there = [shown(it[at]) if at < len(it) else "its end" for it in (lines, wanted)]
        return f"has in line {at + 1} {there[0]}, and not {there[1]}"


def is_line(line, text):
    """Whether a line is this text, where `..` at an end of it stands for whatever is there."""
    if text.endswith(b".."):
        return line.startswith(text[:-2])
    return line.endswith(text[2:]) if text.startswith(b"..") else line == text


class Run:
    def __init__(self, place, sign, words):
        self.place, self.sign, self.words = place, sign, words
        self.input, self.status, self.wanted = b"", 0, {">": Wanted(), "!": Wanted("?")}

    def take(self, sign, mode, text):
        """Takes a line of the row behind the words."""
        if sign == "<" and mode in ("", "~") and not self.sign:
            self.input += plain(text) if mode else text.encode() + b"\n"
        elif sign in NAMES and mode in ("", "~", "*", "^", "+", "#", "?") or sign + mode == "!-":
            if mode in ("?", "-") and text or mode == "#" and not text.isdigit():
                raise Unread(f"this doesn't stand behind {sign}{mode}")
            self.wanted[sign].add(mode, text)
        elif sign + mode == "?" and text.isdigit():
            self.status = int(text)
        else:
            raise Unread(f"{sign + mode!r} begins no line of a row")

    def trouble(self, program, folder):
        """Runs the program. Returns what is wrong, or None, and what it wrote."""
        try:
            done = subprocess.run([program, *self.words], input=self.input, capture_output=True, timeout=LIMIT, cwd=folder)
        except subprocess.TimeoutExpired as ended:
            return f"no end after {LIMIT} seconds", ended.stdout or b""
        except OSError as why:
            return f"it doesn't start: {why}", b""
        troubles = [f"status {done.returncode}, and not {self.status}"] if done.returncode != self.status else []
        for sign, got in ((">", done.stdout), ("!", done.stderr)):
            why = self.wanted[sign].trouble(got)
            if why:
                troubles.append(f"{NAMES[sign]} {why}; it is {shown(got)}")
        return "; ".join(troubles) or None, done.stdout


def read(path):
    """Returns the runs of a file."""
    runs = []
    with open(path, "rb") as file:
        lines = file.read().decode("utf-8").split("\n")
    for number, line in enumerate(lines, 1):
        if not line or line[0] == "#":
            continue
        sign, mode, space, text = re.fullmatch(r"(.)([~*^+#=|?-]?)( ?)(.*)", line).groups()
        try:
            if text and not space:
                raise Unread("a space is missing")
            if sign == "$" and mode in ("", "=", "|"):
                if mode and not runs:
                    raise Unread("there is no run before")
                runs.append(Run(f"{path}:{number}", mode, words_of(text)))
            elif runs:
                runs[-1].take(sign, mode, text)
            else:
                raise Unread("there is no run before")
        except Unread as why:
            sys.exit(f"rows: {path}:{number}: {why}")
    if not runs:
        sys.exit(f"rows: {path}: there is no row")
    return runs


def main(program, *paths):
    wrong, count, began = 0, 0, time.time()
    files = [read(path) for path in paths]
    with tempfile.TemporaryDirectory() as folder:
        for runs in files:
            given, output = b"", b""
            for run in runs:
                run.input = {"": run.input, "=": given, "|": output}[run.sign]
                given = run.input
                why, output = run.trouble(os.path.realpath(program), folder)
                count += 1
                if why:
                    wrong += 1
                    print(f"rows: {run.place}: {why}")
    print(f"rows: {count} runs in {time.time() - began:.1f} s, {wrong} wrong")
    return 1 if wrong or not count else 0


sys.exit(main(*sys.argv[1:]))
