"""A history of one of Jepsen's register tests to a log for `pciex search`:

    python3 examples/jepsen.py < history.edn | pciex search

Each register is a word of the memory, and each value a number, `nil` 0; of a counter, which has an `add`, a value is
itself. What becomes of each operation stands in docs/other-logs.md. Operations are `read`, `write`, `cas` and `add`, with
or without a key; others are refused. Above each record a comment has the entry that it comes from: its `:index`, or its
place from 0.
"""

import re
import sys

TOKEN = re.compile(r'[\[\](){}]|"(?:[^"\\]|\\.)*"|[^\[\](){}\s,"]+')
MOST_WORDS = 262144
KINDS = ("read", "write", "cas", "add")


def form(token, tokens):
    """The form of EDN that begins with this token: a dict, a list, a number, None, or the word as it is written."""
    if token[0] == "#":  # a tag
        return form(next(tokens), tokens)
    if token in ("[", "(", "{"):
        items = []
        while (following := next(tokens)) not in ("]", ")", "}"):
            items.append(form(following, tokens))
        return dict(zip(items[::2], items[1::2])) if token == "{" else items
    if token == "nil":
        return None
    return int(token) if re.fullmatch(r"-?\d+", token) else token


def history(text):
    """The entries of a history: maps, or one list of them."""
    tokens, entries = iter(TOKEN.findall(text)), []
    for token in tokens:
        try:
            read = form(token, tokens)
        except StopIteration:
            sys.exit("jepsen: the history ends in the middle of a form")
        entries += read if isinstance(read, list) else [read]
    return entries


class Operation:
    """An operation: its kind, its register, the value that it writes, or the pair that it compares and swaps, and how it
    ended: `:ok`, `:fail` or `:info`, which is also what it is while nobody knows."""

    def __init__(self, entry):
        self.kind, value = entry[":f"][1:], entry[":value"]
        if self.kind not in KINDS:
            sys.exit(f"jepsen: {entry[':f']} can't be said of a register")
        has_key = isinstance(value, list) and (self.kind != "cas" or isinstance(value[1], list))
        self.register, self.value = value if has_key else (None, value)
        if self.kind == "cas":
            old, new = self.value
            self.value = old, new
        self.end = ":info"

    def ends(self, entry):
        self.end = entry[":type"]
        if self.end not in (":ok", ":fail", ":info"):
            raise ValueError(self.end)
        if self.kind == "read" and self.end == ":ok":
            value = entry[":value"]
            self.value = value[1] if isinstance(value, list) else value


def edn(form):
    """A form, as it was written."""
    if isinstance(form, list):
        return "[" + " ".join(map(edn, form)) + "]"
    return "nil" if form is None else str(form)


def origin_of(place, entry):
    """What is said above a record of the entry that it comes from."""
    number = f":index {entry[':index']}" if ":index" in entry else f"entry {place}"
    return f"{number}, process {entry[':process']}: {entry[':type']} {entry[':f']} {edn(entry.get(':value'))}"


def comment(said):
    """A comment of one line: what isn't printable ASCII is left out, and so is all behind 200 bytes."""
    return "".join(c for c in f"# {said}" if " " <= c <= "~")[:200]


def operations(entries, origin):
    """What happened, in order: each operation where it was invoked, and once more where it ended, with the comment."""
    events, open_ones = [], {}
    for place, entry in enumerate(entries):
        try:
            process = entry[":process"]
            if not isinstance(process, int):  # the nemesis
                continue
            if entry[":type"] == ":invoke" and process not in open_ones:
                open_ones[process] = Operation(entry)
                events.append((open_ones[process], True, comment(origin(place, entry))))
            else:
                operation = open_ones.pop(process)
                operation.ends(entry)
                events.append((operation, False, comment(origin(place, entry))))
        except (KeyError, IndexError, TypeError, ValueError):
            sys.exit(f"jepsen: entry {place} is none of a register test: {entry}")
    return events or sys.exit("jepsen: there is no operation")


class Log:
    """All operations are requests of one requester: order binds only posted writes, and there is none."""

    def __init__(self, counts):
        self.lines, self.words, self.values = [], {}, None if counts else {None: 0}
        self.numbers = {}  # of each operation that was submitted

    def bytes_of(self, value):
        if self.values is not None:
            number = self.values.setdefault(value, len(self.values))
        elif value is None or isinstance(value, int):
            number = (value or 0) % 2**32
        else:
            sys.exit(f"jepsen: {edn(value)} is no number, and a counter has numbers")
        return number.to_bytes(4, "little").hex().upper()

    def submitted(self, operation):
        """The words of the request; none where it had no effect, or a read has no value."""
        at = "%X" % (4 * self.words.setdefault(operation.register, len(self.words)))
        if operation.end == ":fail" or (operation.kind == "read" and operation.end != ":ok"):
            return None
        if operation.kind == "read":
            return f"read {at} 1 F 0"
        values = operation.value if operation.kind == "cas" else [operation.value]
        return " ".join(["swap" if operation.kind == "write" else operation.kind, at, *map(self.bytes_of, values)])

    def invoke(self, operation, said):
        words = self.submitted(operation)
        if words:
            number = self.numbers[operation] = len(self.numbers)
            self.lines += [said, f"sub 1 {number} {words}"]

    def answer(self, operation, said):
        if operation.end != ":ok":
            return
        reply = "done"  # it acted, and its old value isn't known
        if operation.kind == "read":
            reply = "data " + self.bytes_of(operation.value)
        elif operation.kind == "cas":
            reply = "data " + self.bytes_of(operation.value[0])
        self.lines += [said, f"ans 1 {self.numbers[operation]} {reply}"]

    def text(self):
        if len(self.words) > MOST_WORDS:
            sys.exit(f"jepsen: more than {MOST_WORDS} registers")
        size = max(1, (4 * len(self.words) + 127) // 128) * 128
        return "\n".join(["pciex-log 2", f"memory 0 {size} 64", *self.lines, "end", ""])


def log_of(entries, origin=origin_of):
    """The text of the log. `origin` says of an entry, by its place and itself, where it comes from."""
    events = operations(entries, origin)
    log = Log(any(operation.kind == "add" for operation, _, _ in events))
    for operation, is_invoked, said in events:
        (log.invoke if is_invoked else log.answer)(operation, said)
    return log.text()


def main():
    sys.stdout.write(log_of(history(sys.stdin.read())))


if __name__ == "__main__":
    main()
