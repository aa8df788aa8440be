"""Compares `pciex search` on the logs of examples/jepsen.py and csv_to_log.py with a decider of its own: jepsen.py PROGRAM.

80 random histories of registers and 20 of counters, as Jepsen writes them: reads, writes and compare-and-sets, or reads
and additions, of several processes, some of which end in a crash. Half of the histories are right, the others are of
registers with a defect that shows or not. Each is searched as Jepsen writes it, and as a table: of events, or of operations
with times, of which some are equal. Above each record its log has to say the entry, or the row, that it comes from.
What is right is known by a search of Wing and Gong's kind, which knows nothing of logs. The histories are the same in each
run.
"""

import subprocess
import sys

HISTORIES = 100
COUNTERS = 20
OPERATIONS = 60
VALUES = 4
INITIAL = "nil"
ZERO = "0"  # of a counter
NEVER = 1 << 30


class Random:
    """Random numbers of its own, so that each version of Python draws the same histories."""

    def __init__(self, seed):
        self.state = seed * 2654435761 % (1 << 64) + 1

    def below(self, n):
        self.state ^= self.state << 13 & 0xFFFFFFFFFFFFFFFF
        self.state ^= self.state >> 7
        self.state ^= self.state << 17 & 0xFFFFFFFFFFFFFFFF
        return (self.state >> 16) % n

    def once_in(self, n):
        return self.below(n) == 0


class Operation:
    """An operation of a process on a register. `begin` and `end` are its entries' places in the history."""

    def __init__(self, process, kind, register, arguments, begin):
        self.process, self.kind, self.register, self.arguments = process, kind, register, arguments
        self.begin, self.end, self.result, self.outcome = begin, NEVER, None, "info"
        self.has_acted = False

    def entry(self, outcome):
        value = " ".join(self.arguments) or self.result or "nil"
        if self.kind == "cas":
            value = "[%s]" % value
        return "{:type :%s, :f :%s, :value [%d %s], :process %d, :time 0}" % (
            outcome, self.kind, self.register, value, self.process)


    def row(self, event, columns):
        """The operation's row of a table, with these columns; of operations with times if there is no event."""
        old, value = self.arguments if self.kind == "cas" else ("", *self.arguments) if self.arguments else ("", "")
        if self.kind == "read" and event in ("ok", None) and self.result != "nil":
            value = self.result or ""
        has_end = self.end is not NEVER
        cells = {"client": f"c{self.process}", "event": event, "op": self.kind, "key": self.register, "value": value, "old": old,
                 "start": self.begin, "end": self.end if has_end else "", "note": '"a, b"'}
        return ",".join(str(cells[column]) for column in columns)


class Registers:
    """Registers with one of these defects, or none: a stale read, a lost write or addition, or a compare-and-set that
    compares nothing."""

    def __init__(self, count, initial, defect):
        self.values = [[initial] for _ in range(count)]
        self.defect = defect

    def act(self, operation, random):
        values = self.values[operation.register]
        operation.has_acted, operation.outcome = True, "ok"
        is_wrong = self.defect and random.once_in(10)
        if operation.kind == "read":
            is_stale = is_wrong and self.defect == "stale read" and len(values) > 1
            operation.result = values[-2 if is_stale else -1]
        elif operation.kind in ("write", "add"):
            if not (is_wrong and self.defect == "lost write"):
                values.append(after(values[-1], operation))
        elif values[-1] == operation.arguments[0] or (is_wrong and self.defect == "no comparison"):
            values.append(operation.arguments[1])
        else:
            operation.outcome = "fail"


def drawn(random, counts, defect):
    """A history of counters or of registers: its text in EDN and its operations."""
    registers, lines, operations = Registers(1 + random.below(3), ZERO if counts else INITIAL, defect), [], []
    kinds = ("read", "add", "read", "add") if counts else ("read", "read", "write", "cas")
    at_work = [None] * (2 + random.below(5))
    names = list(range(len(at_work)))  # a process that crashed goes on under another name
    while len(operations) < OPERATIONS or any(at_work):
        place = random.below(len(at_work))
        operation = at_work[place]
        if operation is None:
            if len(operations) < OPERATIONS:
                kind = kinds[random.below(4)]
                arguments = tuple(str(random.below(VALUES)) for _ in range({"read": 0, "cas": 2}.get(kind, 1)))
                operation = Operation(names[place], kind, random.below(len(registers.values)), arguments, len(lines))
                lines.append(operation.entry("invoke"))
                operations.append(operation)
                at_work[place] = operation
        elif random.once_in(33):
            operation.outcome = "info"
            operation.result = None
            if random.once_in(2):  # else it never ends
                lines.append(operation.entry("info"))
            names[place] += 100
            at_work[place] = None
        elif not operation.has_acted:
            registers.act(operation, random)
        else:
            operation.end = len(lines)
            lines.append(operation.entry(operation.outcome))
            at_work[place] = None
    return "\n".join(lines) + "\n", operations


def after(value, operation):
    """The register's value after the operation, or None if it can't act there with what it was answered."""
    if operation.kind == "read":
        return value if operation.result == value else None
    if operation.kind == "write":
        return operation.arguments[0]
    if operation.kind == "add":
        return str(int(value) + int(operation.arguments[0]))
    return operation.arguments[1] if operation.arguments[0] == value else None


def has_order(operations, initial):
    """Whether operations on one register have an order: each acts between its beginning and its end, and one that crashed
    acts at any time after its beginning, or never."""
    todo = [it for it in operations if it.outcome == "ok" or (it.outcome == "info" and it.kind != "read")]
    answered = sum(1 << place for place, it in enumerate(todo) if it.outcome == "ok")
    seen, places = set(), [(0, initial)]
    while places:
        done, value = place = places.pop()
        if done & answered == answered:
            return True
        if place in seen:
            continue
        seen.add(place)
        left = [(bit, it) for bit, it in enumerate(todo) if not done >> bit & 1]
        soonest = min(it.end for bit, it in left if it.outcome == "ok")
        for bit, it in left:
            if it.begin <= soonest and after(value, it) is not None:
                places.append((done | 1 << bit, after(value, it)))
    return False


def is_right(operations, initial):
    return all(has_order([it for it in operations if it.register == register], initial)
               for register in {it.register for it in operations})


EVENT_COLUMNS = ("note", "value", "client", "op", "event", "key", "old")
TIME_COLUMNS = ("old", "start", "client", "key", "end", "note", "op", "value")


def coarse(operations):
    """The operations that had an effect or an answer, with times that are equal for up to five entries. What begins at a time
    begins before what ends at it."""
    kept = []
    for it in operations:
        if it.outcome != "fail":
            timed = Operation(it.process, it.kind, it.register, it.arguments, it.begin // 5)
            timed.result, timed.outcome = it.result, it.outcome
            timed.end = NEVER if it.outcome == "info" else it.end // 5
            kept.append(timed)
    return kept


def table_of_times(operations):
    return "\n".join([",".join(TIME_COLUMNS), *(it.row(None, TIME_COLUMNS) for it in operations), ""])


def table_of_events(text, operations):
    """The same history as a row for each of its entries."""
    rows, at_work = [",".join(EVENT_COLUMNS)], {}
    begins = {it.begin: it for it in operations}
    for place, line in enumerate(text.splitlines()):
        process = line.split(":process ")[1].split(",")[0]
        if place in begins:
            at_work[process] = begins[place]
            rows.append(begins[place].row("call", EVENT_COLUMNS))
        else:
            rows.append(at_work.pop(process).row(line.split(":type :")[1].split(",")[0], EVENT_COLUMNS))
    return "\n".join([*rows, ""])


def is_said(log, begins):
    """Whether above each record stands a comment, and each is about an operation of the text."""
    lines = log.splitlines()
    records = [place for place, line in enumerate(lines) if line[:4] in ("sub ", "ans ")]
    return all(lines[place - 1].startswith(begins) for place in records) and sum(line[0] == "#" for line in lines) == len(records)


def judged(program, converter, text, begins, wanted):
    """What is wrong with the search of the text's log, or nothing."""
    log = subprocess.run([sys.executable, converter], input=text, stdout=subprocess.PIPE, text=True, check=True).stdout
    searched = subprocess.run([program, "search"], input=log, capture_output=True, text=True, check=False)
    if not is_said(log, begins):
        return f"{text}\n{log}\n{converter}: a record has no origin"
    if searched.returncode != (0 if wanted else 1) or searched.stdout.startswith("none") == wanted:
        return "%s\n%s\n%s: search has status %d and prints %s, and %s order explains it" % (
            text, log, converter, searched.returncode, searched.stdout[:20], "an" if wanted else "no")
    return ""


def main(program):
    found = {True: 0, False: 0}
    wrong = ""
    for seed in range(1, HISTORIES + 1):
        defect = (None, "stale read", None, "lost write", None, "no comparison")[seed % 6]
        counts = seed > HISTORIES - COUNTERS
        text, operations = drawn(Random(seed), counts, "lost write" if counts and defect else defect)
        initial = ZERO if counts else INITIAL
        wanted = is_right(operations, initial)
        wrong = wrong or judged(program, "examples/jepsen.py", text, "# entry ", wanted)
        if seed % 2:
            wrong = wrong or judged(program, "examples/csv_to_log.py", table_of_events(text, operations), "# line ", wanted)
        else:
            timed = coarse(operations)
            right = is_right(timed, initial)
            wrong = wrong or judged(program, "examples/csv_to_log.py", table_of_times(timed), "# line ", right)
        if wrong:
            sys.exit("%s\njepsen: history %d, %s" % (wrong, seed, defect or "no defect"))
        found[wanted] += 1
    print("jepsen: %d histories with an order, %d with none, each as search says of its logs" % (found[True], found[False]))
    return 0 if min(found.values()) >= 10 else "jepsen: too few of one kind"


if __name__ == "__main__":
    sys.exit(main(*sys.argv[1:]))
