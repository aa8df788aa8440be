"""A table of what the clients of a register, a counter or a key-value store saw, to a log for `pciex search`:

    python3 examples/csv_to_log.py < operations.csv | pciex search

The first line names the columns, in any order. There is a row for each event, in the order of time:

    client,event,op,key,value       event: call, ok, fail or info (it may have acted)

or one for each operation, with two times; where two times are equal, calls come first, which claims least:

    client,start,end,op,key,value   without an end: it may have acted

`op` is read (or get), write (or put, set), cas, or add; behind a call it may be empty. A value that is empty is nil, as before
the first write. A cas has its old value in a column `old`. `key` may be left out, other columns are ignored. What becomes of
each operation stands in docs/other-logs.md. Above each record a comment has its row's line.
"""

import csv
import re
import sys
from decimal import Decimal, InvalidOperation

import jepsen

KINDS = {"read": ":read", "get": ":read", "write": ":write", "put": ":write", "set": ":write", "cas": ":cas", "add": ":add"}
EVENTS = {"call": ":invoke", "invoke": ":invoke", "ok": ":ok", "fail": ":fail", "info": ":info"}
CALLS, ENDS = 0, 1


def stop(text):
    sys.exit(f"csv_to_log: {text}")


def value_of(text):
    """A value: nil, a number, or a text."""
    if not text:
        return None
    return int(text) if re.fullmatch("-?[0-9]+", text) else text


def time_of(text):
    """A time, exactly."""
    time = Decimal(text)
    if not time.is_finite():
        raise ValueError(text)
    return time


def entry_of(row, process, kind, event):
    """An entry, as jepsen.py reads one."""
    value = value_of(row.get("value"))
    if kind == ":add" and event == ":invoke" and not isinstance(value, int):
        raise ValueError("an add of no number")
    if kind == ":cas" and event == ":invoke":
        value = [value_of(row["old"]), value]
    return {":process": process, ":type": event, ":f": kind, ":value": [row.get("key") or "", value]}


def by_events(rows):
    """The entries of rows that are events, with their lines."""
    names, open_ones = {}, {}
    for line, row in rows:
        event, word = EVENTS[row["event"].strip().lower()], row["op"].strip().lower()
        process = names.setdefault(row["client"], len(names))
        if (event == ":invoke") == (process in open_ones):
            raise ValueError("its client has a call that is open" if process in open_ones else "its client has no open call")
        kind = KINDS[word] if word or event == ":invoke" else open_ones[process]
        if kind != open_ones.get(process, kind):
            raise ValueError("it ends another operation than its client's call")
        if event == ":invoke":
            open_ones[process] = kind
        else:
            del open_ones[process]
        yield line, entry_of(row, process, kind, event)


def by_times(rows):
    """The entries of rows that are operations, with their lines, in the order of time. Each has a process of its own."""
    made = []
    for line, row in rows:
        kind, start = KINDS[row["op"].strip().lower()], time_of(row["start"])
        made.append((start, CALLS, line, entry_of(row, line, kind, ":invoke")))
        if (row["end"] or "").strip():
            end = time_of(row["end"])
            if end < start:
                raise ValueError("it ends before it starts")
            made.append((end, ENDS, line, entry_of(row, line, kind, ":ok")))
    return [(line, entry) for _, _, line, entry in sorted(made, key=lambda one: one[:2])]


def main():
    sys.stdin.reconfigure(encoding="utf-8-sig", errors="replace", newline="")
    table = csv.DictReader(sys.stdin)
    table.fieldnames = columns = [name.strip() for name in table.fieldnames or []]
    if not {"client", "op"} <= set(columns) or not ("event" in columns or {"start", "end"} <= set(columns)):
        stop("the first line has to name the columns client and op, and event, or start and end")
    texts, at = {}, [1, None]  # of each line its row; the row that is read

    def rows():
        for row in table:
            at[:] = table.line_num, row
            texts[table.line_num] = ",".join(text or "" for text in row.values() if not isinstance(text, list))
            yield table.line_num, row

    try:
        made = list((by_events if "event" in columns else by_times)(rows()))
    except (KeyError, AttributeError, TypeError, ValueError, InvalidOperation) as error:
        stop(f"line {at[0]} is no operation ({error}): {at[1]}")
    except csv.Error as error:
        stop(f"line {table.line_num}: {error}")
    if not made:
        stop("there is no operation")
    origins = [f"line {line}: {texts[line]}" for line, _ in made]
    sys.stdout.write(jepsen.log_of([entry for _, entry in made], lambda place, _: origins[place]))


if __name__ == "__main__":
    main()
