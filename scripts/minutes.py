#!/usr/bin/env python3
"""Tells what the processors' time of a run of `rt ci` went into: the proof of each crate, its tests, its wrong bodies.

  minutes.py PID FILE     watches the `rt ci` that is the process PID or one that PID started, looks once a second at what
                          it runs, and ends when it ends. FILE then has a line for each crate and kind, the dearest first:
                          crate, kind (crate, tests, wrong bodies, program) and seconds, with a tab between two. It is
                          written each minute, so a run that goes on can be read.
  minutes.py --sums FILE  prints the sums in minutes: crates 201, tests 30, wrong bodies 20
  minutes.py --top FILE   prints the twenty dearest lines

It reads /proc, and sends no process anything. What a command used is what it had used when last seen; what was used after
that is known from the time that `rt` has for all that it waited for, and goes to what ended in that second. What `rt` uses
itself is the kind `rt`. A run of a crate's tests counts with them; the build of a program with both compilers, its link and
its run are of the kind `program`. Of a run that is watched from its middle on, what ended before is missing.
"""
import os
import signal
import sys
import time

TICKS = os.sysconf("SC_CLK_TCK")
SUMS = (("crates", ("crate", "program")), ("tests", ("tests",)), ("wrong bodies", ("wrong bodies",)), ("rt itself", ("rt",)))


class Process:
    """What /proc tells of a process."""

    def __init__(self, pid):
        with open(f"/proc/{pid}/stat", encoding="utf-8", errors="replace") as it:
            words = it.read().rpartition(") ")[2].split()
        self.pid, self.parent, self.began = pid, int(words[1]), words[19]
        self.used, self.waited = sum(map(int, words[11:13])), sum(map(int, words[13:15]))


def processes():
    found = {}
    for name in os.listdir("/proc"):
        if name.isdigit():
            try:
                found[int(name)] = Process(int(name))
            except (OSError, IndexError, ValueError):
                pass  # it ended meanwhile
    return found


def words_of(pid):
    try:
        with open(f"/proc/{pid}/cmdline", encoding="utf-8", errors="replace") as it:
            return it.read().split("\0")[:-1]
    except OSError:
        return []


def kind_of(pid):
    """Returns the crate and the kind of the command that a process runs now, or None for another one."""
    words = words_of(pid)
    name = next((os.path.basename(it) for it in words[:1]), "")
    run = next((it for it in words if "/rt-run-" in it), None)
    if run:
        crate = os.path.basename(run)
        has_runner = any(os.path.basename(it) == "rattle-test" for it in words)
        return (crate[: -len("_tests")], "tests") if has_runner else (crate, "program")
    if name == "rattle-link":
        crate = os.path.basename(words[words.index("-o") + 1]) if "-o" in words else "?"
        return (crate[: -len("_tests")], "tests") if crate.endswith("_tests") else (crate, "program")
    if name != "rattle" or "--crate-name" not in words:
        return None
    crate = words[words.index("--crate-name") + 1]
    try:
        folder = os.readlink(f"/proc/{pid}/cwd")
    except OSError:
        return None
    if os.path.basename(folder).startswith("rt-edit-"):
        return crate, "wrong bodies"
    if "--test" in words:
        return crate, "tests"
    return crate, "program" if "--crate-checked" in words else "crate"


def is_run(pid):
    words = words_of(pid)
    return any(os.path.basename(it) == "rt" and next_word == "ci" for it, next_word in zip(words, words[1:]))


def run_below(pid):
    """Returns the process of `rt ci` that is this one or that this one started."""
    if is_run(pid):
        return pid
    all_now = processes()
    below = {pid}
    while True:
        more = {it.pid for it in all_now.values() if it.parent in below} - below
        if not more:
            return min((it for it in below if is_run(it)), default=None)
        below |= more


class Watch:
    def __init__(self, run):
        self.run, self.seen, self.kinds, self.seconds, self.waited = run, {}, {}, {}, None

    def add(self, kind, ticks):
        self.seconds[kind] = self.seconds.get(kind, 0) + ticks / TICKS

    def look(self):
        """Takes what the commands have used by now, and returns whether the run goes on."""
        now = processes()
        if self.run.pid not in now or now[self.run.pid].began != self.run.began:
            return False
        children = {}
        for it in now.values():
            children.setdefault(it.parent, []).append(it)
        whole = lambda it: it.used + it.waited + sum(map(whole, children.get(it.pid, [])))
        rt = now[self.run.pid]
        used = {(it.pid, it.began): whole(it) for it in children.get(rt.pid, [])}
        for key in used:
            self.kinds[key] = kind_of(key[0]) or self.kinds.get(key)
        ended = [it for it in self.seen if it not in used]
        rest = rt.waited - (rt.waited if self.waited is None else self.waited) - sum(self.seen[it] for it in ended)
        heirs = [self.kinds[it] for it in ended if self.kinds.get(it)] or [("rt", "rt")]
        for kind in heirs if rest > 0 else []:
            self.add(kind, rest / len(heirs))
        for it in ended:
            self.add(self.kinds.pop(it, None) or ("rt", "rt"), self.seen[it])
        self.seen, self.waited, self.run = used, rt.waited, rt
        return True

    def write(self, file):
        seconds = dict(self.seconds)
        for key, ticks in [*self.seen.items(), (None, self.run.used)]:
            kind = self.kinds.get(key) or ("rt", "rt")
            seconds[kind] = seconds.get(kind, 0) + ticks / TICKS
        with open(f"{file}.new", "w", encoding="utf-8") as it:
            for (crate, kind), much in sorted(seconds.items(), key=lambda line: -line[1]):
                it.write(f"{crate}\t{kind}\t{much:.1f}\n")
        os.replace(f"{file}.new", file)


def watch(pid, file):
    for _ in range(60):
        run = run_below(pid)
        if run or not os.path.exists(f"/proc/{pid}"):
            break
        time.sleep(0.5)
    if not run:
        sys.exit(f"minutes: there is no `rt ci` at or below the process {pid}")
    watched = Watch(Process(run))
    written = time.monotonic()
    while watched.look():
        if time.monotonic() - written > 60:
            watched.write(file)
            written = time.monotonic()
        time.sleep(1)
    watched.write(file)


def lines(file):
    with open(file, encoding="utf-8") as it:
        return [(crate, kind, float(much)) for crate, kind, much in (line.rstrip("\n").split("\t") for line in it)]


def main(words):
    signal.signal(signal.SIGTERM, lambda *_: sys.exit(1))
    if len(words) == 2 and words[0] == "--sums":
        sums = [(name, round(sum(much for _, kind, much in lines(words[1]) if kind in kinds) / 60)) for name, kinds in SUMS]
        print(", ".join(f"{name} {much}" for name, much in sums if much or name != "rt itself"))
    elif len(words) == 2 and words[0] == "--top":
        for crate, kind, much in lines(words[1])[:20]:
            print(f"{much:8.0f} s  {kind:<12}  {crate}")
    elif len(words) == 2 and words[0].isdigit():
        watch(int(words[0]), words[1])
    else:
        sys.exit("use: minutes.py PID FILE, minutes.py --sums FILE, minutes.py --top FILE")


main(sys.argv[1:])
