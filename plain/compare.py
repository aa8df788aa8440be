#!/usr/bin/env python3
"""Runs two programs side by side on mutated input: compare.py LINES PROGRAM OTHER

Each subcommand gets LINES lines at least. They are the lines of examples/, of logs, scripts and traces that the first
program makes of random scripts, and of packets, each as it is or with a change: a word, digit or byte that is another, is
gone or stands twice, a line that is another's, a file that ends early. The files of examples/first are run as they are,
each with its arguments. What both print on either stream, and how they end, has to be the same, byte for byte. Tells each
input where it isn't, and fails then. The numbers are the same in each run.
"""

import glob
import os
import random
import subprocess
import sys
from concurrent.futures import ThreadPoolExecutor

ROOT = os.path.join(os.path.dirname(os.path.abspath(__file__)), "..")
LONGEST = 60


def run(program, args, text):
    try:
        done = subprocess.run([program, *args], input=text, capture_output=True, timeout=120)
    except subprocess.TimeoutExpired:
        return ("no end", b"", b"")
    return (done.returncode, done.stdout, done.stderr)


def lines_of(text):
    return text.split(b"\n")[:-1]


def read(pattern):
    found = []
    for path in sorted(glob.glob(os.path.join(ROOT, pattern))):
        found.append(open(path, "rb").read())
    return found


class Mutator:
    def __init__(self, seed):
        self.random = random.Random(seed)

    def word(self, word, pool):
        r = self.random
        kind = r.randrange(6)
        if kind == 0 and pool:
            return r.choice(pool)
        if kind == 1:
            return b""
        if kind == 2:
            return word + b" " + word
        if kind == 3 and word:
            at = r.randrange(len(word))
            return word[:at] + word[at + 1 :]
        if kind == 4 and word:
            at = r.randrange(len(word))
            return word[:at] + bytes([r.choice(b"0123456789ABCDEFabcdefxyz .-#\t\xff\x00")]) + word[at + 1 :]
        return str(r.choice([0, 1, 2, 3, 7, 8, 63, 64, 128, 255, 256, 4095, 4096, 65535, 2**32, 2**64, 2**64 - 1])).encode()

    def line(self, line, lines, pool):
        r = self.random
        kind = r.randrange(8)
        if kind == 0:
            return [r.choice(lines)]
        if kind == 1:
            return []
        if kind == 2:
            return [line, line]
        if kind == 3:
            return [line + r.choice([b"\r", b" ", b" x", b"\t", b" " * 520])]
        words = line.split(b" ")
        at = r.randrange(len(words))
        words[at] = self.word(words[at], pool)
        return [b" ".join(words)]

    def file(self, lines, rate):
        """The lines with about so many changes, and an end that may come early."""
        r = self.random
        pool = [word for line in lines for word in line.split(b" ")]
        out = []
        for line in lines:
            out += self.line(line, lines, pool) if r.random() < rate else [line]
        if r.random() < 0.1 and out:
            out = out[: r.randrange(len(out)) + 1]
        text = b"\n".join(out)
        return text if r.random() < 0.05 else text + b"\n"


def scripts(program, count):
    """Random scripts of a few dozen events."""
    made = []
    for seed in range(count):
        args = ["generate", "--seed", str(seed), "--events", str(10 + seed % 40), "--requesters", str(1 + seed % 7),
                "--lose", str(seed % 5), "--corrupt", str(seed % 3)]
        made.append(run(program, args, b"")[1])
    return made


def log_of(trace):
    """The log of a trace: what requesters saw, without how the memory acted."""
    out = []
    for line in lines_of(trace):
        words = line.split(b" ")
        if words[0] == b"pciex-trace":
            out.append(b"pciex-log 1")
        elif words[0] == b"sub" and len(words) > 4:
            out.append(b" ".join(words[:3] + words[4:]))
        elif words[0] == b"ans" and len(words) > 3:
            out.append(b" ".join(words[:3] + words[4:]))
        elif words[0] in (b"memory", b"end") or line.startswith(b"#"):
            out.append(line)
    return b"\n".join(out) + b"\n"


def inputs(program):
    """For each subcommand the files to begin with, and the arguments to choose from."""
    # Their timers and losses stay, and what comes after is as random.
    made = scripts(program, 120)
    script_files = [text for text in read("examples/*.txt") + read("examples/first/*.txt") if b"\nfabric " in b"\n" + text]
    with ThreadPoolExecutor(2) as pool:
        traces = list(pool.map(lambda text: run(program, ["step", "--trace"], text)[1], made + script_files))
    traces = [text for text in traces if text.startswith(b"pciex-trace")]
    trace_files = [text for text in read("examples/*.txt") + read("examples/first/*.txt") if b"pciex-trace" in text]
    logs = [log_of(text) for text in traces + trace_files] + [t for t in read("examples/first/*.txt") if b"pciex-log" in t]
    packets = read("examples/packets.txt") + [t for t in read("examples/first/*.txt") if t.startswith(b"# A FetchAdd")]
    words = read("examples/words.txt")
    with_bytes = [run(program, ["encode"], text)[1] for text in words]
    return {
        "tlp": (packets + with_bytes, [[], ["--size", "128"], ["--base", "80", "--block", "128"]], 0.6),
        "decode": (packets + with_bytes, [[]], 0.6),
        "encode": (words + [run(program, ["decode"], text)[1] for text in packets], [[]], 0.6),
        "check": (traces + trace_files, [[], ["--clocked"]], 0.1),
        "search": (logs + traces[:20], [["--limit", "2000"], ["--limit", "3000", "--granularity", "4"]], 0.1),
        "draw": (traces + trace_files, [[], ["--from", "2", "--to", "9"]], 0.1),
        "upgrade": (traces + trace_files, [[]], 0.1),
        "step": (made + script_files, [[], ["--trace"], ["--keep-going", "--echo"], ["--keep-going"]], 0.1),
        "chart": (made + script_files, [[], ["--levels"], ["--all"], ["--lane", "up1"]], 0.1),
        "endpoint": (read("examples/endpoint.txt"), [[], ["--trace"], ["--size", "65536", "--id", "8086:0D93"]], 0.1),
        "endpoint --link": (read("examples/linked.txt"), [[], ["--trace"], ["--crc"], ["--credits", "2,8,2,2"]], 0.1),
    }


def differ(name, args, text, one, other):
    print(f"compare: {name} {' '.join(args)}: the programs differ on this input, kept in compare.{name}.input")
    with open(f"compare.{name}.input", "wb") as out:
        out.write(text)
    for said, got in (("the first", one), ("the other", other)):
        print(f"  {said} ends with {got[0]}: {got[1][-300:]!r} {got[2][-300:]!r}")


def mutated(name, files, choices, rate, wanted):
    """Runs of a subcommand on files with changes, how many lines they have, and how many files differ from their first
    form."""
    mutate = Mutator(name)
    jobs = []
    count = changed = 0
    while count < wanted:
        lines = lines_of(mutate.random.choice(files))
        if name in ("tlp", "decode", "encode"):
            lines = [mutate.random.choice(lines) for _ in range(2000)]
        elif len(lines) > LONGEST and not name.startswith("endpoint"):
            lines = lines[:LONGEST]
        text = mutate.file(lines, rate)
        count += text.count(b"\n")
        changed += lines_of(text) != lines
        jobs.append(([*name.split(), *mutate.random.choice(choices)], text))
    return jobs, count, changed


def generated(wanted):
    """Runs of generate, and how many events they ask for."""
    r = random.Random("generate")
    jobs = []
    count = 0
    while count < wanted:
        events = r.choice([1, 10, 100, 1000])
        count += events
        args = ["generate", "--seed", str(r.randrange(2**64)), "--events", str(events), "--requesters", str(r.randrange(1, 9)),
                "--lose", str(r.randrange(6)), "--corrupt", str(r.randrange(6)), "--block", r.choice(["64", "128", "100"])]
        jobs.append((args, b""))
    return jobs, count


def sweeps():
    """Runs of sweep."""
    r = random.Random("sweep")
    jobs = []
    for count in range(8):
        first = r.randrange(2**63)
        args = ["sweep", "--seeds", f"{first}..{first + 9}", "--events", r.choice(["1", "100", "1000"]), "--workers", r.choice(["1", "2", "5"])]
        args += ["--requesters", str(r.randrange(1, 8)), "--lose", str(r.randrange(6)), "--corrupt", str(r.randrange(6))]
        jobs.append((args + r.choice([[], ["--clocked"], ["--keep-going", "--block", "128"]]), b""))
    return jobs


def first_examples():
    """Runs of the files of examples/first, each with its arguments."""
    jobs = []
    for path in sorted(glob.glob(os.path.join(ROOT, "examples/first/*.txt"))):
        args = open(path + ".args", encoding="utf-8").read().split()
        jobs.append((args, open(path, "rb").read()))
    return jobs


def main(words):
    if len(words) != 3:
        sys.exit(__doc__.split("\n")[0])
    wanted, program, other = int(words[0]), os.path.abspath(words[1]), os.path.abspath(words[2])
    failed = 0
    said = []

    def compare(jobs, what):
        nonlocal failed
        both = lambda job: (run(program, *job), run(other, *job))
        for (args, text), (one, two) in zip(jobs, pool.map(both, jobs)):
            if one != two:
                failed += 1
                if failed <= 5:
                    differ(args[0], args[1:], text, one, two)
        said.append(what)

    with ThreadPoolExecutor(os.cpu_count() or 2) as pool:
        for name, (files, choices, rate) in inputs(program).items():
            jobs, count, changed = mutated(name, files, choices, rate, wanted)
            compare(jobs, f"{name} {count} in {len(jobs)} files, {changed} changed")
        jobs, count = generated(wanted)
        compare(jobs, f"generate {count} in {len(jobs)} runs")
        jobs = [(["run", "--requesters", str(n), "--each", "30", "--lose", str(n + 1)], b"") for n in range(1, 8)]
        compare(jobs, f"run {len(jobs)} times")
        jobs = sweeps()
        compare(jobs, f"sweep {len(jobs)} times")
        jobs = first_examples()
        compare(jobs, f"examples/first {len(jobs)} files")
    print(f"compare: lines: {'; '.join(said)}: {'all alike' if not failed else f'{failed} differ'}")
    sys.exit(1 if failed else 0)


if __name__ == "__main__":
    main(sys.argv[1:])
