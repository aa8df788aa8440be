#!/usr/bin/env python3
"""Puts the page together: build.py PROGRAM TOP HTML [FILE]

PROGRAM is the wasm of scripts/page.sh, or a page that it has made, from which the program is taken: so whoever changes the
page's looks compiles once. TOP is the project. HTML is written; FILE is where it will stand, HTML if none is named. In a
folder of TOP it has links to the project's pages, elsewhere it names them.
"""

import base64
import glob
import json
import os
import re
import sys

HERE = os.path.dirname(os.path.abspath(__file__))
SCRIPTS = ("tasks", "said", "editor", "runner", "picture", "answer", "page")

# Of each subcommand: an example's name, its file, and options other than the page's own.
FILES = {
    "tlp": [("Add, read, write, CAS", "packets.txt", {}), ("One addition, one read", "first/*packet.txt", {})],
    "decode": [("Packets in digits", "packets.txt", {})],
    "encode": [("Packets and DLLPs in words", "words.txt", {})],
    "step": [
        ("An Ack is lost", "lost_ack.txt", {}),
        ("A first script", "first_script.txt", {}),
        ("Two requesters", "first/*script.txt", {}),
        ("A posted write passes a read", "write_passes_read.txt", {}),
        ("Credits come back", "credits.txt", {}),
        ("No credits are left", "credits_used_up.txt", {}),
        ("A link stops", "stopped_link.txt", {}),
    ],
    "search": [
        ("Two additions, one old value", "first/*log.txt", {}),
        ("A stale read", "stale_read.txt", {}),
        ("A doorbell overtakes its data", "overtaken.txt", {}),
    ],
    "check": [
        ("A write overtakes a read", "trace.txt", {}),
        ("Three requesters overlap", "overlaps.txt", {}),
        ("A stale read, clocked", "stale_read.txt", {"clocked": True}),
    ],
    "generate": [("Nothing is lost", None, {}), ("One in three is lost", None, {"seed": "7", "events": "400", "lose": "3"})],
    "endpoint": [("IDs, BAR 0, memory", "endpoint.txt", {}), ("Behind a link", "linked.txt", {"link": True})],
}
# Texts that are made of an example: the subcommand, the name, the file, what is replaced, by what.
CHANGED = [
    ("check", "A wrong answer", "overlaps.txt", "ans 1 2 5 data 02020304", "ans 1 2 5 data 01020304"),
    ("upgrade", "A trace of version 1", "trace.txt", "pciex-trace 2\nmemory 0 4096 64\n", "pciex-trace 1\nmemory 0 4096\n"),
]


def read(path):
    with open(path, encoding="utf-8") as file:
        return file.read()


def part(name):
    return read(os.path.join(HERE, name))


def example(top, file):
    if file is None:
        return ""
    found = glob.glob(os.path.join(glob.escape(top), "examples", file))
    if len(found) != 1:
        sys.exit(f"build.py: examples/{file} is {len(found)} files")
    return read(found[0])


def examples(top):
    made = {command: [{"name": name, "text": example(top, file), "options": options} for name, file, options in files]
            for command, files in FILES.items()}
    for command, name, file, old, new in CHANGED:
        text = example(top, file)
        if text.count(old) != 1:
            sys.exit(f"build.py: examples/{file} has {old!r} {text.count(old)} times")
        made.setdefault(command, []).append({"name": name, "text": text.replace(old, new), "options": {}})
    return made


def program(path):
    with open(path, "rb") as file:
        data = file.read()
    if data.startswith(b"\0asm"):
        return base64.b64encode(data).decode()
    found = re.search(rb'<script id="program"[^>]*>\s*(\S+)\s*</script>', data)
    if not found:
        sys.exit(f"build.py: {path} is neither the program nor a page with it")
    return found.group(1).decode()


def pages(top, file):
    """The project's folder as seen from that of the page, or nothing if the page stands elsewhere."""
    top, folder = os.path.realpath(top), os.path.dirname(os.path.realpath(file))
    if os.path.commonpath([top, folder]) != top:
        return ""
    return os.path.relpath(top, folder).replace(os.sep, "/") + "/"


def main(wasm, top, html, file=None):
    parts = {
        "style": part("style.css"),
        "worker": part("worker.js"),
        # no text of an example may end the script that it stands in
        "examples": json.dumps({"pages": pages(top, file or html), "of": examples(top)}).replace("</", "<\\/"),
        "program": program(wasm),
        **{name: part(name + ".js") for name in SCRIPTS},
    }
    page = re.sub(r"^@(\w+)@$", lambda found: parts[found.group(1)].rstrip("\n"), part("page.html"), flags=re.M)
    with open(html, "w", encoding="utf-8") as out:
        out.write(page)


if __name__ == "__main__":
    if len(sys.argv) not in (4, 5):
        sys.exit(__doc__)
    main(*sys.argv[1:])
