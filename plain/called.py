"""Whether the clauses of each function of `kit` that is called are tried: called.py KIT TESTS BINARY..

BINARY is a program or a library of plain Rust that wasn't optimized: its symbols are the functions that it may call. TESTS
is the built test `clauses` of the package `kit`, and KIT this package's folder, whose tests/clauses name what they try:
`/// Of MODULE::TYPE: FUNCTION..`. Each public function of `kit` in a BINARY has to be named, and each that is named has to be
in TESTS. What is always inlined, and so leaves no symbol, counts as called.
"""

import os
import re
import subprocess
import sys

# What is tried otherwise, by scripts/refused_allocations.sh: it is no stand-in, but Rust's own library lacks it.
OTHERWISE = ("alloc::ProgramAllocator",)


def symbols(binary):
    """The functions of `kit` in a binary, as MODULE::TYPE::FUNCTION."""
    listed = subprocess.run(["nm", "-C", "--defined-only", binary], check=True, capture_output=True, text=True).stdout
    found = set()
    for line in listed.split("\n"):
        name = re.sub(r"::h[0-9a-f]{16}$", "", line.split(" ", 2)[-1])
        if "{{" in name or "drop_in_place" in name:
            continue
        method = re.match(r"<kit::([\w:]+)(?:<.*>)? as (?:core|alloc|std|kit)::.*>::(\w+)$", name)
        if not method:
            while re.search(r"<[^<>]*>", name):
                name = re.sub(r"<[^<>]*>", "", name)
            method = re.match(r"kit::([\w:]+?)(?:::)+(\w+)$", name)
        if method and method.group(2).islower():
            found.add(f"{method.group(1)}::{method.group(2)}")
    return found


class Sources:
    """The sources of `kit`."""

    def __init__(self, kit):
        self.texts = {}
        for name in os.listdir(os.path.join(kit, "src")):
            if name.endswith(".rs"):
                self.texts[name[:-3]] = open(os.path.join(kit, "src", name), encoding="utf-8").read().split("#[cfg(test)]\nmod")[0]

    def is_public(self, name):
        """Whether a function can be called from outside: it is `pub`, or of a trait."""
        module, *middle, function = name.split("::")
        text = self.texts.get(module, "")
        if any(word.islower() and f"pub mod {word} " not in text for word in middle):
            return False
        blocks = []
        for block in re.finditer(r"(?m)^( *)(impl|pub trait)\b([^{]*)\{.*?^\1\}", text, re.S):
            of = re.sub(r"<[^<>]*>", "", re.sub(r"<[^<>]*>", "", block.group(3)))
            if middle and re.search(rf"\b{middle[-1]}\b", of.split(" where")[0]):
                blocks.append((" for " in of or block.group(2) == "pub trait", block.group()))
        if not middle or middle[-1].islower():
            blocks.append((False, text))
        return not blocks or any(re.search(rf"\bfn {function}\b" if free else rf"\bpub (const |unsafe )*fn {function}\b", block)
                                 for free, block in blocks) or not any(re.search(rf"\bfn {function}\b", block) for _, block in blocks)

    def inlined(self):
        """What leaves no symbol."""
        found = set()
        for module, text in self.texts.items():
            for block in re.finditer(r"(?m)^impl(?:<[^{}]*>)? (?:[^{]* for )?(\w+)[^{]*\{.*?^\}", text, re.S):
                found |= {f"{module}::{block.group(1)}::{name}" for name in re.findall(r"#\[inline\(always\)\]\s*fn (\w+)", block.group())}
        return found


def named(kit):
    """What the tests say that they try."""
    found = set()
    for name in sorted(os.listdir(os.path.join(kit, "tests", "clauses"))):
        for line in open(os.path.join(kit, "tests", "clauses", name), encoding="utf-8"):
            said = re.match(r"\s*/// Of ([\w:]+): ([\w ]+)$", line)
            if said:
                found |= {f"{said.group(1)}::{function}" for function in said.group(2).split()}
    return found


def main(kit, tests, binaries):
    sources = Sources(kit)
    inlined = sources.inlined()
    called = set().union(*(symbols(binary) for binary in binaries))
    wanted = {name for name in called if sources.is_public(name)} | inlined
    otherwise = {name for name in wanted if name.startswith(tuple(other + "::" for other in OTHERWISE))}
    told = named(kit)
    failed = False
    for name in sorted(wanted - otherwise - told):
        print(f"called.py: kit::{name} is called, and no test of tests/clauses names it")
        failed = True
    for name in sorted(told - inlined - symbols(tests)):
        print(f"called.py: kit::{name} is named by tests/clauses, and not called there")
        failed = True
    if not failed:
        print(f"clauses of {len(wanted - otherwise)} called functions of kit are tried, {len(otherwise)} otherwise")
    return not failed


if __name__ == "__main__":
    if len(sys.argv) < 4:
        sys.exit(__doc__.split("\n")[0])
    sys.exit(0 if main(sys.argv[1], sys.argv[2], sys.argv[3:]) else 1)
