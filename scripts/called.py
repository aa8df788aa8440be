"""Which public functions no test calls: called.py FOLDER [--tests], in a translation of the crates, which it changes.

It puts a note at the head of each public function, compiles the tests of all packages but `plain_tests`, and runs each
test alone. A line for each function that no test calls: CRATE FUNCTION FILE:LINE. The last line counts them.
"""

import json
import os
import re
import subprocess
import sys

HEAD = re.compile(r"^[ \t]*pub ((?:const |unsafe |extern \"C\" )*)fn (\w+)", re.M)
# What a law's body has: calls of other laws.
LAW = re.compile(r"(?:\w+(?:::<[^()]*>)?\([^()]*\);\s*)*")

NOTE = """
pub mod seen {
    use std::collections::HashSet;
    use std::io::Write as _;
    use std::sync::Mutex;

    static SEEN: Mutex<Option<HashSet<&'static str>>> = Mutex::new(None);

    pub fn seen(name: &'static str) {
        let mut seen = SEEN.lock().unwrap_or_else(|poisoned| poisoned.into_inner());
        if !seen.get_or_insert_with(HashSet::new).insert(name) {
            return;
        }
        if let Ok(path) = std::env::var("SEEN") {
            let mut file = std::fs::OpenOptions::new().append(true).create(true).open(path).unwrap();
            writeln!(file, "{name}").unwrap();
        }
    }
}
"""


def end_of(text, place, opening, closing):
    """Where what is opened at this place is closed."""
    depth = 0
    while True:
        if text[place] in opening:
            depth += 1
        elif text[place] in closing:
            depth -= 1
            if depth == 0:
                return place
        place += 1


def body_of(text, place):
    """Where the body of the function begins whose name ends at this place."""
    while text[place] != "{":
        place = end_of(text, place, "([", ")]") + 1 if text[place] in "([" else place + 1
    return place


def noted(crate, path, names):
    """Puts the notes into a file, and adds the names of its functions."""
    text = open(path, encoding="utf-8").read()
    out, done = [], 0
    for head in HEAD.finditer(text):
        begin = body_of(text, head.end())
        body = text[begin + 1:end_of(text, begin, "{", "}")].strip()
        is_law = LAW.fullmatch(body) and "->" not in text[head.end():begin]
        if head.group(1) or is_law:
            continue
        name = f"{crate} {head.group(2)} {os.path.basename(path)}:{text.count(chr(10), 0, head.start()) + 1}"
        names.append(name)
        out += [text[done:begin + 1], f' ::kit::seen::seen("{name}"); ']
        done = begin + 1
    with open(path, "w", encoding="utf-8") as file:
        file.write("".join(out) + text[done:])


def note_all(folder):
    """Puts the notes into all crates that are no tests, and returns the functions' names."""
    names = []
    for crate in sorted(os.listdir(folder)):
        manifest = os.path.join(folder, crate, "Cargo.toml")
        if not os.path.exists(manifest) or crate in ("kit", "plain_tests") or re.search("_tests(_|$)", crate):
            continue
        for place, _, files in os.walk(os.path.join(folder, crate, "src")):
            for file in sorted(files):
                noted(crate, os.path.join(place, file), names)
        text = open(manifest, encoding="utf-8").read()
        if "\nkit.workspace" not in text:
            with open(manifest, "a", encoding="utf-8") as file:
                file.write("kit.workspace = true\n")
    with open(os.path.join(folder, "kit", "src", "lib.rs"), "a", encoding="utf-8") as file:
        file.write(NOTE)
    return names


def programs(folder):
    """The compiled tests, each with its package's name."""
    built = subprocess.run(["cargo", "test", "--workspace", "--exclude", "plain_tests", "--exclude", "kit", "--no-run", "--quiet",
                            "--message-format", "json"], cwd=folder, stdout=subprocess.PIPE, check=True)
    for line in built.stdout.splitlines():
        told = json.loads(line)
        if told.get("executable") and told["profile"]["test"]:
            yield told["target"]["name"], told["executable"]


def main(words):
    folder, names = words[0], note_all(words[0])
    calls = {name: [] for name in names}
    for crate, program in programs(folder):
        listed = subprocess.run([program, "--list"], stdout=subprocess.PIPE, check=True, text=True).stdout
        for test in re.findall(r"^(\S+): test$", listed, re.M):
            seen = os.path.join(folder, "seen")
            open(seen, "w").close()
            subprocess.run([program, "--exact", test], stdout=subprocess.DEVNULL, check=True, env={**os.environ, "SEEN": seen})
            for name in open(seen, encoding="utf-8").read().splitlines():
                calls[name].append(f"{crate}::{test}")
    for name, tests in calls.items():
        if "--tests" in words and tests:
            print(name, *tests)
        elif "--tests" not in words and not tests:
            print(name)
    called = sum(1 for tests in calls.values() if tests)
    print(f"public functions: {len(calls)}, called by a proved test: {called}")


main(sys.argv[1:])
