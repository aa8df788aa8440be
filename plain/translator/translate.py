#!/usr/bin/env python3
"""Writes the crates of this repository as a cargo workspace: translate.py ROOT FOLDER [--older] [--crates-io]

ROOT is the repository. FOLDER gets a package for each crate, the packages `kit` and `plain_tests`, and the workspace's
Cargo.toml. What stood in it of an earlier translation goes; what would be the same stays as it is, so that cargo builds what
changed. `--older` writes for Rust 1.63, without `plain_tests`, `--crates-io` for the crates of crates.io that modules of
`kit` stand for. The first thing that the translation doesn't know ends it, with its file and line.
"""

import json
import os
import re
import shutil
import subprocess
import sys

import names
from rust import File, Options
from tokens import Stop

MADE = "# Written by plain/translator/translate.py. Don't change it: change the crate that it was translated from.\n"


class Links:
    """What a crate's contracts may cite, and where that stands."""

    def __init__(self, crates, foreign, specs):
        self.crates = crates
        self.foreign = foreign
        self.specs = specs
        self.deps = set()
        self.macros = set()
        self.cites = set()
        self.crate = ""

    def cited(self, imports, text):
        """Links to the pages of definitions that a text of clauses cites."""
        words = set(re.findall(r"[^\s(){},;]+", text))
        pages = {}
        for name, (crate, module) in imports.items():
            if name.endswith("."):
                found = any(word.startswith(name) for word in words)
                shown = name[:-1]
            else:
                found = name in words or name.strip("◌") in words
                shown = name
            if found and module in self.specs.get(crate, ()):
                pages.setdefault((crate, module), []).append(shown)
        out = []
        for (crate, module), cited in sorted(pages.items()):
            self.cites.add(crate)
            root = "crate" if crate == self.crate else crate
            out.append(f"[{', '.join(f'`{c}`' for c in sorted(cited))}]({root}::definitions::{page_of(module)})")
        return out


def page_of(module):
    return re.sub(r"(?<=[a-z0-9])(?=[A-Z])", "_", module.replace(".", "_")).lower()


def read_crates(root):
    crates = {}
    for number, line in enumerate(open(os.path.join(root, "crates.txt")), 1):
        line = line.split("#")[0].strip()
        if not line:
            continue
        head, colon, deps = line.partition(":")
        words = head.split()
        if not colon or not words:
            raise Stop("crates.txt", number, "a line without a name and a colon")
        for option in words[1:]:
            if option != "staticlib" and not re.match(r"(may_abort|may_wait|tests_may)=", option):
                raise Stop("crates.txt", number, f"the option {option} isn't known")
        crates[words[0]] = (words[1:], deps.split())
    return crates


def read_specs(root, crates):
    specs = {}
    for crate in crates:
        folder = os.path.join(root, "crates", crate, "specs")
        found = {}
        for place, _, files in os.walk(folder):
            for name in files:
                if name.endswith(".antt") and name != "Lib.antt":
                    path = os.path.join(place, name)
                    module = os.path.relpath(path, folder)[:-5].replace(os.sep, ".")
                    found[module] = path
        if found:
            specs[crate] = found
    return specs


def sources(folder):
    for place, _, files in sorted(os.walk(folder)):
        for name in sorted(files):
            if name.endswith(".rt"):
                yield os.path.join(place, name)


WRITTEN = set()


def write(path, text):
    WRITTEN.add(path)
    if os.path.exists(path) and open(path, encoding="utf-8").read() == text:
        return
    os.makedirs(os.path.dirname(path), exist_ok=True)
    with open(path, "w", encoding="utf-8") as out:
        out.write(text)


def copy(source, path):
    write(path, open(source, encoding="utf-8").read())


def remove_others(folder):
    """Removes what this run didn't write."""
    for place, _, files in os.walk(folder):
        for path in (os.path.join(place, name) for name in files):
            if path not in WRITTEN:
                os.remove(path)


def definitions(found):
    """A page of documentation for each file of definitions."""
    if not found:
        return ""
    out = ["", "/// The definitions that contracts cite, in antt. They have no code.", "pub mod definitions {"]
    for module in sorted(found):
        out += [f'    #[doc = concat!("Definitions, in antt.\\n\\n```text\\n", include_str!("../specs/{module}.antt"), "```\\n")]',
                f"    pub mod {page_of(module)} {{}}", ""]
    out[-1] = "}"
    return "\n".join(out) + "\n"


def translate_crate(root, folder, crate, crates, specs, options, cuts):
    words, deps = crates[crate]
    foreign = [d for d in deps if d not in crates]
    for d in foreign:
        if d not in names.CRATES and d not in names.CRATES_GONE:
            raise Stop("crates.txt", 1, f"{crate} uses the kit's crate {d}, which isn't known")
    links = Links(crates, set(foreign), specs)
    links.crate = crate
    links.deps = set(deps)
    source = os.path.join(root, "crates", crate, "src")
    for path in sources(source):
        links.macros |= set(re.findall(r"macro_rules! *(\w+)", open(path, encoding="utf-8").read()))
    is_program = os.path.exists(os.path.join(source, "main.rt"))
    uses_kit = has_tests = False
    for path in sources(source):
        shown = os.path.relpath(path, root)
        text = open(path, encoding="utf-8").read()
        file = File(crate, shown, text, links, options)
        rust = file.rust()
        name = os.path.relpath(path, source)[:-3] + ".rs"
        if name == "lib.rs":
            more = definitions(specs.get(crate))
            rust += more
            file.cuts.note("definitions", more, "")
        cuts.append({"file": shown, "rust": f"{crate}/src/{name}", "cuts": file.cuts.changes()})
        uses_kit = uses_kit or "kit::" in rust
        has_tests = has_tests or "#[test]" in rust
        write(os.path.join(folder, crate, "src", name), rust)
    if not is_program:
        for module, path in specs.get(crate, {}).items():
            copy(path, os.path.join(folder, crate, "specs", module + ".antt"))
    own = [d for d in deps if d in crates] + sorted(links.cites - set(deps) - {crate})
    own = [d for d in own if not os.path.exists(os.path.join(root, "crates", d, "src", "main.rt"))]
    lines = [MADE, "[package]\n", f'name = "{crate}"\n', "version.workspace = true\nedition.workspace = true\n",
             "rust-version.workspace = true\npublish = false\n"]
    if not is_program:
        # No library is compiled once more, for tests that it lacks.
        lines += ["\n[lib]\ndoctest = false\n", "" if has_tests else "test = false\n",
                  'crate-type = ["cdylib", "staticlib"]\n' if "staticlib" in words else ""]
    lines.append("\n[lints]\nworkspace = true\n\n[dependencies]\n")
    if uses_kit:
        lines.append("kit.workspace = true\n")
    if options.crates_io and "thiserror" in foreign:
        lines.append("thiserror.workspace = true\n")
    lines += [f"{d}.workspace = true\n" for d in own]
    write(os.path.join(folder, crate, "Cargo.toml"), "".join(lines))


def version(root):
    script = os.path.join(root, "scripts", "version.sh")
    return subprocess.run(["sh", script], check=True, capture_output=True, text=True).stdout.strip()


def workspace(root, folder, crates, options):
    edition, rust = ("2021", "1.63") if options.older else ("2024", "1.88")
    out = [MADE, "[workspace]\nresolver = \"2\"\nmembers = [\n", '    "kit",\n']
    out += [f'    "{crate}",\n' for crate in crates]
    out += [] if options.older else ['    "plain_tests",\n']
    out += ["]\ndefault-members = [\"pciex\", \"pciex_c\"]\n\n",
            f'[workspace.package]\nversion = "{version(root)}"\nedition = "{edition}"\nrust-version = "{rust}"\n\n',
            "[workspace.dependencies]\n", 'kit = { path = "kit" }\n']
    out += [f'{crate} = {{ path = "{crate}" }}\n' for crate in crates]
    if options.crates_io:
        out.append(f'thiserror = "{names.THISERROR}"\n')
    out += ["\n# What only contracts read is left unused here.\n[workspace.lints.rust]\n"
            'unused_imports = "allow"\nunused_variables = "allow"\ndead_code = "allow"\n',
            "unexpected_cfgs = { level = \"warn\", check-cfg = ['cfg(feature, values(\"crates-io\"))'] }\n\n",
            '[workspace.lints.rustdoc]\nredundant_explicit_links = "allow"\n\n',
            "[profile.release]\nlto = \"fat\"\ncodegen-units = 1\npanic = \"abort\"\n\n",
            "# `cargo test --workspace` is compiled in a minute: what debuggers read would take half of it.\n",
            "[profile.dev]\ndebug = false\nincremental = false\n\n",
            "# The same as a release with checks of sums, products and casts at run time.\n",
            '[profile.checked]\ninherits = "release"\nlto = false\ncodegen-units = 16\noverflow-checks = true\ndebug-assertions = true\n']
    write(os.path.join(folder, "Cargo.toml"), "".join(out))
    # What links the library for C also links an archive of the toolchain, which is empty here.
    write(os.path.join(folder, "liblibc_c.a"), "!<arch>\n")


def kit(root, folder, options):
    made = os.path.join(folder, "kit")
    source = os.path.join(root, "plain", "kit")
    for place, folders, files in os.walk(source):
        folders[:] = [name for name in folders if name != "target"]
        for name in files:
            path = os.path.join(place, name)
            text = open(path, encoding="utf-8").read()
            if options.older:
                text = text.replace('unsafe extern "C" {', 'extern "C" {')
                text = re.sub(r'unsafe\((link_section = "[^"]*")\)', r"\1", text)
            if options.crates_io and name == "Cargo.toml":
                features = ", ".join(f'"dep:{name}"' for name in names.ORIGINALS)
                text += f'\n[features]\ndefault = ["crates-io"]\ncrates-io = [{features}]\n\n[dependencies]\n'
                originals = names.ORIGINALS.items()
                text += "".join(f'{name} = {{ version = "{version}", optional = true }}\n' for name, version in originals)
            write(os.path.join(made, os.path.relpath(path, source)), text)
    remove_others(os.path.join(made, "src"))


def remove_packages(folder, crates):
    """Removes the packages of crates that there are no more."""
    for name in os.listdir(folder):
        made = os.path.join(folder, name, "Cargo.toml")
        if name not in crates and made not in WRITTEN and os.path.exists(made):
            if open(made, encoding="utf-8").read().startswith(MADE):
                shutil.rmtree(os.path.join(folder, name))


def plain_tests(root, folder, crates):
    """The package of the tests that are written in plain Rust. It uses the crates that its files name."""
    source = os.path.join(root, "plain", "tests")
    made = os.path.join(folder, "plain_tests")
    named = set()
    for name in os.listdir(source):
        copy(os.path.join(source, name), os.path.join(made, "src", name))
        named |= set(re.findall(r"\b(\w+)::", open(os.path.join(source, name), encoding="utf-8").read()))
    lines = [MADE, "[package]\n", 'name = "plain_tests"\n', "version.workspace = true\nedition.workspace = true\n",
             "rust-version.workspace = true\npublish = false\n", "\n[lib]\ndoctest = false\n",
             "\n[dependencies]\nkit.workspace = true\n"]
    lines += [f"{crate}.workspace = true\n" for crate in crates if crate in named]
    write(os.path.join(made, "Cargo.toml"), "".join(lines))
    remove_others(os.path.join(made, "src"))


def main(words):
    older = "--older" in words
    crates_io = "--crates-io" in words
    words = [w for w in words if w not in ("--older", "--crates-io")]
    if len(words) != 2:
        sys.exit(__doc__.split("\n")[0])
    root, folder = words
    made = os.path.join(folder, "Cargo.toml")
    if os.path.isdir(folder) and os.listdir(folder):
        if not os.path.exists(made) or not open(made, encoding="utf-8").read().startswith(MADE):
            sys.exit(f"translate.py: {folder} has files that are no translation's")
    # The mark comes first, so that an interrupted translation can be begun again, and none is built that isn't whole.
    write(made, MADE)
    options = Options(older, crates_io)
    crates = read_crates(root)
    specs = read_specs(root, crates)
    cuts = []
    for crate in crates:
        translate_crate(root, folder, crate, crates, specs, options, cuts)
        remove_others(os.path.join(folder, crate, "src"))
        remove_others(os.path.join(folder, crate, "specs"))
    write(os.path.join(folder, "cuts.jsonl"), "".join(json.dumps(row, ensure_ascii=False) + "\n" for row in cuts))
    kit(root, folder, options)
    if not options.older:
        plain_tests(root, folder, crates)
    workspace(root, folder, crates, options)
    remove_packages(folder, crates)


if __name__ == "__main__":
    try:
        main(sys.argv[1:])
    except Stop as stop:
        sys.exit(f"translate.py: {stop}")
