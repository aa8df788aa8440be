"""Makes the sources again from a translation and its list of cuts, and judges each cut: cuts.py ROOT FOLDER

FOLDER is what plain_rust.sh wrote of the repository ROOT, without --older. Its `cuts.jsonl` has a line for each file: what
was cut out of it or put into it, each cut with its byte in the text in Rust, its rule, the text there and the text that
stood in the source. With each cut undone a file has to be its source, byte by byte: so all else is the same. And each cut
has to be one that its rule allows (RULES). Then each rule is tried with cuts that are lies, and has to refuse them: an
operator that became another, and each cut of the list with the next word of code, or with another word.

Nothing here is the translator's but its table of names.
"""

import json
import os
import re
import sys

sys.path.insert(0, os.path.join(os.path.dirname(os.path.abspath(__file__)), "translator"))
sys.dont_write_bytecode = True
import names  # noqa: E402 - the table

COMMENT = r"//[^\n]*(?=\n|$)"
BLANK = rf"(?:\s|{COMMENT})*"
# Rust's strings, characters and comments, in which a space is more than a space.
LITERAL = re.compile(r'//[^\n]*|b?r(#*)".*?"\1|b?"(?:[^"\\]|\\.)*"|b?\'(?:[^\'\\\n]|\\[^\n][^\'\n]*)\'', re.S)


class Antt:
    """A text that is read from its front, as far as it is made for the prover alone."""

    def __init__(self, text):
        self.text = text

    def take(self, pattern):
        found = re.match(pattern, self.text, re.S)
        if found:
            self.text = self.text[found.end() :]
        return found

    def braces(self):
        """What stands in braces."""
        depth = 0
        # (texts and comments may have braces)
        for found in re.finditer(r'"(?:[^"\\]|\\.)*"|(?<=\s)-- [^\n]*|[{}]', self.text):
            depth += {"{": 1, "}": -1}.get(found.group(), 0)
            if depth == 0:
                self.text = self.text[found.end() :]
                return True
        return False

    def clause(self):
        return bool(self.take(r"(requires|ensures)\b\*?\s*\w*\s*(?=\{)")) and self.braces()

    def ghost(self):
        if self.take(r"ghost\s+use\s[^;{]*(\{[^;{}]*\})?[^;{]*;"):
            return True
        if not self.take(r"ghost\s+\w+\s*(?=[:=])"):
            return False
        parts = 0
        if self.take(r":\s*(?=\{)"):
            parts += self.braces()
            self.take(r"\s*by\s*(?=\{)") and self.braces()
        if self.take(r"\s*=\s*(?=\{)"):
            parts += self.braces()
        self.take(r"\s*[;,]")
        return parts > 0

    def all_of(self, *forms):
        """Whether it is nothing but these forms, spaces and comments."""
        while True:
            self.take(BLANK)
            if not self.text:
                return True
            if not any(form() for form in forms):
                return False


def ghost(rust, source, _):
    """A ghost item goes, with its `pub` and the comments above it."""
    text = Antt(source)
    return rust == "" and text.all_of(lambda: text.take(r"pub(\([a-z: ]+\))?\s+(?=ghost\b)"), text.ghost)


def clause(rust, source, _):
    """Clauses and ghost parameters go. A space is left before a body."""
    text = Antt(source)
    return rust in ("", " ") and bool(source) and text.all_of(text.clause, text.ghost)


def model(rust, source, _):
    """An `impl Model`, of ghost items alone, goes with the comments above it."""
    text = Antt(source)
    text.take(BLANK)
    if rust or not text.take(r"impl(<[^{}]*>)?\s+Model\s+for\s+[^{};]*\{") or not text.text.endswith("}"):
        return False
    text.text = text.text[:-1]
    return text.all_of(text.ghost)


def doc(rust, source, _):
    """Lines of documentation come."""
    return source == "" and all(re.fullmatch(r"\s*(///.*)?", line) for line in rust.split("\n"))


def space(rust, source, place):
    """Spaces go, and are no word's end, and none of a string."""
    before, after, inside = place
    return (rust + source).isspace() and not inside and (before.isspace() or after.isspace() or "" in (before, after))


def attribute(rust, source, place):
    """What only the prover reads of attributes goes, and the derive `Error`, for which the rule `error` puts its text."""
    if rust == "" and re.fullmatch(r"#!?\[(tactic|cycle)\([^\]]*\)\]", source):
        return True
    if rust == "" and re.fullmatch(r'#\[error\("[^"\\]*"\)\]', source):
        return True
    derive = r"#\[derive\(([\w, :]*)\)\]"
    old, new = re.fullmatch(derive, source), re.fullmatch(derive, rust or "#[derive()]")
    if not old or not new:
        return False
    kept = [word for word in re.split(r", *", old.group(1)) if word not in ("Drop", "Error", "derive")]
    return [word for word in re.split(r", *", new.group(1)) if word not in ("", "thiserror::Error")] == kept


def final(rust, source, place):
    """The word `final` goes, before a function."""
    return (rust, source) == ("", "final") and bool(re.match(r"\s*(unsafe |const )*fn\b", place[1]))


FOREIGN = re.compile(
    r"\n/// `(\w+)` as C calls it\.\n///\n/// # Safety\n///\n/// A pointer points [^\n]*\n"
    r'#\[unsafe\(export_name = "(\w+)"\)\]\n// [^\n]*\n#\[allow\(improper_ctypes_definitions\)\]\n'
    r'pub unsafe extern "C" fn c_(\w+)\(\n(.*?)\)([^\n]*) \{\n    (\w+)\((.*?)\)\n\}\n', re.S)


def foreign(rust, source, place):
    """A function that C calls gets a twin that calls it, with a pointer and a length for each slice."""
    if rust == "" and re.fullmatch(r'#\[unsafe\(no_mangle\)\]|extern "C"', source):
        return True
    rest = rust
    while source == "" and rest:
        found = FOREIGN.match(rest)
        if not found or len(set(found.group(1, 2, 3, 6))) != 1:
            return False
        if not calls_all(found.group(1), found.group(4), found.group(5), found.group(7), place[2]):
            return False
        rest = rest[found.end() :]
    return source == "" and rust != ""


def calls_all(name, taken, gives, handed, text):
    """Whether a twin's parameters and arguments are those of the function, in order."""
    head = re.search(rf"\bfn {name}\((.*?)\)(?: -> (.*?))?\s*\{{", text, re.S)
    if not head or (f" -> {head.group(2)}" if head.group(2) else "") != gives:
        return False
    params, args = [], []
    for param in re.split(r",\s*", head.group(1).strip().rstrip(",")):
        word, _, kind = param.strip().removeprefix("mut ").partition(": ")
        if kind == "Global":
            args.append("kit::alloc::Global")
        elif kind in ("&[u8]", "&mut [u8]"):
            way, suffix = ("mut", "_mut") if "mut" in kind else ("const", "")
            params += [f"{word}: *{way} u8", f"{word}_length: usize"]
            args.append(f"unsafe {{ kit::c::bytes{suffix}({word}, {word}_length) }}")
        else:
            params.append(f"{word}: {kind}")
            args.append(word)
    return "".join(f"    {p},\n" for p in params) == taken and ", ".join(args) == handed


def entry(rust, source, place):
    """`main` and each test with a runtime get another name, and a function of their own name hands it to them."""
    inner = re.fullmatch(r"(checked|run)_(\w+)", rust)
    if inner:
        wrapped = rf"kit::(test::finish|process::end)\({rust}\((kit::HostRuntime::new\(\))?\)\)|\n    {rust}\(kit::HostRuntime::new\(\)\)\n"
        return inner.group(2) == source and place[0].endswith("fn ") and bool(re.search(wrapped, place[2]))
    test = re.fullmatch(r"#\[cfg\(test\)\]\n *(.*) fn (\w+)\(\) \{\n *kit::test::finish\(checked_(\w+)\((?:kit::HostRuntime::new\(\))?\)\);\n"
                        r" *\}\n\n *#\[cfg\(test\)\]\n *", rust, re.S)
    if test:
        return test.group(2) == test.group(3) and "#[test]" in source and test.group(1) == source.strip()
    main = re.fullmatch(r'/// [^\n]*\n#\[global_allocator\]\nstatic ALLOCATOR: kit::alloc::ProgramAllocator = kit::alloc::ProgramAllocator\("(\w+): memory\\n"\);\n\n'
                        r"fn main\(\)((?: -> [\w:<>()]+)?) \{\n    run_main\(kit::HostRuntime::new\(\)\)\n\}\n\n", rust)
    return bool(main) and source == "" and f"fn run_main(rt: HostRuntime){main.group(2)} {{" in place[2] and place[3].startswith(main.group(1) + "/")


def writer(rust, source, place):
    """The parameter for a formatter's writer goes, which in Rust has a type of its own."""
    if rust == "'_":
        return place[0].endswith("Formatter<") and place[1].startswith(">") and bool(re.fullmatch(r"\w", source))
    return rust == "" and bool(re.fullmatch(r"<\w: (std::)?fmt::Write>", source)) and bool(re.match(r"\([^)]*Formatter<'_>", place[1]))


def bound(rust, source, _):
    """The bound `Drop` goes, which each type of Rattle's meets."""
    return rust == "" and bool(re.fullmatch(r" \+ Drop|: Drop|where\s+\w+: Drop,", source))


def renamed(path):
    """What stands for a path of the kit: None if nothing does."""
    head, *rest = path
    if head == "thiserror" or path in (["std", "marker", "Model"],):
        return None
    if head in names.CRATES:
        return ["kit", *path]
    if head not in ("std", "core"):
        return path
    module = rest[0]
    if module in names.SAME or (len(rest) > 1 and rest[1] in names.SAME_NAMES.get(module, ())):
        return ["std", *rest]
    own = names.KIT[module]
    new, left = (own[rest[1]], rest[2:]) if len(rest) > 1 and rest[1] in own else (own[""], rest[1:])
    return None if new is None else [*new.split("::"), *left]


def imports(text):
    """The paths of declarations of `use`, each with what stands before the word and with its alias."""
    found = set()
    for head, tree in re.findall(r"\s*((?:#\[[^\]]*\]\s*|pub(?:\([^)]*\))? )*)use ([^;]*);", text):
        stack, path, words = [], [], re.findall(r"[\w*]+|::|[{},]", tree)
        leaf = None
        for place, word in enumerate([*words, ","]):
            if word == "{":
                stack.append(path)
            elif word in (",", "}"):
                if leaf:
                    found.add((head.strip(), *leaf))
                leaf = None
                path = stack[-1] if stack else []
                if word == "}":
                    path = stack.pop()
            elif word == "as":
                leaf = (leaf[0], words[place + 1])
            elif word != "::" and (place == 0 or words[place - 1] != "as"):
                path = path if word == "self" else [*path, word]
                leaf = (tuple(path), "")
    return found


def use(rust, source, _):
    """Names of the library become those that stand for them (names.py); a name that only proofs use goes."""
    rest = re.sub(r"\s*((#\[[^\]]*\]\s*|pub(\([^)]*\))? )*)use [^;]*;", "", rust + source)
    wanted = set()
    for head, path, alias in imports(source):
        new = renamed(list(path))
        if new:
            wanted.add((head, tuple(new), alias))
    return rest.strip() == "" and "use " in source and imports(rust) == wanted


def path(rust, source, place):
    """A path of the library in the code becomes the one that stands for it."""
    old = re.sub(r"\s", "", source)
    return bool(re.fullmatch(r"\w+(::\w+)*", old)) and rust.split("::") == renamed(old.split("::")) and not place[0].endswith("::")


def macro(rust, source, place):
    """A macro loses its handle, or is the kit's. What is proved is tried where sums are."""
    handle = re.match(r"&?\w+(\.\w+)*;\s*", source)
    name = source[handle.end() :] if handle else source
    if handle and not re.search(rf"\b({'|'.join(names.MACROS_HANDLE)})!\s*[(\[{{]$", place[0]):
        return False
    if name in names.MACROS_PROVE:
        new = names.MACROS_PROVE[name]
        return rust in (new, new.removeprefix("debug_")) and place[1].startswith("!")
    if name in names.MACROS_KIT:
        return rust == "kit::" + name and place[1].startswith("!")
    return bool(handle) and rust == name == ""


def prelude(rust, source, _):
    """Names that Rattle has everywhere come in."""
    known = {tuple(path.split("::")) for path in names.PRELUDE.values()}
    return source == "" and rust != "" and re.sub(r"\s*use [^;]*;", "", rust).strip() == "" and all(
        head == alias == "" and path in known for head, path, alias in imports(rust))


def definitions(rust, source, _):
    """A module comes with a page of documentation for each file of definitions, and no code."""
    return source == "" and bool(re.fullmatch(
        r"\n/// [^\n]*\npub mod definitions \{\n(    #\[doc = concat!\([^\n]*include_str!\(\"\.\./specs/[\w.]+\.antt\"\)[^\n]*\)\]\n    pub mod \w+ \{\}\n\n?)*\}\n", rust))


ERROR = re.compile(
    r"\nimpl(?P<of>(?:<[^{}<>]*>)?) std::fmt::Display for (?P<name>\w+)(?P=of) \{\n"
    r"    fn fmt\(&self, f: &mut std::fmt::Formatter<'_>\) -> std::fmt::Result \{\n        (?P<body>.*?)\n    \}\n\}\n\n"
    r"impl(?P=of) std::error::Error for (?P=name)(?P=of) \{\}\n", re.S)
WRITTEN = r'(?: \{ (?P<binds>[\w:, ]*)\.\. \})?(?: =>| = self;\n       ) write!\(f, "(?P<message>[^"\\]*)"\)'
MESSAGE = re.compile(r'#\[error\("([^"\\]*)"\)\]\s*(?:(?:#\[[^\]]*\]|///[^\n]*)\s*)*(?:pub\s+)?(?:(?:struct|enum)\s+)?(\w+)')


def message(name, found):
    """A name and its message as thiserror takes it, which binds the fields that it names and no others."""
    binds = dict((b.split(": ")[1], b.split(": ")[0]) if ": " in b else (b, b) for b in (found["binds"] or "").split(", ") if b)
    if set(binds) != set(re.findall(r"\{(\w+)[:}]", found["message"])):
        return None
    return name, re.sub(r"\{(\w+)([:}])", lambda m: "{" + binds[m.group(1)] + m.group(2), found["message"])


def error(rust, source, place):
    """What the derive `Error` of thiserror writes comes: each message of the source, with its own variant or type."""
    told, rest = [], rust
    while source == "" and rest:
        item = ERROR.match(rest)
        if not item:
            return False
        rest = rest[item.end() :]
        whole = re.fullmatch(rf"let {item['name']}" + WRITTEN, item["body"])
        if whole:
            told.append(message(item["name"], whole))
            continue
        arms = re.fullmatch(r"match self \{\n(.*,)\n        \}", item["body"], re.S)
        for line in arms.group(1).split("\n") if arms else [""]:
            arm = re.fullmatch(rf"            {item['name']}::(?P<variant>\w+)" + WRITTEN + ",", line)
            told.append(message(arm["variant"], arm) if arm else None)
    return source == "" and rust != "" and told == [(name, said) for said, name in MESSAGE.findall(place[3])]


RULES = {rule.__name__: rule for rule in (ghost, clause, model, doc, space, attribute, final, foreign, entry, writer, bound,
                                          use, path, macro, prelude, definitions, error)}


class Text:
    """A file of the translation, with its list of cuts."""

    def __init__(self, folder, row):
        self.shown = row["rust"]
        self.rust = open(os.path.join(folder, row["rust"]), "rb").read()
        self.cuts = [(at, rule, rust.encode(), source.encode()) for at, rule, rust, source in row["cuts"]]
        self.literals = [(m.start(), m.end()) for m in LITERAL.finditer(self.rust.decode("latin-1"))]

    def source(self):
        """The source, or what is wrong with the list."""
        out, end = [], 0
        for at, _, rust, source in self.cuts:
            if at < end or self.rust[at : at + len(rust)] != rust:
                return b""
            out += [self.rust[end:at], source]
            end = at + len(rust)
        return b"".join([*out, self.rust[end:]])

    def allows(self, rule, at, rust, source):
        """Whether the rule allows this cut here."""
        end = at + len(rust)
        before = self.rust[max(0, at - 80) : at].decode(errors="replace")
        after = self.rust[end : end + 200].decode(errors="replace")
        if rule == "space":
            place = (before[-1:], after[:1], any(start < at < stop for start, stop in self.literals))
        elif rule == "error":
            place = (before, after, "", self.source().decode())
        else:
            place = (before, after, self.rust.decode() if rule in ("foreign", "entry") else "", self.shown)
        if not rust and rule != "space" and re.match(r"\w", before[-1:]) and re.match(r"\w", after):
            return False
        return rule in RULES and RULES[rule](rust.decode(), source.decode(), place)


def said(text, cut):
    line = text.rust.count(b"\n", 0, cut[0]) + 1
    return f"{text.shown}:{line}: {cut[1]}: {cut[3].decode()[:200]!r} became {cut[2].decode()[:200]!r}"


def lies(text):
    """Cuts that no rule may allow: those of the text with the next word of code, or with another word, and an operator that
    is another."""
    for at, rule, rust, source in text.cuts:
        end = at + len(rust)
        more = re.match(rb"\s*(?:\w+|[^\s\w])", text.rust[end:])
        if more and not text.rust[end:].lstrip().startswith(b"//"):
            yield at, rule, rust, source + more.group()
        if rule not in ("doc", "definitions"):
            for word in re.finditer(rb"(?m)^\s*//.*$|\b[A-Za-z_]\w*", rust):
                if not word.group().lstrip().startswith(b"//"):
                    yield at, rule, rust[: word.end()] + b"x" + rust[word.end() :], source
    less = text.rust.find(b" < ")
    if less > 0:
        for rule in RULES:
            yield less + 1, rule, b"<", b"<="
            yield less + 1, rule, b"", b"<"
            yield less + 1, rule, b"<", b""


def is_copy(root, source, folder, made):
    """What of a folder isn't copied as it is."""
    wrong = []
    for place, folders, files in os.walk(os.path.join(root, source)):
        folders[:] = [name for name in folders if name != "target"]
        for name in files:
            path = os.path.join(place, name)
            copy = os.path.join(folder, made, os.path.relpath(path, os.path.join(root, source)))
            if not os.path.exists(copy) or open(copy, "rb").read() != open(path, "rb").read():
                wrong.append(os.path.relpath(path, root))
    return wrong


def main(root, folder):
    rows = [json.loads(line) for line in open(os.path.join(folder, "cuts.jsonl"), encoding="utf-8")]
    listed = {row["rust"]: row["file"] for row in rows}
    crates = [line.split("#")[0].split(":")[0].split() for line in open(os.path.join(root, "crates.txt"), encoding="utf-8")]
    wanted = {os.path.join(f"{crate[0]}/src", os.path.relpath(os.path.join(place, name), f"{root}/crates/{crate[0]}/src"))
              for crate in crates if crate for place, _, files in os.walk(f"{root}/crates/{crate[0]}/src") for name in files}
    there = {os.path.relpath(os.path.join(place, name), folder) for crate in crates if crate
             for place, _, files in os.walk(f"{folder}/{crate[0]}") for name in files if name.endswith(".rs")}
    wrong = [f"{name}: not in the list, or not there" for name in {re.sub(r"\.rt$", ".rs", name) for name in wanted} ^ set(listed) | there ^ set(listed)]
    wrong += [f"{name}: not copied as it is" for name in is_copy(root, "plain/kit/src", folder, "kit/src") + is_copy(root, "plain/tests", folder, "plain_tests/src")]
    count = tried = 0
    for row in rows:
        text = Text(folder, row)
        if text.source() != open(os.path.join(root, row["file"]), "rb").read():
            wrong.append(f"{row['rust']}: with its cuts undone it is not {row['file']}")
        for cut in text.cuts:
            count += 1
            if not text.allows(cut[1], cut[0], cut[2], cut[3]):
                wrong.append(said(text, cut))
        for at, rule, rust, source in lies(text):
            tried += 1
            if text.allows(rule, at, rust, source):
                wrong.append("a lie is allowed: " + said(text, (at, rule, rust, source)))
    for line in wrong:
        print(f"cuts: {line}")
    print(f"cuts: {len(rows)} files, {count} cuts by {len({cut[1] for row in rows for cut in row['cuts']})} rules undone, {tried} lies refused" if not wrong else f"cuts: {len(wrong)} are wrong")
    return not wrong


if __name__ == "__main__":
    if len(sys.argv) != 3:
        sys.exit(__doc__.split("\n")[0])
    sys.exit(0 if main(sys.argv[1], sys.argv[2]) else 1)
