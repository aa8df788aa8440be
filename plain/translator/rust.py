"""One Rattle file as Rust.

Contracts go into doc comments, ghost items and models go, names of the kit's library become those of the package `kit`,
macros lose their handles. All else stays as it is, token for token. What isn't known stops the translation.
"""

import re

import names
from tokens import BLANK, Stop, Token, tokens

OPEN = {"(": ")", "[": "]", "{": "}"}


class Options:
    def __init__(self, older=False, crates_io=False):
        # Writes what Rust 1.63 lacks the older way.
        self.older = older
        # Leaves the derive `Error` to the crate thiserror.
        self.crates_io = crates_io


class Cuts:
    """How a text in Rust differs from its file: at which byte of it which rule put which text for which text of the file."""

    def __init__(self):
        self.rows = []
        self.end = 0

    def keep(self, text):
        self.end += len(text.encode())

    def note(self, rule, rust, source):
        last = self.rows[-1] if self.rows else None
        if last and last[1] == rule and last[0] + len(last[2].encode()) == self.end:
            last[2] += rust
            last[3] += source
        else:
            self.rows.append([self.end, rule, rust, source])
        self.keep(rust)

    def changes(self):
        """The rows in which the texts differ."""
        return [row for row in self.rows if row[2] != row[3]]


class File:
    def __init__(self, crate, path, text, links, options):
        self.crate = crate
        self.path = path
        self.links = links
        self.options = options
        self.ts = tokens(path, text)
        self.models = {}
        self.imports = {}
        self.tail = []
        self.cuts = Cuts()

    # Walking

    def stop(self, i, text):
        raise Stop(self.path, self.ts[min(i, len(self.ts) - 1)].line, text)

    def after(self, i):
        """The next token behind i that is neither space nor a comment."""
        i += 1
        while i < len(self.ts) and self.ts[i].kind in ("space", "comment", "doc", "gone"):
            i += 1
        return i

    def before(self, i):
        i -= 1
        while i >= 0 and self.ts[i].kind in ("space", "comment", "doc", "gone"):
            i -= 1
        return i

    def text(self, i):
        return self.ts[i].text if 0 <= i < len(self.ts) else ""

    def is_word(self, i, word):
        return 0 <= i < len(self.ts) and self.ts[i].kind == "ident" and self.ts[i].text == word

    def close(self, i):
        """The token that closes the bracket at i."""
        opens = self.ts[i].text
        closes = OPEN[opens]
        depth = 0
        for j in range(i, len(self.ts)):
            if self.ts[j].kind == "punct":
                if self.ts[j].text == opens:
                    depth += 1
                elif self.ts[j].text == closes:
                    depth -= 1
                    if depth == 0:
                        return j
        self.stop(i, f"{opens} isn't closed")

    def angle(self, i):
        """The token that closes the angle bracket at i."""
        depth = 0
        j = i
        while j < len(self.ts):
            text = self.ts[j].text
            if self.ts[j].kind == "punct":
                if text == "<":
                    depth += 1
                elif text == ">":
                    depth -= 1
                    if depth == 0:
                        return j
                elif text in OPEN:
                    j = self.close(j)
            j += 1
        self.stop(i, "< isn't closed")

    def drop(self, i, j=None):
        """Removes the tokens from i to j."""
        for k in range(i, (i if j is None else j) + 1):
            if self.ts[k].kind != "gone":
                self.ts[k] = Token("gone", "", self.ts[k].line)
            else:
                self.ts[k].rule = self.ts.rule

    def drop_comments_before(self, i):
        """Removes the comments right above i, which speak of it."""
        k = i - 1
        while k >= 0:
            kind = self.ts[k].kind
            if kind == "space" and self.ts[k].text.count("\n") < 2:
                k -= 1
            elif kind in ("comment", "doc") and not self.ts[k].text.startswith("//!"):
                self.drop(k)
                k -= 1
            elif kind == "gone":
                k -= 1
            else:
                return

    def put(self, i, kind, text):
        self.ts.insert(i, Token(kind, text, self.ts[min(i, len(self.ts) - 1)].line))

    def add(self, rule, text):
        """Adds an item behind all others."""
        self.tail.append((rule, "\n" + text))

    def indent(self, i):
        """The spaces before the line of i."""
        k = i - 1
        while k >= 0:
            if "\n" in self.ts[k].text and self.ts[k].kind == "space":
                return self.ts[k].text.rsplit("\n", 1)[1]
            k -= 1
        return ""

    # All of it

    def rust(self):
        passes = [("ghost", self.read_ghost_uses), ("model", self.remove_models), ("attribute", self.attributes),
                  ("ghost", self.ghost_members), ("clause", self.clauses), ("final", self.final_functions),
                  ("foreign", self.foreign_functions), ("entry", self.entries), ("writer", self.formatters),
                  ("bound", self.drop_bounds), ("use", self.uses), ("path", self.paths), ("macro", self.macros),
                  ("", self.clones)]
        if self.options.older:
            passes += [("older", self.older_calls), ("older", self.places), ("older", self.let_else)]
        passes.append(("prelude", self.prelude))
        for self.ts.rule, run in passes:
            run()
        return self.layout()

    def read_ghost_uses(self):
        """Which module of which crate each name comes from that a ghost item or a clause may cite."""
        for i, t in enumerate(self.ts):
            if t.kind == "ghost" and t.parts[0] == "use":
                m = re.match(r"Rattle\.(\w+)\.specs\.(.*)$", " ".join(t.parts[1].split()))
                if m and m.group(1) in self.links.crates and not m.group(2).startswith("declared."):
                    module, brace, cited = m.group(2).partition(".{")
                    module = module.split(" as ")[0].strip()
                    if brace:
                        for name in cited.rstrip("}").split(","):
                            name = name.strip().split(" as ")[-1].strip()
                            self.imports[name] = (m.group(1), module)
                    else:
                        name = m.group(2).split(" as ")[-1].strip().split(".")[-1]
                        self.imports[name + "."] = (m.group(1), module)
                self.drop_ghost(i)

    def drop_ghost(self, i):
        k = self.before(i)
        if self.text(k) == ")":
            while self.text(k) != "pub" and k > 0:
                k -= 1
            self.drop(k, i)
        elif self.is_word(k, "pub"):
            self.drop(k, i)
        else:
            self.drop(i)

    def remove_models(self):
        i = 0
        while i < len(self.ts):
            if self.is_word(i, "impl"):
                k = self.after(i)
                if self.text(k) == "<":
                    k = self.after(self.angle(k))
                if self.is_word(k, "Model") and self.is_word(self.after(k), "for"):
                    self.remove_model(i, k)
                elif self.is_word(k, "Drop") and self.is_word(self.after(k), "for"):
                    self.stop(i, "an impl of Drop isn't translated")
            i += 1

    def remove_model(self, i, k):
        name = self.text(self.after(self.after(k)))
        j = k
        while self.text(j) != "{":
            j += 1
        end = self.close(j)
        lines = []
        for t in self.ts[j:end]:
            if t.kind == "ghost" and t.parts[0] in ("Value", "view", "invariant"):
                lines.append(f"{t.parts[0]} = {{ {t.parts[2]} }}")
            elif t.kind not in ("ghost", "gone", *BLANK) and t.text != "{":
                raise Stop(self.path, t.line, "an impl of Model with more than ghost items")
        self.models[name] = lines
        self.drop_comments_before(i)
        self.drop(i, end)

    # Attributes

    def attributes(self):
        i = 0
        while i < len(self.ts):
            if self.text(i) == "#" and self.ts[i].kind == "punct":
                k = self.after(i)
                if self.text(k) == "!":
                    k = self.after(k)
                if self.text(k) == "[":
                    self.attribute(i, k, self.close(k))
            i += 1

    def attribute(self, i, k, end):
        name = self.text(self.after(k))
        if name in names.ATTRIBUTES_GONE:
            self.drop(i, end)
        elif name == "derive":
            self.derive(i, k, end)
        elif name == "error":
            pass
        elif name == "cfg":
            if "".join(t.text for t in self.ts[k + 1 : end]).replace(" ", "") != "cfg(test)":
                self.stop(i, "a cfg that isn't cfg(test)")
        elif name not in names.ATTRIBUTES:
            self.stop(i, f"the attribute {name} isn't known")

    def derive(self, i, k, end):
        kept = []
        is_error = False
        for t in self.ts[k + 2 : end]:
            if t.kind == "ident":
                if t.text == "Error":
                    is_error = True
                elif t.text in names.DERIVES:
                    kept.append(t.text)
                elif t.text not in ("Drop", "derive"):
                    raise Stop(self.path, t.line, f"the derive {t.text} isn't known")
        if is_error and self.options.crates_io:
            kept.append("thiserror::Error")
        line = self.ts[i].line
        self.drop(i, end)
        if kept:
            self.ts[i] = Token("new", f"#[derive({', '.join(kept)})]", line)
        if is_error and not self.options.crates_io:
            self.error_impls(i)

    def error_impls(self, i):
        """Writes what thiserror's derive writes, of the type whose attributes stand around i."""
        j = i
        whole = None
        while not (self.ts[j].kind == "ident" and self.text(j) in ("enum", "struct")):
            if self.text(j) == "#" and self.text(self.after(self.after(j))) == "error":
                whole = self.error_attribute(j)
            j += 1
            if j >= len(self.ts):
                self.stop(i, "a derive of Error without a type")
        if whole is None:
            k = self.before(i)
            if self.text(k) == "]":
                while self.text(k) != "#":
                    k -= 1
                if self.text(self.after(self.after(k))) == "error":
                    whole = self.error_attribute(k)
        name_at = self.after(j)
        name = self.text(name_at)
        generics = ""
        k = self.after(name_at)
        if self.text(k) == "<":
            stop = self.angle(k)
            inner = "".join(t.text for t in self.ts[k + 1 : stop])
            if ":" in inner:
                self.stop(j, "a derive of Error on a type with bounds")
            generics = f"<{inner}>"
            k = self.after(stop)
        if self.text(j) == "struct":
            if whole is None:
                self.stop(j, "a derive of Error without a message")
            body = self.error_write(whole, f"let {name}", k, "self;\n        ", j)
        elif whole is not None:
            if any(p for p in self.placeholders(whole[0], j)):
                self.stop(j, "a message of an enum that names a field")
            body = self.error_write(whole, None, None, None, j)
        else:
            body = self.error_arms(name, k)
        self.add("error",
            f"impl{generics} std::fmt::Display for {name}{generics} {{\n"
            "    fn fmt(&self, f: &mut std::fmt::Formatter<'_>) -> std::fmt::Result {\n"
            f"        {body}\n    }}\n}}\n\nimpl{generics} std::error::Error for {name}{generics} {{}}\n"
        )

    def error_attribute(self, i):
        """The message and the arguments of an attribute `error`, which goes."""
        k = self.after(i)
        end = self.close(k)
        inner = [t for t in self.ts[k + 1 : end] if t.kind not in ("gone", *BLANK)]
        if len(inner) < 4 or inner[2].kind != "str":
            self.stop(i, "a message of an error that isn't a string")
        rest = "".join(t.text for t in inner[3:-1])
        self.drop(i, end)
        return inner[2].text, rest

    def placeholders(self, string, i):
        """The fields that a message names."""
        found = []
        for m in re.finditer(r"\{\{|\}\}|\{([^{}]*)\}", string):
            if m.group(1) is not None:
                name = m.group(1).split(":")[0]
                if name and not re.fullmatch(r"\d+|[a-z_][a-z_0-9]*", name):
                    self.stop(i, f"a message with {m.group(0)}")
                found.append(name)
        return found

    def error_write(self, message, before, k, behind, i):
        string, rest = message
        fields = sorted({p for p in self.placeholders(string, i) if p})
        taken = ""
        if fields:
            if all(p.isdigit() for p in fields):
                binds = ", ".join(f"{p}: field_{p}" for p in fields)
                string = re.sub(r"\{(\d+)([:}])", r"{field_\1\2", string)
            else:
                binds = ", ".join(fields)
            taken = f"{before} {{ {binds}, .. }} = {behind}" if behind else f"{before} {{ {binds}, .. }} => "
        elif behind is None and before:
            taken = f"{before} {{ .. }} => "
        return f"{taken}write!(f, {string}{rest})"

    def error_arms(self, name, k):
        if self.text(k) != "{":
            self.stop(k, "a derive of Error on a type that isn't known")
        end = self.close(k)
        arms = []
        message = None
        j = self.after(k)
        while j < end:
            if self.text(j) == "#":
                if self.text(self.after(self.after(j))) == "error":
                    message = self.error_attribute(j)
                    j = self.after(j)
                else:
                    j = self.after(self.close(self.after(j)))
                continue
            if self.ts[j].kind != "ident" or message is None:
                self.stop(j, "a variant of an error without a message")
            variant = f"{name}::{self.text(j)}"
            if self.text(self.after(j)) not in OPEN:
                if any(self.placeholders(message[0], j)):
                    self.stop(j, "a message of a variant that names a field it doesn't have")
                arms.append(f"            {variant} => " + self.error_write(message, None, None, None, j) + ",\n")
            else:
                arms.append("            " + self.error_write(message, variant, None, None, j) + ",\n")
            message = None
            j = self.after(j)
            if self.text(j) in OPEN:
                j = self.after(self.close(j))
            if self.text(j) == ",":
                j = self.after(j)
        return "match self {\n" + "".join(arms) + "        }"

    # Contracts

    def ghost_members(self):
        """Ghost members of traits, impls and structs, whose invariants go into the type's doc."""
        for i, t in enumerate(self.ts):
            if t.kind == "ghost" and self.depth_is_signature(i) is None:
                self.drop_comments_before(i)
                k = i - 1
                self.note_invariant(i, t)
                self.drop_ghost(i)
                self.drop_comments_before(self.before(k + 1) + 1 if k < 0 else k + 1)

    def note_invariant(self, i, t):
        """A ghost field's fact, for the struct around it."""
        depth = 0
        for k in range(i - 1, -1, -1):
            text = self.ts[k].text
            if self.ts[k].kind != "punct":
                continue
            if text == "}":
                depth += 1
            elif text == "{":
                if depth == 0:
                    j = k
                    while j >= 0 and not (self.ts[j].kind == "ident" and self.text(j) in ("struct", "trait", "impl")):
                        j -= 1
                    if self.text(j) == "struct":
                        self.models.setdefault(self.text(self.after(j)), []).append(f"ghost {t.parts[0]}: {{ {t.parts[1]} }}")
                    return
                depth -= 1

    def depth_is_signature(self, i):
        """The `fn` in whose signature the ghost parameter at i stands. None if it is no parameter."""
        if self.ts[i].text.endswith((";", ",")) or self.ts[i].parts[2]:
            return None
        k = self.before(i)
        while k >= 0:
            text = self.ts[k].text
            if self.ts[k].kind == "punct" and text in ("{", "}", ";"):
                return None
            if self.ts[k].kind == "ident" and text == "fn":
                return k
            k -= 1
        return None

    def clauses(self):
        i = 0
        while i < len(self.ts):
            if self.is_word(i, "fn") and self.ts[self.after(i)].kind == "ident":
                i = self.function(i)
            elif self.ts[i].kind == "clause":
                # of a closure, whose body stands in braces
                self.drop(i)
            elif self.is_word(i, "struct") or self.is_word(i, "enum"):
                name = self.text(self.after(i))
                if self.models.get(name):
                    start = self.item_start(i)
                    added = self.doc_lines("# As contracts see it", self.models[name], start)
                    self.ts[start:start] = added
                    i += len(added)
            i += 1

    def item_start(self, i):
        """Where the attributes of an item begin whose word stands at i."""
        start = i
        k = self.before(i)
        while k >= 0:
            text = self.text(k)
            if self.ts[k].kind == "new" and text.startswith("#["):
                start = k
            elif text == "]":
                depth = 0
                while k >= 0:
                    if self.text(k) == "]":
                        depth += 1
                    elif self.text(k) == "[":
                        depth -= 1
                        if depth == 0:
                            break
                    k -= 1
                k = self.before(k)
                if self.text(k) != "#":
                    return start
                start = k
            elif text == ")":
                j = k
                while self.text(j) != "(":
                    j -= 1
                if not self.is_word(self.before(j), "pub"):
                    return start
                k = self.before(j)
                start = k
            elif self.ts[k].kind == "ident" and text in ("pub", "const", "unsafe", "extern", "final", "async"):
                start = k
            elif self.ts[k].kind == "str" and self.is_word(self.before(k), "extern"):
                start = k
            else:
                return start
            k = self.before(k)
        return start

    def function(self, i):
        """A function's signature: where it ends. Its clauses go into its doc, if it is public."""
        k = self.after(self.after(i))
        if self.text(k) == "<":
            k = self.after(self.angle(k))
        if self.text(k) != "(":
            self.stop(i, "a function without parameters in brackets")
        k = self.close(k) + 1
        lines = []
        places = []
        while self.text(k) not in ("{", ";") or self.ts[k].kind != "punct":
            t = self.ts[k]
            if t.kind == "clause":
                word, name, said = t.parts
                lines.append(f"{word}{' ' + name if name else ''} {{ {said} }}")
                places.append(k)
            elif t.kind == "ghost":
                lines.append(f"ghost {t.parts[0]}: {{ {t.parts[1]} }}")
                places.append(k)
            elif t.kind == "punct" and t.text in ("(", "["):
                k = self.close(k)
            k += 1
            if k >= len(self.ts):
                self.stop(i, "a function without an end")
        end = k
        if places:
            first = self.before(places[0]) + 1
            line = self.ts[end].line
            for j in range(first, end):
                if self.ts[j].kind in ("clause", "ghost", "comment", "doc", "space"):
                    self.drop(j)
            if self.text(end) == "{":
                self.ts[first] = Token("space", " ", line)
            start = self.item_start(i)
            if self.is_public(start, i):
                added = self.doc_lines("# Contract", lines, start)
                self.ts[start:start] = added
                return end + len(added)
        return end

    def is_public(self, start, i):
        if any(self.is_word(j, "pub") and self.text(self.after(j)) != "(" for j in range(start, i)):
            return True
        # a method of a trait has no word `pub`
        depth = 0
        for k in range(start - 1, -1, -1):
            if self.ts[k].kind == "punct" and self.ts[k].text == "}":
                depth += 1
            elif self.ts[k].kind == "punct" and self.ts[k].text == "{":
                if depth == 0:
                    j = k
                    while j >= 0 and not (self.ts[j].kind == "ident" and self.text(j) in ("trait", "impl", "fn", "mod")):
                        j -= 1
                    return self.text(j) == "trait" and self.is_word(self.before(j), "pub")
                depth -= 1
        return False

    def doc_lines(self, title, lines, start):
        indent = self.indent(start)
        out = []
        has_doc = start > 0 and any(t.kind == "doc" for t in self.ts[max(0, start - 3) : start])
        if has_doc:
            out.append("///")
        out += [f"/// {title}", "///", "/// ```text"]
        for line in lines:
            for row in line.split("\n"):
                out.append("/// " + (row.strip() if row == line.split("\n")[0] else "    " + row.strip()))
        out.append("/// ```")
        cited = self.links.cited(self.imports, " ".join(lines))
        if cited:
            out += ["///", "/// Definitions: " + ", ".join(cited) + "."]
        line = self.ts[start].line
        tokens_out = []
        for row in out:
            tokens_out.append(Token("doc", row.rstrip(), line))
            tokens_out.append(Token("space", "\n" + indent, line))
        return tokens_out

    def final_functions(self):
        for i, t in enumerate(self.ts):
            if self.is_word(i, "final") and self.text(self.after(i)) in ("fn", "const", "unsafe"):
                self.drop(i)

    # Entries

    def foreign_functions(self):
        """Functions that C calls. A slice is a pointer and a length there, and an allocator nothing."""
        i = 0
        while i < len(self.ts):
            if self.is_word(i, "extern") and self.ts[self.after(i)].kind == "str":
                string = self.after(i)
                if self.text(string) != '"C"':
                    self.stop(i, "an ABI that isn't C")
                at = self.after(string)
                if self.is_word(at, "fn"):
                    self.foreign_function(i, string, at)
                else:
                    self.stop(i, "foreign items that aren't functions")
            i += 1

    def foreign_function(self, i, string, at):
        start = self.item_start(i)
        k = start
        exported = False
        while k < i:
            if self.text(k) == "#":
                end = self.close(self.after(k))
                if any(t.text == "no_mangle" for t in self.ts[k:end]):
                    exported = True
                    self.drop(k, end)
                k = end
            k += 1
        if not exported:
            self.stop(i, "a foreign function without no_mangle")
        self.drop(i, string)
        name = self.text(self.after(at))
        opens = self.after(self.after(at))
        if self.text(opens) != "(":
            self.stop(i, "a foreign function with parameters of types")
        closes = self.close(opens)
        params = []
        args = []
        for part in self.parts(opens + 1, closes):
            text = "".join(t.text for t in part).strip()
            if not text:
                continue
            param, _, kind = text.partition(":")
            param, kind = param.strip().removeprefix("mut "), kind.strip()
            if kind == "Global":
                args.append("kit::alloc::Global")
            elif kind in ("&[u8]", "&mut [u8]"):
                word = "mut" if "mut" in kind else "const"
                params += [f"{param}: *{word} u8", f"{param}_length: usize"]
                made = "bytes_mut" if "mut" in kind else "bytes"
                args.append(f"unsafe {{ kit::c::{made}({param}, {param}_length) }}")
            elif "[" in kind or "str" in kind or "dyn" in kind:
                self.stop(i, f"a foreign function with a parameter of type {kind}")
            else:
                params.append(f"{param}: {kind}")
                args.append(param)
        k = self.after(closes)
        gives = ""
        if self.text(k) == "->":
            j = k
            while self.text(j) not in ("{", ";"):
                gives += self.text(j)
                j += 1
            gives = " " + " ".join(gives.split())
        params = "".join(f"    {p},\n" for p in params)
        args = ", ".join(args)
        self.add("foreign",
            f"/// `{name}` as C calls it.\n///\n/// # Safety\n///\n"
            "/// A pointer points to as many bytes as the length behind it says, or the length is 0.\n"
            + ('#[no_mangle]\n' if self.options.older else f'#[unsafe(export_name = "{name}")]\n').replace(
                "#[no_mangle]", f'#[export_name = "{name}"]')
            + "// The allocator in a slot has no bytes.\n#[allow(improper_ctypes_definitions)]\n"
            + f"pub unsafe extern \"C\" fn c_{name}(\n{params}){gives} {{\n    {name}({args})\n}}\n"
        )

    def parts(self, i, j):
        """The tokens from i to before j, cut at commas outside brackets."""
        out = [[]]
        depth = 0
        for t in self.ts[i:j]:
            if t.kind == "punct" and t.text in "([{<":
                depth += 1
            elif t.kind == "punct" and t.text in ")]}>":
                depth -= 1
            if t.kind == "punct" and t.text == "," and depth == 0:
                out.append([])
            elif t.kind not in ("comment", "doc", "gone"):
                out[-1].append(t)
        return out

    def entries(self):
        """`main` and tests, to which Rattle hands the runtime."""
        i = 0
        while i < len(self.ts):
            if self.is_word(i, "fn"):
                start = self.item_start(i)
                if self.is_test(start, i):
                    i = self.wrap(start, i, "kit::test::finish", "checked_")
                elif self.text(self.after(i)) == "main" and self.indent(start) == "" and self.path.endswith("main.rt"):
                    i = self.wrap(start, i, "kit::process::end", "run_")
            i += 1

    def is_test(self, start, i):
        for k in range(start, i):
            if self.text(k) == "#":
                inner = self.after(self.after(k))
                if self.text(inner) == "test" and self.text(self.after(inner)) == "]":
                    return True
        return False

    def wrap(self, start, i, call, prefix):
        at = self.after(i)
        name = self.text(at)
        opens = self.after(at)
        closes = self.close(opens)
        takes = any(t.kind == "ident" for t in self.ts[opens:closes])
        gives = self.text(self.after(closes)) == "->"
        if not takes and not gives:
            return i
        if takes and "HostRuntime" not in "".join(t.text for t in self.ts[opens:closes]):
            self.stop(i, f"{name} takes more than the runtime")
        indent = self.indent(start)
        arg = "kit::HostRuntime::new()" if takes else ""
        inner = prefix + name
        head = "".join(t.text for t in self.ts[start:i] if t.kind not in ("gone",)).strip()
        end_type = ""
        if call == "kit::process::end" and gives:
            k = self.after(closes)
            while self.text(k) != "{":
                end_type += self.text(k)
                k += 1
            end_type = " " + " ".join(end_type.split())
            line = f"{inner}({arg})"
        else:
            line = f"{call}({inner}({arg}));"
        if call == "kit::test::finish":
            head = head.replace("#[cfg(test)]", "").strip()
            wrapper = f"#[cfg(test)]\n{indent}{head} fn {name}() {{\n{indent}    {line}\n{indent}}}\n\n{indent}#[cfg(test)]\n{indent}"
        else:
            wrapper = (
                "/// Where Rust's own library lacks memory, the program ends as it does where its own calls do.\n"
                "#[global_allocator]\nstatic ALLOCATOR: kit::alloc::ProgramAllocator = "
                f'kit::alloc::ProgramAllocator("{self.crate}: memory\\n");\n\n'
                f"fn {name}(){end_type} {{\n    {line}\n}}\n\n"
            )
        line_number = self.ts[i].line
        self.drop(start, i - 1)
        self.ts[at] = Token("ident", inner, line_number)
        self.ts.insert(start, Token("new", wrapper, line_number))
        return i + 1

    def formatters(self):
        """Functions over the type of a formatter's writer, which in Rust is none."""
        for i in range(len(self.ts)):
            if not self.is_word(i, "fn"):
                continue
            k = self.after(self.after(i))
            if self.text(k) != "<":
                continue
            end = self.angle(k)
            opens = self.after(end)
            closes = self.close(opens)
            params = self.parts(k + 1, end)
            kept = []
            for param in params:
                text = "".join(t.text for t in param).strip()
                m = re.fullmatch(r"(\w+): *(fmt::|std::fmt::)?Write", text)
                if m and self.writes_to(opens, closes, m.group(1)):
                    continue
                kept.append(text)
            if len(kept) == len(params):
                continue
            line = self.ts[k].line
            self.drop(k, end)
            if any(kept):
                self.ts[k] = Token("new", "<" + ", ".join(p for p in kept if p) + ">", line)

    def writes_to(self, opens, closes, name):
        """Whether a parameter is a formatter over a writer of this type, which then is without it."""
        found = False
        for j in range(opens, closes):
            if self.text(j) == "Formatter" and self.text(j + 1) == "<" and self.text(j + 2) == name:
                self.ts[j + 2] = Token("life", "'_", self.ts[j].line)
                found = True
        return found

    def drop_bounds(self):
        """The bound `Drop`, which every Rust type meets."""
        for i in range(len(self.ts)):
            if not self.is_word(i, "Drop"):
                continue
            b, a = self.before(i), self.after(i)
            if self.text(b) == "+":
                k = self.before(b)
                self.drop(k + 1, i)
            elif self.text(a) == "+":
                self.drop(i, self.after(a) - 1)
            elif self.text(b) == ":":
                subject = self.before(b)
                ahead = self.before(subject)
                if self.text(ahead) in (",", "where") and self.in_where(subject):
                    end = a if self.text(a) == "," else i
                    if self.text(ahead) == "where" and self.text(a) in ("{", ";"):
                        subject = ahead
                    elif self.text(ahead) == "where" and self.text(self.after(a)) in ("{", ";") and self.text(a) == ",":
                        subject = ahead
                    self.drop(subject, end)
                else:
                    self.drop(b, i)
            else:
                self.stop(i, "the word Drop where no bound is")

    def in_where(self, i):
        k = i
        while k >= 0:
            if self.is_word(k, "where"):
                return True
            if self.ts[k].kind == "punct" and self.text(k) in ("{", "}", ";", "(", ")"):
                return False
            k -= 1
        return False

    # Names

    def uses(self):
        i = 0
        while i < len(self.ts):
            if self.is_word(i, "use"):
                end = i
                while self.text(end) != ";":
                    end += 1
                self.use(i, end)
            i += 1

    def use(self, i, end):
        leaves = []
        self.leaves(self.after(i), end, [], leaves)
        out = {}
        changed = False
        for path, alias in leaves:
            new = self.leaf(i, path)
            if new != path:
                changed = True
            if new:
                suffix = f" as {alias}" if alias else ""
                out.setdefault("::".join(new[:-1]), []).append(new[-1] + suffix)
        if not changed:
            return
        start = self.item_start(i)
        head = "".join(t.text for t in self.ts[start:i] if t.kind != "gone").strip()
        indent = self.indent(start)
        lines = []
        for parent, cited in out.items():
            cited.sort(key=lambda c: (c != "self", c[:1].islower(), c))
            tail = cited[0] if len(cited) == 1 else "{" + ", ".join(cited) + "}"
            lines.append(f"{head}{' ' if head else ''}use {parent}::{tail};" if parent else f"{head}{' ' if head else ''}use {tail};")
        line = self.ts[i].line
        self.drop(start, end)
        self.ts[start] = Token("new" if lines else "gone", ("\n" + indent).join(lines), line)

    def leaves(self, i, end, path, out):
        """Reads a tree of `use` that begins at i, and gives the place behind it."""
        path = list(path)
        while True:
            text = self.text(i)
            if text == "{":
                close = self.close(i)
                i = self.after(i)
                while i < close:
                    i = self.leaves(i, close, path, out)
                    if self.text(i) == ",":
                        i = self.after(i)
                return self.after(close)
            if text == "*":
                out.append((path + ["*"], None))
                return self.after(i)
            if self.ts[i].kind != "ident":
                self.stop(i, f"{text!r} in a use")
            path.append(text)
            i = self.after(i)
            if self.text(i) == "::":
                i = self.after(i)
                continue
            alias = None
            if self.is_word(i, "as"):
                alias = self.text(self.after(i))
                i = self.after(self.after(i))
            if path[-1] == "self":
                path.pop()
            out.append((path, alias))
            return i

    def leaf(self, i, path):
        root = path[0]
        if root == "thiserror":
            return None
        if root in ("std", "core"):
            if len(path) == 1:
                self.stop(i, "a use of std as a whole")
            found = names.of_std(path[1:])
            if found is None:
                self.stop(i, f"the name {'::'.join(path)} of the library isn't known")
            taken, new = found
            return new.split("::") + path[1 + taken :] if new else None
        if root in names.CRATES:
            return ["kit"] + path
        if root in names.CRATES_GONE or (root in self.links.foreign and root not in self.links.crates):
            self.stop(i, f"the crate {root} of the kit isn't known")
        return path

    def paths(self):
        """Paths in the code that begin at a crate of the kit."""
        for i in range(len(self.ts)):
            if self.ts[i].kind != "ident" or self.text(self.after(i)) != "::":
                continue
            b = self.before(i)
            if self.text(b) in ("::", "."):
                continue
            word = self.text(i)
            if word in ("std", "core"):
                path = []
                k = i
                spots = [i]
                while True:
                    k = self.after(k)
                    if self.text(k) != "::":
                        break
                    k = self.after(k)
                    if self.ts[k].kind != "ident":
                        break
                    path.append(self.text(k))
                    spots.append(k)
                found = names.of_std(path)
                if found is None or found[1] is None:
                    self.stop(i, f"the name std::{'::'.join(path)} of the library isn't known")
                taken, new = found
                line = self.ts[i].line
                self.drop(i, spots[taken])
                self.ts[i] = Token("ident", new, line)
            elif word in names.CRATES and word in self.links.deps:
                self.ts[i] = Token("ident", "kit::" + word, self.ts[i].line)

    def macros(self):
        for i in range(len(self.ts)):
            if self.ts[i].kind != "ident":
                continue
            bang = self.after(i)
            if self.text(bang) != "!" or self.text(self.after(bang)) not in OPEN:
                continue
            name = self.text(i)
            opens = self.after(bang)
            line = self.ts[i].line
            if self.text(self.before(i)) == "::" or name in names.MACROS_SAME:
                continue
            if name in self.links.macros:
                continue
            if name in names.MACROS_PROVE:
                b = self.before(i)
                is_const = False
                while b >= 0 and self.text(b) not in (";", "{", "}"):
                    if self.is_word(b, "const"):
                        is_const = True
                    b = self.before(b)
                new = names.MACROS_PROVE[name]
                self.ts[i] = Token("ident", new.removeprefix("debug_") if is_const else new, line)
            elif name in names.MACROS_HANDLE:
                close = self.close(opens)
                k = self.semicolon(opens, close)
                if k is None:
                    self.stop(i, f"{name}! without a handle")
                self.drop(opens + 1, self.after(k) - 1)
            elif name in names.MACROS_KIT:
                self.ts[i] = Token("ident", "kit::" + name, line)
                if name == "vec" and self.text(opens) == "[":
                    pass
            else:
                self.stop(i, f"the macro {name}! isn't known")

    def semicolon(self, opens, close):
        k = opens + 1
        while k < close:
            if self.ts[k].kind == "punct":
                if self.text(k) in OPEN:
                    k = self.close(k)
                elif self.text(k) == ";":
                    return k
            k += 1
        return None

    def clones(self):
        """`clone` returns a Result in Rattle."""
        for i in range(len(self.ts)):
            if self.is_word(i, "clone") and self.text(self.before(i)) == "." and self.text(self.after(i)) == "(":
                self.stop(i, "a call of clone isn't translated")

    def prelude(self):
        """Names that are in scope everywhere in Rattle."""
        self.scope(0, len(self.ts))

    def scope(self, i, end):
        """Adds what the module between these places uses. Gives how many tokens that were."""
        used = set()
        declared = set()
        grown = 0
        k = i
        while k < end + grown:
            t = self.ts[k]
            if t.kind == "ident":
                if t.text == "mod":
                    opens = self.after(self.after(k))
                    if self.text(opens) == "{":
                        more = self.scope(opens + 1, self.close(opens))
                        grown += more
                        k = self.close(opens)
                        continue
                if t.text in ("struct", "enum", "type", "trait"):
                    declared.add(self.text(self.after(k)))
                if t.text in names.PRELUDE and self.text(self.before(k)) not in ("::", "."):
                    used.add(t.text)
            elif t.kind == "new" and "HostRuntime" not in t.text and re.search(r"\buse\b", t.text):
                for name in names.PRELUDE:
                    if re.search(rf"[:{{, ]{name}[,;}}]", t.text):
                        declared.add(name)
            k += 1
        # written parts of the file stand in its outermost module
        needed = sorted(used - declared)
        if not needed:
            return grown
        at = i
        while at < len(self.ts) and (self.ts[at].kind in ("space", "gone") or
                                     (self.ts[at].kind in ("doc", "comment") and i == 0 and not self.ts[at].text.startswith("///"))):
            at += 1
        if i == 0 and at > 0 and self.ts[at - 1].kind == "comment":
            pass
        by_parent = {}
        for name in needed:
            parent, _, last = names.PRELUDE[name].rpartition("::")
            by_parent.setdefault(parent, []).append(last)
        indent = self.indent(at) if i else ""
        text = "".join(
            f"use {parent}::" + (last[0] if len(last) == 1 else "{" + ", ".join(last) + "}") + f";\n{indent}"
            for parent, last in sorted(by_parent.items())
        )
        self.put(at, "new", text)
        return grown + 1

    # What Rust 1.63 lacks

    def older_calls(self):
        """Methods that it has not, by others."""
        for i in range(len(self.ts)):
            if self.ts[i].kind == "ident" and self.text(self.before(i)) == "." and self.text(self.after(i)) == "(":
                instead = names.OLDER.get(self.text(i))
                if instead:
                    name, first = instead
                    line = self.ts[i].line
                    self.ts[i] = Token("ident", name, line)
                    if first:
                        opens = self.after(i)
                        self.ts[opens] = Token("punct", "(", line)
                        self.ts.insert(opens + 1, Token("new", first + ", ", line))

    def places(self):
        """`as usize`, which loses nothing in Rattle. Where a place has 32 bits, what is greater becomes the greatest."""
        i = 0
        while i < len(self.ts):
            if self.is_word(i, "as") and self.is_word(self.after(i), "usize"):
                start = self.operand(self.before(i))
                end = self.after(i)
                line = self.ts[i].line
                self.drop(i - 1 if self.ts[i - 1].kind == "space" else i, end)
                self.ts[end] = Token("new", ")", line)
                self.ts.insert(start, Token("new", "kit::convert::place(", line))
                i += 1
            i += 1

    def operand(self, k):
        """Where the operand of a cast begins that ends at k."""
        while True:
            text = self.text(k)
            if text in (")", "]"):
                depth = 0
                while True:
                    if self.ts[k].kind == "punct" and self.text(k) in (")", "]"):
                        depth += 1
                    elif self.ts[k].kind == "punct" and self.text(k) in ("(", "["):
                        depth -= 1
                        if depth == 0:
                            break
                    k -= 1
                b = self.before(k)
                if self.ts[b].kind == "ident" and self.text(b) not in ("return", "in", "if", "match", "else") or self.text(b) in (")", "]", "?"):
                    k = b
                    continue
            elif text == "?":
                k = self.before(k)
                continue
            b = self.before(k)
            if self.text(b) == "::" or (self.text(b) == "." and self.text(b - 1) != "."):
                k = self.before(b)
                continue
            if self.text(b) in ("*", "-") and not (self.ts[self.before(b)].kind in ("ident", "num") or self.text(self.before(b)) in (")", "]", "?")):
                return b
            return k

    def let_else(self):
        """`let .. else` as a match, from the last to the first."""
        i = len(self.ts) - 1
        while i >= 0:
            if self.is_word(i, "let") and self.text(self.before(i)) not in ("if", "while", "&", "("):
                self.one_let_else(i)
            i -= 1

    def one_let_else(self, i):
        equal = i
        while self.text(equal) not in ("=", ";"):
            equal = self.close(equal) + 1 if self.text(equal) in OPEN and self.ts[equal].kind == "punct" else equal + 1
        if self.text(equal) == ";":
            return
        k = equal + 1
        while not (self.ts[k].kind == "punct" and self.text(k) == ";"):
            if self.is_word(k, "else") and self.text(self.before(k)) != "}":
                break
            if self.ts[k].kind == "punct" and self.text(k) in OPEN:
                k = self.close(k)
            k += 1
            if k >= len(self.ts):
                return
        if not self.is_word(k, "else"):
            return
        pattern = "".join(t.text for t in self.ts[self.after(i) : equal]).strip()
        value = "".join(t.text for t in self.ts[equal + 1 : k]).strip()
        opens = self.after(k)
        closes = self.close(opens)
        block = "".join(t.text for t in self.ts[opens : closes + 1])
        names_bound = self.bindings(self.after(i), equal)
        taken = ", ".join(n for _, n in names_bound)
        into = ", ".join(f"{'mut ' if m else ''}{n}" for m, n in names_bound)
        if len(names_bound) != 1:
            taken, into = f"({taken})", f"({into})"
        pattern = re.sub(r"\bmut (?=[a-z_])", "", pattern)
        end = self.after(closes)
        line = self.ts[i].line
        text = f"let {into} = match {value} {{ {pattern} => {taken}, _ => {block} }};"
        self.drop(i, end)
        self.ts[i] = Token("new", text, line)

    def bindings(self, i, end):
        """The names that a pattern binds, each with whether it is `mut`."""
        found = []
        k = i
        while k < end:
            t = self.ts[k]
            a = self.after(k)
            if t.kind == "ident" and t.text not in ("mut", "ref", "true", "false"):
                is_path = self.text(a) == "::" or self.text(self.before(k)) == "::"
                is_field = self.text(a) == ":"
                is_constructor = self.text(a) in ("(", "{")
                if not (is_path or is_field or is_constructor) and (t.text[0].islower() or t.text[0] == "_") and t.text != "_":
                    found.append((self.is_word(self.before(k), "mut"), t.text))
            k += 1
        return found

    # Text

    def layout(self):
        text = "".join(t.text for t in self.ts)
        rows = [re.sub(r"(?<=\S)  +fn ", " fn ", row.rstrip()) for row in text.split("\n")]
        out = []
        for row in rows:
            if not row:
                last = out[-1].lstrip() if out else ""
                if not last or last.endswith("{") or last.startswith(("///", "#[")):
                    continue
            elif row.lstrip().startswith(("}", ")")) and out and not out[-1]:
                out.pop()
            out.append(row)
        while out and not out[-1]:
            out.pop()
        body = "\n".join(out) + "\n"
        self.note_cuts(body)
        return body + "".join(text for _, text in self.tail)

    def note_cuts(self, body):
        """Notes how the text differs from the file. `body`, which the tokens became, lacks at most some of their spaces."""
        at = 0
        for token in self.ts:
            kept = ""
            lost = ""
            for c in token.text:
                if body[at : at + 1] == c:
                    at += 1
                    kept += c
                    if lost and token.text == token.source:
                        self.cuts.note("space", "", lost)
                        lost = ""
                    if token.text == token.source:
                        self.cuts.keep(c)
                else:
                    assert c.isspace()
                    lost += c
            if token.text != token.source:
                self.cuts.note(token.rule, kept, token.source)
            elif lost:
                self.cuts.note("space", "", lost)
        self.cuts.note("space", body[at:], "")
        for rule, text in self.tail:
            self.cuts.note(rule, text, "")
