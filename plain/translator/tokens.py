"""The tokens of a Rattle file.

Rattle is Rust with three words more: `requires`, `ensures` and `ghost`. What follows them is antt, another language, up
to a closing brace. So a clause is one token here, and so is a ghost item; all else has Rust's tokens. The tokens of a
file, put behind each other, are the file.
"""

PUNCTUATION = ("..=", "::", "->", "=>")

# What may stand before a ghost item, and goes with it.
BLANK = ("space", "comment")


class Stop(Exception):
    """What the translation doesn't know, with its file and line."""

    def __init__(self, path, line, text):
        super().__init__(f"{path}:{line}: {text}")


class Token:
    __slots__ = ("kind", "text", "line", "parts", "source", "rule")

    def __init__(self, kind, text, line, parts=None, source=""):
        self.kind = kind
        self.text = text
        self.line = line
        # what it stands for of the file, and the rule by which it isn't that any more
        self.source = source
        self.rule = ""
        # of a clause: its word, its name and its text; of a ghost item: its name, its type and its value
        self.parts = parts

    def __repr__(self):
        return f"{self.kind} {self.text!r}"


class Tokens(list):
    """Tokens that keep what they stand for. What is put in a token's stead stands for the same, what is added for nothing;
    both are noted under the rule of the pass."""

    rule = ""

    def __setitem__(self, place, new):
        if isinstance(place, slice):
            assert place.start == place.stop
            for token in new:
                token.rule = "doc"
        else:
            new.source = self[place].source
            new.rule = self[place].rule or self.rule
        super().__setitem__(place, new)

    def insert(self, place, new):
        new.rule = self.rule
        super().insert(place, new)


class Lexer:
    def __init__(self, path, text):
        self.path = path
        self.text = text
        self.at = 0
        self.line = 1
        self.out = []

    def stop(self, text, at=None):
        line = self.line if at is None else self.text.count("\n", 0, at) + 1
        raise Stop(self.path, line, text)

    def put(self, kind, end, parts=None):
        text = self.text[self.at : end]
        self.out.append(Token(kind, text, self.line, parts, text))
        self.line += text.count("\n")
        self.at = end

    def tokens(self):
        text = self.text
        n = len(text)
        while self.at < n:
            i = self.at
            c = text[i]
            if c in " \t\r\n":
                j = i + 1
                while j < n and text[j] in " \t\r\n":
                    j += 1
                self.put("space", j)
            elif text.startswith("//", i):
                j = text.find("\n", i)
                j = n if j < 0 else j
                word = text[i:j]
                is_doc = word.startswith("//!") or (word.startswith("///") and not word.startswith("////"))
                self.put("doc" if is_doc else "comment", j)
            elif text.startswith("/*", i):
                self.put("comment", self.block_comment(i))
            elif c == '"':
                self.put("str", self.string(i + 1))
            elif c == "'":
                self.quote(i)
            elif c.isdigit():
                self.put("num", self.number(i))
            elif c.isalpha() or c == "_":
                self.word(i)
            else:
                for p in PUNCTUATION:
                    if text.startswith(p, i):
                        self.put("punct", i + len(p))
                        break
                else:
                    if ord(c) > 126:
                        self.stop(f"{c!r} stands where Rust is expected")
                    self.put("punct", i + 1)
        return self.out

    def block_comment(self, i):
        depth = 0
        while True:
            if self.text.startswith("/*", i):
                depth += 1
                i += 2
            elif self.text.startswith("*/", i):
                depth -= 1
                i += 2
                if depth == 0:
                    return i
            elif i >= len(self.text):
                self.stop("a comment doesn't end")
            else:
                i += 1

    def string(self, i):
        """The end of a string whose text begins at i."""
        while i < len(self.text):
            if self.text[i] == "\\":
                i += 2
            elif self.text[i] == '"':
                return i + 1
            else:
                i += 1
        self.stop("a string doesn't end")

    def raw_string(self, i):
        """The end of a raw string whose hashes begin at i."""
        j = i
        while j < len(self.text) and self.text[j] == "#":
            j += 1
        if self.text[j : j + 1] != '"':
            self.stop("a raw name or string that isn't known")
        close = '"' + "#" * (j - i)
        k = self.text.find(close, j + 1)
        if k < 0:
            self.stop("a raw string doesn't end")
        return k + len(close)

    def quote(self, i):
        text = self.text
        if text[i + 1 : i + 2] == "\\":
            j = text.find("'", i + 3)
            self.put("char", j + 1)
        elif text[i + 2 : i + 3] == "'":
            self.put("char", i + 3)
        else:
            j = i + 1
            while j < len(text) and (text[j].isalnum() or text[j] == "_"):
                j += 1
            self.put("life", j)

    def number(self, i):
        text = self.text
        j = i
        while j < len(text):
            if text[j].isalnum() or text[j] == "_":
                j += 1
            elif text[j] == "." and text[j + 1 : j + 2].isdigit():
                j += 1
            else:
                break
        return j

    def word(self, i):
        text = self.text
        j = i
        while j < len(text) and (text[j].isalnum() or text[j] == "_"):
            j += 1
        word = text[i:j]
        follows = text[j : j + 1]
        if word in ("b", "c") and follows == '"':
            self.put("str", self.string(j + 1))
        elif word in ("r", "br", "cr") and follows in ('"', "#"):
            self.put("str", self.raw_string(j))
        elif word == "b" and follows == "'":
            k = text.find("'", j + 3 if text[j + 1] == "\\" else j + 2)
            self.put("char", k + 1)
        elif word in ("requires", "ensures"):
            self.clause(word, j)
        elif word == "ghost":
            self.ghost(j)
        else:
            if not word.isascii():
                self.stop(f"the name {word} isn't ASCII")
            self.put("ident", j)

    # antt

    def blank(self, i):
        text = self.text
        while i < len(text):
            if text[i] in " \t\r\n":
                i += 1
            elif text.startswith("//", i):
                j = text.find("\n", i)
                i = len(text) if j < 0 else j
            else:
                return i
        return i

    def name(self, i):
        j = i
        while j < len(self.text) and (self.text[j].isalnum() or self.text[j] == "_"):
            j += 1
        return j

    def braces(self, i):
        """The end of the antt in braces that begins at i."""
        text = self.text
        if text[i : i + 1] != "{":
            self.stop("antt in braces is expected", i)
        depth = 0
        while i < len(text):
            c = text[i]
            if c == "{":
                depth += 1
            elif c == "}":
                depth -= 1
                if depth == 0:
                    return i + 1
            elif c == '"':
                i = self.string(i + 1)
                continue
            elif text.startswith("-- ", i) and text[i - 1] in " \n":
                j = text.find("\n", i)
                i = len(text) if j < 0 else j
                continue
            i += 1
        self.stop("antt in braces doesn't end")

    def clause(self, word, i):
        if self.text[i : i + 1] == "*":
            word += "*"
            i += 1
        i = self.blank(i)
        j = self.name(i)
        name = self.text[i:j]
        k = self.blank(j)
        end = self.braces(k)
        self.put("clause", end, (word, name, self.text[k + 1 : end - 1].strip()))

    def ghost(self, i):
        text = self.text
        i = self.blank(i)
        j = self.name(i)
        name = text[i:j]
        if not name:
            self.stop("a ghost item has no name")
        if name == "use":
            depth = 0
            while j < len(text):
                if text[j] == "{":
                    depth += 1
                elif text[j] == "}":
                    depth -= 1
                elif text[j] == ";" and depth == 0:
                    break
                j += 1
            self.put("ghost", j + 1, ("use", text[i + 3 : j].strip(), ""))
            return
        k = self.blank(j)
        kind = value = ""
        end = j
        if text[k : k + 1] == ":":
            start = self.blank(k + 1)
            end = self.braces(start)
            kind = text[start + 1 : end - 1].strip()
            k = self.blank(end)
            if text.startswith("by", k) and text[self.blank(k + 2) : self.blank(k + 2) + 1] == "{":
                end = self.braces(self.blank(k + 2))
                k = self.blank(end)
        if text[k : k + 1] == "=":
            start = self.blank(k + 1)
            end = self.braces(start)
            value = text[start + 1 : end - 1].strip()
            k = self.blank(end)
        if not kind and not value:
            self.stop(f"the ghost item {name} has neither a type nor a value")
        if text[k : k + 1] in (";", ","):
            end = k + 1
        self.put("ghost", end, (name, kind, value))


def tokens(path, text):
    return Tokens(Lexer(path, text).tokens())
