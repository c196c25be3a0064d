"""Finds the expressions in the bodies of a Rust file that a wrong version can replace as a whole.

The file is one that rustfmt has laid out. A region is a part of it, from `start` to `end`, that is an expression, or an assignment without its
semicolon: so `match NUMBER { 1 => { wrong }, _ => { right } }` can stand in its place.
"""
import re

TOKEN = re.compile(
    r"//[^\n]*|\s+|'[a-z]\w*\b(?!')|\d[\d_]*\.\d[\d_]*(?:f32)?|0x[0-9a-f_]+|\d[\d_]*(?:f32|u32|i32|usize|u8)?|[A-Za-z_]\w*|\"[^\"]*\"|"
    r"<<|>>|<=|>=|==|!=|&&|\|\||\+=|-=|\*=|/=|=>|->|::|\.\.=|\.\.|."
)
ASSIGNMENTS = {"=", "+=", "-=", "*=", "/="}
OPENING, CLOSING = "([", ")]"


class Token:
    def __init__(self, text, at):
        self.text, self.at, self.end = text, at, at + len(text)

    def __repr__(self):
        return self.text


def tokens(text, at=0):
    """The tokens of a text, without spaces and comments."""
    found = []
    for m in TOKEN.finditer(text):
        if not m[0].isspace() and not m[0].startswith("//"):
            found.append(Token(m[0], at + m.start()))
    return found


def without_tests(text):
    at = text.find("#[cfg(test)]\nmod tests")
    if at < 0:
        at = text.find("#[cfg(test)]\n#[path")
    return text if at < 0 else text[:at]


def closing(ts, i):
    """The place of the brace that closes the one at i."""
    depth = 0
    for j in range(i, len(ts)):
        depth += {"{": 1, "}": -1}.get(ts[j].text, 0)
        if depth == 0:
            return j
    raise ValueError("unbalanced braces")


def bodies(ts):
    """The name of each function, and the places of the braces of its body."""
    i = 0
    while i < len(ts):
        if ts[i].text != "fn":
            i += 1
            continue
        name, depth = ts[i + 1].text, 0
        while not (ts[i].text == "{" and depth == 0) and not (ts[i].text == ";" and depth == 0):
            depth += (ts[i].text in OPENING) - (ts[i].text in CLOSING)
            i += 1
        if ts[i].text == "{":
            end = closing(ts, i)
            yield name, i, end
            i = end
        i += 1


class Finder:
    # Statistics that no line shows.
    unseen = {"tried"}

    def __init__(self, ts):
        self.ts, self.found = ts, []

    def keep(self, i, j):
        """A region of the tokens from i up to j, if its brackets are closed in it."""
        depth, texts = 0, [t.text for t in self.ts[i:j]]
        for text in texts:
            depth += (text in OPENING) - (text in CLOSING)
            if depth < 0:
                return
        if texts and depth == 0:
            self.found.append((self.ts[i].at, self.ts[j - 1].end))

    def past_head(self, i, end, stops):
        """The first place from i on, outside brackets, that holds one of the stops."""
        depth = 0
        while i < end and not (depth == 0 and self.ts[i].text in stops):
            depth += (self.ts[i].text in OPENING) - (self.ts[i].text in CLOSING)
            i += 1
        return i

    def expression(self, i, end, ends):
        """Takes an expression from i on, up to one of `ends`; gives the place of that. An `if` or `match` that stands for itself ends with its block."""
        by_itself = ends == {";"} and self.ts[i].text in ("if", "while", "match", "loop")
        if self.ts[i].text == "|":
            i += 1
            while self.ts[i].text != "|":
                i += 1
            i += 1
        start = i
        depth = 0
        while i < end:
            text = self.ts[i].text
            if depth == 0 and text in ends:
                self.keep(start, i)
                return i
            if text in ("if", "while", "match"):
                i += 1
                if self.ts[i].text == "let":
                    i = self.past_head(i, end, {"="}) + 1
                until = self.braced(i, end)
                self.keep(i, until)
                last = closing(self.ts, until)
                self.block(until + 1, last, "match" if text == "match" else "code")
                i = start = last + 1
                if by_itself and depth == 0 and (i == end or self.ts[i].text != "else"):
                    return i
                continue
            if text in ("else", "loop"):
                i = start = i + 1
                continue
            if text == "{":
                last = closing(self.ts, i)
                previous = self.ts[i - 1].text
                kind = "struct" if previous[0].isupper() and previous[-1].isalnum() and previous not in ("_",) else "code"
                self.block(i + 1, last, kind)
                i = last + 1
                if depth == 0:
                    start = i
                    if by_itself and kind == "code" and (i == end or self.ts[i].text != "else"):
                        return i
                continue
            depth += (text in OPENING) - (text in CLOSING)
            i += 1
        self.keep(start, i)
        return i

    def braced(self, i, end):
        """The brace that opens the block after a condition."""
        depth = 0
        while not (depth == 0 and self.ts[i].text == "{"):
            depth += (self.ts[i].text in OPENING) - (self.ts[i].text in CLOSING)
            i += 1
        return i

    def block(self, i, end, kind):
        while i < end:
            if kind == "match":
                i = self.past_head(i, end, {"=>"}) + 1
                i = self.expression(i, end, {","})
            elif kind == "struct":
                if self.ts[i].text == "..":
                    i += 1
                elif i + 1 < end and self.ts[i + 1].text == ":":
                    i += 2
                    if self.ts[i - 2].text in self.unseen:
                        i = self.past_head(i, end, {","})
                        continue
                i = self.expression(i, end, {","})
            else:
                i = self.statement(i, end)
            while i < end and self.ts[i].text in ",;":
                i += 1

    def statement(self, i, end):
        first = self.ts[i].text
        if first in self.unseen or (first == "let" and self.ts[i + 2].text in self.unseen):
            return self.past_head(i, end, {";"})
        if first == "for":
            i = self.past_head(i, end, {"in"}) + 1
            until = self.braced(i, end)
            self.keep(i, until)
            last = closing(self.ts, until)
            self.block(until + 1, last, "code")
            return last + 1
        if first in ("let", "return"):
            if first == "let":
                i = self.past_head(i, end, {"="})
            return self.expression(i + 1, end, {";"})
        until = self.past_head(i, end, {";", "{"} | ASSIGNMENTS)
        if until < end and self.ts[until].text in ASSIGNMENTS:
            last = self.past_head(until, end, {";", "{"})
            if last == end or self.ts[last].text == ";":
                self.keep(i, last)
                return last
            return self.expression(until + 1, end, {";"})
        return self.expression(i, end, {";"})


def regions(text, passed_over=()):
    """(start, end) of every region of a file's text, without those in the functions that are passed over."""
    ts = tokens(without_tests(text))
    finder = Finder(ts)
    for name, i, j in bodies(ts):
        if name not in passed_over:
            finder.block(i + 1, j, "code")
    found = sorted(set(finder.found))
    # Of two regions of which one holds the other, the inner one is taken.
    return [(a, b) for a, b in found if not any((a, b) != (c, d) and a <= c and d <= b for c, d in found)]
