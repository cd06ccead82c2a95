"""Puts a counter into every branch of a piece of Rust: the body of an `if`, its `else` (one is
added where there is none), each match arm, each loop body and each early return by `?`."""

import re

MASKED = re.compile(r"//[^\n]*|\"(?:\\.|[^\"\\])*\"|'(?:\\[^']*|[^\\'])'")
WORDS = re.compile(r"\bif\b|\bfor\b|=>|\?")
OPEN, CLOSE = "([{", ")]}"


def masked(text):
    """The text with comments made blanks, strings and characters underscores, every place kept."""
    def mask(found):
        filler = " " if found.group().startswith("//") else "_"
        return re.sub(r"[^\n]", filler, found.group())
    return MASKED.sub(mask, text)


def scan(code, at, stops):
    """The first place from `at` on, outside brackets opened since, of one of `stops`."""
    depth = 0
    while True:
        here = code[at]
        if depth == 0 and here in stops:
            return at
        if here in OPEN:
            depth += 1
        elif here in CLOSE:
            depth -= 1
        at += 1


def end_of_block(code, opening):
    return scan(code, opening + 1, "}")


class Counted:
    def __init__(self, file, first):
        self.file = file
        self.first = first
        self.branches = []
        self.inserts = []

    def counter(self, code, at, kind):
        self.branches.append((self.file, code.count("\n", 0, at) + 1, kind))
        return self.first + len(self.branches) - 1

    def open_body(self, code, opening, kind):
        number = self.counter(code, opening, kind)
        self.inserts.append((opening + 1, f" crate::branches::at({number});"))

    def add_if(self, code, at):
        opening = scan(code, at, "{")
        if "=>" in code[at:opening]:
            return  # the guard of a match arm: the arm has its own counter
        self.open_body(code, opening, "if")
        end = end_of_block(code, opening)
        after = re.match(r"\s*else\b\s*", code[end + 1:])
        if not after:
            number = self.counter(code, at, "not if")
            self.inserts.append((end + 1, f" else {{ crate::branches::at({number}); }}"))
            return
        following = end + 1 + after.end()
        if code[following] == "{":
            self.open_body(code, following, "else")

    def add_arm(self, code, at):
        start = at + 2 + re.match(r"\s*", code[at + 2:]).end()
        if code[start] == "{":
            return self.open_body(code, start, "arm")
        end = scan(code, start, ",}")
        number = self.counter(code, at, "arm")
        self.inserts.append((start, f"{{ crate::branches::at({number}); "))
        self.inserts.append((end, " }"))

    def add_loop(self, code, at):
        self.open_body(code, scan(code, at, "{"), "loop")

    def add_return(self, code, at):
        number = self.counter(code, at, "early return")
        self.inserts.append((at, f".noted({number})"))

    def add(self, text):
        code = masked(text)
        add = {"if": self.add_if, "for": self.add_loop, "=>": self.add_arm, "?": self.add_return}
        for found in WORDS.finditer(code):
            add[found.group()](code, found.start())
        first_use = re.search(r"^use ", code, re.M)
        if first_use:
            self.inserts.append((first_use.start(), "use crate::branches::Noted as _; "))
        for at, words in sorted(self.inserts, key=lambda insert: insert[0], reverse=True):
            text = text[:at] + words + text[at:]
        return text


def count_branches(file, text, first):
    """The counted text and its branches, numbered from `first`: (file, line, kind)."""
    counted = Counted(file, first)
    return counted.add(text), counted.branches
