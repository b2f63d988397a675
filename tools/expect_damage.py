#!/usr/bin/env python3
"""What the program `damaged` must print, made without it.

    python3 tools/expect_damage.py < crates/damaged/stdin > crates/damaged/stdout

Written from docs/FAMILY_FILE.md and docs/CALLS.md (questions 1 to 11) alone,
as a recursive descent over the file's bytes; the reader of the crates is one
table of states and tokens.

Each line of standard input, without its line feed, is a family file. Of each
the undamaged file is tried first, then, for each of its bytes: the file cut
before the byte, the byte removed, doubled, and replaced by each of REPLACING.
"""

import sys

# Every mark and class of token, and the edges of the classes.
REPLACING = b'=|;:@"abZ_079 \n~[{/!\x00\x0b\x1f\x7f\x80\xff'

BLANKS = b" \t\n\r"
LETTERS = b"ABCDEFGHIJKLMNOPQRSTUVWXYZabcdefghijklmnopqrstuvwxyz"
DIGITS = b"0123456789"
MARKS = b"=|;:@"
QUOTE = b'"'


class Refused(Exception):
    """The first question answered no: its number, the place, the length."""

    def __init__(self, number, at, length):
        super().__init__(number, at, length)
        self.number = number
        self.at = at
        self.length = length


class Token:
    """A part of the file. `kind` is name, literal, digits, end, or the mark itself."""

    def __init__(self, kind, at, text):
        self.kind = kind
        self.at = at
        self.text = text

    def refuse(self, number):
        raise Refused(number, self.at, len(self.text))


# ---- Tokens: questions 2 to 5

def run_of(file, at, allowed):
    """The longest run of allowed bytes from `at`."""
    end = at
    while end < len(file) and file[end] in allowed:
        end += 1
    return file[at:end]


def literal_from(file, at):
    """The literal with its quotation marks, or question 4."""
    closing = file.find(QUOTE, at + 1)
    inside = file[at + 1:closing]
    if closing < 0 or len(inside) > 24 or any(b < 0x20 or b > 0x7E for b in inside):
        raise Refused(4, at, 1)
    return Token("literal", at, file[at:closing + 1])


def token_from(file, at):
    """The first token from `at` on; the end of the file is one too."""
    at += len(run_of(file, at, BLANKS))
    if at == len(file):
        return Token("end", at, b"")
    first = file[at]
    if first in MARKS:
        return Token(chr(first), at, file[at:at + 1])
    if first in QUOTE:
        return literal_from(file, at)
    if first in LETTERS:
        token = Token("name", at, run_of(file, at, LETTERS + DIGITS + b"_"))
        if len(token.text) > 24:
            token.refuse(3)
        return token
    if first in DIGITS:
        token = Token("digits", at, run_of(file, at, DIGITS))
        if len(token.text) > 4:
            token.refuse(5)
        return token
    raise Refused(2, at, 1)


# ---- Rules: questions 6 to 10

class Parser:
    """One token of the file in hand; it is looked at before it is passed."""

    def __init__(self, file):
        self.file = file
        self.rules = []         # pairs of the name's token and its alternatives
        self.alternatives = 0   # in all
        self.items = 0          # in all
        self.token = token_from(file, 0)

    def pass_token(self):
        """Gives the token in hand and takes the next in its place."""
        passed = self.token
        self.token = token_from(self.file, passed.at + len(passed.text))
        return passed

    def expect(self, kind):
        """The token in hand must be of this kind (6)."""
        if self.token.kind != kind:
            self.token.refuse(6)

    def read_file(self):
        """file = one or more rules"""
        while self.token.kind != "end":
            self.read_rule()
        if not self.rules:
            self.token.refuse(9)
        self.ask_uses()

    def read_rule(self):
        """rule = name "=" alternatives ";" """
        self.expect("name")
        if any(name.text == self.token.text for name, _ in self.rules):
            self.token.refuse(7)
        if len(self.rules) == 32:
            self.token.refuse(8)
        name = self.pass_token()
        self.expect("=")
        alternatives = [self.read_alternative()]
        while self.token.kind == "|":
            alternatives.append(self.read_alternative())
        self.expect(";")
        # The rule stands before the next token is looked at.
        self.rules.append((name, alternatives))
        self.pass_token()

    def read_alternative(self):
        """The mark that begins it, "=" or "|", and zero to six items."""
        if self.alternatives == 64:
            self.token.refuse(8)
        self.alternatives += 1
        self.pass_token()
        items = []
        while self.token.kind in ("name", "literal"):
            if len(items) == 6 or self.items == 128:
                self.token.refuse(8)
            self.items += 1
            items.append(self.read_item())
        return items

    def read_item(self):
        """A name's token, or the size of a literal; its cost matters nowhere here."""
        item = self.pass_token()
        if item.kind == "name":
            return item
        size = 1
        if self.token.kind == ":":
            size = self.read_number()
        if self.token.kind == "@":
            self.read_number()
        return size

    def read_number(self):
        """The mark ":" or "@", and a digit run."""
        self.pass_token()
        self.expect("digits")
        return int(self.pass_token().text)

    def ask_uses(self):
        """Is each name used also defined? (10)"""
        defined = [name.text for name, _ in self.rules]
        for _, alternatives in self.rules:
            for items in alternatives:
                for item in items:
                    if isinstance(item, Token) and item.text not in defined:
                        item.refuse(10)


# ---- Names that can be empty, steps, empty cycles: question 11

def can_vanish(item, empty):
    """A literal of size 0, or a name of the set."""
    if isinstance(item, Token):
        return item.text in empty
    return item == 0


def empty_names(rules):
    """The least set: names are added as long as one has to be."""
    empty = set()
    grown = True
    while grown:
        grown = False
        for name, alternatives in rules:
            if name.text not in empty and any(
                    all(can_vanish(item, empty) for item in items) for items in alternatives):
                empty.add(name.text)
                grown = True
    return empty


def steps_from(alternatives, empty):
    """The names that a step leads to: all the other items can vanish."""
    found = set()
    for items in alternatives:
        for place, item in enumerate(items):
            others = items[:place] + items[place + 1:]
            if isinstance(item, Token) and all(can_vanish(other, empty) for other in others):
                found.add(item.text)
    return found


def reached_from(start, steps):
    """All names that one or more steps lead to."""
    reached = set()
    waiting = list(steps[start])
    while waiting:
        name = waiting.pop()
        if name not in reached:
            reached.add(name)
            waiting.extend(steps[name])
    return reached


def ask_cycles(rules, empty):
    """Is there no empty cycle? (11)"""
    steps = {name.text: steps_from(alternatives, empty) for name, alternatives in rules}
    for name, _ in rules:
        if name.text in reached_from(name.text, steps):
            name.refuse(11)


# ---- The answer to one file

def answer(file):
    """The last six values of a line."""
    try:
        if len(file) > 16384:
            raise Refused(1, 0, 0)
        parser = Parser(file)
        parser.read_file()
        empty = empty_names(parser.rules)
        ask_cycles(parser.rules, empty)
    except Refused as no:
        return f"{no.number} {no.at} {no.length} 0 0 -"
    digits = "".join("1" if name.text in empty else "0" for name, _ in parser.rules)
    return f"0 0 0 {len(parser.rules)} {parser.items} {digits}"


def damaged(file):
    """Each version of a file: place, edit, replacing byte, and its bytes."""
    yield 0, "whole", "-", file
    for i in range(len(file)):
        before, byte, behind = file[:i], file[i:i + 1], file[i + 1:]
        yield i, "cut", "-", before
        yield i, "removed", "-", before + behind
        yield i, "doubled", "-", before + byte + byte + behind
        for new in REPLACING:
            yield i, "replaced", new, before + bytes([new]) + behind


def main():
    files = sys.stdin.buffer.read().split(b"\n")[:-1]
    print("file place edit byte refused at length names items empty")
    for number, file in enumerate(files):
        for place, edit, byte, version in damaged(file):
            print(number, place, edit, byte, answer(version))


main()
