#!/usr/bin/env python3
"""Question text read from its written rules alone, for the table of crates/texts: a second reader to hold the first against.

    python3 tools/read_text.py < crates/texts/stdin        prints what crates/texts/stdout has

The legend is `p`, `a1b`, `truex`, and there are two agents. A row is a number of places, a space and a text, in which `$`
stands for a line end, `~` for a tab and `^` for a carriage return. The digits of the number are the low halves of its bytes,
whatever they are, and it wraps at 64 bits.
"""
import sys

LEGEND = ["p", "a1b", "truex"]
AGENTS = 2
DEEPEST = 32
LONGEST = 4096


class Refused(Exception):
    def __init__(self, number, place):
        super().__init__(number, place)
        self.number, self.place = number, place


def after_blanks(text, at):
    while at < len(text) and text[at] in " \n":
        at += 1
    return at


def token(text, at):
    """The next token from a place on: its kind, its value, its place and what follows it."""
    at = after_blanks(text, at)
    if at == len(text):
        return "end", None, at, at
    first, end = text[at], at
    if "a" <= first <= "z":
        while end < len(text) and ("a" <= text[end] <= "z" or "0" <= text[end] <= "9"):
            end += 1
        word = text[at:end]
        return ("true" if word == "true" else "name"), word, at, end
    if "0" <= first <= "9":
        while end < len(text) and "0" <= text[end] <= "9":
            end += 1
        digits = [int(d) for d in text[at:end]]
        if any(d > 5 for d in digits) or any(a >= b for a, b in zip(digits, digits[1:])):
            raise Refused(11, at)
        return "digits", digits, at, end
    if first in "!&|()<>XGU":
        return first, first, at, at + 1
    raise Refused(11, at)


class Reader:
    def __init__(self, text):
        self.text, self.at, self.lines = text, 0, []

    def need(self, *kinds):
        kind, value, place, self.at = token(self.text, self.at)
        if kind not in kinds:
            raise Refused(11, place)
        return kind, value, place

    def put(self, line):
        self.lines.append(line)
        return len(self.lines) - 1

    def state(self, depth):
        if depth > DEEPEST:
            raise Refused(14, after_blanks(self.text, self.at))
        kind, value, place = self.need("true", "name", "!", "(", "<")
        if kind == "true":
            return self.put("true")
        if kind == "name":
            if value not in LEGEND:
                raise Refused(12, place)
            return self.put(f"mark({LEGEND.index(value)})")
        if kind == "!":
            return self.put(f"not({self.state(depth + 1)})")
        if kind == "<":
            return self.path(depth)
        left = self.state(depth + 1)
        word = {"&": "and", "|": "or"}[self.need("&", "|")[0]]
        right = self.state(depth + 1)
        self.need(")")
        return self.put(f"{word}({left},{right})")

    def path(self, depth):
        kind, value, place = self.need("digits", ">")
        who = 0
        if kind == "digits":
            if any(d >= AGENTS for d in value):
                raise Refused(13, place)
            who = sum(1 << d for d in value)
            self.need(">")
        kind = self.need("X", "G", "(")[0]
        left = self.state(depth + 1)
        if kind != "(":
            return self.put(f"{'next' if kind == 'X' else 'always'}({who};{left})")
        self.need("U")
        right = self.state(depth + 1)
        self.need(")")
        return self.put(f"until({who};{left},{right})")


def read(text, places):
    if len(text) > LONGEST:
        raise Refused(15, LONGEST)
    reader = Reader(text)
    reader.state(1)
    reader.need("end")
    if len(reader.lines) > places:
        raise Refused(16, 0)
    return reader.lines


def number(digits):
    places = 0
    for byte in digits.encode():
        places = (places * 10 + (byte & 15)) % 2**64
    return places


for row in sys.stdin.read().split("\n")[:-1]:
    places, _, written = row.partition(" ")
    text = written.replace("$", "\n").replace("~", "\t").replace("^", "\r")
    shown = row if len(row) < 80 else f"{len(text)} bytes"
    try:
        told = " ".join(read(text, min(64, number(places))))
    except Refused as fault:
        told = f"refused {fault.number} at {fault.place}, 0 lines"
    print(f"{shown} -> {told}")
