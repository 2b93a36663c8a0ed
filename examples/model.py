#!/usr/bin/env python3
"""Makes model files readable, and builds them from readable text.

    examples/model.py build NAME.line > NAME.model
    examples/model.py show NAME.model

A readable model has a line for each command:

    agents K
    mark NAME                       one for each mark, in order
    state MARK .. : COUNT ..        the marks that it carries, and each agent's number of choices
    out STATE ..                    where the joint moves lead, in order
Words after # are a comment. The numbers of states and of outcomes are counted.
"""
import sys


def build(text):
    agents, names, states = 0, [], []
    for line in text.split("\n"):
        words = line.split("#")[0].split()
        if not words:
            continue
        if words[0] == "agents":
            agents = int(words[1])
        elif words[0] == "mark":
            names.append(words[1])
        elif words[0] == "state":
            at = words.index(":")
            states.append([words[1:at], [int(w) for w in words[at + 1:]], []])
        elif words[0] == "out":
            states[-1][2] += [int(w) for w in words[1:]]
        else:
            sys.exit(f"no such command: {words[0]}")
    out = bytes([1, agents, len(states), len(names)])
    for i, name in enumerate(names):
        out += bytes([2, i]) + name.encode().ljust(8)
    for marks, counts, outs in states:
        out += b"\3" + sum(1 << names.index(m) for m in marks).to_bytes(2, "big") + bytes(counts).ljust(6, b"\0")
        for t in outs:
            out += bytes([4, t])
    return out + b"\5" + sum(len(s[2]) for s in states).to_bytes(2, "big")


def show(data):
    k, n, m = data[1:4]
    rows, names, at, s = [f"agents {k}"], [], 4, 0
    for _ in range(m):
        names.append(data[at + 2:at + 10].decode().strip())
        rows.append(f"mark {names[-1]}")
        at += 10
    while data[at] != 5:
        bits = int.from_bytes(data[at + 1:at + 3], "big")
        carried = "".join(f"{name} " for i, name in enumerate(names) if bits >> i & 1)
        rows.append(f"state {carried}: " + " ".join(str(c) for c in data[at + 3:at + 3 + k]) + f"   # {s}")
        at, s, outs = at + 9, s + 1, []
        while data[at] == 4:
            outs.append(str(data[at + 1]))
            at += 2
        rows.append("out " + " ".join(outs))
    rest = data[at + 3:]
    return "\n".join(rows) + "\n" + (f"# then {len(rest)} bytes: {rest!r}\n" if rest else "")


if len(sys.argv) != 3 or sys.argv[1] not in ("build", "show"):
    sys.exit(__doc__)
if sys.argv[1] == "build":
    sys.stdout.buffer.write(build(open(sys.argv[2], encoding="utf-8").read()))
else:
    sys.stdout.write(show(open(sys.argv[2], "rb").read()))
