"""Lists the places in crates/*/src that an older form of the language may explain, by point.

    python3 tools/places.py            counts for each point
    python3 tools/places.py POINT ..   each place of these points

Run it at the top of a checkout. A place is a line that one of a point's patterns finds, so some are no older form
at all (a loop over the states of a model is a `for` already); docs/DESIGN-PASS.md judges each.
"""

import collections
import pathlib
import re
import sys

PATTERNS = {
    # hand matches of Option and Result, numbers for kinds and refusals, flags beside a value
    1: [
        r"^\s*None => (None|Err|unreachable|return)",
        r"^\s*Err\(\w+\) => (Err|None|unreachable|\{?\s*return)",
        r"^\s*Ok\(\w*\(?\)?\w*\) => (Ok|Some|\{\})",
        r"^\s*Some\(\w+\) => (Some|Ok|None|\w+,)",
        r"let (Ok|Some)\(\w+\) = .* else",
        r"command\(input, .*, \d, \d\)",
        r"&\[[1-5], ",
        r"=> \d+,$",
        r"\b(number: u8|refused: bool|counting = )",
        r"^\s*None$",
        r"let _ = ",
    ],
    # loops that count an index
    3: [
        r"while let Some\(.*\) = .*\(.*\b[ijs]\)",
        r"while \w+ < ",
        r"for \w+ in [\w.+ ]+\.\.=?[\w.()+ ]* \{",
        r"\.enumerate\(\)",
    ],
    # equality, copies, conversions and printing by hand
    4: [
        r"\b\* 256 \+|/ 256\b",
        r"^\s*\w+\[\w+( \+ \d)?\],$",
        r"\bas (u8|u16|usize)\b",
        r"\[18? ?\+? ?\w+\] = \w+\[\w+\];|name\[i\] = word\[i\]",
        r"fn (same|from_word|word|new|number)\(.*(u8|u64|self)\b.*\) ->",
        r"fn (put_number|put_line|at|put)\(",
        r"!= b\[i\]|\bb'0' \+",
    ],
    # buffers with a length beside them, parallel arrays
    6: [r"^\s*(pub(\(crate\))? )?\w+: (&'a mut \[T\]|\[.*; ?\d+\]),"],
    # a switch on which step to run
    7: [r"enum (Class|Mark|Kind|Lead|Joint|Ahead)\b"],
}


def source():
    for path in sorted(pathlib.Path("crates").glob("*/src/**/*.rt")):
        yield path, path.read_text().splitlines()


def lines(point):
    for path, text in source():
        for at, line in enumerate(text, 1):
            if any(re.search(p, line) for p in PATTERNS[point]):
                yield f"{path}:{at}: {line.strip()}"


# function bodies that are the same but for names and numbers
def twins():
    bodies = collections.defaultdict(list)
    for path, text in source():
        for found in re.finditer(r"^( *)(?:pub(?:\(crate\))? )?fn (\w+).*?^\1\}$", "\n".join(text), re.S | re.M):
            body = re.sub(r"(?ms)^ *(ensures|requires).*?$", "", found[0])
            # only the part in braces
            body = body[body.index("{\n") :] if "{\n" in body else ""
            words = re.sub(r"\b\w+\b", "x", re.sub(r"\s+", " ", body))
            if len(words) > 4:
                bodies[words].append(f"{path}: {found[2]}")
    for found in bodies.values():
        if len(found) > 1:
            yield "; ".join(found)
    shapes = collections.defaultdict(list)
    for path, text in source():
        for found in re.finditer(r"struct (\w+)[^\n]*\{\n(.*?)^\}", "\n".join(text), re.S | re.M):
            fields = re.sub(r": .*?(,|$)", ":", re.sub(r"(?m)^\s*(//|ghost).*$", "", found[2]))
            shapes[re.sub(r"\s+", " ", fields)].append(f"{path}: {found[1]}")
    for found in shapes.values():
        if len(found) > 1:
            yield "; ".join(found)


# clauses that stand in three contracts or more, and runs of parameters that do
def facts():
    clauses, runs = collections.Counter(), collections.Counter()
    for path, text in source():
        for line in text:
            found = re.search(r"^\s*requires\*?(?: \w+)? \{ (.*) \}$", line)
            if found:
                clauses[re.sub(r"\b(at|from|place)\b", "p", re.sub(r"\b(input|text)\b", "bytes", found[1]))] += 1
        for found in re.finditer(r"fn \w+(?:<[^(]*>)?\((.*?)\)(?: ->| \{|\n)", "\n".join(text), re.S):
            names = [p.strip() for p in re.sub(r"\s+", " ", found[1]).split(", ") if ":" in p]
            names = [re.sub(r"\b(from|at|place)\b", "p", n.rstrip(",")) for n in names]
            for i in range(len(names) - 1):
                runs[", ".join(names[i : i + 2])] += 1
    for fact, times in (clauses + runs).items():
        if times > 2:
            yield f"{times} times: {fact}"


def places(point):
    return list(twins() if point == 2 else facts() if point == 5 else lines(point))


if __name__ == "__main__":
    wanted = [int(a) for a in sys.argv[1:]]
    for point in wanted:
        print(*places(point), sep="\n")
    if not wanted:
        for point in range(1, 8):
            print(f"point {point}: {len(places(point))} places")
