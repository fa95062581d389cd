#!/usr/bin/env python3
"""Compares the program `apply` with a second implementation of docs/RULES.md, on random rules and texts.

scripts/compare.py [CASES [SEED]], after `./apply --help`. It prints how many rows were compared, and ends with
status 1 at the first that differs. Nothing here is taken from the proved sources.
"""
import os
import random
import subprocess
import sys
import tempfile

APPLY = os.path.join(os.path.dirname(__file__), "..", "crates", "apply", "out", "apply")
RUNS = {
    "digits": (b"0123456789", "digits end", "digits begin"),
    "letters": (bytes(range(65, 91)) + bytes(range(97, 123)), "a run of letters ends", "a run of letters begins"),
    "capitals": (bytes(range(65, 91)), "capitals end", "capitals begin"),
    "small": (bytes(range(97, 123)), "small letters end", "small letters begin"),
    "blanks": (b" ", "blanks end", "blanks begin"),
}
ALPHABET = b"ab AB12-.,\t\\\xc3\x85"


def ends(kind, text, p):
    """Whether this kind stands before the position p."""
    if kind is None:
        return True
    if isinstance(kind, int):
        return p > 0 and text[p - 1] == kind
    run = RUNS[kind][0]
    return p > 0 and text[p - 1] in run and not (p < len(text) and text[p] in run)


def begins(kind, text, p):
    """Whether this kind stands behind the position p."""
    if kind is None:
        return True
    if isinstance(kind, int):
        return p < len(text) and text[p] == kind
    run = RUNS[kind][0]
    return p < len(text) and text[p] in run and not (p > 0 and text[p - 1] in run)


def position(place, text):
    """Where the place is, or None."""
    if place[0] == "first":
        return place[1] if place[1] <= len(text) else None
    if place[0] == "last":
        return len(text) - place[1] if place[1] <= len(text) else None
    _, left, right, n, back = place
    found = [p for p in range(len(text) + 1) if ends(left, text, p) and begins(right, text, p)]
    if back:
        found.reverse()
    return found[n - 1] if n <= len(found) else None


def make(rule, text):
    """What the rule makes of the text: bytes, or None for nothing."""
    out = b""
    for part in rule:
        if isinstance(part, bytes):
            out += part
            continue
        a, b = position(part[0], text), position(part[1], text)
        if a is None or b is None or b < a:
            return None
        out += text[a:b]
    return out


def quoted(data):
    """Bytes in quotes, in either of the two forms that are read."""
    try:
        data.decode("utf-8")
        high = random.random() < 0.5
    except UnicodeDecodeError:
        high = False
    out = b""
    for c in data:
        if c in b'"\\':
            out += b"\\" + bytes([c])
        elif c < 32 or c == 127 or (c > 127 and not high):
            out += b"\\x%02x" % c
        else:
            out += bytes([c])
    return b'"' + out + b'"'


def kind_text(kind, which):
    return b"there's a " + quoted(bytes([kind])) if isinstance(kind, int) else RUNS[kind][which].encode()


def ordinal(n):
    if n % 10 in (1, 2, 3) and n // 10 != 1:
        return "%d%s" % (n, {1: "st", 2: "nd", 3: "rd"}[n % 10])
    return "%dth" % n


def place_text(place):
    if place[0] in ("first", "last"):
        edge = "beginning" if place[0] == "first" else "end"
        n = place[1]
        return ("the " + edge if n == 0 else "%d byte%s from the %s" % (n, "" if n == 1 else "s", edge)).encode()
    _, left, right, n, back = place
    which = ("last" if back else "first") if n == 1 else ordinal(n) + (" last" if back else "")
    sides = []
    if left is not None:
        sides.append(b"before which " + kind_text(left, 1))
    if right is not None:
        sides.append(b"behind which " + kind_text(right, 2))
    return b"the " + which.encode() + b" place " + b", and ".join(sides)


def part_text(part):
    if isinstance(part, bytes):
        return quoted(part)
    comma = b"," if part[0][0] == "nth" else b""
    return b"from " + place_text(part[0]) + comma + b" to " + place_text(part[1])


def rule_text(rule):
    return b"; ".join(map(part_text, rule)) if rule else b"no parts"


def random_kind():
    return random.choice([None, None, random.choice(ALPHABET), *RUNS])


def random_place():
    if random.random() < 0.3:
        return (random.choice(["first", "last"]), random.choice([0, 0, 1, 2, 5, 64]))
    while True:
        left, right = random_kind(), random_kind()
        if left is not None or right is not None:
            return ("nth", left, right, random.choice([1, 1, 1, 2, 2, 3, 11, 21]), random.random() < 0.5)


def random_text(most):
    return bytes(random.choice(ALPHABET) for _ in range(random.randrange(most)))


def random_part():
    if random.random() < 0.25:
        return random_text(5) or b'"'
    return (random_place(), random_place())


def escaped(text):
    return text.replace(b"\\", b"\\\\").replace(b"\t", b"\\t")


def row(rule, line):
    made = make(rule, line) if len(line) <= 64 else None
    return escaped(line) + (b"" if made is None else b"\t" + escaped(made)) + b"\n"


def main():
    cases = int(sys.argv[1]) if len(sys.argv) > 1 else 300
    random.seed(int(sys.argv[2]) if len(sys.argv) > 2 else 1)
    rows = made = 0
    with tempfile.NamedTemporaryFile() as file:
        for _ in range(cases):
            rule = [random_part() for _ in range(random.choice([0, 1, 1, 1, 2, 2, 3, 8]))]
            lines = [random_text(random.choice([4, 12, 40, 80])) for _ in range(60)] + [b"x"]
            text = rule_text(rule)
            try:
                text.decode("utf-8")
            except UnicodeDecodeError:
                continue
            file.seek(0)
            file.truncate()
            file.write(b"\n".join(lines))
            file.flush()
            got = subprocess.run([APPLY, text, file.name], capture_output=True)
            expected = b"".join(row(rule, line) for line in lines)
            if got.returncode != 0 or got.stdout != expected:
                print("differs:", text, got.stderr[:200], file=sys.stderr)
                for line, g in zip(lines, got.stdout.split(b"\n")):
                    if g + b"\n" != row(rule, line):
                        print(" ", line, g, row(rule, line), file=sys.stderr)
                sys.exit(1)
            rows += len(lines)
            made += expected.count(b"\t")
    print("%d rows alike, in %d of which something was made" % (rows, made))


main()
