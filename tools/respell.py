#!/usr/bin/env python3
"""Respells this repository's own definitions and lemmas as today's Rattle does: words in snake case, types and facts in camel case.

Run once, at the top, after /opt/rattle/port/port.py. Names of src/, of the libraries and those that Rattle makes stay; so do comments
and strings. `--dry` only says what would be renamed and which names would fall together.
"""
import glob
import re
import sys

NAME = r"[A-Za-zℕ_₀-₉][\w'₀-₉]*(?:-(?:[\w'₀-₉]+|\+\+))*"
TOKEN = re.compile(r"(?P<skip>'\\?\"'|(?:^|(?<=\s))--[^\n]*|//[^\n]*|\"(?:[^\"\\\n]|\\.)*\")|(?P<dot>\.)?(?P<name>" + NAME + r")")
DECLARED = re.compile(r"^\s*(?:(?:pub|unfoldable|abbrev|data|record|ruleset)\s+)*(" + NAME + r")\s*(?::(?!\w)|(?:\([^()]*\)\s*)+:)")
BINDER = re.compile(r"[({]((?:" + NAME + r"\s+)*" + NAME + r")\s*:")
LET = re.compile(r"\blet\s+(" + NAME + r")\s*(?::|=)|λ\s*((?:" + NAME + r"\s+)+)?(" + NAME + r")\.")
MADE = re.compile(r"^use Rattle\.\w+\.(?:proofs\.[\w.+-]*\.(?:Goals|Given|Lts)|specs\.(?:declared|contracts)[\w.]*)\.\{([^}]*)\}", re.M)
LIBRARY = re.compile(r"^(?:ghost )?use (?:Rattle\.std|mathlib|native|borrow|lib|Prim|denote)[\w.]*\.\{([^}]*)\}", re.M)
ALIAS = re.compile(r"^(?:ghost )?use [\w.+-]+ as (\w+)", re.M)
FUNCTION = re.compile(r"\bfn (\w+)")
GOAL = re.compile(r"^(?:abbrev )?(?:pub )?(" + NAME + r") : goal\.", re.M)


def respelled(name):
    parts = name.split("-")
    if len(parts) == 1 or "++" in parts:
        return name if len(parts) == 1 else "_".join(parts[:-1]) + "-++"
    if parts[0][0].isupper():
        return "".join(p[0].upper() + p[1:] for p in parts)
    return "_".join(parts)


def code(text):
    """The text with comments and strings blanked."""
    return TOKEN.sub(lambda m: " " * len(m.group()) if m.group("skip") else m.group(), text)


def main(dry):
    files = sorted(glob.glob("crates/*/specs/**/*.antt", recursive=True) + glob.glob("crates/*/proofs/**/*.antt", recursive=True))
    sources = sorted(glob.glob("crates/*/src/**/*.rt", recursive=True))
    texts = {f: open(f).read() for f in files + sources}
    own, fields, lemmas, made, library = set(), set(), set(), set(), set()
    for f in files:
        bare = code(texts[f])
        goals = set(GOAL.findall(bare))
        made |= goals
        for m in MADE.finditer(bare):
            for entry in m.group(1).split(","):
                names = entry.split(" as ")
                made.add(names[0].strip())
                own |= {n.strip() for n in names[1:]}
        for m in LIBRARY.finditer(bare):
            for entry in m.group(1).split(","):
                names = entry.split(" as ")
                library.add(names[0].strip())
                own |= {n.strip() for n in names[1:]}
        own |= set(re.findall(r"\b(?:record|data) (" + NAME + ")", bare))
        inside = False
        for line in bare.splitlines():
            m = DECLARED.match(line)
            if m and m.group(1) not in goals:
                own.add(m.group(1))
                if "/proofs/" in f and not line.startswith(("abbrev", "unfoldable", "record", "pub record", "data", "pub data")):
                    lemmas.add(m.group(1))
            if re.match(r"^\s*(pub )?record ", line):
                inside = True
                continue
            if inside and line.strip() and not line.startswith(" "):
                inside = False
            if m and inside:
                fields.add(m.group(1))
        for m in BINDER.finditer(bare):
            own |= set(m.group(1).split())
        for m in LET.finditer(bare):
            own |= set(" ".join(g or "" for g in m.groups()).split())
        for line in bare.splitlines():
            head = re.match(r"^\s*((?:[^\s=({]+|\{[^{}=]*\})(?:\s+(?:[^\s=({]+|\{[^{}=]*\}))*)\s+=(?:\s|$)", line)
            if head:
                own |= {n for n in re.findall(NAME, head.group(1)) if re.search(r"(?:^|\s)" + re.escape(n) + r"(?:\s|$)", head.group(1))} - goals
    turned = {n: respelled(n) for n in own if "-" in n and respelled(n) != n}
    functions = {n for f in sources for n in FUNCTION.findall(code(texts[f]))}
    for n in lemmas & set(turned):
        if turned[n] in functions:
            print(f"see: the lemma {n} would have a function's name: {turned[n]}_lem")
            turned[n] += "_lem"
    for n in sorted(turned):
        if n in made:
            print(f"look: {n} is also a name that Rattle makes: left")
        if n in library:
            print(f"look: {n} is also a library's name: left")
    turned = {n: t for n, t in turned.items() if n not in made and n not in library}
    used = {}
    for f, text in texts.items():
        for m in TOKEN.finditer(text):
            if m.group("name"):
                used.setdefault(m.group("name"), set()).add(f)
    back = {}
    for n, t in sorted(turned.items()):
        back.setdefault(t, []).append(n)
        both = [f for f in used.get(t, ()) if f in used.get(n, ())]
        if both:
            print(f"look: {n} becomes {t}, which is there: {' '.join(both)}")
        elif t in own or t in made or t in library:
            print(f"see: {n} becomes {t}, which is another name in other files")
    for t, ns in back.items():
        if len(ns) > 1:
            print(f"look: {' and '.join(ns)} both become {t}")

    def turn(m):
        if m.group("skip") or not m.group("name"):
            return m.group()
        dot, n = m.group("dot") or "", m.group("name")
        if n not in turned:
            return m.group()
        if dot:
            before = m.string[:m.start()]
            owner = re.search(r"([\w'₀-₉+-]+)$", before)
            aliases = set(ALIAS.findall(m.string)) - {"goal"}
            module = owner and (owner.group(1)[0].isupper() or owner.group(1) in aliases)
            if not module and n not in fields:
                print(f"kept: .{n} behind {owner.group(1) if owner else '?'}")
                return m.group()
        return dot + turned[n]

    for f, text in texts.items():
        new = TOKEN.sub(turn, text)
        if new != text and not dry:
            open(f, "w").write(new)
    print(f"{len(turned)} names")
    return turned, fields


if __name__ == "__main__":
    main("--dry" in sys.argv)
