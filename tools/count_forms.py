#!/usr/bin/env python3
# Counts the places in crates/*/src that have an older form than today's Rattle needs: tools/count_forms.py [COMMIT] [--list].
# docs/DESIGN-PASS.md says what each row means. Each place is one to look at; that page says which stay, and why.
import itertools
import re
import subprocess
import sys
from collections import defaultdict

LIST = "--list" in sys.argv
COMMIT = next((a for a in sys.argv[1:] if not a.startswith("-")), None)


def git(*args):
    return subprocess.run(["git", *args], check=True, capture_output=True, text=True).stdout


def sources():
    """The text of each file of crates/*/src, at the commit or as it stands."""
    if COMMIT:
        names = git("ls-tree", "-r", "--name-only", COMMIT, "crates").split()
        read = lambda name: git("show", f"{COMMIT}:{name}")
    else:
        names = git("ls-files", "--cached", "--others", "--exclude-standard", "crates").split()
        read = lambda name: open(name).read()
    return {n: read(n) for n in names if "/src/" in n and n.endswith(".rt")}


def lines_with(files, pattern):
    """Each line of code (no comment, no ghost use) that has the pattern."""
    for name, text in files.items():
        for i, line in enumerate(text.splitlines(), 1):
            if re.match(r"\s*(//|ghost use)", line):
                continue
            if re.search(pattern, line):
                yield f"{name}:{i}", line.strip()


def matches_on_option(files):
    """Each `match` all of whose arms are Some, None, Ok or Err."""
    for name, text in files.items():
        lines = text.splitlines()
        for i, line in enumerate(lines):
            head = re.match(r"(\s*).*\bmatch\b.*\{$", line)
            if not head or line.strip().startswith("//"):
                continue
            indent = len(head[1])
            arms = []
            for later in lines[i + 1 :]:
                if len(later) - len(later.lstrip()) <= indent and later.strip():
                    break
                arm = re.match(r"\s{%d}(\S.*?) =>" % (indent + 4), later)
                if arm:
                    arms.append(arm[1])
            if arms and all(re.match(r"(Some|None|Ok|Err)\b", a) for a in arms):
                yield f"{name}:{i + 1}", line.strip()


def functions(files):
    """Each function: where it is, the names and types of its parameters, its clauses."""
    for name, text in files.items():
        for m in re.finditer(r"^[ ]*(?:pub(?:\(crate\))? )?fn (\w+)", text, re.M):
            end = re.search(r"\n\s*\{|[^\n]*\{\n", text[m.start() :])
            head = text[m.start() : m.start() + (end.start() if end else 0)]
            if re.search(r"ghost use", head):
                continue
            params = re.findall(r"(\w+): ", re.split(r"\n\s*(?:requires|ensures)", head)[0])
            clauses = re.findall(r"(?:requires|ensures)(?: \w+)? \{ (.*) \}", head)
            where = f"{name}:{text[: m.start()].count(chr(10)) + 1}"
            yield where, m[1], params, clauses


def repeated_facts(files):
    """Each fact that three or more functions state or ask, in the same words but for old, new and now."""
    seen = defaultdict(list)
    for where, name, _, clauses in functions(files):
        for clause in clauses:
            parts = re.split(r"\) × \(+|^\(+|\)+$", clause) if "×" in clause else [clause]
            for fact in parts:
                fact = re.sub(r"\.(old|new|now|entry)\b", "", fact).strip()
                if fact and "result" not in fact and not re.fullmatch(r"\w+", fact):
                    seen[fact].append(where)
    for fact, places in sorted(seen.items(), key=lambda x: -len(x[1])):
        if len(set(places)) >= 3:
            for where in places:
                yield where, fact


def groups(files):
    """Each function with two parameters that three or more functions of the crate have, and few have one of them alone."""
    has = defaultdict(set)
    for where, name, params, _ in functions(files):
        for param in set(params):
            has[(where.split("/")[1], param)].add(where)
    places = {}
    for (crate, p), (other, q) in itertools.combinations(sorted(has), 2):
        both = has[(crate, p)] & has[(other, q)]
        alone = has[(crate, p)] ^ has[(other, q)]
        if crate == other and len(both) >= 3 and 2 * len(alone) <= len(both):
            for where in both:
                places.setdefault(where, []).append(f"{p} and {q}")
    return sorted((w, "; ".join(ps)) for w, ps in places.items())


ROWS = [
    ("1", "matches on an Option or a Result", matches_on_option),
    ("1", "an error told as an Option", r"-> Option<\w*(Fault|Refusal)>"),
    ("1", "numbers for kinds, statuses and refusals", r"\.number\(\)|\b\w+::numbered\(|fn numbered?\(|Refused\(|\bMISSING\b"),
    ("1", "a value in place of None", r"\bfront\("),
    ("1", "an arm or an else that only passes None or an error on", r"=> return (None|Err)|^\s*let (Some|Ok)\(.* else \{"),
    ("3", "while and loop", r"^\s*(while |loop \{)"),
    ("3", "for over a range of numbers", r"^\s*for .* in .*\.\."),
    ("3", "for with enumerate", r"^\s*for .*\.enumerate\(\)"),
    ("4", "conversions, comparisons and printing by hand", r"impl.* (From|TryFrom)<|impl fmt::Display|fn (numbered|number|words|earlier|comes_before|is_same|as_byte)\("),
    ("5", "facts that three or more functions state", repeated_facts),
    ("5", "functions with parameters that travel together", groups),
    ("5", "several facts in one clause of what is asked", r"requires.* × "),
    ("6", "arrays of a fixed size that are filled", r"\[\d+u(8|64); |\[0; \d|\[Kind::Anything; "),
    ("6", "lists written out element by element", r"^\s*\w+\(.*, [0-7]\),?$|says\[0\]"),
    ("6", "numbers for where things lie in memory", r"\b(585|1170|4680|6500|104000|109866|109958|1186|5866|130 \*|16 \*|11 \*|9 \*)"),
    ("7", "function values and dyn", r"\bfn\(|\bdyn |\bimpl Fn|<F: Fn"),
]

files = sources()
for point, what, rule in ROWS:
    places = list(rule(files) if callable(rule) else lines_with(files, rule))
    by_crate = defaultdict(int)
    for where, _ in places:
        by_crate[where.split("/")[1]] += 1
    print(f"{point}  {what}: {len(places)}   " + ", ".join(f"{c} {n}" for c, n in sorted(by_crate.items())))
    if LIST:
        for where, text in places:
            print(f"     {where}  {text}")
