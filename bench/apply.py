#!/usr/bin/env python3
"""How fast the program `apply` goes through a file: bench/apply.py [LINES], after `./apply --help`.

For some rules it prints the lines, the bytes read and written, the best of three times, lines a second, and, where
valgrind is there, instructions a line, which stay the same however busy the machine is.
"""
import os
import random
import re
import shutil
import subprocess
import sys
import tempfile
import time

APPLY = os.path.join(os.path.dirname(__file__), "..", "crates", "apply", "out", "apply")
FIRST = ["Elin", "Per Olof", "Bo", "Åke", "Brita Kristina", "Jon", "Karin", "Øystein"]
LAST = ["Berg", "Dahl", "Ek", "Öström", "Lind", "Moe", "Lindqvist"]
RULES = [
    "no parts",
    "from the last place before which blanks end, to the end",
    'from the last place before which blanks end, to the end; ", "; from the beginning to the first place behind which blanks begin',
    'from the beginning to the first place behind which small letters begin; "."; from the last place behind which blanks begin, to the end',
    "; ".join(["from the first place behind which a run of letters begins, to the last place before which a run of letters ends"] * 8),
]


def entry():
    name = random.choice(FIRST) + " " + random.choice(LAST)
    if random.random() < 0.3:
        name += " dtr. of " + random.choice(FIRST) + " (see p. %d)" % random.randrange(300)
    return name.encode()[:64]


def run(rule, path):
    start = time.perf_counter()
    got = subprocess.run([APPLY, rule, path], capture_output=True)
    assert got.returncode == 0, got.stderr
    return time.perf_counter() - start, got.stdout


def instructions(rule, path):
    if shutil.which("valgrind") is None:
        return None
    with tempfile.TemporaryDirectory() as folder:
        got = subprocess.run(
            ["valgrind", "--tool=callgrind", "--callgrind-out-file=" + folder + "/out", APPLY, rule, path], capture_output=True
        )
        return int(re.search(rb"Collected : (\d+)", got.stderr).group(1))


def main():
    count = int(sys.argv[1]) if len(sys.argv) > 1 else 100000
    random.seed(1)
    lines = [entry() for _ in range(count)]
    with tempfile.TemporaryDirectory() as folder:
        path, few, more = (folder + "/" + name for name in ("all", "few", "more"))
        for name, some in ((path, lines), (few, lines[:1000]), (more, lines[:3000])):
            with open(name, "wb") as file:
                file.write(b"\n".join(some) + b"\n")
        print("%9s %12s %12s %8s %12s %12s  rule" % ("lines", "bytes read", "written", "seconds", "lines/s", "instr/line"))
        for rule in RULES:
            times = [run(rule, path) for _ in range(3)]
            seconds, out = min(times)
            a, b = instructions(rule, few), instructions(rule, more)
            each = "-" if a is None else "%d" % ((b - a) / 2000)
            print(
                "%9d %12d %12d %8.3f %12d %12s  %s"
                % (count, os.path.getsize(path), len(out), seconds, count / seconds, each, rule if len(rule) < 80 else rule[:77] + "...")
            )


main()
