#!/usr/bin/env python3
"""Names the clauses that say one part of an answer for that part, and puts `#![tactic(auto)]` at the head of each crate.

usage: python3 tools/port-labels.py      once, after tools/port-names.py

port.py labels the clauses of a function by what stands in them: `ensures result_value_2 { parsing_rows result ≡ .. }`. Where
a clause speaks of one part of an enum that is told, its label is that part: `ensures rows { .. }`.
"""
import glob
import os
import re

ROOT = os.path.dirname(os.path.dirname(os.path.abspath(__file__)))
CLAUSE = re.compile(r"ensures result_value(?:_\d+)? \{ \w+_(number|rows|columns|ticket|length|read) result\b")

for path in sorted(glob.glob(os.path.join(ROOT, "crates/*/src/**/*.rt"), recursive=True)):
    with open(path, encoding="utf-8", newline="") as f:
        old = f.read()
    new = CLAUSE.sub(lambda m: re.sub(r"result_value(?:_\d+)?", m.group(1), m.group(0), count=1), old)
    if path.endswith(("/src/lib.rt", "/src/main.rt")) and "#![tactic(auto)]" not in new:
        lines = new.split("\n")
        at = next((i for i, l in enumerate(lines) if l and not l.startswith("//")), len(lines))
        lines[at:at] = ["#![tactic(auto)]", ""]
        new = "\n".join(lines)
    if new != old:
        with open(path, "w", encoding="utf-8", newline="") as f:
            f.write(new)
