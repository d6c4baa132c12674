#!/usr/bin/env python3
"""Lists candidates for the places in src/ that docs/DESIGN-PASS.md counts, point by point.

    python3 tools/places.py [TOP] [-v]

prints how many lines of the crates below TOP each pattern finds, and with -v the lines themselves.
"""
import collections
import itertools
import pathlib
import re
import sys

TOP = pathlib.Path(next((a for a in sys.argv[1:] if a != "-v"), "."))
SOURCES = sorted(TOP.glob("crates/*/src/*.rt"))
ASIDE = re.compile(r"\s*(//|ghost use|use )")

LINES = [
    ("1a", "arms that hand an Option or a Result on", r"\b(Err|None|Some|Ok)(\([^)]*\))? => (Err|None|Some|Ok|return|\{$)"),
    ("1b", "let-else and if-let on an Option or a Result", r"(let Some|let Ok|if let Err|if let Some)\b"),
    ("1c", "flags as parameters", r"\b[a-z_]+: bool\b"),
    ("1d", "arms by a number", r"^ +[0-9]+ => "),
    ("1e", "arms that give a number", r"=> [0-9]+,$"),
    ("1f", "refusals told by an Option", r"-> Option<(Refusal|Reject)"),
    ("1g", "enums", r"^(pub |pub\(crate\) )?enum "),
    ("3a", "loops", r"^\s*(for|while|loop)\b"),
    ("3b", "of them over an index", r"^\s*for [a-z_]+ in \(?0\.\."),
    ("3c", "counts kept by hand", r"^\s*[a-z_]+ \+= 1;"),
    ("4a", "casts", r"\bas (u8|u32|u64|usize|i64)\b"),
    ("4b", "numbers put together from bytes", r"from_le_bytes|bytes\[i \+ [0-9]\]"),
    ("4c", "digits read by hand", r"b'0'|b'9'"),
    ("4d", "conversions, printing, defaults and drops by hand", r"^impl.* (From|TryFrom|Display|Default|Drop)\b"),
    ("5c", "ghost members and fields", r"ghost [a-zA-Z_]+: \{"),
    ("5d", "models", r"impl.* Model for"),
    ("6a", "arrays of a fixed length", r"\[[^\]]+; [0-9A-Z_]+\]"),
    ("6b", "memory reserved by hand", r"with_capacity|push_reserved|vec_capacity"),
    ("6c", "ArrayVec", r"ArrayVec<"),
    ("7a", "traits", r"^(pub )?trait "),
    ("7b", "closures", r"(^|[(,= ])\|&?[a-z_]+(, [a-z_]+)*\|(?!\|)"),
    ("7c", "functions that take a closure", r": (impl )?Fn(Mut|Once)?\("),
]
HEADS = {"1": "1. Option and Result by hand, flags, numbers for kinds", "3": "3. Loops", "4": "4. Equality, copying, conversion, printing",
         "5": "5. Facts and parameters that travel together", "6": "6. Buffers", "7": "7. Steps chosen by a switch, wrapper types"}


def show(key, what, found):
    print(f"{len(found):4} {key} {what}")
    if "-v" in sys.argv:
        for line in found:
            print(f"       {line}")


def name(path, number):
    return f"{path.relative_to(TOP / 'crates')}:{number}"


def matching(pattern):
    return [f"{name(p, n)}: {line.strip()}" for p in SOURCES for n, line in enumerate(p.read_text().splitlines(), 1)
            if re.search(pattern, line) and not ASIDE.match(line)]


def unequal_types():
    found = []
    for p in SOURCES:
        lines = p.read_text().splitlines()
        for n, line in enumerate(lines):
            if re.match(r"(pub |pub\(crate\) )?(enum|struct) ", line) and "PartialEq" not in "".join(lines[max(0, n - 2):n]):
                found.append(f"{name(p, n + 1)}: {line}")
    return found


def repeated_clauses():
    count = collections.Counter()
    for p in SOURCES:
        for kind, fact in re.findall(r"^\s*(requires|ensures)(?: [a-z_0-9]+)? (\{.*\})$", p.read_text(), re.M):
            count[kind, fact] += 1
    return [f"{n} x {kind} {fact}" for (kind, fact), n in sorted(count.items()) if n >= 3]


def repeated_parameters():
    count = collections.Counter()
    for p in SOURCES:
        for params in re.findall(r"\bfn \w+(?:<[^>]*>)?\(([^)]*)\)", p.read_text()):
            own = sorted({re.sub(r"\s+", " ", q.strip()) for q in params.split(",") if ":" in q})
            for group in itertools.combinations(own, 3):
                count[p.parts[-3], group] += 1
    return [f"{n} x {crate}: {', '.join(group)}" for (crate, group), n in sorted(count.items()) if n >= 3]


head = None
for key, what, pattern in LINES:
    if key[0] != head:
        head = key[0]
        print(HEADS[head])
        if head == "5":
            show("5a", "clauses that three or more contracts have, word for word", repeated_clauses())
            show("5b", "three parameters that three or more functions of a crate share", repeated_parameters())
    show(key, what, matching(pattern))
    if key == "1g":
        show("1h", "types that derive no equality", unequal_types())
print("8. Proofs")
show("8a", "files of answers", [str(p.relative_to(TOP / "crates")) for p in sorted(TOP.glob("crates/*/proofs/**/Answers.antt"))])
for what, files in [("proofs", "crates/*/proofs/**/*.antt"), ("specs", "crates/*/specs/*.antt"), ("src", "crates/*/src/*.rt")]:
    print(f"{sum(len(p.read_text().splitlines()) for p in TOP.glob(files)):5} lines of {what}")
