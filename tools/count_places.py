#!/usr/bin/env python3
"""Counts the places that docs/DESIGN-PASS.md speaks of, in the sources and proofs of a checkout.

Usage: count_places.py [FOLDER]   (the checkout; without it, that of this file)

Prints a line a count: the point, what is counted, how many. With --list the places too. Exit status 0."""
import collections
import glob
import os
import re
import sys

args = [a for a in sys.argv[1:] if a != "--list"]
root = args[0] if args else os.path.dirname(os.path.dirname(os.path.abspath(__file__)))
listed = "--list" in sys.argv
sources = sorted(glob.glob(f"{root}/crates/*/src/**/*.rt", recursive=True))
proofs = sorted(f for f in glob.glob(f"{root}/crates/*/proofs/**/*.antt", recursive=True))


def say(point, what, places):
    print(f"{point}  {what}: {len(places)}")
    if listed:
        for p in places:
            print(f"     {p}")


def short(path):
    return path.split("/crates/")[1]


def lines_with(pattern, files=sources):
    return [f"{short(f)}:{n}: {line.strip()}" for f in files for n, line in enumerate(open(f), 1) if re.search(pattern, line)]


def functions():
    """Each function with the names and the types of its parameters."""
    for f in sources:
        text = open(f).read()
        for m in re.finditer(r'(?m)^\s*(?:pub )?(?:extern "C" )?fn (\w+)(?:<[^>(]*>)?\(([^)]*)\)', text):
            parts = [p.split(":", 1) for p in m[2].replace("\n", " ").split(",") if ":" in p]
            yield f"{short(f)}: {m[1]}", {a.replace("mut ", "").strip(): b.strip() for a, b in parts}


known = list(functions())


def taking(*names):
    return [name for name, parameters in known if all(n in parameters for n in names)]


# 1: enums (which of them have the shape of Option or Result, the page says), refusals' numbers beside values, numbers for kinds
say(1, "enums", lines_with(r"^\s*(pub )?enum "))
say(1, "structs with the number of a refusal", lines_with(r"^    pub number: u32,"))
say(1, "fields that are 0 for nothing, counts of values beside them, kinds as numbers", lines_with(r"^    pub (field|branches|count|tag|rows): (u32|usize),"))
say(1, "parameters that are numbers for kinds", [n for n, p in known if any(p.get(k) in ("u8", "u32") for k in ("shape", "opcode", "op", "number", "tag"))])
say(1, "512 for no symbol", lines_with(r"^\s+512$|[^a-z_0-9]s < 512 \{"))

# 2: twins are listed on the page; here those that names show
say(2, "own conversions of numbers", lines_with(r"fn (wide|byte|low|high)\("))
say(2, "arrays of zeros", lines_with(r"fn (zeros\d+|no_ids)\("))

# 3: loops that are not `for`
say(3, "while and loop", lines_with(r"^\s*('\w+: )?(while|loop)\b"))

# 4: copies of a struct field by field: three fields or more of one other value
copies = []
for f in sources:
    run = []
    for n, line in enumerate(open(f), 1):
        m = re.match(r"\s+(\w+): (\w+)\.\1,$", line)
        if m and (not run or run[-1][1] == m[2]):
            run.append((n, m[2]))
        else:
            if len(run) >= 3:
                copies.append(f"{short(f)}:{run[0][0]}: of {run[0][1]}")
            run = [(n, m[2])] if m else []
say(4, "structs copied field by field", copies)
say(4, "equality, copies, greatest of two, conversions by hand",
    lines_with(r"fn (same_bytes|is_byte|same_kids|is_answer|is_output|is_work|byte_at|word_at|deeper|within|copied|copy|put5|put3|clear|fill_\w+|number16|put_16|put_32|put_bytes|id_at)\("))
say(4, "ifs that only return true or false", lines_with(r"^\s+return (true|false);$"))

# 5: facts in the requires of three functions or more; parameters that travel together
facts = collections.Counter()
for f in sources:
    for line in open(f):
        m = re.match(r"\s+requires (?:\w+ )?\{ (.*) \}\s*$", line)
        if m:
            facts.update(re.sub(r"\.(now|old)\b", "", part.strip("() ")) for part in m[1].split(" × "))
say(5, "facts in the requires of three functions or more", [f"{n} {fact}" for fact, n in facts.most_common() if n >= 3])
for group in (("forest", "work"), ("work", "g"), ("forest", "work", "g"), ("forest", "work", "t", "st"), ("held", "count"), ("ids", "last", "above", "p"), ("map", "last", "above", "p")):
    say(5, "functions that take " + ", ".join(group), taking(*group))

# 6: buffers with a length beside them
for group in (("list", "n"), ("own", "count"), ("order", "count"), ("seen", "list", "n"), ("from", "count"), ("lit", "at"), ("out", "at")):
    say(6, "functions that take " + ", ".join(group), taking(*group))
say(6, "structs of an array and a length", lines_with(r"^    (pub )?\w+: \[\w+; \d+\],"))

# 7: bools that say which step to run
say(7, "bools among parameters and fields", [n for n, p in known if "bool" in p.values()] + lines_with(r"^    (pub )?\w+: bool,"))

# 8: proofs
answers = [f for f in proofs if f.endswith("Answers.antt")]
say(8, "files of answers", [short(f) for f in answers])
print(f"8  lines of answers: {sum(len(open(f).readlines()) for f in answers)}")
print(f"8  lines of proofs: {sum(len(open(f).readlines()) for f in proofs)}")
found = sum(len(re.findall(r"(?m)=\s+search rules$", open(f).read())) for f in answers)
print(f"8  answers `search rules`: {found}")
print(f"8  lines of sources: {sum(len(open(f).readlines()) for f in sources)}")
