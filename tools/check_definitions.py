#!/usr/bin/env python3
"""Runs the definitions of crate model on forests whose answers are known, by computation in the checker.

Usage: check_definitions.py ROWS.tsv [--least N] [--jobs N] [--batch N]

A row is tab separated: forest, output length, work words, number, place, written length, symbols, readings, tree; or, for the
lister, forest and text; or, for the sheet, the word `sheet`, forest and text; or, for the archive lister, the word `archive`, forest
and text; or, for the line of a template, the word `template`, forest and line; or, for a filling, the word `fill`, forest, values and
filled forest, the values as aux=literal,aux=literal; or, for values, the word `value`, forest, a meaning's number, the root's value
and the written tree's, '-' for none; or, for where subtrees end, the word `ends`, forest and the ends of its records with commas, '-'
for none. Byte strings are in hex, '-' for none.
`cse-reference rows`, `list-rows`, `archive-rows`, `template-rows`, `value-rows` and `ends-rows` write rows of all kinds but the
sheet's; those of tests/definitions are written by hand.

Each row becomes one declaration, proved by `refl`, in a module beside a copy of the definitions, and one that is wrong follows them, which
the checker must refuse. A row that it refuses is printed with its line number; a row over the checker's step limit says nothing either way and
is named and counted apart. At least N rows have to agree, all of them unless --least says otherwise.
Exit status: 0 if so many agree and none was refused, 1 if not, 2 for bad input or if the checker itself failed."""
import argparse
import os
import re
import shutil
import subprocess
import sys
import tempfile
from concurrent.futures import ThreadPoolExecutor

TOP = os.path.dirname(os.path.dirname(os.path.abspath(__file__)))
MODEL = os.path.join(TOP, "crates", "model")
SPECS = "Rattle.model.specs"

HEAD = f"""-- Rows from outside.
use Rattle.std.specs.Prelude.{{ℕ, zero, suc, ◌+◌, ◌*◌, ◌/◌, ◌%◌, ◌≡◌, refl, Bool, true, false, ◌&&◌, List, [], ◌∷◌, eqb, Option, None, Some}}
use Rattle.std.proofs.Common.{{arith}}
use {SPECS}.Lists.{{same}}
use {SPECS}.Answer.{{Answer, refused, good}}
use {SPECS}.Tree.{{Rec, root}}
use {SPECS}.Forest.{{trees_of}}
use {SPECS}.Call.{{Written, Numbers, ample, run, numbers_of}}
use {SPECS}.Lister.{{lister}}
use {SPECS}.ArchiveLister.{{archive_lister}}
use {SPECS}.Sheet.{{sheet}}
use {SPECS}.Template.{{Filling, fill_forest}}
use {SPECS}.TemplateLine.{{template_line}}
use {SPECS}.Failing.{{Semantics, eval}}
use {SPECS}.Ends.{{entries}}
use {SPECS}.Computing.{{computing, evaluating, ending}}

-- so many bytes of a number, the lowest first
bytes : ℕ → ℕ → List ℕ
bytes zero n = []
bytes (suc k) n = n % 256 ∷ bytes k (n / 256)

written : Answer Written → List ℕ
written (refused n p) = []
written (good w) = w.bytes

gives : Answer Written → Numbers → List ℕ → Bool
unfolding same numbers_of
gives a w tree =
    let n = numbers_of a in
    eqb n.number w.number && eqb n.place w.place && eqb n.len w.len && eqb n.symbols w.symbols &&
    eqb n.readings w.readings && same (written a) tree

-- the literal for an aux, by its first byte and the others; one byte, 0, for an aux without a value
chosen : List (ℕ × ℕ × List ℕ) → ℕ → ℕ × List ℕ
chosen [] a = (0, [])
chosen (v ∷ vs) a = elim (eqb v.0 a) [ true ↦ (v.1, v.2) | false ↦ chosen vs a ]

filling : List (ℕ × ℕ × List ℕ) → Filling
filling vs = record {{ literal = λ a. let c = chosen vs a in c.0 ∷ c.1; some_bytes = λ a l. omega arith }}

-- what operations mean, by a number m; reference/cse/src/evaluate.rs has it in Rust

-- a sum of numbers, the first times k, the next times k + 1
weighted : ℕ → List ℕ → ℕ
weighted k [] = 0
weighted k (n ∷ ns) = k * n + weighted (suc k) ns

weight : ℕ → Rec → ℕ
weight m r = r.shape + 3 * r.opcode + 5 * r.aux + weighted 1 r.lit + m

last_of : ℕ → List ℕ → ℕ
last_of v [] = v
last_of v (w ∷ ws) = last_of w ws

quotient : ℕ → ℕ → Option ℕ
quotient a zero = None
quotient a (suc b) = Some ((a / suc b) % 7)

means : ℕ → Rec → List ℕ → Option ℕ
means m r [] = let w = weight m r in elim (eqb (w % 5) 0) [ true ↦ None | false ↦ Some (w % 7) ]
means m r (v ∷ vs) =
    let sum = weight m r + weighted 2 (v ∷ vs) in
    elim (eqb ((r.opcode + m) % 3) 0) [ true ↦ quotient sum (last_of v vs) | false ↦ Some (sum % 7) ]

-- IF takes operand 1 where the condition is odd; ED skips where the left is even, EC where it is odd
numbered : ℕ → Semantics ℕ
numbered m =
    record {{ apply = means m; takes = λ v. eqb (v % 2) 1; skips = λ op v. elim (eqb op 0xED) [ true ↦ eqb (v % 2) 0 | false ↦ eqb (v % 2) 1 ] }}

value_of : ℕ → List ℕ → Option ℕ
value_of m forest = eval (numbered m) (root (trees_of forest)) []

-- so many entries: the ends of records, and zeros after them
padded : ℕ → List ℕ → List ℕ
padded zero es = es
padded (suc k) [] = 0 ∷ padded k []
padded (suc k) (e ∷ es) = e ∷ padded k es
"""
CALL = """
r{i} : gives (run (record {{ forest = {forest}; room = {room}; words = {words} }})) (record {{ number = {number}; place = {place}; len = {len}; symbols = {symbols};
    readings = {readings} }}) {tree} ≡ true
unfolding gives written bytes computing
r{i} = refl
"""
LIST = """
r{i} : same ({text} {forest}) {lines} ≡ true
unfolding bytes computing
r{i} = refl
"""
FILL = """
r{i} : same (fill_forest (filling {values}) {forest}) {filled} ≡ true
unfolding filling chosen bytes computing
r{i} = refl
"""
VALUE = """
r{i} : (value_of {m} {forest} ≡ {root}) × (value_of {m} (written (run (ample {forest}))) ≡ {tree})
unfolding weighted weight last_of quotient means numbered value_of written bytes computing evaluating
r{i} = (refl, refl)
"""
ENDS = """
r{i} : same (entries {forest}) (padded 256 {ends}) ≡ true
unfolding padded bytes computing ending
r{i} = refl
"""
# the definition that makes a row's text, by the row's first word
TEXTS = {"sheet": "sheet", "archive": "archive_lister", "template": "template_line"}
WRONG = """
wrong : eqb 0 1 ≡ true
wrong = refl
"""


def bad(line, why):
    print(f"check_definitions: line {line}: {why}" if line else f"check_definitions: {why}", file=sys.stderr)
    sys.exit(2)


def numeral(text, line):
    if text == "-":
        return "(bytes 0 0)"
    try:
        data = bytes.fromhex(text)
    except ValueError:
        bad(line, "odd or wrong hex")
    return f"(bytes {len(data)} 0x{data[::-1].hex()})" if data else bad(line, "empty hex; write '-'")


def literals(text, line):
    """The values of a filling, each an aux, a first byte and the other bytes: a literal has at least one."""
    values = ""
    for value in text.split(","):
        if not re.fullmatch(r"[0-9]+=([0-9a-f]{2})+", value):
            bad(line, "values are aux=literal,aux=literal, no literal empty")
        aux, literal = value.split("=")
        values += f"({aux}, 0x{literal[:2]}, {numeral(literal[2:] or '-', line)}) ∷ "
    return f"({values}[])"


def ends(text, line):
    """The ends of a forest's records; none of one that is refused."""
    if not re.fullmatch(r"-|[0-9]+(,[0-9]+)*", text):
        bad(line, "ends are numbers with commas, or '-'")
    numbers = [] if text == "-" else text.split(",")
    return f"({''.join(number + ' ∷ ' for number in numbers)}[])"


def option(text, line):
    """A value that may be missing."""
    if not re.fullmatch(r"-|[0-9]+", text):
        bad(line, "a value is a number, or '-'")
    return "None" if text == "-" else f"Some {text}"


def declaration(i, line, fields):
    if len(fields) == 2 or len(fields) == 3 and fields[0] in TEXTS:
        text = "lister" if len(fields) == 2 else TEXTS[fields[0]]
        return LIST.format(i=i, text=text, forest=numeral(fields[-2], line), lines=numeral(fields[-1], line))
    if len(fields) == 3 and fields[0] == "ends":
        return ENDS.format(i=i, forest=numeral(fields[1], line), ends=ends(fields[2], line))
    if len(fields) == 4 and fields[0] == "fill":
        return FILL.format(i=i, forest=numeral(fields[1], line), values=literals(fields[2], line), filled=numeral(fields[3], line))
    if len(fields) == 5 and fields[0] == "value":
        if not re.fullmatch(r"[0-9]+", fields[2]):
            bad(line, "a meaning's number is no number")
        root, tree = option(fields[3], line), option(fields[4], line)
        return VALUE.format(i=i, forest=numeral(fields[1], line), m=fields[2], root=root, tree=tree)
    if len(fields) != 9:
        bad(
            line,
            f"{len(fields)} fields, not 9, 2, 3 with the first `sheet`, `archive`, `template` or `ends`, 4 with the first `fill`, or 5 with the first `value`",
        )
    names = ("room", "words", "number", "place", "len", "symbols", "readings")
    for name, value in zip(names, fields[1:8]):
        if not re.fullmatch(r"[0-9]+", value):
            bad(line, f"{name} is no number")
    return CALL.format(i=i, forest=numeral(fields[0], line), tree=numeral(fields[8], line), **dict(zip(names, fields[1:8])))


def judge(batch):
    """The rows (line, fields) that the checker refused, and those over its step limit."""
    with tempfile.TemporaryDirectory() as room:
        copy = os.path.join(room, "crates", "model")
        shutil.copytree(MODEL, copy, ignore=shutil.ignore_patterns("out", "must-fail"))
        with open(os.path.join(room, "crates.txt"), "w") as f:
            f.write("model:\n")
        text, starts = HEAD, []
        for i, (line, fields) in enumerate(batch):
            starts.append((text.count("\n") + 2, line))
            text += declaration(i, line, fields)
        wrong = text.count("\n") + 2
        os.mkdir(os.path.join(copy, "proofs"))
        with open(os.path.join(copy, "proofs", "Rows.antt"), "w") as f:
            f.write(text + WRONG)
        with open(os.path.join(copy, "proofs", "Lib.antt"), "w") as f:
            f.write("mod Rows\n")
        run = subprocess.run(["rt", "check"], cwd=copy, capture_output=True, text=True)
    said = run.stdout + run.stderr
    found = [(int(at), message) for at, message in re.findall(r"Rows\.antt:(\d+):\d+: error: (.*)", said)]
    # every error is a row's, and the wrong one is among them
    if len(found) != said.count(" error: ") or not any(at >= wrong for at, _ in found):
        return None, said
    refused, limit = set(), set()
    for at, message in found:
        line = [row for start, row in starts if start <= at < wrong]
        if line:
            (limit if "step limit" in message else refused).add(line[-1])
        elif at < wrong:
            return None, said
    return sorted(refused), sorted(limit)


def main():
    parser = argparse.ArgumentParser(description=__doc__.split("\n")[0])
    parser.add_argument("rows")
    parser.add_argument("--least", type=int)
    parser.add_argument("--jobs", type=int, default=2)
    parser.add_argument("--batch", type=int, default=60)
    options = parser.parse_args()
    if options.jobs < 1 or options.batch < 1:
        bad(None, "--jobs and --batch take a number from 1 on")
    try:
        with open(options.rows) as f:
            rows = [(n, text.rstrip("\n").split("\t")) for n, text in enumerate(f, 1) if text.strip()]
    except OSError as e:
        bad(None, str(e))
    if not rows:
        bad(None, "no rows")
    least = len(rows) if options.least is None else options.least
    if least < 1:
        bad(None, "--least takes a number from 1 on")
    for line, fields in rows:
        declaration(0, line, fields)
    batches = [rows[i : i + options.batch] for i in range(0, len(rows), options.batch)]
    refused, limit = [], []
    with ThreadPoolExecutor(options.jobs) as pool:
        for first, second in pool.map(judge, batches):
            if first is None:
                print(second[-4000:], file=sys.stderr)
                bad(None, "the checker failed")
            refused += first
            limit += second
    for line in refused:
        print(f"line {line}: the definitions give another answer")
    for line in limit:
        print(f"line {line}: over the checker's step limit, not judged")
    agreed = len(rows) - len(refused) - len(limit)
    print(f"{len(rows)} rows: {agreed} agree, {len(refused)} differ, {len(limit)} over the step limit; at least {least} asked for")
    return 1 if refused or agreed < least else 0


if __name__ == "__main__":
    sys.exit(main())
