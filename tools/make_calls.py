#!/usr/bin/env python3
"""Makes the list that the program replay is run on: calls of the main call with their answers, by the Rust side.

Usage: make_calls.py   (anywhere; needs cargo)

Writes crates/replay/stdin and stdout. A row is eight 32-bit little-endian numbers: forest's length, output's length, work words, and the
five numbers of the answer; then the forest, then the written tree. The forests:
  - of each kind listed below, some that `cse-reference generate` makes, with the longest output and 16,384 work words; of those that are written, some
    once more with an output exactly as long as the tree, a byte shorter, and none, and with 16,390 words;
  - damaged in a known way, some for each of refusals 2 to 10 and 16;
  - the trees that document 01 lists for comparison, in its notation, and a few with marks;
  - each of the first with 16,383 words.
Numbers, places and trees are those of `cse-reference answer`: the unchanged original with the limits and refusals of document 01 around it.
Forests over 65,536 bytes are left out, since the program holds no more, and so are those that the Rust side passes over; both are counted."""
import os
import subprocess
import sys

ROOT = os.path.dirname(os.path.dirname(os.path.abspath(__file__)))
CRATE = os.path.join(ROOT, "crates", "replay")
LONGEST, WORDS, MOST = 65535, 16384, 65536
# kind, how many, of at most so many bytes: large forests would make the list long
KINDS = [("small", 200, 400), ("medium", 150, 1200), ("large", 40, 3000), ("deep", 60, 2500), ("wide", 60, 2500), ("thunks", 120, 1500),
         ("lambdas", 120, 1500), ("projections", 120, 1500), ("blocks", 120, 1500), ("near-limit", 50, 6000), ("readings", 60, 4000),
         ("symbols", 50, 6000), ("marked-small", 100, 400), ("marked-medium", 80, 1200), ("one-shape", 60, 1500)]
TREES = """h
p(h,h)
p(k,k)
p(z,z)
p(x,x)
p(n(z),n(z))
if(z,n(z),n(z))
n(z) | if(z,n(z),n(z))
if(z,s1(z),s1(z))
L7.p(n(7),n(7))
L7.p(n(z),n(z))
s1(tuple(z,z))
3
L1.L1.1
p(k:1,k:2)
p(k:1,k:1)
p(x:1,x:1)
p(x:1,x:2)
p(x,x:35)""".split("\n")


def reference(*words, lines=None):
    """What a command of the Rust side prints, line by line."""
    command = ["cargo", "run", "--offline", "--quiet", "--release", "-p", "cse-reference", "--", *words]
    done = subprocess.run(command, cwd=os.path.join(ROOT, "reference"), input=lines, capture_output=True, text=True)
    if done.returncode != 0:
        sys.exit(f"make_calls: {' '.join(words)}: {done.stderr.strip()}")
    return done.stdout.splitlines()


def forests():
    listed = reference("from-notation", lines="\n".join(TREES) + "\n")
    drawn = []
    for kind, wanted, longest in KINDS:
        made = reference("generate", kind, str(4 * wanted), "--seed", "1")
        drawn += [line for line in made if len(line) <= 2 * longest][:wanted]
    # `damage` draws one of these numbers for each seed
    damaged = [line.split("\t")[0] for line in reference("damage", "420", "--seed", "1")]
    long = [line for line in damaged if len(line) > 6000]
    damaged = [line for line in damaged if len(line) <= 6000] + long[:6]
    return listed, drawn, damaged


def answers(rows):
    """Rows (forest in hex, output's length, work words) with their answers, or None where there is none."""
    given = {}
    for room, words in sorted({(room, words) for _, room, words in rows}):
        asked = [forest for forest, *lent in rows if lent == [room, words]]
        told = reference("answer", "--out", str(room), "--words", str(words), lines="\n".join(asked) + "\n")
        for forest, line in zip(asked, told):
            given[forest, room, words] = None if line == "skipped" else line.split("\t")
    return [given[row] for row in rows]


def packed(row, answer):
    forest, room, words = row
    bytes_of = lambda text: b"" if text == "-" else bytes.fromhex(text)
    numbers = [int(field) for field in answer[:5]]
    head = [len(bytes_of(forest)), room, words, *numbers]
    return b"".join(number.to_bytes(4, "little") for number in head) + bytes_of(forest) + bytes_of(answer[5])


def main():
    listed, drawn, damaged = forests()
    plenty = [(forest, LONGEST, WORDS) for forest in listed + drawn + damaged if len(forest) <= 2 * MOST]
    too_long = len(listed + drawn + damaged) - len(plenty)
    told = answers(plenty)
    rows = [(row, answer) for row, answer in zip(plenty, told) if answer]
    skipped = len(plenty) - len(rows)
    written = [(row[0], int(answer[2])) for row, answer in rows if answer[0] == "0"]
    again = []
    for place, (forest, length) in enumerate(written):
        if place % 5 == 0:
            again += [(forest, length, WORDS), (forest, length - 1, WORDS)]
        if place % 40 == 0:
            again += [(forest, 0, WORDS), (forest, LONGEST, WORDS + 6)]
    again += [(forest, LONGEST, WORDS - 1) for forest in listed]
    rows += zip(again, answers(again))
    with open(os.path.join(CRATE, "stdin"), "wb") as f:
        f.write(b"".join(packed(row, answer) for row, answer in rows))
    with open(os.path.join(CRATE, "stdout"), "w") as f:
        f.write(f"{len(rows)} rows, 0 differ\n")
    counts = {}
    for _, answer in rows:
        counts[int(answer[0])] = counts.get(int(answer[0]), 0) + 1
    print(f"make_calls: {len(rows)} rows, by number {dict(sorted(counts.items()))}; left out: {too_long} too long, {skipped} passed over",
          file=sys.stderr)


if __name__ == "__main__":
    main()
