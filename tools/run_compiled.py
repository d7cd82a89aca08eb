#!/usr/bin/env python3
"""Holds the forms in which the program replay can be run to one another, since no back end is proved.

Usage: run_compiled.py   (anywhere; needs rt, and target/bin/replay, which tools/build_programs.sh puts there)

On the whole list of calls, crates/replay/stdin, the program has to write what is stored in three compiled forms: as LLVM compiles it, at -O3
(target/bin/replay); as Rattle's own compiler does, at level 0; and compiled with checks, by `rt try`. (`rt ci` runs the first of them too, and
Rattle's own compiler at its own level, 2.) On some rows it has to do so on the interpreter of `rt try` as well: on eight, trees of document 01 and
refusals 1, 2, 9, 10 and 13, and on each 50th row of the list. A row takes the interpreter some two million steps.

Prints a line a form. Exit status: 0 if every form wrote what is stored, 1 if one did not or was not run, 2 if the list is not as this script knows it."""
import os
import struct
import subprocess
import sys

TOP = os.path.dirname(os.path.dirname(os.path.abspath(__file__)))
REPLAY = os.path.join(TOP, "crates", "replay")
BUILT = os.path.join(TOP, "target", "bin", "replay")
# more than the interpreter needs for the rows it gets; and seconds for a compiled form, on a busy machine
STEPS, SECONDS = 2_000_000_000, 600
EACH = 50
# p(z,z), if(z,s1(z),s1(z)), L7.p(n(7),n(7)), 3 and L1.L1.1: their places in the list, as tools/make_calls.py makes it, and their answers
TREES = {3: 0, 8: 0, 9: 0, 12: 10, 13: 9}
REFUSED = [1, 2, 13]


def bad(why):
    print(f"run_compiled: {why}", file=sys.stderr)
    sys.exit(2)


def listed():
    """The rows of the list: the eight numbers of a head (tools/make_calls.py), and the bytes after it."""
    with open(os.path.join(REPLAY, "stdin"), "rb") as f:
        data = f.read()
    with open(os.path.join(REPLAY, "stdout")) as f:
        stored = f.read()
    rows, at = [], 0
    while at < len(data):
        head = struct.unpack_from("<8I", data, at)
        end = at + 32 + head[0] + head[5]
        rows.append((head, data[at + 32 : end]))
        at = end
    return rows if stored == expected(rows) else bad("the list and crates/replay/stdout do not fit together")


def expected(rows):
    return f"{len(rows)} rows, 0 differ\n"


def chosen(rows):
    """The rows for the interpreter."""
    few = [rows[i] for i in TREES]
    if [head[3] for head, _ in few] != list(TREES.values()):
        bad("the list's first rows are not the trees of document 01")
    for number in REFUSED:
        fit = [row for row in rows if row[0][3] == number]
        few.append(min(fit, key=lambda row: row[0][0]) if fit else bad(f"no row for {number}"))
    return few + rows[::EACH]


def wrote(form, rows, command, said=None):
    """Whether a command, given these rows, writes what is stored of them, and says what it has to on standard error."""
    data = b"".join(struct.pack("<8I", *head) + rest for head, rest in rows)
    try:
        run = subprocess.run(command, cwd=REPLAY, input=data, capture_output=True)
    except OSError as e:
        print(f"{form}: {e}", flush=True)
        return False
    err = run.stderr.decode(errors="replace")
    well = run.returncode == 0 and run.stdout == expected(rows).encode() and (said is None or said in err)
    print(f"{form}: {len(rows)} rows, {'as' if well else 'NOT as'} stored", flush=True)
    if not well:
        print(run.stdout.decode(errors="replace")[-2000:] + err[-2000:])
    return well


def main():
    rows = listed()
    few = chosen(rows)
    tried = ["rt", "try", "--seconds", str(SECONDS), "--steps"]
    well = [
        wrote("LLVM, -O3", rows, [BUILT]),
        wrote("Rattle's own compiler, level 0", rows, ["rt", "run", "--backend", "rattle", "--opt-level", "0"]),
        # the interpreter stops at once
        wrote("compiled with checks", rows, [*tried, "1"], "checked: ended status=0"),
        wrote("interpreted, and compiled with checks", few, [*tried, str(STEPS)], " runners=2 "),
    ]
    print(f"{len(rows)} rows in the compiled forms, {len(few)} on the interpreter too: {'as' if all(well) else 'NOT as'} stored")
    return 0 if all(well) else 1


if __name__ == "__main__":
    sys.exit(main())
