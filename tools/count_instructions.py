#!/usr/bin/env python3
"""Counts the instructions of the main call and of the unchanged Rust on fixed forests of each class, by valgrind's callgrind.

Usage: count_instructions.py [--count N] [--seed N]   (anywhere, once tools/build_programs.sh has built the library)

Needs cargo and valgrind. The forests are those that `beside measure` times: of each class the first N that are written, by seeds from
--seed on, each sent once through each side. Counted is what runs inside the functions `counted_` of reference/beside: the Rust from its own
tree to its own tree, the main call from bytes to bytes. The call on no bytes is refused at once and does nothing but clear 16,384 work
words: what it takes is given apart, and taken off the main call's instructions for each forest.

Prints a table: instructions a record of each side, and how many times fewer the main call takes. The same library gives the same numbers
each time on one machine. Exit status: 0, or 2 where a tool or the library is missing or a run failed."""
import argparse
import os
import re
import shutil
import subprocess
import sys
import tempfile

REFERENCE = os.path.join(os.path.dirname(os.path.dirname(os.path.abspath(__file__))), "reference")
BESIDE = "target/release/beside"
CLASSES = ["small", "medium", "large", "deep", "readings", "many-scopes"]
# The program's path and its environment are fixed, since their length moves the stack and the heap. Without ERMS the C library stores
# vectors: callgrind takes `rep stosb` for an instruction a byte.
ENVIRONMENT = {"PATH": os.defpath, "GLIBC_TUNABLES": "glibc.cpu.hwcaps=-ERMS"}


def stop(why):
    print(f"count_instructions: {why}", file=sys.stderr)
    sys.exit(2)


def counted(side, forests):
    """Records of the forests (in hex, a line each), and the instructions that a side takes for them."""
    with tempfile.TemporaryDirectory() as room:
        given = os.path.join(room, "forests")
        with open(given, "w") as f:
            f.write(forests)
        command = [shutil.which("valgrind"), "--tool=callgrind", f"--callgrind-out-file={room}/out",
                   "--toggle-collect=beside::count::counted_*", BESIDE, "count", side]
        # from a file, since what a pipe gives at a time is not fixed
        with open(given) as f:
            done = subprocess.run(command, cwd=REFERENCE, stdin=f, env=ENVIRONMENT, capture_output=True, text=True)
    collected = re.search(r"Collected : (\d+)", done.stderr)
    if done.returncode != 0 or not collected or collected[1] == "0":
        stop(f"{side}: nothing was counted\n{done.stderr.strip()}")
    return int(done.stdout), int(collected[1])


def row(kind, count, seed, clearing):
    drawn = subprocess.run([BESIDE, "forests", kind, str(count), str(seed)], cwd=REFERENCE, capture_output=True, text=True)
    if drawn.returncode != 0:
        stop(f"{kind}: {drawn.stderr.strip()}")
    records, rust = counted("original", drawn.stdout)
    _, call = counted("call", drawn.stdout)
    rest = call - count * clearing
    return (f"| {kind} | {records:,} | {rust / records:,.1f} | {rest / records:,.1f} | {call / records:,.1f} "
            f"| {rust / rest:.2f} | {rust / call:.2f} |")


def main():
    parser = argparse.ArgumentParser(description=__doc__.split("\n")[0])
    parser.add_argument("--count", type=int, default=400)
    parser.add_argument("--seed", type=int, default=1)
    options = parser.parse_args()
    if options.count < 1 or options.seed < 0:
        stop("--count takes a number from 1 on, --seed one from 0 on")
    for tool in ("valgrind", "cargo"):
        if not shutil.which(tool):
            stop(f"{tool} is not on this machine")
    build = ["cargo", "build", "--offline", "--quiet", "--release", "-p", "beside", "--target-dir", "target"]
    if subprocess.run(build, cwd=REFERENCE).returncode != 0:
        stop("reference/beside can't be built; has tools/build_programs.sh built the library?")
    _, clearing = counted("call", "-\n")
    print("| class | records | Rust | main call | with clearing | times fewer | with clearing |")
    print("|---|---|---|---|---|---|---|")
    for kind in CLASSES:
        print(row(kind, options.count, options.seed, clearing), flush=True)
    print(f"clearing: {clearing:,} instructions a call; {options.count:,} forests a class, seeds from {options.seed:,} on")


if __name__ == "__main__":
    main()
