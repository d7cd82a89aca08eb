#!/usr/bin/env python3
"""Makes the list that the program replay_check is run on, from rows of the Rust side.

Usage: make_replay.py < ROWS

ROWS are `forest in hex, tab, verdict` ('-' for no bytes), as `cse-reference check-rows` prints them: a verdict is `accepted` and, each after
a space, the number of the first record after each record's subtree, or `refused N at P`. Writes crates/replay_check/stdin, for each row
a 32-bit little-endian length and the bytes, and crates/replay_check/stdout, the verdicts a line each. The program holds at most 65,536
bytes, so longer forests are left out; how many is said on standard error.

The list in the repository was made by:
  cse-reference check-rows 700 --seed 0, and two forests at the limit of length:
  the first forest of `cse-reference generate near-limit 2000` with exactly 65,535 bytes, and the same with a byte 00 behind it; their
  verdicts are by `cse-reference check`."""
import os
import sys

HERE = os.path.dirname(os.path.abspath(__file__))
CRATE = os.path.join(os.path.dirname(HERE), "crates", "replay_check")
MOST = 65536


def main():
    lists, verdicts, left_out = [], [], 0
    for number, line in enumerate(sys.stdin, 1):
        fields = line.rstrip("\n").split("\t")
        if len(fields) != 2:
            sys.exit(f"make_replay: line {number}: {len(fields)} fields, not 2")
        try:
            forest = b"" if fields[0] == "-" else bytes.fromhex(fields[0])
        except ValueError:
            sys.exit(f"make_replay: line {number}: odd or wrong hex")
        if len(forest) > MOST:
            left_out += 1
            continue
        lists.append(len(forest).to_bytes(4, "little") + forest)
        verdicts.append(fields[1] + "\n")
    if not lists:
        sys.exit("make_replay: no rows")
    with open(os.path.join(CRATE, "stdin"), "wb") as f:
        f.write(b"".join(lists))
    with open(os.path.join(CRATE, "stdout"), "w") as f:
        f.write("".join(verdicts))
    print(f"make_replay: {len(lists)} rows, {left_out} left out", file=sys.stderr)


if __name__ == "__main__":
    main()
