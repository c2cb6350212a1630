#!/usr/bin/env python3
"""Prints the table of docs/SPEED.md as measured here: how long gta takes, in ratio to a plain loop in C++ in the same run.

usage: speed.py PROGRAM [ROWS..]        by default 2000 20000 100000

It builds plain.cpp, which stands beside it, by g++. Each time is the least of three runs, from start to end, with reading the
table. A line says DIFFERS where the two don't print the same.
"""

import os
import subprocess
import sys
import tempfile
import time

HERE = os.path.dirname(os.path.abspath(__file__))
WORKERS = (1, 2, 4)

ORDER = """table order unit e elements e o n on no nn
times order e  = e  o  n  on no nn
times order o  = o  o  on on o  nn
times order n  = n  no nn n  nn nn
times order on = on o  nn on nn nn
times order no = no no n  n  no nn
times order nn = nn nn nn nn nn nn
"""

SHIFTS = (
    "labels off day night\ngenerate assign\nmeasure days = cost if label day\nmeasure nights = cost if label night\n"
    "measure earned = gain if label day ; 2 * gain if label night\n" + ORDER + "test sum days <= 20\ntest sum nights <= 20\n"
    "test fold order by n if label night ; o accept e o n on no\naggregate max earned\n"
)

# The plain loop's name, what is asked, the lines of the job, whether gains may be negative, and the greatest cost.
TASKS = (
    ("knapsack", "greatest total, costs at most 1,000", "generate sublists\ntest sum cost <= 1000\naggregate max gain\n", False, 50),
    ("ways", "how many, costs leave 7 by 1,000", "generate sublists\ntest sum cost mod 1000 = 7\naggregate count\n", False, 999),
    ("segment", "best segment", "generate segments\naggregate max gain\n", True, 50),
    ("thirds", "best segment with its rows, length mod 3 = 0",
     "generate segments\ntest length mod 3 = 0\naggregate best 1 max gain\n", True, 50),
    ("best", "best 3 with their rows, costs at most 100",
     "generate sublists\ntest sum cost <= 100\naggregate best 3 max gain\n", False, 13),
    ("shifts", "three labels, two sums, a table", SHIFTS, False, 5),
)


def table(rows, may_be_negative, most):
    """Rows that look like chance and are the same each time."""
    state, lines = 2463534242, ["cost,gain"]
    for _ in range(rows):
        for _ in range(2):
            state ^= state << 13 & 0xFFFFFFFF
            state ^= state >> 17
            state ^= state << 5 & 0xFFFFFFFF
        gain = state // 64 % 1000 + 1
        lines.append(f"{1 + state % most},{gain - 500 if may_be_negative else gain}")
    return "\n".join(lines) + "\n"


def least(words, given):
    """The least time of three runs, and what was printed; one run where it takes long."""
    found = None
    for _ in range(3):
        began = time.monotonic()
        out = subprocess.run(words, input=given, capture_output=True, text=True, check=True).stdout
        took = time.monotonic() - began
        found = took if found is None else min(found, took)
        if took > 5:
            break
    return found, out


def shown(seconds):
    return f"{seconds * 1000:.0f} ms" if seconds < 1 else f"{seconds:.1f} s"


def main():
    program, sizes = sys.argv[1], [int(it) for it in sys.argv[2:]] or [2000, 20000, 100000]
    with tempfile.TemporaryDirectory() as folder:
        plain = f"{folder}/plain"
        subprocess.run(["g++", "-O3", "-march=native", "-std=c++17", "-o", plain, f"{HERE}/plain.cpp"], check=True)
        print("| asked for | rows | plain loop | " + " | ".join(f"{it} worker{'s' * (it > 1)}" for it in WORKERS) + " |")
        print("|---" * (3 + len(WORKERS)) + "|")
        for name, asked, lines, may_be_negative, most in TASKS:
            for rows in sizes:
                given = table(rows, may_be_negative, most)
                base, wanted = least([plain, name], given)
                job, cells = f"gta 1\ncolumns cost gain\n{lines}rows\n{given}", []
                for workers in WORKERS:
                    took, out = least([program, "run", "--workers", str(workers)], job)
                    cells.append(f"{shown(took)}, {took / base:.1f}" + (" DIFFERS" if out != wanted else ""))
                print(f"| {asked} | {rows:,} | {shown(base)} | " + " | ".join(cells) + " |", flush=True)


if __name__ == "__main__":
    main()
