#!/usr/bin/env python3
"""Prints the tables of docs/KEYS.md on how long jobs take, as measured here. usage: times.py PROGRAM"""

import subprocess
import sys
import time

MOST = 60
too_long = set()


def job(rows, bound, asked):
    lines = ["gta 1", "columns w v", "generate sublists", f"test sum w <= {bound}", f"aggregate {asked} v", "rows"]
    lines.append("w,v")
    lines += [f"{1 + 7 * i % 13},{1 + (11 * i + i * i) % 101}" for i in range(1, rows + 1)]
    return "\n".join(lines) + "\n"


def seconds(rows, bound, asked="max", words=()):
    """How long a run takes, as a text. What is larger than a run that took too long isn't run."""
    if any(rows >= it[0] and bound >= it[1] and asked == it[2] for it in too_long):
        return f"more than {MOST}"
    began = time.monotonic()
    try:
        given = {"input": job(rows, bound, asked), "text": True, "stdout": subprocess.DEVNULL, "timeout": MOST}
        if subprocess.run([sys.argv[1], "run", *words], stderr=subprocess.DEVNULL, **given).returncode == 1:
            return "refused"
    except subprocess.TimeoutExpired:
        too_long.add((rows, bound, asked))
        return f"more than {MOST}"
    took = time.monotonic() - began
    return f"{took:.2f}" if took < 1 else f"{took:.1f}" if took < 10 else f"{took:.0f}"


def line(cells):
    print("| " + " | ".join(cells) + " |", flush=True)


def table(head, rows):
    line(head)
    line(["---"] * len(head))
    for row in rows:
        line(row)


def main():
    bounds = (10, 100, 1000, 4000)
    sizes = (100, 1000, 10000)
    head = ["rows", "asked for", *[f"{bound + 2:,} keys" for bound in bounds]]
    asked = ("max", "best 1 max", "best 5 max")
    table(head, ([f"{n:,}", f"`{it}`", *[seconds(n, bound, it) for bound in bounds]] for n in sizes for it in asked))
    print()
    head = ["10,000 rows, 1,002 keys", *[f"`--workers {workers}`" for workers in (1, 2, 4)]]
    table(head, ([f"`{it}`", *[seconds(10000, 1000, it, ["--workers", str(w)]) for w in (1, 2, 4)]] for it in asked))


main()
