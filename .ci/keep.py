#!/usr/bin/env python3
"""Lines `keep` against a reading of their own: which candidates pass, and the canonical text.

usage: keep.py PROGRAM [RANDOM [SEED]]

Expressions of up to three names, each name perhaps behind `not`, in each grouping, and then RANDOM larger ones that are written
with spare parentheses and blanks. Three rows, of which the first makes test a hold, the second b and the third c, have
one candidate for each line of a truth table; so the candidates that `list` prints are where the expression is true."""
import itertools, random, subprocess, sys

PROGRAM = sys.argv[1]
HEAD = ["gta 2", "columns of_a of_b of_c", "generate sublists"]
HEAD += [f"test {it} = sum of_{it} >= 1" for it in "abc"]
TABLE = "of_a,of_b,of_c\n1,0,0\n0,1,0\n0,0,1\n"
ROWS = [[row for row in range(3) if choice >> (2 - row) & 1] for choice in range(8)]


def is_true(tree, held):
    match tree:
        case str():
            return "abc".index(tree) in held
        case ("not", inner):
            return not is_true(inner, held)
        case ("and", left, right):
            return is_true(left, held) and is_true(right, held)
        case ("or", left, right):
            return is_true(left, held) or is_true(right, held)


# how tightly an expression binds: an `or` least, then an `and`, then all else
def binds(tree):
    return {"or": 1, "and": 2}.get(tree[0], 3)


def within(least, tree):
    return canonical(tree) if binds(tree) >= least else f"({canonical(tree)})"


def canonical(tree):
    match tree:
        case str():
            return tree
        case ("not", inner):
            return f"not {within(3, inner)}"
        case (word, left, right):
            least = binds(tree)
            return f"{within(least, left)} {word} {within(least + 1, right)}"


# the same with spare parentheses and blanks
def written(tree, chance, deep=0):
    match tree:
        case str():
            text = tree
        case ("not", inner):
            text = f"not {written_within(3, inner, chance, deep + 1)}"
        case (word, left, right):
            least = binds(tree)
            text = f"{written_within(least, left, chance, deep)}  {word} {written_within(least + 1, right, chance, deep)}"
    return f"( {text})" if deep < 8 and chance.random() < 0.2 else text


def written_within(least, tree, chance, deep):
    if binds(tree) >= least:
        return written(tree, chance, deep)
    return f"({written(tree, chance, deep + 1)} )"


def small():
    perhaps = lambda name: (name, ("not", name))
    yield from (it for name in "abc" for it in perhaps(name))
    for names in ("ab", "aa"):
        for word in ("and", "or"):
            for a, b in itertools.product(*map(perhaps, names)):
                yield (word, a, b)
                yield ("not", (word, a, b))
    for names in ("abc", "aba"):
        for first, second in itertools.product(("and", "or"), repeat=2):
            for a, b, c in itertools.product(*map(perhaps, names)):
                yield (second, (first, a, b), c)
                yield (first, a, (second, b, c))
                yield (second, ("not", (first, a, b)), c)


def large(names, chance):
    if names == 1:
        return chance.choice("abc")
    if chance.random() < 0.25:
        return ("not", large(names, chance))
    left = chance.randint(1, names - 1)
    return (chance.choice(("and", "or")), large(left, chance), large(names - left, chance))


def run(command, text):
    ended = subprocess.run([PROGRAM, command], input=text.encode(), capture_output=True)
    return ended.stdout.decode() + ended.stderr.decode()


def is_right(tree, text):
    lines = HEAD + [f"keep {text}", "aggregate count", "rows"]
    shown = HEAD + [f"keep {canonical(tree)}", "aggregate count", "rows"]
    # the candidates without a row come before those with it
    kept = [held for held in ROWS if is_true(tree, held)]
    listed = [f"kept {len(kept)}"] + [" ".join(str(row + 1) for row in held) or "-" for held in kept]
    for command, due in (("show", shown), ("list", listed)):
        found = run(command, "\n".join(lines) + "\n" + TABLE)
        if found != "\n".join(due) + "\n":
            print(f"keep {text}: {command} gives\n{found}and not\n" + "\n".join(due))
            return False
    return True


def main():
    count = int(sys.argv[2]) if len(sys.argv) > 2 else 100
    chance = random.Random(int(sys.argv[3]) if len(sys.argv) > 3 else 7)
    cases = [(tree, canonical(tree)) for tree in small()]
    for _ in range(count):
        tree = large(chance.randint(1, 20), chance)
        cases.append((tree, written(tree, chance)))
    wrong = sum(not is_right(tree, text) for tree, text in cases)
    print(f"expressions: {len(cases) - wrong} as expected, {wrong} not")
    return 1 if wrong else 0


sys.exit(main())
