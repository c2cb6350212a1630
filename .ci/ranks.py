#!/usr/bin/env python3
"""Aggregates of several totals against a list of all candidates.

usage: ranks.py PROGRAM [CASES [SEED]]

Every mix of `max` and `min` of two and of three measures, over tables of up to 7 rows at random, for each shape, alone and
beside a test: the best totals, and the best K with their candidates. Values are small, so that many totals tie. All candidates
are listed and put in order here; rows of great values show where the weights pass their bound, by whichever measure."""
import itertools, random, subprocess, sys

PROGRAM = sys.argv[1]
SHAPES = ["sublists", "segments", "prefixes", "suffixes", "assign"]
LABELS = "PQ"
BOUND = 4611686018427387903


def candidates(shape, rows):
    every = range(rows)
    if shape == "assign":
        return [[*zip(every, labels)] for labels in itertools.product(range(len(LABELS)), repeat=rows)]
    if shape == "sublists":
        found = [list(it) for size in range(rows + 1) for it in itertools.combinations(every, size)]
    elif shape == "segments":
        found = [[]] + [[*range(low, high)] for low in every for high in range(low + 1, rows + 1)]
    elif shape == "prefixes":
        found = [[*range(size)] for size in range(rows + 1)]
    else:
        found = [[*range(rows - size, rows)] for size in range(rows + 1)]
    return [[(row, 0) for row in it] for it in found]


class Job:
    def __init__(self, ranks, chance):
        self.shape, self.ranks = chance.choice(SHAPES), ranks
        great = chance.random() < 0.1
        self.cells = [[chance.randint(-1, 2) for _ in "abc"] for _ in range(chance.randint(0, 7))]
        if great and self.cells:
            for _ in range(2):
                chance.choice(self.cells)[chance.randrange(3)] = chance.choice([BOUND, -BOUND])
        self.test = chance.choice([None, ("length", "<=", chance.randint(0, 4)), ("length", ">=", chance.randint(0, 9))])
        self.k = chance.randint(1, 9)

    # with labels the second one doubles what a row has in the first column
    def value(self, measure, row, label):
        return self.cells[row][measure] * (2 if label == 1 and measure == 0 else 1)

    def lines(self, best):
        yield "gta 2"
        yield "columns a b c"
        if self.shape == "assign":
            yield f"labels {' '.join(LABELS)}"
            yield f"measure first = 2*a if label {LABELS[1]} ; a"
        yield f"generate {self.shape}"
        if self.test:
            yield f"test {' '.join(map(str, self.test))}"
        names = [("first" if self.shape == "assign" else "a"), "b", "c"]
        ranks = " then ".join(f"{'max' if greatest else 'min'} {names[measure]}" for greatest, measure in self.ranks)
        yield f"aggregate {f'best {self.k} ' if best else ''}{ranks}"
        yield "rows"
        yield "a,b,c"
        yield from (",".join(map(str, it)) for it in self.cells)

    def passes(self, candidate):
        match self.test:
            case None:
                return True
            case (_, "<=", bound):
                return len(candidate) <= bound
            case (_, _, bound):
                return len(candidate) >= bound

    def heavy(self):
        labels, weight = range(2 if self.shape == "assign" else 1), 0
        for row in range(len(self.cells)):
            weight += max(abs(self.value(measure, row, label)) for _, measure in self.ranks for label in labels)
            if weight > BOUND:
                return f"refused 41: row {row + 1}: weight total past {BOUND}\n"
        return None

    def ordered(self):
        totals = lambda it: [sum(self.value(measure, *mark) for mark in it) for _, measure in self.ranks]
        signs = [-1 if greatest else 1 for greatest, _ in self.ranks]
        found = [(totals(it), it) for it in candidates(self.shape, len(self.cells)) if self.passes(it)]
        return sorted(found, key=lambda it: ([sign * total for sign, total in zip(signs, it[0])], len(it[1]), it[1]))

    def due(self, best):
        if self.heavy():
            return self.heavy()
        found, written = self.ordered(), lambda totals: " ".join(map(str, totals))
        if not best:
            return f"answer {written(found[0][0]) if found else 'none'}\n"
        mark = lambda row, label: f"{row + 1}:{LABELS[label]}" if self.shape == "assign" else f"{row + 1}"
        lines = [f"answer {min(self.k, len(found))}"]
        for place, (totals, candidate) in enumerate(found[: self.k]):
            lines.append(f"{place + 1} {written(totals)} {' '.join(mark(*it) for it in candidate) or '-'}")
        return "\n".join(lines) + "\n"


def called(text):
    ended = subprocess.run([PROGRAM, "run", "--workers", "2", "--leaf", "2"], input=text.encode(), capture_output=True)
    return ended.stdout.decode() + ended.stderr.decode()


def is_right(job, best):
    text = "\n".join(job.lines(best)) + "\n"
    found, due = called(text), job.due(best)
    if found != due:
        print(f"{text}gives\n{found}and not\n{due}")
    return found == due


def main():
    cases = int(sys.argv[2]) if len(sys.argv) > 2 else 240
    chance = random.Random(int(sys.argv[3]) if len(sys.argv) > 3 else 41)
    orders = [order for size in (2, 3) for order in itertools.permutations(range(3), size)]
    mixes = [[*zip(kinds, order)] for order in orders for kinds in itertools.product([True, False], repeat=len(order))]
    jobs = [Job(mixes[it % len(mixes)], chance) for it in range(cases)]
    wrong = sum(not (is_right(it, False) and is_right(it, True)) for it in jobs)
    refused = sum(it.heavy() is not None for it in jobs)
    print(f"several totals: {cases - wrong} as expected ({refused} of them refused), {wrong} not")
    return 1 if wrong else 0


sys.exit(main())
