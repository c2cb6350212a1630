#!/usr/bin/env python3
"""Tests written as automata against running them: which candidates pass, and which automata are refused.

usage: runs.py PROGRAM [CASES [SEED]]

Automata of up to 6 states and 3 letters at random over tables of up to 8 rows, for each shape, alone and beside other tests, with a
name and without. All candidates are listed here and their states are run one by one; the program is asked for how many pass, for
the greatest total, and for their list. Some automata lack a step, have one twice, or one that is too short, and some have more than 64
functions: these are counted here by following all words."""
import itertools, random, subprocess, sys

PROGRAM = sys.argv[1]
SHAPES = ["sublists", "segments", "prefixes", "suffixes", "assign"]
LETTERS = ["x", "y", "z"]


class Automaton:
    def __init__(self, chance):
        self.states = chance.choice([1, 2, 2, 3, 3, 4, 5, 6])
        self.letters = chance.randint(1, 3)
        self.start = chance.randrange(self.states)
        # some letters move few states, so that not all automata have many functions
        self.moves = []
        for _ in range(self.letters):
            kind, states = chance.randrange(4), range(self.states)
            move = [chance.randrange(self.states) for _ in states]
            if kind == 1:
                move = [(state + 1) % self.states for state in states]
            elif kind == 2:
                move = [min(state + 1, self.states - 1) for state in states]
            elif kind == 3:
                move = [move[0]] * self.states
            self.moves.append(move)
        self.lines = [(letter, [*move]) for letter, move in enumerate(self.moves)]
        self.broken = None
        if chance.random() < 0.1:
            at = chance.randrange(self.letters)
            kind = chance.randrange(3)
            self.broken = at
            if kind == 0:
                del self.lines[at]
            elif kind == 1:
                self.lines.append((at, [*self.moves[at]]))
            else:
                self.lines[at][1].append(0)
        chance.shuffle(self.lines)

    def functions(self):
        """Counts the functions of all words, at most 65."""
        found = [tuple(range(self.states))]
        for function in found:
            for move in self.moves:
                then = tuple(move[state] for state in function)
                if then not in found:
                    found.append(then)
            if len(found) > 64:
                return 65
        return len(found)

    def text(self):
        states = " ".join(f"s{it}" for it in range(self.states))
        yield f"automaton A states {states} start s{self.start} letters {' '.join(LETTERS[: self.letters])}"
        for letter, targets in self.lines:
            yield f"step A {LETTERS[letter]} = {' '.join(f's{it}' for it in targets)}"

    def refusal(self):
        if self.broken is not None:
            return f"refused 29: automaton A: not total at {LETTERS[self.broken]}\n"
        return "refused 29: automaton A: more than 64 elements\n" if self.functions() > 64 else None


def candidates(shape, rows):
    every = range(rows)
    if shape == "assign":
        yield from ([*zip(every, labels)] for labels in itertools.product("PQ", repeat=rows))
        return
    if shape == "sublists":
        found = [list(it) for size in range(rows + 1) for it in itertools.combinations(every, size)]
    elif shape == "segments":
        found = [[]] + [[*range(low, high)] for low in every for high in range(low + 1, rows + 1)]
    elif shape == "prefixes":
        found = [[*range(size)] for size in range(rows + 1)]
    else:
        found = [[*range(rows - size, rows)] for size in range(rows + 1)]
    yield from ([(row, None) for row in it] for it in found)


class Job:
    def __init__(self, chance):
        self.shape, self.automaton = chance.choice(SHAPES), Automaton(chance)
        self.cells = [chance.randint(0, 3) for _ in range(chance.randint(0, 8))]
        # a letter, and what it asks for: nothing, a cell, or a label where there are labels
        self.picks = []
        for _ in range(chance.randint(1, 3)):
            asked = chance.choice([None, ("v", chance.choice(["<=", ">=", "="]), chance.randint(0, 3))])
            if self.shape == "assign" and chance.random() < 0.5:
                asked = ("label", chance.choice("PQ"))
            self.picks.append((chance.randrange(self.automaton.letters), asked))
        self.accept = [it for it in range(self.automaton.states) if chance.random() < 0.5] or [self.automaton.start]
        self.kind = chance.choice(["plain", "plain", "beside", "named"])
        self.bound = chance.randint(0, 6)

    def body(self):
        told = {None: lambda: "", "v": lambda _, sign, bound: f" if v {sign} {bound}", "label": lambda _, name: f" if label {name}"}
        picks = " ; ".join(LETTERS[letter] + (told[asked[0]](*asked) if asked else "") for letter, asked in self.picks)
        return f"run A by {picks} accept {' '.join(f's{it}' for it in self.accept)}"

    def lines(self, aggregate):
        yield "gta 3"
        yield "columns v"
        if self.shape == "assign":
            yield "labels P Q"
        yield f"generate {self.shape}"
        yield from self.automaton.text()
        if self.kind == "named":
            yield f"test good = {self.body()}"
            yield f"test few = sum v <= {self.bound}"
            yield "keep not good or few"
        else:
            yield f"test {self.body()}"
        if self.kind == "beside":
            yield f"test sum v <= {self.bound}"
        yield f"aggregate {aggregate}"
        yield "rows"
        yield "v"
        yield from map(str, self.cells)

    def meets(self, asked, row, label):
        match asked:
            case None:
                return True
            case ("v", sign, bound):
                cell = self.cells[row]
                return {"<=": cell <= bound, ">=": cell >= bound, "=": cell == bound}[sign]
            case ("label", name):
                return label == name

    def passes(self, candidate):
        state = self.automaton.start
        for row, label in candidate:
            letter = next((it for it, asked in self.picks if self.meets(asked, row, label)), None)
            state = state if letter is None else self.automaton.moves[letter][state]
        good = state in self.accept
        few = sum(self.cells[row] for row, _ in candidate) <= self.bound
        return {"plain": good, "beside": good and few, "named": not good or few}[self.kind]


def called(command, text):
    ended = subprocess.run([PROGRAM, command], input=text.encode(), capture_output=True)
    return ended.stdout.decode() + ended.stderr.decode()


def is_right(job):
    kept = [it for it in candidates(job.shape, len(job.cells)) if job.passes(it)]
    totals = [sum(job.cells[row] for row, _ in it) for it in kept]
    listed = sorted(" ".join(f"{row + 1}{':' + label if label else ''}" for row, label in it) or "-" for it in kept)
    refusal = job.automaton.refusal()
    for command, aggregate, due in (
        ("run", "count", [f"answer {len(kept)}"]),
        ("run", "max v", [f"answer {max(totals)}" if kept else "answer none"]),
        ("list", "any", sorted([f"kept {len(kept)}"] + listed)),
    ):
        text = "\n".join(job.lines(aggregate)) + "\n"
        found = called(command, text)
        if (found != refusal) if refusal else (sorted(found.splitlines()) != due):
            print(f"{text}{command} gives\n{found}and not\n{refusal or due}")
            return False
    return True


def main():
    chance = random.Random(int(sys.argv[3]) if len(sys.argv) > 3 else 29)
    jobs = [Job(chance) for _ in range(int(sys.argv[2]) if len(sys.argv) > 2 else 120)]
    wrong = sum(not is_right(it) for it in jobs)
    refused = sum(it.automaton.refusal() is not None for it in jobs)
    print(f"automata: {len(jobs) - wrong} as expected ({refused} of them refused), {wrong} not")
    return 1 if wrong else 0


sys.exit(main())
