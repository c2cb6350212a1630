#!/usr/bin/env python3
# Prints the lines `table` and `times` of a rule on rows that follow one another.
#
# A rule is written as states. Before the first row the state is the first one of RULE. A row of each kind leads from
# each state to a next one. The rule is kept where the last state is one of GOOD. The one below says: at most three
# working days in a row. Change RULE, GOOD and NAME, run it, paste its lines into a job, and write behind each `if`
# which rows are of that kind.
RULE = {
    "none": {"r": "none", "w": "one"},
    "one": {"r": "none", "w": "two"},
    "two": {"r": "none", "w": "three"},
    "three": {"r": "none", "w": "broken"},
    "broken": {"r": "broken", "w": "broken"},
}
GOOD = ["none", "one", "two", "three"]
NAME = "days"

# An element says where some rows in a row lead from each state. It is named by the shortest such rows, the unit by e.
states = list(RULE)
names = {tuple(states): "e"}
found = list(names)
for element in found:
    for kind in RULE[states[0]]:
        longer = tuple(RULE[state][kind] for state in element)
        if longer not in names:
            names[longer] = names[element].replace("e", "") + kind
            found.append(longer)

print("table", NAME, "unit e elements", *names.values())
for first in found:
    products = [tuple(second[states.index(state)] for state in first) for second in found]
    print("times", NAME, names[first], "=", *[names[it] for it in products])
picks = " ; ".join(f"{kind} if ..." for kind in RULE[states[0]])
print("test fold", NAME, "by", picks, "accept", *[names[it] for it in found if it[0] in GOOD])
