#!/usr/bin/env python3
"""Writes a problem in the DIMACS form: make_cnf.py modelN | parityN | randomN | randomNb | manyN, over N variables.

make_cnf.py counted writes one over 500 variables, and make_cnf.py log one of its refutations, of 20,000 clauses."""
import itertools
import random
import re
import sys


def model(n, numbers):
    """A tree of features, each with its parent, some mandatory, in groups some; and constraints across the tree."""
    clauses = [[1]]
    children = {}
    for feature in range(2, n + 1):
        parent = numbers.randint(max(1, feature // 4), feature // 2)
        children.setdefault(parent, []).append(feature)
        clauses.append([-feature, parent])
    for parent, group in children.items():
        kind = numbers.random()
        if kind < 0.3:
            clauses.append([-parent, group[0]])
        elif kind < 0.7:
            clauses.append([-parent, *group])
        if kind < 0.5:
            clauses += [[-a, -b] for a in group for b in group if a < b]
    for _ in range(n // 4):
        a, b = numbers.sample(range(2, n + 1), 2)
        clauses.append([-a, b] if numbers.random() < 0.6 else [-a, -b])
    return clauses


def parity(n, numbers):
    """Sums of five variables modulo two, which one selection meets."""
    wanted = [numbers.random() < 0.5 for _ in range(n)]
    clauses = []
    for _ in range(n * 17 // 20):
        some = numbers.sample(range(1, n + 1), 5)
        odd = sum(wanted[v - 1] for v in some) % 2
        for signs in range(32):
            if bin(signs).count("1") % 2 != odd:
                clauses.append([-v if signs >> i & 1 else v for i, v in enumerate(some)])
    return clauses


def three(n, count, numbers):
    """Clauses of three literals."""
    return [[v if numbers.random() < 0.5 else -v for v in numbers.sample(range(1, n + 1), 3)] for _ in range(count)]


def counted(n, most):
    """At most so many of the first n variables are false, counted from the first on; and one more than that are, as others tell."""
    clauses = []
    # whether more than j of the first i variables are false
    above = lambda i, j: n + i * most + j + 1
    for i in range(n):
        for j in range(most):
            before = [above(i - 1, j)] if i else []
            clauses += [[-v, above(i, j)] for v in before]
            if j == 0:
                clauses.append([i + 1, above(i, j)])
            elif i:
                clauses.append([i + 1, -above(i - 1, j - 1), above(i, j)])
        if i:
            clauses.append([i + 1, -above(i - 1, most - 1)])
    others = range(n * (most + 1) + 1, n * (most + 1) + most + 2)
    for v, other in enumerate(others, 1):
        clauses += [[-v, other], [-v, -other]]
    return others[-1], clauses


def refutation(n, most, size):
    """A log that refutes it: of so many variables one is true, of many choices; and the first ones are false."""
    choices = itertools.combinations(range(n, 0, -1), most + 1)
    return [*itertools.islice(choices, size - most - 2), *([-v] for v in range(1, most + 2)), []]


def write(clauses):
    for clause in clauses:
        print(*clause, 0)


FEATURES, MOST = 124, 3
if sys.argv[1] == "log":
    write(refutation(FEATURES, MOST, 20_000))
    sys.exit()
if sys.argv[1] == "counted":
    size, made = counted(FEATURES, MOST)
    print(f"p cnf {size} {len(made)}")
    write(made)
    sys.exit()

kind, size, again = re.fullmatch(r"([a-z]+?)(\d+)(b?)", sys.argv[1]).groups()
n = int(size)
numbers = random.Random(n + 1000 * len(again))
made = {
    "model": lambda: model(n, numbers),
    "parity": lambda: parity(n, numbers),
    "random": lambda: three(n, int(n * 4.26), numbers),
    "many": lambda: three(n, 20_000, numbers),
}[kind]()
print(f"p cnf {n} {len(made)}")
write(made)
