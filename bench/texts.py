#!/usr/bin/env python3
"""Writes problem texts that are drawn from a seed into a folder: texts.py FOLDER SEED COUNT.

The text K.txt depends on the seed and on K alone. A text has one to four ideals in one to five variables and up to six queries of all nine
kinds. Maps go from an ideal to one inside it, made of its generators; one in five goes between any two ideals. One text in ten has a fault.
"""
import itertools
import os
import random
import sys

LETTERS = "xyzwv"
PRIMES = [2, 2, 2, 3, 3, 5, 7, 11, 13, 17, 19, 23, 29, 31]
ORDERS = ["", "order grevlex\n", "order deglex\n", "order lex\n"]
FAULTS = ["zero 9 {0}", "map 1 {0} K", "map 1 K {0}", "map 9 K {0}", "map 1 {0}", "support 1", "invert 1 {0} q", "class 1 {0} 17 (x)", "member {0} 2x"]


class Drawn:
    """A ring, and what is drawn over it. A polynomial is a dictionary from exponents to coefficients that aren't zero."""

    def __init__(self, pick):
        self.pick = pick
        self.prime = pick.choice(PRIMES)
        self.variables = pick.choice([1, 2, 2, 3, 3, 3, 4, 5])
        self.ideals = {}

    def monomial(self, degree):
        exponents = [0] * self.variables
        for _ in range(degree):
            exponents[self.pick.randrange(self.variables)] += 1
        return tuple(exponents)

    def polynomial(self, terms, degree):
        return self.sum([{self.monomial(self.pick.randint(0, degree)): self.pick.randrange(1, self.prime)} for _ in range(terms)])

    def sum(self, polynomials):
        total = {}
        for exponents, c in itertools.chain(*(f.items() for f in polynomials)):
            total[exponents] = (total.get(exponents, 0) + c) % self.prime
        return {exponents: c for exponents, c in total.items() if c}

    def product(self, f, g):
        return self.sum([{tuple(map(sum, zip(a, b))): c * d % self.prime} for a, c in f.items() for b, d in g.items()])

    def monomials(self):
        """A few monomials, squarefree or not, or products of two variables."""
        draw = self.pick.random()
        if draw < 0.4:
            return [{self.monomial(self.pick.randint(1, 3)): 1} for _ in range(self.pick.randint(1, 4))]
        if draw < 0.7:
            return [{tuple(self.pick.choices([0, 1], k=self.variables)): 1} for _ in range(self.pick.randint(1, 4))]
        edges = list(itertools.combinations(range(self.variables), min(2, self.variables)))
        edges = self.pick.sample(edges, self.pick.randint(1, len(edges)))
        return [{tuple(int(place in edge) for place in range(self.variables)): 1} for edge in edges]

    def some(self):
        """The generators of an ideal of one of a few sorts."""
        draw = self.pick.random()
        if draw < 0.05:
            return [self.pick.choice([{}, {(0,) * self.variables: 1}])]
        if draw < 0.55:
            return self.monomials()
        if draw < 0.8:
            return [self.polynomial(2, 2) for _ in range(self.pick.randint(1, 2))]
        return [self.polynomial(self.pick.randint(1, 3), 3) for _ in range(self.pick.randint(1, 3))]

    def inside(self, generators):
        """The generators of an ideal inside that of these: sums of multiples of them, or some of them."""
        if self.pick.random() < 0.3:
            return self.pick.sample(generators, self.pick.randint(1, len(generators)))
        found = []
        for _ in range(self.pick.randint(1, 3)):
            few = self.pick.choices(generators, k=self.pick.randint(1, 2))
            found.append(self.sum([self.product(f, {self.monomial(self.pick.randint(0, 2)): 1}) for f in few]))
        return found

    def text(self, f):
        if not f:
            return "0"
        terms = []
        for exponents, c in f.items():
            factors = [f"{x}^{e}" if e > 1 else x for x, e in zip(LETTERS, exponents) if e]
            terms.append("*".join(factors if c == 1 and factors else [str(c), *factors]))
        return "+".join(terms)


def draw_ideals(drawn):
    pick = drawn.pick
    drawn.ideals["A"] = drawn.some()
    drawn.ideals["B"] = drawn.inside(drawn.ideals["A"])
    if pick.random() < 0.4:
        drawn.ideals["C"] = drawn.inside(drawn.ideals["B"])
    if pick.random() < 0.4:
        drawn.ideals["D"] = drawn.some()


def query(drawn):
    pick = drawn.pick
    kind = pick.choice(["zero", "root", "support", "resolution", "ext", "class", "invert", "member", "map", "map"])
    name = pick.choice(list(drawn.ideals))
    degree = pick.choice([0, 1, 1, 1, 2, 2, 2, 3, 3, 4])
    degree = min(degree, drawn.variables)
    if kind == "map":
        pairs = [("A", "B"), ("A", "C"), ("B", "C"), ("A", "A")] if pick.random() < 0.8 else list(itertools.product(drawn.ideals, repeat=2))
        pairs = [(source, target) for source, target in pairs if target in drawn.ideals]
        return "map {} {} {}".format(degree, *pick.choice(pairs))
    if kind == "member":
        inside = drawn.inside(drawn.ideals[name])
        return f"member {name} {drawn.text(pick.choice([*inside, drawn.polynomial(2, 4)]))}"
    if kind == "invert":
        return f"invert {degree} {name} {drawn.text(drawn.polynomial(pick.randint(1, 2), 2))}"
    if kind == "class":
        count = pick.choice([1, 1, len([f for f in drawn.ideals[name] if f]), pick.randint(0, 3)])
        entries = [drawn.polynomial(pick.randint(0, 2), 4) for _ in range(count)]
        return f"class {degree} {name} {pick.choice([0, 0, 0, 1, 2])} ({','.join(map(drawn.text, entries))})"
    return f"{kind} {degree} {name}"


def problem(seed, number):
    drawn = Drawn(random.Random(f"{seed}/{number}"))
    draw_ideals(drawn)
    lines = [f"ideal {name} = {', '.join(map(drawn.text, generators))}" for name, generators in drawn.ideals.items()]
    lines += [query(drawn) for _ in range(drawn.pick.randint(1, 6))]
    if drawn.pick.random() < 0.1:
        place = drawn.pick.randint(len(drawn.ideals), len(lines))
        lines.insert(place, drawn.pick.choice(FAULTS).format(drawn.pick.choice(list(drawn.ideals))))
    return f"ring {drawn.prime} {' '.join(LETTERS[:drawn.variables])}\n{drawn.pick.choice(ORDERS)}" + "".join(line + "\n" for line in lines)


def main():
    folder, seed, count = sys.argv[1], sys.argv[2], int(sys.argv[3])
    os.makedirs(folder, exist_ok=True)
    for number in range(count):
        with open(f"{folder}/{number}.txt", "w", encoding="ascii") as out:
            out.write(problem(seed, number))


if __name__ == "__main__":
    main()
