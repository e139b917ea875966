#!/usr/bin/env python3
"""An independent reader of byte tables and judge of sealing, written from docs/formats.md and docs/calls.md.

    independent.py script SEED COUNT    a script of COUNT random tables, each opened and sealed
    independent.py answers SEED COUNT   the numbers that its lines should be answered

The stored cases of crates/independent_cases (stdin and stdout) were made so, with seed 1 and count 700.
"""
import itertools
import random
import sys


class Fault(Exception):
    """A number and a place."""


class Missing(Exception):
    """A byte that is not there."""


class Expressions:
    """The expression that some bytes are, which stand from `base` on and may use the names seen."""

    def __init__(self, part, base, seen):
        self.part, self.base, self.seen = part, base, seen

    def wrong(self, k):
        raise Fault(5, self.base + k)

    def byte(self, k):
        if k >= len(self.part):
            self.wrong(k)
        return self.part[k]

    def two(self, read, k, levels):
        a, k = read(k, levels)
        b, k = read(k, levels)
        return a, b, k

    def number(self, k, levels):
        if levels == 0:
            self.wrong(k)
        op = self.byte(k)
        if op == 0:
            return ("constant", self.byte(k + 1)), k + 2
        if op in (1, 2):
            if self.byte(k + 1) not in self.seen[op - 1]:
                self.wrong(k + 1)
            return (("old", "new")[op - 1], self.part[k + 1]), k + 2
        if op in (3, 4):
            a, b, k = self.two(self.number, k + 1, levels - 1)
            return (("sum", "difference")[op - 3], a, b), k
        self.wrong(k)

    def truth(self, k, levels):
        if levels == 0:
            self.wrong(k)
        op = self.byte(k)
        if op in (16, 17):
            a, b, k = self.two(self.number, k + 1, levels - 1)
            return (("equal", "less")[op - 16], a, b), k
        if op == 18:
            a, k = self.truth(k + 1, levels - 1)
            return ("not", a), k
        if op in (19, 20):
            a, b, k = self.two(self.truth, k + 1, levels - 1)
            return (("and", "or")[op - 19], a, b), k
        if op == 21:
            return ("true",), k + 1
        self.wrong(k)

    def whole(self, read):
        e, end = read(0, 8)
        if end != len(self.part):
            self.wrong(end)
        return e


class Reader:
    def __init__(self, bytes_):
        self.bytes, self.k = bytes_, 0

    def byte(self, number, right):
        if self.k >= len(self.bytes):
            raise Missing
        b = self.bytes[self.k]
        if not right(b):
            raise Fault(number, self.k)
        self.k += 1
        return b

    def names(self, right):
        if self.k + 4 > len(self.bytes):
            raise Missing
        word = int.from_bytes(self.bytes[self.k:self.k + 4], "big")
        names = {n for n in range(32) if word >> n & 1}
        if not right(names):
            raise Fault(4, self.k)
        self.k += 4
        return names

    def expression(self, seen, truth):
        n = self.byte(5, lambda b: 1 <= b <= 64)
        start = self.k
        if start + n > len(self.bytes):
            raise Missing
        e = Expressions(self.bytes[start:start + n], start, seen)
        self.k = start + n
        return e.whole(e.truth if truth else e.number)

    def choices(self, count, controls, seen):
        result = []
        for _ in range(count):
            guard = self.expression(seen, True)
            result.append((guard, {n: self.expression(seen, False) for n in sorted(controls)}))
        return result

    def atom(self, variables):
        known = lambda names: all(n in variables for n in names)
        controls = self.names(lambda names: names and known(names) and all(variables[n][0] != 2 for n in names))
        reads, awaits = self.names(known), self.names(known)
        counts = [self.byte(4, lambda b: 1 <= b <= 8) for _ in range(2)]
        initial = self.choices(counts[0], controls, (set(), awaits))
        update = self.choices(counts[1], controls, (reads, awaits))
        return {"controls": controls, "reads": reads, "awaits": awaits, "choices": (initial, update)}

    def table(self):
        variables, last = {}, -1
        for _ in range(self.byte(3, lambda b: b <= 32)):
            last = self.byte(3, lambda b: last < b <= 31)
            kind = self.byte(3, lambda b: b <= 2)
            variables[last] = (kind, self.byte(3, lambda b: b >= 1))
        atoms = [self.atom(variables) for _ in range(self.byte(4, lambda b: b <= 16))]
        if self.k != len(self.bytes):
            raise Fault(6, self.k)
        return variables, atoms


def opened(bytes_):
    if len(bytes_) > 4096:
        raise Fault(1, 0)
    try:
        return Reader(bytes_).table()
    except Missing:
        raise Fault(2, len(bytes_))


def value(e, old, new):
    op, *parts = e
    if op == "constant":
        return parts[0]
    if op in ("old", "new"):
        return (old if op == "old" else new)[parts[0]]
    if op == "true":
        return True
    values = [value(p, old, new) for p in parts]
    return {
        "sum": lambda: values[0] + values[1],
        "difference": lambda: values[0] - values[1],
        "equal": lambda: values[0] == values[1],
        "less": lambda: values[0] < values[1],
        "not": lambda: not values[0],
        "and": lambda: values[0] and values[1],
        "or": lambda: values[0] or values[1],
    }[op]()


def on_a_ring(atoms):
    awaits = {(a, b) for a, x in enumerate(atoms) for b, y in enumerate(atoms) if x["awaits"] & y["controls"]}
    through = set(awaits)
    while True:
        more = {(a, d) for a, b in through for c, d in awaits if b == c} - through
        if not more:
            return {a for a, b in through if a == b}
        through |= more


def sights(variables, atom, update):
    def rows(names):
        for row in itertools.product(*[range(variables[n][1] + 1) for n in sorted(names)]):
            yield dict(zip(sorted(names), row))

    for old in rows(atom["reads"] if update else ()):
        for new in rows(atom["awaits"]):
            yield old, new


def verdict(variables, atoms):
    def product(names):
        result = 1
        for n in names:
            result *= variables[n][1] + 1
        return result

    def open_choices(atom, update, old, new):
        return [c for c in atom["choices"][update] if value(c[0], old, new)]

    def stuck(atom):
        return any(not open_choices(atom, u, old, new) for u in (0, 1) for old, new in sights(variables, atom, u))

    def outside(atom):
        return any(not 0 <= value(e, old, new) <= variables[n][1]
                   for u in (0, 1) for old, new in sights(variables, atom, u)
                   for _, given in open_choices(atom, u, old, new) for n, e in given.items())

    for n, (kind, _) in sorted(variables.items()):
        if kind != 2 and sum(n in a["controls"] for a in atoms) != 1:
            return 12, n
    ring = on_a_ring(atoms)
    if ring:
        return 13, min(ring)
    for number, wrong in ((14, lambda a: product(a["reads"]) * product(a["awaits"]) > 65536), (15, stuck), (16, outside)):
        for place, atom in enumerate(atoms):
            if wrong(atom):
                return number, place
    width = product(n for n, (kind, _) in variables.items() if kind == 2)
    for atom in atoms:
        width *= max(len(c) for c in atom["choices"])
    return (17, 0) if width > 1048576 else (0, 0)


class Makes:
    """Random tables, mostly right ones, and then spoilt now and then."""

    def __init__(self, seed):
        self.r = random.Random(seed)

    def number(self, seen, levels):
        kinds = ["constant"] + ["old"] * 2 * bool(seen[0]) + ["new"] * 2 * bool(seen[1]) + ["two"] * (levels > 1)
        kind = self.r.choice(kinds)
        if kind == "constant":
            return [0, self.r.choice([0, 0, 1, 1, 2, 3, 255])]
        if kind == "two":
            return [self.r.choice([3, 4])] + self.number(seen, levels - 1) + self.number(seen, levels - 1)
        return [1, self.r.choice(sorted(seen[0]))] if kind == "old" else [2, self.r.choice(sorted(seen[1]))]

    def truth(self, seen, levels):
        kind = self.r.choice(["true"] + (["compare"] * 3 + ["not", "two"]) * (levels > 1))
        if kind == "true":
            return [21]
        if kind == "compare":
            return [self.r.choice([16, 17])] + self.number(seen, levels - 1) + self.number(seen, levels - 1)
        if kind == "not":
            return [18] + self.truth(seen, levels - 1)
        return [self.r.choice([19, 20])] + self.truth(seen, levels - 1) + self.truth(seen, levels - 1)

    def some(self, names):
        names = sorted(names)
        return set(self.r.sample(names, min(len(names), self.r.randint(0, 2))))

    def atom(self, names, controls):
        reads, awaits = self.some(names), self.some(n for n in names if n not in controls or self.r.random() < 0.1)
        out = [b for s in (controls, reads, awaits) for b in sum(1 << n for n in s).to_bytes(4, "big")]
        counts = [self.r.randint(1, 3), self.r.randint(1, 3)]
        out += counts
        for count, seen in zip(counts, ((set(), awaits), (reads, awaits))):
            for _ in range(count):
                guard = self.truth(seen, self.r.randint(1, 4)) if self.r.random() < 0.5 else [21]
                out += [len(guard)] + guard
                for _ in controls:
                    given = self.number(seen, self.r.randint(1, 3)) if self.r.random() < 0.4 else [0, self.r.randint(0, 1)]
                    out += [len(given)] + given
        return out

    def right_table(self):
        names = sorted(self.r.sample(range(32), self.r.randint(0, 5)))
        out, own = [len(names)], []
        for n in names:
            kind = self.r.choice([0, 1, 1, 2])
            own += [n] * (kind != 2)
            out += [n, kind, self.r.choice([1, 1, 2, 3]) if self.r.random() < 0.95 else self.r.choice([15, 255])]
        self.r.shuffle(own)
        groups = []
        while own:
            size = self.r.randint(1, 2)
            groups.append(set(own[:size]))
            own = own[size:]
        if groups and self.r.random() < 0.1:
            groups = self.r.choice([groups + groups[:1], groups[1:]])
        out.append(len(groups))
        for controls in groups:
            out += self.atom(names, controls)
        return bytes(out)

    def table(self):
        bytes_, luck = bytearray(self.right_table()), self.r.random()
        if luck < 0.4:
            return bytes(bytes_)
        if luck < 0.55:
            return bytes(bytes_[:self.r.randint(0, len(bytes_))])
        if luck < 0.6:
            return bytes(bytes_) + bytes([self.r.randint(0, 255)])
        telling = [0, 1, 2, 3, 4, 5, 8, 9, 16, 17, 18, 19, 20, 21, 22, 31, 32, 33, 64, 65, 255]
        bytes_[self.r.randrange(len(bytes_))] = self.r.choice(telling + [self.r.randint(0, 255)])
        return bytes(bytes_)


def answers(table):
    try:
        variables, atoms = opened(table)
    except Fault as fault:
        return [(fault.args[0], 0, fault.args[1])] * 2
    number, place = verdict(variables, atoms)
    return [(0, 0, 0), (number, 0, place)]


def main():
    what, seed, count = sys.argv[1], int(sys.argv[2]), int(sys.argv[3])
    makes = Makes(seed)
    for _ in range(count):
        table = makes.table()
        if what == "script":
            print("table t", table.hex() or "-")
            print("seal u t 1")
        else:
            for answer in answers(table):
                print(*answer)


main()
