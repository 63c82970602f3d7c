#!/usr/bin/env python3
"""A second explorer of a tag with unknowns, written apart from the library and the slow way.

usage: explore.py BUNDLE [--rule plain|eager|words-plain|words-eager] [--width W] [--budget N] [--points P] [--keys K] [--open S]
Takes all starts in order, then walks, and prints a head line and the points, as `bound` does. A refusal is the one line `refused`,
number, layer and place, with exit status 1. Levels are sets of bits. It trusts the bundle: it asks nothing of it.
"""
import argparse
import itertools
import sys

from simulate import Tag, bundle

ZERO, ONE, X = frozenset([0]), frozenset([1]), frozenset([0, 1])
KNOWN = (ZERO, ONE)


class Refused(Exception):
    def __init__(self, number, place=0):
        super().__init__("refused %d 3 %d" % (number, place))


def choices(levels):
    """All choices of one allowed bit for each level, each as a number whose lowest bit is the first level's."""
    return sorted(set(sum(b << j for j, b in enumerate(bits)) for bits in itertools.product(*levels)))


class Plain:
    """Watches marked points. Places that differ become X."""

    def watches(self, key, replaced, marked):
        return marked

    def merge(self, kept, new, nets, replaced):
        return [a if a == b else X for a, b in zip(kept, new)]


class Eager:
    """Watches every point. Merges as plain, and if any RAM place differs all RAM becomes X."""

    def watches(self, key, replaced, marked):
        return True

    def merge(self, kept, new, nets, replaced):
        result = Plain().merge(kept, new, nets, replaced)
        if kept[nets:] != new[nets:]:
            result[nets:] = [X] * len(result[nets:])
        return result


class Words:
    """Watches as the rule it holds. After that rule's merge a RAM word with any X becomes wholly X."""

    def __init__(self, rule):
        self.rule = rule

    def watches(self, key, replaced, marked):
        return self.rule.watches(key, replaced, marked)

    def merge(self, kept, new, nets, replaced):
        result = self.rule.merge(kept, new, nets, replaced)
        for at in range(nets, len(result), 16):
            if X in result[at:at + 16]:
                result[at:at + 16] = [X] * 16
        return result


RULES = {"plain": Plain(), "eager": Eager(), "words-plain": Words(Plain()), "words-eager": Words(Eager())}


class UnknownTag(Tag):
    """A tag whose state is one list of levels: the nets, then 16 for each RAM word."""

    def __init__(self, data):
        super().__init__(data)
        _, parts = bundle(data)
        flat, each = [s for s, in parts[7]], len(self.flops)
        self.starts = [flat[at:at + each] for at in range(0, len(flat), each)]
        self.places = len(self.nets) + 16 * len(self.ram_start)

    def settle(self, v):
        for i, (cell, pins) in enumerate(self.nets):
            if cell[1] == 0:
                v[i] = frozenset(cell[2] >> row & 1 for row in choices([v[p] for p in pins[:cell[0]]]))

    def set_constants(self, v):
        for i, (cell, _) in enumerate(self.nets):
            if cell[1] in (5, 6):
                v[i] = KNOWN[cell[1] - 5]

    def set_pilots(self, v, key):
        for j, p in enumerate(self.pilots):
            v[p] = KNOWN[key >> j & 1]

    def keys(self, v):
        return choices([v[p] for p in self.pilots])

    def begin(self, start):
        v = [X] * len(self.nets)
        for value, mask in self.ram_start:
            v += [X if mask >> b & 1 else KNOWN[value >> b & 1] for b in range(16)]
        self.set_constants(v)
        for i, s in zip(self.flops, start):
            v[i] = (ZERO, ONE, X)[s]
        self.settle(v)
        return v

    def edge(self, v):
        """The state after the edge: pilots are not split yet, and gates have not settled."""
        new = list(v)
        enable = v[self.enable]
        rom = choices([v[w] for w in self.rom_address])
        ram = choices([v[w] for w in self.ram_address])

        def place(word, bit):
            return len(self.nets) + 16 * word + bit

        for i, (cell, pins) in enumerate(self.nets):
            use = cell[1]
            if use == 1:
                new[i] = v[pins[0]]
            elif use == 2:
                offered = v[pins[0]] if 1 in v[pins[1]] else frozenset()
                held = v[i] if 0 in v[pins[1]] else frozenset()
                new[i] = offered | held
            elif use == 3:
                new[i] = X
            elif use == 4 and pins[0] == 0:
                new[i] = frozenset(self.rom[word] >> pins[1] & 1 for word in rom)
            elif use == 4:
                new[i] = frozenset().union(*[v[place(word, pins[1])] for word in ram])
        for word in range(len(self.ram_start)):
            writes = [e == 1 and at == word for e in enable for at in ram]
            for b in range(16):
                offered = v[self.data[b]] if any(writes) else frozenset()
                held = v[place(word, b)] if not all(writes) else frozenset()
                new[place(word, b)] = offered | held
        return new

    def successors(self, v):
        after = self.edge(v)
        for key in self.keys(after):
            t = list(after)
            self.set_pilots(t, key)
            self.settle(t)
            yield key, t

    def charge(self, v, t):
        total = self.figures["rom"] + self.figures["ram"] + (self.figures["write"] if 1 in v[self.enable] else 0)
        for i, (cell, _) in enumerate(self.nets):
            total += cell[5] + max(cell[3] if a < b else cell[4] if a > b else 0 for a in v[i] for b in t[i])
        return total


class Exploration:
    """The points of one tag under one rule. At most 65535 points, 256 keys and 64 open slots are used of those given."""

    def __init__(self, tag, rule, points, keys, slots):
        self.tag, self.rule = tag, rule
        self.limits = min(points, 65535), min(keys, 256), min(slots, 64)
        if tag.places > 1024 or 0 in self.limits:
            raise Refused(13)
        self.points = []  # origin or None, key, charge, fate, and for a cut point the point it is cut to
        self.open = {}  # the states of the open points
        self.table = {}  # for each key its point, its kept state and its count of replacements

    def add(self, origin, key, charge, state):
        self.open[len(self.points)] = state
        self.points.append(dict(origin=origin, key=key, charge=charge, fate="open"))

    def room(self, count, taken, place):
        """Is there room for so many new points, if so many open ones have been taken?"""
        points, _, slots = self.limits
        if len(self.points) + count > points:
            raise Refused(16, place)
        if len(self.open) - taken + count > slots:
            raise Refused(17, place)

    def start(self, number):
        if number >= len(self.tag.starts):
            raise Refused(14)
        self.room(1, 0, 0)
        state = self.tag.begin(self.tag.starts[number])
        self.add(None, self.tag.keys(state)[0], 0, state)

    def walk(self, budget):
        if not self.points:
            raise Refused(18)
        taken = 0
        while self.open and taken < budget:
            self.take(max(self.open))
            taken += 1

    def take(self, number):
        """Treats one open point. A refusal leaves everything as it was."""
        point, state, key = self.points[number], self.open[number], self.points[number]["key"]
        if key & 1:
            point["fate"] = "halted"
            del self.open[number]
            return
        target, kept, replaced = self.table.get(key, (None, None, 0))
        watched = self.rule.watches(key, replaced, 1 in state[self.tag.mark])
        if watched and kept is None:
            if len(self.table) == self.limits[1]:
                raise Refused(15, number)
        elif watched and all(a >= b for a, b in zip(kept, state)):
            point["fate"], point["to"] = "cut", target
            del self.open[number]
            return
        elif watched:
            state = self.rule.merge(kept, state, len(self.tag.nets), replaced)
            self.tag.set_pilots(state, key)
            self.tag.set_constants(state)
            replaced += 1
        after = list(self.tag.successors(state))
        self.room(len(after), 1, number)
        if watched:
            self.table[key] = number, state, replaced
        point["fate"] = "walked"
        del self.open[number]
        for k, t in after:
            self.add(number, k, self.tag.charge(state, t), t)

    def closed(self):
        if not self.points:
            raise Refused(18)
        if self.open:
            raise Refused(19, min(self.open))

    def peak(self):
        self.closed()
        return max(point["charge"] for point in self.points)

    def window(self, width):
        self.closed()
        if width == 0:
            raise Refused(20)
        after = [[] for _ in self.points]
        for q, point in enumerate(self.points):
            if point["origin"] is not None:
                after[point["origin"]].append(q)
        # From each point, the largest sum over its paths of at most so many steps. A halted point has no step.
        most = [0] * len(self.points)
        for _ in range(width):
            longer = []
            for p, point in enumerate(self.points):
                steps = after[point["to"] if point["fate"] == "cut" else p]
                longer.append(max([0] + [self.points[q]["charge"] + most[q] for q in steps]))
            most = longer
        return max(most)

    def lines(self):
        for number, point in enumerate(self.points):
            origin = "-" if point["origin"] is None else point["origin"]
            fate = "cut %d" % point["to"] if point["fate"] == "cut" else point["fate"]
            yield "%d %s %d %d %s" % (number, origin, point["key"], point["charge"], fate)


def main():
    parser = argparse.ArgumentParser(description=__doc__.split("\n")[0])
    parser.add_argument("bundle")
    parser.add_argument("--rule", choices=sorted(RULES), default="plain")
    parser.add_argument("--width", type=int, help="the window, if not the bundle's own")
    parser.add_argument("--budget", type=int, default=65535, help="how many points the walk may take")
    parser.add_argument("--points", type=int, default=4096, help="how many points there may be")
    parser.add_argument("--keys", type=int, default=64, help="how many key entries there may be")
    parser.add_argument("--open", type=int, default=64, help="how many open slots there may be")
    given = parser.parse_args()
    with open(given.bundle, "rb") as file:
        tag = UnknownTag(file.read())
    width = tag.figures["window"] if given.width is None else given.width
    try:
        exploration = Exploration(tag, RULES[given.rule], given.points, given.keys, given.open)
        for number in range(len(tag.starts)):
            exploration.start(number)
        exploration.walk(given.budget)
        peak = exploration.peak()
        energy = exploration.window(width)
    except Refused as refused:
        print(refused)
        sys.exit(1)
    figures = len(exploration.points), peak, peak * tag.figures["clock"], width, energy
    print("points %d open 0 peak %d power %d window %d energy %d" % figures)
    for line in exploration.lines():
        print(line)


if __name__ == "__main__":
    main()
