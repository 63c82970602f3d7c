#!/usr/bin/env python3
"""A second simulator of a tag in bits, written apart from the library and the slow way.

usage: simulate.py BUNDLE < LINES
Prints key and energy of each cycle, as `play` does. It trusts the bundle: it asks nothing of it.
"""
import sys


def bundle(data):
    def num(at, size):
        return int.from_bytes(data[at:at + size], "little")

    figures = dict(clock=num(4, 2), rom=num(6, 2), ram=num(8, 2), write=num(10, 2), window=num(12, 2))
    sizes = {1: (1, 1, 2, 2, 2, 2), 2: (2, 2, 2, 2, 2), 3: (2,), 4: (2, 2), 5: (2,), 6: (2,), 7: (1,)}
    parts = {}
    for row in range(data[3]):
        at = 18 + 8 * row
        kind, count, offset = data[at], num(at + 2, 2), num(at + 4, 4)
        if kind not in sizes:
            continue
        entries = []
        for _ in range(count):
            fields = []
            for size in sizes[kind]:
                fields.append(num(offset, size))
                offset += size
            entries.append(fields)
        parts[kind] = entries
    return figures, parts


def log2(n):
    return n.bit_length() - 1


class Tag:
    def __init__(self, data):
        self.figures, p = bundle(data)
        self.nets = [(p[1][n[0]], n[1:]) for n in p[2]]
        self.rom = [w for w, in p[3]]
        self.ram_start = p[4]
        wires = [w for w, in p[5]]
        a, b = log2(len(self.rom)), log2(len(self.ram_start))
        self.rom_address, self.ram_address = wires[:a], wires[a:a + b]
        self.enable, self.data = wires[a + b], wires[a + b + 1:]
        self.mark, self.pilots = p[6][0][0], [q for q, in p[6][1:]]
        self.flops = [i for i, (c, _) in enumerate(self.nets) if c[1] in (1, 2)]
        self.inputs = [i for i, (c, _) in enumerate(self.nets) if c[1] == 3]
        self.start = [s for s, in p[7]][:len(self.flops)]

    def settle(self, v):
        for i, (cell, pins) in enumerate(self.nets):
            if cell[1] == 0:
                row = sum(v[pins[j]] << j for j in range(cell[0]))
                v[i] = cell[2] >> row & 1

    def begin(self):
        v = [1 if c[1] == 6 else 0 for c, _ in self.nets]
        for i, s in zip(self.flops, self.start):
            v[i] = 1 if s == 1 else 0
        self.settle(v)
        return v, [value for value, _ in self.ram_start]

    def cycle(self, v, ram, line):
        def number(wires):
            return sum(v[w] << j for j, w in enumerate(wires))

        new = list(v)
        given = iter(line)
        for i, (cell, pins) in enumerate(self.nets):
            use = cell[1]
            if use == 1:
                new[i] = v[pins[0]]
            elif use == 2:
                new[i] = v[pins[0]] if v[pins[1]] else v[i]
            elif use == 3:
                new[i] = next(given)
            elif use == 4:
                word = ram[number(self.ram_address)] if pins[0] else self.rom[number(self.rom_address)]
                new[i] = word >> pins[1] & 1
        after = list(ram)
        if v[self.enable]:
            after[number(self.ram_address)] = number(self.data)
        self.settle(new)
        energy = self.figures["rom"] + self.figures["ram"] + (self.figures["write"] if v[self.enable] else 0)
        for i, (cell, _) in enumerate(self.nets):
            energy += cell[5]
            if v[i] < new[i]:
                energy += cell[3]
            elif v[i] > new[i]:
                energy += cell[4]
        return new, after, energy

    def key(self, v):
        return sum(v[p] << j for j, p in enumerate(self.pilots))


def main():
    tag = Tag(open(sys.argv[1], "rb").read())
    v, ram = tag.begin()
    for text in sys.stdin.read().split("\n")[:-1]:
        if v[tag.pilots[0]]:
            break
        v, ram, energy = tag.cycle(v, ram, [int(c) for c in text])
        print(tag.key(v), energy)


if __name__ == "__main__":
    main()
