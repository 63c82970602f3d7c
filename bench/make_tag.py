#!/usr/bin/env python3
"""Makes the bundle of a large tag for the benchmark: 4,000 nets, 1,024 ROM words, 4 RAM words, a fixed seed.

usage: make_tag.py > BUNDLE
Three quarters of its nets are gates of one to four pins over lower nets, the others flops, enabled flops, memory bits and inputs.
"""
import random
import struct
import sys

R = random.Random(7)
GATE, FLOP, ENABLED, INPUT, MEMORY, ZERO, ONE = range(7)
cells = [(0, ZERO, 0), (0, INPUT, 0), (1, FLOP, 0), (2, ENABLED, 0), (0, MEMORY, 0), (0, ONE, 0)]
for pins in (1, 2, 3, 4):
    for _ in range(8):
        cells.append((pins, GATE, R.randrange(1 << (1 << pins))))
NETS, ROM, RAM = 4000, 1024, 4
body = []
flops = []
sources = 1000
for i in range(NETS):
    if i == 0:
        body.append((0, []))
    elif i == 1:
        body.append((5, []))
    elif i < 4:
        body.append((1, []))
    elif i < 36:
        body.append((4, [(i - 4) // 16, (i - 4) % 16]))
    elif i < sources:
        kind = R.choice((2, 3))
        flops.append(i)
        body.append((kind, [R.randrange(NETS) for _ in range(cells[kind][0])]))
    else:
        cell = R.randrange(6, len(cells))
        body.append((cell, [R.randrange(i) for _ in range(cells[cell][0])]))
# The halt flop holds 0, and four pilots go round through flops of their own, so that keys are known.
pilots = flops[:5]
body[pilots[0]] = (2, [0])
for k in range(1, 5):
    body[pilots[k]] = (2, [pilots[k % 4 + 1]])
wires = [flops[10 + j] for j in range(10)] + [flops[20], flops[21]] + [flops[22]] + [R.randrange(NETS) for _ in range(16)]
for j in range(13):
    body[wires[j]] = (2, [pilots[1 + j % 4]])
start = [R.randrange(2) for _ in flops]
for k in range(5):
    start[k] = 1 if k == 1 else 0
parts = [
    b"".join(struct.pack("<BBHHHH", p, u, t, R.randrange(20), R.randrange(20), R.randrange(4)) for p, u, t in cells),
    b"".join(struct.pack("<HHHHH", c, *(pins + [0] * (4 - len(pins)))) for c, pins in body),
    b"".join(struct.pack("<H", R.randrange(65536)) for _ in range(ROM)),
    b"".join(struct.pack("<HH", R.randrange(65536), 0) for _ in range(RAM)),
    b"".join(struct.pack("<H", w) for w in wires),
    struct.pack("<H", 1) + b"".join(struct.pack("<H", p) for p in pilots),
    bytes(start),
]
counts = [len(cells), NETS, ROM, RAM, len(wires), 1 + len(pilots), len(start)]
at = 18 + 8 * 7
rows = b""
for kind, (part, count) in enumerate(zip(parts, counts), 1):
    rows += struct.pack("<BBHI", kind, 0, count, at)
    at += len(part)
header = b"TB" + struct.pack("<BBHHHHHI", 1, 7, 16, 3, 5, 9, 24, at)
sys.stdout.buffer.write(header + rows + b"".join(parts))
