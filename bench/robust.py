#!/usr/bin/env python3
"""Runs `bound` and `play` on damaged bundles: empty, noise, every truncation, every single byte changed.

usage: robust.py BIN_FOLDER BUNDLE...
Each run has to end with a whole answer and status 0, or with one line `refused NUMBER LAYER PLACE` and status 1; nothing on standard
error, and no crash. Prints how many runs of each kind there were, and ends with status 1 if one was not clean.
"""
import os
import random
import re
import subprocess
import sys
import tempfile

REFUSED = re.compile(rb"refused ([0-9]+) [123] [0-9]+\n")
HEAD = re.compile(rb"points [0-9]+ open 0 peak [0-9]+ power [0-9]+ window [0-9]+ energy [0-9]+\n([0-9]+ (-|[0-9]+) [0-9]+ [0-9]+ (walked|halted|cut [0-9]+)\n)+")
CYCLES = re.compile(rb"([0-9]+ [0-9]+\n)*")
LINES = b"1\n1\n0\n"


def run(program, folder, bundle):
    if program.endswith("play"):
        with open(os.path.join(folder, "tag.bin"), "wb") as f:
            f.write(bundle)
        given, whole = LINES, CYCLES
    else:
        given, whole = bundle, HEAD
    done = subprocess.run([program], input=given, cwd=folder, capture_output=True)
    refused = REFUSED.fullmatch(done.stdout)
    if done.returncode == 1 and refused and not done.stderr:
        return int(refused.group(1))
    if done.returncode == 0 and whole.fullmatch(done.stdout) and not done.stderr:
        return 0
    return None


def damaged(bundle):
    rng = random.Random(1)
    yield "empty", b""
    for length in (1, 17, 18, 1000, 32767, 32768, 32769, 100000):
        for _ in range(5):
            noise = rng.randbytes(length)
            yield "noise", noise
            yield "noise behind a header", bundle[:18] + noise
    for length in range(len(bundle)):
        yield "cut off", bundle[:length]
    every = range(1, 256) if len(bundle) < 1000 else (1, 2, 128)
    for at in range(len(bundle)):
        for change in every:
            yield "one byte changed", bundle[:at] + bytes([bundle[at] ^ change]) + bundle[at + 1:]


def main():
    programs = [os.path.abspath(os.path.join(sys.argv[1], name)) for name in ("bound", "play")]
    dirty = 0
    with tempfile.TemporaryDirectory() as folder:
        for name in sys.argv[2:]:
            bundle = open(name, "rb").read()
            counts = {}
            for kind, bytes_given in damaged(bundle):
                for program in programs:
                    answer = run(program, folder, bytes_given)
                    key = (os.path.basename(program), kind)
                    runs = counts.setdefault(key, [0, 0, set()])
                    runs[0] += 1
                    if answer is None:
                        dirty += 1
                        print("not clean:", program, name, kind, bytes_given.hex()[:200])
                    elif answer:
                        runs[1] += 1
                        runs[2].add(answer)
            for (program, kind), (total, refused, numbers) in counts.items():
                print("| %s | %s | %s | %d | %d | %s |" % (
                    os.path.basename(name), program, kind, total, refused, ", ".join(str(n) for n in sorted(numbers))))
    print("all clean" if not dirty else "%d not clean" % dirty)
    sys.exit(1 if dirty else 0)


if __name__ == "__main__":
    main()
