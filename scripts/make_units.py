#!/usr/bin/env python3
"""The unit that `av1_write make N` writes, as JSON, by a generator written apart from the program; and its summary by another writer.

    make_units.py N                  prints the unit
    make_units.py N PROGRAM [WORD]   writes it by `PROGRAM write` and prints the summary. PROGRAM may be av1_write, or a harness
                                     around rav1e's own calls that answers units as av1_write does; WORD is `direct` or `recorded`

docs/UNIT_FORMAT.md says what N makes.
"""
import json
import subprocess
import sys

# the intra modes by number, and the transform types that they imply in chroma: 0 DCT_DCT, 1 ADST_DCT, 2 DCT_ADST, 3 ADST_ADST
CHROMA_TYPE = [0, 1, 2, 0, 3, 1, 2, 2, 1, 3, 1, 2, 3]
NONE, SPLIT = 0, 3


class Generator:
    def __init__(self, n):
        self.state = n
        self.width, self.height = max(1, n // 1000), max(1, n % 1000)
        self.cols, self.rows = 2 * -(-self.width // 8), 2 * -(-self.height // 8)
        self.items = []

    def draw(self):
        self.state = (self.state * 1103515245 + 12345) % (1 << 31)
        return self.state >> 16

    def add(self, op, **members):
        self.items.append({"op": op, **members})

    def mode(self, op, chroma):
        mode = self.draw() % 13
        self.add(op, a=mode)
        if 1 <= mode <= 8:
            self.add("AngleDelta", chroma=chroma, a=self.draw() % 7 - 3)
        return mode

    def coefficients(self, plane, x, y, tx_type):
        levels = [self.draw() % 31 - 15 for _ in range(self.draw() % 4)]
        if levels and levels[-1] == 0:
            levels[-1] = 1
        self.add("Coeffs", plane=plane, x=x, y=y, tx_type=tx_type, a=levels)

    def block(self, x, y, side):
        self.add("Block", x=x, y=y, size={8: 3, 16: 6, 32: 9, 64: 12}[side])
        skip = self.draw() % 4 == 0
        self.add("Skip", a=skip)
        self.mode("IntraModeKf", False)
        chroma = self.mode("UvMode", True)
        self.add("TxNote")
        if not skip:
            # transforms of 32 have DCT_DCT alone, and the others of chroma have all that its modes imply
            tx_type = 0 if side == 64 else CHROMA_TYPE[chroma]
            for plane in range(3):
                self.coefficients(plane, x, y, tx_type if plane else 0)

    def node(self, x, y, side):
        if x >= self.cols or y >= self.rows:
            return
        half = side // 8
        fits = x + half < self.cols and y + half < self.rows
        split = not fits or (side > 8 and self.draw() % 2 == 1)
        self.add("Partition", x=x, y=y, size={8: 3, 16: 6, 32: 9, 64: 12}[side], a=SPLIT if split else NONE)
        if not split:
            self.block(x, y, side)
            return
        for down in (0, half):
            for across in (0, half):
                self.node(x + across, y + down, side // 2)

    def script(self):
        for y in range(0, self.rows, 16):
            self.add("RowStart")
            for x in range(0, self.cols, 16):
                for end in ("Abandon", "Keep"):
                    self.add("Begin", x=x, y=y)
                    self.node(x, y, 64)
                    self.add(end)
        return self.items


def unit(n, way=None):
    generator = Generator(n)
    made = {"frame": {"width": generator.width, "height": generator.height}, "tiles": [generator.script()]}
    return made | {"via": way} if way else made


def summary(n, text):
    head, *lines = text.splitlines()
    data = bytes.fromhex(head)
    weighted = sum((i + 1) * byte for i, byte in enumerate(data)) % 65536
    tiles = [line for line in lines if line.startswith("tile ")]
    trials = [line.split() for line in lines if line.startswith("trial ")]
    costs = {end: sum(int(t[3]) for t in trials if t[4] == end) for end in ("kept", "abandoned")}
    return "\n".join([f"make {n} {len(data)} {weighted}", *tiles, f"trials {len(trials)} {costs['kept']} {costs['abandoned']}"])


def main():
    if len(sys.argv) not in (2, 3, 4):
        sys.exit(__doc__)
    n, program = int(sys.argv[1]), sys.argv[2:3]
    text = json.dumps(unit(n, *sys.argv[3:4]), separators=(",", ":"))
    if not program:
        print(text)
        return
    run = subprocess.run([*program, "write"], input=text.encode(), capture_output=True)
    if run.returncode != 0:
        sys.exit(f"make_units: {program[0]} answers {run.returncode}: {run.stderr.decode()}")
    print(summary(n, run.stdout.decode()))


main()
