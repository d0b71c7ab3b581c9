"""What scripts/picture.py and scripts/random_frames.py know alike of AV1's key frames: sizes, partitions, transforms, the order of a
block's elements (AV1 specification 5.11), and the form of a unit (docs/UNIT_FORMAT.md).
"""
import json
import pathlib

ROOT = pathlib.Path(__file__).resolve().parent.parent
TABLES = ROOT / "examples/av1_tables.json"
SCANS = ROOT / "examples/av1_scans.json"

# Block sizes by their numbers, as (width, height) in samples.
BLOCKS = [(4, 4), (4, 8), (8, 4), (8, 8), (8, 16), (16, 8), (16, 16), (16, 32), (32, 16), (32, 32), (32, 64), (64, 32), (64, 64),
          (64, 128), (128, 64), (128, 128), (4, 16), (16, 4), (8, 32), (32, 8), (16, 64), (64, 16)]
# Transform sizes by their numbers.
TRANSFORMS = [(4, 4), (8, 8), (16, 16), (32, 32), (64, 64), (4, 8), (8, 4), (8, 16), (16, 8), (16, 32), (32, 16), (32, 64), (64, 32),
              (4, 16), (16, 4), (8, 32), (32, 8), (16, 64), (64, 16)]
NONE, HORZ, VERT, SPLIT, HORZ_A, HORZ_B, VERT_A, VERT_B, HORZ_4, VERT_4 = range(10)
DC, V, H, D45, D135, D113, D157, D203, D67, SMOOTH, SMOOTH_V, SMOOTH_H, PAETH, CFL = range(14)
CS420, CS422, CS444, CS400 = range(4)

# The transform types that a set of intra blocks has, in the order of their numbers: by the larger and the smaller side.
ALL_TYPES = [0, 1, 2, 3, 9, 10, 11]
FEW_TYPES = [0, 1, 2, 3, 9]
# The type that a chroma mode stands for.
TYPE_OF_MODE = [0, 1, 2, 0, 3, 1, 2, 2, 1, 3, 1, 2, 3, 0]


def types(transform, reduced):
    """The types that an intra block's transform may have."""
    w, h = TRANSFORMS[transform]
    if max(w, h) >= 32:
        return [0]
    return FEW_TYPES if reduced or min(w, h) == 16 else ALL_TYPES


def scan_class(kind):
    """0 both ways, 1 horizontal, 2 vertical."""
    return 0 if kind < 10 else 2 - kind % 2


def largest(block):
    """The largest transform of a block."""
    w, h = BLOCKS[block]
    return TRANSFORMS.index((min(w, 64), min(h, 64)))


def smaller(transform):
    """One step of splitting."""
    w, h = TRANSFORMS[transform]
    if w == h:
        return TRANSFORMS.index((max(w // 2, 4), max(h // 2, 4)))
    return TRANSFORMS.index((min(w, h), min(w, h)) if max(w, h) == 2 * min(w, h) else (min(w, 2 * h), min(h, 2 * w)))


def coded(transform):
    """Of a 64 samples long side only 32 frequencies are coded."""
    w, h = TRANSFORMS[transform]
    return min(w, 32), min(h, 32)


def shifts(sampling):
    return {CS420: (1, 1), CS422: (1, 0), CS444: (0, 0), CS400: (0, 0)}[sampling]


def chroma_block(block, sampling):
    """The size that a block has in a chroma plane."""
    w, h = BLOCKS[block]
    sx, sy = shifts(sampling)
    return BLOCKS.index((max(w >> sx, 4), max(h >> sy, 4)))


def chroma_transform(block, sampling):
    w, h = BLOCKS[chroma_block(block, sampling)]
    return TRANSFORMS.index((min(w, 32), min(h, 32)))


def has_chroma(x, y, block, sampling):
    """Whether a block carries its chroma; of blocks of 4 samples the last one does."""
    if sampling == CS400:
        return False
    w, h = BLOCKS[block]
    sx, sy = shifts(sampling)
    return (x % 2 == 1 or w > 4 or not sx) and (y % 2 == 1 or h > 4 or not sy)


def parts(x, y, side, how):
    """The parts of a square, as (x, y, block), without those of a SPLIT above 8x8; places count 4x4 blocks."""
    n = side // 4
    half, quarter = n // 2, n // 4
    whole, square = BLOCKS.index((side, side)), BLOCKS.index((side // 2, side // 2))
    if how == NONE:
        return [(x, y, whole)]
    if how == SPLIT:
        return [(x + half * i, y + half * j, square) for j in range(2) for i in range(2)]
    if how in (HORZ_4, VERT_4):
        part = BLOCKS.index((side, side // 4) if how == HORZ_4 else (side // 4, side))
        return [(x, y + quarter * i, part) if how == HORZ_4 else (x + quarter * i, y, part) for i in range(4)]
    wide, tall = BLOCKS.index((side, side // 2)), BLOCKS.index((side // 2, side))
    return {
        HORZ: [(x, y, wide), (x, y + half, wide)],
        VERT: [(x, y, tall), (x + half, y, tall)],
        HORZ_A: [(x, y, square), (x + half, y, square), (x, y + half, wide)],
        HORZ_B: [(x, y, wide), (x, y + half, square), (x + half, y + half, square)],
        VERT_A: [(x, y, square), (x, y + half, square), (x + half, y, tall)],
        VERT_B: [(x, y, tall), (x + half, y, square), (x + half, y + half, square)],
    }[how]


def item(op, **members):
    return {"op": op, **members}


def lines(unit):
    """A unit as JSON text: headers, tables and scans a line each, a line for each block of a tile."""
    out = ["{"]
    for name, value in unit.items():
        if name == "tiles":
            continue
        out.append(f"{json.dumps(name)}: {json.dumps(value, separators=(',', ':'))},")
    out.append('"tiles": [')
    scripts = []
    for script in unit["tiles"]:
        text = ["["]
        for number, entry in enumerate(script):
            word = json.dumps(entry, separators=(",", ":")) + ("," if number + 1 < len(script) else "")
            if entry["op"] in ("RowStart", "Partition", "Block") or number == 0:
                text.append(word)
            else:
                text[-1] += word
        scripts.append("\n".join(text) + "]")
    out.append(",\n".join(scripts) + "]}")
    return "\n".join(out) + "\n"


def tables():
    return json.loads(TABLES.read_text())


def scans():
    return json.loads(SCANS.read_text())
