#!/usr/bin/env python3
"""The first frame of a Y4M file, as a PNG.

    png.py IN.y4m OUT.png [--full]

Colours by BT.601, from the limited range or, with --full, from the full one. A side of fewer than 256 samples is shown larger.
"""
import re
import struct
import sys
import zlib


def planes(data):
    """Width, height, depth, and three planes at full size of numbers from 0 to 1."""
    head, _, rest = data.partition(b"\n")
    words = {word[:1]: word[1:] for word in head.decode("latin-1").split()[1:]}
    width, height, space = int(words["W"]), int(words["H"]), words.get("C", "420")
    found = re.search(r"p(1[0-9])$", space)
    depth = int(found[1]) if found else 10 if space == "mono10" else 12 if space == "mono12" else 8
    wide = 2 if depth > 8 else 1
    mono = space.startswith("mono")
    across, down = (1, 1) if mono or space.startswith("444") else (2, 1) if space.startswith("422") else (2, 2)
    _, _, rest = rest.partition(b"\n")
    sizes = [(width, height)] + ([] if mono else [(-(-width // across), -(-height // down))] * 2)
    out, at = [], 0
    for w, h in sizes:
        numbers = struct.unpack_from(f"<{w * h}{'H' if wide == 2 else 'B'}", rest, at)
        at += w * h * wide
        rows = [numbers[w * y:w * (y + 1)] for y in range(h)]
        out.append(rows)
    return width, height, depth, out, across, down


def main():
    data = open(sys.argv[1], "rb").read()
    full = "--full" in sys.argv[3:]
    width, height, depth, found, across, down = planes(data)
    top, unit = (1 << depth) - 1, 1 << (depth - 8)
    times = max(1, -(-256 // max(width, height)))
    rows = []
    for y in range(height):
        row = bytearray()
        for x in range(width):
            luma, cb, cr = found[0][y][x], 128 * unit, 128 * unit
            if len(found) == 3:
                cb, cr = (found[i][y // down][x // across] for i in (1, 2))
            if full:
                luma, cb, cr = luma / top, (cb - 128 * unit) / top, (cr - 128 * unit) / top
            else:
                luma, cb, cr = (luma - 16 * unit) / (219 * unit), (cb - 128 * unit) / (224 * unit), (cr - 128 * unit) / (224 * unit)
            rgb = luma + 1.402 * cr, luma - 0.344136 * cb - 0.714136 * cr, luma + 1.772 * cb
            row += bytes(min(max(round(255 * v), 0), 255) for v in rgb) * times
        rows += [b"\0" + bytes(row)] * times

    def chunk(name, body):
        return struct.pack(">I", len(body)) + name + body + struct.pack(">I", zlib.crc32(name + body))
    head = struct.pack(">IIBBBBB", width * times, height * times, 8, 2, 0, 0, 0)
    with open(sys.argv[2], "wb") as file:
        file.write(b"\x89PNG\r\n\x1a\n" + chunk(b"IHDR", head) + chunk(b"IDAT", zlib.compress(b"".join(rows), 9)) + chunk(b"IEND", b""))


if __name__ == "__main__":
    main()
