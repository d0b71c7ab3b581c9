#!/usr/bin/env python3
"""A small colour picture as a unit: a key frame in 4:2:0 with AV1's own distributions and scans.

    picture.py > examples/picture/picture.json
    picture.py --y4m FILE > UNIT.json      also keeps what a decoder should show, by this script's own arithmetic
    picture.py --drawn FILE > UNIT.json    also keeps the picture before it is coded

It draws a house on a hill, and is a small encoder: for each square it chooses between partitions, modes, angles, chroma from luma
and transform types by what they cost in error and in symbols. Prediction and inverse transforms are AV1's to the last bit
(specification 7.11.2, 7.11.5, 7.12.3 and 7.13), so a decoder shows the very samples that this script computes.
"""
import math
import sys

import key_frames as k

WIDTH, HEIGHT = 128, 96
Q_INDEX = 50
# The quantizers of this index for DC and for all others (AV1 specification 7.12.2).
STEPS = (49, 57)
ERROR_OF_BIT = 0.16 * (STEPS[1] / 8) ** 2
ANGLES = {k.V: 90, k.H: 180, k.D45: 45, k.D135: 135, k.D113: 113, k.D157: 157, k.D203: 203, k.D67: 67}
SLOPES = {3: 1023, 6: 547, 9: 372, 14: 273, 17: 215, 20: 178, 23: 151, 26: 132, 29: 116, 32: 102, 36: 90, 39: 80, 42: 71, 45: 64,
          48: 57, 51: 51, 54: 45, 58: 40, 61: 35, 64: 31, 67: 27, 70: 23, 73: 19, 76: 15, 81: 11, 84: 7, 87: 3}
WEIGHTS = {
    4: [255, 149, 85, 64],
    8: [255, 197, 146, 105, 73, 50, 37, 32],
    16: [255, 225, 196, 170, 145, 123, 102, 84, 68, 54, 43, 33, 26, 20, 17, 16],
    32: [255, 240, 225, 210, 196, 182, 169, 157, 145, 133, 122, 111, 101, 92, 83, 74, 66, 59, 52, 45, 39, 34, 29, 25, 21, 17, 14, 12,
         10, 9, 8, 8],
}


# ---- the picture

def mix(a, b, t):
    return tuple(p + (q - p) * t for p, q in zip(a, b))


def inside(x, y, corners):
    """Whether a point lies in a polygon."""
    odd = False
    for (x0, y0), (x1, y1) in zip(corners, corners[1:] + corners[:1]):
        if (y0 > y) != (y1 > y) and x < (x1 - x0) * (y - y0) / (y1 - y0) + x0:
            odd = not odd
    return odd


def colour(x, y):
    """Red, green and blue of a point, from 0 to 255."""
    found = mix((70, 140, 225), (205, 228, 245), y / 62)
    if math.hypot(x - 104, y - 18) < 10.5:
        found = (255, 214, 60)
    for cx, cy, r in ((22, 16, 6), (30, 13, 7.5), (39, 17, 6)):
        if math.hypot(x - cx, (y - cy) * 1.25) < r:
            found = (248, 249, 252)
    if y > 58 - 9 * math.sin((x - 20) / 24):
        found = mix((86, 152, 84), (70, 128, 70), (y - 45) / 50)
    if y > 72 + 5 * math.sin((x + 30) / 21):
        found = mix((104, 178, 70), (70, 138, 48), (y - 66) / 30)
    if 44 < x < 84 and 50 < y < 82:
        found = (222, 196, 158) if x < 68 else (200, 172, 134)
    if inside(x, y, [(38, 51), (50, 32), (78, 32), (90, 51)]):
        found = (178, 58, 44)
    if 70 < x < 75 and 24 < y < 38:
        found = (120, 62, 52)
    if 58 < x < 66 and 66 < y < 82:
        found = (104, 62, 34)
    for left in (48, 72):
        if left < x < left + 8 and 57 < y < 65:
            found = (92, 132, 168) if abs(x - left - 4) > 0.7 and abs(y - 61) > 0.7 else (245, 240, 230)
    if 107 < x < 112 and 58 < y < 84:
        found = (98, 66, 40)
    for cx, cy, r in ((109.5, 50, 11), (102, 58, 7), (117, 58, 7)):
        if math.hypot(x - cx, y - cy) < r:
            found = mix((40, 104, 46), (66, 140, 60), (x - y + 70) / 160)
    if inside(x, y, [(59, 82), (65, 82), (76, 96), (52, 96)]):
        found = (206, 188, 150)
    return found


def draw():
    """Three planes of samples, in full range by BT.601."""
    red, green, blue = ([[0.0] * WIDTH for _ in range(HEIGHT)] for _ in range(3))
    for y in range(HEIGHT):
        for x in range(WIDTH):
            dots = [colour(x + (i + 0.5) / 4, y + (j + 0.5) / 4) for j in range(4) for i in range(4)]
            for plane, part in zip((red, green, blue), zip(*dots)):
                plane[y][x] = sum(part) / 16
    luma, cb, cr = ([[0.0] * WIDTH for _ in range(HEIGHT)] for _ in range(3))
    for y in range(HEIGHT):
        for x in range(WIDTH):
            r, g, b = red[y][x], green[y][x], blue[y][x]
            luma[y][x] = 0.299 * r + 0.587 * g + 0.114 * b
            cb[y][x] = 128 + (b - luma[y][x]) / 1.772
            cr[y][x] = 128 + (r - luma[y][x]) / 1.402
    planes = [[[round(v) for v in row] for row in luma]]
    for full in (cb, cr):
        planes.append([[clip(round((full[y][x] + full[y][x + 1] + full[y + 1][x] + full[y + 1][x + 1]) / 4))
                        for x in range(0, WIDTH, 2)] for y in range(0, HEIGHT, 2)])
    return planes


def clip(v):
    return min(max(v, 0), 255)


# ---- prediction

class Edge:
    """The samples around a block that a prediction reads."""

    def __init__(self, plane, decoded, x, y, w, h):
        rows = plane.rows
        above, left = y > 0, x > 0
        last_x, last_y = plane.width - 1, plane.height - 1
        self.above_there, self.left_there = above, left
        right = above and decoded(x + w, y - 1)
        below = left and decoded(x - 1, y + h)
        if above:
            far = x + w + h - 1 if right else x + w - 1
            self.above = [rows[y - 1][min(last_x, far, x + i)] for i in range(w + h)]
        else:
            self.above = [rows[y][x - 1] if left else 127] * (w + h)
        if left:
            far = y + w + h - 1 if below else y + h - 1
            self.left = [rows[min(last_y, far, y + i)][x - 1] for i in range(w + h)]
        else:
            self.left = [rows[y - 1][x] if above else 129] * (w + h)
        if above and left:
            self.corner = rows[y - 1][x - 1]
        elif above:
            self.corner = rows[y - 1][x]
        else:
            self.corner = rows[y][x - 1] if left else 128


def flat(edge, w, h):
    if edge.above_there and edge.left_there:
        value = (sum(edge.above[:w]) + sum(edge.left[:h]) + (w + h) // 2) // (w + h)
    elif edge.left_there:
        value = (sum(edge.left[:h]) + h // 2) // h
    elif edge.above_there:
        value = (sum(edge.above[:w]) + w // 2) // w
    else:
        value = 128
    return [[value] * w for _ in range(h)]


def smooth(mode, edge, w, h):
    a, l = edge.above, edge.left
    across, down = WEIGHTS[w], WEIGHTS[h]
    right, bottom = a[w - 1], l[h - 1]
    if mode == k.SMOOTH_V:
        return [[(down[i] * a[j] + (256 - down[i]) * bottom + 128) >> 8 for j in range(w)] for i in range(h)]
    if mode == k.SMOOTH_H:
        return [[(across[j] * l[i] + (256 - across[j]) * right + 128) >> 8 for j in range(w)] for i in range(h)]
    return [[(down[i] * a[j] + (256 - down[i]) * bottom + across[j] * l[i] + (256 - across[j]) * right + 256) >> 9
             for j in range(w)] for i in range(h)]


def nearest(edge, w, h):
    """PAETH_PRED: of left, above and corner the one nearest to left + above - corner."""
    out = []
    c = edge.corner
    for i in range(h):
        l = edge.left[i]
        row = []
        for j in range(w):
            a = edge.above[j]
            to_left, to_above, to_corner = abs(a - c), abs(l - c), abs(a + l - 2 * c)
            row.append(l if to_left <= to_above and to_left <= to_corner else a if to_above <= to_corner else c)
        out.append(row)
    return out


def directional(angle, edge, w, h):
    above, left = [edge.corner] + edge.above, [edge.corner] + edge.left

    def between(line, base, shift):
        return (line[base + 1] * (32 - shift) + line[base + 2] * shift + 16) >> 5

    if angle == 90:
        return [edge.above[:w] for _ in range(h)]
    if angle == 180:
        return [[edge.left[i]] * w for i in range(h)]
    out = [[0] * w for _ in range(h)]
    if angle < 90:
        dx = SLOPES[angle]
        for i in range(h):
            at = (i + 1) * dx
            for j in range(w):
                base = (at >> 6) + j
                out[i][j] = between(above, base, (at >> 1) & 31) if base < w + h - 1 else above[w + h]
    elif angle > 180:
        dy = SLOPES[270 - angle]
        for j in range(w):
            at = (j + 1) * dy
            for i in range(h):
                base = (at >> 6) + i
                out[i][j] = between(left, min(base, w + h - 2), (at >> 1) & 31) if base < w + h - 1 else left[w + h]
    else:
        dx, dy = SLOPES[180 - angle], SLOPES[angle - 90]
        for i in range(h):
            for j in range(w):
                at = (j << 6) - (i + 1) * dx
                if at >> 6 >= -1:
                    out[i][j] = between(above, at >> 6, (at >> 1) & 31)
                else:
                    at = (i << 6) - (j + 1) * dy
                    out[i][j] = between(left, at >> 6, (at >> 1) & 31)
    return out


def predict(mode, delta, edge, w, h):
    if mode == k.DC:
        return flat(edge, w, h)
    if mode in ANGLES:
        return directional(ANGLES[mode] + 3 * delta, edge, w, h)
    if mode == k.PAETH:
        return nearest(edge, w, h)
    return smooth(mode, edge, w, h)


# ---- transforms

def dct(n):
    return [[math.sqrt((1 if f == 0 else 2) / n) * math.cos(math.pi * (2 * i + 1) * f / (2 * n)) for i in range(n)] for f in range(n)]


def adst(n):
    if n == 4:
        return [[2 / 3 * math.sin(math.pi * (i + 1) * (2 * f + 1) / 9) for i in range(4)] for f in range(4)]
    return [[math.sqrt(2 / n) * math.sin(math.pi * (2 * i + 1) * (2 * f + 1) / (4 * n)) for i in range(n)] for f in range(n)]


BASES = {("dct", n): dct(n) for n in (4, 8, 16, 32)} | {("adst", n): adst(n) for n in (4, 8, 16)}


def ways(kind):
    """The transforms of rows and of columns; kind 1 has an ADST down the columns, 2 along the rows, 3 both."""
    return "adst" if kind in (2, 3) else "dct", "adst" if kind in (1, 3) else "dct"


def forward(rest, kind, w, h):
    along, down = ways(kind)
    half = [[sum(a * b for a, b in zip(row, base)) for base in BASES[along, w]] for row in rest]
    columns = list(zip(*half))
    return [[sum(a * b for a, b in zip(column, base)) for column in columns] for base in BASES[down, h]]


COSINES = [round(4096 * math.cos(math.pi * i / 128)) for i in range(256)]


def reversed_bits(count, i):
    return int(format(i, f"0{count}b")[::-1], 2)


class Line:
    """A row or a column on its way back, by the butterflies of AV1 specification 7.13.2."""

    def __init__(self, values):
        self.t = values

    def turn(self, a, b, angle, swap=False):
        t = self.t
        c, s = COSINES[angle % 256], COSINES[(angle - 64) % 256]
        x, y = (t[a] * c - t[b] * s + 2048) >> 12, (t[a] * s + t[b] * c + 2048) >> 12
        t[a], t[b] = (y, x) if swap else (x, y)

    def add(self, a, b, swap=False):
        t = self.t
        if swap:
            a, b = b, a
        t[a], t[b] = t[a] + t[b], t[a] - t[b]

    def dct(self):
        n = len(self.t).bit_length() - 1
        self.t = [self.t[reversed_bits(n, i)] for i in range(len(self.t))]
        if n >= 5:
            for i in range(8):
                self.turn(16 + i, 31 - i, 6 + 8 * reversed_bits(3, 7 - i))
        if n >= 4:
            for i in range(4):
                self.turn(8 + i, 15 - i, 12 + 16 * reversed_bits(2, 3 - i))
        if n >= 5:
            for i in range(8):
                self.add(16 + 2 * i, 17 + 2 * i, i % 2)
        if n >= 3:
            for i in range(2):
                self.turn(4 + i, 7 - i, 56 - 32 * i)
        if n >= 4:
            for i in range(4):
                self.add(8 + 2 * i, 9 + 2 * i, i % 2)
        if n >= 5:
            for i in range(2):
                for j in range(2):
                    self.turn(30 - 4 * i - j, 17 + 4 * i + j, 24 + 64 * j + 32 * (1 - i), True)
        for i in range(2):
            self.turn(2 * i, 2 * i + 1, 32 + 16 * i, i == 0)
        if n >= 3:
            for i in range(2):
                self.add(4 + 2 * i, 5 + 2 * i, i)
        if n >= 4:
            for i in range(2):
                self.turn(14 - i, 9 + i, 48 + 64 * i, True)
        if n >= 5:
            for i in range(4):
                for j in range(2):
                    self.add(16 + 4 * i + j, 19 + 4 * i - j, i % 2)
        for i in range(2):
            self.add(i, 3 - i)
        if n >= 3:
            self.turn(6, 5, 32, True)
        if n >= 4:
            for i in range(2):
                for j in range(2):
                    self.add(8 + 4 * i + j, 11 + 4 * i - j, i)
        if n >= 5:
            for i in range(4):
                self.turn(29 - i, 18 + i, 48 + 64 * (i // 2), True)
        if n >= 3:
            for i in range(4):
                self.add(i, 7 - i)
        if n >= 4:
            for i in range(2):
                self.turn(13 - i, 10 + i, 32, True)
        if n >= 5:
            for i in range(2):
                for j in range(4):
                    self.add(16 + 8 * i + j, 23 + 8 * i - j, i)
        if n >= 4:
            for i in range(8):
                self.add(i, 15 - i)
        if n >= 5:
            for i in range(4):
                self.turn(27 - i, 20 + i, 32, True)
            for i in range(16):
                self.add(i, 31 - i)
        return self.t

    def adst(self):
        size = len(self.t)
        if size == 4:
            return self.adst4()
        n = size.bit_length() - 1
        self.t = [self.t[i - 1 if i % 2 else size - 1 - i] for i in range(size)]
        for i in range(size // 2):
            self.turn(2 * i, 2 * i + 1, 60 - 16 * i if n == 3 else 62 - 8 * i, True)
        for i in range(size // 2):
            self.add(i, size // 2 + i)
        if n == 4:
            for i in range(2):
                self.turn(8 + 2 * i, 9 + 2 * i, 56 - 32 * i, True)
                self.turn(13 + 2 * i, 12 + 2 * i, 8 + 32 * i, True)
            for i in range(4):
                for j in range(2):
                    self.add(8 * j + i, 4 + 8 * j + i)
        for i in range(2):
            for j in range(size // 8):
                self.turn(4 + 8 * j + 3 * i, 5 + 8 * j + i, 48 - 32 * i, True)
        for i in range(2):
            for j in range(size // 4):
                self.add(4 * j + i, 2 + 4 * j + i)
        for i in range(size // 4):
            self.turn(2 + 4 * i, 3 + 4 * i, 32, True)
        out = [self.t[reversed_bits(n, i ^ (i >> 1))] for i in range(size)]
        return [-v if i % 2 else v for i, v in enumerate(out)]

    def adst4(self):
        a, b, c, d = self.t
        p, q, r = 1321 * a + 3803 * c + 2482 * d, 2482 * a - 1321 * c - 3803 * d, 3344 * b
        return [(v + 2048) >> 12 for v in (p + r, q + r, 3344 * (a - c + d), p + q - r)]


def back(values, way):
    line = Line(values)
    return line.dct() if way == "dct" else line.adst()


ROW_SHIFTS = {(4, 4): 0, (8, 8): 1, (16, 16): 2, (32, 32): 2, (4, 8): 0, (8, 4): 0, (8, 16): 1, (16, 8): 1, (16, 32): 1, (32, 16): 1}


def backward(values, kind, w, h):
    along, down = ways(kind)
    shift = ROW_SHIFTS[w, h]
    rows = []
    for row in values:
        if any(row):
            if w != h:
                row = [(v * 2896 + 2048) >> 12 for v in row]
            row = back(list(row), along)
            rows.append([(v + (1 << shift >> 1)) >> shift for v in row])
        else:
            rows.append([0] * w)
    columns = [[(v + 8) >> 4 for v in back(list(column), down)] for column in zip(*rows)]
    return list(zip(*columns))


# ---- coding

class Plane:
    def __init__(self, wanted):
        self.wanted = wanted
        self.width, self.height = len(wanted[0]), len(wanted)
        self.rows = [[0] * self.width for _ in range(self.height)]

    def save(self, x, y, side):
        return [row[x:x + side] for row in self.rows[y:y + side]]

    def restore(self, x, y, saved):
        for row, part in zip(self.rows[y:], saved):
            row[x:x + len(part)] = part


def bits_of_level(size):
    return 2.2 if size == 1 else 3.6 if size == 2 else 3.5 + 1.7 * math.log2(size)


class Encoder:
    def __init__(self):
        self.planes = [Plane(p) for p in draw()]
        self.scans = k.scans()
        # which 4x4 of each plane are coded
        self.coded = [[[False] * (p.width // 4) for _ in range(p.height // 4)] for p in self.planes]

    def edge(self, plane, x, y, w, h):
        coded = self.coded[plane]

        def decoded(x, y):
            return 0 <= y // 4 < len(coded) and 0 <= x // 4 < len(coded[0]) and coded[y // 4][x // 4]
        return Edge(self.planes[plane], decoded, x, y, w, h)

    def mark(self, plane, x, y, w, h):
        for row in self.coded[plane][y // 4:(y + h) // 4]:
            row[x // 4:(x + w) // 4] = [True] * (w // 4)

    def residual(self, plane, x, y, w, h, guess, kinds, transform):
        """The best way to code what a prediction leaves: (cost, levels, kind, samples)."""
        wanted = [row[x:x + w] for row in self.planes[plane].wanted[y:y + h]]
        rest = [[a - b for a, b in zip(p, q)] for p, q in zip(wanted, guess)]
        halved = w * h > 256
        error = sum(v * v for row in rest for v in row)
        best = (error + 0.6 * ERROR_OF_BIT, [], 0, guess)
        for kind in kinds:
            values = forward(rest, kind, w, h)
            scan = self.scans[transform][k.scan_class(kind)]
            levels, kept, bits, zeros = [], [[0] * w for _ in range(h)], 5.0, 0.0
            for number, position in enumerate(scan):
                c, r = divmod(position, h)
                step = STEPS[0 if position == 0 else 1]
                size = int(8 * abs(values[r][c]) / step + 0.4)
                if size:
                    sign = 1 if values[r][c] > 0 else -1
                    kept[r][c] = sign * (size * step // 2 if halved else size * step)
                    levels.extend([0] * (number - len(levels)))
                    levels.append(sign * size)
                    bits += bits_of_level(size) + zeros
                    zeros = 0.0
                else:
                    zeros += 0.35
            if not levels:
                continue
            moved = backward(kept, kind, w, h)
            samples = [[clip(p + v) for p, v in zip(a, b)] for a, b in zip(guess, moved)]
            error = sum((p - q) ** 2 for a, b in zip(wanted, samples) for p, q in zip(a, b))
            cost = error + bits * ERROR_OF_BIT
            if cost < best[0]:
                best = (cost, levels, kind, samples)
        return best

    def luma(self, x, y, w, h, transform):
        edge = self.edge(0, x, y, w, h)
        wanted = [row[x:x + w] for row in self.planes[0].wanted[y:y + h]]
        tried = []
        for mode in range(13):
            deltas = range(-3, 4) if mode in ANGLES else (0,)
            for delta in deltas:
                guess = predict(mode, delta, edge, w, h)
                off = sum(abs(p - q) for a, b in zip(wanted, guess) for p, q in zip(a, b))
                bits = 2.5 + (2.8 if mode in ANGLES else 0)
                tried.append((off + math.sqrt(ERROR_OF_BIT) * bits * 2, mode, delta, guess, bits))
        tried.sort(key=lambda t: t[0])
        best = None
        for _, mode, delta, guess, bits in tried[:3]:
            kinds = {0, k.TYPE_OF_MODE[mode]} & set(k.types(transform, False))
            cost, levels, kind, samples = self.residual(0, x, y, w, h, guess, sorted(kinds), transform)
            cost += bits * ERROR_OF_BIT
            if best is None or cost < best[0]:
                best = (cost, mode, delta, levels, kind, samples)
        return best

    def from_luma(self, x, y, w, h, edges):
        """Chroma from luma: the two factors and the two predictions."""
        rows = self.planes[0].rows
        light = [[2 * (rows[2 * j][2 * i] + rows[2 * j][2 * i + 1] + rows[2 * j + 1][2 * i] + rows[2 * j + 1][2 * i + 1])
                  for i in range(x, x + w)] for j in range(y, y + h)]
        total = sum(map(sum, light))
        mean = (total + w * h // 2) // (w * h)
        light = [[v - mean for v in row] for row in light]
        power = sum(v * v for row in light for v in row)
        factors, guesses = [], []
        for plane in (1, 2):
            base = flat(edges[plane - 1], w, h)[0][0]
            wanted = [row[x:x + w] for row in self.planes[plane].wanted[y:y + h]]
            match = sum(v * (p - base) for a, b in zip(light, wanted) for v, p in zip(a, b))
            factor = max(-16, min(16, round(64 * match / power))) if power else 0
            factors.append(factor)

            def scaled(v):
                return (factor * v + 32) >> 6 if factor * v >= 0 else -((-factor * v + 32) >> 6)
            guesses.append([[clip(base + scaled(v)) for v in row] for row in light])
        return factors, guesses

    def chroma(self, x, y, w, h, transform, mode, delta):
        edges = [self.edge(plane, x, y, w, h) for plane in (1, 2)]
        ways = {(k.DC, 0), (k.V, 0), (k.H, 0), (k.SMOOTH, 0), (mode, delta)}
        factors, guesses = self.from_luma(x, y, w, h, edges)
        tries = [(m, d, None, [predict(m, d, e, w, h) for e in edges]) for m, d in sorted(ways)]
        if any(factors):
            tries.append((k.CFL, 0, factors, guesses))
        best = None
        for m, d, f, both in tries:
            kind = k.TYPE_OF_MODE[m] if k.TYPE_OF_MODE[m] in k.types(transform, False) else 0
            parts = [self.residual(plane, x, y, w, h, both[plane - 1], [kind], transform) for plane in (1, 2)]
            bits = 1.5 if m == k.CFL else 1.5 if m == mode else 3.5
            bits += 6 if m == k.CFL else 2.5 if m in ANGLES else 0
            cost = parts[0][0] + parts[1][0] + bits * ERROR_OF_BIT
            if best is None or cost < best[0]:
                best = (cost, m, d, f, kind, parts)
        return best

    def block(self, x, y, block):
        """Codes a block at a place in 4x4 blocks: (cost, items)."""
        w, h = k.BLOCKS[block]
        left, top = 4 * x, 4 * y
        transform = k.largest(block)
        cost, mode, delta, levels, kind, samples = self.luma(left, top, w, h, transform)
        self.planes[0].restore(left, top, samples)
        self.mark(0, left, top, w, h)
        small = k.chroma_transform(block, k.CS420)
        more, uv, turn, factors, chroma_kind, parts = self.chroma(left // 2, top // 2, w // 2, h // 2, small, mode, delta)
        cost += more
        for plane in (1, 2):
            self.planes[plane].restore(left // 2, top // 2, parts[plane - 1][3])
            self.mark(plane, left // 2, top // 2, w // 2, h // 2)
        skip = not levels and not parts[0][1] and not parts[1][1]
        items = [k.item("Block", x=x, y=y, size=block), k.item("Skip", a=skip), k.item("IntraModeKf", a=mode)]
        if mode in ANGLES:
            items.append(k.item("AngleDelta", chroma=False, a=delta))
        items.append(k.item("UvMode", a=uv))
        if uv == k.CFL:
            items.append(k.item("CflAlphas", a=factors))
        elif uv in ANGLES:
            items.append(k.item("AngleDelta", chroma=True, a=turn))
        if mode == k.DC:
            items.append(k.item("FilterIntra", a=False))
        items.append(k.item("TxNote"))
        if not skip:
            items.append(k.item("Coeffs", plane=0, x=x, y=y, tx_type=kind, a=levels))
            for plane in (1, 2):
                items.append(k.item("Coeffs", plane=plane, x=x, y=y, tx_type=chroma_kind, a=parts[plane - 1][1]))
        return cost, items

    def keep(self, x, y, side):
        """What lies in a square: samples, and which are coded."""
        held = []
        for number, plane in enumerate(self.planes):
            s = 1 if number else 0
            held.append((plane.save(4 * x >> s, 4 * y >> s, side >> s),
                         [row[x >> s:(x >> s) + (side >> s) // 4] for row in self.coded[number][y >> s:(y >> s) + (side >> s) // 4]]))
        return held

    def back(self, x, y, side, held):
        for number, (samples, coded) in enumerate(held):
            s = 1 if number else 0
            self.planes[number].restore(4 * x >> s, 4 * y >> s, samples)
            for row, part in zip(self.coded[number][y >> s:], coded):
                row[x >> s:(x >> s) + len(part)] = part

    def node(self, x, y, side):
        if 4 * x >= WIDTH or 4 * y >= HEIGHT:
            return 0.0, []
        columns, rows = 4 * x + side // 2 < WIDTH, 4 * y + side // 2 < HEIGHT
        fits = columns and rows
        ways = [k.SPLIT] if side > 32 or not fits else [k.NONE, k.HORZ, k.VERT, k.SPLIT] if side > 8 else [k.NONE]
        before = self.keep(x, y, side)
        best = None
        for how in ways:
            cost = (1.0 if fits else 0.0) * ERROR_OF_BIT + (ERROR_OF_BIT if how in (k.HORZ, k.VERT) else 0)
            items = [k.item("Partition", x=x, y=y, size=k.BLOCKS.index((side, side)), a=how)]
            for px, py, block in k.parts(x, y, side, how):
                part, more = self.node(px, py, side // 2) if how == k.SPLIT else self.block(px, py, block)
                cost += part
                items += more
            if best is None or cost < best[0]:
                best = (cost, items, self.keep(x, y, side))
            self.back(x, y, side, before)
        self.back(x, y, side, best[2])
        return best[:2]

    def script(self):
        items = []
        for y in range(0, HEIGHT // 4, 16):
            items.append(k.item("RowStart"))
            for x in range(0, WIDTH // 4, 16):
                items += self.node(x, y, 64)[1]
        return items


def unit(script):
    return {
        "seq": {"chroma_sampling": k.CS420, "pixel_range": 1, "color_description": [1, 13, 6], "enable_filter_intra": True},
        "frame": {"width": WIDTH, "height": HEIGHT, "base_q_idx": Q_INDEX},
        "tables": k.tables(),
        "scans": k.scans(),
        "tiles": [script],
    }


def y4m(planes):
    head = f"YUV4MPEG2 W{WIDTH} H{HEIGHT} F25:1 Ip C420jpeg XCOLORRANGE=FULL\nFRAME\n".encode()
    return head + b"".join(bytes(row) for plane in planes for row in plane)


def main():
    words = sys.argv[1:]
    encoder = Encoder()
    if words[:1] == ["--drawn"]:
        open(words[1], "wb").write(y4m([p.wanted for p in encoder.planes]))
    script = encoder.script()
    if words[:1] == ["--y4m"]:
        open(words[1], "wb").write(y4m([p.rows for p in encoder.planes]))
    sys.stdout.write(k.lines(unit(script)))


if __name__ == "__main__":
    main()
