#!/usr/bin/env python3
"""AV1's default distributions and scans, read out of libaom, in the form of a unit's members.

    scripts/av1_tables.py tables > examples/av1_tables.json
    scripts/av1_tables.py scans > examples/av1_scans.json

`tables` gives four lists of 5528 numbers in the layout of docs/UNIT_FORMAT.md, one for each range of quantizers (AV1
specification, "Default CDF tables"). `scans` gives for each transform size three scans, for the classes 2D, horizontal and
vertical; a position is its column times the coded height, plus its row. Wants Debian's libaom-dev, and gcc.

No number of AV1's tables stands here: this file has names, dimensions and an order of fields. Each distribution is checked
for libaom's form (N - 1 falling numbers, then zeros) and for its dimensions, so a wrong idea of libaom's layout is found here.
"""
import json
import pathlib
import struct
import subprocess
import sys
import tempfile

import layout_table

SETS = 4
NUMBERS = 5528

# Fields that differ by quantizer: libaom's table in entropy.c, its dimensions, the symbols of a distribution.
COEFFICIENTS = {
    "txb_skip_cdf": ("txb_skip", (5, 13, 3), 2),
    "dc_sign_cdf": ("dc_sign", (2, 3, 3), 2),
    "eob_extra_cdf": ("eob_extra", (5, 2, 9, 3), 2),
    "coeff_base_eob_cdf": ("coeff_base_eob_multi", (5, 2, 4, 4), 3),
    "coeff_base_cdf": ("coeff_base_multi", (5, 2, 42, 5), 4),
    "coeff_br_cdf": ("coeff_lps_multi", (5, 2, 21, 5), 4),
    **{f"eob_flag_cdf{16 << i}": (f"eob_multi{16 << i}", (2, 2, 6 + i), 5 + i) for i in range(7)},
}

# libaom's FRAME_CONTEXT behind the coefficients, in its order: a name, and its dimensions.
MEMBERS = [
    ("newmv", (6, 3)), ("zeromv", (2, 3)), ("refmv", (6, 3)), ("drl", (3, 3)), ("inter_compound_mode", (8, 9)),
    ("compound_type", (22, 3)), ("wedge_idx", (22, 17)), ("interintra", (4, 3)), ("wedge_interintra", (22, 3)),
    ("interintra_mode", (4, 5)), ("motion_mode", (22, 4)), ("obmc", (22, 3)), ("palette_y_size", (7, 8)),
    ("palette_uv_size", (7, 8)), ("palette_y_color", (7, 5, 9)), ("palette_uv_color", (7, 5, 9)),
    ("palette_y_mode", (7, 3, 3)), ("palette_uv_mode", (2, 3)), ("comp_inter", (5, 3)), ("single_ref", (3, 6, 3)),
    ("comp_ref_type", (5, 3)), ("uni_comp_ref", (3, 3, 3)), ("comp_ref", (3, 3, 3)), ("comp_bwdref", (3, 2, 3)),
    ("txfm_partition", (21, 3)), ("compound_index", (6, 3)), ("comp_group_idx", (6, 3)), ("skip_mode", (3, 3)),
    ("skip", (3, 3)), ("intra_inter", (4, 3)), ("nmvc", (143,)), ("ndvc", (143,)), ("intrabc", (3,)), ("seg_pred", (3, 3)),
    ("seg_spatial", (3, 9)), ("filter_intra", (22, 3)), ("filter_intra_mode", (6,)), ("switchable_restore", (4,)),
    ("wiener_restore", (3,)), ("sgrproj_restore", (3,)), ("y_mode", (4, 14)), ("uv_mode", (2, 13, 15)),
    ("partition", (20, 11)), ("switchable_interp", (16, 4)), ("kf_y", (5, 5, 14)), ("angle_delta", (8, 8)),
    ("tx_size", (4, 3, 4)), ("delta_q", (5,)), ("delta_lf_multi", (4, 5)), ("delta_lf", (5,)),
    ("intra_ext_tx", (3, 4, 13, 17)), ("inter_ext_tx", (4, 4, 17)), ("cfl_sign", (9,)), ("cfl_alpha", (6, 17)),
]

# Fields that are one of these members whole.
WHOLE = {
    "comp_bwd_ref_cdf": "comp_bwdref", "comp_mode_cdf": "comp_inter", "comp_ref_cdf": "comp_ref",
    "comp_ref_type_cdf": "comp_ref_type", "drl_cdfs": "drl", "filter_intra_cdfs": "filter_intra",
    "intra_inter_cdfs": "intra_inter", "lrf_sgrproj_cdf": "sgrproj_restore", "lrf_wiener_cdf": "wiener_restore",
    "newmv_cdf": "newmv", "palette_uv_mode_cdfs": "palette_uv_mode", "palette_y_mode_cdfs": "palette_y_mode",
    "refmv_cdf": "refmv", "single_ref_cdfs": "single_ref", "skip_cdfs": "skip", "txfm_partition_cdf": "txfm_partition",
    "zeromv_cdf": "zeromv", "lrf_switchable_cdf": "switchable_restore", "deblock_delta_cdf": "delta_lf",
    "deblock_delta_multi_cdf": "delta_lf_multi", "angle_delta_cdf": "angle_delta", "cfl_sign_cdf": "cfl_sign",
    "compound_mode_cdf": "inter_compound_mode", "spatial_segmentation_cdfs": "seg_spatial", "kf_y_cdf": "kf_y",
    "y_mode_cdf": "y_mode", "cfl_alpha_cdf": "cfl_alpha",
}
# Fields that are some of a member's distributions, from this one on.
PARTS = {
    "partition_w8_cdf": ("partition", 0), "partition_cdf": ("partition", 4), "partition_w128_cdf": ("partition", 16),
    "uv_mode_cdf": ("uv_mode", 0), "uv_mode_cfl_cdf": ("uv_mode", 13), "tx_size_8x8_cdf": ("tx_size", 0),
    "tx_size_cdf": ("tx_size", 3), "intra_tx_1_cdf": ("intra_ext_tx", 52), "intra_tx_2_cdf": ("intra_ext_tx", 104),
    "inter_tx_1_cdf": ("inter_ext_tx", 4), "inter_tx_2_cdf": ("inter_ext_tx", 8), "inter_tx_3_cdf": ("inter_ext_tx", 12),
}
# A component of a motion vector in libaom's order: the field, its distributions, their symbols.
COMPONENT = [("classes_cdf", 1, 11), ("class0_fp_cdf", 2, 4), ("fp_cdf", 1, 4), ("sign_cdf", 1, 2),
             ("class0_hp_cdf", 1, 2), ("hp_cdf", 1, 2), ("class0_cdf", 1, 2), ("bits_cdf", 10, 2)]

# Sides of the transform sizes in order, and for each of the 16 types its class: 2D, horizontal, vertical.
SIDES = [(4, 4), (8, 8), (16, 16), (32, 32), (64, 64), (4, 8), (8, 4), (8, 16), (16, 8), (16, 32), (32, 16), (32, 64),
         (64, 32), (4, 16), (16, 4), (8, 32), (32, 8), (16, 64), (64, 16)]
CLASSES = [0] * 10 + [2, 1, 2, 1, 2, 1]

# The members behind the coefficients are written by a call, over a block of a number that no table has.
BLANK = 0xA5A5
PROGRAM = """
#include <stdio.h>
#include <string.h>
void av1_init_mode_probs(void *context);
static unsigned short block[65536];
int main(void) {
  memset(block, 0xA5, sizeof block);
  av1_init_mode_probs(block);
  return fwrite(block, 2, 65536, stdout) != 65536;
}
"""


def product(numbers):
    total = 1
    for n in numbers:
        total *= n
    return total


def library():
    """The path of libaom.a, by Debian's list of files."""
    listed = subprocess.run(["dpkg", "-L", "libaom-dev"], capture_output=True, text=True)
    paths = [line for line in listed.stdout.split() if line.endswith("/libaom.a")]
    if not paths:
        sys.exit("av1_tables: no libaom.a: install libaom-dev")
    return paths[0]


class Object:
    """The data of one object file of a static library, by symbol."""

    def __init__(self, archive, name):
        with tempfile.TemporaryDirectory() as folder:
            subprocess.run(["ar", "x", archive, name], cwd=folder, check=True)
            self.bytes = (pathlib.Path(folder) / name).read_bytes()
        if self.bytes[:6] != b"\x7fELF\x02\x01":
            sys.exit(f"av1_tables: {name} is no 64-bit little-endian ELF file")
        start, = struct.unpack_from("<Q", self.bytes, 0x28)
        size, count = struct.unpack_from("<HH", self.bytes, 0x3A)
        self.sections = [struct.unpack_from("<IIQQQQIIQQ", self.bytes, start + i * size) for i in range(count)]
        table = next(s for s in self.sections if s[1] == 2)
        names = self.sections[table[6]][4]
        self.symbols = []
        for at in range(table[4], table[4] + table[5], 24):
            name_at, _, _, section, value, length = struct.unpack_from("<IBBHQQ", self.bytes, at)
            text = self.bytes[names + name_at : self.bytes.index(b"\0", names + name_at)].decode()
            self.symbols.append((text, section, value, length))

    def find(self, name):
        return next(s for s in self.symbols if s[0] == name)

    def numbers(self, name):
        """The 16-bit numbers of a table."""
        _, section, value, length = self.find(name)
        start = self.sections[section][4] + value
        return list(struct.unpack_from(f"<{length // 2}H", self.bytes, start))

    def pointers(self, name):
        """The symbols that a table's pointers lead to, by their place in it."""
        _, section, value, length = self.find(name)
        named = {(s[1], s[2]): s[0] for s in self.symbols if s[3]}
        found = {}
        for part in self.sections:
            if part[1] == 4 and part[7] == section:
                for at in range(part[4], part[4] + part[5], 24):
                    place, info, addend = struct.unpack_from("<QQq", self.bytes, at)
                    if value <= place < value + length:
                        target = self.symbols[info >> 32]
                        found[place - value] = named[target[1], target[2] + addend]
        return found


def cut(numbers, width, symbols, name):
    """Distributions of so many places each, cut to the numbers of their symbols, with a count of 0."""
    found = []
    for at in range(0, len(numbers), width):
        values, rest = numbers[at : at + symbols - 1], numbers[at + symbols - 1 : at + width]
        falls = all(a >= b for a, b in zip(values, values[1:])) and all(v < 32768 for v in values)
        if not falls or rest[:2] != [0, 0]:
            sys.exit(f"av1_tables: {name} is no list of distributions of {symbols} symbols")
        found += values + [0]
    return found


def members(archive):
    """What the call writes behind the coefficients, by member."""
    with tempfile.TemporaryDirectory() as folder:
        source, program = pathlib.Path(folder) / "probe.c", pathlib.Path(folder) / "probe"
        source.write_text(PROGRAM)
        subprocess.run(["gcc", "-O1", "-o", program, source, archive, "-lpthread", "-lm"], check=True)
        block = struct.unpack("<65536H", subprocess.run([program], check=True, capture_output=True).stdout)
    at = sum(product(dims) for _, dims, _ in COEFFICIENTS.values())
    if set(block[:at]) != {BLANK}:
        sys.exit("av1_tables: libaom writes where the coefficients should lie")
    found = {}
    for name, dims in MEMBERS:
        found[name] = list(block[at : at + product(dims)])
        if (BLANK in found[name]) != (name in ("nmvc", "ndvc")):
            sys.exit(f"av1_tables: {name} does not lie at {at}")
        at += product(dims)
    if set(block[at:]) != {BLANK}:
        sys.exit("av1_tables: libaom writes past the last member")
    return found


def vectors(numbers):
    """The fields of motion vectors, by name."""
    found, at = {}, 0

    def take(count, symbols):
        nonlocal at
        part = numbers[at : at + count * (symbols + 1)]
        at += len(part)
        return cut(part, symbols + 1, symbols, "default_nmv_context")

    found["joints_cdf"] = take(1, 4)
    for i in range(2):
        for name, count, symbols in COMPONENT:
            found[f"comps[{i}].{name}"] = take(count, symbols)
        found[f"comps[{i}].padding"] = [0] * 5
    if at != len(numbers):
        sys.exit("av1_tables: default_nmv_context has another length")
    found["padding"] = [0] * 12
    return found


def tables():
    archive = library()
    coefficients = Object(archive, "entropy.c.o")
    fields = vectors(Object(archive, "entropymv.c.o").numbers("default_nmv_context"))
    of_quantizer = {}
    for field, (name, dims, symbols) in COEFFICIENTS.items():
        numbers = coefficients.numbers(f"av1_default_{name}_cdfs")
        if len(numbers) != SETS * product(dims):
            sys.exit(f"av1_tables: {name} has {len(numbers)} numbers")
        of_quantizer[field] = cut(numbers, dims[-1], symbols, name)
    written, dims_of = members(archive), dict(MEMBERS)
    sets = []
    for quantizer in range(SETS):
        numbers = []
        for field, dims, place in layout_table.rows():
            if field in of_quantizer:
                size = len(of_quantizer[field]) // SETS
                part = of_quantizer[field][quantizer * size : (quantizer + 1) * size]
            elif field in fields:
                part = fields[field]
            else:
                name, first = PARTS.get(field, (WHOLE.get(field), 0))
                width, count = dims_of[name][-1], product(dims[:-1])
                part = cut(written[name][first * width : (first + count) * width], width, dims[-1], name)
            if place != len(numbers) or len(part) != product(dims):
                sys.exit(f"av1_tables: {field} has {len(part)} numbers at {len(numbers)}")
            numbers += part
        sets.append(numbers)
    if any(len(numbers) != NUMBERS for numbers in sets):
        sys.exit("av1_tables: the sets have another length")
    return sets


def neighbours(kind):
    """The places that a context reads, from a position on, by columns and rows."""
    near = [(0, 1), (1, 0)]
    return near + [[(1, 1), (0, 2), (2, 0)], [(2, 0), (3, 0), (4, 0)], [(0, 2), (0, 3), (0, 4)]][kind]


def is_scan(scan, width, height, kind):
    """Whether a scan has each position once, and what a context reads comes later."""
    if sorted(scan) != list(range(width * height)):
        return False
    rank = {place: i for i, place in enumerate(scan)}
    for place in scan:
        column, row = divmod(place, height)
        for dc, dr in neighbours(kind):
            if column + dc < width and row + dr < height and rank[(column + dc) * height + row + dr] < rank[place]:
                return False
    return True


def by_columns(scan, width, height):
    """Positions that count by rows, as ones that count by columns."""
    return [place % width * height + place // width for place in scan]


def scans():
    orders = Object(library(), "scan.c.o")
    pointers = orders.pointers("av1_scan_orders")
    # older libaom counts by rows, later ones by columns: a size whose sides differ shows which
    by_rows = not is_scan(orders.numbers(pointers[SIDES.index((4, 8)) * 256]), 4, 8, 0)
    found = []
    for size, sides in enumerate(SIDES):
        width, height = min(sides[0], 32), min(sides[1], 32)
        three = []
        for kind in range(3):
            names = {pointers[(size * 16 + t) * 16] for t in range(16) if CLASSES[t] == kind}
            scan = orders.numbers(names.pop())
            scan = by_columns(scan, width, height) if by_rows else scan
            if names or not is_scan(scan, width, height, kind):
                sys.exit(f"av1_tables: no scan of size {size} and class {kind}")
            three.append(scan)
        found.append(three)
    return found


def main():
    made = {"tables": tables, "scans": scans}
    if len(sys.argv) != 2 or sys.argv[1] not in made:
        sys.exit("usage: av1_tables.py tables | scans")
    json.dump(made[sys.argv[1]](), sys.stdout, separators=(",", ":"))
    print()


if __name__ == "__main__":
    main()
