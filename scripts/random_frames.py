#!/usr/bin/env python3
"""A random key frame that AV1 decoders take: all its headers, and its blocks in AV1's order.

    random_frames.py SEED [BEYOND] > UNIT.json

The unit has AV1's own distributions and scans. What is chosen keeps the rules of docs/UNIT_FORMAT.md, and stays where the
definitions agree with AV1: docs/YARDSTICK.md tells what is left out and why. Coefficients are small enough for AV1's bounds on
what a transform may meet. BEYOND is one thing that is left out else, and comes here:

    parts_b      HORZ_B and VERT_B                    end_16x64    coefficients of transforms of 16x64 and 64x16
    tall_422     blocks taller than wide in 4:2:2     features     segment features 5 to 7
    quantizer_0  segments whose quantizer is 0        points       scaling points of film grain that do not rise
    matrix_0     a matrix of 0 outside 4:4:4          levels       levels that AV1 does not define
    display      a least luminance above the greatest time_0       parts of the time base that are 0
"""
import random
import sys

import key_frames as k


class Frame:
    def __init__(self, seed, beyond=""):
        self.r = random.Random(seed)
        self.beyond = beyond
        self.seq, self.frame = {}, {}
        self.metadata = []
        self.headers()
        # drawn apart, so that all else of a frame is as it was before there were these
        apart = random.Random(f"switches of {seed}")
        self.eob_by_coded = not beyond and apart.randrange(3) == 0
        if not beyond and apart.randrange(4) == 0:
            self.frame.update(disable_cdf_update=True, disable_frame_end_update_cdf=True)

    def once(self, n):
        return self.r.randrange(n) == 0

    def any(self):
        return self.once(2)

    def below(self, n):
        return self.r.randrange(n)

    # ---- headers

    def headers(self):
        r, seq, frame = self.r, self.seq, self.frame
        self.sampling = r.choice([k.CS420, k.CS420, k.CS420, k.CS422, k.CS444, k.CS400])
        if self.beyond == "tall_422":
            self.sampling = k.CS422
        profile, depth = r.choice({
            k.CS420: [(0, 8), (0, 8), (0, 10), (2, 12)], k.CS422: [(2, 8), (2, 10), (2, 12)],
            k.CS444: [(1, 8), (1, 10), (2, 12)], k.CS400: [(0, 8), (0, 10), (2, 12)]}[self.sampling])
        self.depth = depth
        reduced = self.any()
        levels = range(24, 31) if self.beyond == "levels" else [0, 1, 4, 5, 8, 9, 12, 13, 16, 31]
        seq.update(profile=profile, still_picture=reduced or self.once(3), reduced_still_picture_hdr=reduced,
                   level_idx=r.choice(levels), bit_depth=depth, chroma_sampling=self.sampling,
                   enable_filter_intra=self.any(), enable_intra_edge_filter=self.any(), enable_cdef=self.any(),
                   enable_restoration=self.any(), pixel_range=self.below(2), film_grain_params_present=self.once(3))
        if self.sampling == k.CS420:
            seq["chroma_sample_position"] = self.below(3)
        self.colour()
        screen, integer = 2, 2
        if not reduced:
            screen, integer = self.more_headers()
        tools = screen if screen < 2 else self.once(3)
        if tools and integer == 0:
            integer = seq["force_integer_mv"] = 2
        frame["allow_screen_content_tools"] = int(tools)
        self.size(reduced)
        self.quantizers()
        self.filters(reduced)
        if self.beyond == "points":
            seq["film_grain_params_present"] = True
        if seq["film_grain_params_present"] and (self.any() or self.beyond == "points"):
            frame["film_grain"] = self.grain()
        if self.once(3) or self.beyond in ("features", "quantizer_0"):
            self.segments()

    def colour(self):
        way = self.below(4)
        if way == 0:
            self.seq["color_description"] = [9, self.r.choice([1, 13, 16, 18]), self.r.choice([1, 6, 9])]
        if self.beyond == "matrix_0" and self.sampling != k.CS444:
            self.seq["color_description"] = [9, 13, 0]
        elif way == 1 and self.sampling == k.CS444:
            self.seq.update(color_description=[1, 13, 0], pixel_range=1)
        if self.once(4):
            self.seq["content_light"] = [self.below(65536), self.below(65536)]
            self.metadata.append("cll")
        if self.once(4) or self.beyond == "display":
            brightest = 1 if self.beyond == "display" else 1 + self.below((1 << 32) - 1)
            self.seq["mastering_display"] = {
                "primaries": [[self.below(65536), self.below(65536)] for _ in range(3)],
                "white_point": [self.below(65536), self.below(65536)],
                # the units of the two differ by 64
                "max_luminance": brightest,
                "min_luminance": 64 if self.beyond == "display" else self.below(min(1 << 32, 64 * brightest))}
            self.metadata.append("mdcv")
        if self.once(4):
            self.metadata.append({"country_code": self.r.choice([181, 255]), "country_code_extension_byte": self.below(256),
                                  "payload": [self.below(256) for _ in range(1 + self.below(150))]})

    def more_headers(self):
        r, seq, frame = self.r, self.seq, self.frame
        if self.beyond == "time_0":
            seq.update(timing_info_present=True, time_base={"num": 0, "den": self.below(2)})
        elif self.once(3):
            seq.update(timing_info_present=True, time_base={"num": 1 + self.below(1 << 31), "den": 1 + self.below(1 << 31)})
        for name in ("enable_interintra_compound", "enable_masked_compound", "enable_warped_motion", "enable_dual_filter"):
            seq[name] = self.any()
        if self.any():
            seq.update(enable_order_hint=True, enable_jnt_comp=self.any(), enable_ref_frame_mvs=self.any(),
                       order_hint_bits_minus_1=self.below(8))
            frame["order_hint"] = self.below(1 << (seq["order_hint_bits_minus_1"] + 1))
        screen = self.below(3)
        integer = self.below(3) if screen else 2
        seq.update(force_screen_content_tools=screen, force_integer_mv=integer)
        frame.update(frame_size_override_flag=self.any(), disable_frame_end_update_cdf=self.any())
        return screen, integer

    def side(self):
        return self.r.choice([1 + self.below(40), 8 * (1 + self.below(24)), 64 * (1 + self.below(3)), 1 + self.below(200)])

    def size(self, reduced):
        frame = self.frame
        width, height = self.side(), self.side()
        frame.update(width=width, height=height)
        self.sb = (-(-width // 64), -(-height // 64))
        self.tile = self.sb
        if self.any():
            self.tile = (1 + self.below(self.sb[0]), 1 + self.below(self.sb[1]))
            frame.update(tile_width_sb=self.tile[0], tile_height_sb=self.tile[1])
        self.tiles = (-(-self.sb[0] // self.tile[0]), -(-self.sb[1] // self.tile[1]))
        frame["context_update_tile_id"] = self.below(self.tiles[0] * self.tiles[1])
        if self.once(4):
            frame.update(render_and_frame_size_different=True, render_width=1 + self.below(65536), render_height=1 + self.below(65536))
        self.grid = (2 * -(-width // 8), 2 * -(-height // 8))

    def quantizers(self):
        frame = self.frame
        frame["base_q_idx"] = self.r.choice([1, 20, 21, 60, 61, 120, 121, 255, 1 + self.below(255), 1 + self.below(60)])
        delta = [0 if self.any() else self.r.randint(-63, 63) for _ in range(5)]
        frame.update(dc_delta_q=delta[:3], ac_delta_q=[0] + delta[3:])
        if self.sampling == k.CS400:
            frame.update(dc_delta_q=[delta[0], 0, 0], ac_delta_q=[0, 0, 0])
        # No quantizer of 8 bits up to these indices is above these values; more bits make them 4 or 16 times as large.
        top = frame["base_q_idx"] + 63
        largest = 120 if top <= 100 else 280 if top <= 160 else 700 if top <= 215 else 1828
        self.budget = max((1 << (6 + self.depth)) // (largest << (self.depth - 8)), 3)

    def filters(self, reduced):
        frame = self.frame
        frame.update(tx_mode_select=self.any(), use_reduced_tx_set=self.once(3))
        strengths = [[self.below(64) for _ in range(8)] for _ in range(2)]
        frame.update(cdef_damping=3 + self.below(4), cdef_bits=self.below(4), cdef_y_strengths=strengths[0],
                     cdef_uv_strengths=strengths[1])
        frame["deblock"] = {
            "levels": [0 if self.once(3) else self.below(64) for _ in range(4)], "sharpness": self.below(8),
            "deltas_enabled": self.any(), "delta_updates_enabled": self.any(),
            "ref_deltas": [1, 0, 0, 0, 0, -1, -1, -1] if self.any() else [self.r.randint(-63, 63) for _ in range(8)],
            "mode_deltas": [self.r.randint(-1, 1), self.r.randint(-63, 63)]}
        self.restoration = [0, 0, 0]
        self.unit_sizes = [64, 64, 64]
        if self.seq["enable_restoration"]:
            planes = 1 if self.sampling == k.CS400 else 3
            self.restoration = [self.below(4) if plane < planes else 0 for plane in range(3)]
            luma = 64 << self.below(3)
            half = self.sampling == k.CS420 and any(self.restoration[1:]) and luma > 64 and self.any()
            self.unit_sizes = [luma, luma // 2 if half else luma, luma // 2 if half else luma]
            frame["restoration"] = [{"lrf_type": t, "unit_size": u} for t, u in zip(self.restoration, self.unit_sizes)]

    def segments(self):
        features, values = [], []
        base = self.frame["base_q_idx"]
        for _ in range(8):
            # the features that a key frame of AV1 codes as it does without them, and no segment without quantizer
            mine = [self.once(4) if f < 5 or self.beyond == "features" else False for f in range(8)]
            features.append(mine)
            value = [0] * 8
            if mine[0]:
                value[0] = self.r.randint(max(-255, 1 - base), max(0, min(63, 255 - base)))
                if self.beyond == "quantizer_0":
                    value[0] = -255
            for f in range(1, 5):
                if mine[f]:
                    value[f] = self.r.randint(-63, 63)
            values.append(value)
        last = max([i for i in range(8) if any(features[i])] or [0])
        self.frame["segmentation"] = {"enabled": True, "update_map": True, "update_data": True, "features": features,
                                      "values": values, "last_active_segid": last}

    def grain(self):
        def points(most):
            places = sorted(self.r.sample(range(256), self.below(most + 1)), reverse=self.beyond == "points")
            return [[x, self.below(256)] for x in places]
        luma = points(14)
        from_luma = self.sampling != k.CS400 and self.once(3)
        coded = self.sampling != k.CS400 and not from_luma and not (self.sampling == k.CS420 and not luma)
        lag = self.below(4)
        count = 2 * lag * (lag + 1)
        cb = points(10) if coded else []
        cr = points(10) if coded else []
        if self.sampling == k.CS420 and bool(cb) != bool(cr):
            cb, cr = [], []
        return {
            "scaling_points_y": luma, "scaling_points_cb": cb, "scaling_points_cr": cr, "scaling_shift": 8 + self.below(4),
            "ar_coeff_lag": lag, "ar_coeffs_y": [self.r.randint(-30, 30) for _ in range(count)],
            "ar_coeffs_cb": [self.r.randint(-30, 30) for _ in range(count + (1 if luma else 0))],
            "ar_coeffs_cr": [self.r.randint(-30, 30) for _ in range(count + (1 if luma else 0))],
            "ar_coeff_shift": 6 + self.below(4), "cb_mult": self.below(256), "cb_luma_mult": self.below(256),
            "cb_offset": self.below(512), "cr_mult": self.below(256), "cr_luma_mult": self.below(256), "cr_offset": self.below(512),
            "overlap_flag": self.any(), "chroma_scaling_from_luma": from_luma, "grain_scale_shift": self.below(4),
            "random_seed": self.below(65536)}

    # ---- blocks

    def script(self, number):
        tile = Tile(self, number % self.tiles[0], number // self.tiles[0])
        return tile.script()

    def unit(self):
        return {
            "seq": self.seq, "frame": self.frame, "metadata": self.metadata, "eob_by_coded": self.eob_by_coded,
            "via": self.r.choice(["direct", "recorded"]), "tables": k.tables(), "scans": k.scans(),
            "tiles": [self.script(i) for i in range(self.tiles[0] * self.tiles[1])]}


class Tile:
    """A tile's script; places count 4x4 luma blocks from its corner."""

    def __init__(self, frame, column, row):
        self.f, self.r = frame, frame.r
        self.sampling = frame.sampling
        self.corner = (column * frame.tile[0] * 16, row * frame.tile[1] * 16)
        self.columns = min(frame.tile[0] * 16, frame.grid[0] - self.corner[0])
        self.rows = min(frame.tile[1] * 16, frame.grid[1] - self.corner[1])
        self.items = []
        self.segment_of = {}
        self.quiet = frame.once(4)

    def put(self, op, **members):
        self.items.append(k.item(op, **members))

    def script(self):
        for y in range(0, self.rows, 16):
            self.put("RowStart")
            for x in range(0, self.columns, 16):
                self.cdef = False
                self.filters(x, y)
                self.node(x, y, 64)
        return self.items

    def filters(self, x, y):
        """The restoration units whose corner lies in a superblock (AV1 specification 5.11.57)."""
        sx, sy = k.shifts(self.sampling)
        for plane in range(3):
            if not self.f.restoration[plane]:
                continue
            px, py = (sx, sy) if plane else (0, 0)
            unit = self.f.unit_sizes[plane]
            width, height = (self.f.frame["width"] + px) >> px, (self.f.frame["height"] + py) >> py

            def count(side, at, most, shift):
                units = max((most + unit // 2) // unit, 1)
                step = 4 >> shift
                first, end = -(-at * step // unit), -(-(at + 16) * step // unit)
                return max(0, min(units, end) - first)
            many = count(width, self.corner[0] + x, width, px) * count(height, self.corner[1] + y, height, py)
            for _ in range(many):
                self.put("Lrf", plane=plane, a=self.filter(plane))

    def filter(self, plane):
        kind = self.f.restoration[plane]
        way = {1: self.f.below(3), 2: self.f.below(2), 3: 2 * self.f.below(2)}[kind]
        if way == 0:
            return None
        if way == 1:
            taps = [[self.r.randint(a, b) for a, b in ((-5, 10), (-23, 8), (-17, 46))] for _ in range(2)]
            if plane:
                taps = [[0] + t[1:] for t in taps]
            return {"wiener": taps}
        number = self.f.below(16)
        first, second = self.r.randint(-96, 31), self.r.randint(-32, 95)
        if 10 <= number < 14:
            first = 0
        if number >= 14:
            # where there is no second pass its factor is 128 less the first one, clipped: 95, since the first is at most 31
            second = 95
        return {"set": number, "xqd": [first, second]}

    def allowed(self, block):
        """Whether AV1 has a block of this size: in 4:2:2 none that is taller than wide."""
        w, h = k.BLOCKS[block]
        if self.f.beyond == "tall_422":
            return h <= 2 * w or w == 4
        return self.sampling != k.CS422 or w >= h

    def node(self, x, y, side):
        if x >= self.columns or y >= self.rows:
            return
        half = side // 8
        columns, rows = x + half < self.columns, y + half < self.rows
        if columns and rows:
            ways = [k.NONE, k.NONE, k.HORZ, k.VERT, k.SPLIT]
            if side > 8:
                ways += [k.SPLIT, k.SPLIT, k.HORZ_A, k.VERT_A, k.HORZ_4, k.VERT_4]
                if self.f.beyond == "parts_b":
                    ways += [k.HORZ_B, k.VERT_B]
        elif columns:
            ways = [k.HORZ, k.SPLIT]
        elif rows:
            ways = [k.VERT, k.SPLIT]
        else:
            ways = [k.SPLIT]
        ways = [how for how in ways if how == k.SPLIT or all(self.allowed(b) for _, _, b in k.parts(x, y, side, how))]
        how = self.r.choice(ways)
        self.put("Partition", x=x, y=y, size=k.BLOCKS.index((side, side)), a=how)
        for px, py, block in k.parts(x, y, side, how):
            if how == k.SPLIT and side > 8:
                self.node(px, py, side // 2)
            elif px < self.columns and py < self.rows:
                self.block(px, py, block)

    def block(self, x, y, block):
        f, frame = self.f, self.f.frame
        w, h = k.BLOCKS[block]
        self.put("Block", x=x, y=y, size=block)
        skip = f.once(2 if self.quiet else 4)
        self.put("Skip", a=skip)
        if "segmentation" in frame:
            self.segment(x, y, block, skip)
        if f.seq["enable_cdef"] and not skip and not self.cdef:
            self.cdef = True
            self.put("Cdef", a=f.below(1 << frame["cdef_bits"]))
        mode = f.below(13)
        self.put("IntraModeKf", a=mode)
        turned = block >= 3
        if turned and 1 <= mode <= 8:
            self.put("AngleDelta", chroma=False, a=self.r.randint(-3, 3))
        chroma = k.has_chroma(x, y, block, self.sampling)
        uv = None
        if chroma:
            uv = f.below(13)
            if max(w, h) <= 32 and f.once(3):
                uv = k.CFL
            self.put("UvMode", a=uv)
            if uv == k.CFL:
                alphas = [0, 0]
                while alphas == [0, 0]:
                    alphas = [0 if f.once(4) else self.r.randint(-16, 16) for _ in range(2)]
                self.put("CflAlphas", a=alphas)
            elif turned and 1 <= uv <= 8:
                self.put("AngleDelta", chroma=True, a=self.r.randint(-3, 3))
        transform = self.tools_and_transform(block, mode)
        if not skip:
            self.residual(x, y, block, transform, uv)

    def tools_and_transform(self, block, mode):
        """What comes behind the modes of an intra block: no palette, no filter, and the size of its transforms, which is returned."""
        f, frame = self.f, self.f.frame
        if frame["allow_screen_content_tools"] and block >= 3:
            self.put("Palette", a=False)
        if f.seq["enable_filter_intra"] and mode == 0 and max(k.BLOCKS[block]) <= 32:
            self.put("FilterIntra", a=False)
        transform = k.largest(block)
        if frame["tx_mode_select"] and block:
            for _ in range(f.below(3)):
                transform = k.smaller(transform)
            self.put("TxIntra", a=transform)
        else:
            self.put("TxNote")
        return transform

    def segment(self, x, y, block, skip):
        last = self.f.frame["segmentation"]["last_active_segid"]
        seen = self.segment_of
        left, above, corner = seen.get((x - 1, y)), seen.get((x, y - 1)), seen.get((x - 1, y - 1))
        if above is None:
            guess = left or 0
        elif left is None:
            guess = above
        else:
            guess = above if corner == above else left
        number = guess if skip else self.f.below(last + 1)
        self.put("Segment", a=number)
        w, h = k.BLOCKS[block]
        for j in range(y, min(y + h // 4, self.rows)):
            for i in range(x, min(x + w // 4, self.columns)):
                seen[i, j] = number

    def places(self, x, y, size, transform, sx, sy):
        """Where the transforms of a plane's block begin, inside the tile."""
        tw, th = k.TRANSFORMS[transform]
        for j in range(0, max(size[1] // th, 1)):
            for i in range(0, max(size[0] // tw, 1)):
                px, py = x + ((i * tw // 4) << sx), y + ((j * th // 4) << sy)
                if px < self.columns and py < self.rows:
                    yield px, py

    def residual(self, x, y, block, transform, uv):
        reduced = self.f.frame["use_reduced_tx_set"]
        for px, py in self.places(x, y, k.BLOCKS[block], transform, 0, 0):
            # of 16x64 and 64x16 the class of the end is AV1's only where it goes by the coded size
            last = set(k.TRANSFORMS[transform]) == {16, 64} and self.f.beyond != "end_16x64" and not self.f.eob_by_coded
            levels = [] if last else self.levels(transform)
            kind = self.r.choice(k.types(transform, reduced)) if levels else 0
            self.put("Coeffs", plane=0, x=px, y=py, tx_type=kind, a=levels)
        if uv is None:
            return
        sx, sy = k.shifts(self.sampling)
        small = k.chroma_transform(block, self.sampling)
        kind = k.TYPE_OF_MODE[uv] if k.TYPE_OF_MODE[uv] in k.types(small, reduced) else 0
        size = k.BLOCKS[k.chroma_block(block, self.sampling)]
        for plane in (1, 2):
            for px, py in self.places(x, y, size, small, sx, sy):
                self.put("Coeffs", plane=plane, x=px, y=py, tx_type=kind, a=self.levels(small))

    def levels(self, transform):
        w, h = k.coded(transform)
        if self.f.once(3):
            return []
        most = w * h
        count = self.r.choice([1, 1 + self.f.below(4), 1 + self.f.below(min(most, 32)), 1 + self.f.below(most)])
        left = self.f.budget
        levels = []
        thin = self.f.below(4)
        for number in range(count):
            size = 0
            if left > 1 and (number + 1 == count or not self.f.below(1 << thin)):
                size = self.r.choice([1, 1, 1, 2, 3, 1 + self.f.below(14), 1 + self.f.below(left)])
                size = min(size, left - 1)
            left -= size
            levels.append(size if self.f.any() else -size)
        if not levels[-1]:
            levels[-1] = 1
        return levels


def main():
    sys.stdout.write(k.lines(Frame(int(sys.argv[1]), *sys.argv[2:3]).unit()))


if __name__ == "__main__":
    main()
