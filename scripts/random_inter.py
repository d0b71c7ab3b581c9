#!/usr/bin/env python3
"""A random frame that is predicted from others: an inter frame or a switch frame, with all 26 kinds of step, and trials.

    random_inter.py SEED > UNIT.json

What is chosen keeps the rules of docs/UNIT_FORMAT.md. It is made to be written by two programs (scripts/compare_units.py), and not for
decoders: these want the other frames as well. Vectors are multiples of 8 up to 8184, so that their differences keep the rules whatever
the candidates are. A later candidate is only asked for where blocks of other vectors stand above and to the left.
"""
import random
import sys

import key_frames as k
import random_frames

NEARESTMV, NEAR0MV, GLOBALMV, NEWMV = 14, 15, 18, 19
PAIRS = [20, 21, 24, 25, 26, 29, 32, 33, 33, 33, 33]
NEAR_PAIRS, NEW_NEWMV = (21, 26, 29), 33
# the modes of two frames whose first and second vector is coded
CODES = ((25, 29, 33), (24, 26, 33))


class Frame(random_frames.Frame):
    """A frame of which `headers` makes an inter frame."""

    def headers(self):
        self.seq["reduced_still_picture_hdr"] = True
        while self.seq["reduced_still_picture_hdr"]:
            self.seq, self.frame, self.metadata = {}, {}, []
            super().headers()
        self.seq["still_picture"] = False
        frame, switch = self.frame, self.once(4)
        frame.update(frame_type=3 if switch else 1, intra_only=False, error_resilient=switch or self.once(3), show_frame=self.any(),
                     showable_frame=self.any(), refresh_frame_flags=255 if switch else self.below(256))
        if switch:
            frame["frame_size_override_flag"] = True
        self.references()
        integer = self.seq["force_integer_mv"]
        frame["force_integer_mv"] = 0 if not frame["allow_screen_content_tools"] else self.below(2) if integer == 2 else integer
        for name in ("allow_high_precision_mv", "is_filter_switchable", "is_motion_mode_switchable", "use_ref_frame_mvs",
                     "skip_mode_allowed", "allow_warped_motion"):
            frame[name] = self.any()
        frame.update(default_filter=self.below(4), reference_mode=2 * self.below(2),
                     globalmv_transformation_type=[self.below(2) for _ in range(7)], ref_frame_sign_bias=[self.any() for _ in range(7)])
        frame["deblock"].update(block_deltas_enabled=self.any(), block_delta_shift=self.below(4), block_delta_multi=self.any())

    def references(self):
        frame = self.frame
        hints = 1 << (self.seq.get("order_hint_bits_minus_1", 0) + 1)
        self.refs = [None if self.any() else self.reference(hints if self.seq.get("enable_order_hint") else 1) for _ in range(8)]
        frame["ref_frames"] = [self.below(8) for _ in range(7)]
        there = [i for i, place in enumerate(frame["ref_frames"]) if self.refs[place]]
        if there and not frame["error_resilient"] and self.any():
            frame["primary_ref_frame"] = self.r.choice(there)

    def reference(self, hints):
        width, height = self.frame["width"], self.frame["height"]
        if self.any():
            width, height = 1 + self.below(300), 1 + self.below(300)
        return {"order_hint": self.below(hints), "width": width, "height": height,
                "render_width": self.frame.get("render_width", width), "render_height": self.frame.get("render_height", height),
                "ref_deltas": [self.r.randint(-2, 2) for _ in range(8)], "mode_deltas": [self.r.randint(-1, 1) for _ in range(2)]}

    def script(self, number):
        return Tile(self, number % self.tiles[0], number // self.tiles[0]).script()

    def unit(self):
        unit = super().unit()
        unit["refs"] = self.refs
        if self.any():
            del unit["tables"]
        if self.any():
            del unit["scans"]
        return unit


class Tile(random_frames.Tile):
    """A tile's script with inter blocks and trials."""

    def __init__(self, frame, column, row):
        super().__init__(frame, column, row)
        # the references and the vectors of blocks whose vectors are all coded, by their places
        self.coded = {}
        # some tiles have few references, so that neighbours have the same
        self.few = frame.any()
        self.depth = 0

    def node(self, x, y, side):
        if x >= self.columns or y >= self.rows:
            return
        while self.depth < 3 and self.f.once(8):
            before = (dict(self.segment_of), dict(self.coded), self.cdef)
            self.put("Begin", x=x, y=y)
            self.depth += 1
            super().node(x, y, side)
            self.depth -= 1
            if self.f.once(3):
                self.put("Keep")
                return
            self.put("Abandon")
            self.segment_of, self.coded, self.cdef = before
        super().node(x, y, side)

    def block(self, x, y, block):
        f, frame = self.f, self.f.frame
        self.put("Block", x=x, y=y, size=block)
        skip = f.once(3)
        self.put("Skip", a=skip)
        if "segmentation" in frame and frame["segmentation"]["update_map"]:
            self.segment(x, y, block, skip)
        if f.seq["enable_cdef"] and not skip and not self.cdef:
            self.cdef = True
            self.put("Cdef", a=f.below(1 << frame["cdef_bits"]))
        if frame["deblock"]["block_deltas_enabled"] and f.any():
            self.delta_lf()
        inter = not f.once(4)
        self.put("IsInter", a=inter)
        self.vectors = None
        transform, uv = self.inter(x, y, block, skip) if inter else self.intra(x, y, block)
        w, h = k.BLOCKS[block]
        for j in range(y, min(y + h // 4, self.rows)):
            for i in range(x, min(x + w // 4, self.columns)):
                self.coded[i, j] = self.vectors
        if not skip:
            self.residual(x, y, block, transform, uv, inter)

    def delta_lf(self):
        multi = self.f.frame["deblock"]["block_delta_multi"]
        many = 1 if not multi else 2 if self.sampling == k.CS400 else 4
        deltas = [self.r.choice([0, self.r.randint(-4, 4), self.r.randint(-63, 63)]) if i < many else 0 for i in range(4)]
        self.put("DeltaLf", a=deltas)

    # ---- intra blocks

    def intra(self, x, y, block):
        f = self.f
        mode = f.below(13)
        self.put("IntraMode", a=mode)
        if block >= 3 and 1 <= mode <= 8:
            self.put("AngleDelta", chroma=False, a=self.r.randint(-3, 3))
        uv = None
        if k.has_chroma(x, y, block, self.sampling):
            uv = k.CFL if max(k.BLOCKS[block]) <= 32 and f.once(3) else f.below(13)
            self.put("UvMode", a=uv)
            if uv == k.CFL:
                self.put("CflAlphas", a=self.r.choice([[f.below(17), -1 - f.below(16)], [0, 1 + f.below(16)], [-1 - f.below(16), 0]]))
            elif block >= 3 and 1 <= uv <= 8:
                self.put("AngleDelta", chroma=True, a=self.r.randint(-3, 3))
        return self.tools_and_transform(block, mode), uv

    # ---- inter blocks

    def inter(self, x, y, block, skip):
        f, frame = self.f, self.f.frame
        two = frame["reference_mode"] == 2 and min(k.BLOCKS[block]) >= 8 and f.any()
        refs = [1 + f.below(4), 5 + f.below(3)] if two else [1 + f.below(7), 8]
        if self.few:
            refs = [1, 7 if two else 8]
        self.put("RefFrames", a=refs)
        has_tr = f.any()
        self.put("MvRefs", has_tr=has_tr)
        mode = self.r.choice(PAIRS if two else [NEARESTMV, NEAR0MV, GLOBALMV, NEWMV, NEWMV, NEWMV, NEWMV])
        self.put("CompoundMode" if two else "InterMode", a=mode)
        self.later_candidates(x, y, block, refs, has_tr, mode)
        lists = [i for i in (0, 1) if mode in CODES[i]] if two else [0] if mode == NEWMV else []
        found = {}
        for number in lists:
            found[number] = [8 * self.r.randint(-1023, 1023) if f.once(3) else 8 * self.r.randint(-2, 2) for _ in range(2)]
            self.put("Mv", list=number, a=found[number])
        if len(found) == (2 if two else 1):
            self.vectors = (tuple(refs), tuple(tuple(found[number]) for number in sorted(found)))
        transform = k.largest(block)
        if frame["tx_mode_select"] and block and not skip:
            split = f.any()
            self.put("TxInter", a=split)
            return k.smaller(transform) if split else transform, self.chroma(x, y, block)
        self.put("TxNote")
        return transform, self.chroma(x, y, block)

    def chroma(self, x, y, block):
        """A mode that stands for the chroma of an inter block, where it has some."""
        return k.DC if k.has_chroma(x, y, block, self.sampling) else None

    def later_candidates(self, x, y, block, refs, has_tr, mode):
        near = mode == NEAR0MV or mode in NEAR_PAIRS
        if not near and mode not in (NEWMV, NEW_NEWMV):
            return
        around = [(x, y - 1), (x - 1, y)]
        if has_tr and self.coded.get((x, y - 1)) and x + k.BLOCKS[block][0] // 4 < self.columns and max(k.BLOCKS[block]) < 64:
            around.append((x + k.BLOCKS[block][0] // 4, y - 1))
        seen = {self.coded.get(place) for place in around}
        many = len([v for v in seen if v and list(v[0]) == refs])
        first = 1 if near else 0
        for number in range(first, min(first + 2, many - 1)):
            later = self.f.any()
            self.put("Drl", idx=number, a=later)
            if not later:
                return

    # ---- coefficients

    def residual(self, x, y, block, transform, uv, inter):
        if not inter:
            super().residual(x, y, block, transform, uv)
            return
        kinds = types(transform, self.f.frame["use_reduced_tx_set"])
        for px, py in self.places(x, y, k.BLOCKS[block], transform, 0, 0):
            levels = self.levels(transform)
            self.put("Coeffs", plane=0, x=px, y=py, tx_type=self.r.choice(kinds) if levels else 0, a=levels)
        if uv is None:
            return
        sx, sy = k.shifts(self.sampling)
        small = k.chroma_transform(block, self.sampling)
        size = k.BLOCKS[k.chroma_block(block, self.sampling)]
        for plane in (1, 2):
            for px, py in self.places(x, y, size, small, sx, sy):
                self.put("Coeffs", plane=plane, x=px, y=py, tx_type=self.r.choice(types(small, False)), a=self.levels(small))


def types(transform, reduced):
    """The types that an inter block's transform may have."""
    w, h = k.TRANSFORMS[transform]
    if max(w, h) > 32:
        return [0]
    if reduced or max(w, h) == 32:
        return [0, 9]
    return list(range(12)) if min(w, h) == 16 else list(range(16))


def main():
    sys.stdout.write(k.lines(Frame(int(sys.argv[1])).unit()))


if __name__ == "__main__":
    main()
