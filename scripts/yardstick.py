#!/usr/bin/env python3
"""What scripts/yardstick.sh does for each random key frame: written here, decoded by dav1d and aomdec, its headers read by ffmpeg.

    yardstick.py COUNT FIRST FOLDER WORD PROGRAM...

PROGRAM and what follows is what writes a unit from standard input; WORD is `raw` where it sends the bytes themselves, and `write`
where it sends them in hex. BEYOND in the environment is what the frames have beyond AV1 (scripts/random_frames.py). Prints a line
for each fault and a summary; a frame with a fault stays in FOLDER. Ends with status 1 where there is one.
"""
import collections
import hashlib
import json
import os
import pathlib
import re
import shutil
import subprocess
import sys

import key_frames as k
import random_frames

FIELD = re.compile(r"\] (\d+) +([\w.\[\]]+) +([01]*) *= (-?\d+)$")
# What ffmpeg prints of the framing itself, and of padding.
FRAMING = re.compile(r"obu_|leb128_byte|trailing_|zero_bit|padding")


def log2(n):
    return max(n - 1, 0).bit_length()


def sequence_fields(seq, frame):
    depth, sampling = seq["bit_depth"], seq["chroma_sampling"]
    full = not seq["reduced_still_picture_hdr"]
    colour = seq.get("color_description")
    screen, integer = seq.get("force_screen_content_tools", 2), seq.get("force_integer_mv", 2)
    base = seq.get("time_base", {})
    want = {
        "seq_profile": seq["profile"], "still_picture": seq["still_picture"],
        "reduced_still_picture_header": seq["reduced_still_picture_hdr"],
        "timing_info_present_flag": seq.get("timing_info_present", False), "num_units_in_display_tick": base.get("num"),
        "time_scale": base.get("den"), "equal_picture_interval": 1, "num_ticks_per_picture_minus_1": 0,
        "decoder_model_info_present_flag": 0, "initial_display_delay_present_flag": 0, "operating_points_cnt_minus_1": 0,
        "operating_point_idc[0]": 0, "seq_level_idx[0]": seq["level_idx"], "seq_tier[0]": 0,
        "frame_width_bits_minus_1": max((frame["width"] - 1).bit_length(), 1) - 1,
        "frame_height_bits_minus_1": max((frame["height"] - 1).bit_length(), 1) - 1,
        "max_frame_width_minus_1": frame["width"] - 1, "max_frame_height_minus_1": frame["height"] - 1,
        "frame_id_numbers_present_flag": 0, "use_128x128_superblock": 0,
        "seq_choose_screen_content_tools": screen == 2, "seq_force_screen_content_tools": screen,
        "seq_choose_integer_mv": integer == 2, "seq_force_integer_mv": integer,
        "order_hint_bits_minus_1": seq.get("order_hint_bits_minus_1"), "enable_superres": 0,
        "high_bitdepth": depth > 8, "twelve_bit": depth == 12, "mono_chrome": sampling == k.CS400,
        "color_description_present_flag": colour is not None, "color_range": seq["pixel_range"],
        "subsampling_x": k.shifts(sampling)[0], "subsampling_y": k.shifts(sampling)[1],
        "chroma_sample_position": seq.get("chroma_sample_position", 0), "separate_uv_delta_q": 1,
        "film_grain_params_present": seq["film_grain_params_present"],
    }
    for name in ("enable_filter_intra", "enable_intra_edge_filter", "enable_cdef", "enable_restoration") + (
            ("enable_interintra_compound", "enable_masked_compound", "enable_warped_motion", "enable_dual_filter",
             "enable_order_hint", "enable_jnt_comp", "enable_ref_frame_mvs") if full else ()):
        want[name] = seq.get(name, False)
    if colour:
        want.update(zip(("color_primaries", "transfer_characteristics", "matrix_coefficients"), colour))
    return want


def frame_fields(unit, longest):
    seq, frame = unit["seq"], unit["frame"]
    mono = seq["chroma_sampling"] == k.CS400
    want = {
        "show_existing_frame": 0, "frame_type": 0, "show_frame": 1, "disable_cdf_update": frame.get("disable_cdf_update", False),
        "allow_screen_content_tools": frame["allow_screen_content_tools"], "force_integer_mv": 1,
        "frame_size_override_flag": frame.get("frame_size_override_flag", False), "order_hint": frame.get("order_hint"),
        "frame_width_minus_1": frame["width"] - 1, "frame_height_minus_1": frame["height"] - 1,
        "render_and_frame_size_different": frame.get("render_and_frame_size_different", False),
        "render_width_minus_1": frame.get("render_width", 0) - 1, "render_height_minus_1": frame.get("render_height", 0) - 1,
        "allow_intrabc": 0, "disable_frame_end_update_cdf": frame.get("disable_frame_end_update_cdf", True),
        "context_update_tile_id": frame["context_update_tile_id"], "tile_start_and_end_present_flag": 0,
        "tile_size_bytes_minus1": max((longest - 1).bit_length() - 1, 0) // 8, "base_q_idx": frame["base_q_idx"],
        "using_qmatrix": 0, "delta_q_present": 0, "reduced_tx_set": frame["use_reduced_tx_set"],
        "tx_mode": 2 if frame["tx_mode_select"] else 1,
    }
    want.update(tile_fields(frame))
    dc, ac = frame["dc_delta_q"], frame["ac_delta_q"]
    want["diff_uv_delta"] = (dc[1], ac[1]) != (dc[2], ac[2])
    for name, value in (("y_dc", dc[0]), ("u_dc", dc[1]), ("u_ac", ac[1]), ("v_dc", dc[2]), ("v_ac", ac[2])):
        want[f"delta_q_{name}.delta_coded"] = value != 0
        want[f"delta_q_{name}.delta_q"] = value
    want.update(filter_fields(seq, frame, mono))
    want.update(segment_fields(frame))
    want.update(grain_fields(seq, frame))
    return want


def tile_fields(frame):
    sb = [-(-frame[name] // 64) for name in ("width", "height")]
    tile = [frame.get("tile_width_sb", sb[0]), frame.get("tile_height_sb", sb[1])]
    counts = [-(-a // b) for a, b in zip(sb, tile)]
    logs = [log2(n) for n in counts]
    uniform = all(t == -(-s // (1 << n)) for t, s, n in zip(tile, sb, logs))
    want = {"uniform_tile_spacing_flag": uniform}
    if uniform:
        want.update(tile_cols_log2=logs[0], tile_rows_log2=logs[1])
    for name, s, t, count in zip(("width", "height"), sb, tile, counts):
        for i in range(count):
            want[f"{name}_in_sbs_minus_1[{i}]"] = min(t, s - i * t) - 1
    return want


def filter_fields(seq, frame, mono):
    deblock = frame["deblock"]
    want = {f"loop_filter_level[{i}]": level for i, level in enumerate(deblock["levels"])}
    want.update(loop_filter_sharpness=deblock["sharpness"], loop_filter_delta_enabled=deblock["deltas_enabled"],
                loop_filter_delta_update=deblock["delta_updates_enabled"])
    for name, kind, start in (("ref_deltas", "ref_delta", [1, 0, 0, 0, 0, -1, -1, -1]), ("mode_deltas", "mode_delta", [0, 0])):
        for i, value in enumerate(deblock[name]):
            want[f"update_{kind}[{i}]"] = value != start[i]
            want[f"loop_filter_{kind}s[{i}]"] = value
    want.update(cdef_damping_minus_3=frame["cdef_damping"] - 3, cdef_bits=frame["cdef_bits"])
    for plane in ("y", "uv"):
        for i, value in enumerate(frame[f"cdef_{plane}_strengths"]):
            want[f"cdef_{plane}_pri_strength[{i}]"] = value >> 2
            want[f"cdef_{plane}_sec_strength[{i}]"] = value & 3
    planes = frame.get("restoration", [{"lrf_type": 0, "unit_size": 64}] * 3)
    for i, plane in enumerate(planes):
        want[f"lr_type[{i}]"] = plane["lrf_type"]
    # ffmpeg tells both bits of the unit's size as one number
    want.update(lr_unit_shift=log2(planes[0]["unit_size"]) - 6, lr_uv_shift=planes[0]["unit_size"] > planes[1]["unit_size"])
    return want


def segment_fields(frame):
    found = frame.get("segmentation")
    want = {"segmentation_enabled": found is not None}
    for i in range(8 if found else 0):
        for j in range(8):
            want[f"feature_enabled[{i}][{j}]"] = found["features"][i][j]
            want[f"feature_value[{i}][{j}]"] = found["values"][i][j]
    return want


def grain_fields(seq, frame):
    grain = frame.get("film_grain")
    want = {"apply_grain": grain is not None}
    if grain is None:
        return want
    want.update(grain_seed=grain["random_seed"], chroma_scaling_from_luma=grain["chroma_scaling_from_luma"],
                grain_scaling_minus_8=grain["scaling_shift"] - 8, ar_coeff_lag=grain["ar_coeff_lag"],
                ar_coeff_shift_minus_6=grain["ar_coeff_shift"] - 6, grain_scale_shift=grain["grain_scale_shift"],
                overlap_flag=grain["overlap_flag"], clip_to_restricted_range=seq["pixel_range"] == 0)
    for plane in ("y", "cb", "cr"):
        points = grain[f"scaling_points_{plane}"]
        want[f"num_{plane}_points"] = len(points)
        for i, (value, scaling) in enumerate(points):
            want[f"point_{plane}_value[{i}]"], want[f"point_{plane}_scaling[{i}]"] = value, scaling
        for i, value in enumerate(grain[f"ar_coeffs_{plane}"]):
            want[f"ar_coeffs_{plane}_plus_128[{i}]"] = value + 128
    for name in ("cb_mult", "cb_luma_mult", "cb_offset", "cr_mult", "cr_luma_mult", "cr_offset"):
        want[name] = grain[name]
    return want


def metadata_fields(unit):
    """The fields of the metadata, one after the other: the same names may come twice."""
    want = []
    for entry in unit["metadata"]:
        if entry == "cll":
            want += [("metadata_type", 1)] + list(zip(("max_cll", "max_fall"), unit["seq"]["content_light"]))
        elif entry == "mdcv":
            display = unit["seq"]["mastering_display"]
            want.append(("metadata_type", 2))
            for i, (x, y) in enumerate(display["primaries"]):
                want += [(f"primary_chromaticity_x[{i}]", x), (f"primary_chromaticity_y[{i}]", y)]
            want += list(zip(("white_point_chromaticity_x", "white_point_chromaticity_y"), display["white_point"]))
            want += [("luminance_max", display["max_luminance"]), ("luminance_min", display["min_luminance"])]
        else:
            want += [("metadata_type", 4), ("itu_t_t35_country_code", entry["country_code"])]
            if entry["country_code"] == 255:
                want.append(("itu_t_t35_country_code_extension_byte", entry["country_code_extension_byte"]))
            want += [(f"itu_t_t35_payload_bytes[{i}]", b) for i, b in enumerate(entry["payload"])]
    return want


def headers(unit, obu, longest):
    """What ffmpeg reads of the headers against what the unit says: the numbers of fields that agree, and those that do not."""
    said = subprocess.run(["ffmpeg", "-v", "trace", "-f", "obu", "-i", obu, "-c", "copy", "-bsf:v", "trace_headers", "-f", "null", "-"],
                          capture_output=True, text=True).stderr
    # before the first packet ffmpeg tells the sequence header once more
    _, found, said = said.partition("Packet: ")
    if not found:
        return 0, ["ffmpeg finds no packet"]
    want = sequence_fields(unit["seq"], unit["frame"]) | frame_fields(unit, longest)
    metadata = metadata_fields(unit)
    good, bad = 0, []
    kinds = []
    for line in said.splitlines():
        found = FIELD.search(line)
        if not found or "trace_headers" not in line:
            continue
        name, value = found[2], int(found[4])
        if name == "obu_type":
            kinds.append(value)
        if FRAMING.match(name):
            continue
        if metadata and metadata[0][0] == name:
            wanted = metadata.pop(0)[1]
        else:
            wanted = want.get(name)
        if wanted is None or int(wanted) != value:
            bad.append(f"{name} is {value}, not {wanted}")
        else:
            good += 1
    bad += [f"{name} is not there" for name, _ in metadata]
    if kinds != [2, 1] + [5] * len(unit["metadata"]) + [6]:
        bad.append(f"the OBUs are {kinds}")
    return good, bad


def decoders(obu):
    """How each decoder is called, without film grain: it is laid over the picture, and the two do not always agree on it."""
    return (("dav1d", ["dav1d", "-q", "--filmgrain", "0", "-i", obu, "-o"]),
            ("aomdec", ["aomdec", "--skip-film-grain", "--rawvideo", obu, "-o"]))


def decode(name, command, file):
    file.unlink(missing_ok=True)
    ran = subprocess.run(command, capture_output=True, text=True)
    words = (ran.stdout + ran.stderr).strip()
    if ran.returncode or not file.exists():
        return None, f"{name} refuses it: {words}"
    if words:
        return None, f"{name} says: {words}"
    return hashlib.sha256(file.read_bytes()).hexdigest(), None


def write(unit, word, program):
    """The bytes of a unit, and the report's lines."""
    ran = subprocess.run(program, input=json.dumps(unit).encode(), capture_output=True)
    if ran.returncode:
        return None, ran.stderr.decode(errors="replace")
    if word == "raw":
        return ran.stdout, ran.stderr.decode()
    first, _, rest = ran.stdout.decode().partition("\n")
    return bytes.fromhex(first), rest


def main():
    count, first, folder, word, program = int(sys.argv[1]), int(sys.argv[2]), pathlib.Path(sys.argv[3]), sys.argv[4], sys.argv[5:]
    beyond = os.environ.get("BEYOND", "")
    tools = {name: shutil.which(name) for name in ("dav1d", "aomdec", "ffmpeg")}
    seen = collections.Counter()
    steps = collections.Counter()
    forms = collections.Counter()
    for seed in range(first, first + count):
        frame = random_frames.Frame(seed, beyond)
        unit = frame.unit()
        wrong = []
        data, report = write(unit, word, program)
        if data is None:
            print(f"frame {seed}: not written: {report.strip()[:200]}")
            (folder / f"{seed}.json").write_text(k.lines(unit))
            seen["not written"] += 1
            continue
        obu = folder / f"{seed}.obu"
        obu.write_bytes(data)
        sizes = [int(line.split()[2]) for line in report.splitlines() if line.startswith("tile ")]
        shown = {}
        for name, command in decoders(obu):
            if tools[name]:
                file = folder / f"{seed}.{name}.yuv"
                shown[name], fault = decode(name, [*command, file], file)
                if fault:
                    wrong.append(fault)
                file.unlink(missing_ok=True)
        if None not in shown.values() and len(set(shown.values())) > 1:
            wrong.append("dav1d and aomdec show different samples")
        if tools["ffmpeg"]:
            good, bad = headers(unit, obu, max(sizes[:-1], default=1))
            seen["fields"] += good
            wrong += bad
        seen["frames"] += 1
        seen["bytes"] += sum(sizes)
        seen["tiles"] += len(sizes)
        steps.update(item["op"] for script in unit["tiles"] for item in script)
        forms[f"{['4:2:0', '4:2:2', '4:4:4', '4:0:0'][frame.sampling]} in {frame.depth} bits"] += 1
        if wrong:
            seen["wrong"] += 1
            (folder / f"{seed}.json").write_text(k.lines(unit))
            for fault in wrong:
                print(f"frame {seed}: {fault}")
        else:
            obu.unlink()
    print(f"frames: {seen['frames']} written, {seen['frames'] - seen['wrong']} as told, {seen['wrong']} not"
          + (f", {seen['not written']} not written" if seen["not written"] else ""))
    print(f"tiles: {seen['tiles']}, of {seen['bytes']} bytes")
    print("forms: " + ", ".join(f"{n} {name}" for name, n in sorted(forms.items())))
    print("steps: " + ", ".join(f"{n} {name}" for name, n in sorted(steps.items())))
    if tools["ffmpeg"]:
        print(f"header fields: {seen['fields']} read by ffmpeg as the units say them")
    return 1 if seen["wrong"] or seen["not written"] else 0


if __name__ == "__main__":
    sys.exit(main())
