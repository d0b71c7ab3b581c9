#!/usr/bin/env python3
"""Random units, written by this program and by another one.

    compare_units.py PROGRAM ORACLE [COUNT [FIRST]]

PROGRAM is a built av1_write. ORACLE is a program with `gen SEED KIND`, which prints a random unit that breaks no rule, and
`write`, which answers a unit as PROGRAM does: rav1e's own calls behind a harness, for example. Steps and members that
docs/unit.schema.json does not name are left out of the units first, and both switches, which rav1e has not. Of each KIND (key, intra, inter, switch), and of
scripts/random_inter.py's own, COUNT units are tried, 100 where it is not said, from the seed FIRST on. A unit that PROGRAM refuses,
since a step that it wants was left out, is counted by its rule and not compared. Ends with status 1 where an answer differs; the
unit is left in differs.json.
"""
import collections
import json
import pathlib
import subprocess
import sys

import random_inter

SCHEMA = pathlib.Path(__file__).resolve().parent.parent / "docs/unit.schema.json"


def kinds(schema):
    """Each `op` that the schema names."""
    found = set()

    def walk(node):
        if isinstance(node, dict):
            op = node.get("properties", {}).get("op") if isinstance(node.get("properties"), dict) else None
            if isinstance(op, dict) and "const" in op:
                found.add(op["const"])
            for child in node.values():
                walk(child)
        elif isinstance(node, list):
            for child in node:
                walk(child)

    walk(schema)
    return found


def answer(program, text):
    run = subprocess.run([program, "write"], input=text.encode(), capture_output=True)
    return run.returncode, run.stdout.decode(), run.stderr.decode()


def made(oracle, kind, seed):
    if kind == "own":
        return random_inter.Frame(seed).unit()
    run = subprocess.run([oracle, "gen", str(seed), kind], capture_output=True)
    if run.returncode != 0:
        sys.exit(f"compare_units: {oracle} gen {seed} {kind} ends with status {run.returncode}")
    return json.loads(run.stdout)


def main():
    if len(sys.argv) not in (3, 4, 5):
        sys.exit(__doc__)
    program, oracle = sys.argv[1], sys.argv[2]
    count = int(sys.argv[3]) if len(sys.argv) > 3 else 100
    first = int(sys.argv[4]) if len(sys.argv) > 4 else 1
    schema = json.loads(SCHEMA.read_text())
    ops = kinds(schema)
    members = set(schema["properties"])
    same, steps, refused = 0, collections.Counter(), collections.Counter()
    for kind in ("key", "intra", "inter", "switch", "own"):
        for seed in range(first, first + count):
            unit = {name: value for name, value in made(oracle, kind, seed).items() if name in members}
            unit["tiles"] = [[item for item in tile if item["op"] in ops] for tile in unit["tiles"]]
            # another writer may know contexts that learn alone, and one class of the end, that of the whole size: as rav1e does
            unit.pop("eob_by_coded", None)
            unit["frame"].pop("disable_cdf_update", None)
            text = json.dumps(unit)
            got = answer(program, text)
            if got[0] == 6:
                refused[got[2].split()[-1]] += 1
                continue
            want = answer(oracle, text)
            if got[:2] != want[:2]:
                pathlib.Path("differs.json").write_text(text + "\n")
                sys.exit(f"compare_units: {kind} {seed} differs: wanted {want[:2]}, got {got}")
            same += 1
            steps.update(item["op"] for tile in unit["tiles"] for item in tile)
    print(f"compare_units: {same} units the same, 0 differ, {sum(refused.values())} refused {dict(refused)}")
    print("compare_units: " + ", ".join(f"{op} {number}" for op, number in sorted(steps.items())))


main()
