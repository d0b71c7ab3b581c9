#!/usr/bin/env python3
"""The examples as rows of a test.

    example_rows.py           writes crates/av1_write_tests/src/examples.rt
    example_rows.py --check   ends with status 1 where that file is not what the examples say

A row is a unit of examples/ without white space, its status, and what the program says, as the file NAME.out beside it has both.
The picture is too long for a row; `scripts/examples.sh` runs it with the others.
"""
import json
import pathlib
import sys

ROOT = pathlib.Path(__file__).resolve().parent.parent
FILE = ROOT / "crates/av1_write_tests/src/examples.rt"

HEAD = """// The units of `examples/`, with what `NAME.out` beside each has. `scripts/example_rows.py` writes this file.

/// Rows as those of `ROWS`.
pub const EXAMPLES: &str =
    r#\""""


def row(out):
    unit = json.loads(out.with_suffix(".json").read_text())
    status, told = out.read_text().split("\n", 1)
    text = json.dumps(unit, separators=(",", ":"))
    return "\n".join([text, status.removeprefix("status "), told.rstrip("\n")])


def main():
    if sys.argv[1:] not in ([], ["--check"]):
        sys.exit(__doc__)
    rows = [row(out) for out in sorted((ROOT / "examples").glob("*.out"))]
    text = HEAD + "\n\n".join(rows) + '"#;\n'
    if sys.argv[1:] == []:
        FILE.write_text(text)
    elif FILE.read_text() != text:
        sys.exit("example_rows: crates/av1_write_tests/src/examples.rt is not what the examples say")


main()
