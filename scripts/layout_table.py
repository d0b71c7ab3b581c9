#!/usr/bin/env python3
"""The layout of a context as a Markdown table, from crates/av1_cdf/specs/Layout.antt.

Without an argument it prints the table. With `--check` it compares the table with the one in docs/UNIT_FORMAT.md, and
ends with status 1 where they differ.
"""
import pathlib
import re
import sys

ROOT = pathlib.Path(__file__).resolve().parent.parent
FIELD = re.compile(r'field \(codes "(\w+)"\) \(([^)]*)\) (\d+)')
COMPONENT_SIZE = 56


def fields(text, name):
    body = text[text.index(f"\n{name} ="):]
    body = body[: body.index("∷ []\n\n")]
    for field, dimensions, place in FIELD.findall(body):
        sizes = [int(n) for n in re.findall(r"\d+", dimensions)]
        yield field, sizes, int(place)


def rows():
    text = (ROOT / "crates/av1_cdf/specs/Layout.antt").read_text()
    yield from fields(text, "fields")
    yield from fields(text, "vector_fields")
    components = list(fields(text, "component_fields"))
    for number in range(2):
        for field, sizes, place in components:
            yield f"comps[{number}].{field}", sizes, place + number * COMPONENT_SIZE


def table():
    lines = ["| field | dimensions | places |", "|---|---|---|"]
    for field, sizes, place in rows():
        count = 1
        for size in sizes:
            count *= size
        shape = " x ".join(str(size) for size in sizes)
        lines.append(f"| `{field}` | {shape} | {place} to {place + count - 1} |")
    return "\n".join(lines) + "\n"


def main():
    if sys.argv[1:] != ["--check"]:
        print(table(), end="")
        return 0
    if table() in (ROOT / "docs/UNIT_FORMAT.md").read_text():
        print("docs/UNIT_FORMAT.md has the layout of specs/Layout.antt")
        return 0
    print("docs/UNIT_FORMAT.md has not the layout of specs/Layout.antt: run scripts/layout_table.py", file=sys.stderr)
    return 1


if __name__ == "__main__":
    sys.exit(main())
