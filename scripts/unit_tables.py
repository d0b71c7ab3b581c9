#!/usr/bin/env python3
"""The members of a unit, from the tables that the proofs speak of (crates/av1_input/specs).

    unit_tables.py              prints the tables as Markdown
    unit_tables.py --schema     prints the JSON Schema of the same, with what docs/UNIT_FORMAT.md says of each member
    unit_tables.py --check      compares both documents with the tables, and checks each unit of examples/ against the schema; ends
                                with status 1 where something differs
    unit_tables.py --fit FILE   says whether the unit of a file fits, or the path of the first place that does not
"""
import json
import pathlib
import re
import sys

ROOT = pathlib.Path(__file__).resolve().parent.parent
SPECS = ROOT / "crates/av1_input/specs"
GEOMETRY = ROOT / "crates/av1_geometry"
SCHEMA = ROOT / "docs/unit.schema.json"
FORMAT = ROOT / "docs/UNIT_FORMAT.md"


# ---- the definitions

def definitions():
    """Each definition by its name: its clauses, as (what stands before the sign of equality, what stands after it)."""
    found = {}
    for file in sorted(SPECS.glob("*.antt")):
        lines = [line for line in file.read_text().splitlines() if not line.lstrip().startswith("--")]
        for block in re.split(r"\n\s*\n", "\n".join(lines)):
            head = re.match(r"(?:abbrev |unfoldable )?pub (\w+) :", block)
            if not head:
                continue
            name = head[1]
            for clause in re.split(rf"\n(?={name}\b)", block)[1:]:
                left, _, right = clause.partition("=")
                found.setdefault(name, []).append((left.split()[1:], " ".join(right.split())))
    return found


DEFINITIONS = definitions()


def body(name):
    return DEFINITIONS[name][0][1]


def parts(text):
    """The words of a term: names, numbers, quoted texts, and whole brackets."""
    words, depth, word = [], 0, ""
    for c in text + " ":
        if c in "({":
            depth += 1
        if c in ")}":
            depth -= 1
        if c == " " and depth == 0:
            if word:
                words.append(word)
            word = ""
        else:
            word += c
    return words


def inside(word):
    return word[1:-1].strip() if word.startswith("(") and word.endswith(")") else word


def enum_of(function):
    """The values of an enum by their numbers, from the list that the code has of them."""
    for file in (GEOMETRY / "specs").glob("*.antt"):
        use = re.search(rf"^{function} number = slice_get (\w+) number", file.read_text(), re.M)
        if use:
            break
    for file in (GEOMETRY / "src").glob("*.rt"):
        values = re.search(rf"{use[1]}: \[\w+; [\w:]+\] = \[([^\]]*)\]", file.read_text())
        if values:
            return re.findall(r"(\w+)\s*(?:,|$)", values[1])
    raise SystemExit(f"unit_tables: no values of {function}")


def words_of(function):
    return re.findall(r'bytes_eq name \(codes "([^"]*)"\)', body(function))


def kind(text):
    """A kind as a tuple."""
    word, *rest = parts(inside(text))
    if word == "whole":
        return ("number", 0, min(2 ** int(rest[0]), 2 ** 63) - 1)
    if word == "signed":
        half = 2 ** (int(rest[0]) - 1)
        return ("number", -half, half - 1)
    if word == "truth":
        return ("truth",)
    if word == "choice":
        return ("enum", enum_of(rest[0]))
    if word == "word":
        return ("word", words_of(rest[0]))
    if word == "exactly":
        return ("list", int(rest[0]), int(rest[0]), kind(rest[1]))
    if word == "up_to":
        return ("list", 0, int(rest[0]), kind(rest[1]))
    if word == "list":
        return ("list", 0, None, kind(rest[0]))
    if word == "nullable":
        return ("nullable", kind(rest[0]))
    if word == "seen_as":
        return kind(rest[1])
    if word == "object_of":
        return ("object", rest[0], rows(rest[0]))
    if word == "record":
        return special(re.search(r"fit = (.*?)[ ;]*}", inside(rest[0]) + "}")[1])
    if rest:  # a function of one number
        parameter = DEFINITIONS[word][0][0][0]
        return kind(re.sub(rf"\b{parameter}\b", rest[0], body(word)))
    return kind(body(word))


def special(fit):
    """A kind that is said by its reading: two tables in a row, a text or another kind, kinds by their names, or null or one of two forms."""
    word, *rest = parts(fit)
    if word == "fit_then" and rest[0] == "op_rows":
        return ("item", item_kinds())
    if word == "fit_then":
        second = re.search(r"then_of (\w+)", body(rest[1]))[1]
        return ("object", rest[0], rows(rest[0]) + rows(second))
    names, other = DEFINITIONS[word]
    if names[0] == ["null"]:
        return ("nullable", forms(parts(other[1])[2]))
    return ("either", words_of(re.search(r"or_unfit \((\w+) name\)", names[1])[1]), kind(re.search(r"(\w+)\.fit", other[1])[1]))


def forms(choice):
    """An object of one form where it has a member, else of another."""
    member, *tables = re.search(r'get_member \(codes "(\w+)"\) ms\) then then_of (\w+) .* else then_of (\w+)', body(choice)).groups()
    return ("forms", member, [("object", name, rows(name)) for name in tables])


def item_kinds():
    found = []
    table, more = "", "item_kinds"
    while more in DEFINITIONS:
        table += body(more)
        more = body(more).split()[-1]
    for name, how in re.findall(r'\(codes "(\w+)", ([^)]*)\)', table):
        words = parts(how)
        found.append((name, rows(words[1]) if words[0] == "made_of" else []))
    return found


def rows(name):
    """The rows of a table: (name, kind, default or None where the member must be there)."""
    found = []
    text = body(name)
    if "++" in text:
        for part in re.findall(r"\w+", text):
            found += rows(part)
        return found
    for row in text.split("∷"):
        words = parts(row)
        if len(words) < 3:
            continue
        how, member = words[0], re.search(r'"([^"]*)"', words[1])[1]
        member_kind = kind(words[2])
        if how == "required":
            found.append((member, member_kind, None))
        elif how == "optional":
            found.append((member, member_kind, default_text(member_kind)))
        elif how == "or":
            found.append((member, member_kind, words[3]))
        else:
            found.append((member, member_kind, BY_OTHERS[inside(words[3]).split(". ", 1)[1]]))
    return found


# defaults that rest on the members before
BY_OTHERS = {
    "div_ceil fi.width 64": "the frame's width in superblocks",
    "div_ceil fi.height 64": "the frame's height in superblocks",
    "fi.width": "`width`",
    "fi.height": "`height`",
}


def unit():
    return ("object", "unit_rows", rows("unit_rows"))


# ---- as Markdown

def default_text(k):
    if k[0] in ("number", "enum"):
        return "0"
    if k[0] == "truth":
        return "false"
    if k[0] in ("word", "either"):
        return f'"{k[1][0]}"'
    if k[0] == "nullable":
        return "null"
    if k[0] == "list":
        return "[]" if k[1] == 0 else "each its default" if k[3][0] in ("object", "nullable") else "zeros" if innermost(k) != "truth" else "all false"
    return "{}"


def innermost(k):
    return innermost(k[3]) if k[0] == "list" else k[0]


def value_text(k):
    if k[0] == "number":
        return f"{k[1]} to {power(k[2])}"
    if k[0] == "truth":
        return "true or false"
    if k[0] == "enum":
        return ", ".join(f"{i} {name}" for i, name in enumerate(k[1])) if len(k[1]) < 8 else f"0 to {len(k[1]) - 1}"
    if k[0] == "word":
        return " or ".join(f'"{w}"' for w in k[1])
    if k[0] == "either":
        return ", ".join(f'"{w}"' for w in k[1]) + " or " + value_text(k[2])
    if k[0] == "nullable":
        return "null or " + value_text(k[1])
    if k[0] == "list":
        size = "a list of" if k[2] is None else f"a list of {k[1]}:" if k[1] else f"a list of at most {k[2]}:"
        return f"{size} {value_text(k[3])}"
    if k[0] == "item":
        return "[items](#items)"
    if k[0] == "forms":
        return " or ".join(value_text(form) for form in k[2])
    name = re.sub(r"_rows$", "", k[1])
    return f"[{TITLES[name]}](#{TITLES[name].lower().replace(' ', '-').replace('`', '')})"


def power(n):
    return f"2^{(n + 1).bit_length() - 1} - 1" if n >= 2 ** 31 else str(n)


# what the schema calls the objects
NAMES = {
    "sequence": "seq", "rational": "time_base", "mastering": "mastering_display", "invariant": "frame", "grain": "film_grain",
    "segmentation": "segmentation", "deblock": "deblock", "plane": "restoration_plane", "ref": "reference", "message": "message",
    "wiener": "wiener_filter", "guided": "guided_filter",
}
TITLES = {
    "unit": "The unit", "sequence": "`seq`", "rational": "`time_base`", "mastering": "`mastering_display`", "invariant": "`frame`",
    "grain": "`film_grain`", "segmentation": "`segmentation`", "deblock": "`deblock`", "plane": "A plane of `restoration`",
    "ref": "A reference", "message": "A message", "wiener": "A Wiener filter", "guided": "A self-guided filter",
}


def objects(k, seen):
    """All kinds of object, outermost first."""
    if k[0] == "object" and k[1] not in [name for name, _ in seen]:
        seen.append((k[1], k[2]))
        for _, member, _ in k[2]:
            objects(member, seen)
    elif k[0] in ("list", "nullable", "either"):
        objects(k[-1], seen)
    elif k[0] == "item":
        for _, members in k[1]:
            for _, member, _ in members:
                objects(member, seen)
    elif k[0] == "forms":
        for form in k[2]:
            objects(form, seen)
    return seen


def tables():
    """Each object's title, and its rows as (member, value, default)."""
    for name, members in objects(unit(), []):
        title = TITLES[re.sub(r"_rows$", "", name)]
        yield title, [(f"`{m}`", value_text(k), "must be there" if d is None else d) for m, k, d in members]


def items():
    tiles = [k for m, k, _ in unit()[2] if m == "tiles"][0]
    return tiles[3][3][1]


# ---- as a schema

def plain(text):
    """A cell of the document without its marks."""
    return re.sub(r"\[([^\]]*)\]\([^)]*\)", r"\1", text).replace("`", "")


def default_value(k):
    if k[0] in ("number", "enum"):
        return 0
    if k[0] == "truth":
        return False
    if k[0] in ("word", "either"):
        return k[1][0]
    if k[0] == "nullable":
        return None
    return [default_value(k[3])] * k[1] if k[0] == "list" else {}


def schema_of(k):
    if k[0] == "number":
        return {"type": "integer", "minimum": k[1], "maximum": k[2]}
    if k[0] == "truth":
        return {"type": "boolean"}
    if k[0] == "enum":
        return {"type": "integer", "minimum": 0, "maximum": len(k[1]) - 1}
    if k[0] == "word":
        return {"enum": list(k[1])}
    if k[0] == "either":
        return {"oneOf": [{"enum": list(k[1])}, schema_of(k[2])]}
    if k[0] == "nullable":
        return {"oneOf": [{"type": "null"}, schema_of(k[1])]}
    if k[0] == "list":
        size = {} if k[2] is None else {"minItems": k[1], "maxItems": k[2]}
        return {"type": "array", **size, "items": schema_of(k[3])}
    if k[0] == "item":
        return {"$ref": "#/$defs/item"}
    if k[0] == "forms":
        return {"oneOf": [schema_of(form) for form in k[2]]}
    return {"$ref": "#/$defs/" + NAMES[re.sub(r"_rows$", "", k[1])]}


def default_of(k, default):
    """The default of a member as JSON, where it does not rest on other members."""
    if default in BY_OTHERS.values() or default is None:
        return {}
    return {"default": default_value(k) if default == default_text(k) else json.loads(default)}


def object_schema(members, meanings, first=()):
    properties = dict(first)
    for name, k, default in members:
        said = {"description": plain(meanings[name])} if meanings.get(name) else {}
        properties[name] = {**schema_of(k), **default_of(k, default), **said}
    required = list(dict(first)) + [name for name, _, default in members if default is None]
    return {"type": "object", **({"required": required} if required else {}), "additionalProperties": False, "properties": properties}


def schema():
    told = told_tables()
    made = {}
    for name, members in objects(unit(), []):
        name = re.sub(r"_rows$", "", name)
        meanings = {plain(row[0]): row[3] for row in told.get(TITLES[name], []) if len(row) > 3}
        made[NAMES.get(name, name)] = object_schema(members, meanings)
    whole = made.pop("unit")
    made["item"] = {"oneOf": [object_schema(members, {}, [("op", {"const": op})]) for op, members in items()]}
    return {"$schema": "https://json-schema.org/draft/2020-12/schema", "title": "A unit for av1_write", **whole, "$defs": made}


def printed(value, indent=""):
    """JSON in lines of at most 150 characters, where that can be."""
    line = json.dumps(value, ensure_ascii=False)
    if len(indent) + len(line) <= 150 or not isinstance(value, (dict, list)):
        return line
    more = indent + "  "
    if isinstance(value, dict):
        lines = [f"{more}{json.dumps(key)}: {printed(one, more)}" for key, one in value.items()]
        return "{\n" + ",\n".join(lines) + f"\n{indent}}}"
    return "[\n" + ",\n".join(more + printed(one, more) for one in value) + f"\n{indent}]"


# ---- whether a unit fits

class Unfit(Exception):
    pass


class Number(str):
    """A number as it is written."""


def step(name):
    return "/" + name.replace("~", "~0").replace("/", "~1")


def check(k, value, path):
    ok = True
    if k[0] in ("number", "enum"):
        low, high = (k[1], k[2]) if k[0] == "number" else (0, len(k[1]) - 1)
        ok = isinstance(value, Number) and re.fullmatch(r"0|-?[1-9][0-9]*", value) and low <= int(value) <= high
    elif k[0] == "truth":
        ok = isinstance(value, bool)
    elif k[0] == "word":
        ok = value in k[1] and not isinstance(value, Number)
    elif k[0] == "either":
        if isinstance(value, str) and not isinstance(value, Number):
            ok = value in k[1]
        else:
            check(k[2], value, path)
    elif k[0] == "nullable":
        if value is not None:
            check(k[1], value, path)
    elif k[0] == "forms":
        check(k[2][0] if isinstance(value, dict) and k[1] in value else k[2][1], value, path)
    elif k[0] == "list":
        ok = isinstance(value, list) and k[1] <= len(value) and (k[2] is None or len(value) <= k[2])
        if ok:
            for i, one in enumerate(value):
                check(k[3], one, f"{path}/{i}")
    elif k[0] == "item":
        ok = isinstance(value, dict)
        if ok:
            of_kind = {op: members for op, members in k[1]}.get(value.get("op") if isinstance(value.get("op"), str) else None)
            if of_kind is None or isinstance(value["op"], Number):
                raise Unfit(path + "/op")
            members_fit(of_kind, {name: v for name, v in value.items() if name != "op"}, path)
    else:
        ok = isinstance(value, dict)
        if ok:
            members_fit(k[2], dict(value), path)
    if not ok:
        raise Unfit(path)


def members_fit(members, left, path):
    for name, k, default in members:
        if name in left:
            check(k, left.pop(name), path + step(name))
        elif default is None:
            raise Unfit(path + step(name))
    if left:
        raise Unfit(path + step(min(left, key=lambda name: name.encode())))


def fit(text):
    try:
        check(unit(), json.loads(text, parse_int=Number, parse_float=Number), "")
    except json.JSONDecodeError:
        return "bad text"
    except Unfit as e:
        return f"bad shape at {e.args[0]}"
    return "fits"


# ---- the documents

def told_tables():
    """The tables of docs/UNIT_FORMAT.md that begin with `member`, by the heading above them."""
    found, title, reading = {}, "", False
    for line in FORMAT.read_text().splitlines():
        if line.startswith("#"):
            title = line.lstrip("# ")
        cells = [cell.strip() for cell in line.strip("|").split("|")] if line.startswith("|") else []
        if cells[:3] == ["member", "value", "default"]:
            reading = True
            found.setdefault(title, [])
        elif not cells:
            reading = False
        elif reading and not set(line) <= set("|- "):
            found[title].append(tuple(cells))
    return found


def told_items():
    found = []
    for line in FORMAT.read_text().splitlines():
        row = re.match(r'\| `"(\w+)"` \| (.*?) \|', line)
        if row:
            found.append((row[1], [] if row[2] == "none" else re.findall(r"`(\w+)`", row[2])))
    return found


def differences():
    told = told_tables()
    for title, wanted in tables():
        have = [row[:3] for row in told.get(title, [])]
        for row in wanted:
            if row not in have:
                yield f"docs/UNIT_FORMAT.md, {title}: wanted | {' | '.join(row)} |"
        for row in have:
            if row not in wanted:
                yield f"docs/UNIT_FORMAT.md, {title}: no such row: | {' | '.join(row)} |"
        if sorted(have) == sorted(wanted) and have != wanted:
            yield f"docs/UNIT_FORMAT.md, {title}: the rows stand in another order"
    wanted_items = [(op, [name for name, _, _ in members]) for op, members in items()]
    if told_items() != wanted_items:
        yield f"docs/UNIT_FORMAT.md, items: wanted {wanted_items}, found {told_items()}"
    if SCHEMA.read_text() != printed(schema()) + "\n":
        yield "docs/unit.schema.json: not the schema of the tables and of what docs/UNIT_FORMAT.md says of them (`--schema` prints it)"
    yield from of_examples(schema())


def of_examples(of_tables):
    try:
        import jsonschema
        validator = jsonschema.Draft202012Validator(of_tables)
    except ImportError:
        validator = None
    for wanted in sorted((ROOT / "examples").glob("*.out")):
        text = wanted.with_suffix(".json").read_text()
        answer = wanted.read_text()
        unfit = "bad shape at" in answer or "bad text" in answer
        if (fit(text) != "fits") != unfit:
            yield f"examples/{wanted.stem}.json: by the tables it {fit(text)}"
        if validator and not unfit and not validator.is_valid(json.loads(text)):
            yield f"examples/{wanted.stem}.json: by the schema it does not fit"


def main():
    if sys.argv[1:] == []:
        for title, members in tables():
            print(f"\n### {title}\n\n| member | value | default |\n|---|---|---|")
            for row in members:
                print("| " + " | ".join(row) + " |")
        print("\n### Items\n\n| `op` | members |\n|---|---|")
        for op, members in items():
            print(f'| `"{op}"` | ' + (", ".join(f"`{name}`: {value_text(k)}" for name, k, _ in members) or "none") + " |")
    elif sys.argv[1:] == ["--schema"]:
        print(printed(schema()))
    elif sys.argv[1:] == ["--check"]:
        found = list(differences())
        for line in found:
            print(f"unit_tables: {line}")
        print(f"unit_tables: {len(found)} differences")
        sys.exit(1 if found else 0)
    elif len(sys.argv) == 3 and sys.argv[1] == "--fit":
        print(fit(pathlib.Path(sys.argv[2]).read_text()))
    else:
        sys.exit(__doc__)


main()
