"""Compares the tables and constants of two folders of Rust-like files: compare_tables.py RAV1E CRATE."""
import re
import sys
from pathlib import Path

TABLES = [
    "partition_context_lookup",
    "size_group_lookup",
    "num_tx_set",
    "av1_tx_used",
    "av1_tx_ind",
    "max_txsize_rect_lookup",
    "sub_tx_size_map",
    "seg_feature_bits",
    "seg_feature_is_signed",
    "tx_type_to_class",
    "eob_to_pos_small",
    "eob_to_pos_large",
    "k_eob_group_start",
    "k_eob_offset_bits",
    "av1_nz_map_ctx_offset",
    "nz_map_ctx_offset_1d",
]
# of rav1e's files that are not at hand
BESIDE = {"MAX_TILE_WIDTH": 4096, "TxSize::TX_SIZES": 5, "TxSize::TX_8X8": 1, "TxSize::TX_4X4": 0}
ITEM = re.compile(r"^ *(?:pub(?:\([^)]*\))? )?(?:const|static) (\w+)\s*:\s*[^=,]*?=\s*(.*?);\s*$", re.S | re.M)


def items(folder):
    """The text of each constant and static of a folder's files, by name."""
    found = {}
    for path in sorted(Path(folder).rglob("*")):
        if path.suffix not in (".rt", ".txt", ".rs"):
            continue
        text = re.sub(r"/\*.*?\*/", "", path.read_text(), flags=re.S)
        text = re.sub(r"//[^\n]*", "", text)
        for name, value in ITEM.findall(text):
            found.setdefault(name, value)
    return found


def number(text, found, depth=0):
    """The value of a constant expression, or its text where it is none."""
    if depth > 20:
        return text

    def name(match):
        word = match.group(0)
        if word in BESIDE:
            return str(BESIDE[word])
        if word in found:
            return "(" + str(number(found[word], found, depth + 1)) + ")"
        return word

    text = re.sub(r"\bas\s+\w+", "", text.strip())
    text = re.sub(r"[A-Za-z_]\w*(?:::\w+)*", name, text)
    if not re.fullmatch(r"[\d\s()+*/<>%-]+", text):
        return " ".join(text.split())
    return eval(" ".join(text.split()).replace("/", "//"))


def entries(text, found):
    """The numbers and names of a table, in order."""
    return [str(number(word, found)) for word in re.findall(r"-?\w+(?:::\w+)*", text)]


def main(rav1e, crate):
    theirs, ours = items(rav1e), items(crate)
    wrong, compared = [], 0
    for name in TABLES:
        if name not in theirs or name not in ours:
            wrong.append(f"{name}: missing")
            continue
        left, right = entries(theirs[name], theirs), entries(ours[name], ours)
        compared += len(left)
        if len(left) != len(right):
            wrong.append(f"{name}: {len(left)} numbers there, {len(right)} here")
        wrong += [f"{name}[{i}]: {a} there, {b} here" for i, (a, b) in enumerate(zip(left, right)) if a != b]
    names = [name for name in theirs if name in ours and name.isupper() and name not in TABLES]
    for name in names:
        compared += 1
        left, right = number(theirs[name], theirs), number(ours[name], ours)
        if left != right:
            wrong.append(f"{name}: {left} there, {right} here")
    for line in wrong:
        print("compare_tables:", line)
    print(f"compare_tables: {len(TABLES)} tables and {len(names)} constants, {compared} numbers, {len(wrong)} differ")
    return 1 if wrong else 0


if __name__ == "__main__":
    sys.exit(main(sys.argv[1], sys.argv[2]))
