"""Compares an encoder's answers with rav1e's: compare_ec.py ORACLE_BIN PROGRAM SCRIPTS LINES.

ORACLE_BIN has `ec_gen`, which makes random scripts, and `ec_oracle`, which answers them by rav1e's coder. PROGRAM is the
folder of the crate that answers them by ours. Each script ends with `done`, after which both begin afresh.
"""
import subprocess
import sys
from pathlib import Path

# the lines that the program knows
CALLS = {
    "symbol", "bool", "bit", "literal", "golomb", "quniform", "subexp", "unsigned_subexp", "signed_subexp",
    "bits_frac", "checkpoint", "restore", "rollback", "keep", "done",
    "tell", "tell_frac", "stream_bits", "range", "symbol_bits",
    "count_quniform", "count_subexp", "count_unsigned_subexp", "count_signed_subexp",
}


def output(command, text, folder=None):
    """What a command writes for this input."""
    run = subprocess.run(command, input=text, capture_output=True, text=True, cwd=folder)
    if run.returncode != 0:
        sys.exit(f"compare_ec: {command[0]} ended with {run.returncode}: {run.stderr[-2000:]}")
    return run.stdout


def script(generator, seed, lines):
    """A random script's lines that the program knows."""
    text = output([str(generator), str(seed), str(lines)], "")
    return [line for line in text.splitlines() if line.split()[0] in CALLS]


def main(oracle, program, scripts, lines):
    played = [script(oracle / "ec_gen", seed, lines) for seed in range(1, scripts + 1)]
    text = "".join(line + "\n" for one in played for line in one)
    # the oracle answers for an encoder, a counter and a recorder, and replays the last
    theirs = [line.split()[:2] for line in output([str(oracle / "ec_oracle")], text).splitlines()]
    theirs = [answer for answer in theirs if answer[0] != "replayed"]
    ours = [line.split() for line in output(["rt", "run"], text, program).splitlines()]
    ours = [answer for answer in ours if answer and answer[0] in CALLS]
    wrong = [f"answer {i}: {' '.join(a)} there, {' '.join(b)} here" for i, (a, b) in enumerate(zip(theirs, ours)) if a != b]
    if len(theirs) != len(ours):
        wrong.append(f"{len(theirs)} answers there, {len(ours)} here")
    for line in wrong[:20]:
        print("compare_ec:", line)
    print(f"compare_ec: {scripts} scripts, {sum(map(len, played))} lines, {len(theirs)} answers, {len(wrong)} differ")
    return 1 if wrong else 0


if __name__ == "__main__":
    sys.exit(main(Path(sys.argv[1]), Path(sys.argv[2]), int(sys.argv[3]), int(sys.argv[4])))
