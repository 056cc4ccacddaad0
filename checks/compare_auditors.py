#!/usr/bin/env python3
"""Compares `tools/audit.py` with the built program on random markets, logs and reports.

    compare_auditors.py SEED CASES [--program PATH]

The inputs are made as `compare.py` makes them: logs that are right, or with a change; reports that are right, or with a
change. Both have to say the same of each, `audit` of the program with `--report` where there is one, and to end with the
same status. The last lines count the cases by verdict, and the differences; the status is 1 where there is one.
"""
import argparse
import collections
import os
import pathlib
import random
import subprocess
import sys
import tempfile

sys.path.insert(0, str(pathlib.Path(__file__).resolve().parent))
import compare  # noqa: E402
import reference  # noqa: E402

AUDITOR = compare.HERE / "tools/audit.py"
FILES = ["schools", "roster", "lists"]
KEY = bytes(32)


def make_case(seed, at):
    """The texts of a market, of a log and, in half of the cases, of a report: mostly right, some with a change."""
    rng = random.Random(f"{seed}:{at}:audit")
    rows, roster, lists = compare.market(rng)
    untidy = rng.random() < 0.2
    texts = {"schools": compare.rendered(rng, ["school", "zone", "seats"], [list(row) for row in rows], untidy),
             "roster": compare.rendered(rng, compare.roster_header(rng, roster), roster, untidy),
             "lists": compare.rendered(rng, ["student", "choices"], [list(row) for row in lists], untidy)}
    try:
        texts["log"] = reference.call_match(KEY, *(texts[name] for name in FILES), print_log=True)[0]
        report = reference.call_match(KEY, *(texts[name] for name in FILES))[0]
    except reference.Stop:
        texts["log"], report = b"1,1\n", b""
    if rng.random() < 0.5:
        texts["report"] = compare.changed(rng, report) if rng.random() < 0.6 else report
    if rng.random() < (0.3 if "report" in texts else 0.7):
        texts["log"] = compare.changed(rng, texts["log"])
    if rng.random() < 0.1:
        name = rng.choice(FILES)
        texts[name] = compare.changed(rng, texts[name])
    return texts


def ended(command, folder, names):
    words = [*command, "--seed", "0" * 64]
    for name in names:
        words += [f"--{name}", name]
    done = subprocess.run(words, stdin=subprocess.DEVNULL, capture_output=True, cwd=folder)
    return done.stdout, done.returncode


def main():
    parser = argparse.ArgumentParser(description=__doc__.split("\n")[0])
    parser.add_argument("seed")
    parser.add_argument("cases", type=int)
    parser.add_argument("--program", default=str(compare.BUILT))
    given = parser.parse_args()
    program, counts, differences = os.path.abspath(given.program), collections.Counter(), 0
    with tempfile.TemporaryDirectory() as name:
        folder = pathlib.Path(name)
        for at in range(given.cases):
            texts = make_case(given.seed, at)
            for each, text in texts.items():
                (folder / each).write_bytes(text)
            one, other = ended([program, "audit"], folder, texts), ended([sys.executable, str(AUDITOR)], folder, texts)
            said = one[0].decode().rstrip("0123456789\n").strip() or f"status {one[1]}"
            counts[said] += 1
            if one != other:
                differences += 1
                print(f"case {at}: the program ends with {one}, the auditor with {other}: {texts}")
    print(", ".join(f"{said} {count}" for said, count in sorted(counts.items())))
    print(f"{given.cases} cases, {differences} differences")
    return 1 if differences else 0


if __name__ == "__main__":
    sys.exit(main())
