#!/usr/bin/env python3
"""Tells for which clauses the prover refuses a must-fail edit, with the edited functions' written answers and without.

  python3 checks/open_clauses.py CRATE/NAME ..          edits of checks/edits/ or crates/CRATE/must-fail/
  python3 checks/open_clauses.py --room FOLDER ..       in a copy of the repository that is there already

An edit that is refused only because a written answer no longer fits the code says little of the contract. So each
is tried twice, on a copy of the repository: as it stands, and with the proof folders of the functions that it leaves
unproved set aside. It prints the goals that are open then: these are what the contract asks of the edited body.
The status is 0 where each edit leaves a clause open without its answers, and else 1.
"""
import pathlib
import re
import shutil
import subprocess
import sys
import tempfile

ROOT = pathlib.Path(__file__).resolve().parent.parent
UNPROVED = re.compile(r"^(?:fn|impl) (\S+): (?:not proved|no proof: expected)", re.M)
OPEN = re.compile(r"^note: `(\S+)` of (\S+) must prove: (.*)$", re.M)
UNTOLD = re.compile(r"^note: (\S+:\d+:\d+): it is not proved that .*\(`([^`]+)`\)", re.M)
REFUSED = re.compile(r"^\S*proofs/\S+: error: `(\S+)`", re.M)


def pairs_of(edit):
    """Yields the file, the old text and the new one of each pair of an edit."""
    name = old = None
    for line in edit.read_text(encoding="utf-8").split("\n"):
        if line.startswith("file: "):
            name = line[len("file: ") :].strip()
        elif line.startswith("old: "):
            old = line[len("old: ") :]
        elif line.startswith("new:"):
            yield name, old, re.sub(r"\A ", "", line[len("new:") :])


def apply(edit, folder):
    """Applies an edit to a crate's folder, and returns the texts that stood there before."""
    before = {}
    for name, old, new in pairs_of(edit):
        path = folder / name
        text = path.read_text(encoding="utf-8")
        before.setdefault(path, text)
        if text.count(old) != 1:
            raise SystemExit(f"{edit}: an 'old:' text stands in {name} {text.count(old)} times")
        path.write_text(text.replace(old, new), encoding="utf-8")
    return before


def check(folder):
    ran = subprocess.run(["rt", "check", "--allow-holes"], cwd=folder, stdout=subprocess.PIPE, stderr=subprocess.STDOUT, text=True, errors="replace")
    return ran.stdout


def proofs_of(folder, function):
    """The proof folder of a function, where it has one: proofs/ and the path of the function without its crate."""
    parts = function.split("::")[1:]
    for start in range(len(parts)):
        found = folder / "proofs" / "/".join(parts[start:])
        if found.is_dir() and any(found.glob("*.antt")):
            return found
    found = folder / "proofs" / "/".join(parts)
    return found if found.is_dir() else None


def try_edit(room, edit, crate):
    """Tries an edit twice, and returns whether a clause is left open without the answers."""
    folder = room / "crates" / crate
    label = f"{crate}/{edit.stem}"
    before = apply(edit, folder)
    aside = pathlib.Path(tempfile.mkdtemp(prefix="answers-"))
    moved = []
    try:
        said = check(folder)
        functions = sorted(set(UNPROVED.findall(said)))
        answers = sorted(set(REFUSED.findall(said)))
        first = sorted({name for name, _, _ in OPEN.findall(said)} | {name for _, name in UNTOLD.findall(said)})
        print(f"{label}: unproved: {', '.join(functions) or 'NONE'}; open as it stands: {', '.join(first) or '-'}; answers that no longer fit: {', '.join(answers) or '-'}", flush=True)
        if not functions:
            print("\n".join(it for it in said.split("\n") if "error" in it)[:2000])
            return False
        for function in functions:
            found = proofs_of(folder, function)
            if found:
                kept = aside / str(len(moved))
                shutil.move(found, kept)
                moved.append((found, kept))
        if moved:
            said = check(folder)
        found = {name: goal for name, _, goal in OPEN.findall(said)}
        found |= {name: f"at {place}" for place, name in UNTOLD.findall(said) if name not in found}
        for name, goal in found.items():
            print(f"{label}: open without answers: {name}: {goal[:300]}", flush=True)
        return bool(found)
    finally:
        for found, kept in moved:
            shutil.rmtree(found, ignore_errors=True)
            shutil.move(kept, found)
        for path, text in before.items():
            path.write_text(text, encoding="utf-8")
        shutil.rmtree(aside, ignore_errors=True)


def main(words):
    room = None
    if words[:1] == ["--room"]:
        room, words = pathlib.Path(words[1]), words[2:]
    if not words:
        print(__doc__)
        return 2
    made = None
    if room is None:
        made = tempfile.TemporaryDirectory(prefix="open-clauses-")
        room = pathlib.Path(made.name) / "copy"
        shutil.copytree(ROOT, room, ignore=lambda folder, names: [it for it in names if it == ".git"])
    is_well = True
    for word in words:
        crate, name = word.removesuffix(".edit").split("/")
        places = [ROOT / "crates" / crate / "must-fail" / f"{name}.edit", ROOT / "checks" / "edits" / crate / f"{name}.edit"]
        edit = next((it for it in places if it.is_file()), None)
        if edit is None:
            print(f"{word}: there is no such edit")
            is_well = False
            continue
        is_well = try_edit(room, edit, crate) and is_well
    if made:
        made.cleanup()
    return 0 if is_well else 1


if __name__ == "__main__":
    sys.exit(main(sys.argv[1:]))
