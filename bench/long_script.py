#!/usr/bin/env python3
"""Times a long script of mixed amendments, settled once at the end and after each amendment.

    long_script.py [--students N] [--amendments N] [--districts N] [--folder FOLDER] [--program PATH]

The market is made by generate.py. The script has newcomers, withdrawals, new lists, corrections and seats more and less in turn, each
with the stamp that stands by then, so that all are accepted. It prints the processor time of `match`, of a run with an empty script, and of
the two runs with the script, whose output and journal have to be the same bytes.
"""
import argparse
import os
import random
import sys
import tempfile

sys.path.insert(0, os.path.dirname(os.path.abspath(__file__)))
from amendments import CHOICES, KINDS, PROGRAM, market, rows  # noqa: E402


def script_of(folder, count):
    """So many amendments of all kinds, each of another student, or of a random school."""
    source = random.Random("a long script")
    lists = dict(rows(folder, "lists"))
    students = source.sample(rows(folder, "roster"), count)
    schools = [row[0] for row in rows(folder, "schools")]
    stamps = {}
    for turn, (student, zone, siblings) in enumerate(students):
        kind = list(KINDS)[turn % len(KINDS)]
        choices = lists[student].split(" ")
        source.shuffle(choices)
        if kind == "newcomer":
            yield f"0,enter,{20_000_000 + turn},{zone},,{' '.join(choices[:CHOICES])}"
        elif "withdrawal" in kind:
            yield f"0,withdraw,{student}"
        elif kind == "rerank":
            yield f"0,rerank,{student},{' '.join(choices)}"
        elif kind == "correction":
            yield f"0,correct,{student},{(int(zone) + 1) % 20},{siblings}"
        else:
            school = source.choice(schools)
            yield f"{stamps.get(school, 0)},{'add' if kind == 'a seat more' else 'close'},{school},1"
            stamps[school] = turn + 1


def seconds(words, output):
    """Processor seconds of a run whose output goes to a file."""
    with open(output, "wb") as file:
        process = os.posix_spawn(words[0], words, os.environ, file_actions=[(os.POSIX_SPAWN_DUP2, file.fileno(), 1)])
    _, status, used = os.wait4(process, 0)
    if status != 0:
        sys.exit(f"{' '.join(words)} ended with {os.waitstatus_to_exitcode(status)}")
    return used.ru_utime + used.ru_stime


def bytes_of(path):
    with open(path, "rb") as file:
        return file.read()


def main():
    words = argparse.ArgumentParser(description=__doc__, formatter_class=argparse.RawDescriptionHelpFormatter)
    words.add_argument("--students", type=int, default=80_000)
    words.add_argument("--amendments", type=int, default=5_000)
    words.add_argument("--districts", type=int, default=1)
    words.add_argument("--folder", default=os.path.join(tempfile.gettempdir(), "clearinghouse-amendments"))
    words.add_argument("--program", default=PROGRAM)
    given = words.parse_args()
    os.makedirs(given.folder, exist_ok=True)
    folder = market(given.folder, given.students, given.districts)
    with open(os.path.join(folder, "seed")) as file:
        opening = ["--seed", file.read().strip()]
    for file in ("schools", "roster", "lists"):
        opening += [f"--{file}", os.path.join(folder, f"{file}.csv")]
    empty, script = os.path.join(given.folder, "empty"), os.path.join(given.folder, "long")
    open(empty, "w").close()
    with open(script, "w") as file:
        file.writelines(f"{line}\n" for line in script_of(folder, given.amendments))

    def told(name, *given_words):
        took = seconds([given.program, *given_words], os.path.join(given.folder, f"{name}.out"))
        print(f"{name}: {took:.2f} s", flush=True)

    def run(name, records, *flag):
        told(name, "run", *opening, "--script", records, "--journal", os.path.join(given.folder, f"{name}.journal"), *flag)

    told("match", "match", *opening)
    run("run of an empty script", empty)
    run("run settled at the end", script)
    run("run settled each time", script, "--settle-each")
    for kind in ("out", "journal"):
        at_end, each = (bytes_of(os.path.join(given.folder, f"run settled {when}.{kind}")) for when in ("at the end", "each time"))
        print(f"{kind}: {'the same' if at_end == each else 'DIFFERENT'}, {at_end.count(b',ok')} ok, {len(at_end)} bytes")
        if at_end != each:
            sys.exit(1)


if __name__ == "__main__":
    main()
