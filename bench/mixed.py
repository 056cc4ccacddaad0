#!/usr/bin/env python3
"""Times scripts of mixed amendments: the built program settles after each, in districts that share no school.

    mixed.py [--students N] [--times N] [--instructions] [--folder FOLDER] [--program PATH]

A day in an office is mixed. Each line of the table is a script over one market of 200 districts, whose students stand together
in the roster: reranks alone and newcomers alone, a rerank and a newcomer in turn, a newcomer who withdraws at once, and reranks after
each district was joined to the next by one list and all these lists were taken back. What an amendment costs is the difference of
the least processor times of a run with the script and one with what comes before it, divided by the number of amendments. With
--instructions it is that of the instructions, which valgrind counts, so that other work on the machine does not tell.
"""
import argparse
import os
import random
import re
import subprocess
import sys
import tempfile

from amendments import CHOICES, DISTRICTS, PROGRAM, market, processor, rows

COUNT = 400


class Script:
    """Amendments with the stamps that stand by then."""

    def __init__(self, folder):
        self.lists = dict(rows(folder, "lists"))
        self.students = [row[0] for row in rows(folder, "roster")]
        self.schools = [row[0] for row in rows(folder, "schools")]
        self.source, self.stamps, self.lines, self.entered = random.Random(1), {}, [], 0

    def add(self, student, rest):
        self.lines.append(f"{self.stamps.get(student, 0)},{rest}")
        self.stamps[student] = len(self.lines)

    def rerank(self, student, choices):
        self.add(student, f"rerank,{student},{' '.join(choices)}")

    def rerank_any(self):
        student = self.source.choice(self.students)
        choices = self.lists[student].split(" ")
        self.source.shuffle(choices)
        self.rerank(student, choices)

    def enter(self):
        student = str(20_000_000 + self.entered)
        near = self.schools[self.entered % DISTRICTS :: DISTRICTS]
        self.entered += 1
        self.add(student, f"enter,{student},0,,{' '.join(self.source.sample(near, min(CHOICES, len(near))))}")
        return student

    def withdraw(self, student):
        self.add(student, f"withdraw,{student}")
        del self.stamps[student]

    def join_and_part(self):
        """One list joins each district to the next, and then each is again what it was."""
        first = self.students[:: len(self.students) // DISTRICTS][:DISTRICTS]
        for one, next_one in zip(first, first[1:]):
            self.rerank(one, [self.lists[one].split(" ")[0], self.lists[next_one].split(" ")[0]])
        for one in first[:-1]:
            self.rerank(one, self.lists[one].split(" "))


def reranks(script):
    for _ in range(COUNT):
        script.rerank_any()


def newcomers(script):
    for _ in range(COUNT):
        script.enter()


def in_turn(script):
    for _ in range(COUNT // 2):
        script.rerank_any()
        script.enter()


def in_and_out(script):
    for _ in range(COUNT // 2):
        script.withdraw(script.enter())


def instructions(words):
    """Thousands of instructions of a run."""
    ran = subprocess.run(["valgrind", "--tool=callgrind", "--callgrind-out-file=/dev/null", *words], stdout=subprocess.DEVNULL, stderr=subprocess.PIPE, text=True, check=True)
    return int(re.search(r"Collected : (\d+)", ran.stderr)[1]) / 1e3


def main():
    words = argparse.ArgumentParser(description=__doc__, formatter_class=argparse.RawDescriptionHelpFormatter)
    words.add_argument("--students", type=int, default=80_000)
    words.add_argument("--times", type=int, default=5)
    words.add_argument("--instructions", action="store_true")
    words.add_argument("--folder", default=os.path.join(tempfile.gettempdir(), "clearinghouse-amendments"))
    words.add_argument("--program", default=PROGRAM)
    given = words.parse_args()
    os.makedirs(given.folder, exist_ok=True)
    folder = market(given.folder, given.students, DISTRICTS, together=True)
    with open(os.path.join(folder, "seed")) as file:
        opening = ["--seed", file.read()]
    for file in ("schools", "roster", "lists"):
        opening += [f"--{file}", os.path.join(folder, f"{file}.csv")]
    path, journal = os.path.join(given.folder, "script"), os.path.join(given.folder, "journal")

    def run(lines):
        with open(path, "w") as file:
            file.write("".join(f"{line}\n" for line in lines))
        call = [given.program, "run", *opening, "--script", path, "--journal", journal, "--settle-each"]
        return instructions(call) if given.instructions else min(processor(call) for _ in range(given.times))

    unit = "thousands of instructions" if given.instructions else "ms"
    print(f"| {given.students:,} students in {DISTRICTS} districts | an amendment, {unit} |\n|---|---|")
    for name, before, after in (
        ("reranks", None, reranks),
        ("newcomers", None, newcomers),
        ("a rerank and a newcomer in turn", None, in_turn),
        ("a newcomer, who withdraws at once", None, in_and_out),
        ("reranks after joins that were taken back", Script.join_and_part, reranks),
    ):
        script = Script(folder)
        if before:
            before(script)
        first = list(script.lines)
        after(script)
        cost = (run(script.lines) - run(first)) / (len(script.lines) - len(first))
        print(f"| {name} | {cost:.{1 if given.instructions else 3}f} |", flush=True)


if __name__ == "__main__":
    sys.exit(main())
