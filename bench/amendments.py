#!/usr/bin/env python3
"""Times amendments by kind: the built program runs a script of one kind of amendment after an opening, and settles after each.

    amendments.py [--students N,N,..] [--times N] [--folder FOLDER] [--program PATH] [--large]

Each market is made four times by generate.py: as one city whose students' lists connect all schools, as 200 districts that
share none, whose students stand among each other in the roster, as these with the students of each district together, and as a
market that is one such district alone. The district alone gets as many amendments as each district of the others does, so that its
seats run short as theirs do. A run with the script is timed beside one with an empty script; the difference of the least processor
times, divided by the number of amendments, is what one costs. So the opening and the report do not count. The last column is the run
with the empty script, whole. Each run is made `--times` times, and that of a district alone forty times as often.

Then come markets of few large schools, where a ledger is long: ten and sixty schools of 80,000 students, and one school of 5,000 seats
and 200,000 students, with each figure over a `match` of the same market; and twenty schools of a fortieth of the students each, which all
list them alike, of which the seats of the first school change four times. `--large` times these alone.
"""
import argparse
import os
import random
import subprocess
import sys
import tempfile

HERE = os.path.dirname(os.path.abspath(__file__))
PROGRAM = os.path.join(HERE, "..", "crates", "clearinghouse", "out", "clearinghouse")
SCHOOLS = {20_000: 200, 80_000: 700, 200_000: 2_000}
CHOICES = 12
DISTRICTS = 200
MOST_STUDENTS = 200_000  # A roster has no room for more, so that newcomers to so many would be refused.
IN_DISTRICTS = 4_000  # Amendments behind a figure of districts: for each of them 20.
LARGE = ((80_000, 10, 6), (80_000, 60, 6), (200_000, 1, 1))  # Students, schools, choices.
ALIKE = (5_000, 10_000, 20_000, 40_000, 80_000)
KINDS = ("newcomer", "withdrawal of the last", "withdrawal of a random one", "rerank", "correction", "a seat more", "a seat less")


def count_of(kind, students, districts, alone):
    """How many amendments of a kind stand behind a figure: in one city as many as take about a second."""
    if alone:
        return IN_DISTRICTS // DISTRICTS
    if kind == "newcomer":
        return 5_000
    if districts > 1:
        return IN_DISTRICTS
    return max(20, 1_000_000 // students)


def market(folder, students, districts, together=False):
    target = os.path.join(folder, f"{students}-{districts}" + ("-together" if together else ""))
    if not os.path.isdir(target):
        schools = SCHOOLS.get(students, max(students // 100, 1))
        subprocess.run([sys.executable, os.path.join(HERE, "generate.py"), target, "--students", str(students), "--schools", str(schools),
                        "--choices", str(CHOICES), "--seats", str(students // schools), "--districts", str(districts), *(["--together"] if together else [])], check=True)
    return target


def rows(folder, name):
    with open(os.path.join(folder, f"{name}.csv")) as file:
        return [line.rstrip("\n").split(",") for line in file][1:]


def write(folder, name, lines):
    with open(os.path.join(folder, name), "w") as file:
        file.write("".join(f"{line}\n" for line in lines))


def large_market(folder, students, schools, choices):
    """Students with rising numbers, and few schools, some of them far more wanted than others."""
    target = os.path.join(folder, f"large-{students}-{schools}")
    if not os.path.isdir(target):
        numbers = os.path.join(folder, "rising")
        write(folder, "rising", range(100_001, 100_001 + students))
        seats = 5_000 if schools == 1 else students // schools
        subprocess.run([sys.executable, os.path.join(HERE, "generate.py"), target, "--students", str(students), "--schools", str(schools), "--choices", str(choices),
                        "--seats", str(seats), "--popularity", "1", "--student-numbers", numbers], check=True)
    return target


def alike_market(folder, students):
    """Twenty schools, which all students list in one order, with seats for half of them."""
    target = os.path.join(folder, f"alike-{students}")
    if not os.path.isdir(target):
        os.mkdir(target)
        alike = " ".join(map(str, range(1, 21)))
        write(target, "seed", ["5" * 64])
        write(target, "schools.csv", ["school,zone,seats", *(f"{school},1,{students // 40}" for school in range(1, 21))])
        write(target, "roster.csv", ["student,zone,siblings", *(f"{student},1," for student in range(1, students + 1))])
        write(target, "lists.csv", ["student,choices", *(f"{student},{alike}" for student in range(1, students + 1))])
    return target


def opening_of(folder):
    """The words that name the files of an opening."""
    with open(os.path.join(folder, "seed")) as file:
        opening = ["--seed", file.read().strip()]
    for file in ("schools", "roster", "lists"):
        opening += [f"--{file}", os.path.join(folder, f"{file}.csv")]
    return opening


def least(given, folder, lines):
    """The least processor time of a run with this script."""
    write(given.folder, "script", lines)
    script, journal = os.path.join(given.folder, "script"), os.path.join(given.folder, "journal")
    return min(processor([given.program, "run", *opening_of(folder), "--script", script, "--journal", journal, "--settle-each"]) for _ in range(given.times))


def time_large(given):
    """Amendments of few large schools, over a `match` of the same market."""
    print("| students, schools | " + " | ".join(f"{kind}, ms (over a match)" for kind in KINDS) + " | a match, ms |")
    print("|---" * (len(KINDS) + 2) + "|")
    for students, schools, choices in LARGE:
        folder = large_market(given.folder, students, schools, choices)
        match = min(processor([given.program, "match", *opening_of(folder)]) for _ in range(given.times))
        empty = least(given, folder, [])

        def cost(kind):
            if kind == "newcomer" and students == MOST_STUDENTS:
                return "-"
            one = max((least(given, folder, script_of(kind, folder, 1, 20)) - empty) / 20, 0)
            return f"{one:.1f} ({one / match:.2f})"

        print(f"| {students:,}, {schools} | " + " | ".join(map(cost, KINDS)) + f" | {match:.0f} |", flush=True)


def time_alike(given):
    """Four changes of the seats of the first school, where all lists are alike."""
    print("| students, 20 schools, lists alike | an empty script, ms | four seat changes, ms | over it |")
    print("|---|---|---|---|")
    for students in ALIKE:
        folder = alike_market(given.folder, students)
        empty, changed = least(given, folder, []), least(given, folder, ["0,add,1,1", "1,close,1,1", "2,add,1,1", "3,close,1,1"])
        print(f"| {students:,} | {empty:.0f} | {changed:.0f} | {changed / empty:.1f} |", flush=True)


def script_of(kind, folder, districts, count):
    """So many amendments of one kind, each of another student, or of a random school, and with the stamp that stands by then."""
    source = random.Random(kind)
    lists = dict(rows(folder, "lists"))
    roster = rows(folder, "roster")
    schools = [row[0] for row in rows(folder, "schools")]
    near = [schools[first::districts] for first in range(districts)]
    leaving = source.sample(roster, min(count, len(roster)))
    stamps = {}
    for turn in range(count):
        student, zone, siblings = source.choice(roster)
        stamp = stamps.get(student, 0)
        if kind == "newcomer":
            listed = near[turn % districts]
            choices = source.sample(listed, min(CHOICES, len(listed)))
            yield f"0,enter,{20_000_000 + turn},{zone},,{' '.join(choices)}"
        elif kind == "withdrawal of the last":
            yield f"0,withdraw,{roster[-1 - turn][0]}"
        elif kind == "withdrawal of a random one":
            yield f"0,withdraw,{leaving[turn][0]}"
        elif kind == "rerank":
            choices = lists[student].split(" ")
            source.shuffle(choices)
            yield f"{stamp},rerank,{student},{' '.join(choices)}"
            stamps[student] = turn + 1
        elif kind == "correction":
            yield f"{stamp},correct,{student},{source.randrange(20)},{siblings}"
            stamps[student] = turn + 1
        else:
            word = "add" if kind == "a seat more" else "close"
            school = source.choice(schools)
            yield f"{stamps.get(school, 0)},{word},{school},1"
            stamps[school] = turn + 1


def processor(words):
    """Processor milliseconds of a run."""
    process = subprocess.Popen(words, stdout=subprocess.DEVNULL)
    _, status, used = os.wait4(process.pid, 0)
    if status != 0:
        sys.exit(f"{' '.join(words)} ended with {status}")
    return (used.ru_utime + used.ru_stime) * 1e3


def time_districts(given):
    """Amendments of a city, of districts and of one of them."""
    print("| students | " + " | ".join(f"{kind}, ms" for kind in KINDS) + " | the whole opening, ms |")
    print("|---" * (len(KINDS) + 2) + "|")
    for students in map(int, given.students.split(",")):
        for whole, districts, together, name in (
            (students, 1, False, "one city"),
            (students, DISTRICTS, False, f"{DISTRICTS} districts"),
            (students, DISTRICTS, True, f"{DISTRICTS} districts, each together in the roster"),
            (students // DISTRICTS, 1, False, "one of these districts alone"),
        ):
            folder = market(given.folder, whole, districts, together)
            with open(os.path.join(folder, "seed")) as file:
                opening = ["--seed", file.read()]
            for file in ("schools", "roster", "lists"):
                opening += [f"--{file}", os.path.join(folder, f"{file}.csv")]
            script, journal = os.path.join(given.folder, "script"), os.path.join(given.folder, "journal")

            def run(lines):
                with open(script, "w") as file:
                    file.write("".join(f"{line}\n" for line in lines))
                times = given.times * (40 if alone else 1)
                return min(processor([given.program, "run", *opening, "--script", script, "--journal", journal, "--settle-each"]) for _ in range(times))

            alone = whole < students
            empty = run([])

            def cost(kind):
                count = count_of(kind, whole, districts, alone)
                if kind == "newcomer" and whole + count > MOST_STUDENTS:
                    return "-"
                return f"{max((run(script_of(kind, folder, districts, count)) - empty) / count, 0):.3f}"

            print(f"| {whole:,}, {name} | " + " | ".join(map(cost, KINDS)) + f" | {empty:.0f} |", flush=True)


def main():
    words = argparse.ArgumentParser(description=__doc__, formatter_class=argparse.RawDescriptionHelpFormatter)
    words.add_argument("--students", default="20000,80000,200000")
    words.add_argument("--times", type=int, default=3)
    words.add_argument("--folder", default=os.path.join(tempfile.gettempdir(), "clearinghouse-amendments"))
    words.add_argument("--program", default=PROGRAM)
    words.add_argument("--large", action="store_true")
    given = words.parse_args()
    os.makedirs(given.folder, exist_ok=True)
    if not given.large:
        time_districts(given)
    time_large(given)
    time_alike(given)


if __name__ == "__main__":
    main()
