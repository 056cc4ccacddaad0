#!/usr/bin/env python3
"""Makes a market: the files of schools, roster and lists, and one bundle of them.

    generate.py FOLDER [--students N] [--schools N] [--choices N] [--seats N] [--zones N]
                       [--siblings PERCENT] [--popularity EXPONENT] [--random SEED] [--districts N] [--together]
                       [--student-numbers FILE] [--school-numbers FILE]

Each student lists as many different schools as `--choices` says. A school's popularity falls with its
number: the k-th is drawn with a weight of 1 / k^EXPONENT (0: all alike). `--siblings` is how many
students of a hundred have a sibling at one of their choices. With `--districts` the schools and the students are
dealt out in turn to so many districts, and each student lists schools of their own district alone; with `--together`
the students of a district stand together in the roster. A file of numbers, one a line, takes the place of the numbers
that are drawn. The same arguments make the same files.
"""
import argparse
import itertools
import os
import random


def choices_of(source, numbers, weights, count):
    """Different schools, in the order in which they were drawn."""
    chosen = {}
    while len(chosen) < count:
        for number in source.choices(numbers, cum_weights=weights, k=count):
            if len(chosen) < count:
                chosen.setdefault(number)
    return list(chosen)


def numbers_in(path, count):
    """The first numbers of a file."""
    with open(path) as file:
        return [int(line) for line in itertools.islice(file, count)]


def main():
    words = argparse.ArgumentParser(description=__doc__, formatter_class=argparse.RawDescriptionHelpFormatter)
    words.add_argument("folder")
    words.add_argument("--students", type=int, default=2000)
    words.add_argument("--schools", type=int, default=50)
    words.add_argument("--choices", type=int, default=20)
    words.add_argument("--seats", type=int, default=36)
    words.add_argument("--zones", type=int, default=20)
    words.add_argument("--siblings", type=int, default=15)
    words.add_argument("--popularity", type=float, default=0.5)
    words.add_argument("--random", type=int, default=1)
    words.add_argument("--districts", type=int, default=1)
    words.add_argument("--together", action="store_true")
    words.add_argument("--student-numbers")
    words.add_argument("--school-numbers")
    given = words.parse_args()

    source = random.Random(given.random)
    schools = source.sample(range(1, 100_000), given.schools)
    students = source.sample(range(1, 10_000_000), given.students)
    if given.school_numbers:
        schools = numbers_in(given.school_numbers, given.schools)
        source.shuffle(schools)
    if given.student_numbers:
        students = numbers_in(given.student_numbers, given.students)
        source.shuffle(students)
    districts = [schools[first::given.districts] for first in range(given.districts)]
    weights = list(itertools.accumulate(1 / (place + 1) ** given.popularity for place in range(given.schools)))

    school_rows = [f"{number},{source.randint(0, given.zones)},{given.seats}\n" for number in schools]
    roster_rows, list_rows = [], []
    for turn, number in enumerate(students):
        near = districts[turn * given.districts // given.students if given.together else turn % given.districts]
        choices = choices_of(source, near, weights[:len(near)], min(given.choices, len(near)))
        siblings = str(source.choice(choices)) if source.randrange(100) < given.siblings else ""
        roster_rows.append(f"{number},{source.randint(0, given.zones)},{siblings}\n")
        list_rows.append(f"{number},{' '.join(map(str, choices))}\n")
    seed = "".join(source.choice("0123456789abcdef") for _ in range(64))

    texts = {
        "schools": "school,zone,seats\n" + "".join(school_rows),
        "roster": "student,zone,siblings\n" + "".join(roster_rows),
        "lists": "student,choices\n" + "".join(list_rows),
    }
    os.makedirs(given.folder, exist_ok=True)
    for name, text in texts.items():
        with open(os.path.join(given.folder, f"{name}.csv"), "w") as file:
            file.write(text)
    with open(os.path.join(given.folder, "seed"), "w") as file:
        file.write(seed)
    with open(os.path.join(given.folder, "bundle"), "w") as file:
        file.write(f"%seed\n{seed}\n" + "".join(f"%{name}\n{text}" for name, text in texts.items()))


if __name__ == "__main__":
    main()
