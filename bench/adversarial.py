#!/usr/bin/env python3
"""Times markets that somebody might make to slow the program down, each against a random market.

    adversarial.py [--students N] [--times N] [--folder FOLDER] [--program PATH] [--large]

The random market is one of generate.py's, with N students, 700 schools and 12 choices. What another market may cost is what the random one
costs, times its bytes or its proposals over those of the random one, whichever is more; the last column is the processor time over that.
The proposals are the rejections of the log and the students who are placed. The chosen numbers are made by chosen.rs, compiled with rustc -O. Then
it runs a script of 64 MiB whose records are no amendments, and tells the memory over the script's length. Last it gives the calls inputs of 64 MiB that
are made to take much memory, and tells how much they take, and so of markets of 200,000 students with 20 choices each: a full one, and one in which
nearly all of them are refused by 20 schools of one seat. --large does these three alone.
"""
import argparse
import os
import random
import resource
import subprocess
import sys
import tempfile

HERE = os.path.dirname(os.path.abspath(__file__))
PROGRAM = os.path.join(os.path.dirname(HERE), "crates", "clearinghouse", "out", "clearinghouse")
SEED = "00" * 32
SCHOOLS = 700
CHOICES = 12


def write(folder, schools, students):
    """Writes a market: schools as (number, zone, seats), students as (number, zone, siblings, choices)."""
    os.makedirs(folder, exist_ok=True)
    with open(os.path.join(folder, "schools.csv"), "w") as file:
        file.write("school,zone,seats\n")
        file.writelines(f"{number},{zone},{seats}\n" for number, zone, seats in schools)
    with open(os.path.join(folder, "roster.csv"), "w") as file:
        file.write("student,zone,siblings\n")
        file.writelines(f"{number},{zone},{siblings}\n" for number, zone, siblings, _ in students)
    with open(os.path.join(folder, "lists.csv"), "w") as file:
        file.write("student,choices\n")
        file.writelines(f"{number},{' '.join(map(str, choices))}\n" for number, _, _, choices in students)


def generated(folder, count, *more):
    """A market of generate.py."""
    words = ["--students", count, "--schools", SCHOOLS, "--choices", CHOICES, "--seats", count // SCHOOLS, *more]
    subprocess.run([sys.executable, os.path.join(HERE, "generate.py"), folder, *map(str, words)], check=True)


def chosen_numbers(folder, count, greatest, *more):
    """A file of numbers that share a few places of a table."""
    program = os.path.join(folder, "chosen")
    if not os.path.exists(program):
        subprocess.run(["rustc", "-O", "--edition", "2021", "-o", program, os.path.join(HERE, "chosen.rs")], check=True)
    path = os.path.join(folder, "-".join(["numbers", str(count), *more]))
    with open(path, "w") as file:
        subprocess.run([program, str(count), str(greatest), *more], stdout=file, check=True)
    return path


def alike(folder, count):
    """Everybody's list is the same, and a twelfth of them is placed."""
    schools = [(number, 0, count // (CHOICES * CHOICES)) for number in range(1, SCHOOLS + 1)]
    write(folder, schools, [(number, 0, "", range(1, CHOICES + 1)) for number in range(1, count + 1)])


def one_school(folder, count):
    """One school of 10,000 seats, which everybody lists alone."""
    write(folder, [(1, 0, 10_000)], [(number, 0, "", [1]) for number in range(1, count + 1)])


def a_chain(folder, count):
    """One seat a school, taken in turn; the last student of each round puts out the first, who puts out the next, and so on."""
    length = 5_000
    schools = [(number, 0, 1) for number in range(1, length + 1)]
    students = [(number, 0, str(number + 1), [number, number + 1]) for number in range(1, length)]
    students += [(number, 0, "1", [1]) for number in range(length, count + 1)]
    write(folder, schools, students)


def rows_in_any_order(folder, count):
    """A random market whose rows stand in other orders in each file."""
    generated(folder, count)
    for name in ("schools.csv", "roster.csv", "lists.csv"):
        path = os.path.join(folder, name)
        with open(path) as file:
            header, *rows = file.readlines()
        random.Random(name).shuffle(rows)
        with open(path, "w") as file:
            file.writelines([header, *rows])


def wide_numbers(folder, count):
    """Numbers spread to the greatest that there are."""
    path = folder + "-numbers"
    with open(path, "w") as file:
        file.writelines(f"{number}\n" for number in random.Random("wide").sample(range(1, 1_000_000_000), count))
    generated(folder, count, "--student-numbers", path)


def chosen(folder, count):
    """Students and schools whose numbers fall to a few places of a table."""
    above = os.path.dirname(folder)
    generated(folder, count, "--student-numbers", chosen_numbers(above, count, 999_999_999), "--school-numbers", chosen_numbers(above, SCHOOLS, 99_999))


def chosen_for_noughts(folder, count):
    """Students whose numbers fall to a few places of a table under a seed of noughts."""
    generated(folder, count, "--student-numbers", chosen_numbers(os.path.dirname(folder), count, 999_999_999, "noughts"))


def time_check(given):
    """`check` of numbers that were chosen for the seed of noughts, beside random ones: it has no seed."""
    spent = {}
    for name, make in (("random", wide_numbers), ("chosen", chosen_for_noughts)):
        folder = os.path.join(given.folder, f"check-{name}-{given.students}")
        if not os.path.isdir(folder):
            make(folder, given.students)
        files = [word for each in ("schools", "roster", "lists") for word in ("--" + each, os.path.join(folder, each + ".csv"))]
        times = []
        for _ in range(given.times):
            process = subprocess.Popen([given.program, "check", *files], stdout=subprocess.DEVNULL)
            times.append(sum(os.wait4(process.pid, 0)[2][:2]))
        spent[name] = min(times)
    print(f"check of {given.students:,} students: {spent['random'] * 1e3:.0f} ms of random numbers, {spent['chosen'] * 1e3:.0f} ms of numbers chosen for a seed of noughts", flush=True)


MARKETS = {
    "random": generated,
    "lists alike": alike,
    "one school of 10,000 seats": one_school,
    "a chain of 5,000 schools": a_chain,
    "rows in random order": rows_in_any_order,
    "numbers to 999,999,999": wide_numbers,
    "numbers chosen to collide": chosen,
}


def run(program, folder, *words):
    """Processor seconds and MiB of a subcommand over a market, whose output goes to the file `out`."""
    files = [word for name in ("schools", "roster", "lists") for word in ("--" + name, os.path.join(folder, name + ".csv"))]
    with open(os.path.join(folder, "out"), "wb") as out:
        process = subprocess.Popen([program, words[0], "--seed", SEED, *files, *words[1:]], stdout=out)
        _, status, used = os.wait4(process.pid, 0)
    if status != 0:
        sys.exit(f"{words[0]} of {folder} ended with {os.waitstatus_to_exitcode(status)}")
    return used.ru_utime + used.ru_stime, used.ru_maxrss / 1024


def lines_of(folder):
    with open(os.path.join(folder, "out")) as file:
        return file.readlines()


def proposals(program, folder):
    """How many proposals settle a market."""
    run(program, folder, "match", "--print-log")
    rejections = len(lines_of(folder))
    run(program, folder, "match")
    report = lines_of(folder)
    assignment = report[1:report.index("school,seats,held,class,draw,student\n")]
    return rejections + sum(not line.endswith(",-\n") for line in assignment)


def size(folder):
    return sum(os.path.getsize(os.path.join(folder, name + ".csv")) for name in ("schools", "roster", "lists"))


def time_markets(given):
    print("| market | bytes | proposals | ms | over what it may cost |")
    print("|---|---|---|---|---|")
    measure = None
    for turn, (name, make) in enumerate(MARKETS.items()):
        folder = os.path.join(given.folder, f"market-{turn}-{given.students}")
        if not os.path.isdir(folder):
            make(folder, given.students)
        told = size(folder), proposals(given.program, folder)
        spent = min(run(given.program, folder, "match")[0] for _ in range(given.times))
        measure = measure or (told, spent)
        allowed = measure[1] * max(told[0] / measure[0][0], told[1] / measure[0][1])
        print(f"| {name} | {told[0]:,} | {told[1]:,} | {spent * 1e3:.0f} | {spent / allowed:.2f} |", flush=True)


def time_script(given):
    """A script as long as an input may be, of records that are no amendments, over a market of one school."""
    folder = os.path.join(given.folder, "script")
    write(folder, [(1, 0, 1)], [(1, 0, "", [1])])
    script = os.path.join(folder, "script.csv")
    for record in ("x\n", "0,enter,1\n", "0,enter,7,0,," + "1 " * 30_000 + "1\n"):
        with open(script, "w") as file:
            write_filled(file, "", record)
        spent, memory = run(given.program, folder, "run", "--script", script, "--journal", os.path.join(folder, "journal"))
        print(f"script of 64 MiB of records like {record[:12].strip()!r}: {spent:.1f} s, {memory:.0f} MiB, {memory / 64:.1f} times its length", flush=True)


LONGEST = 64 * 1024 * 1024
HEADERS = {"schools": "school,zone,seats\n", "roster": "student,zone,siblings\n", "lists": "student,choices\n"}
TIDY = {"schools": "1,0,1\n", "roster": "1,0,\n", "lists": "1,1\n"}


def write_filled(file, begin, piece, end=""):
    """Writes as many pieces as there is room for in an input, after a beginning and before an end, in blocks: what this program holds itself would be told as what
    the measured one takes."""
    left = (LONGEST - len(begin) - len(end)) // len(piece)
    block = 1024 * 1024 // len(piece)
    file.write(begin)
    while left > 0:
        file.write(piece * min(left, block))
        left -= block
    file.write(end)


def large_inputs():
    """Calls and their input that is made to be large: its name, what it holds, and its beginning, its pieces and its end."""
    lists, roster, schools = HEADERS["lists"], HEADERS["roster"], HEADERS["schools"]
    return [
        ("match", "lists", "one record of 67 million commas", (lists, ",")),
        ("match", "lists", "the same with a quoted field", (lists + '"1"', ",")),
        ("match", "lists", "the same before a line with one", (lists, ",", '\n"1",1\n')),
        ("match", "lists", "one list of 33 million numbers", (lists + "1,", "1 ", "1")),
        ("match", "lists", "rows that are all `1,`", (lists, "1,\n")),
        ("match", "lists", "rows that are all `1,1`", (lists, "1,1\n")),
        ("match", "roster", "33 million siblings", (roster + "1,0,", "1 ", "1")),
        ("match", "roster", "rows of 30 commas", (roster, "," * 30 + "\n")),
        ("run", "script", "one record of 67 million commas", ("", ",")),
        ("run", "script", "one list of 33 million numbers", ("0,enter,2,0,,", "1 ", "1")),
        ("check", "script", "33 million records `x`", ("", "x\n")),
        ("check", "lists", "rows that are all `1,1`", (lists, "1,1\n")),
        ("check", "lists", "one list of 33 million numbers", (lists + "1,", "1 ", "1")),
        ("check", "schools", "33 million rows `x`", (schools, "x\n")),
        ("replay", "journal", "one line with a list of 33 million numbers", ("1,enter,2,0,,", "1 ", "1\n")),
        ("replay", "journal", "one line of 67 million commas", ("", ",", "\n")),
    ]


def memory_of_large(given):
    """What inputs of 64 MiB that are made to be large take."""
    print("| call | input of 64 MiB | s | MiB |")
    print("|---|---|---|---|")
    folder = os.path.join(given.folder, "large")
    os.makedirs(folder, exist_ok=True)
    for call, name, what, parts in large_inputs():
        words = [given.program, call] + ([] if call == "check" else ["--seed", SEED])
        for each in ("schools", "roster", "lists", *([name] if name in ("script", "journal") else [])):
            path = os.path.join(folder, each)
            with open(path, "w") as file:
                if each == name:
                    write_filled(file, *parts)
                else:
                    file.write(HEADERS[each] + TIDY[each])
            words += ["--" + each, path]
        if call == "run":
            words += ["--journal", os.path.join(folder, "out")]
        process = subprocess.Popen(words, stdout=subprocess.DEVNULL, stderr=subprocess.DEVNULL)
        used = os.wait4(process.pid, 0)[2]
        print(f"| `{call}`, {name} | {what} | {used.ru_utime + used.ru_stime:.1f} | {used.ru_maxrss / 1024:,.0f} |", flush=True)


def one_seat_each(folder, count):
    """20 schools of one seat, which everybody lists, each student beginning with another one."""
    listed = list(range(1, 21))
    write(folder, [(number, 0, 1) for number in listed], [(number, 0, "", listed[number % 20:] + listed[:number % 20]) for number in range(1, count + 1)])


def full_market(folder, count):
    """5,000 schools, with a seat for nearly everybody."""
    words = ["--students", count, "--schools", 5_000, "--choices", 20, "--seats", count // 5_000 - 2]
    subprocess.run([sys.executable, os.path.join(HERE, "generate.py"), folder, *map(str, words)], check=True)


# The calls of a market, and whether FORMATS counts what they write.
CALLS = {
    "match": (["match"], True),
    "match --table reasons": (["match", "--table", "reasons"], True),
    "match --print-log": (["match", "--print-log"], True),
    "explain": (["explain"], False),
    "admissions": (["admissions"], False),
    "summary": (["summary"], False),
    "changes": (["changes", "--journal", "{journal}"], False),
    "replay": (["replay", "--journal", "{journal}"], True),
    "run": (["run", "--script", "{script}", "--journal", "{made}"], True),
    "export": (["export", "--to", "{to}"], True),
}


def memory_of_calls(given, name, make):
    """What each call takes of a market, with a journal of one line or a script of one record where it needs one."""
    folder = os.path.join(given.folder, name.replace(" ", "-"))
    if not os.path.isdir(folder):
        make(folder, 200_000)
    paths = {each: os.path.join(folder, each) for each in ("journal", "script", "made", "to")}
    with open(os.path.join(folder, "schools.csv")) as file:
        school = file.readlines()[1].split(",")[0]
    for each, line in (("journal", f"1,add,{school},1\n"), ("script", f"0,add,{school},1\n")):
        with open(paths[each], "w") as file:
            file.write(line)
    for call, (words, is_counted) in CALLS.items():
        subprocess.run(["rm", "-rf", paths["to"]], check=True)
        os.mkdir(paths["to"])
        spent, memory = run(given.program, folder, *(word.format(**paths) for word in words))
        texts = os.path.getsize(os.path.join(folder, "out")) + sum(os.path.getsize(os.path.join(paths["to"], each)) for each in os.listdir(paths["to"]))
        print(f"| {name} | `{call}` | {spent:.1f} | {memory:,.0f} | {size(folder) / 2**20:.1f} | {texts / 2**20:,.0f} {'counted' if is_counted else ''} |", flush=True)


def memory_of_markets(given):
    """What the calls take of markets that are as large as a market may be."""
    print("| market | call | s | MiB | MiB of the inputs | MiB written |")
    print("|---|---|---|---|---|---|")
    memory_of_calls(given, "20 schools of one seat", one_seat_each)
    memory_of_calls(given, "a full market", full_market)


def main():
    given = argparse.ArgumentParser(description=__doc__, formatter_class=argparse.RawDescriptionHelpFormatter)
    given.add_argument("--students", type=int, default=80_000)
    given.add_argument("--times", type=int, default=3)
    given.add_argument("--folder", default=os.path.join(tempfile.gettempdir(), "clearinghouse-adversarial"))
    given.add_argument("--program", default=PROGRAM)
    given.add_argument("--large", action="store_true", help="the script, the inputs that are made to take much memory and the largest markets, alone")
    given = given.parse_args()
    resource.setrlimit(resource.RLIMIT_CORE, (0, 0))
    os.makedirs(given.folder, exist_ok=True)
    if given.large:
        time_script(given)
        memory_of_large(given)
        memory_of_markets(given)
        return
    time_markets(given)
    time_check(given)
    # A new process, since what this one holds by now would be told as what the measured ones take.
    subprocess.run([sys.executable, __file__, "--large", "--folder", given.folder, "--program", given.program], check=True)


if __name__ == "__main__":
    main()
