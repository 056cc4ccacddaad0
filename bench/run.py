#!/usr/bin/env python3
"""Times the built program and the plain Rust peer on the same files, in turn, and prints tables.

    run.py [--times N] [--only NAME] [--phases] [--folder FOLDER]

The program is the one that the README's first command builds. peer.rs is compiled with rustc -O, and the markets are
made by generate.py. Each runs N times on each market, one after the other; the table has the least processor time
(user and system), its ratio, the most memory held and the page faults. Where the two programs' bytes differ, it says so and ends.
The last line is the exponent of the program's growth from the smallest market to the largest.

With --phases it lays a workspace out in FOLDER (the repository's crates with `stopwatch/`, whose files end in .txt here since
the gate refuses sources that no crate of its own owns), proves and builds the stopwatch there, and times each phase of both, the
audit of the log that certifies each market, the rolls, and amendments beside what they may cost, by wall time.
"""
import argparse
import math
import os
import re
import shutil
import subprocess
import sys
import tempfile

import amendments

HERE = os.path.dirname(os.path.abspath(__file__))
ROOT = os.path.dirname(HERE)
FOLDER = os.path.join(tempfile.gettempdir(), "clearinghouse-bench")
PROGRAM = os.path.join(ROOT, "crates", "clearinghouse", "out", "clearinghouse")
MARKETS = {
    "2,000": ["--students", "2000", "--schools", "50"],
    "20,000": ["--students", "20000", "--schools", "500"],
    "80,000": ["--students", "80000", "--schools", "700", "--choices", "12", "--seats", "114"],
    "200,000": ["--students", "200000", "--schools", "5000"],
}
PHASES = ["read", "settle", "write"]
AUDITS = ["audit", "check_stable"]
KINDS = {"rerank": "rerank", "correction": "correction", "more": "a seat more", "less": "a seat less", "withdrawal": "withdrawal"}


def market(name, folder):
    """The folder of a market, made if it is not there."""
    target = os.path.join(folder, "market-" + name.replace(",", ""))
    if not os.path.isdir(target):
        subprocess.run([sys.executable, os.path.join(HERE, "generate.py"), target, *MARKETS[name]], check=True)
    return target


def build_peer(folder):
    """Compiles the peer, and answers its path."""
    program = os.path.join(folder, "peer")
    subprocess.run(["rustc", "-O", "--edition", "2021", "-o", program, os.path.join(HERE, "peer.rs")], check=True)
    return program


def words(program, files):
    """The command line of a program for a market's files."""
    if program != PROGRAM:
        return [program, files]
    with open(os.path.join(files, "seed")) as file:
        seed = file.read()
    paths = [word for name in ("schools", "roster", "lists") for word in ("--" + name, os.path.join(files, name + ".csv"))]
    return [program, "match", "--seed", seed, *paths]


def once(command, output):
    """Processor milliseconds, MiB and page faults of one run, whose output goes to a file."""
    with open(output, "wb") as out:
        process = subprocess.Popen(command, stdout=out, stderr=subprocess.DEVNULL)
        _, status, used = os.wait4(process.pid, 0)
    if status != 0:
        sys.exit(f"{command[0]} ended with {status}")
    return (used.ru_utime + used.ru_stime) * 1e3, used.ru_maxrss / 1024, used.ru_minflt


def same_bytes(first, second):
    with open(first, "rb") as one, open(second, "rb") as other:
        return one.read() == other.read()


def time_programs(peer, folder, names, times):
    """Prints the table of both programs."""
    print("| students | program, ms | plain Rust, ms | ratio | MiB | faults |")
    print("|---|---|---|---|---|---|")
    least = {}
    for name in names:
        files = market(name, folder)
        runs = {program: [] for program in (PROGRAM, peer)}
        for _ in range(times):
            for at, program in enumerate(runs):
                runs[program].append(once(words(program, files), os.path.join(folder, f"report-{at}")))
        if not same_bytes(os.path.join(folder, "report-0"), os.path.join(folder, "report-1")):
            sys.exit(f"the reports of {name} students differ")
        ours, theirs = (min(runs[program]) for program in (PROGRAM, peer))
        least[name] = ours[0]
        print(f"| {name} | {ours[0]:.0f} | {theirs[0]:.0f} | {ours[0] / theirs[0]:.1f} "
              f"| {ours[1]:.0f}; {theirs[1]:.0f} | {ours[2]}; {theirs[2]} |")
    if "2,000" in least and "200,000" in least:
        print(f"exponent of growth: {math.log(least['200,000'] / least['2,000'], 100):.2f}")


def lay_out(source, target, suffix=""):
    """Copies the sources of a crate, without the suffix."""
    for part in ("src", "specs", "proofs"):
        shutil.rmtree(os.path.join(target, part), ignore_errors=True)
        for at, _, names in os.walk(os.path.join(source, part)):
            below = os.path.join(target, os.path.relpath(at, source))
            os.makedirs(below, exist_ok=True)
            for name in names:
                shutil.copy(os.path.join(at, name), os.path.join(below, name.removesuffix(suffix)))


def build_stopwatch(folder):
    """Proves and builds the stopwatch in a workspace of its own, and answers its path."""
    workspace = os.path.join(folder, "workspace")
    apart = ("#", "clearinghouse", "sc_plain", "sc_rows", "sc_text_rows", "sc_growths", "sc_markets", "sc_words", "sc_program", "sc_runs", "sc_steps",
             "sc_lines", "sc_journal", "sc_export", "sc_notices", "sc_checks", "embed")
    with open(os.path.join(ROOT, "crates.txt")) as file:
        lines = [line for line in file if not line.startswith(apart)]
    for name in [line.split(":")[0] for line in lines]:
        lay_out(os.path.join(ROOT, "crates", name), os.path.join(workspace, "crates", name))
    crate = os.path.join(workspace, "crates", "stopwatch")
    lay_out(os.path.join(HERE, "stopwatch"), crate, ".txt")
    with open(os.path.join(workspace, "crates.txt"), "w") as file:
        file.writelines(lines)
        file.write("stopwatch: sc_lottery sc_papers sc_audit sc_intake sc_seats sc_region sc_engine sc_repair sc_report anyhow\n")
    subprocess.run(["rt", "run", "--", "nothing"], cwd=crate, stdout=subprocess.DEVNULL, stderr=subprocess.DEVNULL)
    return os.path.join(crate, "out", "stopwatch")


def phases_of(program, files):
    """The phases' times in milliseconds."""
    ran = subprocess.run([program, files], check=True, capture_output=True, text=True)
    times = {}
    for line in ran.stderr.splitlines():
        told = line.split()
        if told and told[0] in PHASES + AUDITS:
            times[told[0]] = float(told[1]) / {"ms": 1, "us": 1000}[told[2]]
    return times


def time_phases(peer, folder, names, times):
    """Prints the tables of the phases."""
    stopwatch = build_stopwatch(folder)
    print("| students | phase | proved, ms | plain Rust, ms |")
    print("|---|---|---|---|")
    for name in names:
        files = market(name, folder)
        ours, theirs = ([phases_of(program, files) for _ in range(times)] for program in (stopwatch, peer))
        for phase in PHASES:
            print(f"| {name} | {phase} | {min(run[phase] for run in ours):.1f} | {min(run[phase] for run in theirs):.1f} |")
        for phase in AUDITS:
            print(f"| {name} | {phase} | {min(run[phase] for run in ours):.1f} | |")
    subprocess.run([stopwatch, "rolls"], check=True)
    time_amendments(stopwatch, folder, times)


def told(stopwatch, files, what, pattern):
    """What the stopwatch says, line by line, where a line fits the pattern."""
    ran = subprocess.run([stopwatch, files, what], check=True, capture_output=True, text=True)
    return [match.groups() for match in map(re.compile(pattern).fullmatch, ran.stderr.splitlines()) if match]


def settlings_of(stopwatch, files, times):
    """By the number of students, from all of them down, the least microseconds that settling the first so many takes."""
    least = {0: 0}
    for _ in range(times):
        for students, took in told(stopwatch, files, "settlings", r"settle (\d+) students: (\d+) us, .*"):
            least[int(students)] = min(int(took), least.get(int(students), int(took)))
    return least


def cost_from(settlings, position):
    """What those cost in a settling who stand at the position or after it: between two that were timed, in proportion."""
    known = sorted(settlings)
    low = max(students for students in known if students <= position)
    high = min((students for students in known if students > position), default=low)
    part = (position - low) / (high - low) if high > low else 0
    return settlings[known[-1]] - settlings[low] - part * (settlings[high] - settlings[low])


def amendments_of(stopwatch, files, kind):
    """From which position on each amendment of a kind settled anew, and the microseconds that it took."""
    return [tuple(map(int, figures)) for figures in told(stopwatch, files, kind, r"from (\d+): (\d+) us, .*")]


def time_amendments(stopwatch, folder, times):
    """Prints what amendments of a city cost, beside what the proposals from their rewind point on cost in `settle`, and a
    pass over all choices."""
    print("| students | kind | an amendment, ms | its proposals in `settle`, ms | a pass, ms | times, less the pass |")
    print("|---|---|---|---|---|---|")
    for students in amendments.SCHOOLS:
        files = amendments.market(folder, students, 1)
        settlings = settlings_of(stopwatch, files, times)
        passed = min(int(took) for _ in range(times) for (took,) in told(stopwatch, files, "settlings", r"pass: (\d+) us, .*")) / 1e3
        for kind, name in KINDS.items():
            runs = [amendments_of(stopwatch, files, kind) for _ in range(times)]
            took = sum(min(figures[1] for figures in turn) for turn in zip(*runs)) / 20e3
            own = sum(cost_from(settlings, point) for point, _ in runs[0]) / 20e3
            print(f"| {students:,} | {name} | {took:.2f} | {own:.2f} | {passed:.2f} | {(took - passed) / own:.2f} |", flush=True)


def main():
    given = argparse.ArgumentParser(description=__doc__, formatter_class=argparse.RawDescriptionHelpFormatter)
    given.add_argument("--times", type=int, default=5)
    given.add_argument("--only", choices=list(MARKETS))
    given.add_argument("--phases", action="store_true")
    given.add_argument("--folder", default=FOLDER)
    given = given.parse_args()
    os.makedirs(given.folder, exist_ok=True)
    names = [given.only] if given.only else list(MARKETS)
    peer = build_peer(given.folder)
    if given.phases:
        time_phases(peer, given.folder, names, given.times)
        return
    if not os.path.exists(PROGRAM):
        sys.exit(f"{PROGRAM} is not built: the README's first command builds it")
    time_programs(peer, given.folder, names, given.times)


if __name__ == "__main__":
    main()
