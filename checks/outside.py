#!/usr/bin/env python3
"""Tries the built program from outside: refused memory, full discs, broken streams, odd inputs and words, and kills; and
the tools, on its texts, with odd names, ranks and words.

    outside.py [--program PATH] [--kills N]

The gate does not run it; run it before a release. After each trial the same must hold: each `ok` reply that stands whole in the
output has its line whole in the journal; output and journal are prefixes of what a whole run writes; the program ended by
itself, or by a signal that was sent to it; and a status other than 0 has its line on standard error. It prints a line for each
group of trials, and ends with status 1 where one failed.
"""
import argparse
import csv
import os
import pathlib
import random
import re
import resource
import shutil
import signal
import subprocess
import sys
import tempfile
import threading
import time

HERE = pathlib.Path(__file__).resolve().parent
TOOLS = HERE.parent / "tools"
BUILT = HERE.parent / "crates/clearinghouse/out/clearinghouse"
LIMIT = 67_108_864
SEED = "0" * 64
SCHOOLS = "school,zone,seats\n10,1,1\n20,0,1\n"
ROSTER = "student,zone,siblings\n1,0,20\n2,0,10\n6,0,\n"
LISTS = "student,choices\n1,10 20\n2,20 10\n6,20 10\n"
SCRIPT = "0,enter,3,1,10,10\nnonsense\n0,withdraw,99\n0,add,77,1\n1,withdraw,3\n0,add,20,1\n0,enter,5,0,,10 20\n"


class Trials:
    """The program, a folder with the inputs, and the count of what was tried and what failed."""

    def __init__(self, program, folder):
        self.program, self.folder = program, folder
        self.tried = self.failed = 0
        for name, text in (("schools", SCHOOLS), ("roster", ROSTER), ("lists", LISTS), ("script", SCRIPT)):
            (folder / name).write_text(text)
        opening = ["--seed", SEED, "--schools", "schools", "--roster", "roster", "--lists", "lists"]
        self.calls = {"match": ["match", *opening], "log": ["match", *opening, "--print-log"],
                      "run": ["run", *opening, "--script", "script", "--journal", "journal"],
                      "run settled each time": ["run", *opening, "--script", "script", "--journal", "journal", "--settle-each"],
                      "audit": ["audit", *opening, "--log", "log"], "replay": ["replay", *opening, "--journal", "kept"]}
        bundle = f"%seed\n{SEED}\n%schools\n{SCHOOLS}%roster\n{ROSTER}%lists\n{LISTS}%script\n{SCRIPT}"
        self.bundle = bundle.encode()
        (folder / "log").write_bytes(self.run(self.calls["log"]).stdout)
        self.whole_run = self.run(self.calls["run"]).stdout
        self.whole_journal = (folder / "journal").read_bytes()
        (folder / "kept").write_bytes(self.whole_journal)

    def run(self, words, given=b"", **options):
        options.setdefault("stdout", subprocess.PIPE)
        options.setdefault("stderr", subprocess.PIPE)
        options.setdefault("timeout", 120)
        try:
            return subprocess.run([self.program, *words], input=given, cwd=self.folder, **options)
        except subprocess.TimeoutExpired as late:
            return subprocess.CompletedProcess(words, "none: it did not end", late.stdout or b"", late.stderr or b"")

    def check(self, name, holds, what=""):
        self.tried += 1
        if not holds:
            self.failed += 1
            print(f"FAILED {name}: {what}")

    def ended(self, name, done, status, line, output=None):
        """The call ended so: with this status and this line."""
        said = (done.stderr or b"").decode(errors="replace").strip()
        self.check(name, done.returncode == status and said == line, f"status {done.returncode}, line {said!r}; wanted {status}, {line!r}")
        if output is not None:
            self.check(name, done.stdout == output, f"output {done.stdout[:200]!r}")

    def fronts(self, name, output, journal, whole_output=None, whole_journal=None):
        """What was written is a prefix of the whole, and no reply stands without its line."""
        whole_output = self.whole_run if whole_output is None else whole_output
        whole_journal = self.whole_journal if whole_journal is None else whole_journal
        self.check(name, whole_output.startswith(output), f"output is no prefix: {output[-80:]!r}")
        self.check(name, whole_journal.startswith(journal), f"journal is no prefix: {journal[-80:]!r}")
        replies = len(re.findall(rb"^[0-9]+,ok\n", output, re.M))
        self.check(name, replies <= journal.count(b"\n"), f"{replies} replies, {journal.count(bytes([10]))} lines")


def refused_growths(trials, folder):
    """Each growth of each call refused in turn."""
    shim = folder / "refuse.so"
    subprocess.run(["cc", "-shared", "-fPIC", "-O1", "-o", shim, HERE / "refuse.c"], check=True)
    for name, words in [("bundle", []), *trials.calls.items()]:
        given = trials.bundle if name == "bundle" else b""

        def under(**more):
            (trials.folder / "journal").unlink(missing_ok=True)
            return trials.run(words, given, env={**os.environ, "LD_PRELOAD": str(shim), **more})

        whole = trials.run(words, given)
        calls = int(under(FAIL_COUNT="1").stderr.split()[-1])
        passed = 0
        for at in range(1, calls + 1):
            done = under(FAIL_AT=str(at))
            what = f"{name}, growth {at}"
            if done.returncode == whole.returncode and done.stdout == whole.stdout:
                passed += 1  # the library asked for the memory again, and got it
                continue
            said = done.stderr.decode(errors="replace").strip()
            known = ("clearinghouse: out of memory", "error: out of memory", "")
            trials.check(what, done.returncode == 5 and said in known, f"status {done.returncode}, line {said!r}")
            trials.check(what, whole.stdout.startswith(done.stdout), f"output {done.stdout[:200]!r}")
            if words[:1] == ["run"]:
                journal = trials.folder / "journal"
                trials.fronts(what, done.stdout, journal.read_bytes() if journal.exists() else b"")
        print(f"{name}: each of {calls} growths refused, {passed} of which were asked for again")


def empty_again(folder):
    """Takes away what an export or a run left."""
    shutil.rmtree(folder / "next", ignore_errors=True)
    (folder / "next").mkdir()
    (folder / "journal").unlink(missing_ok=True)


def address_spaces(trials):
    """Every limit on the address space, from where the program starts, in steps of 4 KiB, until six in a row are enough."""
    opening = trials.calls["match"][1:]
    files = opening[2:]
    calls = {"bundle": [], **trials.calls, "check": ["check", *files, "--script", "script"], "summary": ["summary", *opening, "--journal", "kept"],
             "explain": ["explain", *opening], "admissions": ["admissions", *opening],
             "changes": ["changes", *opening, "--journal", "kept"], "export": ["export", *opening, "--to", "next"]}
    for name, words in calls.items():
        given = trials.bundle if name == "bundle" else b""
        empty_again(trials.folder)
        whole = trials.run(words, given).returncode
        statuses, enough, limit = {}, 0, 1 << 20
        while enough < 6 and limit < 64 << 20:
            empty_again(trials.folder)
            try:
                done = trials.run(words, given, preexec_fn=lambda: resource.setrlimit(resource.RLIMIT_AS, (limit, limit)))
            except (OSError, subprocess.SubprocessError):
                limit += 64 << 10
                continue  # not even started
            if done.returncode == 127 or b"loading shared" in done.stderr or b"cannot allocate memory" in done.stderr.lower() or (done.returncode < 0 and not statuses):
                limit += 4 << 10
                continue  # the loader had no room for the program
            statuses[done.returncode] = statuses.get(done.returncode, 0) + 1
            enough = enough + 1 if done.returncode == whole else 0
            known = ("clearinghouse: out of memory", "error: out of memory", "")
            if done.returncode != whole and done.returncode > 0:
                said = done.stderr.decode(errors="replace").strip()
                trials.check(f"{name} in {limit >> 10} KiB", done.returncode == 5 and said in known, f"status {done.returncode}, line {said!r}")
            limit += 4 << 10
        signals = sum(count for status, count in statuses.items() if status < 0)
        trials.check(f"{name} in little room", signals == 0 and enough == 6, f"ended by a signal in {signals} sizes; statuses {statuses}")
        print(f"{name}: {sum(statuses.values())} limits of the address space, by a signal in {signals}")


def devices(trials):
    """Full discs, closed streams, and a reader of the output that goes away."""
    full = [word if word != "journal" else "/dev/full" for word in trials.calls["run"]]
    done = trials.run(full)
    trials.ended("journal on a full disc", done, 4, "clearinghouse: cannot write journal")
    trials.check("journal on a full disc", b",ok" not in done.stdout, done.stdout)
    for name, words in [("bundle", []), *trials.calls.items()]:
        if not trials.run(words, trials.bundle if name == "bundle" else b"").stdout:
            continue  # an empty log: nothing is written, so nothing can fail
        with open("/dev/full", "wb") as out:
            done = trials.run(words, trials.bundle if name == "bundle" else b"", stdout=out)
        trials.ended(f"{name}: output on a full disc", done, 4, "clearinghouse: cannot write output")
        closed = subprocess.run(["sh", "-c", '"$0" "$@" >&-', trials.program, *words], input=trials.bundle, cwd=trials.folder, stderr=subprocess.PIPE)
        trials.ended(f"{name}: output closed", closed, 4, "clearinghouse: cannot write output")
        read, write = os.pipe()
        os.close(read)
        gone = trials.run(words, trials.bundle if name == "bundle" else b"", stdout=write)
        os.close(write)
        trials.ended(f"{name}: nobody reads the output", gone, 4, "clearinghouse: cannot write output")
    for asked in (["--help"], ["--version"], ["help"], ["run", "-h"]):
        with open("/dev/full", "wb") as out:
            trials.ended(f"{asked} on a full disc", trials.run(asked, stdout=out), 4, "clearinghouse: cannot write output")
        closed = subprocess.run(["sh", "-c", '"$0" "$@" >&-', trials.program, *asked], cwd=trials.folder, stderr=subprocess.PIPE)
        trials.ended(f"{asked} closed", closed, 4, "clearinghouse: cannot write output")
    closed = subprocess.run(["sh", "-c", '"$0" <&-', trials.program], cwd=trials.folder, capture_output=True)
    trials.ended("input closed", closed, 4, "clearinghouse: cannot read bundle", b"")
    quiet = subprocess.run(["sh", "-c", '"$0" 2>&-', trials.program], input=b"no bundle", cwd=trials.folder, stdout=subprocess.PIPE)
    trials.check("errors closed", quiet.returncode == 3 and quiet.stdout == b"", quiet)
    print("full discs, closed streams, readers gone: tried")


def inputs(trials):
    """Folders, endless inputs, pipes, and inputs at the limit."""
    for name in ("schools", "roster", "lists", "script"):
        def given(path):
            return [path if before == f"--{name}" else word for before, word in zip(["", *trials.calls["run"]], trials.calls["run"])]
        trials.ended(f"{name} is a folder", trials.run(given("/")), 4, f"clearinghouse: cannot read {name}", b"")
        trials.ended(f"{name} is not there", trials.run(given("missing")), 4, f"clearinghouse: cannot read {name}", b"")
        trials.ended(f"{name} is endless", trials.run(given("/dev/zero")), 3, f"clearinghouse: {name} row 0: TooLong", b"")
    with open("/dev/zero", "rb") as endless:
        done = subprocess.run([trials.program], stdin=endless, capture_output=True, timeout=120)
    trials.ended("the bundle is endless", done, 3, "clearinghouse: bundle row 0: TooLong", b"")
    long = trials.folder / "long"
    front = (SCHOOLS).encode()
    words = [word if word != "schools" else "long" for word in trials.calls["match"]]
    whole = trials.run(trials.calls["match"]).stdout
    long.write_bytes(front + b"\n" * (LIMIT - len(front)))
    trials.ended("schools of 64 MiB", trials.run(words), 0, "", whole)
    long.write_bytes(front + b"\n" * (LIMIT - len(front) + 1))
    trials.ended("schools of a byte more", trials.run(words), 3, "clearinghouse: schools row 0: TooLong", b"")
    long.unlink()
    slow = subprocess.Popen([trials.program], stdin=subprocess.PIPE, stdout=subprocess.PIPE, stderr=subprocess.PIPE, cwd=trials.folder)

    def feed():
        for at in range(len(trials.bundle)):
            slow.stdin.write(trials.bundle[at:at + 1])
            slow.stdin.flush()
        slow.stdin.close()

    feeder = threading.Thread(target=feed)
    feeder.start()
    output = slow.stdout.read()
    feeder.join()
    trials.check("a bundle byte by byte", slow.wait() == 0 and output == trials.whole_run, output[:200])
    print("folders, endless inputs, pipes and limits: tried")


def journals(trials):
    """A journal that is an input or the output, under its name or by a link; a device that is both; pipes; an export into no folder."""
    folder = trials.folder
    refused = "clearinghouse: cannot write journal"

    def given(journal):
        return [journal if word == "journal" else word for word in trials.calls["run"]]

    for name in ("schools", "roster", "lists", "script"):
        held = (folder / name).read_bytes()
        (folder / "soft").symlink_to(name)
        (folder / "hard").hardlink_to(folder / name)
        for journal in (name, f"./{name}", "soft", "hard"):
            trials.ended(f"journal {journal} is {name}", trials.run(given(journal)), 4, refused, b"")
            trials.check(f"journal {journal} is {name}", (folder / name).read_bytes() == held, "the input is lost")
        (folder / "soft").unlink()
        (folder / "hard").unlink()
    (folder / "both").write_bytes(b"old\n")
    with open(folder / "both", "ab") as out:
        trials.ended("journal is the output", trials.run(given("both"), stdout=out), 4, refused)
    trials.check("journal is the output", (folder / "both").read_bytes() == b"old\n", "the output is lost")
    with open("/dev/null", "wb") as out:
        trials.ended("journal and output are /dev/null", trials.run(given("/dev/null"), stdout=out), 0, "")
    (folder / "journal").write_bytes(b"1,withdraw,1\n")
    absent = ["missing" if word == "roster" else word for word in trials.calls["run"]]
    trials.ended("journal beside an input that is not there", trials.run(absent), 4, "clearinghouse: cannot read roster", b"")
    trials.check("journal beside an input that is not there", (folder / "journal").read_bytes() == b"1,withdraw,1\n", "the journal is lost")
    os.mkfifo(folder / "pipe")
    trials.ended("no-clobber journal is a pipe", trials.run([*given("pipe"), "--no-clobber"], timeout=20), 4, refused, b"")
    piped = ["/dev/stdin" if word in ("script", "journal") else word for word in trials.calls["run"]]
    trials.ended("journal and script are one pipe", trials.run(piped, SCRIPT.encode(), timeout=20), 4, refused, b"")
    export = ["export", *trials.calls["match"][1:], "--to", ""]
    trials.ended("an export into no folder", trials.run(export), 4, "clearinghouse: cannot write schools.csv: no file is whole", b"")
    print("journals that are inputs, outputs, devices and pipes: tried")


def words(trials):
    """Words that are not UTF-8, also beside --help."""
    line = "clearinghouse: a word of the command line is not UTF-8"
    for given in ([b"caf\xe9"], ["--help", b"\xff"], [*trials.calls["match"], b"\xc3"]):
        trials.ended(f"words {given}", trials.run(given), 2, line, b"")
    print("words that are not UTF-8: tried")


def tool(trials, name, words):
    return subprocess.run([sys.executable, TOOLS / name, *words], cwd=trials.folder, capture_output=True, timeout=120)


def formulas(trials):
    """Names that a spreadsheet takes for formulas: each cell of them has an apostrophe in front, and no other cell has one."""
    (trials.folder / "explained").write_bytes(trials.run(["explain", *trials.calls["match"][1:]]).stdout)
    for name in ("=1+1", "+1", "-1", "@A1", "\t=1+1", "\r=1+1", "\uff1d1+1"):
        (trials.folder / "names").write_bytes(f'number,name\n10,"{name}"\n20,Mill Lane\n'.encode())
        (trials.folder / "students").write_bytes(f'student,name\n1,"{name}"\n2,Ann\n'.encode())
        for language in ("en", "es", "fr"):
            words = ["--explain", "explained", "--names", "names", "--students", "students", "--language", language]
            done = tool(trials, "letters.py", words)
            trials.check(f"letters to {name!r}", done.returncode == 0, done.stderr)
            cells = [cell for row in csv.reader(done.stdout.decode("utf-8-sig").splitlines(keepends=True)) for cell in row]
            run = [cell for cell in cells if cell.startswith(("=", "+", "-", "@", "\t", "\r", "\n", "\uff1d"))]
            trials.check(f"letters to {name!r}", not run, f"cells that a spreadsheet runs: {run}")
            marked = [cell for cell in cells if cell.startswith("'") and not cell[1:].startswith(name.strip())]
            trials.check(f"letters to {name!r}", not marked and "Ann" in cells, f"cells with an apostrophe: {marked}")
    print("names that spreadsheets run: tried")


def wrong_texts(trials):
    """Ranks that no summary has, and an option twice."""
    (trials.folder / "report").write_bytes(trials.run(trials.calls["match"]).stdout)
    summary = trials.run(["summary", *trials.calls["match"][1:]]).stdout
    for rank in (b"0", b"21", b"1000000", b"-1", b"x"):
        (trials.folder / "summary").write_bytes(re.sub(rb"(?m)^1,", rank + b",", summary, count=1))
        done = tool(trials, "page.py", ["--report", "report", "--summary", "summary"])
        line = f"page.py: the summary has the rank {rank.decode()}, and from 1 to 20 are expected"
        trials.ended(f"a page with rank {rank}", done, 2, line, b"")
    done = tool(trials, "audit.py", [*trials.calls["audit"][1:], "--log", "missing"])
    said = done.stderr.decode().splitlines()[-1:]
    trials.check("audit.py with a log twice", done.returncode == 2 and said == ["audit.py: error: the option --log is given twice"], said)
    print("texts and words that the tools refuse: tried")


def long_script(rng, students, schools):
    """Many records, each with the stamp that stands by then; those of students who are gone are refused."""
    stamps, gone, accepted = {}, set(), 0
    for _ in range(2_000):
        word = rng.choice(["rerank", "add", "close", "withdraw"])
        of_school = word in ("add", "close")
        number = rng.choice(schools if of_school else students)
        rest = {"rerank": f",{' '.join(map(str, rng.sample(schools, 5)))}", "withdraw": ""}.get(word, ",1")
        yield f"{stamps.get((of_school, number), 0)},{word},{number}{rest}"
        if of_school or number not in gone:
            accepted += 1
            stamps[of_school, number] = accepted
        if word == "withdraw":
            gone.add(number)


def kills(trials, count):
    """A long run, killed at random moments. It settles each time, so that it lasts."""
    rng = random.Random(1)
    students = range(1, 2_001)
    schools = range(1, 21)
    folder = trials.folder / "long_run"
    folder.mkdir()
    (folder / "schools").write_text("school,zone,seats\n" + "".join(f"{s},0,80\n" for s in schools))
    (folder / "roster").write_text("student,zone,siblings\n" + "".join(f"{i},0,\n" for i in students))
    lists = "".join(f"{i},{' '.join(map(str, rng.sample(schools, 6)))}\n" for i in students)
    (folder / "lists").write_text("student,choices\n" + lists)
    (folder / "script").write_text("".join(f"{record}\n" for record in long_script(rng, students, schools)))
    words = [trials.program, *trials.calls["run settled each time"]]
    began = time.monotonic()
    whole = subprocess.run(words, cwd=folder, capture_output=True, check=True).stdout
    lasted = time.monotonic() - began
    journal = (folder / "journal").read_bytes()
    for at in range(count):
        with open(folder / "out", "wb") as out:
            run = subprocess.Popen(words, cwd=folder, stdout=out, stderr=subprocess.PIPE)
            time.sleep(rng.random() * lasted)
            run.send_signal(signal.SIGKILL)
            run.wait()
        trials.check(f"kill {at}", run.returncode in (0, -signal.SIGKILL), run.returncode)
        trials.fronts(f"kill {at}", (folder / "out").read_bytes(), (folder / "journal").read_bytes() if (folder / "journal").exists() else b"", whole, journal)
    print(f"{count} kills within {lasted:.1f} seconds: tried")


def main():
    parser = argparse.ArgumentParser(description=__doc__.split("\n")[0])
    parser.add_argument("--program", default=str(BUILT))
    parser.add_argument("--kills", type=int, default=60)
    given = parser.parse_args()
    with tempfile.TemporaryDirectory() as name:
        folder = pathlib.Path(name)
        trials = Trials(os.path.abspath(given.program), folder)
        devices(trials)
        inputs(trials)
        journals(trials)
        words(trials)
        formulas(trials)
        wrong_texts(trials)
        address_spaces(trials)
        kills(trials, given.kills)
        refused_growths(trials, folder)
    print(f"{trials.tried} trials, {trials.failed} failed")
    return 1 if trials.failed else 0


if __name__ == "__main__":
    sys.exit(main())
