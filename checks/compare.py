#!/usr/bin/env python3
"""Runs the built program and `reference.py` on random inputs, and compares every byte, status and fault line.

    compare.py SEED CASES [--program PATH] [--jobs N]

A case is a bundle, or a subcommand with its files, or a command line that may be wrong. Its inputs are random markets, tidy,
untidy or tidy but for one thing, often with faults; scripts, journals and logs, right or with changes. The same SEED makes the same cases. Where the two
differ, the inputs are made as small as they can be while they still differ, and printed. The last line counts the cases and the
differences; the status is 1 where there is one.
"""
import argparse
import collections
import multiprocessing
import os
import pathlib
import random
import re
import shutil
import subprocess
import sys
import tempfile

sys.path.insert(0, str(pathlib.Path(__file__).resolve().parent))
import reference  # noqa: E402

HERE = pathlib.Path(__file__).resolve().parent.parent
BUILT = HERE / "crates/clearinghouse/out/clearinghouse"
INPUTS = {"check": ["schools", "roster", "lists", "script"], "match": ["schools", "roster", "lists"], "run": ["schools", "roster", "lists", "script"],
          "audit": ["schools", "roster", "lists", "log", "report"], "replay": ["schools", "roster", "lists", "journal"],
          "summary": ["schools", "roster", "lists", "journal"], "explain": ["schools", "roster", "lists", "journal"],
          "admissions": ["schools", "roster", "lists", "journal"], "changes": ["schools", "roster", "lists", "journal"],
          "export": ["schools", "roster", "lists", "journal"]}
# The inputs that a subcommand may go without.
OPTIONAL = {"check": ["script"], "audit": ["report"], "summary": ["journal"], "explain": ["journal"], "admissions": ["journal"], "export": ["journal"]}
Case = collections.namedtuple("Case", "kind seed texts words")


# ---- markets and texts -------------------------------------------------------------------------------------------

def pick_numbers(rng, count, greatest):
    spread = rng.choice([count + 2, 30, greatest])
    return rng.sample(range(1, max(spread, count) + 1), count) if spread < 10**6 else [rng.randint(1, greatest) for _ in range(count)]


def market(rng):
    schools = pick_numbers(rng, rng.randint(0, 6), 99_999)
    students = list(dict.fromkeys(pick_numbers(rng, rng.randint(0, 9), 999_999_999)))
    some = schools or [7]
    rows = [(school, rng.choice([0, 0, 1, 2]), rng.choice([0, 1, 1, 1, 2, 3])) for school in schools]
    roster = [[student, rng.choice([0, 1, 2]), rng.sample(some, rng.choice([0, 0, 1, min(2, len(some))]))] for student in students]
    if rng.random() < 0.5:
        # A roster of the longer form: a school at which the student continues, or nothing.
        for row in roster:
            row.append(rng.choice([rng.choice(some), ""]))
    lists = [(student, rng.sample(some, rng.randint(1, len(some)))) for student in students]
    if rng.random() < 0.5:
        # Else they stand in the roster's order, and both files are read together.
        rng.shuffle(lists)
    return rows, roster, lists


def spell(rng, value, untidy):
    if isinstance(value, list):
        gap = " " * (rng.choice([1, 1, 2, 3]) if untidy else 1)
        return gap.join(spell(rng, each, untidy) for each in value)
    return "0" * (rng.choice([0, 0, 1, 2]) if untidy and value < 10**6 else 0) + str(value)


def rendered(rng, header, rows, untidy):
    lines = []
    for row in ([header] if header else []) + rows:
        fields = [field if isinstance(field, str) else spell(rng, field, untidy) for field in row]
        if untidy:
            fields = [rng.choice(["", "", " ", "\t"]) + field + rng.choice(["", "", " "]) for field in fields]
            fields = [f'"{field}"' if rng.random() < 0.15 else field for field in fields]
        lines.append(",".join(fields))
        if untidy and rng.random() < 0.1:
            lines.append("")
    end = rng.choice(["\n", "\r\n", "\r"]) if untidy else "\n"
    text = end.join(lines) + (end if lines and not (untidy and rng.random() < 0.3) else "")
    return (reference.MARK if untidy and rng.random() < 0.2 else b"") + text.encode()


def almost_tidy(rng, text):
    """A tidy text with one odd thing at any place, which the reader of tidy rows has to leave to the other one, or to a fault."""
    if rng.random() < 0.3:
        numbers = list(re.finditer(rb"[0-9]+", text))
        if numbers:
            number = rng.choice(numbers)
            longer = rng.choice([number[0].rjust(9, b"0"), number[0].rjust(10, b"0"), b"1000000000", b"999999999", b"0"])
            return text[:number.start()] + longer + text[number.end():]
    place = rng.randint(0, len(text))
    odd = rng.choice([b'"', b'""', b" ", b"  ", b"\t", b"\r", b"\r\n", b"\n", b"\n\n", b",", b",1", b" 1", b"1", b"x", b"\x00", b"\xc2\xa0"])
    return text[:place] + odd + text[place:]


def changed(rng, text):
    """A text with a small change, of a kind that people and programs make."""
    lines = text.split(b"\n")
    at = rng.randrange(len(lines))
    kind = rng.randrange(13)
    if kind == 0 and text:
        place = rng.randrange(len(text))
        return text[:place] + text[place + 1:]
    if kind == 1:
        place = rng.randint(0, len(text))
        return text[:place] + bytes([rng.choice(b'0123456789,, "\t\r\n%x-\xe9\x00')]) + text[place:]
    if kind == 2:
        return text[:rng.randint(0, len(text))]
    if kind == 3:
        lines.insert(at, rng.choice(lines))
    elif kind == 4 and len(lines) > 1:
        del lines[at]
    elif kind == 5:
        other = rng.randrange(len(lines))
        lines[at], lines[other] = lines[other], lines[at]
    elif kind == 6:
        lines[at] += rng.choice([b",", b" ", b",1", b"\r", b'"'])
    elif kind == 7:
        fields = lines[at].split(b",")
        fields[rng.randrange(len(fields))] = rng.choice([b"", b"x", b"0", b"99999", b"100000", b"10000", b"10001", b"1000000000", b"1 1", b"7  8"])
        lines[at] = b",".join(fields)
    elif kind == 8:
        # A byte order mark at the front, or behind blanks or lines without a byte, where it is none that is dropped.
        return rng.choice([b"", b"", b"\n", b" ", b"\t "]) + reference.MARK * rng.choice([1, 2]) + text
    elif kind == 11:
        # As spreadsheets write it elsewhere.
        lines = [line.replace(b",", rng.choice([b";", b"\t"])) for line in lines]
    elif kind == 12:
        return rng.choice([bytes.upper, bytes.title, lambda plain: plain.replace(b"\n", b"\r"), lambda plain: b"\0".join(plain[i:i + 1] for i in range(len(plain) + 1))])(text)
    elif kind == 9:
        fields = lines[at].split(b",")
        fields[-1] = b" ".join(str(n).encode() for n in range(1, rng.choice([20, 21, 22])))
        lines[at] = b",".join(fields)
    elif text:
        place = rng.randrange(len(text))
        return text[:place] + bytes([rng.choice(b"0123456789, \n")]) + text[place + 1:]
    return b"\n".join(lines)


def amendments(rng, rows, roster, count):
    schools = [row[0] for row in rows] + [rng.choice([77, 99_999])]
    students = [row[0] for row in roster] + [rng.randint(1, 40) for _ in range(3)]

    def some(most):
        return [rng.choice(schools) if rng.random() < 0.1 else school for school in rng.sample(schools[:-1] or schools, min(rng.randint(0, most), len(schools[:-1] or schools)))]

    for _ in range(count):
        student, school, zone = rng.choice(students), rng.choice(schools), rng.choice([0, 1, 2])
        # Where a student continues: left out, or nothing, or a school.
        continuing = rng.choice([[], [], [""], [rng.choice(schools)], [rng.choice(schools)]])
        yield rng.choice([["enter", student, zone, some(2), some(4), *continuing], ["withdraw", student], ["rerank", student, some(4)],
                          ["add", school, rng.choice([1, 2, 3, 10_000])], ["close", school, rng.choice([1, 1, 2, 9_999])],
                          ["correct", student, zone, some(2), *continuing],
                          ["enter", rng.randint(1, 60), zone, some(2), some(5), *continuing]])


def stamped(rng, texts, rows):
    """Records of amendments with stamps in front: mostly the one that stands by then, some stale, left out or out of form."""
    try:
        papers = reference.papers_of(b"0" * 32, *(texts[name] for name in INPUTS["match"]))
    except reference.Stop:
        papers = reference.Papers(b"0" * 32)
    for row in rows:
        fields = [(field if isinstance(field, str) else spell(rng, field, False)).encode() for field in row]
        stands = papers.stamps.get(reference.record_of(reference.amendment_of(fields)), 0)
        kind = rng.random()
        if kind < 0.8:
            stamp = [str(stands)]
        elif kind < 0.92:
            stamp = [str(rng.choice([0, stands + 1, max(stands - 1, 0), papers.accepted, rng.randint(0, 9), 999_999_999]))]
        elif kind < 0.96:
            stamp = []
        else:
            stamp = [rng.choice(["", "x", "-1", "+1", "1 1", "1000000000"])]
        if stamp and rng.random() < 0.2:
            stamp = [rng.choice(["0", "00", "0000000"]) + stamp[0]]
        read = reference.stamped_of([*(text.encode() for text in stamp), *fields])
        if read and papers.stamped_refusal(*read) is None:
            papers.make_stamped(read[1])
        yield [*stamp, *row]


def roster_header(rng, roster):
    """The header of a roster whose rows have three fields or four."""
    longer = len(roster[0]) == 4 if roster else rng.random() < 0.5
    return ["student", "zone", "siblings", "continuing"] if longer else ["student", "zone", "siblings"]


def seed_text(rng):
    if rng.random() < 0.5:
        return b"0" * 64
    text = "".join(rng.choice("0123456789abcdefABCDEF") for _ in range(64))
    if rng.random() < 0.06:
        text = rng.choice([text[1:], text + "0", text[:20] + rng.choice("gG-. ") + text[21:], ""])
    return text.encode()


def make_case(seed, at):
    rng = random.Random(f"{seed}:{at}")
    rows, roster, lists = market(rng)
    untidy = rng.random() < 0.3
    texts = {"schools": rendered(rng, ["school", "zone", "seats"], [list(row) for row in rows], untidy),
             "roster": rendered(rng, roster_header(rng, roster), roster, untidy),
             "lists": rendered(rng, ["student", "choices"], [list(row) for row in lists], untidy)}
    if not untidy and rng.random() < 0.4:
        name = rng.choice(["schools", "roster", "lists"])
        texts[name] = almost_tidy(rng, texts[name])
    kind = rng.choice(["bundle", "bundle", "check", "check", "match", "run", "run", "audit", "replay", "summary", "explain", "admissions", "changes", "export", "words"])
    script = rendered(rng, None, list(stamped(rng, texts, amendments(rng, rows, roster, rng.randint(0, 12)))), untidy)
    key = b"0" * 32
    if kind == "run" or (kind in ("bundle", "check") and rng.random() < 0.6):
        texts["script"] = script
    elif kind == "audit":
        try:
            log = reference.call_match(key, *(texts[name] for name in INPUTS["match"]), print_log=True)[0]
        except reference.Stop:
            log = b"1,1\n"
        texts["log"] = log if rng.random() < 0.4 else rng.choice([almost_tidy, changed])(rng, log)
        if rng.random() < 0.6:
            texts["report"] = published(rng, key, texts)
    elif kind in ("replay", "changes") or (kind in OPTIONAL and rng.random() < 0.7):
        try:
            journal = reference.call_run(key, *(texts[name] for name in INPUTS["match"]), script)[1]
        except reference.Stop:
            journal = b"1,withdraw,1\n"
        texts["journal"] = journal if rng.random() < 0.4 else changed(rng, journal)
    # A check is mostly of files with several faults.
    for _ in range(rng.randint(0, 6) if kind == "check" else rng.random() < 0.4):
        name = rng.choice(sorted(texts))
        texts[name] = changed(rng, texts[name])
    seed_given = seed_text(rng) if kind in ("bundle", "match", "run") else rng.choice([b"0" * 64, seed_text(rng)])
    if kind == "bundle":
        end = rng.choice([b"\n", b"\n", b"\r\n"])
        whole = b"".join(b"%" + name.encode() + end + text + (b"" if text.endswith(b"\n") or rng.random() < 0.02 else end)
                         for name, text in [("seed", seed_given + b"\n"), *texts.items()])
        return Case("bundle", b"", {"bundle": changed(rng, whole) if rng.random() < 0.1 else whole}, None)
    if kind == "words":
        return Case("words", seed_given, texts, wrong_words(rng))
    if kind == "explain":
        return Case(kind, seed_given, texts, student_words(rng, roster))
    if kind == "admissions":
        return Case(kind, seed_given, texts, school_words(rng, rows))
    if kind == "changes":
        return Case(kind, seed_given, texts, since_words(rng, texts["journal"]))
    if kind == "run":
        # Sometimes there is a journal already, empty or not.
        if rng.random() < 0.3:
            texts["written"] = rng.choice([b"", b"1,withdraw,1\n"])
        return Case(kind, seed_given, texts, [flag for flag in ("--no-clobber", "--settle-each", "--settle-at-end") if rng.random() < 0.4])
    return Case(kind, seed_given, texts, table_words(rng, kind) if kind in ("match", "replay") else [])


def published(rng, key, texts):
    """A report that was published with a log: the right one, or one with a change, or with replies in front."""
    try:
        report = reference.call_match(key, *(texts[name] for name in INPUTS["match"]))[0]
    except reference.Stop:
        report = b"student,school\n"
    kind = rng.randrange(6)
    if kind < 2:
        return report
    if kind == 2:
        return rng.choice([b"1,ok\n", b"\n", b"\xef\xbb\xbf"]) + report
    if kind == 3:
        return report[:rng.randint(0, len(report))]
    if kind == 4:
        return report + rng.choice([b"\n", b"1", report])
    return changed(rng, report)


def table_words(rng, kind):
    """What a report is to be: whole, a log, or one of its tables, by a name that is not always one."""
    words = ["--table=" + rng.choice(["assignment", "cutoffs", "reasons", "assignment", "cutoffs", "reasons", "Reasons", "", "log"])] if rng.random() < 0.4 else []
    return words + (["--print-log"] if kind == "match" and rng.random() < (0.1 if words else 0.5) else [])


def student_words(rng, roster):
    """Whom alone `explain` is to tell of: nobody, or somebody of the roster or of the script, or what is no number of a student."""
    known = [row[0] for row in roster] + [rng.randint(1, 60)]
    student = rng.choice(["0", "", "x", "-1", " 1", "1000000000", "0000000001"]) if rng.random() < 0.2 else "0" * rng.choice([0, 0, 1]) + str(rng.choice(known))
    return rng.choice([[], ["--student=" + student]])


def school_words(rng, rows):
    """Of which school alone `admissions` is to tell: of none, or of one of the file of the schools, or what is no number of a school."""
    known = [row[0] for row in rows] + [rng.randint(1, 60)]
    school = rng.choice(["0", "", "x", "-1", " 1", "100000", "0000000001"]) if rng.random() < 0.2 else "0" * rng.choice([0, 0, 1]) + str(rng.choice(known))
    return rng.choice([[], ["--school=" + school]])


def since_words(rng, journal):
    """Since which line `changes` is to tell: since the opening, or one that the journal has, or one that it has not, or what is no number."""
    lines = journal.count(b"\n")
    since = rng.choice(["", "x", "-1", " 1", "1000000000", "0000000001"]) if rng.random() < 0.15 else "0" * rng.choice([0, 0, 1]) + str(rng.randint(0, lines + rng.choice([0, 0, 0, 2])))
    return [] if rng.random() < 0.3 else ["--since=" + since]


def seeded(kind):
    """The option that every subcommand but `check` has before its inputs."""
    return [] if kind == "check" else ["seed"]


def wrong_words(rng):
    """A command line that is none of the subcommands' own."""
    name = rng.choice(sorted(INPUTS))
    words = [[f"--{each}", each] for each in [*seeded(name), *INPUTS[name]] if each not in OPTIONAL.get(name, [])]
    if name == "run":
        words.append(["--journal", "journal"])
    elif name == "export":
        words.append(["--to", "next"])
    kind = rng.randrange(6)
    if kind == 0:
        del words[rng.randrange(len(words))]
    elif kind == 1:
        words.append(rng.choice(words))
    elif kind == 2:
        words.append([rng.choice(["--sead", "-x", "extra", "--log-print"])])
    elif kind == 3:
        words[-1] = [words[-1][0]]
    elif kind == 4:
        name = rng.choice(["mtch", "Match", "--match", "open"])
    else:
        words = []
    rng.shuffle(words) if kind != 3 else None
    return [name, *(word for pair in words for word in pair)]


# ---- running both ------------------------------------------------------------------------------------------------

def expected(case):
    """What a call gives by the rules. Of a run that made no journal, the journal is None; of a call that keeps none, it is empty."""
    output, journal, line, status = told(case)
    if case.kind == "run" and (journal is None or ("--no-clobber" in case.words and case.texts.get("written"))):
        # The old journal, if there is one, is as it was.
        line, status = (line, status) if journal is None else (b"clearinghouse: cannot write journal\n", 4)
        return b"", case.texts.get("written"), line, status
    return output, journal if case.kind == "run" else journal or b"", line, status


def told(case):
    if case.kind == "bundle":
        return reference.told(reference.call_bundle, case.texts["bundle"])
    call = {"check": reference.call_check, "match": reference.call_match, "run": reference.call_run, "audit": reference.call_audit, "replay": reference.call_replay,
            "summary": reference.call_summary, "explain": reference.call_explain, "admissions": reference.call_admissions, "changes": reference.call_changes,
            "export": reference.call_export}[case.kind]

    def made():
        given = [case.texts[name] for name in INPUTS[case.kind] if name in case.texts]
        if case.kind == "check":
            return reference.call_check(*given)
        key = reference.seed_of(case.seed)
        if case.kind == "explain" and case.words:
            return call(key, *given, student=case.words[0].split("=", 1)[1].encode())
        if case.kind == "admissions" and case.words:
            return call(key, *given, school=case.words[0].split("=", 1)[1].encode())
        if case.kind == "changes" and case.words:
            return call(key, *given, since=case.words[0].split("=", 1)[1].encode())
        options = {"print_log": True} if "--print-log" in case.words else {}
        options |= {"table": word.split("=", 1)[1].encode() for word in case.words if word.startswith("--table=")}
        return call(key, *given, **options)

    return reference.told(made)


def actual(case, program, folder):
    if case.kind == "bundle":
        done = subprocess.run([program], input=case.texts["bundle"], capture_output=True, cwd=folder)
        return done.stdout, b"", done.stderr, done.returncode
    for name, text in case.texts.items():
        (folder / name).write_bytes(text)
    if case.kind == "words":
        done = subprocess.run([program, *case.words], stdin=subprocess.DEVNULL, capture_output=True, cwd=folder)
        return done.stdout, b"", b"", done.returncode
    words = [case.kind, *(word for each in seeded(case.kind) for word in (f"--{each}", case.seed.decode()))]
    for name in INPUTS[case.kind]:
        if name in case.texts:
            words += [f"--{name}", name]
    if case.kind == "run":
        if "written" not in case.texts:
            (folder / "written").unlink(missing_ok=True)
        words += ["--journal", "written"]
    following = folder / "next"
    if case.kind == "export":
        shutil.rmtree(following, ignore_errors=True)
        following.mkdir()
        words += ["--to", "next"]
    done = subprocess.run([program, *words, *case.words], stdin=subprocess.DEVNULL, capture_output=True, cwd=folder)
    if case.kind == "export":
        return done.stdout, {file.name: file.read_bytes() for file in following.iterdir()} or b"", done.stderr, done.returncode
    if case.kind == "run":
        written = folder / "written"
        return done.stdout, written.read_bytes() if written.exists() else None, done.stderr, done.returncode
    return done.stdout, b"", done.stderr, done.returncode


def differ(case, program, folder):
    want = (b"", b"", b"", 2) if case.kind == "words" else expected(case)
    got = actual(case, program, folder)
    return None if want == got else (want, got)


def smaller(case, program, folder):
    """The case with as few lines, and then as few bytes, as still differ."""
    for cut in (lambda text: text.splitlines(keepends=True), lambda text: [text[i:i + 1] for i in range(len(text))]):
        again = True
        while again:
            again = False
            for name, text in case.texts.items():
                parts = cut(text)
                if len(parts) > 400:
                    continue
                for at in range(len(parts)):
                    tried = case._replace(texts={**case.texts, name: b"".join(parts[:at] + parts[at + 1:])})
                    if differ(tried, program, folder):
                        case, again = tried, True
                        break
    return case


def work(given):
    seed, first, last, program = given
    shared = pathlib.Path("/dev/shm")
    found = []
    with tempfile.TemporaryDirectory(dir=shared if shared.is_dir() else None) as name:
        folder = pathlib.Path(name)
        for at in range(first, last):
            case = make_case(seed, at)
            if differ(case, program, folder):
                case = smaller(case, program, folder)
                found.append((at, case, differ(case, program, folder)))
    return last - first, found


def main():
    parser = argparse.ArgumentParser(description=__doc__.split("\n")[0])
    parser.add_argument("seed")
    parser.add_argument("cases", type=int)
    parser.add_argument("--program", default=str(BUILT))
    parser.add_argument("--jobs", type=int, default=os.cpu_count())
    given = parser.parse_args()
    step = 200
    parts = [(given.seed, first, min(first + step, given.cases), os.path.abspath(given.program)) for first in range(0, given.cases, step)]
    cases = differences = 0
    with multiprocessing.Pool(given.jobs) as pool:
        for tried, found in pool.imap_unordered(work, parts):
            cases += tried
            differences += len(found)
            for at, case, (want, got) in found[:3]:
                print(f"case {at}: {case.kind} {case.words or ''} seed {case.seed.decode()}")
                for name, text in case.texts.items():
                    print(f"  {name}: {text!r}")
                for what, left, right in zip(("output", "journal", "line", "status"), want, got):
                    if left != right:
                        print(f"  {what}: the rules give {left!r}, the program {right!r}")
    print(f"{cases} cases, {differences} differences")
    return 1 if differences else 0


if __name__ == "__main__":
    sys.exit(main())
