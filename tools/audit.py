#!/usr/bin/env python3
"""An auditor for whoever trusts nobody: it judges a published outcome by the rules, and by nothing else.

  python3 audit.py --seed HEX --schools F --roster F --lists F --log F [--report F]

It is one file of plain Python, and shares nothing with the program that made the outcome, not even the lottery's
cipher: read it, or write your own by docs/FORMATS.md. It prints one line:

  certified              each entry of the log is one that the rules allow, no school has more students than seats at
                         its end, nobody has a claim to a better place, and the report, if one is given, is exactly
                         that of this outcome
  bad entry LINE         this record of the log, from 1, is the first that the rules do not allow
  over SCHOOL            at the end of the log more students have this school than it has seats
  report differs LINE    the log is right, but this line of the report, from 1, is not what follows from it

and its status is 0 for the first and 1 for the others; 2 for wrong words or a bad seed, 3 for a file with a fault, and
4 for one that cannot be read. A market of 200,000 students takes about a minute.
"""
import argparse
import heapq
import pathlib
import re
import struct
import sys

MOST_BYTES, MOST_SCHOOLS, MOST_STUDENTS, MOST_LISTED = 67_108_864, 5_000, 200_000, 20
STUDENT, SCHOOL, ZONE, SEATS = (1, 999_999_999), (1, 99_999), (0, 9_999), (0, 10_000)
MARK = b"\xef\xbb\xbf"
DIGITS = re.compile(rb"[0-9]{1,9}")


class Fault(Exception):
    """A file that is no file of its kind: which, its row, and why."""


MASK = 0xFFFFFFFF
# The words of each quarter round of a double round: first the columns, then the diagonals.
QUARTERS = ((0, 4, 8, 12), (1, 5, 9, 13), (2, 6, 10, 14), (3, 7, 11, 15),
            (0, 5, 10, 15), (1, 6, 11, 12), (2, 7, 8, 13), (3, 4, 9, 14))


def block(key, counter):
    """The sixteen words of a block of the lottery's key stream: RFC 8439's block function, with a 64-bit counter and a
    stream number of 0."""
    start = (*struct.unpack("<4I", b"expand 32-byte k"), *struct.unpack("<8I", key), counter & MASK, counter >> 32, 0, 0)
    x = list(start)
    for _ in range(10):
        for i, j, k, l in QUARTERS:
            a, b, c, d = x[i], x[j], x[k], x[l]
            for left_of_d, left_of_b in ((16, 12), (8, 7)):
                a = (a + b) & MASK
                d ^= a
                d = (d << left_of_d | d >> 32 - left_of_d) & MASK
                c = (c + d) & MASK
                b ^= c
                b = (b << left_of_b | b >> 32 - left_of_b) & MASK
            x[i], x[j], x[k], x[l] = a, b, c, d
    return [(one + other) & MASK for one, other in zip(x, start)]


def draws_of(key, students):
    """The draw of each student: two words of the key stream, at twice their number. The smaller is ahead."""
    draws, at, words = {}, None, None
    for student in sorted(students):
        place = 2 * student
        if place // 16 != at:
            at = place // 16
            words = block(key, at)
        draws[student] = words[place % 16] << 32 | words[place % 16 + 1]
    return draws


def quoted_records(text):
    """Cuts a text that may have quotes into records, byte by byte."""
    rows, row, field, state = [], [], bytearray(), "start of record"
    for byte in text:
        char = bytes((byte,))
        if state == "start of record" and char in (b"\r", b"\n"):
            continue
        if state == "in quotes":
            if char == b'"':
                state = "after a quote"
            else:
                field += char
        elif char == b'"' and state in ("start of record", "start of field"):
            state = "in quotes"
        elif char == b'"' and state == "after a quote":
            field += char
            state = "in quotes"
        elif char in (b",", b"\r", b"\n"):
            row.append(bytes(field))
            field.clear()
            state = "start of field"
            if char != b",":
                rows.append(row)
                row, state = [], "start of record"
        else:
            field += char
            state = "in field"
    if state != "start of record":
        rows.append(row + [bytes(field)])
    return rows


def records_of(source, text):
    """The records of an input, each a list of fields without the blanks around them."""
    if len(text) > MOST_BYTES:
        raise Fault(source, 0, "TooLong")
    text = text.removeprefix(MARK)
    if text.startswith(MARK):
        raise Fault(source, 1, "Header")
    if b'"' in text:
        rows = quoted_records(text)
    else:
        rows = (line.split(b",") for line in text.replace(b"\r", b"\n").split(b"\n") if line)
    return [[field.strip(b" \t") for field in row] for row in rows]


def number(field):
    return int(field) if DIGITS.fullmatch(field) else None


def numbers(field):
    return list(map(number, filter(None, field.split(b" "))))


def test(source, row, *found):
    """Tests numbers, each with its limits: first the form of all, then the range of all."""
    if any(value is None for value, _ in found):
        raise Fault(source, row, "Number")
    if any(not least <= value <= greatest for value, (least, greatest) in found):
        raise Fault(source, row, "Range")


def rows_of(source, text, headers, most, read_row):
    """The rows of a file by their first number, each with where it stands. `read_row` gives a row's numbers with their
    limits, and what is kept of it."""
    records, found = records_of(source, text), {}
    if not records or records[0] not in headers:
        raise Fault(source, 1, "Header")
    for row, fields in enumerate(records[1:], 2):
        if row > most + 1:
            raise Fault(source, row, "TooLong")
        if len(fields) != len(records[0]):
            raise Fault(source, row, "Fields")
        numbered, kept = read_row(fields)
        test(source, row, *numbered)
        if numbered[0][0] in found:
            raise Fault(source, row, "Twice")
        found[numbered[0][0]] = (row, *kept)
    return found


def school_row(fields):
    school, zone, seats = map(number, fields)
    return [(school, SCHOOL), (zone, ZONE), (seats, SEATS)], (zone, seats)


def roster_row(fields):
    student, zone, siblings = number(fields[0]), number(fields[1]), numbers(fields[2])
    continuing = [number(field) for field in fields[3:] if field]
    named = [(school, SCHOOL) for school in siblings + continuing]
    return [(student, STUDENT), (zone, ZONE), *named], (zone, siblings, continuing)


def lists_row(fields):
    student, choices = number(fields[0]), numbers(fields[1])
    return [(student, STUDENT), *((school, SCHOOL) for school in choices)], (choices,)


SHORTER = [b"student", b"zone", b"siblings"]
# Of each file: its headers, how many rows it may have, and how a row is read.
FILES = {"schools": ([[b"school", b"zone", b"seats"]], MOST_SCHOOLS, school_row),
         "roster": ([SHORTER, [*SHORTER, b"continuing"]], MOST_STUDENTS, roster_row),
         "lists": ([[b"student", b"choices"]], MOST_STUDENTS, lists_row)}


def read_log(text):
    """The entries of a log: who was rejected, and where."""
    entries = []
    for row, fields in enumerate(records_of("log", text), 1):
        if len(fields) != 2:
            raise Fault("log", row, "Fields")
        student, school = map(number, fields)
        test("log", row, (student, STUDENT), (school, SCHOOL))
        entries.append((student, school))
    return entries


def objection(schools, choices, siblings, continuing):
    """Why the rules refuse a student of the roster, or nothing."""
    if not choices:
        return "4 EmptyList"
    if len(choices) > MOST_LISTED or len(siblings) > MOST_LISTED:
        return "5 ListTooLong"
    for school in choices + siblings + continuing:
        if school not in schools:
            return f"6 UnknownSchool {school}"
    for listed in (choices, siblings):
        for place, school in enumerate(listed):
            if school in listed[:place]:
                return f"7 SchoolTwice {school}"
    return None


class Papers:
    """The schools, and each student's choices and keys: class, draw and number; the smaller key is ahead."""

    def __init__(self, key, schools, roster, lists):
        self.schools, self.choices, self.about = schools, {}, {}
        for student, (row, zone, siblings, continuing) in roster.items():
            if student not in lists:
                raise Fault("roster", row, "NoList")
            choices = lists[student][1]
            why = objection(schools, choices, siblings, continuing)
            if why:
                raise Fault("roster", row, f"Refused {why}")
            self.choices[student] = choices
            self.about[student] = (zone, siblings, continuing)
        for student, (row, *_) in lists.items():
            if student not in roster:
                raise Fault("lists", row, "NotInRoster")
        self.draws = draws_of(key, roster)

    def seats(self, school):
        return self.schools[school][2]

    def turned_key(self, student, school):
        return tuple(-part for part in self.key(student, school))

    def key(self, student, school):
        zone, siblings, continuing = self.about[student]
        if school in continuing:
            return 0, self.draws[student], student
        elsewhere = zone == 0 or zone != self.schools[school][1]
        return (1 if school in siblings else 3) + elsewhere, self.draws[student], student


class Standings:
    """Where everybody stands after the entries so far, each at the first choice that has not rejected them.

    Of each school it keeps how many stand there, and the keys of the best of them, as many as it has seats, in a heap
    with the worst on top (turned round). An entry is allowed where the student stands at the school and is not among
    these: then as many as it has seats are ahead. So none of these ever leaves but for somebody who is ahead.
    """

    def __init__(self, papers):
        self.papers = papers
        self.ranks = dict.fromkeys(papers.choices, 0)
        self.waiting = dict.fromkeys(papers.schools, 0)
        self.best = {school: [] for school in papers.schools}
        for student in papers.choices:
            self.arrive(student)

    def next_choice(self, student):
        left = self.papers.choices.get(student, ())[self.ranks.get(student, 0):]
        return left[0] if left else None

    def arrive(self, student):
        school = self.next_choice(student)
        if school is None:
            return
        self.waiting[school] += 1
        best, turned = self.best[school], self.papers.turned_key(student, school)
        if len(best) < self.papers.seats(school):
            heapq.heappush(best, turned)
        elif best and turned > best[0]:
            heapq.heapreplace(best, turned)

    def reject(self, student, school):
        """Takes an entry of the log, or answers False where the rules do not allow it."""
        best = self.best.get(school, [])
        if self.next_choice(student) != school or len(best) < self.papers.seats(school):
            return False
        if best and self.papers.turned_key(student, school) >= best[0]:
            return False
        self.waiting[school] -= 1
        self.ranks[student] += 1
        self.arrive(student)
        return True


def judge(papers, entries, standings):
    """The verdict on a log, whose entries are taken by the standings."""
    for line, (student, school) in enumerate(entries, 1):
        if not standings.reject(student, school):
            return f"bad entry {line}"
    over = [school for school in papers.schools if standings.waiting[school] > papers.seats(school)]
    return f"over {min(over)}" if over else "certified"


def cutoffs_of(papers, places):
    """Of each school how many have it, and the last key among them."""
    held, last = dict.fromkeys(papers.schools, 0), {}
    for student, school in places.items():
        if school is not None:
            key = papers.key(student, school)
            held[school] += 1
            last[school] = max(last.get(school, key), key)
    return held, last


def claims(papers, places, held, last):
    """Yields each student and school that block: the student prefers it to what they have, and it has a seat that
    nobody has, or somebody has who is behind them. A stable assignment has none."""
    for student, choices in papers.choices.items():
        for school in choices:
            if school == places[student]:
                break
            if held[school] < papers.seats(school) or (held[school] and papers.key(student, school) < last[school]):
                yield student, school


def report_lines(papers, places, held, last):
    """Yields the lines of the report: the assignment, the cutoffs, and a reason for each place not given."""
    yield "student,school"
    for student in sorted(places):
        yield f"{student},{places[student] or '-'}"
    yield "school,seats,held,class,draw,student"
    for school in sorted(papers.schools):
        seats = papers.seats(school)
        if seats == 0:
            yield f"{school},0,0,closed,-,-"
        elif held[school] < seats:
            yield f"{school},{seats},{held[school]},free,-,-"
        else:
            best, draw, student = last[school]
            yield f"{school},{seats},{held[school]},{best},{draw:016x},{student}"
    yield "student,school,reason"
    for student in sorted(places):
        for school in papers.choices[student]:
            if school == places[student]:
                break
            if papers.seats(school) == 0:
                reason = "seats"
            elif last[school][0] < papers.key(student, school)[0]:
                reason = "class"
            else:
                reason = "lottery"
            yield f"{student},{school},{reason}"


def first_difference(lines, text):
    """The first line, from 1, at which a text is not these lines, each ended by a newline; nothing where it is."""
    found = text.split(b"\n")
    at = 0
    for at, line in enumerate(lines, 1):
        if at >= len(found) or found[at - 1] != line.encode():
            return at
    return None if len(found) == at + 1 and found[at] == b"" else at + 1


def verdict(papers, entries, report):
    """What the auditor says of a log, and of a report if there is one."""
    standings = Standings(papers)
    said = judge(papers, entries, standings)
    if said != "certified":
        return said
    places = {student: standings.next_choice(student) for student in papers.choices}
    held, last = cutoffs_of(papers, places)
    for student, school in claims(papers, places, held, last):
        # A settled log leaves none, so this would be a fault of the reasoning or of this program.
        return f"not stable: student {student} has a claim to school {school}"
    if report is not None:
        line = first_difference(report_lines(papers, places, held, last), report)
        if line is not None:
            return f"report differs {line}"
    return said


class Once(argparse.Action):
    """An option that is given at most once."""

    def __call__(self, words, given, value, option=None):
        if getattr(given, self.dest) is not None:
            words.error(f"the option {option} is given twice")
        setattr(given, self.dest, value)


def main():
    words = argparse.ArgumentParser(description=__doc__, formatter_class=argparse.RawDescriptionHelpFormatter)
    for name in ("seed", "schools", "roster", "lists", "log"):
        words.add_argument(f"--{name}", required=True, action=Once)
    words.add_argument("--report", action=Once)
    given = words.parse_args()
    if not re.fullmatch("[0-9a-fA-F]{64}", given.seed):
        words.error("the seed is 64 hexadecimal digits")
    texts = {}
    for name in ("schools", "roster", "lists", "log", "report"):
        path = getattr(given, name)
        try:
            texts[name] = None if path is None else pathlib.Path(path).read_bytes()
        except OSError:
            print(f"audit.py: cannot read {name}", file=sys.stderr)
            return 4
    try:
        rows = [rows_of(name, texts[name], *form) for name, form in FILES.items()]
        papers = Papers(bytes.fromhex(given.seed), *rows)
        said = verdict(papers, read_log(texts["log"]), texts["report"])
    except Fault as fault:
        print("audit.py: {} row {}: {}".format(*fault.args), file=sys.stderr)
        return 3
    print(said)
    return 0 if said == "certified" else 1


if __name__ == "__main__":
    sys.exit(main())
