#!/usr/bin/env python3
"""A second reading of the rules, in plain Python, by what docs/ says. It shares no code with the crates.

It is slow and simple on purpose: `compare.py` runs it beside the built program on random inputs.

    reference.py                           reads a bundle from standard input
    reference.py check --schools .. --roster .. --lists .. [--script ..]
    reference.py match --seed .. --schools .. --roster .. --lists .. [--print-log] [--table TABLE]
    reference.py run .. --script .. --journal .. [--settle-each] [--settle-at-end], which change no byte
    reference.py audit .. --log .. [--report ..]
    reference.py replay .. --journal .. [--table TABLE]
    reference.py summary .. [--journal ..]
    reference.py explain .. [--journal ..] [--student N]
    reference.py admissions .. [--journal ..] [--school N]
    reference.py changes .. --journal .. [--since LINE]
    reference.py export .. [--journal ..] --to FOLDER

Each call is also a function here: it takes the bytes of the inputs and gives (output, journal, fault line, status); that of
`export` gives the files by their names in place of the journal.
"""
import re
import struct
import sys

FLAGS = ("--print-log", "--settle-each", "--settle-at-end")
MOST_BYTES = 67_108_864
MOST_SCHOOLS = 5_000
MOST_STUDENTS = 200_000
MOST_LISTED = 20
MOST_SEATS = 10_000
LAST_LINE = 999_999_999
LAST_STAMP = 999_999_999
MARK = b"\xef\xbb\xbf"
STUDENT, SCHOOL, ZONE, SEATS, COUNT = (1, 999_999_999), (1, 99_999), (0, 9_999), (0, MOST_SEATS), (1, MOST_SEATS)


class Stop(Exception):
    """A call ended early: its fault line, without the program's name, and its status; and whether a file was opened before."""

    def __init__(self, line, status, opened=True):
        super().__init__(line)
        self.line, self.status, self.opened = line, status, opened


class Intake(Stop):
    """A fault of an input, by its parts too."""

    def __init__(self, source, row, cause):
        super().__init__(f"{source} row {row}: {cause}", 3)
        self.source, self.row, self.cause = source, row, cause


def intake(source, row, cause):
    return Intake(source, row, cause)


# ---- the lottery -------------------------------------------------------------------------------------------------

def chacha_block(key, counter):
    """RFC 8439's block function with a 64-bit counter and a 64-bit stream number of 0: sixteen words."""
    start = [0x61707865, 0x3320646E, 0x79622D32, 0x6B206574, *struct.unpack("<8I", key),
             counter & 0xFFFFFFFF, counter >> 32, 0, 0]
    words = list(start)

    def turn(a, b, c, d):
        for first, second, left in ((a, b, 16), (c, d, 12), (a, b, 8), (c, d, 7)):
            other = d if first == a else b
            words[first] = (words[first] + words[second]) & 0xFFFFFFFF
            mixed = words[other] ^ words[first]
            words[other] = ((mixed << left) | (mixed >> (32 - left))) & 0xFFFFFFFF

    for _ in range(10):
        turn(0, 4, 8, 12), turn(1, 5, 9, 13), turn(2, 6, 10, 14), turn(3, 7, 11, 15)
        turn(0, 5, 10, 15), turn(1, 6, 11, 12), turn(2, 7, 8, 13), turn(3, 4, 9, 14)
    return [(a + b) & 0xFFFFFFFF for a, b in zip(words, start)]


def draw(key, student, blocks={}):
    place = 2 * student
    at = (key, place // 16)
    if at not in blocks:
        if len(blocks) > 100_000:
            blocks.clear()
        blocks[at] = chacha_block(key, place // 16)
    return blocks[at][place % 16] << 32 | blocks[at][place % 16 + 1]


def seed_of(text):
    """The 32 bytes of 64 hexadecimal digits."""
    if len(text) != 64:
        raise Stop("seed: Length", 2, opened=False)
    for place, byte in enumerate(text):
        if byte not in b"0123456789abcdefABCDEF":
            raise Stop(f"seed: Digit {place}", 2, opened=False)
    return bytes.fromhex(text.decode())


# ---- records, fields and files -----------------------------------------------------------------------------------

def records(text):
    """Cuts comma-separated values into records of fields. Lines without any byte give none."""
    rows, row, field, state = [], [], bytearray(), "record"

    def end_field():
        row.append(bytes(field).strip(b" \t"))
        field.clear()

    def end_record():
        end_field()
        rows.append(list(row))
        row.clear()

    for byte in text:
        if state == "record" and byte in b"\r\n":
            continue
        if state == "quoted":
            if byte == 0x22:
                state = "quote"
            else:
                field.append(byte)
        elif state in ("record", "field") and byte == 0x22:
            state = "quoted"
        elif state == "quote" and byte == 0x22:
            field.append(byte)
            state = "quoted"
        elif byte == 0x2C:
            end_field()
            state = "field"
        elif byte in b"\r\n":
            end_record()
            state = "record"
        else:
            field.append(byte)
            state = "plain"
    if state != "record":
        end_record()
    return rows


def records_of(source, text):
    """The records of an input: within its limit, and with one byte order mark at most."""
    if len(text) > MOST_BYTES:
        raise intake(source, 0, "TooLong")
    if text.startswith(MARK):
        text = text[len(MARK):]
    if text.startswith(MARK):
        raise intake(source, 1, "Header")
    return records(text)


class Bad(Exception):
    """A field of a row is faulty, for this cause."""


def number(field):
    if not re.fullmatch(rb"[0-9]{1,9}", field):
        raise Bad("Number")
    return int(field)


def numbers(field):
    return [number(word) for word in field.split(b" ") if word]


def within(limits, *found):
    for value in found:
        if not limits[0] <= value <= limits[1]:
            raise Bad("Range")


def judged(source, text, headers, most, read):
    """The rows of a file with one of these headers, each as `read` gives it: its own number first. A row that has a fault is passed
    over; the faults stand beside the rows, in order."""
    found = records_of(source, text)
    if not found or found[0] not in headers:
        raise intake(source, 1, "Header")
    header = found[0]
    rows, seen, faults = [], set(), []
    for at, fields in enumerate(found[1:], start=2):
        try:
            if len(rows) >= most:
                raise Bad("TooLong")
            if len(fields) != len(header):
                raise Bad("Fields")
            row = read(fields)
            if row[0] in seen:
                raise Bad("Twice")
        except Bad as bad:
            faults.append(intake(source, at, bad.args[0]))
            continue
        seen.add(row[0])
        rows.append((at, *row))
    return rows, faults


def unless_faulty(found, faults):
    """What was found, where there is no fault; else the call ends with the first."""
    if faults:
        raise faults[0]
    return found


def school_row(fields):
    school, zone, seats = (number(field) for field in fields)
    within(SCHOOL, school), within(ZONE, zone), within(SEATS, seats)
    return school, zone, seats


def school_or_none(field):
    """The number of a school, or nobody's where the field is empty."""
    return number(field) if field else None


def roster_row(fields):
    student, zone, siblings = number(fields[0]), number(fields[1]), numbers(fields[2])
    continuing = school_or_none(fields[3]) if len(fields) == 4 else None
    within(STUDENT, student), within(ZONE, zone), within(SCHOOL, *siblings)
    within(SCHOOL, *([] if continuing is None else [continuing]))
    return student, zone, siblings, continuing


def lists_row(fields):
    student, choices = number(fields[0]), numbers(fields[1])
    within(STUDENT, student), within(SCHOOL, *choices)
    return student, choices


# ---- papers and amendments ---------------------------------------------------------------------------------------

NAMES = {1: "Shape", 2: "UnknownStudent", 3: "StudentExists", 4: "EmptyList", 5: "ListTooLong", 6: "UnknownSchool",
         7: "SchoolTwice", 8: "RosterFull", 9: "TooManySeats", 10: "TooFewSeats", 12: "Stale", 13: "Spent"}


class Papers:
    """The seed, the schools by number as [zone, seats], and the students in order of entry as [zone, siblings, choices, continuing].

    Beside them stand how many amendments were accepted, and the stamps that are not 0, by ("student", number) or ("school", number)."""

    def __init__(self, key):
        self.key, self.schools, self.students = key, {}, {}
        self.accepted, self.stamps = 0, {}

    def key_of(self, student, school):
        zone, siblings, _, continuing = self.students[student]
        there = self.schools[school][0]
        same = zone == there and zone != 0
        if school == continuing:
            kind = 0
        else:
            kind = {(True, True): 1, (True, False): 2, (False, True): 3, (False, False): 4}[school in siblings, same]
        return kind, draw(self.key, student), student

    def refusal(self, amendment):
        """The first refusal of the papers that applies, as (code,) or (code, school), or None."""
        word, *rest = amendment
        if word in ("withdraw", "rerank", "correct") and rest[0] not in self.students:
            return (2,)
        if word == "enter" and rest[0] in self.students:
            return (3,)
        choices = {"enter": lambda: rest[3], "rerank": lambda: rest[1]}.get(word, lambda: None)()
        siblings = rest[2] if word in ("enter", "correct") else None
        continuing = [rest[-1]] if word in ("enter", "correct") and rest[-1] is not None else []
        lists = [found for found in (choices, siblings) if found is not None]
        if choices is not None and not choices:
            return (4,)
        if any(len(found) > MOST_LISTED for found in lists):
            return (5,)
        for found in [*lists, continuing] if word not in ("add", "close") else [[rest[0]]]:
            for school in found:
                if school not in self.schools:
                    return (6, school)
        for found in lists:
            for at, school in enumerate(found):
                if school in found[:at]:
                    return (7, school)
        if word == "enter" and len(self.students) >= MOST_STUDENTS:
            return (8,)
        if word == "add" and self.schools[rest[0]][1] + rest[1] > MOST_SEATS:
            return (9,)
        if word == "close" and self.schools[rest[0]][1] < rest[1]:
            return (10,)
        return None

    def stamped_refusal(self, stamp, amendment):
        """The first refusal that applies to an amendment with its record's stamp, as (code,), (code, school) or (code, stamp), or None."""
        refusal = self.refusal(amendment)
        if refusal is None and self.stamps.get(record_of(amendment), 0) != stamp:
            return 12, self.stamps.get(record_of(amendment), 0)
        if refusal is None and self.accepted >= LAST_STAMP:
            return (13,)
        return refusal

    def make_stamped(self, amendment):
        """Makes an amendment and counts it: its count is its record's stamp, which goes with a student who leaves."""
        self.make(amendment)
        self.accepted += 1
        self.stamps[record_of(amendment)] = self.accepted
        if amendment[0] == "withdraw":
            del self.stamps[record_of(amendment)]

    def make(self, amendment):
        word, *rest = amendment
        if word == "enter":
            self.students[rest[0]] = rest[1:]
        elif word == "withdraw":
            del self.students[rest[0]]
        elif word == "rerank":
            self.students[rest[0]][2] = rest[1]
        elif word == "add":
            self.schools[rest[0]][1] += rest[1]
        elif word == "close":
            self.schools[rest[0]][1] -= rest[1]
        else:
            self.students[rest[0]][0:2] = rest[1:3]
            self.students[rest[0]][3] = rest[3]


def record_of(amendment):
    """The record that an amendment is of: a student and a school of the same number are two."""
    return "school" if amendment[0] in ("add", "close") else "student", amendment[1]


def schools_judged(text):
    return judged("schools", text, [[b"school", b"zone", b"seats"]], MOST_SCHOOLS, school_row)


def roster_judged(text):
    first = [b"student", b"zone", b"siblings"]
    return judged("roster", text, [first, [*first, b"continuing"]], MOST_STUDENTS, roster_row)


def lists_judged(text):
    return judged("lists", text, [[b"student", b"choices"]], MOST_STUDENTS, lists_row)


def papers_of(key, schools, roster, lists):
    school_rows = unless_faulty(*schools_judged(schools))
    roster_rows = unless_faulty(*roster_judged(roster))
    list_rows = unless_faulty(*lists_judged(lists))
    return unless_faulty(*papers_judged(key, school_rows, roster_rows, list_rows))


def papers_judged(key, school_rows, roster_rows, list_rows):
    """The papers of these rows, without the students whom they refuse, and the faults."""
    papers, faults = Papers(key), []
    for _, school, zone, seats in school_rows:
        papers.schools[school] = [zone, seats]
    listed = {student: choices for _, student, choices in list_rows}
    for row, student, zone, siblings, continuing in roster_rows:
        if student not in listed:
            faults.append(intake("roster", row, "NoList"))
            continue
        amendment = ("enter", student, zone, siblings, listed[student], continuing)
        refusal = papers.refusal(amendment)
        if refusal:
            faults.append(intake("roster", row, "Refused " + " ".join(map(str, (refusal[0], NAMES[refusal[0]], *refusal[1:])))))
            continue
        papers.make(amendment)
    in_roster = {row[1] for row in roster_rows}
    faults += [intake("lists", row, "NotInRoster") for row, student, _ in list_rows if student not in in_roster]
    return papers, faults


def schools_known(text, good):
    """The rows of the schools that have no fault, and after them each school of which another row begins with the number: its zone and its seats are not
    known."""
    known, seen = list(good), {row[1] for row in good}
    for at, fields in enumerate(records_of("schools", text)[1:], start=2):
        try:
            school = number(fields[0])
            within(SCHOOL, school)
        except Bad:
            continue
        if len(known) < MOST_SCHOOLS and school not in seen:
            seen.add(school)
            known.append((at, school, 0, 0))
    return known


def faults_of(schools, roster, lists):
    """Every fault of three files: of each alone, and then of what their rows without a fault say together, by all the schools that are known."""
    rows, faults = [], []
    for judge, text in (schools_judged, schools), (roster_judged, roster), (lists_judged, lists):
        try:
            good, found = judge(text)
            rows.append(good)
            faults += found
        except Stop as stop:
            faults.append(stop)
    if len(rows) < 3:
        return faults
    return faults + papers_judged(bytes(32), schools_known(schools, rows[0]), *rows[1:])[1]


def script_faults(text):
    """Every record of a script that is no amendment."""
    faults = []
    try:
        found = records_of("script", text)
    except Stop as stop:
        return [stop]
    for at, fields in enumerate(found, start=1):
        try:
            read_stamped(fields)
        except Bad as bad:
            faults.append(intake("script", at, bad.args[0]))
    return faults


def amendment_of(fields):
    """The amendment that a record without its stamp is, or None where it is none."""
    try:
        return read_amendment(fields)
    except Bad:
        return None


def read_amendment(fields):
    """The amendment that a record without its stamp is. The school at which a student continues may be left out."""
    forms = {b"enter": (STUDENT, ZONE, list, list, None), b"withdraw": (STUDENT,), b"rerank": (STUDENT, list),
             b"add": (SCHOOL, COUNT), b"close": (SCHOOL, COUNT), b"correct": (STUDENT, ZONE, list, None)}
    form = forms.get(fields[0]) if fields else None
    if form is None:
        raise Bad("Fields")
    if form[-1] is None and len(fields) == len(form):
        fields = [*fields, b""]
    if len(fields) != len(form) + 1:
        raise Bad("Fields")
    found = []
    for kind, field in zip(form, fields[1:]):
        if kind is None:
            found.append(school_or_none(field))
            within(SCHOOL, *([] if found[-1] is None else [found[-1]]))
        elif kind is list:
            found.append(numbers(field))
            within(SCHOOL, *found[-1])
        else:
            found.append(number(field))
            within(kind, found[-1])
    return (fields[0].decode(), *found)


def stamped_of(fields):
    """The stamp and the amendment that a script's record is, or None where it is none."""
    try:
        return read_stamped(fields)
    except Bad:
        return None


def read_stamped(fields):
    """The stamp and the amendment that a script's record is."""
    return number(fields[0]), read_amendment(fields[1:])


def line_of(at, amendment):
    """The one spelling of an amendment in the journal, with its line's number."""
    told = amendment[:-1] if amendment[-1] is None else amendment
    fields = [" ".join(map(str, part)) if isinstance(part, list) else str(part) for part in told]
    return ",".join([str(at), *fields]).encode()


# ---- settling ----------------------------------------------------------------------------------------------------

def settled(papers):
    """Deferred acceptance, one student after the other in order of entry: the places, and the log of rejections."""
    held = {school: [] for school in papers.schools}
    next_at = {student: 0 for student in papers.students}
    log = []
    for entering in papers.students:
        student = entering
        while student is not None and next_at[student] < len(papers.students[student][2]):
            school = papers.students[student][2][next_at[student]]
            held[school].append(papers.key_of(student, school))
            held[school].sort()
            out = held[school].pop() if len(held[school]) > papers.schools[school][1] else None
            student = None
            if out is not None:
                student = out[2]
                log.append((student, school))
                next_at[student] += 1
    places = {}
    for student, at in next_at.items():
        choices = papers.students[student][2]
        places[student] = choices[at] if at < len(choices) else None
    return places, log


def tables(papers):
    """The three tables of a report, by their names."""
    places, _ = settled(papers)
    holders = {school: [] for school in papers.schools}
    for student, school in places.items():
        if school is not None:
            holders[school].append(papers.key_of(student, school))
    assignment, cutoffs, reasons = ["student,school"], ["school,seats,held,class,draw,student"], ["student,school,reason"]
    for student in sorted(places):
        assignment.append(f"{student},{'-' if places[student] is None else places[student]}")
    for school in sorted(papers.schools):
        seats, held = papers.schools[school][1], len(holders[school])
        if seats == 0:
            cutoffs.append(f"{school},0,0,closed,-,-")
        elif held < seats:
            cutoffs.append(f"{school},{seats},{held},free,-,-")
        else:
            kind, drawn, student = max(holders[school])
            cutoffs.append(f"{school},{seats},{held},{kind},{drawn:016x},{student}")
    for student in sorted(places):
        for school in papers.students[student][2]:
            if school == places[student]:
                break
            if papers.schools[school][1] == 0:
                reason = "seats"
            elif max(holders[school])[0] < papers.key_of(student, school)[0]:
                reason = "class"
            else:
                reason = "lottery"
            reasons.append(f"{student},{school},{reason}")
    return {name: ("\n".join(lines) + "\n").encode()
            for name, lines in (("assignment", assignment), ("cutoffs", cutoffs), ("reasons", reasons))}


def report(papers, table=None):
    """The report, or one of its tables alone."""
    found = tables(papers)
    return b"".join(found.values()) if table is None else found[table]


def differing_line(one, other):
    """The first line in which two texts differ: one more than end in what they begin with alike."""
    alike = next((at for at, (a, b) in enumerate(zip(one, other)) if a != b), min(len(one), len(other)))
    return one[:alike].count(b"\n") + 1


def summary(papers):
    """How many students have each rank, how many have no school, and how sought after the schools are."""
    places, _ = settled(papers)
    ranks = [papers.students[student][2].index(school) + 1 for student, school in places.items() if school is not None]
    lines = ["rank,students", *(f"{rank},{ranks.count(rank)}" for rank in sorted(set(ranks))), f"-,{len(places) - len(ranks)}"]
    lines.append("school,seats,held,free,listed")
    for school in sorted(papers.schools):
        seats, held = papers.schools[school][1], list(places.values()).count(school)
        listed = sum(school in choices for _, _, choices, _ in papers.students.values())
        lines.append(f"{school},{seats},{held},{seats - held},{listed}")
    return ("\n".join(lines) + "\n").encode()


def explanation(papers, only=None):
    """What came of each choice of every student, or of one."""
    places, _ = settled(papers)
    turns = sorted((draw(papers.key, student), student) for student in places)
    turn = {student: at for at, (_, student) in enumerate(turns, start=1)}
    last, last_turn = {}, {}
    for school, (_, seats) in papers.schools.items():
        holders = sorted(papers.key_of(student, school) for student, place in places.items() if place == school)
        last[school] = "closed,-,-" if seats == 0 else "free,-,-" if len(holders) < seats else "{},{:016x},{}".format(*holders[-1])
        last_turn[school] = "" if seats == 0 or len(holders) < seats else turn[holders[-1][2]]
    lines = ["student,rank,school,class,draw,lottery_rank,cutoff,cutoff_draw,cutoff_student,cutoff_lottery_rank,outcome"]
    for student in sorted(places) if only is None else [only]:
        outcome = None
        for rank, school in enumerate(papers.students[student][2], start=1):
            kind, drawn, _ = papers.key_of(student, school)
            if outcome in ("given", "later"):
                outcome = "later"
            elif school == places[student]:
                outcome = "given"
            elif last[school] == "closed,-,-":
                outcome = "seats"
            else:
                # A full school: who is not admitted is behind the last who is.
                outcome = "class" if int(last[school].split(",")[0]) < kind else "lottery"
            lines.append(f"{student},{rank},{school},{kind},{drawn:016x},{turn[student]},{last[school]},{last_turn[school]},{outcome}")
    return ("\n".join(lines) + "\n").encode()


def admissions(papers, only=None):
    """Whom every school admits, or one, and who waits for it."""
    places, _ = settled(papers)
    lines = ["school,rank,student,class,draw,status"]
    for school in sorted(papers.schools) if only is None else [only]:
        admitted = [student for student, place in places.items() if place == school]
        waiting = []
        for student, (_, _, choices, _) in papers.students.items():
            # Who has no school prefers each of their choices to that.
            better = choices if places[student] is None else choices[:choices.index(places[student])]
            if school in better:
                waiting.append(student)
        for status, students in ("admitted", admitted), ("waiting", waiting):
            for rank, (kind, drawn, student) in enumerate(sorted(papers.key_of(student, school) for student in students), start=1):
                lines.append(f"{school},{rank},{student},{kind},{drawn:016x},{status}")
    return ("\n".join(lines) + "\n").encode()


def changes(before, after):
    """Whose place differs between two times, of which the places are given."""
    def place_at(places, student):
        if student not in places:
            return "absent"
        return "-" if places[student] is None else str(places[student])

    lines = ["student,before,after"]
    for student in sorted({*before, *after}):
        was, has = place_at(before, student), place_at(after, student)
        if was != has:
            lines.append(f"{student},{was},{has}")
    return ("\n".join(lines) + "\n").encode()


def exported(papers):
    """The files of the papers, by their names."""
    def listed(numbers):
        return " ".join(map(str, numbers))

    longer = any(continuing is not None for _, _, _, continuing in papers.students.values())
    schools = ["school,zone,seats", *(f"{school},{zone},{seats}" for school, (zone, seats) in papers.schools.items())]
    roster = ["student,zone,siblings" + (",continuing" if longer else "")]
    for student, (zone, siblings, _, continuing) in papers.students.items():
        last = f",{'' if continuing is None else continuing}" if longer else ""
        roster.append(f"{student},{zone},{listed(siblings)}{last}")
    lists = ["student,choices", *(f"{student},{listed(choices)}" for student, (_, _, choices, _) in papers.students.items())]
    return {name: "".join(f"{row}\n" for row in rows).encode()
            for name, rows in (("schools.csv", schools), ("roster.csv", roster), ("lists.csv", lists))}


def verdict(papers, log):
    """What an audit says of a log: each entry by the rule, and then the seats."""
    rejected = {student: set() for student in papers.students}

    def next_choice(student):
        return next((s for s in papers.students[student][2] if s not in rejected[student]), None)

    def standing(school):
        return [other for other in papers.students if next_choice(other) == school]

    for at, (student, school) in enumerate(log, start=1):
        if student not in papers.students or next_choice(student) != school:
            return f"bad entry {at}"
        mine = papers.key_of(student, school)
        ahead = sum(papers.key_of(other, school) < mine for other in standing(school) if other != student)
        if ahead < papers.schools[school][1]:
            return f"bad entry {at}"
        rejected[student].add(school)
    over = [school for school in papers.schools if len(standing(school)) > papers.schools[school][1]]
    return f"over {min(over)}" if over else "certified"


# ---- faults in words ----------------------------------------------------------------------------------------------

# The columns of each file, and the fields of a script's record after its stamp and its word: a range, a list of schools (list), or a
# school or nothing (None).
FILE_COLUMNS = {"schools": [("school", SCHOOL), ("zone", ZONE), ("seats", SEATS)],
                "roster": [("student", STUDENT), ("zone", ZONE), ("siblings", list), ("continuing", None)],
                "lists": [("student", STUDENT), ("choices", list)]}
RECORD_COLUMNS = {b"enter": [("student", STUDENT), ("zone", ZONE), ("siblings", list), ("choices", list), ("continuing", None)],
                  b"withdraw": [("student", STUDENT)], b"rerank": [("student", STUDENT), ("choices", list)],
                  b"add": [("school", SCHOOL), ("count", COUNT)], b"close": [("school", SCHOOL), ("count", COUNT)],
                  b"correct": [("student", STUDENT), ("zone", ZONE), ("siblings", list), ("continuing", None)]}
HEADERS = {"schools": "the header school,zone,seats is expected",
           "roster": "the header student,zone,siblings is expected, or student,zone,siblings,continuing",
           "lists": "the header student,choices is expected", "script": "one byte order mark at most is expected"}


def told_rows(text):
    """The rows of a text by their numbers: the line at which each stands, and its bytes. Where there is a quote, none is told so."""
    if b'"' in text:
        return {}
    lines = re.split(rb"\r\n|\r|\n", text.removeprefix(MARK))
    return dict(enumerate(((at, line) for at, line in enumerate(lines, start=1) if line), start=1))


def in_print(value):
    """A value between quotes, as one reads it in a program's text; 40 bytes of it at most."""
    print_of = {byte: chr(byte) for byte in range(32, 127)} | {0x22: '\\"', 0x5C: "\\\\"}
    return '"' + "".join(print_of.get(byte, f"\\x{byte:02X}") for byte in value[:40]) + '"' + ("..." if len(value) > 40 else "")


def read_as(kind, field):
    """Reads a field by itself."""
    if kind is list:
        within(SCHOOL, *numbers(field))
    elif kind is None:
        within(SCHOOL, *([number(field)] if field else []))
    elif kind is not str:
        within(kind, number(field))


def has_cause(kind, field, cause):
    try:
        read_as(kind, field)
    except Bad as bad:
        return bad.args[0] == cause
    return False


def wanted(kind, cause):
    """What is expected of a field of this kind."""
    if cause == "Range":
        return "numbers from 1 to 99999 are expected" if kind is list else "a number from {} to {} is expected".format(*(kind or SCHOOL))
    if kind is list:
        return "numbers of 1 to 9 digits with spaces between them are expected"
    return "one number of 1 to 9 digits, or nothing, is expected" if kind is None else "a number of 1 to 9 digits is expected"


def header_hint(line):
    if line.startswith(MARK):
        return "; a byte order mark stands here"
    if b"\0" in line:
        return "; this is UTF-16, and UTF-8 is expected"
    if b";" in line:
        return "; the fields stand between semicolons"
    if b"\t" in line and b"," not in line:
        return "; the fields stand between tabs"
    return "; it has capital letters" if re.search(rb"[A-Z]", line) else ""


def general(source, cause):
    """What is expected, whatever stands in the row."""
    whose = "school" if source == "schools" else "student"
    most = {"schools": "5000 schools and ", "roster": "200000 students and ", "lists": "200000 students and "}.get(source, "")
    word, *numbers_told = cause.split()
    if word == "Refused":
        code, school = int(numbers_told[0]), numbers_told[-1]
        return {4: "a list of 1 to 20 schools is expected", 5: "a list of at most 20 schools is expected",
                6: f"a row with school {school} is expected in the schools",
                7: f"the list names school {school} twice"}.get(code, "the papers refuse the student")
    return {"TooLong": f"{most}{MOST_BYTES} bytes at most are expected", "Header": HEADERS[source],
            "Fields": "as many fields as its form has are expected", "Number": "numbers of 1 to 9 digits are expected",
            "Range": "numbers within their ranges are expected", "Twice": f"an earlier row has this {whose}",
            "NoList": "a row without a fault is expected for this student in the lists",
            "NotInRoster": "a row without a fault is expected for this student in the roster"}[word]


def place_of(name, row, rows):
    return f"{name} line {rows[row][0]}" if row in rows else f"{name} row {row}"


def subject_of(columns, fields, first):
    """The school or the student whom a row is of, where its number is one."""
    kind, field = columns[first][1] if first < len(columns) else str, fields[first] if first < len(fields) else b""
    try:
        read_as(kind, field)
    except Bad:
        return ""
    return "" if kind is str else f", {columns[first][0]} {int(field)}"


def about(source, cause, line):
    """What is wrong with a line: whom it is of, what stands there, and what is expected."""
    if cause == "Header":
        line = line.strip(b" \t")
        return f" {in_print(line)}: {HEADERS[source]}{header_hint(line)}"
    fields = [field.strip(b" \t") for field in line.split(b",")]
    first = 2 if source == "script" else 0
    word = fields[1] if len(fields) > 1 else b""
    known = source != "script" or word in RECORD_COLUMNS
    columns = FILE_COLUMNS[source] if source != "script" else [("stamp", (0, LAST_STAMP)), ("word", str), *RECORD_COLUMNS.get(word, [])]
    subject = subject_of(columns, fields, first)
    if cause == "Fields" and not known:
        return f", word {in_print(word)}: one of the words enter, withdraw, rerank, add, close and correct is expected"
    if cause == "Fields":
        counts = {len(columns), len(columns) - (columns[-1][1] is None)}
        count = "as many fields as in the header" if source == "roster" else " or ".join(map(str, sorted(counts))) + " fields"
        return f"{subject}: {count} are expected, not {len(fields)}"
    if cause in ("Number", "Range"):
        for (column, kind), field in zip(columns, [*fields, *[b""] * len(columns)]):
            if has_cause(kind, field, cause):
                return f"{subject}, {column} {in_print(field)}: {wanted(kind, cause)}"
    if cause.startswith("Refused"):
        return f"{subject}{not_choices(fields, *cause.split()[1:])}: {general(source, cause)}"
    return f"{subject}: {general(source, cause)}"


def not_choices(fields, code, name, school=None):
    """The field of a row of the roster for which the papers refuse its student, where it is not the choices."""
    siblings, continuing = [*fields, *[b""] * 4][2:4]
    if code == "6" and re.fullmatch(rb"[0-9]{1,9}", continuing) and int(continuing) == int(school):
        return f", continuing {in_print(continuing)}"
    return f", siblings {in_print(siblings)}" if code in ("5", "6", "7") else ""


def is_refused(choices, code, name, school=None):
    """A list has what the papers refuse."""
    return {"4": len(choices) == 0, "5": len(choices) > MOST_LISTED, "6": choices.count(int(school or 0)) > 0,
            "7": choices.count(int(school or 0)) > 1}.get(code, False)


def good_lists(text):
    """The rows of the lists that have no fault, by their students: the number of the row, and the choices."""
    try:
        return {student: (row, choices) for row, student, choices in lists_judged(text)[0]}
    except Stop:
        return {}


def choices_told(fault, names, rows, listed):
    """The line of a refusal of a student's choices, which is told where these stand in the lists; None where it is no such fault."""
    if fault.source != "roster" or not fault.cause.startswith("Refused") or fault.row not in rows["roster"]:
        return None
    student = rows["roster"][fault.row][1].split(b",")[0].strip(b" \t")
    if not re.fullmatch(rb"[0-9]{1,9}", student) or int(student) not in listed:
        return None
    row, choices = listed[int(student)]
    if not is_refused(choices, *fault.cause.split()[1:]):
        return None
    field = rows["lists"][row][1].split(b",")[1].strip(b" \t") if row in rows["lists"] else None
    shown = "" if field is None else f", choices {in_print(field)}"
    beside = place_of(names["roster"], fault.row, rows["roster"])
    return f"{place_of(names['lists'], row, rows['lists'])}, student {int(student)}{shown} ({beside}): {general(fault.source, fault.cause)}. {fault.cause}\n".encode()


def fault_told(fault, names, rows, listed):
    """The line of a fault, by the names of the files and their rows."""
    name, there = names[fault.source], rows[fault.source]
    said = about(fault.source, fault.cause, there[fault.row][1]) if fault.row in there else f": {general(fault.source, fault.cause)}"
    return choices_told(fault, names, rows, listed) or f"{place_of(name, fault.row, there)}{said}. {fault.cause}\n".encode()


# ---- the calls ---------------------------------------------------------------------------------------------------

def too_long(*named):
    """Every input is read whole, in its order, before any is looked into."""
    for source, text in named:
        if len(text) > MOST_BYTES:
            raise intake(source, 0, "TooLong")


def files(schools, roster, lists):
    return ("schools", schools), ("roster", roster), ("lists", lists)


def call_check(schools, roster, lists, script=None, names=("schools", "roster", "lists", "script")):
    """Without a script there is no record to judge. Each fault has a line on the output, and there is no other line."""
    texts = dict((*files(schools, roster, lists), ("script", script or b"")))
    too_long(*texts.items())
    faults = faults_of(schools, roster, lists) + script_faults(script or b"")
    rows = {source: told_rows(text) for source, text in texts.items()}
    named = dict(zip(texts, names))
    listed = good_lists(lists)
    return b"".join(fault_told(fault, named, rows, listed) for fault in faults), b"", 3 if faults else 0


def table_of(word):
    """The table of a report that a word of the command line names."""
    if word not in (b"assignment", b"cutoffs", b"reasons"):
        raise Stop("table: Name", 2, opened=False)
    return word.decode()


def call_match(key, schools, roster, lists, print_log=False, table=None):
    table = None if table is None else table_of(table)
    if table is not None and print_log:
        raise Stop("table: Log", 2, opened=False)
    too_long(*files(schools, roster, lists))
    papers = papers_of(key, schools, roster, lists)
    if print_log:
        return b"".join(b"%d,%d\n" % entry for entry in settled(papers)[1]), b"", 0
    return report(papers, table), b"", 0


def call_run(key, schools, roster, lists, script):
    too_long(*files(schools, roster, lists), ("script", script))
    papers = papers_of(key, schools, roster, lists)
    output, journal = [], []
    for at, fields in enumerate(records_of("script", script), start=1):
        stamped = stamped_of(fields)
        refusal = (1,) if stamped is None else papers.stamped_refusal(*stamped)
        if refusal is None:
            papers.make_stamped(stamped[1])
            journal.append(line_of(papers.accepted, stamped[1]) + b"\n")
            output.append(f"{at},ok\n".encode())
        else:
            words = [at, "refused", refusal[0], NAMES[refusal[0]], *refusal[1:]]
            output.append((",".join(map(str, words)) + "\n").encode())
    return b"".join(output) + report(papers), b"".join(journal), 0


def call_audit(key, schools, roster, lists, log, published=None):
    """Of a log that is certified the report that was published, if there is one, is compared with that of the papers."""
    too_long(*files(schools, roster, lists), ("log", log))
    papers = papers_of(key, schools, roster, lists)
    entries = []
    for row, fields in enumerate(records_of("log", log), start=1):
        try:
            if len(fields) != 2:
                raise Bad("Fields")
            entry = tuple(number(field) for field in fields)
            within(STUDENT, entry[0]), within(SCHOOL, entry[1])
        except Bad as bad:
            raise intake("log", row, bad.args[0]) from None
        entries.append(entry)
    said = verdict(papers, entries)
    if said == "certified" and published is not None and published != report(papers):
        said = f"report differs {differing_line(published, report(papers))}"
    return f"{said}\n".encode(), b"", 0 if said == "certified" else 1


def spelled(line):
    """The number and the amendment of a journal's line, or None where the line is in no such spelling."""
    if any(byte in line for byte in b'"\r\t'):
        return None
    fields = line.split(b",")
    if not re.fullmatch(rb"[1-9][0-9]{0,8}", fields[0]) or len(fields) < 2:
        return None
    amendment = amendment_of(fields[1:])
    if amendment is None or line_of(int(fields[0]), amendment) != line:
        return None
    return int(fields[0]), amendment


def replayed(papers, journal):
    """Makes the amendments of a journal, and says whether its last line is torn."""
    *whole, torn = journal.split(b"\n")
    for at, line in enumerate(whole, start=1):
        found = spelled(line)
        if found is None:
            raise Stop(f"journal line {at}: Shape", 3)
        if found[0] != at:
            raise Stop(f"journal line {at}: Number", 3)
        refusal = papers.refusal(found[1])
        if refusal:
            words = " ".join(map(str, ("Refused", refusal[0], NAMES[refusal[0]], *refusal[1:])))
            raise Stop(f"journal line {at}: {words}", 3)
        papers.make(found[1])
    return "torn" if torn else 0


def call_replay(key, schools, roster, lists, journal, table=None):
    table = None if table is None else table_of(table)
    too_long(*files(schools, roster, lists), ("journal", journal))
    papers = papers_of(key, schools, roster, lists)
    status = replayed(papers, journal)
    return report(papers, table), b"", status


def call_summary(key, schools, roster, lists, journal=None):
    """Without a journal the papers of the opening stand."""
    too_long(*files(schools, roster, lists), ("journal", journal or b""))
    papers = papers_of(key, schools, roster, lists)
    status = replayed(papers, journal or b"")
    return summary(papers), b"", status


def student_of(word):
    """The student whom a word of the command line names."""
    if not re.fullmatch(rb"[0-9]{1,9}", word) or int(word) == 0:
        raise Stop("student: Number", 2, opened=False)
    return int(word)


def call_explain(key, schools, roster, lists, journal=None, student=None):
    """Without a journal the papers of the opening stand; without a student's number all are told of."""
    only = None if student is None else student_of(student)
    too_long(*files(schools, roster, lists), ("journal", journal or b""))
    papers = papers_of(key, schools, roster, lists)
    status = replayed(papers, journal or b"")
    if only is not None and only not in papers.students:
        raise Stop(f"explain: UnknownStudent {only}", 3)
    return explanation(papers, only), b"", status


def school_of(word):
    """The school that a word of the command line names."""
    if not re.fullmatch(rb"[0-9]{1,9}", word) or not 1 <= int(word) <= 99_999:
        raise Stop("school: Number", 2, opened=False)
    return int(word)


def call_admissions(key, schools, roster, lists, journal=None, school=None):
    """Without a journal the papers of the opening stand; without a school's number all are told of."""
    only = None if school is None else school_of(school)
    too_long(*files(schools, roster, lists), ("journal", journal or b""))
    papers = papers_of(key, schools, roster, lists)
    status = replayed(papers, journal or b"")
    if only is not None and only not in papers.schools:
        raise Stop(f"admissions: UnknownSchool {only}", 3)
    return admissions(papers, only), b"", status


def lines_of(word):
    """How many lines a word of the command line says."""
    if not re.fullmatch(rb"[0-9]{1,9}", word):
        raise Stop("since: Number", 2, opened=False)
    return int(word)


def call_changes(key, schools, roster, lists, journal, since=None):
    """Without a number of lines the papers of the opening are those before."""
    count = 0 if since is None else lines_of(since)
    too_long(*files(schools, roster, lists), ("journal", journal))
    earlier, later = papers_of(key, schools, roster, lists), papers_of(key, schools, roster, lists)
    status = replayed(later, journal)
    lines = journal.split(b"\n")[:-1]
    if count > len(lines):
        raise Stop(f"changes: NoLine {count}", 3)
    replayed(earlier, b"".join(line + b"\n" for line in lines[:count]))
    return changes(settled(earlier)[0], settled(later)[0]), b"", status


def call_export(key, schools, roster, lists, journal=None):
    """Without a journal the papers of the opening are exported."""
    too_long(*files(schools, roster, lists), ("journal", journal or b""))
    papers = papers_of(key, schools, roster, lists)
    status = replayed(papers, journal or b"")
    return b"", exported(papers), status


def sections(text):
    """The sections of a bundle by their markers' names, or None where one is missing."""
    markers = [b"%seed", b"%schools", b"%roster", b"%lists", b"%script"]
    found, at, place = [], 0, 0
    while place < len(text):
        end = text.find(b"\n", place)
        after = len(text) if end < 0 else end + 1
        line = text[place:] if end < 0 else text[place:end].removesuffix(b"\r")
        if at < len(markers) and line == markers[at]:
            found.append([place, after])
            at += 1
        elif at == 0:
            return None
        place = after
    if at < 4:
        return None
    ends = [begins for begins, _ in found[1:]] + [len(text)]
    return [text[after:end] for (_, after), end in zip(found, ends)]


def call_bundle(text):
    if len(text) > MOST_BYTES:
        raise intake("bundle", 0, "TooLong")
    parts = sections(text)
    if parts is None:
        raise Stop("bundle", 3)
    key = seed_of(parts[0].strip(b" \t\r\n"))
    if len(parts) == 5:
        output, _, status = call_run(key, *parts[1:])
        return output, b"", status
    return call_match(key, *parts[1:])


def told(call, *given, **options):
    """What a call gives: output, journal, the line on standard error, and the status. Where it ends early, the two are empty, and
    where it ends before a file is opened, there is no journal: None."""
    try:
        output, journal, status = call(*given, **options)
    except Stop as stop:
        return b"", b"" if stop.opened else None, f"clearinghouse: {stop.line}\n".encode(), stop.status
    if status == "torn":
        return output, journal, b"clearinghouse: journal torn\n", 0
    return output, journal, b"", status


def main(words):
    if not words:
        output, journal, line, status = told(call_bundle, sys.stdin.buffer.read())
    else:
        rest = [word for word in words[1:] if word not in FLAGS]
        options = dict(zip(rest[::2], rest[1::2]))
        kept = "--journal" if "--journal" in options else None
        late = "--script" if "--script" in options else None
        last = {"check": late, "match": None, "run": "--script", "audit": "--log", "replay": "--journal", "summary": kept, "explain": kept, "admissions": kept, "changes": "--journal",
                "export": kept}[words[0]]
        names = ["--schools", "--roster", "--lists"] + ([last] if last else [])

        def call():
            key = None if words[0] == "check" else seed_of(options["--seed"].encode())
            texts = [open(options[name], "rb").read() for name in names]
            if words[0] == "check":
                return call_check(*texts, names=[options[name] for name in names])
            table = {"table": options["--table"].encode()} if "--table" in options else {}
            if words[0] == "match":
                return call_match(key, *texts, print_log="--print-log" in words, **table)
            if words[0] == "replay":
                return call_replay(key, *texts, **table)
            if words[0] == "audit":
                return call_audit(key, *texts, *([open(options["--report"], "rb").read()] if "--report" in options else []))
            if words[0] == "explain":
                return call_explain(key, *texts, student=options["--student"].encode() if "--student" in options else None)
            if words[0] == "admissions":
                return call_admissions(key, *texts, school=options["--school"].encode() if "--school" in options else None)
            if words[0] == "changes":
                return call_changes(key, *texts, since=options["--since"].encode() if "--since" in options else None)
            return {"run": call_run, "summary": call_summary, "export": call_export}[words[0]](key, *texts)

        output, journal, line, status = told(call)
        if words[0] == "run":
            if journal is not None:
                open(options["--journal"], "wb").write(journal)
        elif words[0] == "export" and journal:
            for name, text in journal.items():
                open(f"{options['--to']}/{name}", "xb").write(text)
    sys.stdout.buffer.write(output)
    sys.stderr.buffer.write(line)
    return status


if __name__ == "__main__":
    sys.exit(main(sys.argv[1:]))
