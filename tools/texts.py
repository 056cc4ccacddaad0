"""What page.py and letters.py both need: the program's texts, the tables of names, and the sentences of a language."""
import csv
import functools
import io
import json
import pathlib
from typing import NamedTuple

REPORT_HEADERS = ["student,school", "school,seats,held,class,draw,student", "student,school,reason"]
SUMMARY_HEADERS = ["rank,students", "school,seats,held,free,listed"]
EXPLAIN_HEADER = "student,rank,school,class,draw,lottery_rank,cutoff,cutoff_draw,cutoff_student,cutoff_lottery_rank,outcome"

CLASSES = 5
DRAW_DIGITS = 16
MOST_LISTED = 20

LANGUAGES = pathlib.Path(__file__).resolve().parent / "letters"


class WrongText(Exception):
    """A text that is not what it is taken for."""


class Cutoff(NamedTuple):
    """A school's cutoff. Without a last student it is `free` or `closed`, and `group` says which."""

    group: int | str
    draw: str | None
    student: int | None


class Choice(NamedTuple):
    """One choice of a student: the school, the class that the student has there, and what came of it."""

    school: int
    group: int
    outcome: str


class Student(NamedTuple):
    """A student with their draw, their rank in the lottery and their choices, best first."""

    number: int
    draw: str
    turn: int
    choices: list[Choice]

    def given(self):
        """The rank, from 1, of the choice that the student has, and 0 where they have none."""
        return next((rank for rank, choice in enumerate(self.choices, 1) if choice.outcome == "given"), 0)


class Choices(NamedTuple):
    """What `explain` tells of everybody: the students by rising number, and the cutoffs of the schools that somebody lists."""

    students: list[Student]
    cutoffs: dict[int, Cutoff]

    def lottery_places(self):
        """Each student's place in the lottery, from 1."""
        return {student.number: student.turn for student in self.students}

    def turns_follow_draws(self):
        """Whether the places in the lottery are those of the draws: the smaller comes first, and between equal ones the smaller number."""
        order = sorted(self.students, key=lambda student: (student.draw, student.number))
        return all(student.turn == turn for turn, student in enumerate(order, 1))


def tables(path, headers):
    """The rows of the tables of a text, which stand one after the other, each below its header."""
    with open(path, encoding="ascii", newline="") as file:
        lines = file.read().split("\n")
    if lines.pop() != "":
        raise WrongText(f"{path}: the last line has no end")
    found, at = [], 0
    for header in headers:
        # The replies of a run stand before the report.
        while not found and at < len(lines) and lines[at] != header:
            at += 1
        if at == len(lines) or lines[at] != header:
            raise WrongText(f"{path}: the line {header} is not there")
        at += 1
        width, rows = header.count(",") + 1, []
        while at < len(lines) and lines[at] not in headers:
            fields = lines[at].split(",")
            if len(fields) != width:
                raise WrongText(f"{path}: line {at + 1} has not {width} fields")
            rows.append(fields)
            at += 1
        found.append(rows)
    return found


@functools.cache
def cutoff_of(group, draw, student):
    """A cutoff of its three fields."""
    if group in ("free", "closed"):
        return Cutoff(group, None, None)
    return Cutoff(class_of(group), draw, int(student))


@functools.cache
def class_of(field):
    group = int(field)
    if not 0 <= group < CLASSES:
        raise ValueError(field)
    return group


def rank_of(field):
    """The rank of a choice, from 1 to 20; nothing where the field is none."""
    return int(field) if field.isdecimal() and 1 <= int(field) <= MOST_LISTED else None


def outcome_of(group, draw, number, cutoff):
    """What came of a choice by the school's cutoff, where nothing better was given: `given`, or the reason why not."""
    if cutoff.group in ("free", "closed"):
        return {"free": "given", "closed": "seats"}[cutoff.group]
    if (group, draw, number) <= cutoff:
        return "given"
    return "class" if cutoff.group < group else "lottery"


def read_choices(path):
    """What `explain` wrote of everybody. Refused are a text of one student alone and one that contradicts itself."""
    students, cutoffs, turns = [], {}, {}
    with open(path, encoding="ascii", newline="") as file:
        if file.readline() != EXPLAIN_HEADER + "\n":
            raise WrongText(f"{path}: the first line is not {EXPLAIN_HEADER}")
        for row, line in enumerate(file, 2):
            try:
                add_choice(line, students, cutoffs, turns)
            except ValueError:
                raise WrongText(f"{path}: line {row} is none that explain writes") from None
    known = {student.number for student in students}
    if any(cutoff.student is not None and cutoff.student not in known for cutoff in cutoffs.values()):
        raise WrongText(f"{path}: not every student is there; give what explain wrote without --student")
    choices = Choices(students, cutoffs)
    places = choices.lottery_places()
    if not choices.turns_follow_draws() or any(places[student] != turn for student, turn in turns.items()):
        raise WrongText(f"{path}: the ranks in the lottery are not those of the draws")
    return choices


def add_choice(line, students, cutoffs, turns):
    """Adds one line of `explain`'s text to what was read before it."""
    if not line.endswith("\n"):
        raise ValueError(line)
    number, rank, school, group, draw, turn, *last, last_turn, outcome = line[:-1].split(",")
    number, school, turn, cutoff = int(number), int(school), int(turn), cutoff_of(*last)
    if rank == "1":
        if students and students[-1].number >= number:
            raise ValueError(line)
        students.append(Student(number, draw, turn, []))
    student, choice = students[-1] if students else None, Choice(school, class_of(group), outcome)
    if student is None or (student.number, student.draw, student.turn, len(student.choices) + 1) != (number, draw, turn, rank_of(rank)) or len(draw) != DRAW_DIGITS:
        raise ValueError(line)
    settled = student.choices and student.choices[-1].outcome in ("given", "later")
    expected = "later" if settled else outcome_of(choice.group, draw, number, cutoff)
    if outcome != expected or cutoffs.setdefault(school, cutoff) != cutoff:
        raise ValueError(line)
    if (last_turn == "") != (cutoff.student is None) or (last_turn and turns.setdefault(cutoff.student, int(last_turn)) != int(last_turn)):
        raise ValueError(line)
    student.choices.append(choice)


def read_names(path, header):
    """The names of a table `number,name`, or of another such header: comma-separated, in UTF-8."""
    names = {}
    with open(path, encoding="utf-8-sig", newline="") as file:
        rows = csv.reader(file, strict=True)
        try:
            if [field.strip() for field in next(rows, [])] != header.split(","):
                raise WrongText(f"{path}: the first line is not {header}")
            for fields in rows:
                if not fields:
                    continue
                number, name = (field.strip() for field in fields)
                if not number.isascii() or not number.isdigit() or not name or int(number) in names:
                    raise ValueError(number)
                names[int(number)] = name
        except (ValueError, csv.Error):
            raise WrongText(f"{path}: line {rows.line_num} is not a number, not yet named, and its name") from None
    return names


# A cell that begins with one of these may be taken for a formula by a spreadsheet, as may one with blanks before a sign.
SIGNS = ("=", "+", "-", "@", "\uff1d", "\uff0b", "\uff0d", "\uff20")
BREAKS = ("\t", "\r", "\n")


def cell(field):
    """A field as it may stand in a spreadsheet: with an apostrophe in front where it would be taken for a formula."""
    text = str(field)
    return f"'{text}" if text.startswith(BREAKS) or text.lstrip().startswith(SIGNS) else text


def written_table(rows):
    """Rows as a table for spreadsheets, which run none of its cells: comma-separated, with a byte order mark, as they like it."""
    out = io.StringIO()
    csv.writer(out).writerows(map(cell, row) for row in rows)
    return "\ufeff" + out.getvalue()


class Language:
    """The sentences of one language, and the numbers and names that are filled in."""

    def __init__(self, language, names):
        self.path = LANGUAGES / f"{language}.json"
        self.names = names
        with open(self.path, encoding="utf-8") as file:
            try:
                self.words = json.load(file)
            except json.JSONDecodeError as error:
                raise WrongText(f"{self.path}: {error}") from None

    def __getitem__(self, key):
        if key not in self.words:
            raise WrongText(f"{self.path}: {key} is missing")
        return self.words[key]

    def say(self, sentence, **filled):
        try:
            return self[sentence].format(**filled)
        except (KeyError, IndexError, ValueError):
            raise WrongText(f"{self.path}: {sentence} has other words in braces than {', '.join(filled)}") from None

    def school(self, number):
        return self.names.get(number) or self.say("school", number=number)

    def count(self, number):
        return f"{number:,}".replace(",", self["thousands"])

    def ordinal(self, number):
        """A number with the ending of its language: 1st, 12th, 2,003rd. The endings are those of the number itself (`=1`), of its
        last two digits, of its last one, and of all others."""
        endings = self["ordinal_endings"]
        keys = [f"={number}", str(number)[-2:], str(number)[-1:], ""]
        return self.count(number) + next(endings[key] for key in keys if key in endings)

    def rank(self, rank):
        return self["ranks"][rank - 1]

    def group(self, group):
        return self["groups"][group]

    def reason(self, choice, cutoff, place, last_place):
        """Why a choice that the student would rather have was not given, in a sentence or two."""
        filled = {"school": self.school(choice.school)}
        if choice.outcome == "class":
            filled.update(own=self["you"][choice.group], last=self["last_admitted"][cutoff.group])
        if choice.outcome == "lottery":
            filled.update(own=self.group(choice.group), last=self.ordinal(last_place), place=self.ordinal(place))
        return self.say(choice.outcome, **filled)
