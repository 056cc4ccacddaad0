#!/usr/bin/env python3
"""Writes what a district sends to families: a table for mail merge, or letters to print.

  tools/letters.py --explain F --names F [--students F] [--language en|es|fr] [--part K/N] > letters.csv
  tools/letters.py --explain F --names F [--students F] [--language en|es|fr] [--part K/N] --html [--title TEXT] > letters.html

--explain is what `clearinghouse explain` wrote of everybody, without --student. --names is a table `number,name` of
the schools, and --students one `student,name`, which the office keeps to itself: without it the letters are to
numbers, and the names can be joined to the table by its first column.

The table has a row for each student: the student, the school's number and name, which choice it was, the student's
place in the lottery and of how many, and then whole sentences: what the student has, how they came in the lottery,
and a reason for each choice that they would rather have. It is in UTF-8 with a byte order mark, as spreadsheets like
it, and a cell that they would take for a formula, as that of a student named =1+1, has an apostrophe in front. The
letters have a page for each student. With --part 2/20 only the second of twenty equal parts of the students is
written, in the order of their numbers: a browser prints some thousands of letters at once, and not eighty thousand.

The sentences stand in tools/letters, a file for each language, and an office may change them there.

The status is 0 where all was written, and 2 where the words or a text are wrong.
"""
import argparse
import html
import sys

import texts


class Letter:
    """The sentences to one student."""

    def __init__(self, student, place, places, cutoffs, language):
        rank = student.given()
        self.number = student.number
        self.rank = rank or None
        self.school = student.choices[rank - 1].school if rank else None
        self.place, self.students = place, len(places)
        self.result = (
            language.say("placed", school=language.school(self.school), rank=language.rank(rank)) if rank else language.say("unplaced")
        )
        self.lottery = language.say("lottery_place", place=language.ordinal(place), students=language.count(self.students))
        preferred = student.choices[: rank - 1] if rank else student.choices
        self.reasons = [
            language.reason(choice, cutoffs[choice.school], place, places.get(cutoffs[choice.school].student)) for choice in preferred
        ]


def table(letters, names, language):
    """The letters as a table, a row for each."""
    columns = language["columns"]
    longest = max((len(letter.reasons) for letter in letters), default=0)
    keys = ["student"] + ["name"] * (names is not None) + ["school", "school_name", "rank", "place", "students", "result", "lottery"]
    rows = [[columns[key] for key in keys] + [columns["reason"].format(rank=rank) for rank in range(1, longest + 1)]]
    for letter in letters:
        school = ["", ""] if letter.school is None else [letter.school, language.school(letter.school)]
        name = [] if names is None else [names.get(letter.number, "")]
        fields = [letter.number, *name, *school, letter.rank or "", letter.place, letter.students, letter.result, letter.lottery]
        rows.append(fields + letter.reasons + [""] * (longest - len(letter.reasons)))
    return texts.written_table(rows)


STYLE = """
@page { size: A4; margin: 20mm 22mm; }
* { box-sizing: border-box; }
body { margin: 0 auto; max-width: 40rem; padding: 1rem; font: 11.5pt/1.45 Georgia, "DejaVu Serif", serif; color: #111; }
section { break-after: page; padding: 2rem 0; border-bottom: 1px solid #bbb; }
@media screen { section { content-visibility: auto; contain-intrinsic-size: auto 50rem; } }
section:last-child { break-after: auto; border-bottom: 0; }
h1 { font-size: 15pt; margin: 0 0 2rem; }
.result { font-size: 13pt; font-weight: bold; margin: 1.5rem 0; }
li { margin: 0.5rem 0; break-inside: avoid; }
@media print {
  body { max-width: none; padding: 0; font-size: 10pt; line-height: 1.35; }
  section { padding: 0; border: 0; }
  h1 { margin-bottom: 1.5rem; }
  li { margin: 0.25rem 0; }
}
"""


def letter_page(letter, names, language, title):
    """One letter as a section of the page."""
    student = (names or {}).get(letter.number) or language.say("student", number=letter.number)
    out = [f"<section><h1>{html.escape(title)}</h1>", f"<p>{html.escape(language.say('to', student=student))}</p>"]
    out.append(f'<p class="result">{html.escape(letter.result)}</p>')
    if letter.reasons:
        out.append(f"<p>{html.escape(language.say('preferred' if letter.rank else 'preferred_by_unplaced'))}</p><ol>")
        out += [f"<li>{html.escape(reason)}</li>" for reason in letter.reasons]
        out.append("</ol>")
    out.append(f"<p>{html.escape(letter.lottery)}</p>")
    if letter.reasons:
        out.append(f"<p>{html.escape(language.say('order'))}</p>")
    out.append(f"<p>{html.escape(language.say('closing', number=letter.number))}</p>")
    return "\n".join(out) + "</section>"


def letters_page(letters, names, language, name, title):
    """The letters as one page of HTML, a sheet for each."""
    sheets = "\n".join(letter_page(letter, names, language, title) for letter in letters)
    return f"""<!DOCTYPE html>
<html lang="{name}">
<head>
<meta charset="utf-8">
<meta name="viewport" content="width=device-width, initial-scale=1">
<title>{html.escape(title)}</title>
<style>{STYLE}</style>
</head>
<body>
{sheets}
</body>
</html>
"""


def part_of(text):
    """The part that a word K/N names, as two numbers."""
    part, _, parts = text.partition("/")
    if not (part.isdecimal() and parts.isdecimal() and 1 <= int(part) <= int(parts)):
        raise argparse.ArgumentTypeError(f"{text!r} is no part K/N, with K from 1 to N")
    return int(part), int(parts)


def main():
    languages = sorted(path.stem for path in texts.LANGUAGES.glob("*.json"))
    words = argparse.ArgumentParser(description="Write a table for mail merge, or letters to print.")
    words.add_argument("--explain", required=True, help="what explain wrote of everybody")
    words.add_argument("--names", required=True, help="the schools' names: a table number,name")
    words.add_argument("--students", help="the students' names: a table student,name; they stand in what is written")
    words.add_argument("--language", default="en", choices=languages)
    words.add_argument("--html", action="store_true", help="letters to print, in place of a table")
    words.add_argument("--part", type=part_of, default=(1, 1), metavar="K/N", help="only the K-th of N equal parts of the students")
    words.add_argument("--title", help="what stands at the top of each letter")
    given = words.parse_args()
    try:
        choices = texts.read_choices(given.explain)
        language = texts.Language(given.language, texts.read_names(given.names, "number,name"))
        names = texts.read_names(given.students, "student,name") if given.students else None
        nameless = next((school for school in sorted(choices.cutoffs) if school not in language.names), None)
        if nameless is not None:
            raise texts.WrongText(f"{given.names}: school {nameless} has no name")
        places = choices.lottery_places()
        part, parts = given.part
        count = len(choices.students)
        students = choices.students[count * (part - 1) // parts : count * part // parts]
        letters = [Letter(student, places[student.number], places, choices.cutoffs, language) for student in students]
        if given.html:
            written = letters_page(letters, names, language, given.language, given.title or language["title"])
        else:
            written = table(letters, names, language)
        sys.stdout.buffer.write(written.encode())
        sys.stdout.flush()
    except (OSError, UnicodeError, texts.WrongText) as error:
        print(f"letters.py: {error}", file=sys.stderr)
        return 2
    if not language["read_by"]:
        print(f"letters.py: nobody who speaks the language has read letters/{given.language}.json yet; its top says so", file=sys.stderr)
    return 0


if __name__ == "__main__":
    sys.exit(main())
