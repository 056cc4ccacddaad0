#!/usr/bin/env python3
"""Writes one page of HTML that shows the outcome of a school choice.

  tools/page.py --report F --summary F [--names F] [--explain F | --lottery F] [--title TEXT] > page.html

--report is what `clearinghouse match` (or run, or replay) wrote, and --summary what `clearinghouse summary` wrote, for the
same papers. The page shows the summary's figures and of each school how sought after it was and who had its last
place. --names is a table `number,name` of the schools, which then have their names.

--explain is what `clearinghouse explain` wrote of everybody. With it a family can type a student's number at the top of
the page, or follow a link to it that ends in # and the number, and reads what became of each choice, and why; and the
page then holds that of every student, for anybody who has the page. --lottery is the same text, of which the page has
the lottery places of the students admitted last alone, and nothing else of a student. Without either no student's data
stands on the page.

The page stands alone: it needs no network and no other file, loads nothing, and can be read on a telephone and
printed. It only shows what the texts say. It is no part of what is proved, and says so.

The status is 0 where the page was written, and 2 where the words or a text are wrong.
"""
import argparse
import html
import json
import string
import sys

import texts

DIGITS = string.ascii_uppercase + string.ascii_lowercase + string.digits + "-_"

# What the script of the page says, of a language's sentences.
ANSWER_WORDS = """school placed unplaced lottery_place preferred preferred_by_unplaced seats class lottery order groups last_admitted you
ranks ordinal_endings thousands""".split()


class Outcome:
    """What the texts say of the same papers: each school's row, the ranks, and the students if they are told of."""

    def __init__(self, report, summary, choices):
        places, cutoffs, _ = report
        ranks, schools = summary
        self.ranks = [(rank_told(rank), int(count)) for rank, count in ranks]
        self.places = {int(student): None if school == "-" else int(school) for student, school in places}
        self.cutoffs = {int(row[0]): texts.cutoff_of(*row[3:]) for row in cutoffs}
        self.schools = [[int(field) for field in row] for row in schools]
        self.choices = choices
        self.turns = choices.lottery_places() if choices else {}
        if not self.agrees(cutoffs):
            raise texts.WrongText("the texts are not of the same papers")

    def agrees(self, cutoffs):
        """Whether the texts can be of the same papers."""
        students = sum(count for _, count in self.ranks)
        seats = [[int(field) for field in row[:3]] for row in cutoffs]
        if students != len(self.places) or seats != [row[:3] for row in self.schools]:
            return False
        return self.choices is None or (
            self.choices.cutoffs.items() <= self.cutoffs.items()
            and len(self.choices.students) == students
            and all(self.places.get(student.number, 0) == placed(student) for student in self.choices.students)
        )

    def turn(self, school):
        """The place in the lottery of the student who has a school's last seat, if it is known."""
        return self.turns.get(self.cutoffs[school].student)


def rank_told(field):
    """The rank that a line of the summary is of; nothing where it is of those who have no place."""
    rank = texts.rank_of(field)
    if rank is None and field != "-":
        raise texts.WrongText(f"the summary has the rank {field}, and from 1 to {texts.MOST_LISTED} are expected")
    return rank


def placed(student):
    """The school that a student has, if they have one."""
    rank = student.given()
    return student.choices[rank - 1].school if rank else None


def share(part, whole):
    """A part of a whole in per cent, and 0 of nothing."""
    return 100 * part / whole if whole else 0


def figures(ranks, language):
    """The figures, and a bar for each rank."""
    students = sum(count for _, count in ranks)
    with_place = sum(count for rank, count in ranks if rank)
    first = sum(count for rank, count in ranks if rank == 1)
    tiles = [
        (f"{students:,}", "students"),
        (f"{share(with_place, students):.1f}%", "have a place at a school on their list"),
        (f"{share(first, students):.1f}%", "have their first choice"),
        (f"{students - with_place:,}", "have no place"),
    ]
    out = ['<div class="tiles">']
    out += [f'<div class="tile"><b>{value}</b><span>{label}</span></div>' for value, label in tiles]
    out.append('</div>\n<table class="ranks"><thead><tr><th scope="col">Choice</th><th scope="col">Students</th><th scope="col">Share</th><td></td></tr></thead><tbody>')
    for rank, count in ranks:
        label, kind = (language.rank(rank), "some") if rank else ("no place", "none")
        percent = share(count, students)
        bar = f'<span class="bar"><span class="{kind}" style="width:{percent:.1f}%"></span></span>'
        out.append(f'<tr><th scope="row">{label}</th><td>{count:,}</td><td>{percent:.1f}%</td><td>{bar}</td></tr>')
    out.append("</tbody></table>")
    return "\n".join(out)


def who_was_admitted(outcome, school, language):
    """A school's cutoff in plain words."""
    cutoff, turn = outcome.cutoffs[school], outcome.turn(school)
    if cutoff.group == "free":
        return "Everybody who asked was admitted, and places are free."
    if cutoff.group == "closed":
        return "It has no places."
    came = f", and came {language.ordinal(turn)} in the lottery" if turn else ""
    return f"Full. The last student admitted {language['last_admitted'][cutoff.group]}{came}."


def school_rows(outcome, language):
    """A row for each school, the most sought after first: by how many list it for each of its seats. Schools without seats stand last."""

    def sought(row):
        _, seats, _, _, listed = row
        return (seats > 0, listed / seats if seats else 0, listed)

    out = []
    for school, seats, held, free, listed in sorted(outcome.schools, key=sought, reverse=True):
        number = f" <small>{school}</small>" if school in language.names else ""
        figures = [("Listed by", listed), ("Places", seats), ("Taken", held), ("Free", free)]
        out.append(
            f'<tr><th scope="row">{html.escape(language.school(school))}{number}</th><td>{html.escape(who_was_admitted(outcome, school, language))}</td>'
            + "".join(f'<td data-of="{label}">{figure:,}</td>' for label, figure in figures)
            + "</tr>"
        )
    return "\n".join(out)


def column(numbers):
    """Numbers as one text, each in as many digits to the base 64 as the greatest needs: small, and read at any place without the others."""
    width = 1
    while max(numbers, default=0) >= 64**width:
        width += 1
    known = {}
    for number in numbers:
        if number not in known:
            known[number] = "".join(DIGITS[number >> 6 * place & 63] for place in reversed(range(width)))
    return {"width": width, "text": "".join(known[number] for number in numbers)}


def data(outcome, language):
    """What the search knows: the schools, and of each student a place in each of the columns."""
    students = outcome.choices.students
    position = {row[0]: at for at, row in enumerate(outcome.schools)}
    return {
        "words": {key: language[key] for key in ANSWER_WORDS},
        "digits": DIGITS,
        "schools": [
            [school, language.names.get(school), outcome.cutoffs[school].group, outcome.turn(school) or 0] for school, *_ in outcome.schools
        ],
        "numbers": column([student.number for student in students]),
        "turns": column([outcome.turns[student.number] for student in students]),
        "given": column([student.given() for student in students]),
        "lengths": column([len(student.choices) for student in students]),
        "choices": column([position[choice.school] * texts.CLASSES + choice.group for student in students for choice in student.choices]),
        "classes": texts.CLASSES,
        "count": len(students),
    }


STYLE = """
:root { --ink: #1b2733; --soft: #55636f; --line: #d8dfe6; --some: #2d6a9f; --none: #b4532a; }
* { box-sizing: border-box; }
body { margin: 0 auto; max-width: 60rem; padding: 1rem; font: 1rem/1.5 system-ui, sans-serif; color: var(--ink); background: #fff; }
h1 { font-size: 1.6rem; margin: 0.5rem 0 1rem; }
h2 { font-size: 1.2rem; margin: 2.5rem 0 0.75rem; border-bottom: 1px solid var(--line); }
p, ol, ul { max-width: 42rem; }
small, .note { color: var(--soft); font-size: 0.9rem; font-weight: normal; }
.tiles { display: grid; grid-template-columns: repeat(4, 1fr); gap: 0.75rem; margin: 1rem 0; }
.tile { border: 1px solid var(--line); border-radius: 0.5rem; padding: 0.75rem; }
.tile b { display: block; font-size: 1.6rem; line-height: 1.3; }
.tile span { color: var(--soft); font-size: 0.9rem; line-height: 1.3; display: block; }
table { border-collapse: collapse; width: 100%; font-variant-numeric: tabular-nums; }
th, td { padding: 0.4rem 0.5rem; text-align: right; border-bottom: 1px solid var(--line); vertical-align: top; }
th:first-child, .schools :nth-child(2) { text-align: left; }
.schools th:first-child { width: 28%; }
.ranks th { white-space: nowrap; }
.ranks td:last-child { width: 45%; }
.bar { display: block; height: 0.8rem; margin-top: 0.35rem; background: #eef2f5; border-radius: 0.2rem; overflow: hidden; }
.bar span { display: block; height: 100%; }
.bar, .bar span { -webkit-print-color-adjust: exact; print-color-adjust: exact; }
.some { background: var(--some); }
.none { background: var(--none); }
form { display: flex; gap: 0.5rem; max-width: 30rem; flex-wrap: wrap; margin-bottom: 1rem; }
label { flex-basis: 100%; font-weight: bold; }
input, button { font: inherit; padding: 0.5rem 0.7rem; border: 1px solid var(--soft); border-radius: 0.3rem; }
input { flex: 1; min-width: 0; }
button { background: var(--some); border-color: var(--some); color: #fff; }
button.quiet { background: none; color: var(--some); }
#answer { border: 1px solid var(--line); border-left: 4px solid var(--some); border-radius: 0.3rem; padding: 0.5rem 1rem 1rem; margin: 1rem 0; max-width: 46rem; }
#answer .result { font-size: 1.25rem; line-height: 1.35; font-weight: bold; margin: 0.25rem 0 0.75rem; }
#answer li { margin: 0.5rem 0; }
@media (max-width: 40rem) {
  .tiles { grid-template-columns: repeat(2, 1fr); }
  .schools thead { display: none; }
  .schools, .schools tbody { display: block; }
  .schools tr { display: flex; flex-wrap: wrap; column-gap: 0.9rem; border-bottom: 1px solid var(--line); padding: 0.6rem 0; }
  .schools tr[hidden] { display: none; }
  .schools th, .schools td { border: 0; padding: 0.1rem 0; text-align: left; }
  .schools th:first-child, .schools td:nth-child(2) { width: 100%; }
  .schools td[data-of] { color: var(--soft); font-size: 0.9rem; }
  .schools td[data-of]::before { content: attr(data-of) " "; }
}
@media print {
  @page { margin: 12mm 15mm; }
  form, button, .screen { display: none; }
  html { font-size: 9pt; }
  body { max-width: none; padding: 0; }
  h2 { break-after: avoid; margin-top: 1.5rem; }
  tr, li, .tiles { break-inside: avoid; }
  body.alone > :not(h1, #answer) { display: none; }
}
"""

SCHOOLS_SCRIPT = """
const sought = document.getElementById('sought');
if (sought) sought.addEventListener('input', () => {
  const part = sought.value.trim().toLowerCase();
  for (const row of document.querySelectorAll('.schools tbody tr')) row.hidden = !row.firstChild.textContent.toLowerCase().includes(part);
});
"""

SEARCH_SCRIPT = """
const data = JSON.parse(document.getElementById('data').textContent);
const words = data.words;
const answer = document.getElementById('answer');
const value = new Map(Array.from(data.digits, (digit, at) => [digit, at]));

// The number at a place of a column.
function at(column, place) {
  let number = 0;
  for (const digit of column.text.substr(place * column.width, column.width)) number = number * 64 + value.get(digit);
  return number;
}
// The place of the student of a number, or -1. The numbers rise.
function placeOf(number) {
  let low = 0, high = data.count;
  while (low < high) {
    const middle = (low + high) >> 1;
    if (at(data.numbers, middle) < number) low = middle + 1; else high = middle;
  }
  return low < data.count && at(data.numbers, low) === number ? low : -1;
}
function choicesOf(place) {
  let first = 0;
  for (let before = 0; before < place; before++) first += at(data.lengths, before);
  return Array.from({ length: at(data.lengths, place) }, (_, choice) => {
    const code = at(data.choices, first + choice);
    const [number, name, last, turn] = data.schools[Math.floor(code / data.classes)];
    return { school: name ?? fill(words.school, { number }), group: code % data.classes, last, turn };
  });
}
function fill(sentence, filled) { return sentence.replace(/\\{(\\w+)\\}/g, (_, word) => filled[word]); }
function count(number) { return String(number).replace(/\\B(?=(\\d{3})+$)/g, words.thousands); }
function ordinal(number) {
  const text = String(number);
  const key = ['=' + text, text.slice(-2), text.slice(-1), ''].find(key => key in words.ordinal_endings);
  return count(number) + words.ordinal_endings[key];
}
function whyNot(choice, turn) {
  const school = choice.school;
  if (choice.last === 'closed') return fill(words.seats, { school });
  if (choice.last < choice.group) return fill(words.class, { school, own: words.you[choice.group], last: words.last_admitted[choice.last] });
  return fill(words.lottery, { school, own: words.groups[choice.group], last: ordinal(choice.turn), place: ordinal(turn) });
}
function howItFilled(choice, turn) {
  if (choice.last === 'free') return `${choice.school} has places free: everybody who asked was admitted.`;
  if (choice.turn === turn) return `Yours was the last place at ${choice.school}.`;
  const last = `At ${choice.school} the last student admitted ${words.last_admitted[choice.last]}`;
  return choice.last === choice.group ? `${last}, like you, and came ${ordinal(choice.turn)}.` : `${last}; you ${words.you[choice.group]}.`;
}
function add(name, text, kind) {
  const made = document.createElement(name);
  made.textContent = text;
  if (kind) made.className = kind;
  answer.append(made);
  return made;
}
function show(place) {
  const turn = at(data.turns, place), given = at(data.given, place), choices = choicesOf(place);
  const preferred = given ? choices.slice(0, given - 1) : choices;
  add('p', given ? fill(words.placed, { school: choices[given - 1].school, rank: words.ranks[given - 1] }) : words.unplaced, 'result');
  const lottery = fill(words.lottery_place, { place: ordinal(turn), students: count(data.count) });
  add('p', given ? `${lottery} ${howItFilled(choices[given - 1], turn)}` : lottery);
  if (preferred.length) {
    add('p', given ? words.preferred : words.preferred_by_unplaced);
    const list = add('ol', '');
    for (const choice of preferred) list.append(Object.assign(document.createElement('li'), { textContent: whyNot(choice, turn) }));
    add('p', words.order);
  }
  if (given && given < choices.length) add('p', 'Lower on your list: ' + choices.slice(given).map(choice => choice.school).join(', ') + '.');
  add('button', 'Print this answer alone', 'quiet').addEventListener('click', () => {
    document.body.classList.add('alone');
    window.print();
    document.body.classList.remove('alone');
  });
}
function search(typed) {
  answer.hidden = false;
  answer.replaceChildren();
  const number = typed.replace(/\\s/g, '');
  if (!/^[0-9]+$/.test(number)) { add('p', 'Please type the number in digits.'); return; }
  const place = placeOf(Number(number));
  if (place < 0) { add('p', `Nobody here has the number ${number}. Please check it.`); return; }
  add('p', `Number ${Number(number)}`, 'note');
  show(place);
}
const field = document.getElementById('number');
document.getElementById('search').addEventListener('submit', event => { event.preventDefault(); search(field.value); });
// A link to the page may end in # and a number.
if (/^#[0-9]+$/.test(location.hash)) { field.value = location.hash.slice(1); search(field.value); }
"""

SEARCH = """<form id="search"><label for="number">Your student number</label><input id="number" inputmode="numeric" autocomplete="off" required><button>Show my place</button></form>
<noscript><p>The search works where the browser may run the script of this page.</p></noscript>
<div id="answer" aria-live="polite" hidden></div>"""

# From so many schools on one looks for a school by typing.
MANY_SCHOOLS = 30

FIND_SCHOOL = '<form class="screen" onsubmit="return false"><label for="sought">Find a school</label><input id="sought" autocomplete="off"></form>'


def as_script(given):
    """A value as JSON that may stand in a page."""
    return json.dumps(given, separators=(",", ":"), ensure_ascii=False).replace("<", "\\u003c")


def page(title, outcome, language, with_students):
    name = html.escape(title)
    robots = '<meta name="robots" content="noindex, nofollow">\n' if with_students else ""
    held = "<p>It holds the number of every student, the choices, the group at each school, the place in the lottery and the outcome; whoever has the page can read them all.</p>\n"
    scripts = [SCHOOLS_SCRIPT]
    if with_students:
        scripts.insert(0, SEARCH_SCRIPT)
    known = f'<script type="application/json" id="data">{as_script(data(outcome, language))}</script>\n' if with_students else ""
    return f"""<!DOCTYPE html>
<html lang="en">
<head>
<meta charset="utf-8">
<meta name="viewport" content="width=device-width, initial-scale=1">
<meta http-equiv="Content-Security-Policy" content="default-src 'none'; style-src 'unsafe-inline'; script-src 'unsafe-inline'">
{robots}<title>{name}</title>
<style>{STYLE}</style>
</head>
<body>
<h1>{name}</h1>
{SEARCH if with_students else ""}
<h2>In figures</h2>
{figures(outcome.ranks, language)}
<h2>Schools, the most sought after first</h2>
{FIND_SCHOOL if len(outcome.schools) >= MANY_SCHOOLS else ""}
<table class="schools"><thead><tr><th scope="col">School</th><th scope="col">Who was admitted</th><th scope="col">Listed by</th><th scope="col">Places</th><th scope="col">Taken</th><th scope="col">Free</th></tr></thead>
<tbody>
{school_rows(outcome, language)}
</tbody></table>
<h2>Who comes first at a school</h2>
<p>In this order:</p>
<ul>{"".join(f"<li>{html.escape(language.group(group))} <small>(class {group})</small></li>" for group in range(texts.CLASSES))}</ul>
<p>Within a group the lottery decides. It is the same lottery at every school.</p>
<h2>About this page</h2>
<p>The page shows what the texts of the school office say, and they are what counts. It works without a network and sends nothing to anybody. Neither the page nor the script that wrote it is proved.</p>
{held if with_students else ""}{known}<script>{"".join(scripts)}</script>
</body>
</html>
"""


def main():
    words = argparse.ArgumentParser(description="Write one page that shows the outcome of a school choice.")
    words.add_argument("--report", required=True, help="what match, run or replay wrote")
    words.add_argument("--summary", required=True, help="what summary wrote")
    words.add_argument("--names", help="the schools' names: a table number,name")
    told = words.add_mutually_exclusive_group()
    told.add_argument("--explain", help="what explain wrote of everybody: the page then holds what became of every student")
    told.add_argument("--lottery", help="the same text, for the last places' turns in the lottery alone")
    words.add_argument("--title", default="School places")
    given = words.parse_args()
    try:
        report = texts.tables(given.report, texts.REPORT_HEADERS)
        summary = texts.tables(given.summary, texts.SUMMARY_HEADERS)
        explain = given.explain or given.lottery
        choices = texts.read_choices(explain) if explain else None
        language = texts.Language("en", texts.read_names(given.names, "number,name") if given.names else {})
        written = page(given.title, Outcome(report, summary, choices), language, bool(given.explain))
        sys.stdout.buffer.write(written.encode())
        sys.stdout.flush()
    except (OSError, UnicodeError, texts.WrongText) as error:
        print(f"page.py: {error}", file=sys.stderr)
        return 2
    except ValueError:
        print("page.py: a number of the report or of the summary is none", file=sys.stderr)
        return 2
    if given.explain:
        print(
            f"page.py: the page holds of all {len(choices.students):,} students the number, the choices, the group at each school (so whether they have a sibling there "
            "or live in its zone), the place in the lottery and the outcome. Publish it only where everybody may read that; --lottery in the place of --explain leaves the students out.",
            file=sys.stderr,
        )
    return 0


if __name__ == "__main__":
    sys.exit(main())
