#!/usr/bin/env python3
"""Prints each clause that stands word for word in four private functions or more, and where.

    python3 checks/repeated_clauses.py          at the top of the repository; ends with 1 where there is one
    python3 checks/repeated_clauses.py --wide   also private functions with more than ten clauses or six parameters, and
                                                clauses wider than 120 columns

A function is private unless other crates can call it: it is `pub`, and its crate passes its name on, that of its type, or
its module. What a trait asks of its methods is the trait's, and is left out.
"""
import collections
import pathlib
import re
import sys

MOST_PLACES, MOST_CLAUSES, MOST_PARAMETERS, WIDEST = 3, 10, 6, 120


def ends_a_head(line, first):
    return line.endswith(";") or line.strip() in ("{", "{}") or (line.endswith("{") and not re.match(r" *(requires|ensures)\b", line) and (not first or ")" in line))


def head_of(lines, at):
    """The lines of a function from its name to its body."""
    head = []
    for line in lines[at:]:
        head.append(line)
        if ends_a_head(line, len(head) == 1):
            break
    return head


def clauses_of(head):
    """Each clause as its kind and its words, without its label."""
    text = "\n".join(head)
    for found in re.finditer(r"\b(requires|ensures)\b *[a-z_0-9]* *\{", text):
        depth, end = 1, found.end()
        while depth and end < len(text):
            depth += {"{": 1, "}": -1}.get(text[end], 0)
            end += 1
        yield found.group(1), " ".join(text[found.end() : end - 1].split())


def parameters_of(head):
    """How many parameters a function takes beside `self`."""
    text, depth, count, word = re.sub(r"^.*?\bfn [a-z_0-9]+(<.*?>)?(?=\()", "", "\n".join(head), flags=re.DOTALL), 0, 0, ""
    for letter in text:
        if letter in "(<[":
            depth += 1
        elif letter in ")>]":
            depth -= 1
        if depth == 0 or (letter == "," and depth == 1):
            count += bool(word.strip()) and not re.fullmatch(r"&?(mut )?self", word.strip())
            word = ""
        elif not (depth == 1 and letter == "("):
            word += letter
        if depth == 0:
            return count
    return count


def passed_on(crate):
    """The names that a crate passes on to others: functions, types, and modules that are open to them."""
    names = set()
    for path in crate.glob("src/**/*.rt"):
        for found in re.finditer(r"^pub (?:mod|use (?:[a-z_]+::)+)\s*(\{[^}]*\}|[A-Za-z_]+);", path.read_text(encoding="utf-8"), re.MULTILINE):
            names.update(re.findall(r"[A-Za-z_]+", found.group(1)))
    return names


def private_functions():
    """The file, the name and the head of each private function."""
    for crate in sorted(pathlib.Path("crates").iterdir()):
        open_names = passed_on(crate)
        for path in sorted(crate.glob("src/**/*.rt")):
            of_a_trait, of, lines = False, path.stem, path.read_text(encoding="utf-8").split("\n")
            for at, line in enumerate(lines):
                if re.match(r"(impl|pub trait|trait|fn|pub)\b", line):
                    of_a_trait = re.match(r"(pub )?trait\b|impl\b.* for ", line) is not None
                    of = (re.findall(r"^impl(?:<.*?>)? ([A-Za-z]+)", line) or [path.stem])[0]
                named = re.match(r" *(pub(?:\([a-z]+\))? )?(?:const )?fn ([a-z_0-9]+)", line)
                if named and not of_a_trait and not (named.group(1) == "pub " and {of, named.group(2)} & open_names):
                    yield path, named.group(2), head_of(lines, at)


def main():
    places, found = collections.defaultdict(list), 0
    for path, name, head in private_functions():
        clauses = list(clauses_of(head))
        for clause in set(clauses):
            places[clause].append(f"{path}: {name}")
        if "--wide" in sys.argv:
            for what, count, most in (("clauses", len(clauses), MOST_CLAUSES), ("parameters", parameters_of(head), MOST_PARAMETERS), ("columns", max(map(len, head)), WIDEST)):
                if count > most:
                    found += 1
                    print(f"{count} {what}: {path}: {name}")
    for (kind, words), where in sorted(places.items(), key=lambda item: -len(item[1])):
        if len(where) > MOST_PLACES:
            found += 1
            print(f"{len(where)} times: {kind} {{ {words} }}", *where, sep="\n    ")
    sys.exit(1 if found else 0)


if __name__ == "__main__":
    main()
