#!/usr/bin/env python3
"""Writes docs/MEANING.md: what the contracts of public functions say, for one sitting.

tools/meaning.py            writes the page, which begins with tools/meaning.md
tools/meaning.py --check    ends with 1 where the page is not what it would write
tools/meaning.py --pins     prints which law pins which definition, the table in docs/PROMISES.md

The page has each definition that a contract of a public function cites, as it stands in the specs, in the order in which a
reader needs them, and the types that they speak of; of laws it has the names. By what a definition is pinned is read from
what tools/definitions.py found: an error in it made that law, or relation, false.
"""

import os
import re
import sys

import antt
import contracts
import definitions

TOP = definitions.TOP
PAGE = os.path.join(TOP, "docs", "MEANING.md")

# What the page tells in turn: a title, a sentence, the types by their sources, and the files of definitions.
PARTS = [
    ("Lists and orders", "Tests of lists, and all orders of some numbers.", {}, ["lists/Lists", "orders/Orders", "orders/Least"]),
    ("Cues and entries", "A book is a list of entries, each with its cue and what the cue does.",
     {"history/src/lib.rt": ["Act", "Entry", "Ending"]},
     ["history/Places", "history/Entries", "history/Conflicts", "history/Endings", "history/Marked"]),
    ("Which orders are right", "What conflicts and views ask of an order of the committed cues, and what is right to answer.", {},
     ["history/Order", "history/Views", "history/Answers"]),
    ("How recoverable a book is", "Whom a read reads from, where the rules break, and the class.",
     {"recovery/src/lib.rt": ["Class"]}, ["recovery/ReadsFrom", "recovery/Breaks", "recovery/Classes"]),
    ("Why a call is refused", "The refusals, with their numbers and words.",
     {"refusals/src/lib.rt": ["LineRefusal", "Refusal", "Layer"]}, ["refusals/Numbers", "refusals/Words"]),
    ("Graphs and wait lists", "What a search answers, of any graph and of who waits for whom.",
     {"graphs/src/lib.rt": ["Found"], "graphs/src/waits.rt": ["Wait"]},
     ["graphs/Edges", "graphs/Rows", "graphs/Answer", "graphs/Waits", "graphs/WaitLaws"]),
    ("The questions", "What order, views and why answer and leave.", {"serial/src/lib.rt": ["Pair"]},
     ["serial/OrderAnswer", "serial/Why", "views/Answer"]),
    ("Columns and items", "Texts in columns, and the two kinds of item.",
     {"columns/src/lib.rt": ["Symbol"], "items/src/lib.rt": ["Axis", "Mark"]},
     ["columns/Symbols", "columns/Columns", "items/Words", "items/Fields", "items/Kinds"]),
    ("Lines", "What 16 bytes say.", {"lines/src/cuts.rt": ["Field", "Fields", "Part"]},
     ["lines/Cutting", "lines/Reading", "lines/Writing"]),
    ("The book", "What is entered, read in and done under a ticket.",
     {"book/src/sheets.rt": ["ReadFault"], "book/src/tickets.rt": ["Ticket", "Receipt", "Step"], "book/src/lib.rt": ["Book"]},
     ["book/Entering", "book/Reading", "book/ReadsIn", "book/Tickets"]),
    ("Runs", "What any list of calls answers and leaves.",
     {"runs/src/lib.rt": ["Call", "Answer", "Failure", "Want"], "runs/src/cues.rt": ["Cues"]},
     ["runs/Answers", "runs/Runs", "runs/Wants"]),
    ("The report and other texts", "What is printed, byte by byte.", {},
     ["report/Text", "report/Report", "words/Words", "stage/Texts"]),
]
HEAD = os.path.join(TOP, "tools", "meaning.md")  # how the page begins, with COUNT and LINES for numbers


def pins_of(key, rows):
    """By what errors in the definition were told: laws and relations, and where it was so, what is promised and rows."""
    found, others = {}, {}
    for row in rows:
        if key in row[0].split(", "):
            kind, name = row[2], row[3]
            if kind in ("law", "relation"):
                found[name] = True
            elif kind in ("row", "promise", "same"):
                others[kind] = True
    if found or len(others) > 1:
        others.pop("same", None)
    return list(found) + [kind for kind in ("promise", "row", "same") if kind in others]


def texts_of(path, shown):
    """The paragraphs of a specs file that have one of these definitions, with the modules in which they stand."""
    with open(os.path.join(TOP, path), encoding="utf-8") as file:
        lines = file.read().split("\n")
    found, opened, at = [], [], 0
    while at < len(lines):
        if not lines[at].strip():
            at += 1
            continue
        end = at
        while end < len(lines) and lines[end].strip():
            end += 1
        part = lines[at:end]
        first = at
        while part and re.match(r"\s*module _", part[0]) and part[0].rstrip().endswith("where"):
            depth = len(part[0]) - len(part[0].lstrip())
            opened = [other for other in opened if other[0] < depth] + [(depth, part[0])]
            part, first = part[1:], first + 1
        numbers = set(range(first + 1, end + 1))
        if part and any(of.first in numbers for of in shown):
            depth = min(len(line) - len(line.lstrip()) for line in part)
            opened = [other for other in opened if other[0] < depth]
            before = [line for _, line in opened]
            found.append((before, part))
        at = end
    told, given = [], []
    for before, part in found:
        new = [line for line in before if line not in given]
        given = before
        told.append("\n".join(new + part))
    return "\n\n".join(told)


def words_of(path, shown):
    """The lines of a file's opening list that say what these definitions are."""
    names, found, taken = {of.name for of in shown}, [], False
    with open(os.path.join(TOP, path), encoding="utf-8") as file:
        for line in file:
            if not line.startswith("--"):
                break
            if "==" in line:
                taken = bool(names & set(re.findall(r"[\w]+", line.split("==")[0])))
            elif not line.startswith("--    "):
                taken = False
            if taken:
                found.append(line.rstrip("\n"))
    return "\n".join(found) + "\n\n" if found else ""


def cited_by(library):
    """For each file, the public functions whose contracts name a definition of it, with the clauses that do."""
    found = {}
    for source in contracts.sources(TOP):
        for of in source.functions:
            if not of.public or of.law:
                continue
            for _, label, text in of.clauses:
                named = {}
                definitions.antt_uses(contracts.clause_term(library, text, of.uses), named)
                for key in named:
                    crate, file, _ = key.split(".", 2)
                    name = f"{of.crate}::{of.name}"
                    clauses = found.setdefault((crate, file), {}).setdefault(name, [])
                    if label and label not in clauses:
                        clauses.append(label)
    return found


def calls_text(found):
    """These functions with their clauses, in one sentence."""
    told = [f"`{name}`" + (f" ({', '.join(clauses)})" if clauses else "") for name, clauses in sorted(found.items())]
    return "Cited by " + ", ".join(told) + ".\n" if told else "Cited through other definitions, or as a member of a trait.\n"


def type_text(path, name):
    """A type as its source declares it, with its comments."""
    with open(os.path.join(TOP, "crates", path), encoding="utf-8") as file:
        text = file.read()
    head = r"((?:^//[^\n]*\n)*)(?:^#\[[^\n]*\n)*^pub (?:enum|struct) "
    match = re.search(head + name + r"\b[^{;]*\{.*?^\}\n", text, re.S | re.M)
    return "\n".join(line for line in match.group().rstrip("\n").split("\n") if not line.startswith("#["))


def page():
    """The text of the page."""
    library = antt.Library(TOP)
    promised, _ = definitions.cited(library)
    rows, calls = definitions.read_found(), cited_by(library)
    told, count, size, seen = [], 0, 0, set()
    for title, says, types, files in PARTS:
        told.append(f"\n## {title}\n\n{says}\n")
        for path, names in types.items():
            told.append("\n```rust\n" + "\n\n".join(type_text(path, name) for name in names) + "\n```\n")
        for file in files:
            crate, name = file.split("/")
            path = f"crates/{crate}/specs/{name}.antt"
            shown = [of for of in library.files[path].definitions.values() if of.key in promised]
            if not shown:
                sys.exit(f"{path}: no contract cites it")
            seen |= {of.key for of in shown}
            count, size = count + len(shown), size + sum(of.lines for of in shown)
            told.append(f"\n**`{path}`.** {calls_text(calls.get((crate, name), {}))}\n")
            told.append(f"```\n{words_of(path, shown)}{texts_of(path, shown)}\n```\n")
            pins = {}
            for of in shown:
                pins.setdefault(", ".join(f"`{pin}`" for pin in pins_of(of.key, rows)), []).append(f"`{of.name}`")
            told += [f"\n- {', '.join(names)}: {by or 'not tried'}" for by, names in pins.items()] + ["\n"]
    left = [key for key in promised if key not in seen]
    if left:
        sys.exit("not on the page: " + ", ".join(left))
    with open(HEAD, encoding="utf-8") as file:
        head = file.read()
    return head.replace("COUNT", str(count)).replace("LINES", f"{size:,}") + "".join(told)


def pins():
    """Prints a table of what pins each definition."""
    library = antt.Library(TOP)
    promised, _ = definitions.cited(library)
    rows = definitions.read_found()
    print("| Definitions | Pinned by |\n|---|---|")
    for _, _, _, files in PARTS:
        for file in files:
            crate, name = file.split("/")
            path = f"crates/{crate}/specs/{name}.antt"
            by = {}
            for of in library.files[path].definitions.values():
                if of.key in promised:
                    by.setdefault(", ".join(f"`{pin}`" for pin in pins_of(of.key, rows)), []).append(f"`{of.name}`")
            for pin, names in by.items():
                print(f"| `{crate}`, `{name}`: {', '.join(names)} | {pin or 'not tried'} |")


def main(words):
    """Writes the page, or does what the words of the command ask."""
    if "--pins" in words:
        pins()
        return 0
    text = page()
    if "--check" in words:
        with open(PAGE, encoding="utf-8") as file:
            return 0 if file.read() == text else 1
    with open(PAGE, "w", encoding="utf-8") as to:
        to.write(text)
    return 0


if __name__ == "__main__":
    sys.exit(main(sys.argv[1:]))
