#!/usr/bin/env python3
"""Plants errors in the definitions that contracts cite, one at a time, and tells which law, relation or row is then false.

tools/definitions.py [NAME..]       tries the errors of tools/definitions/NAME.edit, or all of them; with --all over every short
                                    book, where else a quarter of them is looked at
tools/definitions.py --table        prints the table of the last run: by crate, how many were caught by what
tools/definitions.py --cited        prints the definitions that contracts of public functions cite
tools/definitions.py --check        shows that every law, relation and row holds of the definitions as they are

A contract is mostly an equation with a definition, so that an error in the definition would be copied by the code. Three things
stand beside an equation, and each is evaluated here, straight from the files (tools/antt.py), over many books and lines:

  law        a proposition about definitions that a function without a body promises, as `laws_hold`
  relation   what a contract promises beside its equations, as `IsClass` beside `class_of`
  row        a book with the answers that others have worked out, or a text that a program is to print

An edit has the form of a must-fail edit: '# in: DEFINITION[, DEFINITION]', then 'file: crates/X/specs/Y.antt' and pairs of
'old:' and 'new:', of which the first stands once in the file; there may be several files. A line '# promise: WHY' says that the
definition is itself what is promised, so that at most a row shows it, and a line '# same: WHY' that the edit means the same.
What a run finds is kept in tools/definitions/found.txt: definition, error, outcome, by what, and the instance at which that is
false. It ends with 1 where an error is caught by nothing, or could not be tried.

A law that is added is one line of LAWS (tools/laws.py): its definition, and what gives the instances over which it is tried, as
`books` (tools/instances.py). Where it speaks of what no instance has, as a new kind of list, the universe has to say what the
variable ranges over: by its name, by `Definition.name`, or by its type. What a contract promises beside its equations is read
from the sources (tools/contracts.py), so that a clause that is added is looked at by itself. A function whose contract is not
looked at yet is one line of RELATIONS: its crate and name, and what gives values of the variables of its contract by the
definitions. A row that is added is one line of ROWS (tools/rows.py). Then --check has to say that all holds, over every short
book and with no limit of time; it also names the laws that functions promise and that are not in LAWS.

A law or a contract that is not gone through in PATIENCE seconds, or in an instance of which a list is too long to go through,
shows nothing of the rest: what comes after it is tried, and where that catches nothing the outcome tells what was cut short.
"""

import os
import re
import sys
import threading
import time

import antt
import contracts
from instances import (
    NUMBERS, STOCK, Books, axis, classes, copies, ends, enters, kind_functions, lines_of, new_books, order_asks,
    records, reports, reports_in_c, rewrites, runs, searches, sheet_reads, tables, view_asks, wait_asks, why_asks,
    write_lines,
)
from laws import LAWS
from rows import ROWS

TOP = os.path.dirname(os.path.dirname(os.path.abspath(__file__)))
EDITS = os.path.join(TOP, "tools", "definitions")
FOUND = os.path.join(EDITS, "found.txt")
PATIENCE = 40  # seconds for a law or a contract, in definitions with an error
OUTCOMES = ("law", "relation", "row", "promise", "same", "NOTHING")

class Look:
    """How long a law or a contract may be looked at, in seconds or with no limit, and which were not gone through."""

    def __init__(self, patience=None):
        self.patience, self.cut = patience, {}

    def over(self, name, start):
        """Whether the time for it is over, which is kept."""
        if self.patience is None or time.time() - start <= self.patience:
            return False
        self.cut[name] = f"not gone through in {self.patience} s"
        return True

    def endless(self, name, shown):
        """An instance at which a list was too long to go through: told where nothing may be left out, and else kept."""
        if self.patience is None:
            return f"a list too long to go through: {shown}"
        self.cut.setdefault(name, "a list too long to go through")
        return None

    def told(self):
        """What was not gone through, as text."""
        return "; ".join(f"{name}: {why}" for name, why in self.cut.items())


def law_false(library, key, instances, quick, look):
    """Where the law is false, or nothing."""
    function, start, name = library.function(key), time.time(), key.split(".")[-1]
    for some, args in instances(library, quick):
        library.universe, library.noted = some, None
        if look.over(name, start):
            break
        try:
            holds = function(*args)
        except antt.Endless:
            told = look.endless(name, antt.shown_values(some.names)[:200])
            if told:
                return told
            continue
        if not holds:
            label, values = library.noted or (name, {})
            extra = "".join(f"{antt.shown(arg)}: " for arg in args if arg is not None)
            return extra + (f"{label}: " if label != name else "") + antt.shown_values(values)
    return None


# ---- contracts: what stands beside the equations

ARITIES = {"alike": 2, "text": 1, "parsed": 1, "numbers": 2, "edges": 3}


class Contract:
    """The clauses of a function, as Python functions of its variables; of a book that changes, what its fields say besides."""

    sources = None

    def __init__(self, library, name):
        if Contract.sources is None:
            Contract.sources = contracts.sources(TOP)
        crate, _, short = name.partition(".")
        self.clauses, self.keys = [], {}
        for source in Contract.sources:
            if source.crate != crate:
                continue
            for of in source.functions:
                if of.name == short:
                    for kind, label, text in of.clauses:
                        if kind == "ensures":
                            self.add(library, label or "ensures", text, of.uses)
            if short in ("Book::enter", "Book::record", "Book::end", "Book::read_in"):
                for ghost in source.ghosts:
                    if ghost.owner == "Book" and not ghost.trait:
                        text = re.sub(r"\b(len|memory)\b", r"self_new.\1", ghost.text)
                        self.add(library, ghost.name, text, ghost.uses)
        if not self.clauses:
            raise antt.Fault(f"no contract of {name}")

    def add(self, library, label, text, uses):
        """Adds a clause, with the variables that it speaks of."""
        text = contracts.spelt(text)
        names = [name for name in dict.fromkeys(re.findall(r"[^\W\d]\w*", text)) if name in VARIABLES]
        uses = uses + [("Rattle.std.specs.Prelude", name, name) for name in ("length", "◌≤◌")]
        function, node = contracts.clause(library, text, uses, {name: ARITIES.get(name, 0) for name in names})
        antt_uses(node, self.keys)
        self.clauses.append((label, names, function))

    def false_at(self, values):
        """The first clause that is false at these values; a slice that is lent comes back as long as it was."""
        for name in values:
            if name.endswith("_new") and isinstance(values[name], tuple) and not hasattr(values[name], "labels"):
                if len(values[name]) != len(values[name[: -len("new")] + "old"]):
                    return f"length of {name[: -len('_new')]}"
        for label, names, function in self.clauses:
            if not function(*(values.get(name) for name in names)):
                return label
        return None


VARIABLES = set(ARITIES) | {
    "result", "entries", "list_old", "list_new", "strip_old", "strip_new", "i", "j", "self_old", "self_new", "sheet", "entry",
    "space_old", "space_new", "rows", "graph", "memory_old", "memory_new", "calls", "answers_old", "answers_new", "tickets_old",
    "tickets_new", "ticket", "step", "ending", "cue", "memory",
}


def antt_uses(node, found):
    """Adds the definitions that a term names."""
    if node[0] == "g":
        found[node[1]] = True
    for one in antt.parts(node):
        antt_uses(one, found)


# The contracts: the crate and the function, and what gives its variables. Likely ones come first.
RELATIONS = [
    ("recovery.class_of", classes),
    ("serial.order_of", order_asks),
    ("views.views_of", view_asks),
    ("serial.why", why_asks),
    ("history.committed_cues", tables),
    ("book.Book::new", new_books),
    ("book.Book::enter", enters),
    ("book.Book::record", records),
    ("book.Book::end", ends),
    ("book.Book::read_in", sheet_reads),
    ("lines.write_line", write_lines),
    ("lines.rewrite_line", rewrites),
    ("lines.copy_line", copies),
    ("graphs.search", searches),
    ("graphs.wait_order", wait_asks),
    ("report.cue_report", reports),
    ("report_c.cue_report", reports_in_c),
    ("runs.perform", runs),
]


def relation_false(library, name, instances, quick, contract, look):
    """Where a clause of the contract is false, or nothing."""
    start, asked = time.time(), iter(instances(library, quick))
    while not look.over(name, start):
        try:
            some, shown, candidates = next(asked)
        except StopIteration:
            break
        except antt.Endless:
            return look.endless(name, "no instances")
        library.universe, false = some, None
        for values in candidates:
            try:
                false = contract.false_at(values)
            except antt.Endless:
                false = look.endless(name, antt.shown_values(shown))
            if false is None:
                break
        if false is not None:
            return f"{false}: {antt.shown_values(shown)}"
        if not candidates:
            return f"no answer at all: {antt.shown_values(shown)}"
    return None


class Kind:
    """What the traits of items say of a kind."""

    def __init__(self, library, kind):
        self.kind, self.laws, self.keys = kind, [], {}
        functions = dict(zip(("alike", "text", "parsed"), kind_functions(library, kind)))
        if Contract.sources is None:
            Contract.sources = contracts.sources(TOP)
        for source in Contract.sources:
            for law in source.laws:
                if law.owner in ("Item", "Exact") and law.name not in functions:
                    text = re.sub(r"\bSelf\b(?!\.)", "K", law.text)
                    names = [name for name in functions if re.search(rf"\b{name}\b", text)]
                    function, node = contracts.clause(library, text, law.uses, {name: ARITIES[name] for name in names})
                    antt_uses(node, self.keys)
                    self.laws.append((law.name, [functions[name] for name in names], function))
        for what in ("alike", "text", "in"):
            self.keys[f"items.Kinds.{kind}_{what}"] = True

    def false(self, library, quick):
        """Where what the traits say is false of this kind, or nothing."""
        fields = tuple(dict.fromkeys(line[7:15] for line in lines_of(self.kind, quick)))
        items = tuple(axis(number) for number in NUMBERS[self.kind])
        if self.kind == "mark":
            items += tuple(axis(n) for n in (18 * 52 + 20, 44 * 52 + 46, 18 * 52 + 46))
        library.universe = antt.Universe({"bs": fields}, {"K": items, "ℕ": tuple(range(12)), "List ℕ": fields})
        for name, args, function in self.laws:
            library.noted = None
            if not function(*args):
                return f"{name}: {antt.shown_values((library.noted or ('', {}))[1])}"
        return None


# ---- errors


class Edit:
    """An error to be planted."""

    def __init__(self, name):
        self.name, self.keys, self.pairs, self.why = name, [], [], {}
        path = old = None
        with open(os.path.join(EDITS, name + ".edit"), encoding="utf-8") as lines:
            for line in lines:
                line = line.rstrip("\n")
                if line.startswith("# in: "):
                    self.keys += [key.strip() for key in line[len("# in: ") :].split(",")]
                elif line.startswith(("# promise: ", "# same: ")):
                    kind, why = line[2:].split(": ", 1)
                    self.why[kind] = why
                elif line.startswith("file: "):
                    path = line[len("file: ") :].strip()
                elif line.startswith("old: "):
                    old = line[len("old: ") :]
                elif line.startswith("new:"):
                    self.pairs.append((path, old, line[len("new: ") :]))

    def texts(self, library):
        """The files as the edit leaves them."""
        found = {}
        for path, old, new in self.pairs:
            if path not in library.files:
                raise antt.Fault(f"no file {path}")
            text = found.get(path, library.files[path].text)
            if text.count(old) != 1:
                raise antt.Fault(f"{text.count(old)} times in {path}: {old}")
            found[path] = text.replace(old, new)
        return found

    def planted(self, library):
        """The library with the error, which must be in the definitions that the edit names, and read without fault."""
        edited = library.edited(self.texts(library))
        changed = []
        for path in dict.fromkeys(path for path, _, _ in self.pairs):
            for name, of in edited.files[path].definitions.items():
                before = library.files[path].definitions.get(name)
                if before is None or before.text != of.text:
                    changed.append(of.key)
        if sorted(changed) != sorted(self.keys):
            raise antt.Fault(f"it changes {', '.join(changed) or 'nothing'}")
        for key in changed:
            edited.form(key)
            if edited.find(key).kind != "data":
                antt.Compiler(edited).define(key)
        return edited


def edits():
    """All errors, by their names."""
    return [Edit(name[: -len(".edit")]) for name in sorted(os.listdir(EDITS)) if name.endswith(".edit")]


def checks(library, keys, look):
    """What may catch an error in these definitions, step by step: what it is, its name, and what tells where it is false."""
    keys = set(keys)
    touches = lambda some: any(key in keys for key in library.reaches(some))
    laws = [(key, instances) for key, instances in LAWS if touches([key])]
    relations, kinds = [], []
    for name, instances in RELATIONS:
        contract = Contract(library, name)
        if touches(contract.keys):
            relations.append((name, instances, contract))
    for kind in ("axis", "mark"):
        of = Kind(library, kind)
        if touches(of.keys):
            kinds.append(of)
    for quick in (True, False):
        for key, instances in laws:
            yield "law", key.split(".")[-1], lambda: law_false(library, key, instances, quick, look)
        for of in kinds:
            yield "relation", f"Item of {of.kind}", lambda: of.false(library, quick)
        for name, instances, contract in relations:
            yield "relation", name.split(".")[-1], lambda: relation_false(library, name, instances, quick, contract, look)
    for name, asked, false in ROWS:
        if touches(asked):
            yield "row", name, lambda: false(library)


# What a definition may end with that was read and makes no sense, or asks a row for a list that is too long to go through.
FAULTS = (
    antt.Fault, antt.Endless, ArithmeticError, AttributeError, LookupError, NameError, TypeError, ValueError, RecursionError,
    SyntaxError,
)


def tried(library, edit):
    """Outcome of an error, by what, and the instance; where nothing else catches it, what was not gone through."""
    look, name = Look(PATIENCE), "the text"
    try:
        planted = edit.planted(library)
        for kind, name, false in checks(planted, edit.keys, look):
            instance = false()
            if instance is not None and kind == "row" and "promise" in edit.why:
                return "promise", name, f"{edit.why['promise']}: {instance}"
            if instance is not None:
                return kind, name, instance
    except FAULTS as fault:
        return "BAD", type(fault).__name__, f"{name}: {fault}"
    for kind, why in edit.why.items():
        return kind, "", why + (f" ({look.told()})" if look.cut else "")
    return "NOTHING", "", look.told()


# ---- what is cited


def cited(library):
    """The definitions that contracts of public functions cite, and those that only laws do."""
    promised, laws, said = {}, {}, set()
    for source in contracts.sources(TOP):
        for of in source.functions:
            for _, _, text in of.clauses if of.public else ():
                antt_uses(contracts.clause_term(library, text, of.uses), laws if of.law else promised)
        proofs = {law.name for law in source.laws if "≡" in law.text or law.text.startswith("(")} | said
        said |= proofs
    for source in contracts.sources(TOP):
        for ghost in source.ghosts + source.laws:
            is_proof = ghost.name in said and ghost in source.ghosts
            if ghost.public and not is_proof:
                antt_uses(contracts.clause_term(library, ghost.text, ghost.uses), promised)
    return library.reaches(promised), library.reaches(laws)


def print_cited(library):
    """Prints the definitions that contracts cite, and those that laws alone cite."""
    promised, laws = cited(library)
    own = [key for key in laws if key not in promised]
    for title, keys in (("contracts", promised), ("laws alone", own)):
        lines = 0
        for key in sorted(keys):
            of = library.find(key)
            lines += of.lines
            print(f"{title}\tcrates/{of.crate}/specs/{of.file}.antt\t{of.name}\t{of.lines}")
        print(f"{title}: {len(keys)} definitions, {lines} lines")


# ---- what was found


def read_found():
    """What was found of the edits that there are."""
    if not os.path.isfile(FOUND):
        return []
    with open(FOUND, encoding="utf-8") as lines:
        rows = [tuple(line.rstrip("\n").split("\t")) for line in lines]
    return [row for row in rows if os.path.isfile(os.path.join(EDITS, row[1] + ".edit"))]


def write_found(rows, names):
    """Keeps what was found, in the place of what was found before of the same edits."""
    kept = [row for row in read_found() if row[1] not in names]
    with open(FOUND, "w", encoding="utf-8") as to:
        for row in sorted(kept + rows):
            to.write("\t".join(row) + "\n")


def table():
    """The table of the last run, by crate."""
    print("| Crate | Definitions | Errors | Law | Relation | Row | Promise | Same | Nothing |")
    print("|---|---|---|---|---|---|---|---|---|")
    rows = read_found()
    for crate in list(dict.fromkeys(row[0].split(".")[0] for row in rows)) + ["all"]:
        those = [row for row in rows if crate in ("all", row[0].split(".")[0])]
        counts = [sum(row[2] == outcome for row in those) for outcome in OUTCOMES]
        keys = {key for row in those for key in row[0].split(", ")}
        print(f"| {crate if crate == 'all' else f'`{crate}`'} | {len(keys)} | {len(those)} | {' | '.join(map(str, counts))} |")


def unlisted(library):
    """The laws that functions without a body promise and that are neither among the laws nor asked by a row."""
    listed = {key for key, _ in LAWS} | {key for _, asked, _ in ROWS for key in asked}
    found = {}
    for source in contracts.sources(TOP):
        for of in source.functions:
            for _, _, text in of.clauses if of.law else ():
                node = contracts.clause_term(library, text, of.uses)
                head = node[1] if node[0] == "app" else node
                key = head[1] if head[0] == "g" else f"{source.crate}, {of.name}: {' '.join(text.split())}"
                if key not in listed:
                    found[key] = True
    return list(found)


def check(library):
    """Whether all holds of the definitions as they are, and every law that is promised is looked at."""
    left = unlisted(library)
    for key in left:
        print(f"law {key}: MISSING")
    for kind, name, false in checks(library, [of.key for of in library.all()], Look()):
        start = time.time()
        try:
            instance = false()
        except FAULTS as fault:
            instance = f"{type(fault).__name__}: {fault}"
        if instance is not None:
            left.append(name)
        says = "holds" if instance is None else "FALSE, " + instance
        print(f"{kind} {name}: {says} ({time.time() - start:.1f} s)", flush=True)
    print(f"{len(left)} do not hold or are missing")
    return 1 if left else 0


def run(words):
    """Does what the words of the command ask, and answers what it ends with."""
    if "--table" in words:
        table()
        return 0
    library = antt.Library(TOP)
    if "--cited" in words:
        print_cited(library)
        return 0
    STOCK.books = Books(library, "--all" in words or "--check" in words)
    if "--check" in words:
        return check(library)
    names = [word for word in words if not word.startswith("--")]
    some = [edit for edit in edits() if not names or edit.name in names]
    rows, left = [], 0
    for edit in some:
        start = time.time()
        kind, name, instance = tried(library, edit)
        instance = " ".join(instance.split())[:300]
        left += kind in ("NOTHING", "BAD")
        rows.append((", ".join(edit.keys), edit.name, kind, name, instance))
        write_found(rows[-1:], {edit.name})
        print(f"{kind:8} {name} {', '.join(edit.keys)} {edit.name}: {instance} ({time.time() - start:.1f} s)", flush=True)
    print(f"{len(rows)} planted, {len(rows) - left} told, {left} by nothing or not tried")
    return 1 if left else 0


def main(words):
    """Runs in a thread, whose stack may be as deep as definitions call themselves."""
    ended = []
    threading.stack_size(1 << 29)
    thread = threading.Thread(target=lambda: ended.append(run(words)))
    thread.start()
    thread.join()
    return ended[0] if ended else 1


if __name__ == "__main__":
    sys.exit(main(sys.argv[1:]))
