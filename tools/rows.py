"""What others have worked out, and what programs are to print, beside what the definitions say of it.

What tells of a row takes a library, and answers where the row is false, or nothing.
"""

import itertools
import os
import re

import antt
from antt import record
from instances import (
    alikes, answered, axis, book, cases, code, definitions, entry, kind_functions, pools, run_universe, universe, wait,
)

TOP = os.path.dirname(os.path.dirname(os.path.abspath(__file__)))


def text_at(*steps):
    """The bytes of a file of crates."""
    with open(os.path.join(TOP, "crates", *steps), "rb") as file:
        return file.read()


def table_row(key):
    """A table of books in crates/agreement."""

    def false(library):
        for row in library.call(key):
            kind = "mark" if row[0] == "of_marks" else "axis"
            row = row[1] if row[0] in ("of_marks", "of_axes") else row
            library.universe = universe(library, row.book)
            if not library.call("agreement.Rows.RowAgrees", kind_functions(library, kind)[0], row):
                return antt.shown(row.book)
        return None

    return false


def report_row(crate):
    """A sheet, and the report that a program prints of it."""

    def false(library):
        sheet, printed = tuple(text_at(crate, "stdin")), text_at(crate, "stdout")
        library.universe = antt.Universe()
        cycle = re.search(rb"^cycle(.*)$", printed, re.MULTILINE)
        shown = tuple(map(int, cycle[1].split())) if cycle else ()
        answer = library.call("report.Report.read_sheet", sheet).answer
        if (answer[0] == "Err") != printed.startswith(b"fault"):
            return f"{antt.shown(answer)} for {printed.decode()!r}"
        text = bytes(library.call("report.Report.report_of", sheet, shown))
        return None if text == printed else f"{text.decode()!r} for {printed.decode()!r}"

    return false


def wait_row(crate):
    """Rows of waits, and what is printed of them."""

    def false(library):
        pairs = [map(int, line.split()) for line in text_at(crate, "stdin").splitlines()]
        rows = tuple(record(winch=a, awaited=b) for a, b in pairs)
        printed = text_at(crate, "stdout").decode().split()
        if printed[0] == "line":
            number = int(printed[1].rstrip(":"))
            said = [library.call("graphs.Waits.wait_refusal", rows[i : i + 1], 0, 0) for i in range(number)]
            found = [answer == ("Some", ("NoSuchWinch",)) for answer in said]
            return None if found == [False] * (number - 1) + [True] else f"line {number} is not the first refused"
        library.universe = antt.Universe({}, {"ℕ": tuple(range(len(printed)))})
        shown = tuple(map(int, printed[1:]))
        of = ("Ok", ("Order" if printed[0] == "order" else "Cycle", len(shown)))
        has = lambda n: library.call("graphs.Waits.waits_has", rows, n)
        edge = lambda a, b: library.call("graphs.Waits.waits_edge", rows, a, b)
        if library.call("graphs.Waits.wait_refusal", rows, 64, 64)[0] == "None":
            if library.call("graphs.Answer.Lists", has, edge, (0,) * 64, shown + (0,) * (64 - len(shown)), of):
                return None
        return " ".join(printed)

    return false


def words_of_script(library, text):
    """What a script says: its kind, and each call with its words; or the line that cannot be read, and what was expected."""
    kind, found = "axis", []
    for number, line in enumerate(text.split("\n"), 1):
        words = line.strip()
        if words.startswith("|") and found and found[-1][1] == "sheet":
            found[-1][2].extend((line.lstrip()[1:] + "\n").encode())
        elif words and not words.startswith("#"):
            found.append((number, words, []))
    if found and found[0][1] in ("axes", "marks"):
        kind = {"axes": "axis", "marks": "mark"}[found.pop(0)[1]]
    return kind, found


def script_call(library, parsed, words, sheet):
    """The call that the words of a script say, or what was expected."""
    parts = words.split()
    name, rest = parts[0], parts[1:]

    def item(word):
        found = library.call("words.Words.item_in", parsed, tuple(word.encode()))
        return found[1] if found[0] == "Some" else None

    def act(letters):
        if letters[0] in "ca":
            return ({"c": "Commit", "a": "Abort"}[letters[0]],)
        of = item(letters[1])
        return None if of is None else ({"r": "Read", "w": "Write"}[letters[0]], of)

    if name == "sheet":
        return ("ReadIn", tuple(sheet))
    if name in ("enter", "record"):
        did = act(rest[1:])
        if did is None:
            return None
        return ("Enter", record(cue=int(rest[0]), act=did)) if name == "enter" else ("Record", int(rest[0]), did)
    numbers = list(map(int, filter(str.isdigit, rest)))
    if name == "end":
        return ("End", numbers[0], act(rest[1:]))
    if name == "order":
        numbers += [64] * (2 - len(numbers))
    if name == "views":
        numbers += [64] * (1 - len(numbers))
    return (name.capitalize(), *numbers)


def script_row(crate):
    """A script, and what a rehearsal prints of it."""

    def false(library):
        kind, said = words_of_script(library, text_at(crate, "stdin").decode())
        printed = text_at(crate, "stdout").decode().splitlines()
        alike, _, parsed = kind_functions(library, kind)
        told_text, said_text, fault_text = definitions(
            library, "stage.Texts.told_text", "stage.Texts.said_text", "stage.Texts.fault_text")
        calls = []
        for number, words, sheet in said:
            call = script_call(library, parsed, words, sheet)
            if call is None:
                kinds = {"axis": "an axis, 0 to 65535", "mark": "a mark, 1 to 8 letters"}[kind]
                text = bytes(fault_text(record(line=number, expected=("Item", tuple(kinds.encode()))))).decode()
                return None if [text] == printed[:1] else text
            calls.append(call)
        start, told = library.function("runs.Runs.start"), {}
        state, answers = start(), []
        for (number, words, sheet), call, line in zip(said, calls, printed):
            library.universe = run_universe(state.entries[-12:], answers)
            library.universe = universe(library, state.entries)
            library.universe.names["ReadsIn.said"] = ((),)
            cycle = re.match(r"order.*: cycle (.*)", line)
            if cycle:
                shown = tuple(map(int, cycle[1].split()))
                answer = ("Ok", ("Cycle", record(list=shown + (0,) * (64 - len(shown)), count=len(shown))))
                if not library.call("runs.Runs.Right", alike, parsed, 4096, state, call, answer):
                    return f"{line}: not right"
            else:
                answer = plain_answer(library, alike, parsed, state, call, told)
            text = bytes(said_text(tuple(words.encode()), tuple(sheet)) + tuple(b": ") + told_text(answer)).decode()
            if text != line:
                return f"{text!r} for {line!r}"
            answers.append(answer)
            state = library.call("runs.Runs.after", parsed, 4096, state, call)
        return None

    return false


def plain_answer(library, alike, parsed, state, call, told):
    """The answer to a call, where orders are by the definitions alone."""
    if call[0] not in ("Order", "Views"):
        return answered(library, alike, parsed, 4096, state, call, told)
    es = state.entries
    if call[0] == "Order":
        refusal = library.call("serial.OrderAnswer.order_refusal", es, *call[1:])
        found = library.call("history.Order.conflict_order", alike, es)
    else:
        refusal = library.call("views.Answer.views_refusal", es, call[1])
        if refusal[0] == "None":
            found = library.call("history.Views.view_order", alike, es)
    if refusal[0] == "Some":
        return ("Err", ("Refused", refusal[1]))
    if found[0] == "None":
        return ("Ok", ("Views", ("None",))) if call[0] == "Views" else ("Ok", ("Cycle", record(list=(), count=0)))
    cues = record(list=found[1] + (0,) * (64 - len(found[1])), count=len(found[1]))
    return ("Ok", ("Order", cues)) if call[0] == "Order" else ("Ok", ("Views", ("Some", cues)))


def sample_row(library):
    """The books of crates/samples, and what is printed of them."""
    printed = text_at("samples", "stdout").decode().splitlines()
    number_of = library.function("refusals.Numbers.number_of")
    blocks = []
    for line in printed:
        if line.startswith("  "):
            blocks[-1][1].append(line)
        else:
            blocks.append((line, []))
    spell = library.function("agreement.Samples.spelt")
    for head, lines in blocks:
        at = head.index(": ") + 2
        marks = re.search(r"\([A-Za-z]", head[at:]) is not None
        alike = kind_functions(library, "mark" if marks else "axis")[0]
        es, said = (), []
        library.universe = antt.Universe()
        for word in head[at:].split():
            match = re.fullmatch(r"([rwca])(\d+)(?:\((\w+)\))?", word)
            item = match[3] and (spell(tuple(match[3].encode())) if marks else axis(int(match[3])))
            name = {"r": "Read", "w": "Write", "c": "Commit", "a": "Abort"}[match[1]]
            e = record(cue=int(match[2]), act=(name, item) if item else (name,))
            result = library.call("book.Entering.entered", 20, es, e.cue)
            if result[0] == "Err":
                said.append(f"  {word} is refused, {number_of(result[1])}")
            es = library.call("book.Entering.grown", result, e, es)
        found = library.call("recovery.Classes.class_of", alike, es)
        number, place = (library.call(f"recovery.Classes.class_{what}", found) for what in ("number", "place"))
        said.append(f"  class {number} {place}")
        order = library.call("history.Order.conflict_order", alike, es)
        if order[0] == "Some":
            said.append("  order" + "".join(f" {n}" for n in order[1]))
        else:
            said.append(next((line for line in lines if line.startswith("  cycle")), "  cycle"))
        refusal = library.call("views.Answer.views_refusal", es, 8)
        if refusal[0] == "Some":
            said.append(f"  views are refused, {number_of(refusal[1])}")
        else:
            views = library.call("history.Views.view_order", alike, es)
            said.append("  views" + "".join(f" {n}" for n in views[1]) if views[0] == "Some" else "  views: none")
        asked = [tuple(map(int, re.findall(r"\d+", line.split(":")[0]))) for line in lines if line.startswith("  why")]
        for number, (i, j) in enumerate(asked):
            why = library.call("serial.Why.why_answer", alike, es if number < 2 else (), i, j)
            if why[0] == "Err":
                text = f"refused, {number_of(why[1])}"
            else:
                text = f"{why[1][1].first} {why[1][1].second}" if why[1][0] == "Some" else "none"
            said.append(f"  why {i} {j}: {text}")
        if said != lines:
            wrong = next((pair for pair in itertools.zip_longest(said, lines) if pair[0] != pair[1]))
            return f"{head[at:]}: {wrong[0]!r} for {wrong[1]!r}"
    return None


def edge_row(library):
    """The edges of lines and books of crates/edges, and what is printed of them."""
    source = text_at("edges", "src", "main.rt").decode()
    unescaped = lambda text: tuple(eval(f'b"{text}"'))  # pylint: disable=eval-used
    sheet_of = {name: unescaped(sheet) for name, sheet in re.findall(r'name: "([^"]*)",\s*sheet: b"((?:[^"\\]|\\.)*)"', source)}
    marks = {name for name in sheet_of if name.startswith("mark ")} | {"no mark", "an axis for a mark", "a blank inside"}
    printed = text_at("edges", "stdout").decode().splitlines()
    layer_number = library.function("refusals.Numbers.layer_number_of")
    library.universe = antt.Universe()
    for number, line in enumerate(printed):
        copied = re.fullmatch(r"(.*) into (\d+) bytes: (.*)", line)
        name = copied[1] if copied else line.split(": ")[0]
        if copied:
            _, _, parsed = kind_functions(library, "mark")
            size = int(copied[2])
            result = library.call("lines.Writing.copied", parsed, sheet_of[name], size)
            space = library.call("lines.Writing.space_copied", result, sheet_of[name], (46,) * size)
            told = "not copied, " + str(layer_number(result[1])) if result[0] == "Err" else "copied" if result[1] else "the end"
            if told != copied[3] or str(list(space)) != printed[number + 1]:
                return f"{name} into {size} bytes: {told}, {list(space)}"
        elif name in sheet_of:
            parsed = kind_functions(library, "mark" if name in marks else "axis")[2]
            t = library.call("book.Reading.read_in", parsed, 4, (), sheet_of[name])
            if t.answer[0] == "Ok":
                told = f"{t.answer[1]} entered"
            else:
                layer = t.answer[1].layer
                by = "as a line" if layer[0] == "Line" else "from the book"
                told = f"line {t.answer[1].line} gets {layer_number(layer)} {by}, {len(t.entries)} entered"
            if f"{name}: {told}" != line:
                return f"{name}: {told!r} for {line!r}"
        elif name.endswith(" places"):
            places, entered = (int(word) for word in re.match(r"(\d+) places: (\d+) entered", line).groups())
            if entered == 4096:
                room = library.call("book.Entering.room", record(memory=book("a0") * places, len=0))
                if room != entered:
                    return f"{room} entered for {line!r}"
                continue
            es = tuple(entry(n % 64 + 1, "r", 7) for n in range(entered))
            b = record(memory=es + book("a0") * (places - entered), len=0)
            room = library.call("book.Entering.room", b)
            result = library.call("book.Entering.entered", room, es, entered % 64 + 1)
            if result != ("Err", ("BookFull",)):
                return line
    return None


def refusal_row(library):
    """Each refusal by its number, as crates/vectors asks for it."""
    library.universe = antt.Universe()
    number_of, layer_number = definitions(library, "refusals.Numbers.number_of", "refusals.Numbers.layer_number_of")
    parsed = kind_functions(library, "mark")[2]
    source = text_at("vectors", "src", "numbers.rt").decode()
    for sheet, line, number in re.findall(r'\(\s*b"((?:[^"\\]|\\.)*)",\s*(\d+),\s*(\d+),?\s*\)', source):
        t = library.call("book.Reading.read_in", parsed, 2, (), tuple(eval(f'b"{sheet}"')))  # pylint: disable=eval-used
        fault = t.answer[1]
        if t.answer[0] == "Ok" or (fault.line, layer_number(fault.layer)) != (int(line), int(number)):
            return f"{sheet!r} for {number}"
    entered, begun = definitions(library, "book.Entering.entered", "book.Tickets.begun")
    eight = book(" ".join(f"c{n}" for n in range(1, 9)))
    alike = alikes(library)[0]
    asked = [
        (11, lambda: entered(2, book("c1"), 65)), (12, lambda: entered(2, book("c1"), 1)), (11, lambda: begun(book("c1"), 0)),
        (14, lambda: begun(book("c1"), 1)), (0, lambda: entered(2, book("c1"), 2)),
        (13, lambda: entered(2, book("c1 w2(1)"), 2)),
        (22, lambda: refused(library.call("serial.OrderAnswer.order_refusal", eight, 7, 63))),
        (21, lambda: refused(library.call("serial.OrderAnswer.order_refusal", eight, 7, 64))),
        (21, lambda: refused(library.call("views.Answer.views_refusal", eight, 7))),
        (23, lambda: refused(library.call("views.Answer.views_refusal", eight + book("c9"), 9))),
        (24, lambda: library.call("serial.Why.why_answer", alike, eight, 0, 1)),
        (24, lambda: library.call("serial.Why.why_answer", alike, eight, 1, 65)),
        (24, lambda: library.call("serial.Why.why_answer", alike, eight, 3, 3)),
        (26, lambda: library.call("lines.Writing.line_written", entry(1, "c"), 15)),
        (31, lambda: refused(library.call("graphs.Waits.wait_refusal", (record(winch=64, awaited=65),), 64, 388))),
        (25, lambda: ("Err", ("ReportShort",))),
    ]
    for number, ask in asked:
        result = ask()
        if (number_of(result[1]) if result[0] == "Err" else 0) != number:
            return f"{antt.shown(result)} for {number}"
    return None


def ticket_row(library):
    """Tickets that are ended, and one that comes back from a full book, as crates/vectors has them."""
    begun, entered, grown, under, stepped, closed, act_of = definitions(
        library, "book.Tickets.begun", "book.Entering.entered", "book.Entering.grown", "book.Tickets.under",
        "book.Tickets.stepped", "book.Tickets.closed", "history.Endings.act_of")
    library.universe, es = antt.Universe(), ()
    first, second = begun(es, 1)[1], begun(es, 2)[1]
    asked = [
        (first, ("Write", axis(1)), 1), (second, ("Read", axis(2)), 2), (first, ("Commit",), 3),
        (second, ("Write", axis(2)), 4),
        (second, ("Abort",), 5), (record(cue=3), ("Commit",), None),
    ]
    for ticket, what, place in asked:
        result = entered(5, es, ticket.cue)
        ends = what[0] in ("Commit", "Abort")
        es = grown(result, under(ticket, act_of(what) if ends else stepped(what)), es)
        told = closed(ticket, what, result) if ends else result
        if place is None:
            right = told == ("Err", (record(cue=3), ("BookFull",)))
        elif ends:
            right = told == ("Ok", record(place=place, ending=what))
        else:
            right = told == ("Ok", place)
        if not right or place and es[-1] != record(cue=ticket.cue, act=what):
            return f"{what[0]} of cue {ticket.cue}: {antt.shown(told)}, {antt.shown(es)}"
    return None


def refused(option):
    """A refusal, if there is one, as an answer."""
    return ("Err", option[1]) if option[0] == "Some" else ("Ok", None)


def waits_row(library):
    """The wait lists of crates/agreement."""
    for row in library.call("agreement.WaitLists.wait_lists"):
        library.universe = pools(N=tuple(range(8)))
        if not library.call("agreement.WaitLists.WaitRowAgrees", row):
            return antt.shown(row.rows)
    return None


def searched_rows():
    """The wait lists that crates/searches searches, by their names; those of its table, which share one, with their cells."""
    chain = [(n, n + 1) for n in range(1, 64)]
    found = {"a chain backwards": chain, "one cycle": chain + [(64, 1)], "no number": []}
    source = text_at("searches", "src", "main.rt").decode()
    for name, winch, awaited in re.findall(r'\("([^"]+)", (\d+)(?:u32)?, (\d+)(?:u32)?, \d+', source):
        found[name] = [(winch, awaited)]
    source = text_at("searches", "src", "wait_lists.rt").decode()
    for name, listed in re.findall(r'shows: "([^"]*)",\s*rows: &\[(.*?)\],\s*\}', source, re.DOTALL):
        found[name, "4"] = re.findall(r"winch: (\d+),\s*awaited: (\d+)", listed)
    return {name: tuple(wait(int(winch), int(awaited)) for winch, awaited in rows) for name, rows in found.items()}


def searches_row(library):
    """The wait lists of crates/searches, and what is printed of them: the answer, the first cells, and what the strip keeps."""
    names = ("graphs.Waits.waits_has", "graphs.Waits.waits_edge", "graphs.Answer.strip_after", "graphs.Answer.Lists")
    has, edge, strip_after, lists = definitions(library, *names)
    said_lines, rows_of = text_at("searches", "stdout").decode().splitlines(), searched_rows()
    for head, line in zip(said_lines[::2], said_lines[1::2]):
        name, cells, size, said = re.fullmatch(r"(.*), (\d+) cells, (\d+) bytes: (.*)", head).groups()
        rows, cells, size = rows_of.get((name, cells), rows_of.get(name)), int(cells), int(size)
        shown, kept = re.fullmatch(r"(.*); (\d+) bytes as they were", line).groups()
        refusal = library.call("graphs.Waits.wait_refusal", rows, cells, size)
        number = library.call("refusals.Numbers.number_of", refusal[1]) if refusal[0] == "Some" else 0
        what, of = said.replace(",", " of").split(" of ")  # an order or a cycle of so many, or refused with a number
        if number != (int(of) if what == "refused" else 0):
            return f"{number} for {head!r}"
        answer = ("Err", refusal[1]) if number else ("Ok", (what.capitalize(), int(of)))
        strip = strip_after(answer, (9,) * size)
        if (len(strip), strip.count(9)) != (size, int(kept)):
            return f"{strip.count(9)} of {len(strip)} bytes for {line!r}"
        first = tuple(map(int, shown.split()))
        library.universe = pools(N=tuple(range(8)))
        by = (lambda n, rows=rows: has(rows, n)), (lambda a, b, rows=rows: edge(rows, a, b))
        if len(first) == cells and not lists(*by, (777,) * cells, first, answer):
            return f"{shown} for {head!r}"
    return None


def bad_scripts_row(library):
    """The scripts of crates/rehearse_bad that cannot be read: what is expected in them is printed, and nothing else."""
    library.universe = pools()
    found = [("Item", code(kind)) for kind in ("an axis, 0 to 65535", "a mark, 1 to 8 letters")]
    found += [case for case in cases(library, "stage", "Expected") if case != ("Item",)]
    faults = [library.call("stage.Texts.fault_text", record(line=7, expected=case)) for case in found]
    said = {bytes(text).decode().split(": ")[1] for text in faults}
    said_lines = text_at("rehearse_bad", "stdout").decode().splitlines()
    told = {line.split(": ")[1] for line in said_lines if re.match(r"line \d+: expected ", line)}
    left = sorted(said ^ told)
    return None if not left else repr(left[0])


# What a wait list asks.
WAITS = ["graphs.Waits.wait_refusal", "graphs.Answer.Lists", "graphs.Waits.waits_edge"]

# What a rehearsal asks.
SCRIPTS = ["runs.Runs.Ran", "stage.Texts.told_text", "stage.Texts.said_text", "words.Words.item_in"]

# The rows: their name, the definitions that they ask, and what tells where they are false. Those that take long come last.
ROWS = [
    ("SamplesAgree", ["agreement.Samples.SamplesAgree"], table_row("agreement.Samples.samples")),
    ("HistoriesAgree", ["agreement.Histories.HistoriesAgree"], table_row("agreement.Histories.histories")),
    ("crates/rehearse_tickets", SCRIPTS, script_row("rehearse_tickets")),
    ("crates/rehearse_bad", ["stage.Texts.fault_text", "words.Words.item_in"], script_row("rehearse_bad")),
    ("crates/cuecheck", ["report.Report.Written"], report_row("cuecheck")),
    ("crates/cuecheck_empty", ["report.Report.Written"], report_row("cuecheck_empty")),
    ("crates/samples", ["history.Order.conflict_order", "history.Views.view_order", "recovery.Classes.class_of",
                        "recovery.Classes.class_place", "serial.Why.why_answer", "views.Answer.views_refusal",
                        "book.Entering.entered", "book.Entering.grown", "recovery.Classes.class_number",
                        "items.Kinds.mark_alike", "refusals.Numbers.number_of"], sample_row),
    ("crates/edges", ["book.Reading.read_in", "lines.Writing.copied", "lines.Writing.space_copied", "items.Kinds.mark_in",
                      "items.Kinds.axis_in", "refusals.Numbers.layer_number_of", "book.Entering.room"], edge_row),
    ("crates/vectors", ["book.Reading.read_in", "book.Tickets.begun", "serial.OrderAnswer.order_refusal",
                        "views.Answer.views_refusal", "serial.Why.why_answer", "lines.Writing.line_written",
                        "graphs.Waits.wait_refusal", "refusals.Numbers.layer_number_of", "items.Kinds.mark_in"], refusal_row),
    ("crates/vectors, tickets", ["book.Tickets.begun", "book.Tickets.closed", "book.Tickets.under", "book.Tickets.stepped",
                                 "history.Endings.act_of", "book.Entering.entered", "book.Entering.grown"], ticket_row),
    ("crates/waits", WAITS, wait_row("waits")),
    ("crates/waits_cycle", WAITS, wait_row("waits_cycle")),
    ("crates/waits_bad", ["graphs.Waits.wait_refusal"], wait_row("waits_bad")),
    ("crates/cuecheck_over", ["report.Report.Written"], report_row("cuecheck_over")),
    ("crates/rehearse", SCRIPTS, script_row("rehearse")),
    ("WaitsAgree", ["agreement.WaitLists.WaitsAgree"], waits_row),
    ("crates/searches", ["graphs.Waits.wait_refusal", "graphs.Waits.waits_edge", "graphs.Answer.strip_after",
                         "graphs.Answer.Lists", "refusals.Numbers.number_of"], searches_row),
    ("crates/rehearse_bad, each script", ["stage.Texts.fault_text"], bad_scripts_row),
]
