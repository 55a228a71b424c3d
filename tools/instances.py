"""What the definitions are tried over: books, lines, sheets, calls, and values of the variables of contracts.

What gives instances takes a library, whose definitions may have an error, and whether few of them are enough for a first look.
For a law it yields a universe, that is what variables range over, and the arguments of the law; for a contract a universe, what
to show of the instance, and the candidates: values of the variables of the contract, by the definitions. A contract leaves some
things free, as which cycle is shown, and is true where it is true of one candidate.
"""

import itertools
import random
import re

import antt
from antt import record


def pools(names=None, **kinds):
    """A universe, by the names of variables and by types: List_N stands for List ℕ."""
    return antt.Universe(names or {}, {re.sub(r"\bN\b", "ℕ", kind.replace("_", " ")): some for kind, some in kinds.items()})


def cases(library, crate, name):
    """The cases of a type, without what they hold."""
    return tuple((case,) for case in library.declared[crate, name].cases)


def code(text):
    """The bytes of a text."""
    return tuple(text.encode())


def wait(winch, awaited):
    """A row of a wait list."""
    return record(winch=winch, awaited=awaited)


def axis(number):
    """An axis, by its number."""
    return record(number=number)


def entry(cue, act, item=None):
    """An entry, by its letter: r, w, c or a."""
    name = {"r": "Read", "w": "Write", "c": "Commit", "a": "Abort"}[act]
    return record(cue=cue, act=(name,) if item is None else (name, axis(item)))


def book(text):
    """A book in the textbook's notation, as w1(5) r2(5) c1."""
    found = []
    for act, cue, item in re.findall(r"([rwca])(\d+)(?:\((\d+)\))?", text):
        found.append(entry(int(cue), act, int(item) if item else None))
    return tuple(found)


# Books that are rare among random ones.
RARE = [
    "", "c0", "w0(1) r1(1) c1", "w65(1) r1(1) c65 c1", "w64(1) r1(1) c64 c1", "w1(1) r64(1) c64 c1", "w0(1) r1(1) c0 c1",
    "w63(1) r64(1) c63 c64", "r64(1) w64(1) c64", "c1 c2 c1 a2", "a1 c1 w1(1) r2(1) c2", "c1 w1(1) r2(1) c2",
    "w1(1) a1 c1 r2(1) c2",
    "w1(1) c1 a1 r2(1) c2", "w1(1) w2(1) a2 r3(1) c1 c3", "w1(1) r1(1) c1", "w1(1) w2(1) r1(1) a1 c2", "w1(1) r2(1) a1 c2",
    "w1(1) r2(1) w1(1) c1 c2", "w1(1) r2(65537) c2 c1", "w1(65537) r2(1) w1(1) c1 c2", "r1(1) w2(65537) c1 c2",
    "w1(1) w2(1) w1(1) r3(1) c1 c2 c3", "r1(1) w2(1) r2(2) w1(2) c1 c2", "r1(1) w2(1) r2(2) w3(2) r3(1) c1 c2 c3",
    "w1(1) w2(1) w3(1) r1(1) c3 c2 c1", "w1(1) r2(1) w3(1) c1 c2 c3", "w3(1) r2(1) w1(1) c1 c2 c3", "w1(1) c2 r2(1) c1",
    "w1(1) r2(1) r3(1) w2(2) r3(2) c3 c2 c1", "w2(1) w1(1) a1 r3(1) a3 c2", "w1(1) w2(1) a2 r1(1) c1", "w1(1) a1 r2(1) c2",
    "w2(1) r1(1) c1 a2", "w2(1) r1(1) r1(1) c1", "w1(1) c1 w1(1) r2(1) c2", "r2(1) w1(1) c2 c1", "w1(1) w2(1) c2",
    "w1(1) w1(1) c1",
    "r1(1) r2(1) w1(1) w2(1) c1 c2", "w1(1) r2(1) w2(2) r1(2) c1 c2", "w1(1) w2(1) w2(2) w1(2) c1 c2",
    "w1(1) w2(1) w2(2) w1(2) w3(1) w3(2) c1 c2 c3", "w2(1) w1(1) w1(2) w2(2) w3(1) w3(2) c1 c2 c3",
    "r1(1) w1(1) c1 r2(1) w2(1) c2",
    "r3(1) w1(1) r4(2) w2(2) c1 c2 c3 c4", "r1(1) w2(1) r2(2) w3(2) r3(3) w4(3) r4(4) w1(4) c1 c2 c3 c4",
    "w1(3) w2(3) w1(3) r2(3) c1 c2", "w1(3) r3(3) w2(3) w4(3) c1 c2 c3 c4", "w2(1) r1(1) w3(1) c1 c2 c3", "c2 c1",
    "w3(1) w2(1) w1(1) c1 c2 c3",
]


class Books:
    """The books, once made: rare ones, those of the tables, random longer ones, and those with up to three entries.

    Where every book is wanted, all with up to three entries of three cues and two axes, the first of which is axis 1; where
    not, a quarter of these.
    """

    def __init__(self, library, every=False):
        chance = random.Random(8)
        items = (1, 2)
        one = [entry(n, act, item) for n in (1, 2, 3) for act in "rw" for item in items]
        one += [entry(n, act) for n in (1, 2, 3) for act in "ca"]
        self.entries = tuple(one)
        rows = library.call("agreement.Histories.histories")
        worked = [row.book for row in rows]
        worked += [sample[1].book for sample in library.call("agreement.Samples.samples") if sample[0] == "of_axes"]
        drawn = [self.drawn(chance) for _ in range(420)]
        self.quick = tuple(sorted(dict.fromkeys([book(text) for text in RARE] + drawn[:90]), key=len))
        short = []
        for length in range(4):
            for some in itertools.product(one, repeat=length):
                first = next((e.act[1].number for e in some if len(e.act) > 1), 1)
                if first == 1:
                    short.append(some)
        chance.shuffle(short)
        self.rest = tuple(drawn[90:]) + tuple(worked) + tuple(short if every else short[::4])

    @staticmethod
    def drawn(chance):
        """A random book of 4 to 9 entries, in which most cues end."""
        cues = chance.sample((1, 2, 3, 4), chance.choice((2, 3, 3, 4))) if chance.random() < 0.9 else [1, 64, 65]
        items = (1, 2) if chance.random() < 0.8 else (1, 2, 65537)
        steps = []
        for _ in range(chance.randint(3, 6)):
            steps.append(entry(chance.choice(cues), chance.choice("rw"), chance.choice(items)))
        for cue in cues:
            if chance.random() < 0.85:
                late = max([i + 1 for i, e in enumerate(steps) if e.cue == cue], default=0)
                at = chance.randint(late, len(steps)) if chance.random() < 0.9 else chance.randint(0, len(steps))
                steps.insert(at, entry(cue, chance.choice("cccca")))
        return tuple(steps)


def orders(cues, most=4):
    """Lists of these cues: all orders of each part of them, and some that repeat; fewer where there are many cues."""
    cues = sorted(cues)
    if len(cues) > most:
        some = [tuple(cues), tuple(reversed(cues)), tuple(cues[1:] + cues[:1]), tuple(cues[1:]), ()]
        return tuple(some)
    found = [p for k in range(len(cues) + 1) for c in itertools.combinations(cues, k) for p in itertools.permutations(c)]
    if cues:
        found += [(cues[0], cues[0]), tuple(cues) + (cues[0],)]
    return tuple(found)


def named(function, name):
    """The function with a name to show."""
    shown = lambda *args: function(*args)
    shown.shown = name
    return shown


def alikes(library):
    """Ways of being the same: that of axes, and one that is not symmetric."""
    if not hasattr(library, "alikes"):
        lower = lambda a, b: a.number % 65536 <= b.number % 65536
        library.alikes = named(library.function("items.Kinds.axis_alike"), "same axis"), named(lower, "no higher axis")
    return library.alikes


def universe(library, es, **names):
    """What variables range over, beside a book: numbers up to past its end, its cues, its items, orders of its cues."""
    cues = sorted({e.cue for e in es})
    numbers = tuple(sorted(set(range(len(es) + 2)) | set(cues)))
    items = {e.act[1] for e in es if len(e.act) > 1} | {axis(1), axis(2)}
    placed = tuple((i, e) for i, e in enumerate(es, 1))
    asked = {f"Allows.{name}": tuple(cues) + (0,) for name in ("ahead.a", "ahead.b", "apart.j", "apart.r", "apart.n")}
    given = {"es": (es,), "alike": alikes(library), "SameView.sources.p": placed, "places": (0, 1, 2, 3, 4, 4096)}
    kinds = {"ℕ": numbers, "K": tuple(sorted(items)), "List ℕ": orders(cues), "List (Entry K)": (es,)}
    return antt.Universe({**given, **asked, **names}, kinds)


class Stock:
    """The books that instances are made of, once they are made."""

    books = None


STOCK = Stock


def books(library, quick):
    """A universe for each book."""
    for es in STOCK.books.quick if quick else STOCK.books.rest:
        yield universe(library, es), (None,)


def growing(library, quick):
    """A universe for each book, with what may be entered after it."""
    after = ((),) + tuple((e,) for e in STOCK.books.entries) + (book("c1 c2 c3"), book("w1(1) r2(1) c2"), book("a1 a2"))
    for es in STOCK.books.quick if quick else STOCK.books.rest[::3]:
        yield universe(library, es, more=after[:: 3 if quick else 1]), (None,)


def with_rules(library, quick):
    """The same, with rules of an entry and those before it."""
    rules = [named(lambda seen, e: e.act[0] == "Commit", "a commit"), named(lambda seen, e: len(seen) == 1, "the second")]
    same = library.function("items.Kinds.axis_alike")
    for name in ("recoverable", "cascadeless", "strict"):
        rule = library.function("recovery.Breaks.breaks_" + name)
        rules.append(named(lambda seen, e, rule=rule: rule(same, seen, e), name))
    after = ((),) + tuple((e,) for e in STOCK.books.entries[::4]) + (book("c1 c2 c3"), book("w1(1) r2(1) c2"))
    for es in STOCK.books.quick if quick else STOCK.books.rest[::6]:
        yield universe(library, es, more=after, rule=tuple(rules)), (None,)


def number_sets(library, quick):
    """Sets of numbers, and tests of orders of them."""
    sets = [(), (1,), (2, 3), (1, 2, 3), (64,), (63, 64), (0, 1, 65), (5, 64), (1, 2, 3, 4)]
    for some in sets:
        has = named(lambda n, some=some: n in some, f"one of {some}")
        pool = orders(some, 4)
        tests = [named(lambda o: True, "any"), named(lambda o: False, "none"), named(lambda o: o[:1] != (1,), "not 1 first")]
        tests += [named(lambda o, p=p: o == p, f"is {p}") for p in pool[:: 1 if not quick else 3]]
        tests += [named(lambda o: list(o) == sorted(o, reverse=True), "falling")]
        yield antt.Universe(
            {"has": (has,), "p": tuple(tests), "o": pool, "q": pool},
            {"ℕ": tuple(sorted(set(some) | {0, 1, 2})), "List ℕ": pool},
        ), ()


def graphs(library, quick):
    """Graphs of some numbers, and orders of them."""
    pairs = [(a, b) for a in (1, 2, 3) for b in (1, 2, 3)]
    chance = random.Random(3)
    for _ in range(40 if quick else 300):
        some = frozenset(chance.sample(pairs, chance.randint(0, 4)))
        edge = named(lambda a, b, some=some: (a, b) in some, f"edges {sorted(some)}")
        yield antt.Universe({"edge": (edge,), "o": orders((1, 2, 3))}, {"ℕ": tuple(range(5)), "List ℕ": orders((1, 2, 3))}), ()


def lent(library, quick):
    """Books with few and with many committed cues, and lengths of lists and strips."""
    lengths = (0, 1, 3, 7, 8, 9, 62, 63, 64, 65, 100)
    many = [" ".join(f"c{n}" for n in range(1, k + 1)) for k in (0, 1, 3, 7, 8, 9, 63, 64)]
    for text in many + ["c0 c65 c64", "w1(1) a1"]:
        yield universe(library, book(text), cells=lengths, bytes=lengths), (None,)


def sheet_line(cue, letter, item):
    """A line of 16 bytes."""
    return tuple(f"{cue:>4} {letter} {item:>8}\n".encode())


def lines_of(kind, quick):
    """Lines as they should stand, and lines with a byte or two otherwise."""
    items = ("0", "5", "17", "65535", "65536", "05", "", "5 ", "99999999") if kind == "axis" else (
        "trap", "TRAP", "TrapDoor", "z", "A", "", "tr p", "aB", "zzzzzzzz", "5")
    found = []
    for cue in ("1", "3", "64", "65", "0", "9999", "01", "", "x"):
        for letter in "rwcaxRWCAb":
            for item in items if letter in "rw" else ("", items[1]):
                found.append(sheet_line(cue, letter, item))
    for line in (sheet_line("12", "r", items[1]), sheet_line("7", "c", "")):
        others = (0, 9, 10, 32, 45, 47, 48, 49, 57, 58, 64, 65, 90, 91, 96, 97, 122, 123, 255)
        for place, byte in itertools.product(range(16), others):
            found.append(line[:place] + (byte,) + line[place + 1 :])
    return found[:: 3 if quick else 1]


def kind_functions(library, kind):
    """What is the same, what is written and what is read, of a kind."""
    return [named(library.function(f"items.Kinds.{kind}_{what}"), f"{kind}_{what}") for what in ("alike", "text", "in")]


def written_lines(library, quick):
    """Lines of axes and of marks, for the law that a line is written back."""
    for kind in ("axis", "mark"):
        alike, text, parsed = kind_functions(library, kind)
        for line in lines_of(kind, quick):
            yield antt.Universe({"bs": (line,)}, {"ℕ": (0,), "K": (axis(0),), "List ℕ": (line,)}), (parsed, text)


def sheets(kind, quick):
    """Sheets of a few lines, some of them refused."""
    good = [sheet_line(*line) for line in ((1, "w", "5"), (2, "r", "5"), (1, "c", ""), (2, "a", ""), (64, "w", "7"))]
    bad = [sheet_line(*line) for line in ((65, "w", "5"), (0, "c", ""), (1, "x", "5"), ("01", "r", "5"), (1, "r", ""))]
    bad += [sheet_line(1, "c", "5"), tuple(b"   1 w   "), tuple(b"   1xw        5\n"), tuple(b"  \n1 w        5\n")]
    if kind == "mark":
        good = [tuple(bytes(line).replace(b"5\n", b"a\n").replace(b"7\n", b"Z\n")) for line in good]
    found = [()] + [line for line in good + bad]
    for first in good:
        found += [first + other for other in good + bad]
    chance = random.Random(6)
    for _ in range(30 if quick else 300):
        lines = [chance.choice(good) for _ in range(chance.randint(2, 5))]
        if chance.random() < 0.5:
            lines.insert(chance.randint(0, len(lines)), chance.choice(bad))
        found.append(sum(lines, ()))
    return found[:: 2 if quick else 1]


def read_ins(library, quick):
    """Sheets, the entries before them, and what may be answered: what reading in gives, and others."""
    for kind in ("axis", "mark"):
        parsed = kind_functions(library, kind)[2]
        read_in = library.function("book.Reading.read_in")
        for number, sheet in enumerate(sheets(kind, quick)):
            for es in (((), book("c1"), book("w1(5) r2(5)"))[number % 3],):
                for places in (0, 1, 2, 3, 4, 4096)[number % 2 :: 2]:
                    right = read_in(parsed, places, es, sheet)
                    other = [right._replace(entries=right.entries[:-1]), right._replace(entries=right.entries + book("c9"))]
                    other += [right._replace(answer=("Ok", n)) for n in range(4)]
                    other += [read_in(parsed, places + 1, es, sheet)]
                    other += [read_in(parsed, places - 1, es, sheet)] if places else []
                    faults = [record(line=n, layer=layer) for n in range(4) for layer in LAYERS]
                    other += [right._replace(answer=("Err", fault)) for fault in faults]
                    other += [record(answer=("Ok", 0), entries=es)]
                    if right.answer[0] == "Err":
                        fault = right.answer[1]
                        other += [right._replace(answer=("Err", fault._replace(line=fault.line + d))) for d in (1, -1)]
                    saids = tuple(right.entries[len(es) : k] for k in range(len(es), len(right.entries) + 1)) + (book("c9"),)
                    yield antt.Universe(
                        {"places": (places,), "es": (es,), "sheet": (sheet,), "t": tuple(dict.fromkeys([right] + other)),
                         "ReadsIn.said": saids},
                        {"ℕ": tuple(range(7)), "List (Entry K)": saids, "Entry K": right.entries + book("c9")},
                    ), (parsed,)


LAYERS = [("Line", (case,)) for case in ("Shape", "CueField", "Letter", "ItemField")] + [
    ("Book", (case,)) for case in ("NoSuchCue", "CueEnded", "BookFull")
]


# ---- values of the variables of contracts, by the definitions


def definitions(library, *keys):
    """The functions of these definitions."""
    return [library.function(key) for key in keys]


def lengths(count, number):
    """How many cells and bytes are lent, around how many are wanted."""
    return ((count, 64), (count + 2, 66), (max(count - 1, 0), 64), (count, 63), (64, 0), (0, 64))[number % 6]


def picked(quick, step=3):
    """The first books where few are enough, and else part of the others."""
    return STOCK.books.quick if quick else STOCK.books.rest[::step]


def classes(library, quick):
    """For class_of: books, each with its class."""
    class_of, = definitions(library, "recovery.Classes.class_of")
    alike = alikes(library)[0]
    for es in picked(quick):
        yield universe(library, es), {"entries": es}, [{"alike": alike, "entries": es, "result": class_of(alike, es)}]


def tables(library, quick):
    """Tables of the committed cues: with the first cell for cue 1, or for cue 0."""
    committed, = definitions(library, "history.Entries.committed")
    for es in picked(quick, 6) + (book("c64 w1(1) c63"),):
        found = [{"entries": es, "result": tuple(committed(es, n) for n in range(first, first + 64))} for first in (1, 0)]
        yield antt.Universe({}, {"ℕ": tuple(range(67))}), {"entries": es}, found


def order_asks(library, quick):
    """For order_of: books, and lists and strips around the lengths that are wanted."""
    answer, after, strip_after, order = definitions(
        library, "serial.OrderAnswer.order_answer", "serial.OrderAnswer.order_list", "graphs.Answer.strip_after",
        "history.Order.conflict_order",
    )
    alike = alikes(library)[0]
    for number, es in enumerate(picked(quick)):
        cues = {e.cue for e in es}
        cells, size = lengths(len({e.cue for e in es if e.act[0] == "Commit"}), number)
        some, strip = (77,) * cells, (5,) * size
        cycles = orders(cues) if order(alike, es)[0] == "None" else ((),)
        candidates = []
        for c in cycles:
            result = answer(alike, es, some, strip, c)
            candidates.append({
                "alike": alike, "entries": es, "list_old": some, "strip_old": strip, "result": result,
                "list_new": after(alike, es, some, strip, c), "strip_new": strip_after(result, strip),
            })
        yield universe(library, es), {"entries": es, "cells": cells, "bytes": size}, candidates


def view_asks(library, quick):
    """For views_of: books, and lists around the length that is wanted."""
    answer, after = definitions(library, "views.Answer.views_answer", "views.Answer.views_list")
    alike = alikes(library)[0]
    for number, es in enumerate(picked(quick)):
        some = (77,) * lengths(len({e.cue for e in es if e.act[0] == "Commit"}), number)[0]
        values = {"alike": alike, "entries": es, "list_old": some, "list_new": after(alike, es, some)}
        yield universe(library, es), {"entries": es, "cells": len(some)}, [{**values, "result": answer(alike, es, some)}]


def why_asks(library, quick):
    """For why: books, and pairs of cues."""
    answer, = definitions(library, "serial.Why.why_answer")
    alike = alikes(library)[0]
    for es in picked(quick, 6):
        cues = sorted({e.cue for e in es})
        for i, j in list(itertools.permutations(cues, 2)) + [(1, 1), (0, 1), (1, 65), (64, 1)]:
            values = {"alike": alike, "entries": es, "i": i, "j": j, "result": answer(alike, es, i, j)}
            yield universe(library, es), {"entries": es, "i": i, "j": j}, [values]


def laid(es, free):
    """A book with these entries, in a memory with so many places more."""
    return record(memory=es + book("a0") * free, len=len(es))


def new_books(library, quick):
    """New books over memories of several lengths."""
    for size in (0, 1, 3, 20):
        memory = book("w1(1)") * size
        values = {"memory_old": memory, "memory": memory, "result": record(memory=memory, len=0)}
        yield antt.Universe(), {"places": size}, [values]


def small_books(quick):
    """Books of few entries."""
    return [es for es in picked(quick, 40) if all(1 <= e.cue <= 64 for e in es)][:: 3 if quick else 1]


def grown_book(b, accepted, entries):
    """The book after a call that leaves these entries accepted."""
    return record(memory=entries + b.memory[len(entries) :], len=b.len + max(len(entries) - len(accepted), 0))


def enters(library, quick):
    """For enter: books of some places, and entries."""
    entered, grown, room, accepted = definitions(
        library, "book.Entering.entered", "book.Entering.grown", "book.Entering.room", "book.Entering.accepted")
    for number, es in enumerate(small_books(quick)):
        for free in (0, 1, 2) if number else (0, 1, 4096 - len(es), 4100 - len(es)):
            b = laid(es, free)
            for e in (entry(1, "w", 1), entry(2, "c"), entry(0, "a"), entry(64, "r", 2), entry(65, "c")):
                result = entered(room(b), accepted(b), e.cue)
                after = grown_book(b, accepted(b), grown(result, e, accepted(b)))
                yield universe(library, es), {"entries": es, "free": free, "entry": e}, [
                    {"self_old": b, "self_new": after, "entry": e, "result": result}]
    full = tuple(entry(1, "r", 1) for _ in range(4096))
    for free in (0, 1):
        b = laid(full, free)
        result = entered(room(b), accepted(b), 2)
        after = grown_book(b, accepted(b), grown(result, entry(2, "c"), accepted(b)))
        yield universe(library, ()), {"entries": "4096 reads", "free": free}, [
            {"self_old": b, "self_new": after, "entry": entry(2, "c"), "result": result}]


def records(library, quick):
    """For record: books, tickets and steps."""
    entered, grown, room, accepted, under, stepped = definitions(
        library, "book.Entering.entered", "book.Entering.grown", "book.Entering.room", "book.Entering.accepted",
        "book.Tickets.under", "book.Tickets.stepped")
    for es in small_books(quick):
        for free, cue, name in itertools.product((0, 1), (1, 2), ("Read", "Write")):
            b, ticket, step = laid(es, free), record(cue=cue), (name, axis(1))
            result = entered(room(b), accepted(b), cue)
            after = grown_book(b, accepted(b), grown(result, under(ticket, stepped(step)), accepted(b)))
            yield universe(library, es), {"entries": es, "free": free, "cue": cue, "step": name}, [
                {"self_old": b, "self_new": after, "ticket": ticket, "step": step, "result": result}]


def ends(library, quick):
    """For end: books, tickets and endings."""
    entered, grown, room, accepted, under, act_of, closed = definitions(
        library, "book.Entering.entered", "book.Entering.grown", "book.Entering.room", "book.Entering.accepted",
        "book.Tickets.under", "history.Endings.act_of", "book.Tickets.closed")
    for es in small_books(quick):
        for free, cue, name in itertools.product((0, 1), (1, 2), ("Commit", "Abort")):
            b, ticket, ending = laid(es, free), record(cue=cue), (name,)
            result = closed(ticket, ending, entered(room(b), accepted(b), cue))
            after = grown_book(b, accepted(b), grown(result, under(ticket, act_of(ending)), accepted(b)))
            yield universe(library, es), {"entries": es, "free": free, "cue": cue, "ending": name}, [
                {"self_old": b, "self_new": after, "ticket": ticket, "ending": ending, "result": result}]


def sheet_reads(library, quick):
    """For read_in: books of some places, and sheets."""
    read_in, room, accepted = definitions(library, "book.Reading.read_in", "book.Entering.room", "book.Entering.accepted")
    for kind in ("axis", "mark"):
        parsed = kind_functions(library, kind)[2]
        for number, sheet in enumerate(sheets(kind, quick)):
            es = ((), book("c1"), book("w1(5) r2(5)"))[number % 3]
            b = laid(es, (0, 1, 2, 5)[number % 4])
            t = read_in(parsed, room(b), accepted(b), sheet)
            after = grown_book(b, accepted(b), t.entries)
            saids = tuple(t.entries[k:] for k in range(len(t.entries) + 1))
            some = antt.Universe({"ReadsIn.said": saids}, {"ℕ": tuple(range(8)), "Entry K": t.entries, "K": (axis(0),)})
            yield some, {"kind": kind, "entries": es, "places": len(b.memory), "sheet": sheet}, [
                {"parsed": parsed, "self_old": b, "self_new": after, "sheet": sheet, "result": t.answer}]


NUMBERS = {
    "axis": (0, 1, 5, 9, 10, 99, 12345, 65535, 65536, 65537, 131072),
    "mark": (0, 25, 26, 51, 52, 53, 2755, 3000000, 54507958502659, 54507958502660, 54507958502661),
}


def write_lines(library, quick):
    """For write_line: entries, and spaces around the length of a line."""
    written, space_after = definitions(library, "lines.Writing.line_written", "lines.Writing.space_after")
    for kind in ("axis", "mark"):
        alike, text, parsed = kind_functions(library, kind)
        items = NUMBERS[kind][:: 2 if quick else 1]
        for cue, number, act in itertools.product((0, 1, 9, 10, 63, 64, 65), items, "rwca"):
            if act in "ca" and number:
                continue
            e = entry(cue, act, number if act in "rw" else None)
            for size in (15, 16, 18):
                space = (46,) * size
                result = written(e, size)
                yield antt.Universe({}, {"K": (), "ℕ": ()}), {"kind": kind, "entry": e, "bytes": size}, [{
                    "alike": alike, "text": text, "parsed": parsed, "entry": e, "space_old": space, "result": result,
                    "space_new": space_after(text, e, result, space)}]


def line_sheets(kind, quick):
    """Sheets of one line, with and without bytes after it."""
    return [()] + [line + more for line in lines_of(kind, quick) for more in ((), tuple(b"rest"))]


def rewrites(library, quick):
    """For rewrite_line: sheets, and spaces around the length of a line."""
    rewritten, space_rewritten = definitions(library, "lines.Writing.rewritten", "lines.Writing.space_rewritten")
    for kind in ("axis", "mark"):
        alike, text, parsed = kind_functions(library, kind)
        for number, sheet in enumerate(line_sheets(kind, quick)):
            space = (46,) * (15, 16, 18, 16)[number % 4]
            result = rewritten(parsed, sheet, len(space))
            yield antt.Universe({}, {"K": (), "ℕ": ()}), {"kind": kind, "sheet": sheet, "bytes": len(space)}, [{
                "alike": alike, "text": text, "parsed": parsed, "sheet": sheet, "space_old": space, "result": result,
                "space_new": space_rewritten(text, result, space)}]


def copies(library, quick):
    """For copy_line: sheets, and spaces around the length of a line."""
    copied, space_copied = definitions(library, "lines.Writing.copied", "lines.Writing.space_copied")
    for kind in ("axis", "mark"):
        alike, text, parsed = kind_functions(library, kind)
        for number, sheet in enumerate(line_sheets(kind, quick)):
            space = (46,) * (15, 16, 18, 16)[number % 4]
            result = copied(parsed, sheet, len(space))
            yield antt.Universe({}, {"K": (), "ℕ": ()}), {"kind": kind, "sheet": sheet, "bytes": len(space)}, [{
                "alike": alike, "text": text, "parsed": parsed, "sheet": sheet, "space_old": space, "result": result,
                "space_new": space_copied(result, sheet, space)}]


def found_in(library, refusal, numbers, cells, size, values):
    """What a search may answer: the refusal, or else some order or cycle of the numbers."""
    strip_after, = definitions(library, "graphs.Answer.strip_after")
    some, strip = (77,) * cells, (5,) * size
    values = {**values, "list_old": some, "strip_old": strip}
    if refusal[0] == "Some":
        result = ("Err", refusal[1])
        return [{**values, "result": result, "list_new": some, "strip_new": strip_after(result, strip)}]
    found = []
    for name, c in itertools.product(("Order", "Cycle"), orders(numbers)):
        if len(c) <= cells:
            result = ("Ok", (name, len(c)))
            found.append({**values, "result": result, "list_new": c + some[len(c) :], "strip_new": strip_after(result, strip)})
    return found


def searches(library, quick):
    """For search: graphs of some numbers, and lists and strips around the lengths that are wanted."""
    refusal_of, = definitions(library, "graphs.Answer.search_refusal")
    pairs = list(itertools.product((1, 2, 3), repeat=2))
    chance, asked = random.Random(4), []
    for mine in ((65,), (0,), (64,), (1, 65), (0, 1)):
        asked += [(mine, {(mine[-1], mine[-1])}, 64, 64), (mine, set(), 64, 64), (mine, {(mine[0], mine[0])}, 64, 64)]
    for number in range(30 if quick else 200):
        some = frozenset(chance.sample(pairs, chance.randint(0, 4)))
        mine = tuple(sorted(chance.sample((1, 2, 3), chance.choice((0, 1, 2, 3, 3)))))
        asked.append((mine, some, *lengths(len(mine), number)))
    for mine, some, cells, size in asked:
        has, edges = (lambda g, n, mine=mine: n in mine), (lambda g, a, b, some=some: (a, b) in some)
        refusal = refusal_of(lambda n, mine=mine: n in mine, cells, size)
        values = {"numbers": has, "edges": edges, "graph": None}
        shown = {"numbers": mine, "edges": tuple(sorted(some)), "cells": cells, "bytes": size}
        yield antt.Universe({}, {"ℕ": tuple(range(5)), "List ℕ": orders(mine)}), shown, found_in(
            library, refusal, set(mine), cells, size, values)


def wait_rows(quick):
    """Wait lists of few rows."""
    chance = random.Random(9)
    found = [(), ((1, 1),), ((1, 2), (2, 1)), ((0, 1),), ((1, 65),), ((64, 1),), ((1, 2), (65, 3)), ((4, 7), (7, 2), (2, 4))]
    for _ in range(30 if quick else 200):
        found.append(tuple((chance.randint(1, 4), chance.randint(1, 4)) for _ in range(chance.randint(1, 3))))
    return [tuple(record(winch=a, awaited=b) for a, b in rows) for rows in found]


def wait_asks(library, quick):
    """For wait_order: wait lists, and lists and strips around the lengths that are wanted."""
    refusal_of, = definitions(library, "graphs.Waits.wait_refusal")
    for number, rows in enumerate(wait_rows(quick)):
        mine = {n for row in rows for n in (row.winch, row.awaited)}
        cells, size = lengths(len(mine), number)
        refusal = refusal_of(rows, cells, size)
        kinds = {"ℕ": tuple(sorted(set(range(6)) | mine)), "List ℕ": orders(mine), "Wait": rows}
        shown = {"rows": tuple((row.winch, row.awaited) for row in rows), "cells": cells, "bytes": size}
        yield antt.Universe({}, kinds), shown, found_in(library, refusal, mine, cells, size, {"rows": rows})


def report_sheets(quick):
    """Sheets with few and with very many lines."""
    found = [sheet for sheet in sheets("axis", quick)][:: 4 if quick else 1]
    found.append(sum((sheet_line(n, "c", "") for n in range(1, 65)), ()))
    found.append(sum((sheet_line(n, "c", "") for n in range(1, 10)), ()))
    for es in (STOCK.books.quick[12:60] if quick else STOCK.books.quick + STOCK.books.rest[:300]):
        lines = [sheet_line(e.cue, e.act[0][0].lower(), str(e.act[1].number % 65536) if len(e.act) > 1 else "") for e in es]
        found.append(sum(lines, ()))
    return found


def report_values(library, sheet, size, result_of):
    """What a report leaves in a space of this size, with each cycle that may be shown."""
    report_of, read_sheet, order = definitions(
        library, "report.Report.report_of", "report.Report.read_sheet", "history.Order.conflict_order")
    space = (46,) * size
    t = read_sheet(sheet)
    values = {"sheet": sheet, "space_old": space}
    cues = sorted({e.cue for e in t.entries})
    cycles = ((),)
    if order(alikes(library)[0], t.entries)[0] == "None":
        cycles = orders(cues)
    saids = tuple(t.entries[k:] for k in range(len(t.entries) + 1))
    some = universe(library, t.entries, **{"ReadsIn.said": saids, "Written.shown": cycles, "AnswersWritten.shown": cycles})
    some.types["ℕ"] = tuple(sorted(set(some.types["ℕ"]) | set(range(min(len(sheet) // 16 + 2, 12)))))
    if size < 388:
        return some, [{**values, "space_new": space, "result": result_of(None)}]
    found = []
    for c in cycles:
        text = report_of(sheet, c)
        found.append({**values, "space_new": text + space[len(text) :], "result": result_of(len(text))})
    return some, found


def reports(library, quick):
    """For the report call: sheets, and spaces around the longest report."""
    refused = lambda length: ("Err", ("ReportShort",)) if length is None else ("Ok", length)
    for number, sheet in enumerate(report_sheets(quick)):
        size = (388, 400, 387, 388)[number % 4]
        some, found = report_values(library, sheet, size, refused)
        yield some, {"sheet": sheet, "bytes": size}, found


def reports_in_c(library, quick):
    """The same for the call from C, which answers a number."""
    short = library.call("refusals.Numbers.number_of", ("ReportShort",))
    for number, sheet in enumerate(report_sheets(quick)):
        size = (388, 400, 387, 388)[number % 4]
        some, found = report_values(library, sheet, size, lambda length: short if length is None else length)
        yield some, {"sheet": sheet, "bytes": size}, found


def told_by(library, case):
    """The answer to a call that the law of runs writes as an equation, as a function of what the law speaks of, or nothing."""
    params, _, clauses = library.form("runs.Runs.Right")
    for patterns, body in clauses:
        if patterns[1][0] == "con" and patterns[1][1] == case:
            holds = [v[1] for v in patterns[1][2]]
            state, answer = patterns[0][1], patterns[2][1]
            while body[0] == "op" and body[1] == "×":
                body = body[2]
            if body[0] != "op" or body[1] != "≡" or body[2] != ("v", answer):
                return None
            compiler = antt.Compiler(library)
            compiler.env, compiler.label, compiler.loop = {name: antt.arrows(of) for name, of in params}, "Right", None
            names = [name for name, _ in params[: len(params) - 3]] + [state] + holds
            name = f"k·{next(library.helpers)}"
            compiler.make(f"def {name}({', '.join(names)}):\n    return {compiler.term(body[3])}")
            return library.space[name]
    return None


def answered(library, alike, parsed, places, state, call, told):
    """An answer to a call that is right by the law of runs, if there is one."""
    if call[0] not in told:
        told[call[0]] = told_by(library, call[0])
    if told[call[0]]:
        return told[call[0]](alike, parsed, places, state, *call[1:])
    right = library.function("runs.Runs.Right")
    cues = sorted({e.cue for e in state.entries})
    refusals = [("Err", ("Refused", (case,))) for case in library.declared["refusals", "Refusal"].cases]
    found = refusals + [("Ok", ("Views", ("None",)))]
    for o in orders(cues, 4):
        some = record(list=o + (0,) * (64 - len(o)), count=len(o))
        found += [("Ok", ("Order", some)), ("Ok", ("Views", ("Some", some))), ("Ok", ("Cycle", some))]
    for a in found:
        if right(alike, parsed, places, state, call, a):
            return a
    return found[0]


def drawn_calls(chance, kind):
    """A random list of calls."""
    item = lambda: axis(chance.choice((1, 2)))
    found = []
    for _ in range(chance.randint(3, 9)):
        cue, number = chance.choice((1, 2, 3)), chance.randint(0, 3)
        act = chance.choice([("Read", item()), ("Write", item()), ("Commit",), ("Abort",), ("Commit",)])
        step = chance.choice([("Read", item()), ("Write", item())])
        found.append(chance.choice([
            ("Enter", record(cue=cue, act=act)), ("Enter", record(cue=cue, act=act)), ("Begin", cue), ("Record", number, step),
            ("End", number, (chance.choice(("Commit", "Abort")),)), ("Class",), ("Order", chance.choice((0, 64)), 64),
            ("Order", 64, chance.choice((63, 64))), ("Views", chance.choice((0, 1, 64))),
            ("Why", cue, chance.choice((1, 2, 3))),
            ("ReadIn", chance.choice(sheets(kind, True))), ("Begin", chance.choice((0, 1, 2, 65))),
        ]))
    return tuple(found)


FIXED_RUNS = [
    [("Begin", 1), ("Begin", 2), ("Record", 1, ("Write", axis(1))), ("Record", 2, ("Read", axis(1))), ("End", 1, ("Commit",)),
     ("End", 1, ("Commit",)), ("End", 2, ("Abort",)), ("Record", 2, ("Read", axis(1))), ("Class",), ("Order", 64, 64),
     ("Views", 64)],
    [("Enter", entry(1, "w", 1)), ("Enter", entry(2, "w", 1)), ("Enter", entry(2, "w", 2)), ("Enter", entry(1, "w", 2)),
     ("Enter", entry(1, "c")), ("Enter", entry(2, "c")), ("Order", 64, 64), ("Views", 64), ("Enter", entry(3, "c")),
     ("Order", 2, 64)],
    [("Order", 64, 64), ("Views", 64), ("Enter", entry(1, "w", 1)), ("Enter", entry(2, "r", 1)), ("Enter", entry(2, "w", 2)),
     ("Enter", entry(1, "r", 2)), ("Enter", entry(1, "c")), ("Order", 64, 64), ("Enter", entry(2, "c")), ("Order", 64, 64),
     ("Class",), ("Views", 64), ("Order", 64, 63), ("Order", 1, 64), ("Views", 1), ("Why", 1, 2), ("Why", 1, 1)],
    [("Record", 0, ("Read", axis(1))), ("Begin", 1), ("Record", 0, ("Read", axis(1))), ("Record", 1, ("Write", axis(1))),
     ("Record", 2, ("Write", axis(1))), ("End", 0, ("Commit",)), ("End", 1, ("Commit",)), ("Begin", 1), ("Begin", 65),
     ("Class",)],
    [("Class",), ("Enter", entry(1, "w", 1)), ("Class",), ("Enter", entry(2, "r", 1)), ("Class",), ("Enter", entry(2, "c")),
     ("Class",)],
]


def runs(library, quick):
    """For perform: lists of calls, cells around the numbers that are wanted, and right answers."""
    start, after, ran, wanted, all_of = definitions(
        library, "runs.Runs.start", "runs.Runs.after", "runs.Runs.Ran", "runs.Runs.wanted", "runs.Runs.after_all")
    chance = random.Random(11)
    told = {}
    for number in range(40 if quick else 300):
        kind = "axis" if number % 4 else "mark"
        alike, _, parsed = kind_functions(library, kind)
        calls = tuple(FIXED_RUNS[number]) if number < len(FIXED_RUNS) else drawn_calls(chance, kind)
        size = 20 if number < len(FIXED_RUNS) else chance.choice((0, 1, 3, 20, 20))
        memory, places = book("a0") * size, min(size, 4096)
        library.universe = antt.Universe({}, {"K": (axis(1), axis(2)), "ℕ": tuple(range(14)), "List ℕ": orders((1, 2, 3))})
        library.universe.names = {"ReadsIn.said": ((),)}
        state, answers = start() if callable(start) else start, []
        for call in calls:
            every = state.entries
            library.universe = run_universe(every, answers)
            answers.append(answered(library, alike, parsed, places, state, call, told))
            state = after(parsed, places, state, call)
        cells = (("None",),) * (len(calls) + 1)
        room = (("Err", ("NoTicket",)),) * (len(calls) + 2)
        short = number % 7
        cells = cells[: len(calls) - 1] if short == 5 else cells
        room = room[: len(calls) - 1] if short == 6 else room
        result = wanted(len(calls), len(room), len(cells))
        values = {
            "alike": alike, "parsed": parsed, "calls": calls, "result": result, "memory_old": memory, "memory_new": memory,
            "answers_old": room, "answers_new": room, "tickets_old": cells, "tickets_new": cells,
        }
        if result[0] == "Ok":
            values["answers_new"] = tuple(answers) + room[len(answers) :]
            end = all_of(parsed, places, start() if callable(start) else start, calls)
            values["tickets_new"] = end.tickets + cells[len(end.tickets) :]
            values["memory_new"] = end.entries + memory[len(end.entries) :]
        yield run_universe(state.entries, answers), {"calls": calls, "places": size}, [values]


def run_universe(entries, answers):
    """What the law of a run ranges over."""
    saids = tuple(dict.fromkeys(entries[i:j] for i in range(len(entries) + 1) for j in range(i, len(entries) + 1)))
    cues = tuple(a[1][1] for a in answers if a[0] == "Ok" and a[1][0] in ("Order", "Cycle"))
    items = {e.act[1] for e in entries if len(e.act) > 1} | {axis(1), axis(2)}
    kinds = {
        "ℕ": tuple(range(max(len(entries), len(answers), 6) + 2)), "K": tuple(sorted(items)),
        "List ℕ": orders({e.cue for e in entries}), "Cues": cues, "List (Entry K)": saids,
        "Result Answer Failure": (("Err", ("NoTicket",)),),
        "Class": (("Strict",), ("NotRecoverable", 1)),
    }
    names = {"ReadsIn.said": saids, "SameView.sources.p": tuple((i, e) for i, e in enumerate(entries, 1))}
    return antt.Universe(names, kinds)
