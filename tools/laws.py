"""Laws of the definitions, and the instances over which each of them is tried.

    LAWS           pairs of the definition and what gives its instances, in the order in which tools/definitions.py tries them

What gives instances takes the library and whether to be quick, and yields universes, each with the arguments of the law. Where
a law speaks of what is answered, or of what is left, its universe has what is right and what is nearly right: an answer one
off, one refusal for another, an entry too few. What is right is worked out here, by counting bytes and places, and not by the
definitions, so that an error in these does not change it; where that would be long, all that may be answered is tried.
"""

import itertools
import random

import antt
import instances as given
from antt import record
from instances import cases, code, pools, wait

# ---- values


def acts(items):
    """Each act on these items, and the two that end a cue."""
    return tuple((name, item) for name in ("Read", "Write") for item in items) + (("Commit",), ("Abort",))


def entries(cues, items):
    """Entries of these cues: reads and writes of these items, and endings."""
    return tuple(record(cue=n, act=act) for n in cues for act in acts(items))


def refusals(library):
    """What a book or a call refuses with."""
    return cases(library, "refusals", "Refusal")


def ok(*values):
    """Answers with these values."""
    return tuple(("Ok", value) for value in values)


def err(*values):
    """Answers that refuse with these."""
    return tuple(("Err", value) for value in values)


def option(values):
    """None, and each of these values."""
    return (("None",),) + tuple(("Some", value) for value in values)


def all_lists(values, most):
    """The lists of so many of these values at most."""
    return tuple(some for length in range(most + 1) for some in itertools.product(values, repeat=length))


def each(instances, quick, few, step=1):
    """The first of some instances where they are to be quick, and else the others."""
    instances = list(instances)
    return instances[:few] if quick else instances[few::step]


def texts(books):
    """The books of a text, with semicolons between them."""
    return tuple(map(given.book, books.split(";")))


# ---- numbers in order


def number_tests(quick):
    """Tests of numbers: sets of numbers from 0 to 66."""
    chance = random.Random(12)
    sets = [(), (1,), (64,), (0, 65), (1, 64), (2, 3, 63), (0, 1, 64, 65), range(1, 65), range(67), (5, 9, 33, 62)]
    sets += [chance.sample(range(67), chance.randint(2, 40)) for _ in range(40)]
    for some in each(sets, quick, 12):
        some = frozenset(some)
        yield given.named(lambda n, some=some: n in some, f"one of {sorted(some)}")


def among_numbers(library, quick):
    """Tests of numbers, and numbers at and beside the ends of those that are cues."""
    for has in number_tests(quick):
        yield pools({"has": (has,)}, N=(0, 1, 2, 3, 5, 33, 62, 63, 64, 65, 66)), ()


def number_lists(library, quick):
    """All short lists of small numbers."""
    lists = all_lists((1, 2, 3) if quick else (0, 1, 2, 64), 3) + ((3, 1, 2, 1), (2, 1, 3, 4), (4, 3, 2, 1), (1, 2, 3, 4))
    yield pools(N=(0, 1, 2, 3, 4, 64), List_N=lists), ()


# ---- cues by their entries


def told_cues(library, quick):
    """Books, with numbers at and beside the ends of those that are cues; and tables of cues, beside the first book."""
    tables = ((), (True,), (False, True), (True, False, True), (False,) * 64, (True,) * 64, (True,) * 66)
    tables += ((False,) * 63 + (True,),)
    yield pools({"es": ((),), "cues": tables}, N=(0, 1, 2, 3, 4, 62, 63, 64, 65, 66, 67)), (None,)
    for number, es in enumerate(given.STOCK.books.quick if quick else given.STOCK.books.rest[::2]):
        some = given.universe(library, es, cues=())
        if number % 8 == 0:
            some.types["ℕ"] = tuple(sorted(set(some.types["ℕ"]) | {63, 64, 65}))
        yield some, (None,)


def told_endings(library, quick):
    """Acts on two items, and the endings."""
    if quick:
        yield pools(Act_K=acts((given.axis(1), given.axis(2)))), (None,)


# ---- classes


def books_with_classes(library, quick):
    """Books, and the classes with each place."""
    for es in given.STOCK.books.quick if quick else given.STOCK.books.rest:
        names = ("NotRecoverable", "Recoverable", "Cascadeless")
        classes = tuple((name, place) for name in names for place in range(len(es) + 2)) + (("Strict",),)
        yield given.universe(library, es, **{"ClassIsByPlaces.c": classes}), (None,)


SERIAL = (
    "w1(1) c1 r2(1) c2; w1(1) r1(1) c1 r2(1) w2(1) a2 r3(1) c3; w2(1) a2 r1(1) w1(2) c1 r3(2); w1(1) c1 c1 r2(1) c2;"
    "w1(1) w1(1) r1(1); r1(1) w1(1) c1 w2(1) c2 w3(1) a3 r1(1); w1(1) a1 w1(1) c1 r2(1) c2; w64(1) c64 r1(1) c1;"
    "c1 w2(1) r2(1) c2; w65(1) c65 r1(1) c1; w0(1) r1(1) c1; w3(1) w3(2) c3 w1(2) w1(1) c1 r2(1) r2(2) w2(1) c2;"
    "w1(1) c1 w2(1) a2 r3(1) c3"
)


def serial_books(library, quick):
    """Histories in which one cue ends before another has an entry, and the same with two entries in each other's place."""
    found = list(texts(SERIAL))
    for es in texts(SERIAL):
        found += [es[:i] + (es[i + 1], es[i]) + es[i + 2 :] for i in range(len(es) - 1)]
    for es in given.STOCK.books.quick if quick else given.STOCK.books.rest[::3]:
        cues = list(dict.fromkeys(e.cue for e in es))
        found.append(tuple(e for n in cues for e in es if e.cue == n))
    for es in dict.fromkeys(found):
        yield given.universe(library, es), (None,)


# ---- orders of the committed cues


def books_by_cues(quick, cues, length, few):
    """Books of so many cues and entries at most, of which some commit; those with many conflicts come first."""
    found = given.STOCK.books.quick + given.STOCK.books.rest[:600]
    found = [es for es in found if len(es) <= length and len({e.cue for e in es}) <= cues]
    committed = lambda es: len({e.cue for e in es if e.act[0] == "Commit"})
    found = [es for es in found if committed(es) >= 2] + [es for es in found if committed(es) == 1][:8]
    return each(found, quick, few, 2)


def answers_of_books(library, quick):
    """Books, and every order and list of their cues that may be answered; some lists go round twice."""
    found = books_by_cues(quick, 3, 12, 50)
    if quick:
        found += texts("; c1; w1(1) a1; w1(1) r2(1); r4(1) w3(1) r3(2) w2(2) r2(3) w1(3) c1 c2 c3 c4")
        found += texts("r1(1) w4(1) r4(2) w1(2) c1 c2 c3 c4")
    for es in found:
        some = given.universe(library, es)
        some.types["List ℕ"] += tuple(o + o for o in some.types["List ℕ"] if 1 < len(o) < 4)
        yield some, (None,)


def two_entries(library, quick):
    """Each two entries of two cues and two items, of which one is written in two ways."""
    items = (given.axis(1), given.axis(65537), given.axis(2))
    some = entries((1, 2), items[:2] if quick else items)
    placed = tuple((place, e) for place in (1, 2) for e in some)
    yield pools({"alike": given.alikes(library)[:1], "SameView.sources.p": placed}, K=items, Entry_K=some), (None,)


def placed_sources(library, quick):
    """Short books with the orders of their committed cues, and one order that is none."""
    telling = texts(
        "w1(1) r2(1) c1 c2; r2(1) w1(1) c1 c2; w1(1) w2(1) r1(1) c1 c2; w1(1) w2(1) c2 c1; w1(1) r1(1) w2(1) c1 c2; c1 c2;"
        "w1(1) w3(1) r2(1) c1 c2; w1(1) w2(1) r3(1) c1 c2 c3; w1(1) r2(1) a1 c2; w1(1) r2(65537) c2 c1; w64(1) r1(1) c64 c1;"
        "r1(1) c1; w1(1) w2(2) r1(2) r2(1) c1 c2; w1(1) w1(1) r2(1) c1 c2; w2(1) r1(1) w1(2) c1 c2 w3(2)"
    )
    more = [es for es in given.STOCK.books.quick if len(es) <= 7 and len({e.cue for e in es}) <= 3]
    more += given.STOCK.books.rest[:300:6]
    for es in telling if quick else more:
        cues = tuple(sorted({e.cue for e in es}))
        committed = tuple(sorted({e.cue for e in es if e.act[0] == "Commit"}))
        some = given.universe(library, es, o=tuple(itertools.permutations(committed)) + (cues + (7,),))
        some.names["IsLast.cue"] = some.names["n"] = some.names["m"] = cues
        some.types["ℕ"] = tuple(range(len(es) + 2))
        some.types["K"] = tuple(sorted({e.act[1] for e in es if len(e.act) > 1} | {given.axis(2)}))
        some.names["alike"] = given.alikes(library)[: 1 if quick else 2]
        yield some, (None,)


# ---- why one cue comes before another


def why_answers(library, quick):
    """Books with pairs of cues, and each answer: each pair of places, that there is none, and refusals."""
    telling = texts(
        "w1(1) r2(1) c1; r1(1) w2(1) w1(1) r2(1); w1(1) w2(2) w1(2) w2(1); r1(1) r2(1) c1; w1(1) w1(1) r2(1) r2(1);"
        "w64(1) r1(1); r1(1) w1(1) r2(1) w2(1); w1(1) r2(65537) c2; w1(1) w1(2) r2(2) r2(1)"
    )
    for es in telling if quick else [es for es in given.STOCK.books.quick + given.STOCK.books.rest[:90] if len(es) <= 7]:
        places = range(1, len(es) + 1)
        pairs = [record(first=p, second=q) for p in places for q in places if p != q]
        refused = refusals(library) if len(es) < 4 else (("CuePair",), ("NoSuchCue",))
        some = given.universe(library, es, **{"WhyIsTold.r": ok(*option(pairs)) + err(*refused)})
        cues = tuple(sorted({e.cue for e in es} | {0, 65}))
        some.names["WhyIsTold.i"] = some.names["WhyIsTold.j"] = cues
        yield some, (None,)


# ---- bytes in columns


def symbols(library, quick):
    """All bytes of a line and some beyond them."""
    if quick:
        yield pools(N=tuple(range(130)) + (255, 256)), ()


FIELDS = [
    "", " ", "  ", "a", " a", "a ", "  a b", "\ta", "0", "00", "5", " 5", "  5", "05", "5 ", "1 2", "   12", "012", "12a",
    "a12", "-1", "65535", "65536", "   65535", "99999999", "    9999", "10", "01", "/", ":", " :", "1:", "1/",
    "18446744073709551615",
]


def fields_of_texts(library, quick):
    """Fields and texts of few bytes, with blanks before, after and within them."""
    if quick:
        fields = tuple(map(code, FIELDS))
        yield pools({"w": (0, 1, 2, 4, 8), "k": tuple(range(9))}, List_N=fields, N=(0,)), ()


def fields_of_numbers(library, quick):
    """Fields, and numbers that they hold or nearly hold."""
    numbers = (0, 1, 5, 9, 10, 12, 99, 100, 4095, 4096, 9999, 65535, 65536, 99999999, 2**64 - 1, 2**64)
    if quick:
        names = {"w": (0, 1, 2, 4, 5, 8), "k": tuple(range(10)), "n": numbers, "m": (0, 5, 9, 12)}
        yield pools({**names, "o": option((0, 4, 5, 6, 9, 10, 13))}, List_N=tuple(map(code, FIELDS)), N=(0,)), ()


# ---- items by their texts


def axes_of_texts(library, quick):
    """Axes at and past the ends of the numbers, and fields of eight columns."""
    numbers = (0, 1, 2, 9, 10, 12, 65534, 65535, 65536, 65537, 65546, 131072, 131073)
    fields = [f"{text:>8}" for text in FIELDS if len(text) <= 8] + [f"{n:>8}" for n in numbers] + ["       1 ", "5       "]
    if quick:
        yield pools(
            {"bs": tuple(map(code, dict.fromkeys(fields))), "k": tuple(range(9))}, N=(0,), Axis=tuple(map(given.axis, numbers)),
            List_N=tuple(map(code, fields)),
        ), ()


def word_number(word):
    """The number of the mark with these letters: A to Z are 1 to 26, a to z 27 to 52, and what stands before 52 times that."""
    total = 0
    for letter in word:
        total = total * 52 + (ord(letter) - 64 if letter <= "Z" else ord(letter) - 70)
    return total - 1


WORDS = [
    "A", "B", "Z", "a", "b", "z", "AA", "Aa", "aA", "aZ", "aa", "Az", "ZZ", "Za", "zz", "AAA", "trap", "Trap", "TRAP", "zzz",
    "AAAAAAAA", "TrapDoor", "Zzzzzzzz", "zzzzzzzz",
]
MARKS = 54507958502660


def marks_of_words(library, quick):
    """Words with their marks, the marks beside them, and marks past the last; and fields that are words or nearly."""
    words = WORDS if quick else WORDS[::2] + ["Q", "qQ", "Mm", "ABCDEFGH", "abcdefgh", "kNoTs"]
    numbers = {word_number(word) + by for word in words for by in (0, 1)}
    numbers |= {0, MARKS - 1, MARKS, MARKS + 1, MARKS + word_number("trap")}
    odd = ["", "a b", "a1", "a ", "[", "`", "@", "{", "tr p", "5", "abcdefghi", "AAAAAAAAA"]
    fields = [f"{word:>8}" for word in words + odd if len(word) <= 8] + ["trap    ", " trap   ", "   Trap "]
    marks = tuple(map(given.axis, sorted(numbers)))
    yield pools(
        {"bs": tuple(map(code, fields)), "MarksAreWords.all.w": tuple(map(code, words + odd)), "k": tuple(range(9))},
        N=tuple(range(9)), Mark=marks, List_N=tuple(map(code, fields)),
    ), ()


# ---- lines


def line_bytes(cue, letter, item):
    """A line with these in its columns."""
    return code(f"{cue:>4} {letter} {item:>8}\n")


def telling_lines(kind, quick):
    """Lines that say entries, and lines with one thing otherwise; some are longer or shorter than a line."""
    item, other = ("5", "65536") if kind == "axis" else ("trap", "TrapDoor")
    found = [line_bytes(cue, letter, item) for cue in ("1", "64", "9999", "0", "01", "x", "") for letter in "rw"]
    found += [line_bytes("2", letter, some) for letter in "rwcaxRWCA" for some in (item, other, "", "a1", f"{item}       "[:8])]
    good = line_bytes("3", "w", item)
    for column in range(16):
        for byte in (10, 32, 48, 97) if quick else (0, 9, 10, 32, 47, 48, 58, 65, 90, 97, 122, 255):
            found.append(good[:column] + (byte,) + good[column + 1 :])
    found += [(), good[:15], good[:1], good + good, good + (10,), (10,) + good, good[:-1] + (32,)]
    found += [(10,) * 16, (32,) * 16, (32,) * 15 + (10,), line_bytes("12", "a", "")]
    found += [line_bytes("3", letter, "") + code("more") for letter in "ca"]
    found = list(dict.fromkeys(found))
    return found if quick else found + [line for line in given.lines_of(kind, False) if line not in found]


LINE_REFUSALS = tuple((case,) for case in ("Shape", "CueField", "Letter", "ItemField"))


def said_by(parsed, bs):
    """What 16 bytes say, by their columns: an entry, or why they say none."""
    if len(bs) < 16 or bs[15] != 10 or 10 in bs[:15]:
        return ("Err", ("Shape",))
    text = bytes(bs[:4]).decode("latin-1").lstrip(" ")
    if not (text.isascii() and text.isdigit() and str(int(text)) == text):
        return ("Err", ("CueField",))
    name = {114: "Read", 119: "Write", 99: "Commit", 97: "Abort"}.get(bs[5])
    if name is None or bs[4] != 32 or bs[6] != 32:
        return ("Err", ("Letter",))
    if name in ("Read", "Write"):
        item = parsed(bs[7:15])
        return ("Err", ("ItemField",)) if item[0] == "None" else ("Ok", record(cue=int(text), act=(name, item[1])))
    return ("Ok", record(cue=int(text), act=(name,))) if bs[7:15] == (32,) * 8 else ("Err", ("ItemField",))


def near_entries(e):
    """Entries with a thing otherwise."""
    cues = [e._replace(cue=e.cue + 1), e._replace(cue=e.cue + 48)]
    if len(e.act) == 1:
        return cues + [e._replace(act=(name,)) for name in ("Commit", "Abort") if name != e.act[0]]
    item = e.act[1]
    other = {"Read": "Write", "Write": "Read"}[e.act[0]]
    return cues + [e._replace(act=(other, item)), e._replace(act=(e.act[0], item._replace(number=item.number + 1)))]


def told_lines(library, quick):
    """Lines, each with what it says, what is nearly that, and each refusal."""
    for kind in ("axis", "mark"):
        parsed = given.kind_functions(library, kind)[2]
        for bs in telling_lines(kind, quick):
            right = said_by(parsed, bs)
            found = [right] + list(err(*LINE_REFUSALS))
            if right[0] == "Ok":
                found += ok(*near_entries(right[1]))
            held = parsed(bs[7:15])
            items = ((held[1],) if held[0] == "Some" else ()) + (given.axis(1),)
            answers = tuple(dict.fromkeys(found + [("Ok", given.entry(3, "c"))]))
            firsts = tuple(("Ok", ("Some", r[1])) if r[0] == "Ok" else r for r in answers) + (("Ok", ("None",)),)
            some = pools(
                {"bs": (bs,), "LineIsTold.line.r": answers, "LineIsTold.next.r": firsts}, N=tuple(range(18)), K=items,
                AnyAct=acts((("tt",),)), Act_K=acts(items), List_N=(bs,),
            )
            yield some, (parsed,)


def field_case(bs):
    """The case of a field, by what stands after its blanks."""
    text = bytes(bs).decode("latin-1").lstrip(" ")
    if text == "":
        return "Blanks"
    return "Digits" if text.isascii() and text.isdigit() else "Letters" if text.isascii() and text.isalpha() else "Other"


def cut_fields(bs):
    """The fields of a line, each by its column and width, and whether blanks stand beside the letter."""
    part = lambda first, width: record(column=first, bytes=bs[first - 1 : first - 1 + width])
    field = lambda first, width: (field_case(bs[first - 1 : first - 1 + width]), part(first, width))
    return record(cue=field(1, 4), letter=field(6, 1), item=field(8, 8), spaced=bs[4:5] == (32,) and bs[6:7] == (32,))


def near_fields(f, bs):
    """Fields with a thing otherwise: another case, column or width, or other bytes."""
    found = [f._replace(spaced=not f.spaced)]
    for name in ("cue", "letter", "item"):
        case, part = getattr(f, name)
        found += [f._replace(**{name: (other, part)}) for other in ("Digits", "Letters", "Blanks", "Other") if other != case]
        found.append(f._replace(**{name: (case, part._replace(column=part.column + 1))}))
        for first, last in ((0, 1), (1, 1), (0, -1)):
            other = bs[part.column - 1 + first : part.column - 1 + len(part.bytes) + last]
            found.append(f._replace(**{name: (case, part._replace(bytes=other))}))
    return found


def told_cuts(library, quick):
    """Lines, each with its fields, fields with a thing otherwise, and the refusals."""
    for bs in telling_lines("mark", quick) + telling_lines("axis", quick)[:: 3 if quick else 1]:
        right = cut_fields(bs)
        fields = [right] + near_fields(right, bs)
        answers = ok(*option(fields)) + err(*LINE_REFUSALS)
        names = {
            "bs": (bs,), "CutIsTold.cut.r": tuple(dict.fromkeys(answers)), "CutIsTold.joined.f": (right, fields[1], fields[6]),
            "k": tuple(range(9)), "CutIsTold.columns.a": (1, 5, 8, 16), "CutIsTold.columns.e": (0, 1, 4, 7, 15, 16, 17),
        }
        yield pools(names, N=tuple(range(18)), List_N=(bs,)), ()


def entry_line(text, e):
    """The line of an entry: its cue in four columns, its letter between blanks, its item, and a line feed."""
    item = text(e.act[1]) if len(e.act) > 1 else (32,) * 8
    return code(f"{e.cue:>4}")[-4:] + code(f" {e.act[0][0].lower()} ") + item + (10,)


def near_lines(line):
    """A line with a thing otherwise."""
    found = [line[:-1], line + (10,), line[1:] + line[:1], (32,) + line[:14] + (10,)]
    other = [(4, 10), (15, 32), (6, 9), (3, 48), (0, 48), (7, 48), (14, 48)] + [(5, byte) for byte in code("rwcaRC")]
    found += [line[:at] + (byte,) + line[at + 1 :] for at, byte in other]
    return list(dict.fromkeys(one for one in found if one != line))


def telling_entries(kind, quick):
    """Entries of cues that are written with one to four digits, and of numbers that are no cue's."""
    items = (5, 65535) if kind == "axis" else (word_number("trap"), word_number("Z"))
    found = [given.entry(cue, act, items[0]) for cue, act in ((3, "r"), (3, "w"), (12, "w"))]
    found += [given.entry(cue, act, items[1]) for cue, act in ((0, "w"), (1, "r"))]
    found += [given.entry(cue, act) for cue, act in ((64, "c"), (64, "a"), (65, "c"), (9999, "a"))]
    return found if quick else found + [given.entry(n, act, item) for n in (1, 63, 10000) for act in "rw" for item in items]


def told_writing(library, quick):
    """Entries, each with its line and lines with a thing otherwise, and spaces before and after writing it."""
    for kind in ("axis", "mark"):
        alike, text, _ = given.kind_functions(library, kind)
        for number, e in enumerate(telling_entries(kind, quick)):
            line = entry_line(text, e)
            near = near_lines(line)
            old = ((46,) * 18, (46,) * 16, (46,) * 20)[number % 3]
            done = line + old[16:]
            spaces = [done, old, line, done[:-1], done + (46,), done[:16] + (47,) + done[17:]]
            spaces += [near[at] + old[16:] for at in (0, 6, -1)]
            answers = ok(("tt",)) + err(*refusals(library))
            items = tuple(dict.fromkeys([e.act[1]] if len(e.act) > 1 else [])) + (given.axis(5), given.axis(65541))
            names = {
                "e": (e,), "n": (0, 15, 16, 17, 64), "bs": (line,) + tuple(near), "old": (old,),
                "new": tuple(dict.fromkeys(spaces)), "HasLine.line": (line, near[0], near[6]),
                "WritingIsTold.answer.r": answers, "WritingIsTold.space.r": ok(("tt",)) + err(("NoSuchCue",)),
                "IsLineOf.field": tuple(dict.fromkeys(one[:4] for one in (line, *near))),
                "k": tuple(range(9)), "ItemIs.k": items, "WritingIsTold.same.k": items, "alike": given.alikes(library),
            }
            yield pools(names, N=tuple(range(22)), K=items, Entry_K=(e,), Act_K=acts(items), List_N=(line,)), (text,)


def told_rewriting(library, quick):
    """Sheets, spaces of some lengths, and what rewriting or copying their first line answers and leaves, and nearly does."""
    for kind in ("axis", "mark"):
        _, text, parsed = given.kind_functions(library, kind)
        item = "5" if kind == "axis" else "trap"
        lines = [(), line_bytes("1", "c", "") + code("rest"), line_bytes("1", "c", "")[:15], line_bytes("2", "w", item) * 2]
        lines += [line_bytes(cue, letter, item) for cue, letter in zip(("3", "64", "0", "65", "1"), "wrwrc")]
        lines += [line_bytes(cue, letter, "") for cue, letter in zip(("65", "1", "x", "1"), "axcr")]
        for number, bs in enumerate(lines if quick else telling_lines(kind, True)):
            says = said_by(parsed, bs)
            layers = tuple(("Line", f) for f in LINE_REFUSALS)
            layers += tuple(("Book", (f,)) for f in ("NoSuchCue", "SpaceShort", "BookFull"))
            e = says[1] if says[0] == "Ok" else given.entry(3, "c")
            some = (e, *near_entries(e))
            line = entry_line(text, e)
            old = ((46,) * 18, (46,) * 16)[number % 2]
            near = near_lines(line)[6]
            new = [line + old[16:], old, line, bs[:16] + old[16:], near + old[16:], line + old[16:-1], bs[:15] + old[15:]]
            names = {
                "bs": (bs,), "n": (15, 16, 18), "RewritingIsTold.answer.r": ok(*option(some)) + err(*layers),
                "RewritingIsTold.copy.r": ok(True, False) + err(*layers),
                "RewritingIsTold.space.r": ok(*option(some[:2])) + err(layers[0]),
                "RewritingIsTold.space_of_copy.r": ok(True, False) + err(layers[0]), "k": tuple(range(9)),
                "old": (old,), "new": tuple(dict.fromkeys(new)),
                "IsLineOf.field": (line[:4], (32,) * 4), "HasLine.line": (line, near), "alike": given.alikes(library),
            }
            held = parsed(bs[7:15])
            items = [held[1]] if held[0] == "Some" else []
            items = tuple(dict.fromkeys(items + [given.axis(1)] + [f.act[1] for f in some if len(f.act) > 1]))
            names["RewritingIsTold.back.k"] = items
            kinds = {"Entry_K": some, "Act_K": acts(items), "AnyAct": acts((("tt",),)), "List_N": (bs,)}
            yield pools(names, N=tuple(range(20)), K=items, **kinds), (parsed, text)


# ---- entering


def told_entering(library, quick):
    """Books of some places, numbers of cues, and each answer."""
    for es in given.STOCK.books.quick[::2] + texts("w1(1) c1 a2; c64 r65(1)") if quick else given.STOCK.books.rest[::5]:
        size = len(es)
        cues = tuple(sorted({e.cue for e in es} | {0, 1, 64, 65}))
        names = {
            "es": (es,), "n": cues, "places": (0, size - 1 if size else 0, size, size + 1, 4096),
            "EnteringIsTold.r": ok(*range(size + 3)) + err(*refusals(library)),
            "EnteredStands.e": entries((1, 2), (given.axis(1),)),
        }
        yield pools(names, N=tuple(range(size + 3))), (None,)


def told_growing(library, quick):
    """Books, an entry, an answer, and what the entries may be after it."""
    for es in texts("; c1; w1(1) r2(1); w1(1) r2(1) c1 c2") if quick else given.STOCK.books.rest[::40]:
        for e in (given.entry(1, "w", 1), given.entry(2, "c")) if quick else entries((1, 64), (given.axis(1),)):
            after = [es, es + (e,), (e,) + es, es + (e, e), es[:-1] + (e,), es[:-1], es[1:] + (e,), (e,), es + given.book("a9")]
            names = {
                "es": (es,), "e": (e,), "es'": tuple(dict.fromkeys(after)),
                "GrowingIsTold.r": ok(1, len(es), len(es) + 1) + err(("BookFull",), ("CueEnded",)),
            }
            yield pools(names, N=tuple(range(len(es) + 4))), (None,)


def told_beginning(library, quick):
    """Books, numbers of cues, and each answer to a begin."""
    for es in given.STOCK.books.quick[::3] + texts("a65 c64") if quick else given.STOCK.books.rest[::7]:
        cues = tuple(sorted({e.cue for e in es} | {0, 1, 2, 64, 65}))
        tickets = tuple(record(cue=n) for n in cues)
        names = {"es": (es,), "n": cues, "BeginningIsTold.r": ok(*tickets) + err(*refusals(library))}
        yield pools(names, N=tuple(range(len(es) + 3))), (None,)


def told_steps(library, quick):
    """Items, acts, and tickets of some cues."""
    if quick:
        items = (given.axis(1), given.axis(2))
        yield pools(K=items, Ticket=tuple(record(cue=n) for n in (0, 1, 2, 64)), Act_K=acts(items)), (None,)


def told_closing(library, quick):
    """Tickets and endings, with each answer to an entry and each receipt, or ticket that is given back."""
    if quick:
        endings = cases(library, "history", "Ending")
        tickets = tuple(record(cue=n) for n in (1, 2))
        receipts = tuple(record(place=p, ending=ending) for p in range(4) for ending in endings)
        back = tuple((t, f) for t in tickets for f in (("CueEnded",), ("BookFull",), ("NoSuchCue",)))
        answers = ok(0, 1, 2) + err(("CueEnded",), ("BookFull",))
        yield pools({"t": tickets, "ending": endings, "r": answers, "c": ok(*receipts) + err(*back)}), ()


# ---- sheets


def told_sheets(library, quick):
    """Sheets of lengths around those of whole lines."""
    for length in (0, 1, 14, 15, 16, 17, 31, 32, 33, 48) if quick else range(2, 100, 3):
        sheet = tuple(48 + i % 75 for i in range(length))
        yield pools({"sheet": (sheet,)}, N=tuple(range(9))), ()


def told_faults(library, quick):
    """Sheets, most of them refused at some line, and books of few and many places."""
    for kind in ("axis", "mark"):
        parsed = given.kind_functions(library, kind)[2]
        for sheet in given.sheets(kind, quick)[:: 2 if quick else 1]:
            names = {"sheet": (sheet,), "es": texts("; c1; w1(5) r2(5)"), "places": (0, 1, 2, 3, 4096)}
            yield pools(names, N=tuple(range(9))), (parsed,)


# ---- refusals of what asks for orders


LENT = (0, 1, 3, 7, 8, 9, 62, 63, 64, 65, 100)
COMMITTED = "; c1; c1 c2 c3; c0 c65 c64; w1(1) a1; c1 c2 c3 c4 c5 c6 c7; c1 c2 c3 c4 c5 c6 c7 c8; c9 c8 c7 c6 c5 c4 c3 c2 c1"


def told_searches(library, quick):
    """Tests of numbers, lengths of lists and strips, and each refusal."""
    for has in number_tests(quick):
        names = {"has": (has,), "o": option(refusals(library)), "cells": LENT + (2, 33, 66), "bytes": LENT}
        yield pools(names, N=tuple(range(67))), ()


def told_requests(library, quick):
    """Books with few and with many committed cues, lengths of lists and strips, and each refusal."""
    every = " ".join(f"c{n}" for n in range(1, 65))
    for es in texts(COMMITTED) + (given.book(every), given.book(every[:-4])) if quick else given.STOCK.books.rest[::40]:
        yield given.universe(library, es, cells=LENT, bytes=LENT, o=option(refusals(library))), (None,)


# ---- runs


def shown_cues(o):
    """Cues as a run shows them."""
    return record(list=tuple(o) + (0,) * (64 - len(o)), count=len(o))


def state(text, *cues):
    """What is so far: the entries of a book, and the tickets of these cues, 0 for one that is used up."""
    return record(entries=given.book(text), tickets=tuple(("Some", record(cue=n)) if n else ("None",) for n in cues))


STATES = (
    ("",), ("", 1, 2), ("w1(1)", 1), ("w1(1) r2(1)", 2, 1), ("w1(1) c1 r2(1)", 0, 2), ("w1(1) r2(1) c2", 1, 2, 3),
    ("w1(1) w2(1) w2(2) w1(2) c1 c2", 1, 0, 3), ("w1(1) w2(1) w2(2) w1(2) w3(1) w3(2) c1 c2 c3",),
    ("r2(1) w1(1) c1 c2", 64), ("w1(1) w2(1) a1 c2", 1, 2), ("a64 c3", 64, 3, 65),
    ("r1(1) r2(1) w1(1) w2(1) c1 c2", 3),
)
MORE_STATES = (
    ("w1(1) r2(1) w1(1) c1 c2",), ("c1", 0, 0, 1), ("w1(1) w1(1) r2(1) a2 c1", 2, 2), ("w3(1) r1(1) c3 c1", 3, 1),
    ("r3(1) w1(1) r4(2) w2(2) c1 c2 c3 c4", 5), ("w2(1) a2 r1(1) c1", 2, 1), ("w1(1) w2(1) w3(1) c3 c2 c1", 1, 2, 3),
)


def states(quick):
    """The states over which laws of runs are tried."""
    return [state(*some) for some in (STATES if quick else MORE_STATES + STATES[:4])]


def run_sheets():
    """Sheets of no line, of lines that are entered, and of lines that are refused."""
    line = given.sheet_line
    return (
        (), line(3, "w", "5"), line(3, "c", "") + line(3, "r", "5"), line(65, "c", ""), line(4, "x", ""),
        line(3, "a", "") + line(4, "r", "z9"), line(4, "w", "5") + line(4, "a", "") + line(5, "c", "") * 2,
    )


def run_calls(s):
    """Calls that tell one rule from another, in a state."""
    item = given.axis(1)
    found = [("Enter", e) for e in given.book("w1(1) r2(2) c1 a2 c3 c64 c65 w0(1)")]
    found += [("ReadIn", sheet) for sheet in run_sheets()] + [("Begin", n) for n in (0, 1, 2, 3, 64, 65)]
    for n in range(len(s.tickets) + 2):
        found += [("Record", n, (step, item)) for step in ("Read", "Write")]
        found += [("End", n, (how,)) for how in ("Commit", "Abort")]
    found += [("Class",), ("Order", 64, 64), ("Order", 1, 64), ("Order", 64, 63), ("Views", 64), ("Views", 1)]
    return found + [("Why", i, j) for i, j in ((1, 2), (2, 1), (1, 1), (0, 1), (1, 65), (3, 1))]


def run_answers(library, s):
    """Whatever may be answered in a state."""
    size, tickets = len(s.entries), len(s.tickets)
    endings = cases(library, "history", "Ending")
    orders = given.orders({e.cue for e in s.entries}, 3)
    found = [("Place", p) for p in (0, size, size + 1, size + 2)] + [("Lines", n) for n in range(4)]
    found += [("Ticket", k) for k in range(tickets + 3)] + [("Receipt", p, d) for p in (size, size + 1) for d in endings]
    found += [("Class", (name, p)) for name in ("NotRecoverable", "Recoverable", "Cascadeless") for p in range(1, size + 1)]
    found.append(("Class", ("Strict",)))
    for o in orders:
        some = shown_cues(o)
        found += [("Order", some), ("Cycle", some), ("Views", ("Some", some))]
    found += [("Views", ("None",)), ("Why", ("None",))]
    found += [("Why", ("Some", record(first=p, second=q))) for p, q in itertools.combinations(range(1, size + 1), 2)]
    faults = [record(line=n, layer=layer) for n in (1, 2, 4) for layer in given.LAYERS]
    return ok(*found) + err(*(("Refused", f) for f in refusals(library)), *(("Fault", f) for f in faults), ("NoTicket",))


def state_universe(library, s, **names):
    """A state, and what laws of runs speak of beside it."""
    es = s.entries
    some = given.universe(library, es, s=(s,), **names)
    alike, _, parsed = given.kind_functions(library, "axis")
    some.names.update({"alike": (alike,), "parsed": (parsed,), "places": (len(es), len(es) + 1, 4096)})
    items = (given.axis(1), given.axis(2), given.axis(5))
    some.types.update({
        "ℕ": tuple(range(max(len(es), len(s.tickets), 4) + 3)), "List ℕ": given.orders({e.cue for e in es}, 3), "K": items,
        "Ticket": tuple(record(cue=n) for n in (0, 1, 2, 3, 64, 65)), "Step K": (("Read", items[0]), ("Write", items[0])),
    })
    return some


def changed_states(library, quick):
    """States and calls, each with whatever may be answered."""
    for s in states(quick):
        answers = run_answers(library, s)
        some = state_universe(library, s, **{"StateIsAsAnswered.c": tuple(run_calls(s)), "a": answers})
        yield some, (None,)


def told_right(library, quick):
    """States, with cues, steps, endings and ticket numbers, and whatever may be answered."""
    for s in states(quick):
        some = state_universe(library, s, a=run_answers(library, s), n=tuple(range(len(s.tickets) + 2)) + (64, 65))
        some.names["e"] = given.book("w1(1) c2 r3(1) c64 c65 w0(1)")
        yield some, (None,)


def told_questions(library, quick):
    """States, pairs of cues, sheets, lengths of lists and strips, and whatever may be answered."""
    read_in, = given.definitions(library, "book.Reading.read_in")
    for s in states(quick):
        places = (len(s.entries) + 1, 4096)
        some = state_universe(library, s, i=(0, 1, 2), j=(1, 2, 3, 65))
        some.types["Result Answer Failure"] = run_answers(library, s)
        some.types["List ℕ"] = given.orders({e.cue for e in s.entries})
        parsed = some.names["parsed"][0]
        left = dict.fromkeys(read_in(parsed, n, s.entries, sheet).entries for n in places for sheet in run_sheets())
        said = dict.fromkeys(es[len(s.entries) :] for es in left)
        some.names.update({
            "places": places, "sheet": run_sheets(), "cells": (0, 1, 2, 64), "bytes": (63, 64),
            "AnswersSheet.left": tuple(left), "ReadsIn.said": tuple(said),
        })
        yield some, (None,)


def run_lists():
    """Lists of calls, each with what is right to answer to them at the start, where there are many places."""
    item, line = given.axis(1), given.sheet_line
    enter = lambda text: tuple(("Enter", e) for e in given.book(text))
    place = lambda *places: ok(*(("Place", p) for p in places))
    refused = lambda *names: err(*(("Refused", (name,)) for name in names))
    sheet = line(1, "w", "1") + line(2, "r", "1") + line(2, "c", "")
    fault = record(line=2, layer=("Book", ("CueEnded",)))
    return (
        ((), ()),
        (enter("c1"), place(1)),
        (enter("w1(1) r2(1) c2") + (("Class",),), place(1, 2, 3) + ok(("Class", ("NotRecoverable", 3)))),
        (enter("c1 c1 r65(1) a2"), place(1) + refused("CueEnded", "NoSuchCue") + place(2)),
        ((("Begin", 1), ("Record", 1, ("Write", item)), ("End", 1, ("Commit",)), ("End", 1, ("Commit",))),
         ok(("Ticket", 1), ("Place", 1), ("Receipt", 2, ("Commit",))) + err(("NoTicket",))),
        ((("Begin", 2), ("Begin", 1), ("End", 1, ("Abort",)), ("Record", 2, ("Read", item)), ("Begin", 2)),
         ok(("Ticket", 1), ("Ticket", 2), ("Receipt", 1, ("Abort",)), ("Place", 2)) + refused("CueEntered")),
        ((("ReadIn", sheet), ("Class",), ("Why", 1, 2)),
         ok(("Lines", 3), ("Class", ("NotRecoverable", 3)), ("Why", ("Some", record(first=1, second=2))))),
        ((("ReadIn", line(1, "c", "") + line(1, "c", "")), ("Begin", 1)), err(("Fault", fault), ("Refused", ("CueEntered",)))),
        (enter("c2 c1") + (("Order", 64, 64), ("Views", 64), ("Order", 1, 64)),
         place(1, 2) + ok(("Order", shown_cues((1, 2))), ("Views", ("Some", shown_cues((1, 2))))) + refused("ListShort")),
        (enter("r1(1) r2(1) w1(1) w2(1) c1 c2") + (("Order", 64, 64), ("Views", 64)),
         place(1, 2, 3, 4, 5, 6) + ok(("Cycle", shown_cues((1, 2))), ("Views", ("None",)))),
    )


def near_answers(answers):
    """Answers in turn with a thing otherwise."""
    found = [answers, answers[:-1], answers[1:], answers + err(("NoTicket",)), answers[::-1], ok(("Lines", 0)) + answers]
    found += [answers[:i] + ok(("Place", 9)) + answers[i + 1 :] for i in range(len(answers))]
    return tuple(dict.fromkeys(found))


def told_turns(library, quick):
    """Lists of calls with the right answers, and with answers of which one is otherwise, from the start and another state."""
    for calls, answers in run_lists():
        cues = {1, 2} if any(call[0] in ("Order", "Views") for call in calls) else set()
        for s in (state(""), state("w1(1)", 1)) if quick else states(True)[2:5]:
            some = state_universe(library, s, calls=(calls,), answers=near_answers(answers))
            numbers = tuple(range(len(calls) + len(s.entries) + 3))
            entered = dict.fromkeys(s.entries + tuple(call[1] for call in calls if call[0] == "Enter"))
            some.names["places"] = (2, 4096) if quick else (0, 1, 3)
            some.names["SameView.sources.p"] = tuple(itertools.product(numbers, entered))
            some.types.update({"List ℕ": given.orders(cues), "ℕ": numbers})
            yield some, (None,)


def longer_runs(library, quick):
    """Lists of calls, and one call more, from some states."""
    for s in states(True)[:6] if quick else states(False):
        lists = tuple(calls for calls, _ in run_lists())
        some = state_universe(library, s, calls=lists, **{"RunsGoOn.more.c": tuple(run_calls(s))})
        some.names["places"] = (len(s.entries) + 1, 4096)
        yield some, (None,)


def made_books(library, quick):
    """Lists of calls that try to enter what no book accepts."""
    chance = random.Random(13)
    item = given.axis(1)
    enter = lambda text: tuple(("Enter", e) for e in given.book(text))
    through = (
        ("Begin", 1), ("Begin", 2), ("Record", 1, ("Write", item)), ("End", 1, ("Commit",)), ("Record", 1, ("Write", item)),
        ("End", 1, ("Abort",)), ("Enter", given.entry(1, "r", 1)), ("Record", 2, ("Read", item)), ("End", 2, ("Abort",)),
    )
    found = [calls for calls, _ in run_lists()] + [through]
    found += [enter("w0(1) w65(1) w64(1) a64 c64"), enter("c1 w1(1) a2 r2(1) c2 c1 c3")]
    found += [(("ReadIn", sheet),) + enter("c1 c2 w1(5)") + (("ReadIn", sheet),) for sheet in given.sheets("axis", True)[::9]]
    found += [given.drawn_calls(chance, "axis") for _ in range(20 if quick else 200)]
    parsed = given.kind_functions(library, "axis")[2]
    for calls in found if quick else found[30:]:
        yield pools({"parsed": (parsed,), "places": (0, 1, 2, 5, 4096), "calls": (calls,)}, N=tuple(range(14))), (None,)


def agreeing_answers(library, quick):
    """Books, lengths of lists and strips, and whatever may be answered about orders."""
    few = "; c1; w1(1) r2(1) c2 c1; r2(1) w1(1) c1 c2; r1(1) r2(1) w1(1) w2(1) c1 c2; w1(1) w2(1) w2(2) w1(2) c1 c2"
    for es in texts(few) if quick else books_by_cues(True, 3, 9, 40):
        cues = {e.cue for e in es}
        s = record(entries=es, tickets=())
        some = state_universe(library, s, a=run_answers(library, s), cells=(0, 1, 2, 64), bytes=(63, 64))
        some.types["Cues"] = tuple(shown_cues(o) for o in given.orders(cues, 3))
        some.types["Failure"] = tuple(("Refused", f) for f in refusals(library)) + (("NoTicket",),)
        yield some, (None,)


def told_wants(library, quick):
    """Counts of calls and cells, and each answer."""
    if quick:
        yield pools({"WantIsTold.r": ok(("tt",)) + err(*cases(library, "runs", "Want"))}, N=(0, 1, 2, 3, 64)), ()


def numbered_tickets(library, quick):
    """Lists of tickets, some of them used up."""
    if quick:
        tickets = option(record(cue=n) for n in (1, 2))
        yield pools({"ts": all_lists(tickets, 3)}, N=tuple(range(6))), ()


# ---- wait lists


def told_waits(library, quick):
    """Rows of wait lists, orders of their winches, and lists that are none."""
    texts_of_rows = ("1-2 2-3", "2-1 3-2 1-3", "64-1", "1-2 65-3", "0-0", "1-2 3-2", "5-5 1-2")
    telling = [tuple(wait(*map(int, row.split("-"))) for row in rows.split()) for rows in texts_of_rows]
    for rows in telling + given.wait_rows(quick)[:: 1 if quick else 4]:
        mine = {n for row in rows for n in (row.winch, row.awaited)}
        numbers = tuple(sorted(set(range(6)) | {63, 64, 65} | mine))
        beside = (wait(0, 1), wait(1, 2), wait(2, 1), wait(65, 1))
        found = tuple((name, n) for name in ("Order", "Cycle") for n in range(6))
        lists = given.orders(mine)
        longer = lists + tuple(o + (77,) for o in lists)
        more = lists + tuple((0,) + o for o in lists)
        names = {
            "rows": (rows,), "cells": (0, 1, 2, 64), "bytes": (63, 64), "r": option(refusals(library)), "list": longer,
            "WaitsAreTold.shows_order.n": tuple(range(6)), "WaitsAreTold.shows_cycle.n": tuple(range(6)), "f": found,
            "WaitsAreTold.finds_order.o": more, "WaitsAreTold.orders.o": more,
        }
        yield pools(names, N=numbers, List_N=lists, Wait=tuple(dict.fromkeys(rows + beside))), ()


# ---- the report's lines


def read_lines(library, quick):
    """Words and numbers of lines."""
    if quick:
        numbers = ((), (0,), (7, 12), (1, 22, 333, 4444, 99999), (64,) * 8, (100000, 5), (65535,), (10, 9, 10))
        yield pools({"word": tuple(map(code, ("", "class", "vmany", "o"))), "ns": numbers}, N=tuple(range(10))), ()


def shown_classes(library, quick):
    """Classes with places of one digit to six."""
    if quick:
        places = (0, 1, 9, 10, 12, 4096, 65535, 99999, 100000, 123456)
        names = ("NotRecoverable", "Recoverable", "Cascadeless")
        yield pools({"c": tuple((name, place) for name in names for place in places) + (("Strict",),)}, N=tuple(range(4))), ()


def shown_faults(library, quick):
    """Faults of each layer and refusal, at lines of one digit to six."""
    layers = tuple(("Line", f) for f in LINE_REFUSALS) + tuple(("Book", f) for f in refusals(library))
    lines = (1, 9, 10, 4096, 99999, 100000) if quick else (0, 2, 65535, 123456)
    faults = tuple(record(line=n, layer=layer) for n in lines for layer in layers)
    names = {"f": faults, "es": texts("; w1(1) c1"), "c": ((), (1,), (2, 1)), "alike": given.alikes(library)[:1]}
    yield pools(names, N=tuple(range(4))), (None,)


def shown_reports(library, quick):
    """Books, counts of lines, and cycles of cues."""
    for some, args in shown_views(library, quick):
        size = len(some.names["es"][0])
        yield antt.Universe({**some.names, "n": (0, size)}, {**some.types, "ℕ": tuple(range(12))}), args


def reported_sheets(library, quick):
    """Sheets of axes, each with what is read in from it, and cycles of cues."""
    read_sheet = library.function("report.Report.read_sheet")
    for sheet in given.report_sheets(quick):
        taken = read_sheet(sheet)
        some = given.universe(library, taken.entries, sheet=(sheet,), c=given.orders({e.cue for e in taken.entries}, 3))
        some.names.update({"n": (taken.answer[1],) if taken.answer[0] == "Ok" else (0,), "f": taken.answer[1:]})
        yield antt.Universe(some.names, {**some.types, "ℕ": tuple(range(12))}), ()


def words_of_items(library, quick):
    """Words of items, and words that are none or too long, each with what may be read of it."""
    for kind in ("axis", "mark"):
        parsed = given.kind_functions(library, kind)[2]
        words = ["", "5", "05", "65535", "65536", "99999999", "123456789", "000000005", "12a", " 5", "5 "]
        words += ["trap", "Trap", "TrapDoor", "TrapDoors", "zzzzzzzz", "Zzzzzzzzz", "z", "A", "tr p", "a1", " z", "z "]
        for word in map(code, words if quick else FIELDS + WORDS):
            field = ((32,) * 8 + word)[-8:]
            fields = dict.fromkeys((field, (32,) * (8 - len(word)) + word, word[:8], (word + (32,) * 8)[:8]))
            read = [parsed(one) for one in fields]
            items = [one[1] for one in read if one[0] == "Some"] + [given.axis(0), given.axis(5)]
            names = {"word": (word,), "r": option(tuple(dict.fromkeys(items))), "field": tuple(fields), "k": tuple(range(9))}
            yield pools(names, N=tuple(range(9)), List_N=tuple(fields)), (parsed,)


def spaced_numbers(library, quick):
    """Numbers, and bytes that are these in print, with a blank before each, or nearly."""
    lists = [(), (0,), (7,), (12, 5), (1, 22, 333), (0, 0), (10,), (2**64 - 1, 1)]
    for ns in lists if quick else list(itertools.permutations((0, 9, 64, 100)))[::3]:
        right = code("".join(f" {n}" for n in ns))
        near = [right, right[1:], right + (32,), (32,) + right, right[:-1], right + (48,), right[::-1]]
        near.append(tuple(9 if byte == 32 else byte for byte in right))
        lists_near = (ns, ns[:-1], ns + (0,), ns[::-1])
        yield pools({"ns": tuple(dict.fromkeys(lists_near)), "bs": tuple(dict.fromkeys(near))}, N=tuple(range(6))), ()


def shown_lines(library, quick):
    """Books with lists of few and of enough cells, and orders and cycles of their cues."""
    few = texts(
        "; c1; w1(1) r2(1) c2 c1; r2(1) w1(1) c1 c2; r1(1) r2(1) w1(1) w2(1) c1 c2; w1(1) w2(1) w2(2) w1(2) c1 c2; w1(1) a1;"
        "c1 c2 c3 c4 c5 c6 c7 c8; c1 c2 c3 c4 c5 c6 c7 c8 c9; r1(1) w2(1) r2(2) w1(2) c1 c2; r1(1) w1(1); c64 c63;"
        "r9(1) w8(1) c1 c2 c3 c4 c5 c6 c7 c8 c9"
    )
    for es in few if quick else given.STOCK.books.quick:
        some = given.universe(library, es, strip=((5,) * 64, (5,) * 63), c=given.orders({e.cue for e in es}, 3))
        some.names["list"] = tuple((77,) * length for length in ((0, 1, 2, 7, 8, 9, 64) if quick else (1, 2, 8)))
        yield some, (None,)


def shown_views(library, quick):
    """The same, and a book with many committed cues, of which no order keeps the view."""
    yield from shown_lines(library, quick)
    if not quick:
        es = given.book("w1(1) r2(1) w1(1) c1 c2 c3 c4 c5 c6 c7")
        yield given.universe(library, es, alike=given.alikes(library)[:1], list=((77,) * 7, (77,) * 8)), (None,)


# The laws: the definition, and what gives its universes and arguments. Quick ones, and likely ones, come first.
LAWS = [
    ("orders.Least.AmongIs", among_numbers),
    ("orders.Least.OrdersAreByIndex", number_lists),
    ("orders.Least.OneComesBefore", number_lists),
    ("history.Cues.CueIsTold", told_cues),
    ("history.Cues.EndingIsTold", told_endings),
    ("recovery.Laws.ClassIsByPlaces", books_with_classes),
    ("recovery.Laws.ClassIsNumbered", given.books),
    ("recovery.Laws.ReadHasOneSource", given.books),
    ("recovery.Laws.OwnWriteIsRead", given.books),
    ("recovery.Laws.SerialIsStrict", serial_books),
    ("recovery.Laws.BreaksAreAtTheirActs", given.books),
    ("equivalence.Laws.OneAnswerIsRight", answers_of_books),
    ("equivalence.Laws.CycleFits", answers_of_books),
    ("equivalence.Laws.ConflictIsSeen", two_entries),
    ("equivalence.Sources.SourcesAreTold", placed_sources),
    ("equivalence.Sources.ViewIsTold", placed_sources),
    ("serial.Why.WhyIsTold", why_answers),
    ("columns.NumbersAreTexts.DigitsAndLetters", symbols),
    ("columns.NumbersAreTexts.TextsAreJustified", fields_of_texts),
    ("columns.NumbersAreTexts.NumbersAreTheirTexts", fields_of_numbers),
    ("items.ItemsAreTexts.AxesAreTheirTexts", axes_of_texts),
    ("items.ItemsAreTexts.CaseIsIgnored", symbols),
    ("items.ItemsAreTexts.LettersAreNumbered", symbols),
    ("items.ItemsAreTexts.MarksAreWords", marks_of_words),
    ("items.ItemsAreTexts.MarksAreTheirTexts", marks_of_words),
    ("lines.LineIsTold.LineIsTold", told_lines),
    ("lines.CutIsTold.CutIsTold", told_cuts),
    ("lines.WritingIsTold.WritingIsTold", told_writing),
    ("lines.WritingIsTold.RewritingIsTold", told_rewriting),
    ("book.Entered.EnteringIsTold", told_entering),
    ("book.Entered.EnteredStands", told_entering),
    ("book.Entered.GrowingIsTold", told_growing),
    ("book.Entered.BeginningIsTold", told_beginning),
    ("book.Entered.StepsAreActs", told_steps),
    ("book.Entered.UnderIsTold", told_steps),
    ("book.Entered.ClosingIsTold", told_closing),
    ("book.Sheets.SheetsAreLines", told_sheets),
    ("book.Sheets.FaultsStand", told_faults),
    ("book.Sheets.CountsStand", told_faults),
    ("book.Sheets.EntriesStay", told_faults),
    ("graphs.RefusalLaws.SearchRefusalIsTold", told_searches),
    ("serial.RefusalLaws.OrderRefusalIsTold", told_requests),
    ("views.RefusalLaws.ViewsRefusalIsTold", told_requests),
    ("words.WordsAreTold.WordIsTold", words_of_items),
    ("words.WordsAreTold.SpacedIsTold", spaced_numbers),
    ("recovery.Laws.BreaksAreByPlaces", given.books),
    ("recovery.Laws.SourceIsReadFrom", given.books),
    ("recovery.Laws.BreaksComeTogether", given.books),
    ("recovery.Laws.ClassNeverRises", given.growing),
    ("recovery.Laws.FirstBreak", given.with_rules),
    ("recovery.Laws.BreaksStay", given.with_rules),
    ("history.Order.KeepsIsKeepsConflicts", given.books),
    ("history.Order.CycleLasts", given.growing),
    ("equivalence.Laws.FirstOrdersAreRight", given.books),
    ("equivalence.Laws.ViewIsSame", given.books),
    ("equivalence.Laws.KeptIsView", given.books),
    ("equivalence.Constraints.ViewIsAllowed", given.books),
    ("equivalence.Extending.ViewsByConstraints", given.books),
    ("orders.Least.FirstIsLeast", given.number_sets),
    ("orders.Least.NoneIsNone", given.number_sets),
    ("graphs.Edges.FollowsForward", given.graphs),
    ("runs.Answers.LentPast64", given.lent),
    ("lines.Writing.WritesBack", given.written_lines),
    ("book.ReadsIn.ReadsInIsReadIn", given.read_ins),
    ("graphs.WaitLaws.WaitsAreTold", told_waits),
    ("runs.Laws.StateIsAsAnswered", changed_states),
    ("runs.Laws.RightIsTold", told_right),
    ("runs.Laws.QuestionsAreTold", told_questions),
    ("runs.Laws.TicketsAreNumbered", numbered_tickets),
    ("runs.Laws.WantIsTold", told_wants),
    ("runs.Laws.AllRightIsTold", told_turns),
    ("runs.Laws.RunsGoOn", longer_runs),
    ("runs.Laws.RunsMakeBooks", made_books),
    ("runs.Laws.OrdersAgree", agreeing_answers),
    ("runs.Laws.ViewsAgree", agreeing_answers),
    ("report.Laws.LinesAreRead", read_lines),
    ("report.Laws.ClassLineShows", shown_classes),
    ("report.Laws.FaultLineShows", shown_faults),
    ("report.Laws.ReportShows", shown_reports),
    ("report.Laws.SheetReportShows", reported_sheets),
    ("report.Laws.OrderLineShows", shown_lines),
    ("report.Laws.ViewsLineShows", shown_views),
]
