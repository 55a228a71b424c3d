"""Reads the definitions of crates/*/specs/*.antt and evaluates them, so that what is evaluated is what is proved.

    library = Library(top)                        reads every specs file and the types that the Rust sources declare
    library.edited({path: text})                  the same with some files otherwise
    library.call("recovery.Classes.class_of", alike, book)
    library.call("recovery.Laws.ClassNeverRises", None, universe=universe)

A number is a Python number, a truth value a bool, a list a tuple, a tuple a tuple; a value with a constructor is a tuple that
begins with the constructor's name, and a record is a named tuple with its fields in the order of their names. A function of
several arguments takes them at once. A function into `Type 0` answers whether the type has a value: that is, whether the
proposition holds. `(x : T) → P` and `(x : T) × P` range over the values that the universe has for T: the caller says which.

Each definition becomes a Python function. A search for values (of a record's fields, of what a proposition speaks of) becomes
nested loops: each test is made as soon as what it speaks of is known, and an equation one side of which is known gives what
stands in the other. Only a variable that nothing gives is tried with each value that its type has.
"""

import collections
import functools
import glob
import itertools
import keyword
import os
import re
import sys

sys.setrecursionlimit(200000)

# Operators by how tightly they bind, loosest first, and the side on which they may repeat.
OPERATORS = {
    "↔": (0, ""), "⊎": (1, "r"), "×": (2, "r"), "≡": (4, ""), "≢": (4, ""), "||": (30, "l"), "&&": (35, "l"), "==": (40, ""),
    "<": (50, ""), "≤": (50, ""), "+": (65, "l"), "-": (65, "l"), "++": (65, "l"), "∷": (67, "r"), "*": (70, "l"),
    "/": (70, "l"), "%": (70, "l"), "^": (75, "r"),
}
PROPOSITIONS = {"↔", "⊎", "≡", "≢", "<", "≤"}
TOKEN = re.compile(r'"(?:[^"\\]|\\.)*"|[(){};,]|\.|[^\s(){};,."«»@]+')
RESERVED = {"in", "then", "else", "where", "→", "=", ":", ")", "}", ";", ",", ".", "of"} | set(OPERATORS)


class Fault(Exception):
    """A text that cannot be read, or a value that no clause fits."""


class Endless(Exception):
    """A list that is too long to go through."""


class Token(str):
    """A word of a text; tight: nothing stands before it."""

    tight = False


def tokens_of(text):
    """The words of a text."""
    found = []
    for match in TOKEN.finditer(text):
        token = Token(match.group())
        token.tight = match.start() > 0 and not text[match.start() - 1].isspace()
        found.append(token)
    return found


def without_comment(line):
    """The line up to a comment."""
    quoted = False
    for i, letter in enumerate(line):
        if letter == '"' and (i == 0 or line[i - 1] != "\\"):
            quoted = not quoted
        if not quoted and line.startswith("--", i) and (i == 0 or line[i - 1] in " ("):
            return line[:i].rstrip()
    return line.rstrip()


class Part:
    """A declaration of a file as text: its lines, and the parts that stand below a `where`."""

    def __init__(self, indent, first):
        self.indent, self.text, self.first, self.last, self.below = indent, "", first, first, []


def parts_of(text):
    """The declarations of a file, by indentation."""
    lines = []
    for number, line in enumerate(text.split("\n"), 1):
        line = without_comment(line)
        if line.strip():
            lines.append((len(line) - len(line.lstrip()), line.strip(), number))

    def block(at, indent):
        parts = []
        while at < len(lines) and lines[at][0] >= indent:
            part = Part(lines[at][0], lines[at][2])
            part.text = lines[at][1]
            part.last = lines[at][2]
            at += 1
            opens = re.match(r"(pub )?(module|record|data)\b", part.text)
            is_use = re.match(r"(unfoldable )?(pub )?use\b", part.text)
            while at < len(lines):
                if opens and part.text.endswith("where"):
                    break
                goes_on = lines[at][0] > part.indent or is_use and part.text.count("{") > part.text.count("}")
                if not goes_on:
                    break
                part.text += "\n" + lines[at][1]
                part.last = lines[at][2]
                at += 1
            if opens and part.text.endswith("where") and at < len(lines) and lines[at][0] > part.indent:
                part.below, at = block(at, lines[at][0])
                part.last = part.below[-1].last
            parts.append(part)
        return parts, at

    return block(0, 0)[0]


class Parser:
    """Reads terms and types from words."""

    def __init__(self, words):
        self.words, self.at = words, 0

    def peek(self, ahead=0):
        """The word that comes next, or comes later, or nothing."""
        return self.words[self.at + ahead] if self.at + ahead < len(self.words) else Token("")

    def next(self):
        """Takes the next word."""
        word = self.peek()
        if word == "":
            raise Fault("the text ends too early")
        self.at += 1
        return word

    def take(self, word):
        """Takes the next word, which must be this one."""
        if self.next() != word:
            raise Fault(f"{word} is missing before {' '.join(self.words[self.at - 1 : self.at + 6])}")

    def skip_braces(self):
        """Skips what stands in braces."""
        depth = 0
        while True:
            word = self.next()
            depth += (word == "{") - (word == "}")
            if depth == 0:
                return

    def group_end(self):
        """Where the names of a binder group end, if one begins here."""
        at = self.at + 1
        while at < len(self.words) and self.words[at] not in RESERVED and self.words[at] not in ("(", "{"):
            at += 1
        return at if at > self.at + 1 and at < len(self.words) and self.words[at] == ":" else None

    def group(self):
        """The names of a binder group with their type, and whether they are implicit."""
        implicit, end = self.peek() == "{", self.group_end()
        names = self.words[self.at + 1 : end]
        self.at = end + 1
        of = self.expression()
        self.take("}" if implicit else ")")
        return [(str(name), of) for name in names], implicit

    def groups(self):
        """Binder groups up to what follows."""
        bound = []
        while self.peek() in ("(", "{") and self.group_end():
            names, implicit = self.group()
            if not implicit:
                bound += names
        return bound

    def expression(self):
        """A term or a type, with arrows."""
        if self.peek() in ("(", "{") and self.group_end():
            bound = self.groups()
            word = self.next()
            if word == "→":
                body = self.expression()
                for name, of in reversed(bound):
                    body = ("pi", name, of, body)
                return body
            if word != "×":
                raise Fault(f"an arrow is missing before {word}")
            body = self.sigma_body()
            for name, of in reversed(bound):
                body = ("sig", name, of, body)
        else:
            body = self.binary(0)
        if self.peek() == "→":
            self.next()
            return ("pi", None, body, self.expression())
        return body

    def sigma_body(self):
        """What follows the sign of a pair: what is bound in it, or a proposition."""
        if self.peek() == "(" and self.group_end():
            bound = self.groups()
            self.take("×")
            body = self.sigma_body()
            for name, of in reversed(bound):
                body = ("sig", name, of, body)
            return body
        left = self.binary(3)
        if self.peek() == "×":
            self.next()
            return ("op", "×", left, self.sigma_body())
        return left

    def binary(self, least):
        """Terms with operators that bind at least so tightly."""
        left = self.application()
        while self.peek() in OPERATORS and OPERATORS[self.peek()][0] >= least:
            word = str(self.next())
            level, side = OPERATORS[word]
            if word == "×":
                right = self.sigma_body()
            else:
                right = self.binary(level if side == "r" else level + 1)
            left = ("op", word, left, right)
            if side == "" and self.peek() in OPERATORS and OPERATORS[self.peek()][0] == level:
                raise Fault(f"two {word} beside each other")
        return left

    def application(self):
        """A function with its arguments, or what begins with a word of its own."""
        word = self.peek()
        if word == "λ":
            self.next()
            names = []
            while self.peek() != ".":
                if self.peek() == "(":
                    names += [name for name, _ in self.group()[0]]
                else:
                    names.append(str(self.next()))
            self.take(".")
            return ("lam", tuple(names), self.expression())
        if word == "let":
            self.next()
            name = str(self.next())
            if self.peek() == ":":
                self.next()
                self.expression()
            self.take("=")
            value = self.expression()
            self.take("in")
            return ("let", name, value, self.expression())
        if word == "if":
            self.next()
            test = self.binary(6)
            self.take("then")
            yes = self.binary(6)
            self.take("else")
            return ("if", test, yes, self.binary(6))
        head, args = self.atom(), []
        while True:
            word = self.peek()
            if word in ("λ", "let"):
                args.append(self.application())
                break
            if word == "{":
                self.skip_braces()
                continue
            if word == "" or word in RESERVED or word in ("then", "else", "if"):
                break
            args.append(self.atom())
        return ("app", head, tuple(args)) if args else head

    def atom(self):
        """A term that needs no brackets."""
        word = self.next()
        if word == "(":
            found = [self.expression()]
            while self.peek() == ",":
                self.next()
                found.append(self.expression())
            self.take(")")
            node = found[0] if len(found) == 1 else ("tup", tuple(found))
        elif word == "record" and self.peek() == "{":
            self.take("{")
            fields = []
            while self.peek() != "}":
                field = str(self.next())
                self.take("=")
                fields.append((field, self.expression()))
                if self.peek() == ";":
                    self.next()
            self.take("}")
            node = ("rec", tuple(fields))
        elif word.startswith('"'):
            node = ("s", tuple(eval("b" + word)))  # pylint: disable=eval-used
        elif word.isdigit():
            node = ("n", int(word))
        elif word == "Type":
            self.next()
            node = ("type",)
        elif word in RESERVED:
            raise Fault(f"{word} stands where a term should")
        else:
            node = ("name", str(word))
        while self.peek() == "." and self.peek().tight and self.peek(1) != "" and self.peek(1).tight:
            self.next()
            node = ("proj", node, str(self.next()))
        return node

    def pattern(self):
        """A pattern that stands by itself."""
        word = self.next()
        if word == "(":
            found = [self.whole_pattern()]
            while self.peek() == ",":
                self.next()
                found.append(self.whole_pattern())
            self.take(")")
            return found[0] if len(found) == 1 else ("tup", tuple(found))
        if word.isdigit():
            return ("n", int(word))
        name = str(word)
        while self.peek() == "." and self.peek().tight:
            self.next()
            name += "." + self.next()
        return ("name", name)

    def whole_pattern(self):
        """A pattern with the arguments of its constructor."""
        head, args = self.pattern(), []
        while self.peek() not in (")", ",", "∷", "=", ""):
            args.append(self.pattern())
        left = ("app", head, tuple(args)) if args else head
        if self.peek() == "∷":
            self.next()
            return ("op", "∷", left, self.whole_pattern())
        return left

    def end(self):
        """Nothing may be left."""
        if self.at < len(self.words):
            raise Fault(f"{' '.join(self.words[self.at : self.at + 6])} is left over")


class Block:
    """A `module _` block: its parameters, those of the blocks around it before them."""

    count = itertools.count()

    def __init__(self, params):
        self.params = [(f"{safe(name)}·m{next(self.count)}", name, of) for name, of in params]


class Definition:
    """A definition, a record, a data type or the statement of a lemma."""

    def __init__(self, crate, file, name, kind, part, blocks):
        self.crate, self.file, self.name, self.kind, self.blocks = crate, file, name, kind, blocks
        self.key = f"{crate}.{file}.{name}"
        self.first, self.last = part.first, part.last
        self.signature = self.header = None
        self.clauses, self.fields, self.constructors = [], [], []
        self.lines, self.text = 0, part.text


# How many elements of a list are looked at before it counts as endless.
LONGEST = 5100

# ---- what std defines, as functions; numbers are natural, and what is taken away is truncated


class Late:
    """A list whose elements are found only when they are asked for, as all orders of many numbers are."""

    __slots__ = ("known", "rest", "start")

    def __init__(self, rest, known=None, start=0):
        self.rest, self.known, self.start = rest, [] if known is None else known, start

    def _reach(self, count):
        known = self.known
        if count > LONGEST:
            raise Endless
        while len(known) < count:
            try:
                known.append(next(self.rest))
            except StopIteration:
                return False
        return True

    def __bool__(self):
        return self._reach(self.start + 1)

    def __iter__(self):
        at = self.start
        while self._reach(at + 1):
            yield self.known[at]
            at += 1

    def whole(self):
        """All of it, as a tuple."""
        return tuple(one for one in self)

    def __getitem__(self, at):
        if isinstance(at, slice):
            if at.stop is None and at.step is None:
                return Late(self.rest, self.known, self.start + (at.start or 0))
            return self.whole()[at]
        if not self._reach(self.start + at + 1):
            raise IndexError(at)
        return self.known[self.start + at]

    def __len__(self):
        return len(self.whole())

    def __add__(self, other):
        return self.whole() + tuple(other)

    def __radd__(self, other):
        return tuple(other) + self.whole()

    def __eq__(self, other):
        return self.whole() == tuple(other)

    def __hash__(self):
        return hash(self.whole())


def flat_map(f, xs):
    """The lists that a function gives, together."""
    if len(xs) > 5:
        return Late(x for y in xs for x in f(y))
    return tuple(x for y in xs for x in f(y))


def mapped(f, xs):
    """What a function gives of each element."""
    return Late(f(x) for x in xs) if isinstance(xs, Late) else tuple(map(f, xs))


def slice_get(xs, i):
    """The element at a place, if there is one."""
    return ("Some", xs[i]) if 0 <= i < len(xs) else ("None",)


def slice_index_or(xs, i, d):
    """The element at a place, or what stands in for it."""
    return xs[i] if 0 <= i < len(xs) else d


def slice_set(xs, i, x):
    """The list with another element at a place."""
    return xs[:i] + (x,) + xs[i + 1 :] if i < len(xs) else xs


def position(test, xs):
    """The place of the first element that passes, if there is one."""
    for i, x in enumerate(xs):
        if test(x):
            return ("Some", i)
    return ("None",)


def option_map(f, o):
    """What a function gives of a value, if there is one."""
    return ("Some", f(o[1])) if o[0] == "Some" else o


def decimal(n):
    """The digits of a number as bytes."""
    return tuple(str(n).encode())


def to_ascii_lowercase(b):
    """The small letter of a capital one; other bytes as they are."""
    return b + 32 if 65 <= b <= 90 else b


def to_ascii_uppercase(b):
    """The capital letter of a small one; other bytes as they are."""
    return b - 32 if 97 <= b <= 122 else b


def slice_split(test, xs):
    """The parts of a list between those that pass."""
    found, part = [], ()
    for x in xs:
        if test(x):
            found.append(part)
            part = ()
        else:
            part += (x,)
    return tuple(found) + (part,)


BUILTINS = {
    "suc": (1, lambda n: n + 1), "zero": (0, 0), "true": (0, True), "false": (0, False), "[]": (0, ()), "tt": (0, ("tt",)),
    "not": (1, lambda b: not b), "nat_eq": (2, lambda a, b: a == b), "nat_le": (2, lambda a, b: a <= b),
    "nat_lt": (2, lambda a, b: a < b), "min": (2, min), "max": (2, max), "length": (1, len), "map": (2, mapped),
    "filter": (2, lambda f, xs: tuple(filter(f, xs))), "list_any": (2, lambda f, xs: any(map(f, xs))),
    "list_all": (2, lambda f, xs: all(map(f, xs))), "take": (2, lambda n, xs: xs[:n]), "drop": (2, lambda n, xs: xs[n:]),
    "replicate": (2, lambda n, x: (x,) * n), "range_with_len": (2, lambda a, n: tuple(range(a, a + n))),
    "flat_map": (2, flat_map), "slice_get": (2, slice_get), "slice_index": (2, lambda xs, i: slice_index_or(xs, i, 0)),
    "slice_index_or": (3, slice_index_or), "slice_set": (3, slice_set), "position": (2, position),
    "option_map": (2, option_map), "decimal": (1, decimal), "codes": (1, lambda s: s),
    "bytes_eq": (2, lambda a, b: a == b), "count_by": (2, lambda f, xs: sum(map(f, xs))),
    "between": (3, lambda i, j, xs: xs[i:][: max(j - i, 0)]), "is_some": (1, lambda o: o[0] == "Some"),
    "is_none": (1, lambda o: o[0] == "None"), "is_ok": (1, lambda r: r[0] == "Ok"), "is_err": (1, lambda r: r[0] == "Err"),
    "AllByRecursion": (2, lambda f, xs: all(map(f, xs))), "Decides": (2, lambda b, p: b == p),
    "IfOk": (2, lambda r, f: r[0] != "Ok" or f(r[1])), "IfSome": (2, lambda o, f: o[0] != "Some" or f(o[1])),
    "IsErr": (1, lambda r: r[0] == "Err"), "IsOk": (1, lambda r: r[0] == "Ok"), "All": (2, lambda f, xs: all(map(f, xs))),
    "prefix_len": (2, lambda f, xs: position(lambda x: not f(x), xs + (None,))[1] if xs else 0),
    "if◌then◌else◌": (3, lambda c, a, b: a if c else b), "cond": (3, lambda c, a, b: a if c else b),
    "OnErr": (2, lambda r, p: r[0] != "Err" or p), "OnOk": (2, lambda r, p: r[0] != "Ok" or p),
    "IsOkUnless": (2, lambda r, e: r[0] == "Ok" or r[1] == e), "list_reverse": (1, lambda xs: xs[::-1]),
    "reverse": (1, lambda xs: xs[::-1]), "sum": (1, sum), "slice_split": (2, slice_split),
    "AllPass": (2, lambda f, xs: all(map(f, xs))),
    "to_ascii_lowercase": (1, to_ascii_lowercase), "to_ascii_uppercase": (1, to_ascii_uppercase),
}
BUILTIN_PROPOSITIONS = {
    "AllByRecursion", "AllPass", "Decides", "IfOk", "IfSome", "IsErr", "IsOk", "All", "OnErr", "OnOk", "IsOkUnless",
}
BUILTIN_CONSTRUCTORS = {"Some": 1, "None": 0, "Ok": 1, "Err": 1}
BUILTIN_TYPES = {"ℕ", "Bool", "List", "Option", "Result", "Unit", "⊥", "⊤", "Bor", "ℤ"}
INLINE = {
    "not": "(not {0})", "nat_eq": "({0} == {1})", "nat_le": "({0} <= {1})", "nat_lt": "({0} < {1})", "suc": "({0} + 1)",
    "length": "_len({0})", "take": "{1}[:{0}]", "drop": "{1}[{0}:]", "cond": "({1} if {0} else {2})",
    "filter": "_tuple(_filter({0}, {1}))", "list_any": "_any(_map({0}, {1}))", "list_all": "_all(_map({0}, {1}))",
    "Decides": "({0} == {1})", "bytes_eq": "({0} == {1})", "codes": "{0}",
}
INFIX = {
    "||": "({0} or {1})", "&&": "({0} and {1})", "==": "({0} == {1})", "<": "({0} < {1})", "≤": "({0} <= {1})",
    "+": "({0} + {1})", "-": "_max({0} - {1}, 0)", "++": "({0} + {1})", "∷": "(({0},) + {1})", "*": "({0} * {1})",
    "/": "_div({0}, {1})", "%": "_mod({0}, {1})", "≡": "({0} == {1})", "≢": "({0} != {1})", "⊎": "({0} or {1})",
    "×": "({0} and {1})", "↔": "({0} == {1})", "^": "({0} ** {1})",
}
OPERATOR_NAMES = {
    "◌==◌": lambda a, b: a == b, "◌&&◌": lambda a, b: a and b, "◌||◌": lambda a, b: a or b, "◌+◌": lambda a, b: a + b,
    "◌++◌": lambda a, b: a + b, "◌∷◌": lambda x, xs: (x,) + xs,
}


@functools.lru_cache(maxsize=None)
def record_type(fields):
    """The type of the records with these fields, whose names are in order."""
    names = [safe(field) for field in fields]
    of = collections.namedtuple("Record", names)
    of.labels = fields
    return of


def record(**fields):
    """A record by its fields."""
    names = tuple(sorted(fields))
    return record_type(names)(*(fields[name] for name in names))


def safe(name):
    """A name that Python takes."""
    name = name.replace("'", "ʹ").replace("-", "ˍ")
    return name + "_" if keyword.iskeyword(name) or name in ("count", "index") else name


def plain(name):
    """The name as it stands in the file."""
    name = name.split("·")[0].replace("ʹ", "'")
    return name[:-1] if name.endswith("_") else name


# ---- terms


def substituted(node, given):
    """The term with terms in the place of variables. Names that it binds are new, so that none is caught."""
    kind = node[0]
    if kind == "v":
        return given.get(node[1], node)
    if kind in ("g", "c", "b", "n", "s", "t", "type", "unit", "bot"):
        return node
    if kind == "lam":
        names = tuple(fresh(name) for name in node[1])
        return ("lam", names, substituted(node[2], {**given, **{a: ("v", b) for a, b in zip(node[1], names)}}))
    if kind == "let":
        name = fresh(node[1])
        return ("let", name, substituted(node[2], given), substituted(node[3], {**given, node[1]: ("v", name)}))
    if kind in ("pi", "sig"):
        of = substituted(node[2], given)
        if node[1] is None:
            return (kind, None, of, substituted(node[3], given))
        name = fresh(node[1])
        return (kind, name, of, substituted(node[3], {**given, node[1]: ("v", name)}))
    if kind == "app":
        return apply(substituted(node[1], given), tuple(substituted(arg, given) for arg in node[2]))
    if kind == "rec":
        return ("rec", tuple((field, substituted(value, given)) for field, value in node[1]))
    if kind == "proj":
        return projected(substituted(node[1], given), node[2])
    if kind == "tup":
        return ("tup", tuple(substituted(one, given) for one in node[1]))
    if kind == "op":
        return ("op", node[1], substituted(node[2], given), substituted(node[3], given))
    if kind == "if":
        return ("if",) + tuple(substituted(one, given) for one in node[1:])
    raise Fault(f"no such term: {kind}")


def apply(head, args):
    """A function and its arguments, flat."""
    if not args:
        return head
    if head[0] == "app":
        return ("app", head[1], head[2] + args)
    if head[0] == "lam" and len(head[1]) == len(args):
        return substituted(head[2], dict(zip(head[1], args)))
    return ("app", head, args)


def projected(node, field):
    """A field of a term, at once where the term is a record that is written out."""
    if node[0] == "rec":
        for name, value in node[1]:
            if name == field:
                return value
    if node[0] == "tup" and field.isdigit():
        return node[1][int(field)]
    return ("proj", node, field)


COUNTER = itertools.count()


def fresh(name):
    return f"{name.split('·')[0]}·{next(COUNTER)}"


def free(node, found=None, bound=frozenset()):
    """The variables that a term speaks of, in the order in which they come."""
    found = {} if found is None else found
    kind = node[0]
    if kind == "v":
        if node[1] not in bound:
            found[node[1]] = True
    elif kind == "lam":
        free(node[2], found, bound | set(node[1]))
    elif kind == "let":
        free(node[2], found, bound)
        free(node[3], found, bound | {node[1]})
    elif kind in ("pi", "sig"):
        free(node[2], found, bound)
        free(node[3], found, bound | {node[1]})
    elif kind == "app":
        free(node[1], found, bound)
        for arg in node[2]:
            free(arg, found, bound)
    elif kind == "rec":
        for _, value in node[1]:
            free(value, found, bound)
    elif kind == "proj":
        free(node[1], found, bound)
    elif kind == "tup":
        for one in node[1]:
            free(one, found, bound)
    elif kind == "op":
        free(node[2], found, bound)
        free(node[3], found, bound)
    elif kind == "if":
        for one in node[1:]:
            free(one, found, bound)
    return found


def binds_functions(node):
    """Whether the term makes a function: then what it catches must not change."""
    if node[0] == "lam":
        return True
    return any(binds_functions(one) for one in parts(node))


def parts(node):
    """The terms that a term is made of."""
    kind = node[0]
    if kind == "lam":
        return [node[2]]
    if kind == "let":
        return [node[2], node[3]]
    if kind in ("pi", "sig"):
        return [node[2], node[3]]
    if kind == "app":
        return [node[1], *node[2]]
    if kind == "rec":
        return [value for _, value in node[1]]
    if kind == "proj":
        return [node[1]]
    if kind == "tup":
        return list(node[1])
    if kind == "op":
        return [node[2], node[3]]
    if kind == "if":
        return list(node[1:])
    return []


# ---- files


class File:
    """A specs file: what it declares, and what its names stand for."""

    def __init__(self, library, path, text):
        self.path = path
        self.crate = path.split("/")[1]
        self.name = os.path.basename(path)[: -len(".antt")]
        self.uses, self.definitions = [], {}
        self.library = library
        self.text = text
        self.read(parts_of(text), [])

    def declare(self, definition):
        if definition.name in self.definitions:
            raise Fault(f"{self.path}: {definition.name} is defined twice")
        self.definitions[definition.name] = definition

    def read(self, parts, blocks):
        for part in parts:
            try:
                self.read_part(part, blocks)
            except Fault as fault:
                raise Fault(f"{self.path}:{part.first}: {fault}") from fault

    def read_part(self, part, blocks):
        words = tokens_of(part.text)
        marks = []
        while words and words[0] in ("abbrev", "unfoldable", "pub", "pattern"):
            marks.append(str(words.pop(0)))
        head = words[0]
        if head in ("use", "mod"):
            if head == "use":
                self.uses += uses_of(words[1:])
        elif head == "module":
            parser = Parser(words)
            parser.at = 2
            params = parser.groups()
            parser.take("where")
            parser.end()
            self.read(part.below, blocks + [Block(params)])
        elif head == "record":
            definition = Definition(self.crate, self.name, str(words[1]), "record", part, blocks)
            parser = Parser(words)
            parser.at = 2
            definition.header = parser.groups()
            parser.take(":")
            parser.expression()
            parser.take("where")
            parser.end()
            for field in part.below:
                parser = Parser(tokens_of(field.text))
                if parser.peek() == "pub":
                    parser.next()
                name = str(parser.next())
                parser.take(":")
                of = parser.expression()
                parser.end()
                definition.fields.append((name, of))
            definition.lines = len(part.text.split("\n")) + len(part.below)
            definition.text += "".join("\n" + field.text for field in part.below)
            self.declare(definition)
        elif head == "data":
            definition = Definition(self.crate, self.name, str(words[1]), "data", part, blocks)
            for case in part.below:
                parser = Parser(tokens_of(case.text))
                name = str(parser.next())
                parser.take(":")
                of = parser.expression()
                parser.end()
                definition.constructors.append((name, of))
            definition.lines = 1 + len(part.below)
            definition.text += "".join("\n" + case.text for case in part.below)
            self.declare(definition)
        elif head in ("infix", "infixl", "infixr", "open", "ruleset"):
            pass
        elif len(words) > 1 and words[1] == ":":
            kind = "term" if "abbrev" in marks or "unfoldable" in marks else "lemma"
            definition = Definition(self.crate, self.name, str(head), kind, part, blocks)
            if kind == "term":
                parser = Parser(words)
                parser.at = 2
                definition.signature = parser.expression()
                parser.end()
                definition.lines = part.text.count("\n") + 1
            self.declare(definition)
        else:
            definition = self.definitions.get(str(head))
            if definition is None:
                raise Fault(f"{head} has clauses and no type")
            definition.last = part.last
            if definition.kind != "term":
                return
            definition.lines += part.text.count("\n") + 1
            definition.text += "\n" + part.text
            parser = Parser(words)
            parser.at = 1
            patterns = []
            while parser.peek() != "=":
                if parser.peek() == "{":
                    parser.skip_braces()
                else:
                    patterns.append(parser.pattern())
            parser.take("=")
            body = parser.expression()
            parser.end()
            definition.clauses.append((patterns, body))


def uses_of(words):
    """What a `use` line brings in: path, name there, name here."""
    found = []
    match = re.fullmatch(r"([^{}]*?)(?: \. \{(.*?),?\s*\})?(?: as (\S+))?", " ".join(words), re.DOTALL)
    path = match.group(1).replace(" ", "")
    if match.group(2) is not None:
        for item in match.group(2).split(","):
            item = item.strip()
            if item:
                name, _, here = item.partition(" as ")
                found.append((path, name.strip(), (here or name).strip()))
    else:
        found.append((path, None, match.group(3) or path.split(".")[-1]))
    return found


class Declared:
    """A type of the Rust sources: its cases with what they hold, or its fields."""

    def __init__(self, crate, name):
        self.crate, self.name, self.cases, self.fields = crate, name, {}, []


def declared_in(top):
    """The types that the sources declare, by crate and name."""
    found = {}
    for path in sorted(glob.glob(os.path.join(top, "crates", "*", "src", "*.rt"))):
        crate = path.split(os.sep)[-3]
        with open(path, encoding="utf-8") as file:
            text = re.sub(r"//[^\n]*", "", file.read())
        for match in re.finditer(r"\b(enum|struct)\s+(\w+)(?:<[^>{(;]*>)?\s*([{(])", text):
            at, depth = match.end(), 1
            while depth:
                depth += (text[at] in "{(") - (text[at] in "})")
                at += 1
            body = text[match.end() : at - 1]
            of = Declared(crate, match.group(2))
            if match.group(1) == "enum":
                for case in split_at_commas(body):
                    name = re.match(r"\w+", case.strip())
                    if name:
                        holds = re.search(r"\((.*)\)", case, re.DOTALL)
                        of.cases[name.group()] = split_at_commas(holds.group(1)) if holds else []
            elif match.group(3) == "{":
                for field in split_at_commas(re.sub(r"ghost\s+\w+:\s*\{[^}]*\}", "", body)):
                    name = re.match(r"\s*(?:pub(?:\([^)]*\))?\s+)?(\w+)\s*:\s*(.*)", field, re.DOTALL)
                    if name:
                        of.fields.append((name.group(1), name.group(2).strip()))
            found[crate, of.name] = of
    return found


def split_at_commas(text):
    """The parts of a text between commas that stand in no brackets."""
    found, depth, part = [], 0, ""
    for letter in text:
        depth += (letter in "<([{") - (letter in ">)]}")
        if letter == "," and depth == 0:
            found.append(part.strip())
            part = ""
        else:
            part += letter
    return found + [part.strip()] if part.strip() else found


class Library:
    """All definitions, read and ready to be called."""

    def __init__(self, top, base=None, texts=None):
        self.top = top
        self.declared = base.declared if base else declared_in(top)
        self.files = {}
        if base:
            self.files = dict(base.files)
            for path, text in texts.items():
                self.files[path] = File(self, path, text)
        else:
            for path in sorted(glob.glob(os.path.join(top, "crates", "*", "specs", "**", "*.antt"), recursive=True)):
                short = os.path.relpath(path, top)
                with open(path, encoding="utf-8") as file:
                    self.files[short] = File(self, short, file.read())
        self.modules = {(file.crate, file.name): file for file in self.files.values()}
        self.space = {
            "_len": len, "_tuple": tuple, "_filter": filter, "_any": any, "_all": all, "_map": map, "_max": max,
            "_div": lambda a, b: a // b if b else 0, "_mod": lambda a, b: a % b if b else a, "_dom": self.domain,
            "_note": self.note, "_stuck": stuck, "_chain": itertools.chain,
        }
        for name, (arity, value) in BUILTINS.items():
            self.space["b·" + safe(name)] = value
        for name, value in OPERATOR_NAMES.items():
            self.space["b·" + safe(name)] = value
        self.compiled, self.scopes, self.types, self.helpers = {}, {}, {}, itertools.count()
        self.resolved = {}
        self.kept, self.noted = {}, None
        self._universe = None

    @property
    def universe(self):
        return self._universe

    @universe.setter
    def universe(self, universe):
        self._universe = universe
        self.kept.clear()

    def keeping(self, name, function):
        """The function, which is not asked twice of the same values."""
        kept = self.kept

        def asked(*args):
            key = name, args
            if key not in kept:
                kept[key] = function(*args)
            return kept[key]

        return asked

    def edited(self, texts):
        """The library with other texts in some files."""
        return Library(self.top, self, texts)

    def find(self, key):
        """The definition with this key."""
        crate, file, name = key.split(".")
        try:
            return self.modules[crate, file].definitions[name]
        except KeyError:
            raise Fault(f"there is no definition {key}") from None

    def all(self):
        """All definitions."""
        return [one for file in self.files.values() for one in file.definitions.values()]

    # -- names

    def scope(self, file):
        """What the names of a file stand for."""
        if file.path in self.scopes:
            return self.scopes[file.path]
        scope = {}
        for path, name, here in file.uses:
            found = self.used(path, name)
            if found is not None:
                scope[here] = found
        for definition in file.definitions.values():
            scope[definition.name] = ("g", definition.key)
            if definition.kind == "data":
                for case, of in definition.constructors:
                    scope[case] = ("c", case, arrows(of))
        self.scopes[file.path] = scope
        return scope

    def used(self, path, name):
        """What a name stands for that is used from a path."""
        steps = path.split(".")
        if steps[0] != "Rattle" or steps[1] in ("std", "core"):
            return builtin(name) if name else None
        crate, rest = steps[1], steps[3:]
        if rest and rest[0] == "declared":
            if rest[-1] == "TheVariants":
                of = self.declared.get((crate, rest[-2]))
                if of is None:
                    raise Fault(f"no type {path}")
                if name is None:
                    return ("alias", {case: ("c", case, len(held)) for case, held in of.cases.items()})
                return ("c", name, len(of.cases[name]))
            if name is None:
                return ("alias", {rest[-1]: ("t", rest[-1], crate)})
            return ("t", name, crate)
        if not rest or steps[2] != "specs":
            return None
        module = self.modules.get((crate, rest[-1]))
        if module is None:
            raise Fault(f"no file {path}")
        if name is None:
            return ("alias", {one: ("g", of.key) for one, of in module.definitions.items()})
        if name in module.definitions:
            return ("g", module.definitions[name].key)
        for definition in module.definitions.values():
            for case, of in definition.constructors:
                if case == name:
                    return ("c", case, arrows(of))
        raise Fault(f"{path} has no {name}")

    def resolve(self, node, scope, local, blocks):
        """The term with each name by what it stands for."""
        kind = node[0]
        if kind == "name":
            return self.named(node[1], scope, local, blocks)
        if kind in ("n", "s", "type"):
            return node
        if kind == "lam":
            names = tuple(fresh(safe(name)) for name in node[1])
            return ("lam", names, self.resolve(node[2], scope, {**local, **dict(zip(node[1], names))}, blocks))
        if kind == "let":
            name = fresh(safe(node[1]))
            value = self.resolve(node[2], scope, local, blocks)
            return ("let", name, value, self.resolve(node[3], scope, {**local, node[1]: name}, blocks))
        if kind in ("pi", "sig"):
            of = self.resolve(node[2], scope, local, blocks)
            if node[1] is None:
                return (kind, None, of, self.resolve(node[3], scope, local, blocks))
            name = fresh(safe(node[1]))
            return (kind, name, of, self.resolve(node[3], scope, {**local, node[1]: name}, blocks))
        if kind == "app":
            args = tuple(self.resolve(arg, scope, local, blocks) for arg in node[2])
            head = self.resolve(node[1], scope, local, blocks)
            return ("app", head[1], head[2] + args) if head[0] == "app" else ("app", head, args)
        if kind == "rec":
            return ("rec", tuple((field, self.resolve(value, scope, local, blocks)) for field, value in node[1]))
        if kind == "proj":
            if node[1][0] == "name" and node[1][1] not in local:
                alias = scope.get(node[1][1])
                if alias and alias[0] == "alias":
                    if node[2] not in alias[1]:
                        raise Fault(f"{node[1][1]} has no {node[2]}")
                    return alias[1][node[2]]
            return ("proj", self.resolve(node[1], scope, local, blocks), node[2])
        if kind == "tup":
            return ("tup", tuple(self.resolve(one, scope, local, blocks) for one in node[1]))
        if kind == "op":
            return ("op", node[1]) + tuple(self.resolve(one, scope, local, blocks) for one in node[2:])
        if kind == "if":
            return ("if",) + tuple(self.resolve(one, scope, local, blocks) for one in node[1:])
        raise Fault(f"no such term: {kind}")

    def named(self, name, scope, local, blocks):
        if name in local:
            return ("v", local[name])
        if name in ("Unit", "⊤"):
            return ("unit",)
        if name == "⊥":
            return ("bot",)
        if name == "tt":
            return ("b", "tt")
        found = scope.get(name)
        if found is None:
            found = OPERATOR_NAMES.get(name) and ("b", name)
        if found is None and re.fullmatch("[A-Z]", name):
            found = ("t", name, None)  # an implicit parameter, which stands for a type
        if found is None:
            found = builtin(name)  # so that an edit need not import what std has
        if found is None:
            raise Fault(f"{name} is not defined")
        if found[0] == "g":
            of = self.find(found[1])
            if of.kind == "lemma":
                raise Fault(f"{name} is a lemma")
            shared = []
            for mine, its in zip(blocks, of.blocks):
                if mine is not its:
                    break
                shared += [("v", param) for param, _, _ in its.params]
            return ("app", found, tuple(shared)) if shared else found
        return found

    # -- definitions, resolved

    def form(self, key):
        """The parameters of a definition with their types, its result's type, and its clauses or fields."""
        if key not in self.resolved:
            of = self.find(key)
            try:
                self.resolved[key] = self.form_of(of)
            except Fault as fault:
                raise Fault(f"{key}: {fault}") from fault
        return self.resolved[key]

    def form_of(self, of):
        file = self.modules[of.crate, of.file]
        scope, blocks = self.scope(file), of.blocks
        local, params = {}, []
        for block in blocks:
            for param, name, type_of in block.params:
                params.append((param, self.resolve(type_of, scope, local, blocks)))
                local[name] = param
        if of.kind == "record":
            for name, type_of in of.header:
                param = fresh(safe(name))
                params.append((param, self.resolve(type_of, scope, local, blocks)))
                local[name] = param
            fields = []
            for name, type_of in of.fields:
                var = fresh(safe(name))
                fields.append((name, var, self.resolve(type_of, scope, local, blocks)))
                local[name] = var
            return params, ("type",), fields
        if of.kind == "data":
            return params, ("type",), [
                (case, self.resolve(type_of, scope, local, blocks)) for case, type_of in of.constructors
            ]
        result = self.resolve(of.signature, scope, local, blocks)
        count = 0
        while result[0] == "pi":
            params.append((result[1] or f"a·{next(COUNTER)}", result[2]))
            result, count = result[3], count + 1
        clauses = []
        for patterns, body in of.clauses:
            if len(patterns) > count:
                raise Fault("a clause has more patterns than the type has arguments")
            here, found = dict(local), []
            for pattern in patterns:
                found.append(self.pattern(pattern, scope, here))
            clauses.append((found, self.resolve(body, scope, here, blocks)))
        if not clauses:
            raise Fault("there is no clause")
        if len({len(patterns) for patterns, _ in clauses}) > 1:
            raise Fault("clauses have different numbers of patterns")
        return params, result, clauses

    def pattern(self, pattern, scope, local):
        """A pattern, resolved."""
        if pattern[0] == "n":
            return pattern
        if pattern[0] == "tup":
            return ("tup", tuple(self.pattern(one, scope, local) for one in pattern[1]))
        if pattern[0] == "op":
            return ("cons", self.pattern(pattern[2], scope, local), self.pattern(pattern[3], scope, local))
        args = ()
        if pattern[0] == "app":
            args = pattern[2]
            pattern = pattern[1]
        name = pattern[1]
        if name == "_":
            return ("any",)
        found = None
        if "." in name:
            alias, case = name.split(".")
            if alias not in scope or scope[alias][0] != "alias" or case not in scope[alias][1]:
                raise Fault(f"{name} is no constructor")
            found = scope[alias][1][case]
        elif name in scope:
            found = scope[name]
        if name == "tt":
            return ("any",)
        if found == ("b", "suc"):
            return ("suc", self.pattern(args[0], scope, local))
        if found == ("b", "zero"):
            return ("n", 0)
        if found in (("b", "true"), ("b", "false")):
            return ("bool", name == "true")
        if found == ("b", "[]"):
            return ("nil",)
        if found and found[0] == "c":
            if len(args) != found[2]:
                raise Fault(f"{name} takes {found[2]} arguments")
            return ("con", found[1], tuple(self.pattern(arg, scope, local) for arg in args))
        if args:
            raise Fault(f"{name} is no constructor")
        local[name] = fresh(safe(name))
        return ("var", local[name])

    def arity(self, key):
        """How many arguments a definition takes."""
        return len(self.form(key)[0])

    def is_proposition(self, node):
        """Whether a type is a proposition, and no type of data."""
        kind = node[0]
        if kind in ("bot", "unit"):
            return True
        if kind in ("pi", "sig"):
            return self.is_proposition(node[3])
        if kind == "op":
            if node[1] == "×":
                return self.is_proposition(node[2]) or self.is_proposition(node[3])
            return node[1] in PROPOSITIONS
        head = node[1] if node[0] == "app" else node
        if head[0] == "g":
            of = self.find(head[1])
            if of.kind == "data":
                return False
            if of.kind == "record":
                return any(self.is_proposition(type_of) for _, _, type_of in self.form(head[1])[2])
            params, _, clauses = self.form(head[1])
            return self.is_proposition(clauses[0][1]) if not params else True  # a name for a type says what the type says
        if head[0] == "b":
            return head[1] in BUILTIN_PROPOSITIONS
        if head[0] == "v":
            return node[0] == "app"
        return False

    # -- the values of types

    def domain(self, qualified, name, key):
        """The values that a variable ranges over."""
        return self.universe.values(self, qualified, name, key)

    def note(self, label, values):
        """Keeps at what values a proposition is false: what is kept last is the outermost."""
        self.noted = label, values

    # -- calls

    def function(self, key):
        """A definition as a Python function."""
        name = safe_key(key)
        if name not in self.space:
            Compiler(self).define(key)
        return self.space[name]

    def call(self, key, *args, universe=None):
        """The value of a definition at these arguments, or whether the proposition that it is holds."""
        if universe is not None:
            self.universe = universe
        return self.function(key)(*args)

    def uses(self, key):
        """The definitions that a definition names."""
        params, result, rest = self.form(key)
        found = {}

        def walk(node):
            if node[0] == "g":
                found[node[1]] = True
            for one in parts(node):
                walk(one)

        for _, of in params:
            walk(of)
        walk(result)
        for one in rest:
            walk(one[-1])
        return [one for one in found if one != key]

    def reaches(self, keys):
        """These definitions and all that they name, and so on."""
        found, left = {}, list(keys)
        while left:
            key = left.pop()
            if key not in found:
                found[key] = True
                left += self.uses(key)
        return found


def arrows(of):
    """How many arguments the type takes."""
    count = 0
    while of[0] == "pi":
        of, count = of[3], count + 1
    return count


def builtin(name):
    if name in BUILTIN_CONSTRUCTORS:
        return ("c", name, BUILTIN_CONSTRUCTORS[name])
    if name in BUILTIN_TYPES:
        return ("t", name, None)
    if name in BUILTINS or name in OPERATOR_NAMES:
        return ("b", name)
    if name.startswith("◌"):
        return ("b", name)
    return None


def stuck(name, *args):
    """What is called where no clause fits."""
    raise Fault(f"no clause of {name} fits {args!r}"[:300])


def safe_key(key):
    """A definition's name as a Python name."""
    return "·".join(safe(step) for step in key.split("."))


# ---- Python functions

# Definitions that are asked again and again of the same values: what they answered is kept while the universe stays the same.
KEPT = {
    "orders_of", "committed_cues", "committed_list", "letters", "keeps", "conflict_order", "view_order", "view_equivalent",
    "is_ahead", "is_apart", "is_hidden", "class_of", "AnswersOrder", "AnswersViews", "ShownKeepsView", "ConflictCycle",
    "read_in", "KeepsConflicts", "MustPrecede", "IsClass", "Sameness", "report_text", "KeepsView",
}


class Compiler:
    """Writes the Python function of a definition."""

    def __init__(self, library):
        self.library, self.space = library, library.space

    def define(self, key):
        """Makes the function of a definition, and of those that it names when they are called first."""
        library = self.library
        of = library.find(key)
        params, result, rest = library.form(key)
        names = [name for name, _ in params]
        self.env = {name: arrows(type_of) for name, type_of in params}
        self.label = of.name
        lines = [f"def {safe_key(key)}({', '.join(names)}):"]
        if of.kind == "data":
            raise Fault(f"{key} is a type")
        if of.kind == "record":
            lines += self.record_body(rest)
        else:
            lines += self.clause_body(key, params, rest)
        self.make("\n".join(lines))
        if of.name in KEPT:
            name = safe_key(key)
            self.space[name] = library.keeping(name, self.space[name])

    def make(self, text):
        """Makes a Python function of its text."""
        exec(compile(text, "<antt>", "exec"), self.space)  # pylint: disable=exec-used

    def stub(self, key):
        """The name of a definition's function; the function is made when it is called first."""
        name = safe_key(key)
        if name not in self.space:
            def first(*args):
                if self.space[name] is first:
                    Compiler(self.library).define(key)
                return self.space[name](*args)

            first.__name__ = name
            self.space[name] = first
        return name

    def clause_body(self, key, params, clauses):
        names = [name for name, _ in params]
        count = len(clauses[0][0])
        frame = len(names) - arrows_of_signature(self.library.find(key), self.library, key)
        for patterns, _ in clauses:
            for pattern, name in zip(patterns, names[frame:]):
                if pattern[0] == "var":
                    self.env[pattern[1]] = self.env[name]
        loops = any(self.tail_calls(body, key) for _, body in clauses) and not any(
            binds_functions(body) or self.makes_partial(body) for _, body in clauses
        )
        lines, pad = [], "    "
        if loops:
            lines.append("    while True:")
            pad = "        "
        self.loop = (key, names) if loops else None
        whole = False
        for patterns, body in clauses:
            tests, binds = [], []
            for pattern, name in zip(patterns, names[frame:]):
                self.match(pattern, name, tests, binds)
            extra = names[frame + count :]
            if extra:
                body = apply(body, tuple(("v", name) for name in extra))
            inner = pad
            if tests:
                lines.append(f"{pad}if {' and '.join(tests)}:")
                inner = pad + "    "
            for var, value in binds:
                lines.append(f"{inner}{var} = {value}")
            self.tail(body, inner, lines)
            if not tests:
                whole = True
                break
        if not whole:
            lines.append(f"{pad}_stuck({self.label!r}, {', '.join(names)})")
        return lines

    def match(self, pattern, value, tests, binds):
        kind = pattern[0]
        if kind == "var":
            binds.append((pattern[1], value))
        elif kind == "n":
            tests.append(f"{value} == {pattern[1]}")
        elif kind == "bool":
            tests.append(value if pattern[1] else f"not {value}")
        elif kind == "suc":
            tests.append(f"{value} > 0")
            self.match(pattern[1], f"({value} - 1)", tests, binds)
        elif kind == "nil":
            tests.append(f"not {value}")
        elif kind == "cons":
            tests.append(f"{value}")
            self.match(pattern[1], f"{value}[0]", tests, binds)
            self.match(pattern[2], f"{value}[1:]", tests, binds)
        elif kind == "tup":
            for i, one in enumerate(pattern[1]):
                self.match(one, f"{value}[{i}]", tests, binds)
        elif kind == "con":
            tests.append(f"{value}[0] == {pattern[1]!r}")
            for i, one in enumerate(pattern[2], 1):
                self.match(one, f"{value}[{i}]", tests, binds)

    def tail_calls(self, node, key):
        if node[0] == "app" and node[1] == ("g", key):
            return len(node[2]) == self.library.arity(key)
        if node[0] == "app" and node[1] == ("b", "cond") and len(node[2]) == 3:
            return any(self.tail_calls(one, key) for one in node[2][1:])
        if node[0] == "op" and node[1] in ("||", "&&"):
            return self.tail_calls(node[3], key)
        return node[0] == "if" and any(self.tail_calls(one, key) for one in node[2:])

    def makes_partial(self, node):
        """Whether some call in the term has too few arguments, so that it makes a function."""
        if node[0] == "app":
            head, count = node[1], len(node[2])
            if head[0] == "g" and count < self.library.arity(head[1]):
                return True
            if head[0] == "c" and count < head[2]:
                return True
            if head[0] == "v" and count < (self.env.get(head[1]) or 0):
                return True
        return any(self.makes_partial(one) for one in parts(node))

    def tail(self, node, pad, lines):
        """The statement that answers with the term."""
        if node[0] == "app" and node[1] == ("b", "cond") and len(node[2]) == 3:
            node = ("if",) + node[2]
        if node[0] == "if":
            lines.append(f"{pad}if {self.term(node[1])}:")
            self.tail(node[2], pad + "    ", lines)
            self.tail(node[3], pad, lines)
            return
        if node[0] == "let":
            lines.append(f"{pad}{node[1]} = {self.term(node[2])}")
            if node[2][0] == "lam":
                self.env[node[1]] = len(node[2][1])
            self.tail(node[3], pad, lines)
            return
        if self.loop and self.tail_calls(node, self.loop[0]):
            if node[0] == "op":
                test = self.term(node[2])
                lines.append(f"{pad}if {test}:" if node[1] == "||" else f"{pad}if not {test}:")
                lines.append(f"{pad}    return {node[1] == '||'}")
                self.tail(node[3], pad, lines)
                return
            lines.append(f"{pad}{', '.join(self.loop[1])} = {', '.join(self.term(arg) for arg in node[2])}")
            lines.append(f"{pad}continue")
            return
        lines.append(f"{pad}return {self.term(node)}")

    # -- terms

    def partial(self, call, given, arity):
        """A function of the arguments that are still to come."""
        names = [f"p·{next(COUNTER)}" for _ in range(arity - len(given))]
        return f"(lambda {', '.join(names)}: {call(given + names)})"

    def term(self, node):
        """A term as Python text."""
        kind = node[0]
        if kind == "v":
            return node[1]
        if kind == "n":
            return str(node[1])
        if kind == "s":
            return repr(node[1])
        if kind in ("t", "type"):
            return "None"
        if kind == "unit":
            return "True"
        if kind == "bot":
            return "False"
        if kind in ("g", "c", "b"):
            return self.call(node, ())
        if kind == "app":
            return self.call(node[1], node[2])
        if kind == "lam":
            return f"(lambda {', '.join(node[1])}: {self.term(node[2])})"
        if kind == "let":
            return f"(lambda {node[1]}: {self.term(node[3])})({self.term(node[2])})"
        if kind == "if":
            return f"({self.term(node[2])} if {self.term(node[1])} else {self.term(node[3])})"
        if kind == "tup":
            return f"({', '.join(self.term(one) for one in node[1])},)"
        if kind == "rec":
            fields = sorted(node[1])
            of = record_type(tuple(name for name, _ in fields))
            name = "R·" + "·".join(of._fields)
            self.space[name] = of
            return f"{name}({', '.join(self.term(value) for _, value in fields)})"
        if kind == "proj":
            if node[2] in ("now", "old", "new", "entry", "items"):
                return self.term(node[1])
            if node[2] == "ghost_name":
                return "0"  # who lent it: the values here have one lender
            if node[2].isdigit():
                return f"{self.term(node[1])}[{node[2]}]"
            return f"{self.term(node[1])}.{safe(node[2])}"
        if kind == "op":
            return INFIX[node[1]].format(self.term(node[2]), self.term(node[3]))
        if kind == "pi":
            return self.for_all(node)
        if kind == "sig":
            return self.there_is(node)
        raise Fault(f"no such term: {kind}")

    def call(self, head, args):
        kind = head[0]
        if kind == "t":
            return "None"
        if kind == "lam":
            return f"{self.term(head)}({', '.join(self.term(arg) for arg in args)})"
        given = [self.term(arg) for arg in args]
        if kind == "v":
            arity = self.env.get(head[1]) or len(given)
            if len(given) < arity and given:
                return self.partial(lambda all_given: f"{head[1]}({', '.join(all_given)})", given, arity)
            return f"{head[1]}({', '.join(given)})" if given else head[1]
        if kind == "g":
            arity = self.library.arity(head[1])
            of = self.library.find(head[1])
            if of.kind == "data" or of.kind == "record" and not self.library.is_proposition(head):
                return "None"
            name = self.stub(head[1])
            call = lambda all_given: f"{name}({', '.join(all_given)})"
        elif kind == "c":
            arity = head[2]
            call = lambda all_given: f"({', '.join([repr(head[1])] + all_given)},)"
        elif kind == "b":
            if head[1] in OPERATOR_NAMES:
                arity = 2
            elif head[1] in BUILTINS:
                arity = BUILTINS[head[1]][0]
            else:
                raise Fault(f"{head[1]} has no meaning here")
            if arity == 0:
                value = BUILTINS[head[1]][1]
                return repr(value)
            name = "b·" + safe(head[1])
            if head[1] in INLINE:
                call = lambda all_given: INLINE[head[1]].format(*all_given)
            else:
                call = lambda all_given: f"{name}({', '.join(all_given)})"
            if not given:
                return name
        else:
            return f"{self.term(head)}({', '.join(given)})" if given else self.term(head)
        if len(given) < arity:
            if not given and kind == "g":
                return name
            return self.partial(call, given, arity)
        if len(given) > arity:
            return f"{call(given[:arity])}({', '.join(given[arity:])})"
        return call(given)

    # -- propositions that speak of values

    def for_all(self, node):
        """Whether a proposition holds at all values: no values are found at which its premises hold and its conclusion not."""
        items, goal, speaks = [], node, False
        while goal[0] == "pi":
            name, of, rest = goal[1], goal[2], goal[3]
            if of == ("type",):
                goal = rest
                continue
            if self.library.is_proposition(of):
                items.append(("premise", name, of))
                speaks = speaks or name is not None
            else:
                items.append(("value", name or fresh("a"), of))
                speaks = True
            goal = rest
        if not speaks:
            tests = [self.term(of) for _, _, of in items]
            return f"(not ({' and '.join(tests)}) or {self.term(goal)})"
        return f"({self.search(items, goal)} is None)"

    def there_is(self, node):
        """Whether there are values of which a proposition holds, as Python text."""
        items = []
        while node[0] == "sig":
            kind = "premise" if self.library.is_proposition(node[2]) else "value"
            items.append((kind, node[1], node[2]))
            node = node[3]
        items.append(("premise", None, node))
        return f"({self.search(items, None)} is not None)"

    def record_body(self, items):
        found = [
            ("premise", var, type_of) if self.library.is_proposition(type_of) else ("value", var, type_of)
            for _, var, type_of in items
        ]
        if not any(kind == "value" for kind, _, _ in found):
            lines = []
            label = self.label
            for name, _, type_of in items:
                self.label = f"{label}.{name}"
                lines.append(f"    if not {self.term(type_of)}:")
                lines.append("        return False")
            self.label = label
            return lines + ["    return True"]
        return [f"    return {self.search(found, None)} is not None"]

    def search(self, items, goal):
        """A call of a new function that finds values as told: None where there are none."""
        name = f"s·{next(self.library.helpers)}"
        plan = Plan(self, self.label)
        given = {}
        for kind, var, of in items:
            of = substituted(of, given)
            if kind == "value":
                plan.add_value(var, of)
            else:
                value = plan.expand(of)
                if var is not None and value is not None:
                    given[var] = value
        goal = substituted(goal, given) if goal is not None else None
        wanted = {}
        for prop in plan.pending + [of for of, _ in plan.unknown.values()] + ([goal] if goal else []):
            for var in free(prop):
                if var not in plan.unknown:
                    wanted[var] = True
        wanted = list(wanted)
        shown = [var for var in plan.unknown]
        lines = [f"def {name}({', '.join(wanted)}):"]
        if goal is not None and goal != ("bot",):
            plan.pending.append(("no", goal))
        values = ", ".join(f"{plain(var)!r}: {var}" for var in shown)
        end = [f"_note({self.label!r}, {{{values}}})", "return True"] if goal is not None else ["return True"]
        plan.write(lines, "    ", end)
        lines.append("    return None")
        self.make("\n".join(lines))
        return f"{name}({', '.join(wanted)})"


class Plan:
    """A search for values: what is unknown, and what must hold of it."""

    def __init__(self, compiler, label):
        self.compiler, self.library, self.label = compiler, compiler.library, label
        self.unknown, self.pending = {}, []

    def add_value(self, var, of):
        self.unknown[var] = (of, f"{self.label}.{plain(var)}")
        self.compiler.env[var] = arrows(of)

    def expand(self, prop):
        """Adds a proposition, taken apart; where it is a record, answers with the record of its parts."""
        library = self.library
        if prop[0] == "sig":
            value = prop
            while value[0] == "sig":
                var = fresh(value[1] or "a")
                rest = substituted(value[3], {value[1]: ("v", var)}) if value[1] else value[3]
                if library.is_proposition(value[2]):
                    self.expand(value[2])
                else:
                    self.add_value(var, value[2])
                value = rest
            self.expand(value)
            return None
        if prop[0] == "op" and prop[1] == "×":
            self.expand(prop[2])
            self.expand(prop[3])
            return None
        if prop == ("unit",):
            return None
        head, args = (prop[1], prop[2]) if prop[0] == "app" else (prop, ())
        if head[0] == "g" and len(args) == library.arity(head[1]):
            of = library.find(head[1])
            params, _, rest = library.form(head[1])
            given = dict(zip((name for name, _ in params), args))
            if of.kind == "record":
                label, self.label = self.label, of.name
                found = []
                for name, var, type_of in rest:
                    type_of = substituted(type_of, given)
                    if library.is_proposition(type_of):
                        value = self.expand(type_of)
                    else:
                        new = fresh(var)
                        self.add_value(new, type_of)
                        value = ("v", new)
                    if value is not None:
                        given[var] = value
                        found.append((name, value))
                self.label = label
                return ("rec", tuple(found))
            if of.kind == "term" and len(rest) == 1 and all(one[0] == "var" for one in rest[0][0]):
                patterns, body = rest[0]
                frame = len(params) - arrows_of_signature(of, library, head[1])
                for pattern, (name, _) in zip(patterns, params[frame:]):
                    given[pattern[1]] = given[name]
                body = substituted(body, given)
                extra = args[frame + len(patterns) :]
                return self.expand(apply(body, tuple(extra)) if extra else body)
        self.pending.append(prop)
        return None

    def open_in(self, prop):
        return [var for var in free(prop if prop[0] != "no" else prop[1]) if var in self.unknown]

    @staticmethod
    def is_cheap(prop):
        return prop[0] == "op" and prop[1] in ("≡", "≢", "<", "≤")

    def opens(self, pattern, unknown):
        """Whether a value of the pattern gives what is unknown in it."""
        kind = pattern[0]
        if kind == "v":
            return True
        if not any(var in unknown for var in free(pattern)):
            return True
        if kind == "app" and pattern[1][0] == "c" and len(pattern[2]) == pattern[1][2]:
            return all(self.opens(arg, unknown) for arg in pattern[2])
        if kind == "app" and pattern[1] == ("b", "suc"):
            return self.opens(pattern[2][0], unknown)
        if kind == "rec":
            return all(self.opens(value, unknown) for _, value in pattern[1])
        if kind == "tup":
            return all(self.opens(value, unknown) for value in pattern[1])
        if kind == "op" and pattern[1] == "∷":
            return self.opens(pattern[2], unknown) and self.opens(pattern[3], unknown)
        if kind == "op" and pattern[1] == "++":
            known = [not any(var in unknown for var in free(side)) for side in pattern[2:]]
            return any(known) and self.opens(pattern[3 if known[0] else 2], unknown)
        return False

    def sides(self, prop, unknown):
        """The known side of an equation and the pattern that it gives, if it gives something."""
        if prop[0] != "op" or prop[1] != "≡":
            return None
        for value, pattern in ((prop[2], prop[3]), (prop[3], prop[2])):
            if not any(var in unknown for var in free(value)) and any(var in unknown for var in free(pattern)):
                if self.opens(pattern, unknown):
                    return value, pattern
        return None

    def gained(self, unknown, pending):
        """What equations give, step by step, with these unknown."""
        unknown, gained = dict(unknown), 0
        going = True
        while going:
            going = False
            for prop in pending:
                found = self.sides(prop, unknown)
                if found:
                    for var in free(found[1]):
                        if var in unknown:
                            del unknown[var]
                            gained += 1
                            going = True
        return gained, unknown

    def branches(self, prop):
        """The two plans of a choice."""
        found = []
        for side in prop[2:4]:
            plan = Plan(self.compiler, self.label)
            plan.expand(side)
            found.append(plan)
        return found

    def write(self, lines, pad, end):
        """Writes the loops and tests, and `end` inside of them all."""
        compiler = self.compiler
        while True:
            if self.test(lines, pad, cheap=True):
                pad += "    "
                continue
            opened = False
            for prop in self.pending:
                found = self.sides(prop, self.unknown)
                if found:
                    self.pending.remove(prop)
                    name = f"t·{next(COUNTER)}"
                    lines.append(f"{pad}{name} = {compiler.term(found[0])}")
                    pad = self.destructure(found[1], name, lines, pad)
                    opened = True
                    break
            if opened:
                continue
            if self.test(lines, pad, cheap=False):
                pad += "    "
                continue
            if not self.unknown:
                break
            pad = self.loop(lines, pad)
        if self.pending:
            raise Fault("something is left to be tested")
        lines += [pad + line for line in end]

    def test(self, lines, pad, cheap):
        for prop in self.pending:
            if not self.open_in(prop) and self.is_cheap(prop) == cheap:
                self.pending.remove(prop)
                if prop[0] == "no":
                    lines.append(f"{pad}if not {self.compiler.term(prop[1])}:")
                else:
                    lines.append(f"{pad}if {self.compiler.term(prop)}:")
                return True
        return False

    def destructure(self, pattern, value, lines, pad):
        kind = pattern[0]
        if kind == "v" and pattern[1] in self.unknown:
            lines.append(f"{pad}{pattern[1]} = {value}")
            del self.unknown[pattern[1]]
            return pad
        if not any(var in self.unknown for var in free(pattern)):
            lines.append(f"{pad}if {self.compiler.term(pattern)} == {value}:")
            return pad + "    "
        if kind == "app" and pattern[1][0] == "c":
            lines.append(f"{pad}if {value}[0] == {pattern[1][1]!r}:")
            pad += "    "
            for i, arg in enumerate(pattern[2], 1):
                pad = self.destructure(arg, f"{value}[{i}]", lines, pad)
            return pad
        if kind == "app":
            lines.append(f"{pad}if {value} > 0:")
            return self.destructure(pattern[2][0], f"({value} - 1)", lines, pad + "    ")
        if kind == "rec":
            for field, one in pattern[1]:
                pad = self.destructure(one, f"{value}.{safe(field)}", lines, pad)
            return pad
        if kind == "tup":
            for i, one in enumerate(pattern[1]):
                pad = self.destructure(one, f"{value}[{i}]", lines, pad)
            return pad
        if pattern[1] == "++":
            return self.rest_of(pattern, value, lines, pad)
        lines.append(f"{pad}if {value}:")
        pad = self.destructure(pattern[2], f"{value}[0]", lines, pad + "    ")
        return self.destructure(pattern[3], f"{value}[1:]", lines, pad)

    def rest_of(self, pattern, value, lines, pad):
        """What one of two lists is that together are the value, where the other is known."""
        front = not any(var in self.unknown for var in free(pattern[2]))
        known, cut = f"t·{next(COUNTER)}", f"t·{next(COUNTER)}"
        lines.append(f"{pad}{known} = {self.compiler.term(pattern[2 if front else 3])}")
        lines.append(f"{pad}{cut} = _len({known})" if front else f"{pad}{cut} = _len({value}) - _len({known})")
        sides = f"{value}[:{cut}]", f"{value}[{cut}:]"
        lines.append(f"{pad}if {cut} >= 0 and {sides[0 if front else 1]} == {known}:")
        return self.destructure(pattern[3 if front else 2], sides[1 if front else 0], lines, pad + "    ")

    def loop(self, lines, pad):
        """Writes one loop: over the values of a variable, or over the ways in which a choice can hold."""
        for prop in self.pending:
            if prop[0] == "op" and prop[1] == "⊎":
                mine = self.open_in(prop)
                plans = self.branches(prop)
                if all(
                    not self.gained({**{var: self.unknown[var] for var in mine}, **plan.unknown}, plan.pending)[1]
                    for plan in plans
                ):
                    return self.choice(prop, mine, plans, lines, pad)
        best, most = None, None
        for place, var in enumerate(self.unknown):
            left = {one: of for one, of in self.unknown.items() if one != var}
            gained, after = self.gained(left, self.pending)
            ready = sum(1 for prop in self.pending if not any(one in after for one in free(bare(prop))))
            of = self.unknown[var][0]
            # what the caller fixes comes first: functions, and books
            fixed = of[0] == "pi" or of[0] == "app" and of[1] == ("t", "List", None) and of[2][0][0] == "app"
            worth = (fixed, gained, ready, -place)
            if any(one in self.unknown for one in free(self.unknown[var][0])):
                continue
            if most is None or worth > most:
                best, most = var, worth
        of, qualified = self.unknown.pop(best)
        key = self.library_key(of)
        lines.append(f"{pad}for {best} in _dom({qualified!r}, {plain(best)!r}, {key!r}):")
        return pad + "    "

    def library_key(self, of):
        key = type_text(of)
        self.library.types[key] = of
        return key

    def choice(self, prop, mine, plans, lines, pad):
        self.pending.remove(prop)
        name = f"c·{next(self.library.helpers)}"
        wanted = [var for var in free(prop) if var not in self.unknown]
        text = [f"def {name}({', '.join(wanted)}):"]
        for plan in plans:
            for var in mine:
                plan.unknown[var] = self.unknown[var]
            plan.write(text, "    ", [f"yield ({', '.join(mine)},)"])
        self.compiler.make("\n".join(text))
        for var in mine:
            del self.unknown[var]
        lines.append(f"{pad}for ({', '.join(mine)},) in {name}({', '.join(wanted)}):")
        return pad + "    "


def bare(prop):
    """A proposition without its denial."""
    return prop[1] if prop[0] == "no" else prop


def arrows_of_signature(of, library, key):
    """How many arguments the type of a definition has, without those of its blocks."""
    return len(library.form(key)[0]) - sum(len(block.params) for block in of.blocks)


def type_text(of):
    """A type as text; a type that is a parameter is K."""
    if of[0] == "t":
        return of[1] if of[2] or of[1] in BUILTIN_TYPES else "K"
    if of[0] == "v":
        return "K"
    if of[0] == "g":
        return of[1].split(".")[-1]
    if of[0] == "app":
        return " ".join([type_text(of[1])] + [bracketed(type_text(arg)) for arg in of[2]])
    if of[0] == "op":
        return f"{bracketed(type_text(of[2]))} {of[1]} {bracketed(type_text(of[3]))}"
    if of[0] == "pi":
        return f"{bracketed(type_text(of[2]))} → {type_text(of[3])}"
    if of[0] == "unit":
        return "Unit"
    return of[0]


def bracketed(text):
    """A text in brackets where it has blanks."""
    return f"({text})" if " " in text else text


class Universe:
    """The values that variables range over: by their names (or `Definition.name`), and by their types."""

    def __init__(self, names=None, types=None, parent=None):
        self.names, self.types, self.parent, self.found = names or {}, types or {}, parent, {}

    def values(self, library, qualified, name, key):
        """The values that a variable ranges over."""
        mark = qualified, key
        if mark not in self.found:
            for one in (qualified, name):
                if one in self.names:
                    self.found[mark] = self.names[one]
                    break
            else:
                self.found[mark] = self.of_type(library, library.types[key])
        return self.found[mark]

    def of_type(self, library, of):
        """The values of a type: as given, or made of those of its parts."""
        key = type_text(of)
        if key in self.types:
            return self.types[key]
        head, args = (of[1], of[2]) if of[0] == "app" else (of, ())
        each = lambda one: self.of_type(library, one)
        if key == "Bool":
            return (False, True)
        if of == ("unit",):
            return (("tt",),)
        if head[0] == "t" and head[1] == "Option":
            return (("None",),) + tuple(("Some", one) for one in each(args[0]))
        if head[0] == "t" and head[1] == "Result":
            return tuple(("Ok", one) for one in each(args[0])) + tuple(("Err", one) for one in each(args[1]))
        if of[0] == "op" and of[1] == "×":
            return tuple(itertools.product(each(of[2]), each(of[3])))
        if head[0] == "t" and (head[2], head[1]) in library.declared:
            declared = library.declared[head[2], head[1]]
            if declared.cases and not any(declared.cases.values()):
                return tuple((case,) for case in declared.cases)
        if head[0] == "g":
            form = library.form(head[1])
            if library.find(head[1]).kind == "record":
                fields = form[2]
                return tuple(
                    record(**dict(zip((name for name, _, _ in fields), some)))
                    for some in itertools.product(*(each(type_of) for _, _, type_of in fields))
                )
        raise Fault(f"no values are given for {key}")


# ---- values as text


def shown(value):
    """A value as a reader would write it: entries as w1(5), c1."""
    if isinstance(value, bool):
        return "true" if value else "false"
    if isinstance(value, int):
        return str(value)
    if value is None:
        return "-"
    if isinstance(value, Late):
        value = value.whole()
    if callable(value):
        return getattr(value, "shown", getattr(value, "__name__", "a function"))
    labels = getattr(value, "labels", None)
    if labels == ("act", "cue"):
        act, cue = value
        if act[0] in ("Read", "Write"):
            item = act[1]
            item = item.number if hasattr(item, "number") else item
            return f"{act[0][0].lower()}{cue}({shown(item)})"
        return f"{act[0][0].lower()}{cue}"
    if labels:
        return "{" + ", ".join(f"{label} {shown(one)}" for label, one in zip(labels, value)) + "}"
    if isinstance(value, tuple):
        if value and isinstance(value[0], str):
            return " ".join([value[0]] + [bracketed(shown(one)) for one in value[1:]])
        if len(value) > 7 and all(isinstance(one, int) and 10 <= one < 127 for one in value):
            return repr(bytes(value).decode())
        return "[" + " ".join(shown(one) for one in value) + "]"
    return str(value)


def shown_values(values):
    """Values by their names, as text."""
    return ", ".join(f"{name} = {shown(value)}" for name, value in values.items())
