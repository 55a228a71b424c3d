"""Reads the contracts of the Rust sources: what each function promises, and the ghost members of types.

    sources(top)                  the files of the library crates, each with its functions that have contracts, the ghost
                                  members of its types, and what its traits say of their types by ghost members
    clause(library, text, ..)     a clause as a Python function of its variables
"""

import glob
import os
import re

import antt

OPENS = re.compile(
    r"""ghost\s+use\s+(?P<use>[^;]*);"""
    r"""|ghost\s+(?P<ghost>\w+)\s*(?P<mark>[=:])\s*\{"""
    r"""|(?P<public>pub\s+)?(?:pub\([^)]*\)\s+)?(?:extern\s+"C"\s+)?\bfn\s+(?P<fn>\w+)"""
    r"""|\bpub\s+use\s+(?P<export>[^;]*);"""
    r"""|\bimpl(?:<[^{;]*?>)?\s+(?P<impl>[^{;]+?)\s*\{"""
    r"""|(?P<pubtype>pub\s+)?\b(?P<kind>trait|struct|enum)\s+(?P<type>\w+)[^{;(]*(?P<brace>[{;(])"""
    r"""|(?P<open>\{)|(?P<close>\})""",
)


class Function:
    """A function with a contract. A law is a function without a body, whose contract speaks of definitions alone."""

    def __init__(self, crate, path, name, public, uses, params):
        self.crate, self.path, self.name, self.public, self.uses, self.params = crate, path, name, public, uses, params
        self.clauses, self.law = [], False


class Ghost:
    """A ghost member: of which type and trait, and what it says."""

    def __init__(self, crate, path, owner, trait, name, text, uses, public):
        self.crate, self.path, self.owner, self.trait, self.name = crate, path, owner, trait, name
        self.text, self.uses, self.public = text, uses, public


def uncommented(text):
    """The text without comments; what stands in quotes stays."""
    return re.sub(r'("(?:[^"\\]|\\.)*")|//[^\n]*', lambda match: match.group(1) or "", text)


def closing(text, at):
    """Where the bracket closes that opens before `at`."""
    depth = 1
    while depth:
        if text[at] == '"':
            at = re.compile(r'"(?:[^"\\]|\\.)*"').match(text, at).end()
            continue
        depth += (text[at] == "{") - (text[at] == "}")
        at += 1
    return at


class Source:
    """What one file of a crate says."""

    def __init__(self, path, crate):
        self.path, self.crate = path, crate
        self.functions, self.ghosts, self.laws, self.exports, self.types = [], [], [], set(), {}
        with open(path, encoding="utf-8") as file:
            self.text = uncommented(file.read())
        self.scan()

    def scan(self):
        """Reads the members of the file from its first line to its last."""
        text, at, around, uses = self.text, 0, [], [[]]
        while True:
            match = OPENS.search(text, at)
            if match is None:
                return
            at = match.end()
            if match["use"]:
                uses[-1] += antt.uses_of(antt.tokens_of(match["use"]))
            elif match["export"]:
                self.exports |= set(re.findall(r"\w+", match["export"].split("::", 1)[-1]))
            elif match["ghost"]:
                end = closing(text, at)
                body = text[at : end - 1].strip()
                owner = next((one for one in reversed(around) if one), ("", "", ""))
                all_uses = [one for some in uses for one in some]
                if owner[0] == "trait":
                    self.laws.append(Ghost(self.crate, self.path, owner[1], owner[1], match["ghost"], body, all_uses, owner[2]))
                else:
                    trait = owner[2] if owner[0] == "impl" else ""
                    self.ghosts.append(Ghost(self.crate, self.path, owner[1], trait, match["ghost"], body, all_uses, False))
                at = end
            elif match["fn"]:
                at = self.function(match, at, around, uses)
            elif match["impl"]:
                header = match["impl"].split(" where ")[0]
                trait, _, target = header.rpartition(" for ")
                around.append(("impl", re.match(r"[&\s']*(\w+)", target.strip()).group(1), trait.split("<")[0].strip()))
                uses.append([])
            elif match["type"]:
                self.types[match["type"]] = bool(match["pubtype"])
                if match["brace"] == "{":
                    around.append((match["kind"], match["type"], bool(match["pubtype"])))
                    uses.append([])
            elif match["open"]:
                around.append(None)
                uses.append([])
            else:
                around.pop()
                uses.pop()

    def function(self, match, at, around, uses):
        """Reads a function from the end of its name on, and answers where its body ends."""
        text, start = self.text, at
        while True:
            stop = re.compile(r"\b(?:ensures|requires)\b|[{;\[]").search(text, at)
            if stop.group() != "[":
                break
            at = text.index("]", stop.end()) + 1
        at = stop.start()
        head = text[start:at]
        owner = next((one for one in reversed(around) if one), None)
        name = f"{owner[1]}::{match['fn']}" if owner else match["fn"]
        of = Function(self.crate, self.path, name, bool(match["public"]), [one for some in uses for one in some], head)
        if owner and owner[0] == "trait":
            of.public = owner[2]
        while True:
            clause = re.compile(r"\s*(ensures|requires)\s*(\w+)?\s*\{").match(text, at)
            if clause is None:
                break
            end = closing(text, clause.end())
            of.clauses.append((clause[1], clause[2], text[clause.end() : end - 1].strip()))
            at = end
        body = re.compile(r"\s*([{;])").match(text, at)
        at = body.end()
        if body[1] == "{":
            end = closing(text, at)
            of.law = text[at : end - 1].strip() == "" and bool(of.clauses)
            at = end
        if of.clauses:
            self.functions.append(of)
        return at


def sources(top):
    """The files of the library crates, with what each crate hands out."""
    found = []
    for root in sorted(glob.glob(os.path.join(top, "crates", "*", "src", "lib.rt"))):
        crate = root.split(os.sep)[-3]
        paths = glob.glob(os.path.join(os.path.dirname(root), "**", "*.rt"), recursive=True)
        files = [Source(path, crate) for path in sorted(paths)]
        main = next(one for one in files if one.path == root)
        handed = main.exports | {name for name, public in main.types.items() if public}
        for source in files:
            for of in source.functions:
                owner, _, name = of.name.rpartition("::")
                if owner:
                    of.public = of.public and owner in handed
                else:
                    of.public = of.public and (source is main or name in handed)
            found.append(source)
            for ghost in source.ghosts:
                ghost.public = ghost.owner in handed
    # what a type is turned into, and how it is printed, is public wherever the type is
    public = {name for source in found for name, is_public in source.types.items() if is_public}
    for source in found:
        for ghost in source.ghosts:
            ghost.public = ghost.public or ghost.trait in ("From", "fmt::Display") and ghost.owner in public
    return found


def spelt(text):
    """A clause with variables in the place of what a kind or a graph gives, and of what was lent, before and after."""
    text = re.sub(r"\b(?:Self|[A-Z])\.Item\.(\w+)", r"\1", text)
    text = re.sub(r"\b[A-Z]\.(numbers|edges)\b", r"\1", text)
    return re.sub(r"\b(\w+)\.(old|new)\b", r"\1_\2", text)


def clause_term(library, text, uses, variables=None):
    """A clause as a term of the library; `x.old` and `x.new` are the variables x_old and x_new."""
    text = spelt(text)
    if variables is None:
        variables = set(re.findall(r"[^\W\d]\w*", text)) - {here for _, _, here in uses}
    parser = antt.Parser(antt.tokens_of("\n".join(antt.without_comment(line) for line in text.split("\n"))))
    node = parser.expression()
    parser.end()
    refusals = library.declared["refusals", "Refusal"].cases
    scope = {"Refusal": ("alias", {case: ("c", case, len(held)) for case, held in refusals.items()})}
    for path, name, here in uses:
        if path.startswith("Rattle.") and ".proofs" in path:
            continue
        found = library.used(path, name)
        if found is not None:
            scope[here] = found
    return library.resolve(node, scope, {name: name for name in variables}, [])


def clause(library, text, uses, arities):
    """A clause as a Python function of variables by their names, given how many arguments each takes."""
    node = clause_term(library, text, uses, arities)
    compiler = antt.Compiler(library)
    compiler.env, compiler.label, compiler.loop = dict(arities), "contract", None
    term = compiler.term(node)
    name = f"k·{next(library.helpers)}"
    compiler.make(f"def {name}({', '.join(arities)}):\n    return {term}")
    return library.space[name], node
