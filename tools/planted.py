#!/usr/bin/env python3
"""Plants bugs in the code, one at a time, and tells of each whether the prover refuses it and for what.

tools/planted.py [CRATE..]             tries the edits of tools/planted/CRATE/ on a copy of the tree
tools/planted.py --table [CRATE..]     prints the table of what the last such run found, by function

An edit has the form of a must-fail edit ('file:', then pairs of 'old:' and 'new:'), and before that '# in:', the function
in which the bug stands. The edits of crates/CRATE/must-fail/ are tried too: those that have an '# in:' line.
What a run finds is kept in tools/planted/found.txt, a line to an edit: crate, function, edit, how it ended and the first
error. It ends with 1 where an edit is not refused for a fact: where it is still proved, could not be tried (BAD), was refused
for a lost name alone (names), or with a first error that tells of none (unclear).
"""

import os
import re
import shutil
import subprocess
import sys
import tempfile

TOP = os.path.dirname(os.path.dirname(os.path.abspath(__file__)))
PLANTED = os.path.join(TOP, "tools", "planted")
FOUND = os.path.join(PLANTED, "found.txt")


# First errors that tell of no fact: none at all, what only follows from another error, or a name that a written proof lost.
UNCLEAR = re.compile(r"^\s*$|declarations? that depends? on|`: record `")


def function_of(edit):
    """The function that an edit names, or nothing."""
    with open(edit, encoding="utf-8") as lines:
        for line in lines:
            if line.startswith("# in: "):
                return line[len("# in: ") :].strip()
    return None


def edits_of(crate):
    """The edits of a crate with the functions in which they stand, by name."""
    edits = {}
    for folder in (os.path.join(TOP, "crates", crate, "must-fail"), os.path.join(PLANTED, crate)):
        for name in sorted(os.listdir(folder)) if os.path.isdir(folder) else []:
            edit = os.path.join(folder, name)
            function = name.endswith(".edit") and function_of(edit)
            if function:
                if name in edits:
                    sys.exit(f"{crate}: two edits have the name {name}")
                edits[name] = edit, function
    return edits


def copied():
    """A copy of the tree in a new folder, with what rt check kept of it."""
    room = os.path.join(tempfile.mkdtemp(prefix="planted-"), "tree")
    shutil.copytree(TOP, room, ignore=shutil.ignore_patterns(".git", "target"))
    return room


def ended(text):
    """How a try ended, by what rt says of it, and the first error."""
    if ": refused, as it must be" not in text:
        return ("PROVED" if "NOT REFUSED" in text else "BAD"), text
    if "only because a proof file" in text:
        return "names", text.split("): ", 1)[-1]
    error = re.sub(r"^( \([^)]*\))?:? ?", "", text.split("as it must be", 1)[1])
    return ("unclear" if UNCLEAR.search(error) else "refused"), error


def tried(crates):
    """What rt says of each edit of the crates."""
    room = copied()
    try:
        for crate in crates:
            folder = os.path.join(room, "crates", crate, "must-fail")
            shutil.rmtree(folder, ignore_errors=True)
            os.makedirs(folder)
            for name, (edit, _) in edits_of(crate).items():
                shutil.copyfile(edit, os.path.join(folder, name))
        for crate in crates:
            subprocess.run(["rt", "check"], cwd=os.path.join(room, "crates", crate), stdout=subprocess.DEVNULL)
        ran = subprocess.run(
            ["rt", "must-fail", *crates], cwd=room, stdout=subprocess.PIPE, stderr=subprocess.STDOUT, encoding="utf-8",
        ).stdout
    finally:
        shutil.rmtree(os.path.dirname(room), ignore_errors=True)
    said = {}
    for crate, name, text in re.findall(r"^(?:rt: )?must-fail (\w+)/(\S+?\.edit)(:.*)$", ran, re.MULTILINE):
        said[crate, name] = text
    return said


def read_found():
    if not os.path.isfile(FOUND):
        return []
    with open(FOUND, encoding="utf-8") as lines:
        return [tuple(line.rstrip("\n").split("\t")) for line in lines]


def write_found(crates, rows):
    kept = [row for row in read_found() if row[0] not in crates]
    with open(FOUND, "w", encoding="utf-8") as to:
        for row in sorted(kept + rows):
            to.write("\t".join(row) + "\n")


def all_crates():
    with open(os.path.join(TOP, "crates.txt"), encoding="utf-8") as lines:
        names = [line.split(":")[0].split()[0] for line in lines if ":" in line and not line.startswith("#")]
    return [name for name in names if edits_of(name)]


def kind_of(error):
    """How strongly a refusal speaks: the prover has values at which the goal fails, or finds no proof, or a written proof fails."""
    if error.startswith(("./proofs/", "proofs/")):
        return "written"
    return "values" if "allow values at which" in error else "search"


def goal_of(error):
    """The goal that the first error says is not proved."""
    named = [name for name in re.findall(r"`([^`]*)`", error) if name != "search"]
    return f"`{named[0]}`" if named else error[:60]


def table(crates):
    """The table by function: bugs planted, how they were refused, and the goals that did not prove."""
    print("| Crate | Function | Bugs | Refused | with values | no proof found | written proof fails | Goals not proved |")
    print("|---|---|---|---|---|---|---|---|")
    rows = [row for row in read_found() if row[0] in crates]
    for crate, function in dict.fromkeys(row[:2] for row in rows):
        those = [row for row in rows if row[:2] == (crate, function)]
        refused = [row for row in those if row[3] == "refused"]
        kinds = [kind_of(row[4]) for row in refused]
        goals = ", ".join(dict.fromkeys(goal_of(row[4]) for row in refused))
        counts = " | ".join(str(kinds.count(kind)) for kind in ("values", "search", "written"))
        print(f"| `{crate}` | `{function}` | {len(those)} | {len(refused)} | {counts} | {goals} |")


def main(words):
    only_table = "--table" in words
    names = [word for word in words if word != "--table"]
    crates = names or all_crates()
    if only_table:
        table(crates)
        return 0
    said, rows, left = tried(crates), [], 0
    for crate in crates:
        for name, (_, function) in edits_of(crate).items():
            how, error = ended(said.get((crate, name), ": BAD: rt said nothing of it"))
            left += how != "refused"
            rows.append((crate, function, name[: -len(".edit")], how, error.replace("\t", " ")))
            print(f"{how:8} {crate} {function} {name}: {error}")
    write_found(crates, rows)
    print(f"{len(rows)} planted, {len(rows) - left} refused for a fact, {left} not")
    return 1 if left else 0


if __name__ == "__main__":
    sys.exit(main(sys.argv[1:]))
