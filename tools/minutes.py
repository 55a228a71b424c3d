#!/usr/bin/env python3
"""Runs a command and prints the processor seconds that the toolchain spent on each crate for it.

tools/minutes.py COMMAND..    for instance: tools/minutes.py rt ci --anew

It looks at the processes below the command twice a second, so that a process loses up to half a second, and one that is
shorter may be missed.
"""

import os
import subprocess
import sys
import time

TICK = os.sysconf("SC_CLK_TCK")


def processes():
    """Of each process its parent, its start, the processor seconds of it and of its children that have ended, and its words."""
    found = {}
    for name in filter(str.isdigit, os.listdir("/proc")):
        try:
            with open(f"/proc/{name}/cmdline", encoding="utf-8", errors="replace") as it:
                words = it.read().split("\0")
            with open(f"/proc/{name}/stat", encoding="utf-8") as it:
                fields = it.read().rsplit(")", 1)[1].split()
        except OSError:
            continue
        found[name] = fields[1], fields[19], sum(int(fields[k]) for k in (11, 12, 13, 14)) / TICK, words
    return found


def is_below(found, name, top):
    """Whether a process is below another."""
    while name in found and name != top:
        name = found[name][0]
    return name == top


def seen(top):
    """Crate, whether it is an edit, and the processor seconds so far, of each process of the toolchain below the command."""
    found, here = processes(), {}
    for name, (parent, start, seconds, words) in found.items():
        is_tool = words[0].endswith("/rattle") and "--crate-name" in words
        # a forked copy counts when it has ended, as its parent's child
        if not is_tool or not is_below(found, name, top) or "--crate-name" in found.get(parent, ("", "", 0, []))[3]:
            continue
        try:
            is_edit = "/rt-edit-" in os.readlink(f"/proc/{name}/cwd")
        except OSError:
            continue
        here[name, start] = words[words.index("--crate-name") + 1], is_edit, seconds
    return here


def main(words):
    spent = {}
    command = subprocess.Popen(words)
    while command.poll() is None:
        spent.update(seen(str(command.pid)))
        time.sleep(0.5)
    crates = {}
    for crate, is_edit, seconds in spent.values():
        crates.setdefault(crate, [0, 0])[is_edit] += seconds
    print("| Crate | Proofs and programs | Edits |")
    print("|---|---|---|")
    for crate, (proofs, edits) in sorted(crates.items(), key=lambda it: -sum(it[1])):
        print(f"| `{crate}` | {proofs:.0f} | {edits:.0f} |")
    totals = [sum(it[k] for it in crates.values()) for k in (0, 1)]
    print(f"| all | {totals[0]:.0f} | {totals[1]:.0f} |")
    return command.returncode


if __name__ == "__main__":
    sys.exit(main(sys.argv[1:]))
